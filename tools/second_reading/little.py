"""All the little sheets, by ordinal."""

from itertools import product

from .refusals import ORDINAL, Refused
from .sheet import Ban, Sheet


def sheet_of(ordinal: int) -> Sheet:
    """"They stand in order: first by n; then by the slot counts, read as digits, scanner 1 first; then by the set of
    bans, read as a binary number." "There are two rejections: 14, an ordinal above 4,995." """
    for n in (1, 2, 3):
        for counts in product((1, 2), repeat=n):
            pairs = pairs_of(counts)
            if ordinal < 1 << len(pairs):
                records = [pair for bit, pair in enumerate(pairs) if ordinal >> bit & 1]
                return Sheet(1, counts, tuple((a, b, slot, other) for a, slot, b, other in records))
            ordinal -= 1 << len(pairs)
    raise Refused(ORDINAL)


def pairs_of(counts: tuple[int, ...]) -> list[Ban]:
    """"A pair of slots that could be banned has a bit in this number, from the lowest bit up: by the two scanners, 1
    with 2, then 1 with 3, then 2 with 3; for the same scanners by the lower's slot, then the higher's. Records and
    chain run in that bit order."
    """
    return [
        (lower, slot, higher, other)
        for lower, higher in ((1, 2), (1, 3), (2, 3))
        if higher <= len(counts)
        for slot in range(1, counts[lower - 1] + 1)
        for other in range(1, counts[higher - 1] + 1)
    ]
