"""The sheet: its bytes, its checks in order, and the problem that it holds."""

from dataclasses import dataclass
from functools import cached_property

from .refusals import CHAIN, HEADER, LENGTH, RECORD, Refused

MOST_SCANNERS = 12
MOST_SLOTS = 8
MOST_RECORDS = 4224
HEADER_BYTES = 24
RECORD_BYTES = 8
GAP = 7

# The lower scanner, its slot, the higher scanner, its slot.
Ban = tuple[int, int, int, int]
# The lower scanner, the higher scanner, and the two fields to which the edition gives their meaning.
Record = tuple[int, int, int, int]


@dataclass(frozen=True)
class Sheet:
    """A sheet that the checks let through: `records` are those on the chain, in its order; gaps are signed."""

    edition: int
    counts: tuple[int, ...]
    records: tuple[Record, ...]

    @property
    def scanners(self) -> range:
        """"There are n scanners, 1 to 12." """
        return range(1, len(self.counts) + 1)

    def slots(self, scanner: int) -> range:
        """"Scanner i has the slots 1 to d_i." """
        return range(1, self.counts[scanner - 1] + 1)

    @cached_property
    def bans(self) -> frozenset[Ban]:
        """"The same ban twice on the chain counts once." """
        return frozenset(ban for record in self.records for ban in self.banned_by(record))

    def banned_by(self, record: Record) -> list[Ban]:
        """"The two fields are the slot of the lower and the slot of the higher; the record bans this pair." (edition 1)

        "The record bans every pair of owned slots whose gap lies from least to greatest, both included." (edition 2)
        """
        lower, higher, first, second = record
        if self.edition == 1:
            return [(lower, first, higher, second)]
        return [
            (lower, slot, higher, other)
            for slot in self.slots(lower)
            for other in self.slots(higher)
            if first <= gap_of(slot, other) <= second
        ]


def gap_of(lower_slot: int, higher_slot: int) -> int:
    """"The gap of a pair of slots is the slot of the higher scanner minus the slot of the lower." """
    return higher_slot - lower_slot


def signed(byte: int) -> int:
    """"They are a least and a greatest gap, as signed bytes." """
    return byte - 256 if byte > 127 else byte


def read(data: bytes, editions: tuple[int, ...] = (1, 2)) -> Sheet:
    """"The checks, in this order, the first fault deciding: a length under 24; the header; the total length; then the
    walk along the chain."

    `editions` are those taken; a sheet of another one has a fault in its header.
    """
    if len(data) < HEADER_BYTES:
        raise Refused(LENGTH)
    if not header_is_good(data, editions):
        raise Refused(HEADER)
    edition, first, many = data[1], two(data, 2), two(data, 4)
    if len(data) != HEADER_BYTES + RECORD_BYTES * many:
        raise Refused(LENGTH)
    counts = tuple(data[8 : 8 + data[0]])
    return Sheet(edition, counts, walk(data, edition, counts, first, many))


def header_is_good(data: bytes, editions: tuple[int, ...]) -> bool:
    """"A header byte outside its range (an edition other than 1 or 2 too), or the first index above m." """
    scanners, many = data[0], two(data, 4)
    counts = data[8:20]
    return (
        1 <= scanners <= MOST_SCANNERS
        and data[1] in editions
        and two(data, 2) <= many <= MOST_RECORDS
        and two(data, 6) == 0
        and all(1 <= count <= MOST_SLOTS for count in counts[:scanners])
        and not any(counts[scanners:])
        and not any(data[20:24])
    )


def walk(data: bytes, edition: int, counts: tuple[int, ...], first: int, many: int) -> tuple[Record, ...]:
    """"The walk along the chain, where at each step a record met before comes first and its fields second."

    "Index 0 ends the chain." "Records off the chain are spare and are not looked at."
    """
    met: set[int] = set()
    records = []
    index = first
    while index:
        if index in met:
            raise Refused(CHAIN)
        met.add(index)
        at = HEADER_BYTES + RECORD_BYTES * (index - 1)
        record = data[at : at + RECORD_BYTES]
        if not record_is_good(record, edition, counts, many):
            raise Refused(RECORD)
        lower, higher, one, other = record[:4]
        records.append((lower, higher, one, other) if edition == 1 else (lower, higher, signed(one), signed(other)))
        index = two(record, 4)
    return tuple(records)


def record_is_good(record: bytes, edition: int, counts: tuple[int, ...], many: int) -> bool:
    """"A record on the chain has a fault where its scanners are not 1 <= lower < higher <= n; in edition 1 where a slot
    is not owned; in edition 2 where a gap lies outside -7 to 7 or the least is above the greatest; where its next index
    is above m, or its last bytes are not zero."
    """
    lower, higher, one, other = record[:4]
    if not 1 <= lower < higher <= len(counts):
        return False
    if two(record, 4) > many or two(record, 6) != 0:
        return False
    if edition == 1:
        return 1 <= one <= counts[lower - 1] and 1 <= other <= counts[higher - 1]
    return -GAP <= signed(one) <= signed(other) <= GAP


def two(data: bytes, at: int) -> int:
    """"Numbers are little-endian." """
    return data[at] | data[at + 1] << 8


def write(sheet: Sheet) -> bytes:
    """"A sheet that is written is chained in record order from 1, with none spare."

    "Where nothing is banned there are no records and the first index is 0."
    """
    many = len(sheet.records)
    header = bytes([len(sheet.counts), sheet.edition])
    header += (1 if many else 0).to_bytes(2, "little") + many.to_bytes(2, "little") + bytes(2)
    header += bytes(sheet.counts).ljust(MOST_SCANNERS, b"\0") + bytes(4)
    records = []
    for number, record in enumerate(sheet.records, 1):
        following = number + 1 if number < many else 0
        records.append(bytes(field & 255 for field in record) + following.to_bytes(2, "little") + bytes(2))
    return header + b"".join(records)
