"""Turning one edition into the other."""

from .refusals import NOT_IN_GAPS, Refused
from .sheet import GAP, Sheet, gap_of, read


def ban_sheet(data: bytes) -> Sheet:
    """"A ban sheet has one record for each banned pair of slots, upward by lower scanner, higher scanner, lower slot,
    higher slot." "A sheet of the other edition than the one to be turned fails the header check."
    """
    sheet = read(data, (2,))
    records = sorted((lower, higher, slot, other) for lower, slot, higher, other in sheet.bans)
    return Sheet(1, sheet.counts, tuple(records))


def gap_sheet(data: bytes) -> Sheet:
    """"A gap sheet has, for each two scanners in that order, one record for each unbroken run of banned gaps, upward."

    "Then comes 15, not sayable in gaps."
    """
    sheet = read(data, (1,))
    if not sayable(sheet):
        raise Refused(NOT_IN_GAPS)
    records = [
        (lower, higher, *run)
        for lower in sheet.scanners
        for higher in sheet.scanners
        if lower < higher
        for run in runs(sheet, lower, higher)
    ]
    return Sheet(2, sheet.counts, tuple(records))


def sayable(sheet: Sheet) -> bool:
    """"A good sheet is not sayable in gaps exactly when two scanners have two owned pairs of slots with equal gap, one
    banned and one free."
    """
    in_gaps = Sheet(2, sheet.counts, tuple((a, b, gap, gap) for a, b, gap in banned_gaps(sheet)))
    return in_gaps.bans == sheet.bans


def banned_gaps(sheet: Sheet) -> set[tuple[int, int, int]]:
    """"A gap is banned where a pair of owned slots that has it is banned." The lower scanner, the higher, the gap."""
    return {(lower, higher, gap_of(slot, other)) for lower, slot, higher, other in sheet.bans}


def runs(sheet: Sheet, lower: int, higher: int) -> list[tuple[int, int]]:
    """"One record for each unbroken run of banned gaps, upward, taken as long as it goes." """
    banned = banned_gaps(sheet)
    found: list[tuple[int, int]] = []
    for gap in range(-GAP, GAP + 1):
        if (lower, higher, gap) not in banned:
            continue
        if found and found[-1][1] == gap - 1:
            found[-1] = (found[-1][0], gap)
        else:
            found.append((gap, gap))
    return found
