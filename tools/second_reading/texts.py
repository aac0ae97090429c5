"""Sheets as text."""

import re
from collections.abc import Iterator

from .sheet import GAP, MOST_RECORDS, MOST_SCANNERS, MOST_SLOTS, Record, Sheet

LONGEST = 1_048_576
TOP = 2**64 - 1
Words = list[bytes]


class Fault(Exception):
    """"The first faulty line decides, and on it the first of these that is so." """

    def __init__(self, line: int, said: str) -> None:
        super().__init__(f"line {line}: {said}")
        self.line = line
        self.said = said


class Wrong(Exception):
    """What is wrong on a line."""


def sheet_of(text: bytes) -> Sheet:
    """The sheet that a text gives, or a Fault.

    "Where a text is longer, only the lines that end before the first byte too many are judged; if none of them is
    faulty, the fault is `text too long`, at the line of that byte." "A text with no statement has the fault `slots must
    come first`, at the number of its lines and one."
    """
    too_long = len(text) > LONGEST
    judged = text[: text.rfind(b"\n", 0, LONGEST) + 1] if too_long else text
    reading = Reading()
    lines = lines_of(judged)
    for number, line in enumerate(lines, 1):
        try:
            reading.statement(words_of(line))
        except Wrong as wrong:
            raise Fault(number, str(wrong)) from wrong
    if too_long:
        raise Fault(len(lines) + 1, "text too long")
    if not reading.counts:
        raise Fault(len(lines) + 1, "slots must come first")
    return Sheet(2 if reading.sort == b"gap" else 1, reading.counts, tuple(reading.records))


def lines_of(text: bytes) -> list[bytes]:
    """"A text has as many lines as it has newlines, and one more if bytes follow the last newline." """
    lines = text.split(b"\n")
    return lines if lines[-1] else lines[:-1]


def words_of(line: bytes) -> Words:
    """"One carriage return at the end of a line is dropped, then everything from the first `#` on. Blanks and tabs
    separate words."
    """
    said = line.removesuffix(b"\r").split(b"#", 1)[0]
    return [word for word in re.split(rb"[ \t]", said) if word]


class Reading:
    """What a text has said up to some line. `sort` is the word of its records, empty before the first."""

    def __init__(self) -> None:
        self.counts: tuple[int, ...] = ()
        self.sort = b""
        self.records: list[Record] = []

    def statement(self, words: Words) -> None:
        """Takes a line's statement, or says what is wrong. "A line without words says nothing." """
        if not words:
            return
        if words[0] == b"slots":
            self.slots([number(word) for word in words[1:]])
        elif words[0] == b"ban" and len(words) == 3:
            self.ban(place(words[1]), place(words[2]))
        elif words[0] == b"gap" and len(words) == 5:
            self.gap(number(words[1]), number(words[2]), signed(words[3]), signed(words[4]))
        else:
            raise Wrong("not a statement")

    def slots(self, counts: list[int]) -> None:
        """"`slots` stands once, before all other statements." """
        require(not self.counts, "slots twice")
        require(1 <= len(counts) <= MOST_SCANNERS, "1 to 12 scanners")
        require(all(1 <= count <= MOST_SLOTS for count in counts), "a slot count is 1 to 8")
        self.counts = tuple(counts)

    def ban(self, one: tuple[int, int], other: tuple[int, int]) -> None:
        """"Scanner A at slot S is banned with scanner B at slot T, either scanner first"; "the record of a ban has the
        lower-numbered scanner first, and its slot with it".
        """
        self.begin(b"ban", one[0], other[0])
        for scanner, slot in (one, other):
            require(1 <= slot <= self.counts[scanner - 1], f"scanner {scanner} has no slot {slot}")
        (lower, slot), (higher, another) = sorted((one, other))
        self.record((lower, higher, slot, another))

    def gap(self, lower: int, higher: int, least: int, greatest: int) -> None:
        """"Of scanners A and B, A the lower-numbered, every pair of owned slots is banned whose gap lies from LEAST to
        GREATEST."
        """
        self.begin(b"gap", lower, higher)
        require(lower < higher, "the lower-numbered scanner comes first")
        require(-GAP <= least <= GAP and -GAP <= greatest <= GAP, "a gap is -7 to 7")
        require(least <= greatest, "least is above greatest")
        self.record((lower, higher, least, greatest))

    def begin(self, sort: bytes, one: int, other: int) -> None:
        """What a `ban` and a `gap` look for first. "`no scanner K`: A is tested first, then B." """
        require(bool(self.counts), "slots must come first")
        require(self.sort in (b"", sort), "bans and gaps in one text")
        self.sort = sort
        for scanner in (one, other):
            require(1 <= scanner <= len(self.counts), f"no scanner {scanner}")
        require(one != other, "the same scanner twice")

    def record(self, record: Record) -> None:
        """"Records stand in the order of the lines; the same record twice stands twice." """
        require(len(self.records) < MOST_RECORDS, f"more than {MOST_RECORDS} records")
        self.records.append(record)


def require(so: bool, said: str) -> None:
    """Says what is wrong where something is not so."""
    if not so:
        raise Wrong(said)


def number(word: bytes) -> int:
    """"A number is digits, leading zeros allowed, and at most 2^64 - 1." """
    require(re.fullmatch(rb"[0-9]+", word) is not None, "not a statement")
    digits = word.lstrip(b"0")
    require(len(digits) <= 20 and int(digits or b"0") <= TOP, "not a statement")
    return int(digits or b"0")


def signed(word: bytes) -> int:
    """"A signed number is a number with or without one `-` before it, and `-0` is 0." """
    return -number(word[1:]) if word.startswith(b"-") else number(word)


def place(word: bytes) -> tuple[int, int]:
    """"A place `A:S` is two numbers with a colon between them." """
    scanner, colon, slot = word.partition(b":")
    require(bool(colon), "not a statement")
    return number(scanner), number(slot)


def text_of(sheet: Sheet) -> bytes:
    """"`slots` and the slot counts of the n scanners, then a line for each record on the chain, in its order: a `ban`
    in edition 1, a `gap` in edition 2. There are single blanks between the words, and every line ends in a newline."
    """
    lines = ["slots " + " ".join(map(str, sheet.counts)), *statements(sheet)]
    return "".join(line + "\n" for line in lines).encode()


def statements(sheet: Sheet) -> Iterator[str]:
    """The statements of the records."""
    for lower, higher, first, second in sheet.records:
        if sheet.edition == 1:
            yield f"ban {lower}:{first} {higher}:{second}"
        else:
            yield f"gap {lower} {higher} {first} {second}"
