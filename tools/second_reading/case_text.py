"""The text in which the gate's programs are given their cases: a line asks for something, and some lines build a sheet.

The format is described at the head of crates/gate_cases/src/main.rt and of the programs beside it.
"""

import re
from collections.abc import Iterator
from dataclasses import dataclass, field

MOST_BYTES = 33_824


@dataclass(frozen=True)
class Line:
    """A line: its first word, the numbers in it, and the line itself."""

    word: str
    numbers: list[int]
    text: bytes


def lines(text: bytes) -> Iterator[Line]:
    """The lines that say something."""
    for line in text.split(b"\n"):
        if len(line) > 1:
            numbers = [int(digits) for digits in re.findall(rb"[0-9]+", line)]
            yield Line(line.split(b" ")[0].decode(), numbers, line)


@dataclass
class Builder:
    """The sheet under hand, as bytes."""

    data: bytearray = field(default_factory=bytearray)

    def follow(self, line: Line) -> None:
        """What a line builds; one that builds nothing leaves the sheet as it is."""
        if line.word == "case":
            self.data = bytearray()
        elif line.word == "slots":
            self.data = bytearray([len(line.numbers), 1, *bytes(6)]) + bytes(line.numbers).ljust(16, b"\0")
        elif line.word == "ban":
            self.ban(*line.numbers)
        elif line.word == "each":
            lower, first, last, higher, slot = line.numbers
            for each in range(first, last + 1):
                self.ban(lower, each, higher, slot)
        elif line.word == "hex":
            self.add(bytes.fromhex(line.text[4:].decode()))
        elif line.word == "zeros":
            self.add(bytes(line.numbers[0]))

    def add(self, more: bytes) -> None:
        """More bytes, if there is room."""
        if len(self.data) + len(more) <= MOST_BYTES:
            self.data += more

    def ban(self, lower: int, slot: int, higher: int, other: int) -> None:
        """One more record at the end of the chain: a slot of one scanner with a slot of another."""
        number = ((len(self.data) - 24) // 8 + 1).to_bytes(2, "little")
        link = 2 if len(self.data) == 24 else len(self.data) - 4
        self.data[link : link + 2] = number
        self.data[4:6] = number
        self.data += bytes([lower, higher, slot, other, 0, 0, 0, 0])
