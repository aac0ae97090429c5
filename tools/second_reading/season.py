"""A season's figures."""

from collections.abc import Callable
from dataclasses import dataclass, field

from .calls import run, start
from .refusals import Refused

MOST_SHEETS = 1_000_000
ROUNDS = 100_000
WORDS = ("none", "plan", "jammed", "open")


@dataclass
class Figures:
    """The figures of a stream: "`sheets` are the whole ones, `refused` is by number 1 to 4, and `words` are `none`,
    `plan`, `jammed`, `open`." `rounds` are those of `none` and `plan` together, one entry a sheet.
    """

    sheets: int = 0
    refused: list[int] = field(default_factory=lambda: [0] * 4)
    words: list[int] = field(default_factory=lambda: [0] * 4)
    cut: int = 0
    rounds: list[int] = field(default_factory=list)

    def add(self, sheet: bytes) -> None:
        """"Every whole sheet is started by rule 1 and run with 100,000 rounds. A sheet is refused with a number, 1 to
        4, or it ends with a word and its full rounds."
        """
        self.sheets += 1
        try:
            word, rounds = run(start(sheet, 1), ROUNDS)
        except Refused as refused:
            self.refused[refused.number - 1] += 1
            return
        self.words[WORDS.index(word)] += 1
        if word in ("none", "plan"):
            self.rounds.append(rounds)

    def lines(self) -> list[str]:
        """The eight lines. "The fewest and the most of one sheet, their sum, and the mean as sum over count, not
        reduced; with none to count each shows `-` for its figure."
        """
        rounds = self.rounds
        last = [min(rounds), max(rounds), sum(rounds), f"{sum(rounds)}/{len(rounds)}"] if rounds else ["-"] * 4
        return [
            f"sheets {self.sheets}",
            "refused " + " ".join(map(str, self.refused)),
            "words " + " ".join(map(str, self.words)),
            f"cut {self.cut}",
            *(f"{name} {figure}" for name, figure in zip(("fewest", "most", "sum", "mean"), last)),
        ]


def figures(read: Callable[[int], bytes], progress: Callable[[int], None] = lambda sheets: None) -> Figures:
    """"A stream of sheets, each behind its length in two bytes, low byte first." "At most 1,000,000 sheets are read,
    and nothing after them. A last sheet or length that breaks off makes `cut` 1 and is in no other figure."

    `read` gives at most so many bytes, fewer only at the end. `progress` is told "how many sheets it has read, after
    every 1,000".
    """
    found = Figures()
    while found.sheets < MOST_SHEETS:
        length = read(2)
        if not length:
            break
        size = int.from_bytes(length, "little")
        sheet = read(size) if len(length) == 2 else b""
        if len(length) < 2 or len(sheet) < size:
            found.cut = 1
            break
        found.add(sheet)
        if found.sheets % 1000 == 0:
            progress(found.sheets)
    return found
