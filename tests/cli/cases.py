"""Command lines of the programs with the status that docs/PROGRAMS.md, 'Exit statuses', gives them."""

from dataclasses import dataclass

from running import EXAMPLES

COMMANDS = {"dock": "settle", "scribe": "text"}
FAULTY = b"slots 2 1 2\nban 1:1 3:1\nbam 2:1 3:2\n"
SAID_OF_FAULTY = b"line 3: not a statement\n"


@dataclass(frozen=True)
class Case:
    """A program's words and standard input, and the wanted status.

    `alike` says whether `rail` hands over these words as they are; it does not where it takes one for a file.
    """

    program: str
    words: tuple[str, ...]
    stdin: bytes
    status: int
    alike: bool = True

    @property
    def command(self) -> str:
        """The command of `rail`."""
        return COMMANDS.get(self.program, self.program)


def example(name: str) -> bytes:
    """The bytes of an example."""
    return (EXAMPLES / name).read_bytes()


def stream(*sheets: bytes) -> bytes:
    """Sheets as a stream, each behind its length."""
    return b"".join(len(sheet).to_bytes(2, "little") + sheet for sheet in sheets)


P9, LOOPS, GAPS = example("p9.sheet"), example("chain_loops.sheet"), example("neighbours.sheet")
SMALL = stream(P9, example("no_plan.sheet"), LOOPS)
MANY = stream(*[example("gives_way.sheet")] * 2_001)


def case(program: str, words: str, status: int, stdin: bytes = b"", alike: bool = True) -> Case:
    """A case, with its words in one string."""
    return Case(program, tuple(words.split()), stdin, status, alike)


CASES = (
    case("dock", "", 0, P9),
    case("dock", "any words", 0, P9, alike=False),
    case("dock", "", 0, example("no_plan.sheet")),
    case("dock", "", 0, example("stuck.sheet")),
    case("dock", "", 1),
    case("dock", "", 1, LOOPS),
    case("dock", "", 1, P9 + b"\n"),
    case("board", "p9.sheet", 0),
    case("board", "p9.sheet r1 3-2 w2-1 r9 1-1 1-2 w1-2", 0),
    case("board", "--rule 2 quiet.sheet r1 r1 r1", 0),
    case("board", "--image p9.image r3", 0),
    case("board", "no_plan.sheet r5 1-2", 0),
    case("board", "--rule 3 absent", 1),
    case("board", "chain_loops.sheet r1 x", 1),
    case("board", "--image p9.sheet", 1),
    case("board", "", 2),
    case("board", "--small p9.sheet", 2),
    case("board", "--rule 1 -h", 2),
    case("board", "absent r1", 2),
    case("board", "p9.sheet r1 x 3-2", 2),
    case("image", "write p9.sheet r2", 0),
    case("image", "write --rule 2 --small p9.sheet r2 1-1", 0),
    case("image", "move p9.image", 0),
    case("image", "write --rule 3 p9.sheet", 1),
    case("image", "write chain_loops.sheet x", 1),
    case("image", "move p9.sheet", 1),
    case("image", "", 2),
    case("image", "draw p9.sheet", 2),
    case("image", "write", 2),
    case("image", "write --image p9.image", 2),
    case("image", "write absent", 2),
    case("image", "write p9.sheet r1 x", 2),
    case("image", "move --small p9.image", 2),
    case("image", "move p9.image p9.image", 2),
    case("little", "0", 0),
    case("little", "0004995", 0),
    case("little", "4996", 1),
    case("little", "", 2),
    case("little", "-1", 2),
    case("little", "7 8", 2),
    case("season", "", 0),
    case("season", "", 0, SMALL),
    case("season", "", 0, SMALL[:-1]),
    case("season", "--progress", 0, MANY),
    case("season", "--each", 2, SMALL),
    case("season", "--progress --progress", 2, SMALL),
    case("season", "more", 2, SMALL, alike=False),
    case("turn", "bans", 0, GAPS),
    case("turn", "gaps", 0, example("same_slot.sheet")),
    case("turn", "bans", 1, P9),
    case("turn", "gaps", 1, P9),
    case("turn", "gaps", 1, LOOPS),
    case("turn", "", 2),
    case("turn", "ban", 2, GAPS),
    case("turn", "bans more", 2, GAPS, alike=False),
    case("scribe", "sheet", 0, example("p9.text")),
    case("scribe", "text", 0, P9),
    case("scribe", "sheet", 1, FAULTY),
    case("scribe", "sheet", 1),
    case("scribe", "text", 1),
    case("scribe", "text", 1, LOOPS),
    case("scribe", "", 2),
    case("scribe", "sheets", 2, P9),
    case("scribe", "sheet more", 2, P9, alike=False),
)

# The statuses that each program can be given. `dock` ends with 2 where memory runs out, and `season` too.
STATUSES = {"dock": {0, 1}, "little": {0, 1, 2}, "season": {0, 2}}
EVERY = {0, 1, 2}

# What a full disk is tried with: one line of each program that prints or writes bytes, good and refused.
WRITING = (
    case("dock", "", 3, P9),
    case("dock", "", 3),
    case("board", "p9.sheet r9 x", 3),
    case("board", "absent", 3),
    case("image", "write p9.sheet", 3),
    case("image", "move p9.image", 3),
    case("little", "7", 3),
    case("season", "", 3),
    case("season", "--each", 3),
    case("turn", "bans", 3, GAPS),
    case("scribe", "sheet", 3, example("p9.text")),
    case("scribe", "text", 3, P9),
)
