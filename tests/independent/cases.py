"""The cases: which program is run on what."""

from collections.abc import Callable, Iterator
from dataclasses import dataclass, field
from pathlib import Path
from random import Random

import bending
import making_lines
import making_rails
import making_sheets
import making_texts
from second_reading import calls, image, little, sheet, turning
from second_reading.rail import Rail
from second_reading.refusals import Refused

EXAMPLES = Path(__file__).parents[2] / "examples"
QUICK = 3_000


@dataclass(frozen=True)
class Case:
    """A program, its words, its standard input and the files that it finds."""

    program: str
    words: list[bytes]
    stdin: bytes = b""
    files: dict[bytes, bytes] = field(default_factory=dict)


def example(name: str) -> bytes:
    """The bytes of an example."""
    return (EXAMPLES / name).read_bytes()


def quick(data: bytes) -> bool:
    """Whether a run on a sheet ends soon: one that spins for 100,000 rounds takes long in Python."""
    try:
        return calls.run(calls.start(data, 1), QUICK)[0] != "open"
    except Refused:
        return True


def quick_sheet(random: Random) -> bytes:
    """A sheet, good or damaged, that takes the second reading no longer than a moment."""
    while True:
        dice = random.random()
        if dice < 0.06:
            data = sheet.write(making_sheets.full_lines(random))
        elif dice < 0.12:
            data = making_sheets.stuck_or_spinning(random, [example("stuck.sheet"), example("jams.sheet")])
        else:
            data = making_sheets.either(random)
        if quick(data):
            return data


def dock(random: Random) -> Case:
    """A sheet to be settled."""
    return Case("dock", [], quick_sheet(random))


def board_sheet(random: Random) -> bytes:
    """A sheet to be started."""
    dice = random.random()
    if dice < 0.2:
        return sheet.write(making_sheets.full_lines(random))
    if dice < 0.35:
        names = ("stuck", "spins", "jams")
        return making_sheets.stuck_or_spinning(random, [example(f"{name}.sheet") for name in names])
    return making_sheets.either(random, random.choice((3, 4, 5, 6, 12)))


def some_calls(random: Random, begin: Callable[[], Rail]) -> list[bytes]:
    """Calls for a rail that `begin` makes: wild ones, a run and picks behind it, or ones that fill some lines."""
    dice = random.random()
    if dice < 0.35:
        return making_rails.wild_calls(random)
    if dice < 0.5:
        return making_rails.run_and_picks(random)
    try:
        return making_rails.starving_calls(random, begin(), random.choice((10, 30, 150)))
    except Refused:
        return making_rails.wild_calls(random)


def board(random: Random) -> Case:
    """A sheet, started by either rule, and calls."""
    data, rule = board_sheet(random), random.choice((1, 1, 2))
    words = [b"--rule", str(rule).encode()] if rule == 2 or random.random() < 0.2 else []
    made = some_calls(random, lambda: calls.start(data, rule))
    return Case("board", [*words, b"a.sheet", *made], files={b"a.sheet": data})


def some_image(random: Random) -> bytes:
    """An image of either form: of a rail that a start leads to, of one that chance made, or of no rail in shape."""
    form = random.choice((image.FIRST_FORM, image.SECOND_FORM))
    rail = making_rails.forged(random) if random.random() < 0.6 else led_to(random)
    if random.random() < 0.4:
        rail = bending.bent(random, rail)
    data = image.write(rail, form)
    return damaged_image(random, data) if random.random() < 0.15 else data


def led_to(random: Random) -> Rail:
    """A rail that a start and some rounds lead to."""
    rail = calls.start(making_sheets.chained(random, making_sheets.good(random, 6)), random.choice((1, 2)))
    calls.run(rail, random.choice((0, 1, 2, 3, 9)))
    return rail


def damaged_image(random: Random, data: bytes) -> bytes:
    """An image with a byte changed, too many or missing."""
    dice = random.random()
    if dice < 0.15:
        return data[: random.randint(0, len(data))]
    if dice < 0.3:
        return data + bytes(random.choice((1, 10, 16)))
    changed = bytearray(data)
    begin, end = random.choice(((0, len(data)), (0, 16), (len(data) * 4 // 5, len(data))))
    at = random.randrange(begin, end)
    changed[at] ^= 1 << random.randrange(8)
    return bytes(changed)


def board_image(random: Random) -> Case:
    """An image, taken or not, and calls."""
    data = some_image(random)
    made = some_calls(random, lambda: image.read(data))
    return Case("board", [b"--image", b"a.image", *made], files={b"a.image": data})


def image_move(random: Random) -> Case:
    """An image to be moved to its other form, seldom a sheet."""
    data = some_image(random) if random.random() < 0.97 else making_sheets.either(random)
    return Case("image", [b"move", b"a.image"], files={b"a.image": data})


def image_write(random: Random) -> Case:
    """A sheet and calls, whose rail is written in either form."""
    case = board(random)
    words = [word for word in case.words if random.random() < 0.5 or word not in making_rails.WRONG_CALLS]
    if random.random() < 0.5:
        words.insert(0, b"--small")
    return Case("image", [b"write", *words], files=case.files)


def little_case(random: Random) -> Case:
    """An ordinal, mostly one of a sheet."""
    ordinal = random.choice((random.randint(0, 4995), random.randint(0, 30), random.randint(4990, 5010)))
    return Case("little", [b"0" * random.choice((0, 0, 1, 40)) + str(ordinal).encode()])


def stream(sheets: list[bytes]) -> bytes:
    """Sheets, each behind its length."""
    return b"".join(len(each).to_bytes(2, "little") + each for each in sheets)


def season(random: Random) -> Case:
    """A stream, cut anywhere, or whole."""
    dice = random.random()
    if dice < 0.05:
        some = (b"", bytes(5), sheet.write(little.sheet_of(7)))
        sheets = random.choices(some, k=random.choice((999, 1000, 2001)))
    else:
        sheets = [quick_sheet(random)[:65_535] for _ in range(random.choice((0, 1, 2, 3, 5)))]
    data = stream(sheets)
    if random.random() < 0.6:
        data = data[: random.randint(0, len(data))]
    return Case("season", random.choice(([], [], [b"--progress"])), data)


def turn(random: Random) -> Case:
    """A sheet to be turned, mostly one of the right edition; gap sheets turned there, so that they can be turned back.
    """
    command, edition = random.choice(((b"bans", 2), (b"gaps", 1)))
    if random.random() < 0.1:
        edition = 3 - edition
    if edition == 1 and random.random() < 0.6:
        data = sheet.write(turning.ban_sheet(sheet.write(making_sheets.good(random, edition=2))))
        data = making_sheets.damaged(random, data) if random.random() < 0.2 else data
    else:
        data = making_sheets.either(random, edition=edition)
    return Case("turn", [command], data)


def scribe_sheet(random: Random) -> Case:
    """A text."""
    return Case("scribe", [b"sheet"], making_texts.text(random))


def scribe_text(random: Random) -> Case:
    """A sheet."""
    return Case("scribe", [b"text"], making_sheets.either(random))


def wrong_line(random: Random) -> Case:
    """Any words, for any program."""
    program = random.choice(tuple(making_lines.WORDS))
    files = {
        b"good.sheet": example("p9.sheet"),
        b"good.image": example("p9.image"),
        b"bad.sheet": example("chain_loops.sheet"),
        b"1": example("quiet.sheet"),
    }
    return Case(program, making_lines.line(random, program), random.choice((b"", example("p9.sheet"))), files)


WEIGHTS = {
    dock: 20,
    board: 20,
    board_image: 25,
    image_move: 15,
    image_write: 12,
    little_case: 5,
    season: 6,
    turn: 15,
    scribe_sheet: 25,
    scribe_text: 6,
    wrong_line: 20,
}


def random_cases(random: Random, many: int) -> Iterator[Case]:
    """So many cases, by weight."""
    for make in random.choices(tuple(WEIGHTS), tuple(WEIGHTS.values()), k=many):
        yield make(random)


def fixed_cases() -> Iterator[Case]:
    """Every example, a stream cut at every place, the last little sheets, the full line of docs/RULES.md."""
    for path in sorted(EXAMPLES.glob("*.sheet")):
        yield Case("dock", [], path.read_bytes())
        yield Case("scribe", [b"text"], path.read_bytes())
        for rule in (b"1", b"2"):
            words = [b"--rule", rule, b"a.sheet", b"r1", b"w1-2", b"w2-1", b"r3", b"r1000"]
            yield Case("board", words, files={b"a.sheet": path.read_bytes()})
    for path in sorted(EXAMPLES.glob("*.text")):
        yield Case("scribe", [b"sheet"], path.read_bytes())
    data = stream([example(f"{name}.sheet") for name in ("no_plan", "chain_loops", "gives_way")])
    for size in range(len(data) + 1):
        yield Case("season", [], data[:size])
    for ordinal in (0, 1, 2, 27, 28, 4995, 4996):
        yield Case("little", [str(ordinal).encode()])
    yield from fixed_faults()
    yield from fixed_bends()
    yield from fixed_damages()
    made = [*[b"2-3", b"3-2"] * 7, b"1-2", b"2-4", b"1-2", b"r1", b"r100"]
    yield Case("board", [b"a.sheet", *made], files={b"a.sheet": the_full_line()})


def fixed_faults() -> Iterator[Case]:
    """What chance may leave out: each refusal of each program, the longest texts, the most records, the jam."""
    p9, stuck = example("p9.sheet"), example("stuck.sheet")
    yield Case("board", [b"a", b"0-1", b"4-1", b"2-2", b"1-2", b"r9", b"1-3"], files={b"a": p9})
    yield Case("board", [b"a", b"r9", b"1-2", b"w1-2"], files={b"a": example("no_plan.sheet")})
    for data in (example("p9.image"), p9, b""):
        yield Case("board", [b"--image", b"a"], files={b"a": data})
        yield Case("image", [b"move", b"a"], files={b"a": data})
    for name in ("p9", "same_slot", "neighbours"):
        yield Case("turn", [b"bans"], example(f"{name}.sheet"))
        yield Case("turn", [b"gaps"], example(f"{name}.sheet"))
    refused = (p9[:23], bytes([13]) + p9[1:], p9[:24] + bytes([3]) + p9[25:], p9[:28] + b"\1" + p9[29:])
    for data in refused:
        gaps = data[:1] + b"\2" + data[2:]
        yield Case("dock", [], data)
        yield Case("board", [b"a"], files={b"a": data})
        yield Case("image", [b"write", b"a"], files={b"a": data})
        yield Case("turn", [b"gaps"], data)
        yield Case("turn", [b"bans"], gaps)
        yield Case("scribe", [b"text"], data)
    for rule in (b"0", b"3", b"255"):
        yield Case("board", [b"--rule", rule, b"absent"])
        yield Case("image", [b"write", b"--rule", rule, b"absent"])
    full = b"slots 2 2\n" + b"gap 1 2 0 0\n" * 4224
    long = (full, full + b"gap 2 1 0 0", full + b"gap 1 2 0 0", b"slots 1\n" + bytes(2**20), b"\n" * (2**20 + 1))
    for text in (*long, *faulty_texts()):
        yield Case("scribe", [b"sheet"], text)
    yield Case("season", [b"--progress"], bytes(2) * 2_001)
    yield Case("season", [], bytes(2) * 1_000_000 + bytes(3))
    rounds = str(2**64).encode(), b"9" * 5_000
    yield Case("board", [b"a", b"r21", b"w1-6", b"w1-6", b"r1", *(b"r" + each for each in rounds)], files={b"a": stuck})


def fixed_bends() -> Iterator[Case]:
    """Images of rails of which each bends the shape in one place."""
    random = Random(0)
    for bend in bending.BENDS * 15:
        rail = making_rails.forged(random)
        bend(random, rail)
        data = image.write(rail, random.choice((image.FIRST_FORM, image.SECOND_FORM)))
        yield Case("image", [b"move", b"a"], files={b"a": data})


def fixed_damages() -> Iterator[Case]:
    """A sheet of either edition with each byte changed, to the values at the edges of what a byte may be."""
    for name in ("p9.sheet", "neighbours.sheet"):
        data = example(name)
        for at in range(len(data)):
            for value in (0, 1, 2, 3, 4, 7, 8, 9, 12, 13, 248, 249, 255):
                yield Case("scribe", [b"text"], data[:at] + bytes([value]) + data[at + 1 :])


WRONG_PAIRS = ((0, 3), (3, 0), (3, 3), (2, 2), (2, 1))


def faulty_texts() -> Iterator[bytes]:
    """A text for each fault of a line, with a later fault on the same line where there is one."""
    yield from (b"", b"#", b"slot 9", b"ban 7:7 7:7", b"slots 1\nslots 9")
    yield from (b"slots", b"slots 9 0" + b" 1" * 11, b"slots 1 9")
    yield from (b"slots 1" + end for end in (b"\r# a\n", b"#\r", b" \r", b"\r\r\n", b"\r\n\r", b"\t\r\nx", b"\0"))
    for line in (b"gap 3 3 8 7", b"ban 1:9 3:1", b"ban 2:9 2:1", b"ban 1:9 2:9", b"ban 1:1 2:0"):
        yield b"slots 2 2\nban 2:2 1:1\n" + line
    for line in (b"ban 3:1 1:1", b"gap 1 2 8 7", b"gap 1 2 0 -1", *(b"gap %d %d 8 7" % two for two in WRONG_PAIRS)):
        yield b"slots 2 2\ngap 1 2 -0 0\n" + line


def the_full_line() -> bytes:
    """"Four scanners with slots 1, 8, 1, 1; bans 1:1 with 2:8; 2:1 to 2:7 each with 3:1; 2:1 with 4:1." """
    records = ((1, 2, 1, 8), *((2, 3, slot, 1) for slot in range(1, 8)), (2, 4, 1, 1))
    return sheet.write(sheet.Sheet(1, (1, 8, 1, 1), records))
