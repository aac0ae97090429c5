"""What crates/gate_crowded has to print: the same rails are drawn, and delivered on and run by this reading."""

from dataclasses import dataclass, field

from .calls import deliver, run, start
from .draws import Draws, following, picked
from .drafts import drawn
from .rail import News, Rail, Refusal, Request, Scanner, in_shape, lines_of
from .refusals import VERDICT, Refused

WORDS = ("none", "plan", "jammed", "open")
REFUSALS = (6, 7, 8, 10)


# ---- forged rails


def slot(draws: Draws, rail: Rail, scanner: int) -> int:
    """One of the scanner's slots."""
    return 1 + draws.pick(rail.counts[scanner - 1])


def slot_or_none(draws: Draws, rail: Rail, scanner: int) -> int:
    """One of the scanner's slots, or 0."""
    return draws.pick(rail.counts[scanner - 1] + 1)


def forged(draws: Draws) -> Rail:
    """A rail in shape with many messages on its lines."""
    n = 2 + draws.pick(4)
    rail = Rail((), frozenset(), 1 + draws.pick(2), False, {i: Scanner() for i in range(1, n + 1)}, {})
    for scanner in range(1, n + 1):
        rail.counts += (1 + draws.pick(5),)
        held = slot(draws, rail, scanner)
        rail.scanners[scanner].slot = rail.scanners[scanner].last = held
    for higher in range(2, n + 1):
        for lower in range(1, higher):
            link(draws, rail, lower, higher)
    for line in lines_of(n):
        fill(draws, rail, line)
    return rail


def link(draws: Draws, rail: Rail, lower: int, higher: int) -> None:
    """The higher scanner may listen to the lower one, which may inform it; only then are there bans."""
    kind = draws.pick(6)
    if kind:
        seen = slot_or_none(draws, rail, lower)
        rail.scanners[higher].listens.add(lower)
        if seen:
            rail.scanners[higher].view[lower] = seen
    if kind > 1:
        rail.scanners[lower].informs.add(higher)
        rail.bans |= {
            (lower, v, higher, w)
            for v in range(1, rail.counts[lower - 1] + 1)
            for w in range(1, rail.counts[higher - 1] + 1)
            if draws.pick(3) == 0
        }


def how_many(draws: Draws) -> int:
    """How many messages are put on a line."""
    return draws.pick(9) if draws.pick(4) == 0 else 8


def fill(draws: Draws, rail: Rail, line: tuple[int, int]) -> None:
    """What waits on a line, eight messages at most."""
    sender, receiver = line
    lower, higher = min(line), max(line)
    if lower not in rail.scanners[higher].listens:
        return
    draws.pick(8)
    if sender < receiver:
        messages = [News(slot(draws, rail, sender)) for _ in range(how_many(draws))]
    else:
        asked = [] if sender in rail.scanners[receiver].informs else [Request()]
        messages = asked + [refusal(draws, rail, receiver) for _ in range(how_many(draws))]
    if messages:
        rail.lines[line] = messages[:8]


def refusal(draws: Draws, rail: Rail, receiver: int) -> Refusal:
    """A refusal of a slot of the receiver, whose left side names scanners above it."""
    refused = slot(draws, rail, receiver) if draws.pick(2) == 0 else rail.scanners[receiver].slot
    left = {k: slot_or_none(draws, rail, k) for k in range(1, receiver)}
    return Refusal(refused, {k: v for k, v in left.items() if v})


# ---- what is tried


@dataclass
class Tally:
    """How many of each kind were tried."""

    rails: int = 0
    accepted: int = 0
    refused: dict[int, int] = field(default_factory=lambda: dict.fromkeys(REFUSALS, 0))
    words: dict[str, int] = field(default_factory=lambda: dict.fromkeys(WORDS, 0))
    rounds: int = 0

    def lines(self, name: str) -> str:
        """The report, as the program prints it where nothing fails."""
        figures = [("rails", self.rails), ("deliveries accepted", self.accepted)]
        figures += [(f"refused {number}:", many) for number, many in self.refused.items()]
        figures += [("runs left open" if word == "open" else f"runs to {word}", many) for word, many in self.words.items()]
        figures += [("full rounds", self.rounds)]
        return "\n".join([name] + [f"{what} {many}" for what, many in figures] + ["0 failed"]) + "\n"


def copied(rail: Rail) -> Rail:
    """The same rail, to be changed apart."""
    return Rail(
        rail.counts,
        rail.bans,
        rail.rule,
        rail.verdict,
        {number: scanner.copy() for number, scanner in rail.scanners.items()},
        {line: list(messages) for line, messages in rail.lines.items()},
    )


ALL_LINES = lines_of(12)


def chosen(rail: Rail, starved: int, state: int) -> tuple[int, int] | None:
    """A line that holds something and does not lead to the starved scanner; one time in eight any two numbers."""
    second = following(state)
    if picked(second, 8) == 0:
        return picked(state, 14), picked(following(second), 14)
    first = picked(state, 132)
    for line in ALL_LINES[first:] + ALL_LINES[:first]:
        if line[1] != starved and rail.lines.get(line):
            return line
    return None


def try_run(tally: Tally, rail: Rail, state: int) -> int:
    """A run of up to three rounds, or one time in two of up to forty."""
    most = 41 if picked(state, 2) == 0 else 4
    word, full = run(rail, picked(following(state), most))
    tally.words[word] += 1
    tally.rounds += full
    return following(following(state))


def try_list(tally: Tally, rail: Rail, state: int, starved: int, most: int) -> int:
    """Up to so many deliveries in random order."""
    for _ in range(most):
        line = chosen(rail, starved, state)
        if line is None:
            break
        over = False
        try:
            deliver(rail, *line)
            tally.accepted += 1
        except Refused as refused:
            tally.refused[refused.number] += 1
            over = refused.number == VERDICT
        state = following(following(following(state)))
        if over:
            break
    return state


def try_rail(tally: Tally, rail: Rail, state: int, starved: int, most: int) -> None:
    """A run, a list of deliveries, and a run again."""
    tally.rails += 1
    state = try_run(tally, copied(rail), state)
    state = try_list(tally, rail, state, starved, most)
    try_run(tally, rail, state)


def try_forged(rails: int) -> str:
    """So many forged rails."""
    tally = Tally()
    draws = Draws(20030139)
    for _ in range(rails):
        rail = forged(draws)
        assert in_shape(rail)
        try_rail(tally, rail, draws.state, 13, 60)
    return tally.lines("forged rails")


def try_starved(sheets: int) -> str:
    """So many random sheets, under both rules, with a scanner that starves."""
    tally = Tally()
    state = 20261127
    for _ in range(sheets):
        sheet, state = drawn(state)
        for rule in (1, 2):
            try:
                rail = start(sheet, rule)
            except Refused:
                continue
            try_rail(tally, rail, state, 1 + picked(state, rail.n), 120)
    return tally.lines("rails with a starved scanner")


def printed() -> bytes:
    """What the program prints where nothing fails."""
    return (try_forged(1000) + try_starved(1000)).encode()
