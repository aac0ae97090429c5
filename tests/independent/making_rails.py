"""Random lists of calls, and rails that no start leads to."""

from random import Random

from second_reading import calls
from second_reading.rail import TOP, Message, News, Rail, Refusal, Request, Scanner, lines_of
from second_reading.refusals import Refused
from second_reading.sheet import Ban

WRONG_CALLS = tuple(b"x|r|r-1|1-|-1|1-2-3|w1|256-1|w1-256|R1|1 -2|--rule|1-2x|".split(b"|"))


def wild_call(random: Random) -> bytes:
    """A call made with no thought of the rail, at times no call at all."""
    dice = random.random()
    if dice < 0.06:
        return random.choice(WRONG_CALLS)
    if dice < 0.35:
        return b"r" + random.choice((b"0", b"1", b"1", b"1", b"2", b"3", b"5", b"007", b"20"))
    one, other = (random.choice((0, 1, 1, 2, 2, 2, 3, 3, 4, 5, 12, 13, 255)) for _ in range(2))
    zeros = random.choice(("", "", "", "00"))
    return f"{random.choice(('', 'w'))}{zeros}{one}-{other}".encode()


def wild_calls(random: Random, most: int = 12) -> list[bytes]:
    """Some of these."""
    return [wild_call(random) for _ in range(random.randint(0, most))]


def run_and_picks(random: Random) -> list[bytes]:
    """A run of some rounds, picks and deliveries on the rail that it leaves, and a run again."""
    made = [f"r{random.randint(0, 60)}".encode()]
    for _ in range(random.randint(1, 10)):
        one, other = random.randint(1, 6), random.randint(1, 6)
        made.append(f"{random.choice(('', 'w', 'w'))}{one}-{other}".encode())
    return [*made, f"r{random.randint(0, 60)}".encode()]


def starving_calls(random: Random, rail: Rail, most: int = 150) -> list[bytes]:
    """Deliveries and picks that leave some lines alone until there is no room, then a few on those lines, then a run.
    """
    lines = lines_of(rail.n)
    starved = starved_lines(random, rail.n)
    made: list[bytes] = []
    refused = 0
    for _ in range(random.randint(1, most)):
        waiting = [line for line in rail.waiting() if line not in starved]
        if not waiting or refused > 3 or rail.verdict:
            break
        sender, receiver = random.choice(waiting)
        made.append(f"{sender}-{receiver}".encode())
        try:
            calls.deliver(rail, sender, receiver)
        except Refused:
            refused += 1
    wish = random.choice(lines) if lines else (1, 1)
    made += [f"{random.choice(('', 'w'))}{a}-{b}".encode() for a, b in sorted(starved)]
    made += [f"w{wish[0]}-{wish[1]}".encode()] * random.randint(0, 8)
    made.append(random.choice((b"r0", b"r1", b"r2", b"r40", b"r400")))
    return made


def starved_lines(random: Random, n: int) -> set[tuple[int, int]]:
    """A few lines, or all but those between two scanners, which then refuse and resend with no end."""
    lines = lines_of(n)
    if n < 3 or random.random() < 0.4:
        return set(random.sample(lines, random.randint(0, min(len(lines), 4))))
    pair = random.choice(({2, 3}, set(random.sample(range(1, n + 1), 2))))
    return {line for line in lines if set(line) != pair}


def forged(random: Random) -> Rail:
    """A rail in shape that chance made: views, reasons, counts and messages that no start leads to."""
    n = random.choice((1, 2, 2, 3, 3, 3, 4, 5, 12))
    most_slots = random.choice((1, 2, 3, 8))
    counts = tuple(random.randint(1, most_slots) for _ in range(n))
    scanners = {number: Scanner() for number in range(1, n + 1)}
    bans = forged_bans(random, counts, scanners)
    rail = Rail(counts, bans, random.choice((1, 2)), random.random() < 0.1, scanners, {})
    for number in scanners:
        forge_scanner(random, rail, number)
    for line in lines_of(n):
        forge_line(random, rail, line)
    return rail


def forged_bans(random: Random, counts: tuple[int, ...], scanners: dict[int, Scanner]) -> frozenset[Ban]:
    """Some bans, the links that they ask for, and links beyond these."""
    bans = set()
    banned = random.choice((0.1, 0.4, 0.8))
    for higher in range(2, len(counts) + 1):
        for lower in range(1, higher):
            link = random.choice(("bans", "bans", "both", "listens", "none"))
            if link == "none":
                continue
            scanners[higher].listens.add(lower)
            if link != "listens":
                scanners[lower].informs.add(higher)
            if link == "bans":
                bans |= {
                    (lower, slot, higher, other)
                    for slot in range(1, counts[lower - 1] + 1)
                    for other in range(1, counts[higher - 1] + 1)
                    if random.random() < banned
                }
    return frozenset(bans)


def forge_scanner(random: Random, rail: Rail, number: int) -> None:
    """Some slot, view, reasons and counts."""
    scanner = rail.scanners[number]
    scanner.last = scanner.slot = random.randint(1, rail.counts[number - 1])
    if rail.verdict and random.random() < 0.5:
        scanner.slot = 0
    for other in scanner.listens:
        if random.random() < 0.7:
            scanner.view[other] = random.randint(1, rail.counts[other - 1])
    for own in range(1, rail.counts[number - 1] + 1):
        if random.random() < 0.3:
            scanner.reasons[own] = {other: slot for other, slot in scanner.view.items() if random.random() < 0.5}
    for figures in (scanner.sent, scanner.received):
        figures[:] = [random.choice((0, 0, 1, 255, 2**32, TOP - 1, TOP)) for _ in figures]


def forge_line(random: Random, rail: Rail, line: tuple[int, int]) -> None:
    """Some messages that may wait on a line."""
    sender, receiver = line
    lower, higher = min(line), max(line)
    if lower not in rail.scanners[higher].listens:
        return
    for _ in range(random.choice((0, 0, 1, 1, 2, 7, 8))):
        if sender < receiver:
            rail.put(line, News(random.randint(1, rail.counts[sender - 1])))
        else:
            rail.put(line, forged_upward(random, rail, line))


def forged_upward(random: Random, rail: Rail, line: tuple[int, int]) -> Message:
    """A refusal, or a link request where one may wait."""
    sender, receiver = line
    requested = any(isinstance(message, Request) for message in rail.lines.get(line, ()))
    if not requested and sender not in rail.scanners[receiver].informs and random.random() < 0.4:
        return Request()
    held = rail.scanners[receiver].slot
    slot = held if held and random.random() < 0.7 else random.randint(1, rail.counts[receiver - 1])
    view = rail.scanners[receiver].view
    left = {}
    for other in range(1, receiver):
        if random.random() < 0.4:
            seen = view.get(other) if random.random() < 0.8 else None
            left[other] = seen or random.randint(1, rail.counts[other - 1])
    return Refusal(slot, left)
