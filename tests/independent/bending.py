"""Rails with one thing of which the shape does not approve; each bend breaks one sentence, where the rail lets it."""

from collections.abc import Callable
from random import Random

from second_reading.rail import Message, News, Rail, Refusal, Request
from second_reading.sheet import MOST_SCANNERS, MOST_SLOTS


def bent(random: Random, rail: Rail) -> Rail:
    """The rail with a bend or two."""
    for _ in range(random.choice((1, 1, 1, 2))):
        random.choice(BENDS)(random, rail)
    return rail


def scanner_of(random: Random, rail: Rail) -> int:
    """Some scanner."""
    return random.randint(1, rail.n)


def slot_not_owned(random: Random, rail: Rail) -> None:
    """A scanner holds a slot that it has not, took it last too, or has none."""
    number = scanner_of(random, rail)
    scanner = rail.scanners[number]
    scanner.slot = random.choice((0, rail.counts[number - 1] + 1))
    if random.random() < 0.7:
        scanner.last = scanner.slot


def last_not_held(random: Random, rail: Rail) -> None:
    """The last slot that a scanner took is another than the one held, or not an owned one."""
    number = max(rail.scanners, key=lambda each: (rail.counts[each - 1] > 1, random.random()))
    rail.scanners[number].last = random.randint(0, rail.counts[number - 1] + 1)


def listens_wrongly(random: Random, rail: Rail) -> None:
    """A scanner listens to another one more, or one less, or to one that is not there."""
    rail.scanners[scanner_of(random, rail)].listens ^= {random.randint(1, rail.n + 1)}


def informs_wrongly(random: Random, rail: Rail) -> None:
    """A scanner informs another one more, or one less, or one that is not there."""
    rail.scanners[scanner_of(random, rail)].informs ^= {random.randint(1, rail.n + 1)}


def informed_does_not_listen(random: Random, rail: Rail) -> None:
    """A scanner is informed by one above it to which it does not listen, and whose ban, view and messages it lost."""
    higher = scanner_of(random, rail)
    lower = random.randint(1, higher)
    rail.bans = frozenset(ban for ban in rail.bans if (ban[0], ban[2]) != (lower, higher))
    scanner = rail.scanners[higher]
    scanner.listens.discard(lower)
    scanner.view.pop(lower, None)
    scanner.reasons = {own: left for own, left in scanner.reasons.items() if lower not in left}
    rail.lines.pop((lower, higher), None)
    rail.lines.pop((higher, lower), None)
    if lower < higher:
        rail.scanners[lower].informs.add(higher)


def ban_without_link(random: Random, rail: Rail) -> None:
    """A ban between any two scanners and slots, those just beyond the last ones among them."""
    lower, higher = sorted(random.sample(range(1, MOST_SCANNERS + 1), 2))
    if random.random() < 0.8 and rail.n > 1:
        lower, higher = sorted(random.sample(range(1, rail.n + 1), 2))
    rail.bans |= {(lower, random.randint(1, MOST_SLOTS), higher, random.randint(1, MOST_SLOTS))}


def sees_wrongly(random: Random, rail: Rail) -> None:
    """A view names a scanner that is not listened to, or one that is with a slot that this one has not."""
    number = max(rail.scanners, key=lambda each: (len(rail.scanners[each].listens), random.random()))
    scanner = rail.scanners[number]
    if scanner.listens and random.random() < 0.5:
        other = random.choice(sorted(scanner.listens))
        scanner.view[other] = rail.counts[other - 1] + random.choice((0, 1))
        scanner.reasons = {own: left for own, left in scanner.reasons.items() if other not in left}
    else:
        scanner.view[random.randint(1, rail.n + 1)] = 1


def reason_wrong(random: Random, rail: Rail) -> None:
    """A reason that names any scanner, or one for a slot that is not owned."""
    number = min(rail.scanners, key=lambda each: (rail.counts[each - 1] == MOST_SLOTS, random.random()))
    own = random.randint(1, min(rail.counts[number - 1] + 1, MOST_SLOTS))
    left = {random.randint(1, number): random.randint(1, 2)} if random.random() < 0.6 else {}
    rail.scanners[number].reasons[own] = left


def verdict_other(_: Random, rail: Rail) -> None:
    """A verdict where there was none, or none where there was one."""
    rail.verdict = not rail.verdict


def message_wrong(random: Random, rail: Rail) -> None:
    """Any message on any line, scanners and slots just beyond the last ones among them."""
    one, other = random.randint(1, rail.n), random.randint(1, min(rail.n + 1, MOST_SCANNERS))
    slot, named = random.randint(1, 3), {random.randint(1, rail.n): random.randint(1, 3)}
    messages: tuple[Message, ...] = (News(slot), Request(), Refusal(slot, {}), Refusal(slot, named))
    rail.put((one, other), random.choice(messages))


def refusal_wrong(random: Random, rail: Rail) -> None:
    """A refusal of a slot that the receiver has not, or that names one not above it, or with a slot not owned."""
    pairs = [(higher, lower) for higher, scanner in rail.scanners.items() for lower in scanner.listens]
    if not pairs:
        return
    line = random.choice(pairs)
    receiver = line[1]
    count = rail.counts[receiver - 1]
    above = random.randint(1, receiver)
    wrong = (
        Refusal(random.choice((0, count + 1)), {}),
        Refusal(count, {random.randint(receiver, rail.n): 1}),
        Refusal(count, {above: rail.counts[above - 1] + 1}),
    )
    rail.put(line, random.choice(wrong))


def requests_wrong(random: Random, rail: Rail) -> None:
    """Two requests on a line, or one from a scanner that is informed already."""
    higher = scanner_of(random, rail)
    heard = sorted(rail.scanners[higher].listens)
    if heard:
        lower = random.choice(heard)
        uninformed = higher not in rail.scanners[lower].informs
        for _ in range(2 if uninformed else 1):
            rail.put((higher, lower), Request())


def nine_messages(random: Random, rail: Rail) -> None:
    """A line that holds something holds eight messages, or nine."""
    waiting = rail.waiting()
    if waiting:
        line = random.choice(waiting)
        head = rail.lines[line][0]
        rail.lines[line] += [head] * (random.choice((8, 9)) - len(rail.lines[line]))


def header_wrong(random: Random, rail: Rail) -> None:
    """Another rule, or a scanner with another number of slots, none or nine among them."""
    if random.random() < 0.3:
        rail.rule = random.choice((0, 3, 255))
        return
    number = scanner_of(random, rail)
    count = random.choice((0, 9, max(rail.counts[number - 1] - 1, 1), rail.counts[number - 1] + 1))
    rail.counts = (*rail.counts[: number - 1], count, *rail.counts[number:])


BENDS: tuple[Callable[[Random, Rail], None], ...] = (
    slot_not_owned,
    last_not_held,
    listens_wrongly,
    informs_wrongly,
    informed_does_not_listen,
    ban_without_link,
    sees_wrongly,
    reason_wrong,
    verdict_other,
    message_wrong,
    refusal_wrong,
    refusal_wrong,
    requests_wrong,
    nine_messages,
    header_wrong,
)
