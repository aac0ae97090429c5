"""The rail: scanners, lines, messages; and the shape that every call looks for first."""

from dataclasses import dataclass, field

from .sheet import MOST_SCANNERS, MOST_SLOTS, Ban

PLACES = 8
TOP = 2**64 - 1
SORTS = 3

Line = tuple[int, int]
# The slots of some scanners.
LeftSide = dict[int, int]


@dataclass(frozen=True, slots=True)
class News:
    """"News (the sender's slot)." """

    slot: int


@dataclass(frozen=True, slots=True)
class Refusal:
    """"A refusal (slots of some scanners, the left side, and one slot that the receiver must not take)." """

    slot: int
    left: LeftSide


@dataclass(frozen=True, slots=True)
class Request:
    """"A link request." """


Message = News | Refusal | Request
# The sorts in the order of the counts: "news, refusals, requests".
SORT_OF = {News: 0, Refusal: 1, Request: 2}


@dataclass(slots=True)
class Scanner:
    """"A scanner holds its slot; the last slot that it took, under either rule; the scanners above it that it listens
    to; those below it that it informs; its view (a slot or unknown for each it listens to); for each own slot at most
    one stored reason, which is the left side of a refusal; and six counts."

    No slot is 0. A scanner that the view does not name is unknown.
    """

    slot: int = 0
    last: int = 0
    listens: set[int] = field(default_factory=set)
    informs: set[int] = field(default_factory=set)
    view: dict[int, int] = field(default_factory=dict)
    reasons: dict[int, LeftSide] = field(default_factory=dict)
    sent: list[int] = field(default_factory=lambda: [0] * SORTS)
    received: list[int] = field(default_factory=lambda: [0] * SORTS)

    def copy(self) -> "Scanner":
        """The same scanner, to be changed apart. A left side is never changed where it stands."""
        return Scanner(
            self.slot,
            self.last,
            set(self.listens),
            set(self.informs),
            dict(self.view),
            dict(self.reasons),
            list(self.sent),
            list(self.received),
        )


@dataclass(slots=True)
class Rail:
    """"The rail holds a rule, 1 or 2." A line that the dictionary does not name is empty."""

    counts: tuple[int, ...]
    bans: frozenset[Ban]
    rule: int
    verdict: bool
    scanners: dict[int, Scanner]
    lines: dict[Line, list[Message]]

    @property
    def n(self) -> int:
        """How many scanners there are."""
        return len(self.counts)

    def owns(self, scanner: int, slot: int) -> bool:
        """"Scanner i has the slots 1 to d_i." """
        return 1 <= scanner <= self.n and 1 <= slot <= self.counts[scanner - 1]

    def waiting(self) -> list[Line]:
        """The lines on which something waits, "by sender, then receiver, upward"."""
        return sorted(line for line, messages in self.lines.items() if messages)

    def put(self, line: Line, message: Message) -> None:
        """Puts a message at the end of a line: "first in first out"."""
        self.lines.setdefault(line, []).append(message)


def lines_of(n: int) -> list[Line]:
    """"For each ordered pair of different scanners there is a line": by sender, then receiver, upward."""
    return [(a, b) for a in range(1, n + 1) for b in range(1, n + 1) if a != b]


def counted(count: int) -> int:
    """"A count that would pass the greatest number of 64 bits, 2^64 - 1, is that number, and stays there." """
    return min(count + 1, TOP)


def in_shape(rail: Rail) -> bool:
    """The paragraph of docs/RULES.md that begins "The shape"."""
    return (
        1 <= rail.n <= MOST_SCANNERS
        and all(1 <= count <= MOST_SLOTS for count in rail.counts)
        and all(ban_is_good(rail, ban) for ban in rail.bans)
        and rail.rule in (1, 2)
        and all(scanner_is_good(rail, number) for number in range(1, rail.n + 1))
        and all(line_is_good(rail, line, messages) for line, messages in rail.lines.items())
    )


def ban_is_good(rail: Rail, ban: Ban) -> bool:
    """"Bans are only between owned slots"; "banned pairs listen and inform". """
    lower, slot, higher, other = ban
    return (
        lower < higher
        and rail.owns(lower, slot)
        and rail.owns(higher, other)
        and lower in rail.scanners[higher].listens
        and higher in rail.scanners[lower].informs
    )


def scanner_is_good(rail: Rail, number: int) -> bool:
    """"Every scanner holds an owned slot; only under a verdict may it have none. The last slot that a scanner took is
    an owned one, and the one held if it holds any. It listens only upward and informs only downward; whoever is
    informed listens. A view names only scanners listened to, with slots they own. A stored reason names only scanners
    whose slot in the view is the same."
    """
    scanner = rail.scanners[number]
    if scanner.slot:
        slot_is_good = rail.owns(number, scanner.slot) and scanner.last == scanner.slot
    else:
        slot_is_good = rail.verdict
    return (
        slot_is_good
        and rail.owns(number, scanner.last)
        and all(1 <= other < number for other in scanner.listens)
        and all(number < other <= rail.n and number in rail.scanners[other].listens for other in scanner.informs)
        and all(other in scanner.listens and rail.owns(other, slot) for other, slot in scanner.view.items())
        and all(
            rail.owns(number, own) and all(scanner.view.get(other) == slot for other, slot in left.items())
            for own, left in scanner.reasons.items()
        )
    )


def line_is_good(rail: Rail, line: Line, messages: list[Message]) -> bool:
    """"A line holds at most eight messages, all in its direction, with owned slots"; "at most one request waits on a
    line".
    """
    sender, receiver = line
    ends = 1 <= sender <= rail.n and 1 <= receiver <= rail.n and sender != receiver
    return not messages or (
        ends
        and len(messages) <= PLACES
        and sum(isinstance(message, Request) for message in messages) <= 1
        and all(message_is_good(rail, sender, receiver, message) for message in messages)
    )


def message_is_good(rail: Rail, sender: int, receiver: int, message: Message) -> bool:
    """"News runs from lower to higher number, the other two from higher to lower."

    "The receiver of news listens to its sender, the sender of a refusal or request listens to the receiver, and a
    refusal's left side names only scanners above the receiver; no request waits from a scanner that its receiver
    informs already."
    """
    if isinstance(message, News):
        return sender < receiver and rail.owns(sender, message.slot) and sender in rail.scanners[receiver].listens
    if sender < receiver or receiver not in rail.scanners[sender].listens:
        return False
    if isinstance(message, Request):
        return sender not in rail.scanners[receiver].informs
    return rail.owns(receiver, message.slot) and all(
        other < receiver and rail.owns(other, slot) for other, slot in message.left.items()
    )
