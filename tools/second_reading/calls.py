"""The calls on a rail: start, delivery, run, pick, and what a verdict leaves."""

from dataclasses import dataclass

from .rail import PLACES, TOP, Line, Rail, Scanner, in_shape, lines_of
from .refusals import EMPTY, NUMBERS, ROOM, RULE, SHAPE, VERDICT, Refused
from .scanner import Turn
from .sheet import read

MOST_ROUNDS = 1_000_000


def start(data: bytes, rule: int) -> Rail:
    """"The start looks at the rule first, then at the sheet."

    "Two scanners are linked from the start exactly if some ban names both."
    """
    if rule not in (1, 2):
        raise Refused(RULE)
    sheet = read(data)
    scanners = {number: Scanner() for number in sheet.scanners}
    for lower, _, higher, _ in sheet.bans:
        scanners[higher].listens.add(lower)
        scanners[lower].informs.add(higher)
    rail = Rail(sheet.counts, sheet.bans, rule, False, scanners, {})
    for number in sheet.scanners:
        turn = Turn(number, sheet.counts[number - 1], rail.bans, rule, scanners[number])
        turn.start()
        for receiver, message in turn.sent:
            rail.put((number, receiver), message)
    return rail


def deliver(rail: Rail, sender: int, receiver: int) -> None:
    """"A delivery tests 5, 6, 7, 8 and 10 in that order"; it alters the rail where it stands, or raises."""
    if not in_shape(rail):
        raise Refused(SHAPE)
    if not (1 <= sender <= rail.n and 1 <= receiver <= rail.n and sender != receiver):
        raise Refused(NUMBERS)
    deliver_in_shape(rail, (sender, receiver))


def deliver_in_shape(rail: Rail, line: Line) -> None:
    """The delivery on a line of a rail in shape, which every delivery leaves in shape.

    "A delivery takes the head of one line and does this. It needs room: it is refused exactly if a line would come to
    hold more than eight messages."
    """
    if rail.verdict:
        raise Refused(VERDICT)
    waiting = rail.lines.get(line)
    if not waiting:
        raise Refused(EMPTY)
    turn = worked(rail, line)
    if not has_room(rail, turn):
        raise Refused(ROOM)
    rail.lines[line] = waiting[1:]
    rail.scanners[turn.number] = turn.scanner
    rail.verdict = turn.verdict
    for other, message in turn.sent:
        rail.put((turn.number, other), message)


def worked(rail: Rail, line: Line) -> Turn:
    """The receiver of a line, with its head worked; the rail stays as it is."""
    sender, receiver = line
    turn = Turn(receiver, rail.counts[receiver - 1], rail.bans, rail.rule, rail.scanners[receiver].copy())
    turn.receive(sender, rail.lines[line][0])
    return turn


def has_room(rail: Rail, turn: Turn) -> bool:
    """Whether no line "would come to hold more than eight messages"."""
    held: dict[int, int] = {}
    for other, _ in turn.sent:
        if other not in held:
            held[other] = len(rail.lines.get((turn.number, other), ()))
        held[other] += 1
    return all(many <= PLACES for many in held.values())


def run(rail: Rail, rounds: int) -> tuple[str, int]:
    """The run: the word, and "the full rounds made". "0 to 1,000,000, and more is taken as 1,000,000." "The run refuses
    only with 5"; "on a rail with a verdict it returns `none` and zero rounds".

    ""`none` for the verdict, `plan` for nothing waiting, `jammed` where a whole round delivered nothing while something
    waits, else `open`."
    """
    if not in_shape(rail):
        raise Refused(SHAPE)
    full = 0
    for _ in range(min(rounds, MOST_ROUNDS)):
        if rail.verdict or not rail.waiting():
            break
        delivered, whole = make_round(rail)
        full += whole
        if not delivered:
            return "jammed", full
    if rail.verdict:
        return "none", full
    return ("open" if rail.waiting() else "plan"), full


def make_round(rail: Rail) -> tuple[int, bool]:
    """"In a round it visits the lines by sender, then receiver, upward, and delivers as many messages of a line as the
    line held when the round began. A line that is refused with 10 is passed over for the rest of that round, and the
    round goes on with the next line. A verdict stops the run at once."

    Gives how many it delivered, and whether it "delivered all that waited at their start".
    """
    held = [(line, len(rail.lines[line])) for line in rail.waiting()]
    delivered = 0
    for line, many in held:
        for _ in range(many):
            try:
                deliver_in_shape(rail, line)
            except Refused as refused:
                if refused.number == ROOM:
                    break
                raise
            delivered += 1
            if rail.verdict:
                return delivered, delivered == sum(many for _, many in held)
    return delivered, delivered == sum(many for _, many in held)


@dataclass
class Dispatcher:
    """"It holds the rail, its count of picks and the place, which is the line that it served last in going round." """

    rail: Rail
    count: int = 0
    place: Line = (0, 0)

    def pick(self, wish: Line) -> Line:
        """"5 comes first, then 7 for a verdict. When no line can be delivered: 8 with nothing waiting, 10 otherwise. A
        refused pick leaves rail, count and place as they were." Gives the line that it served.
        """
        if not in_shape(self.rail):
            raise Refused(SHAPE)
        if self.rail.verdict:
            raise Refused(VERDICT)
        if self.is_odd() and wish in lines_of(self.rail.n) and self.can_deliver(wish):
            self.serve(wish)
            return wish
        for line in self.round():
            if self.can_deliver(line):
                self.serve(line)
                self.place = line
                return line
        raise Refused(ROOM if self.rail.waiting() else EMPTY)

    def is_odd(self) -> bool:
        """"The pick about to be made has the number behind the count, and is odd or even by that"; "at its top it stays
        and every pick is even".
        """
        return self.count < TOP and (self.count + 1) % 2 == 1

    def round(self) -> list[Line]:
        """"Even picks go round the lines in order from the one after the last they served, at first from 1 to 2"; "the
        line they served last comes last". "A stored place that is no line means the start; that is judged by the rail's
        own n."
        """
        lines = lines_of(self.rail.n)
        if self.place not in lines:
            return lines
        after = lines.index(self.place) + 1
        return lines[after:] + lines[:after]

    def can_deliver(self, line: Line) -> bool:
        """Passing "lines that are empty or without room"."""
        return bool(self.rail.lines.get(line)) and has_room(self.rail, worked(self.rail, line))

    def serve(self, line: Line) -> None:
        """One delivery, and one more in the count, which "equals the deliveries it made"."""
        deliver_in_shape(self.rail, line)
        self.count = min(self.count + 1, TOP)
