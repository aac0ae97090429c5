"""What a scanner does: it is handed a message and handed back changed, with what it sends."""

from collections.abc import Callable
from dataclasses import dataclass, field

from .rail import SORT_OF, LeftSide, Message, News, Refusal, Request, Scanner, counted
from .sheet import Ban


@dataclass(slots=True)
class Turn:
    """One scanner at work. `refuser` is the scanner whose refusal is being worked, or 0; `sent` grows in order."""

    number: int
    count: int
    bans: frozenset[Ban]
    rule: int
    scanner: Scanner
    refuser: int = 0
    sent: list[tuple[int, Message]] = field(default_factory=list)
    verdict: bool = False

    def send(self, receiver: int, message: Message) -> None:
        """Sends, and counts "all that it sends, as sent"."""
        sort = SORT_OF[type(message)]
        self.scanner.sent[sort] = counted(self.scanner.sent[sort])
        self.sent.append((receiver, message))

    def banning(self, slot: int) -> list[int]:
        """The known scanners of the view, upward, that ban an own slot. "A scanner that is unknown bans nothing." """
        return [
            other
            for other, held in sorted(self.scanner.view.items())
            if (other, held, self.number, slot) in self.bans
        ]

    def blamed(self, banning: list[int]) -> int:
        """"Where several scanners ban it, the one blamed is the lowest-numbered one that some stored reason names
        already, and only if there is none the lowest-numbered of all. The reasons are read as they stand when that slot
        is tried."
        """
        reasons = self.scanner.reasons.values()
        named = [other for other in banning if any(other in left for left in reasons)]
        return (named or banning)[0]

    def free_slot(self) -> int:
        """"It goes through its own slots upward. A slot with a stored reason is skipped. A slot that is banned against
        a known slot of the view gets the reason "that scanner has that slot"." "The lowest slot that is still free is
        taken; those above it are not tried and get no reason." Gives 0 where no slot is free.
        """
        scanner = self.scanner
        for slot in range(1, self.count + 1):
            if slot in scanner.reasons:
                continue
            banning = self.banning(slot)
            if not banning:
                return slot
            blamed = self.blamed(banning)
            scanner.reasons[slot] = {blamed: scanner.view[blamed]}
        return 0

    def choose(self) -> None:
        """"Where no slot is free, all left sides are joined. If the join is empty, the verdict is "none": the scanner
        is left without a slot, and its reasons and all that this delivery sent before remain. Otherwise the
        highest-numbered scanner in the join gets a refusal: its slot is the one refused, and the rest is the left
        side. The sender sets that scanner to unknown, drops every reason that names it, and chooses again, until a
        slot is taken."
        """
        slot = self.free_slot()
        while not slot:
            joined = self.joined()
            if not joined:
                self.verdict = True
                self.scanner.slot = 0
                return
            self.refuse(joined)
            slot = self.free_slot()
        self.take(slot)

    def joined(self) -> LeftSide:
        """"All left sides are joined." """
        return {other: slot for left in self.scanner.reasons.values() for other, slot in left.items()}

    def refuse(self, joined: LeftSide) -> None:
        """Sends the refusal that a join asks for, and forgets what the refused scanner holds."""
        highest = max(joined)
        rest = {other: slot for other, slot in joined.items() if other != highest}
        self.send(highest, Refusal(joined[highest], rest))
        self.scanner.view.pop(highest, None)
        self.drop(lambda left: highest in left)

    def drop(self, condemned: Callable[[LeftSide], bool]) -> None:
        """Drops the reasons whose left side is condemned."""
        self.scanner.reasons = {own: left for own, left in self.scanner.reasons.items() if not condemned(left)}

    def take(self, slot: int) -> None:
        """"News of it goes to all that it informs, even if the slot is the old one. (That is rule 1.)"

        "Under rule 2 a scanner whose new slot is the last that it took keeps silent; news of any other slot goes to all
        that it informs. The scanner whose refusal is being worked has forgotten the slot and gets the news in any case,
        once"; "it is told though the receiver does not inform it".
        """
        scanner = self.scanner
        told = set(scanner.informs)
        if self.rule == 2:
            if slot == scanner.last:
                told.clear()
            if self.refuser:
                told.add(self.refuser)
        scanner.slot = scanner.last = slot
        for other in sorted(told):
            self.send(other, News(slot))

    def start(self) -> None:
        """"All views are unknown, and each scanner chooses." """
        self.choose()

    def receive(self, sender: int, message: Message) -> None:
        """Works one message, and "counts the message that it is handed, as received"."""
        sort = SORT_OF[type(message)]
        self.scanner.received[sort] = counted(self.scanner.received[sort])
        if isinstance(message, News):
            self.news(sender, message)
        elif isinstance(message, Refusal):
            self.refusal(sender, message)
        else:
            self.request(sender)

    def news(self, sender: int, news: News) -> None:
        """"The view is updated, and reasons that disagree with it are dropped. If the own slot is now banned, it
        chooses; otherwise that is all."
        """
        self.scanner.view[sender] = news.slot
        self.drop(lambda left: left.get(sender, news.slot) != news.slot)
        if self.banning(self.scanner.slot):
            self.choose()

    def refusal(self, sender: int, refusal: Refusal) -> None:
        """"If it holds: the left side is stored as the reason, the slot is cleared, and the scanner chooses. If it does
        not hold: where the refused slot is the own one, news goes to the sender; otherwise nothing."
        """
        scanner = self.scanner
        if refusal.slot != scanner.slot:
            return
        if not self.holds(refusal.left):
            self.send(sender, News(scanner.slot))
            return
        self.link(refusal.left)
        scanner.reasons[scanner.slot] = refusal.left
        scanner.slot = 0
        self.refuser = sender
        self.choose()

    def holds(self, left: LeftSide) -> bool:
        """"Each scanner of the left side that the receiver listens to has that slot in its view; unknown does not
        match."
        """
        scanner = self.scanner
        return all(scanner.view.get(other) == slot for other, slot in left.items() if other in scanner.listens)

    def link(self, left: LeftSide) -> None:
        """"Upward, each scanner of the left side that is not listened to gets a link request, is listened to and has
        its slot put into the view."
        """
        for other, slot in sorted(left.items()):
            if other not in self.scanner.listens:
                self.send(other, Request())
                self.scanner.listens.add(other)
                self.scanner.view[other] = slot

    def request(self, sender: int) -> None:
        """"The sender is informed from now on, and gets news." """
        self.scanner.informs.add(sender)
        self.send(sender, News(self.scanner.slot))
