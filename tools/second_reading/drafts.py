"""The random sheets of the gate's programs (crates/gate_random): both editions, chains out of order, spare records, bans
that stand twice, damaged ones.
"""

from .draws import Draws

ROOM = 1024


class Drawing:
    """A sheet that is being drawn, which records are on its chain, and the generator."""

    def __init__(self, state: int) -> None:
        self.bytes = bytearray(ROOM)
        self.chained = [False] * 128
        self.draws = Draws(state)
        self.pick = self.draws.pick

    def set_byte(self, at: int, value: int) -> None:
        """A byte, where there is room."""
        if at < ROOM:
            self.bytes[at] = value % 256

    def byte(self, at: int) -> int:
        """A byte, and 0 beyond the room."""
        return self.bytes[at] if at < ROOM else 0

    def set_word(self, at: int, word: int) -> None:
        """Two bytes, low byte first."""
        self.set_byte(at, word)
        self.set_byte(at + 1, word // 256)

    def head(self) -> None:
        """One to twelve scanners with their slots, and the edition."""
        scanners = {0: 4, 1: 12}.get(self.pick(4), 6)
        n = 1 + self.pick(scanners)
        few = self.pick(2) == 0
        most = 3 if n <= 6 and few else 8 if n <= 4 else 4 if n <= 6 else 2
        self.set_byte(0, n)
        self.set_byte(1, 1)
        for scanner in range(n):
            self.set_byte(8 + scanner, 1 + self.pick(most) % 8)
        if self.pick(3) == 0:
            self.set_byte(1, 2)

    def set_ban(self, at: int) -> None:
        """A record that bans two slots, or gaps."""
        n = self.byte(0)
        if n >= 2:
            lower = 1 + self.pick(n - 1)
            self.set_byte(at, lower)
            self.set_byte(at + 1, lower + 1 + self.pick(n - lower))
        if self.byte(1) == 2:
            least = self.pick(15)
            greatest = min(least + self.pick(4), 14)
            self.set_byte(at + 2, 249 + least)
            self.set_byte(at + 3, 249 + greatest)
        else:
            for k in (at, at + 1):
                self.set_byte(k + 2, 1 + self.pick(self.byte(7 + self.byte(k))))

    def link(self, record: int) -> None:
        """The record goes into the chain: behind some record of it, or to its front."""
        earlier = self.pick(record)
        before = record_at(earlier) + 4 if self.chained[earlier] else 2
        self.set_word(record_at(record) + 4, self.byte(before))
        self.set_word(before, record)
        self.chained[record] = True

    def set_record(self, record: int) -> None:
        """A spare record, a copy of an earlier one, or a ban."""
        at = record_at(record)
        kind = self.pick(8)
        if self.byte(0) < 2 or kind == 0:
            for k in range(8):
                self.set_byte(at + k, self.pick(256))
            return
        earlier = self.pick(record)
        if kind == 1 and self.chained[earlier]:
            source = record_at(earlier)
            self.bytes[at : at + 4] = self.bytes[source : source + 4]
        else:
            self.set_ban(at)
        self.link(record)

    def set_records(self) -> int:
        """All records; so long is the sheet."""
        most = 120 if self.pick(2) == 0 else 60
        count = self.pick(most + 1)
        self.set_word(4, count)
        for record in range(1, count + 1):
            self.set_record(record)
        return 24 + 8 * count

    def hit(self, first: int, count: int, below: int) -> None:
        """Some byte becomes some number below `below`."""
        at = first + self.pick(count)
        self.set_byte(at, self.pick(below))

    def detour(self) -> None:
        """The next index of some record, or the first index, becomes another."""
        count = self.byte(4)
        record = self.pick(count + 1)
        before = record_at(record) + 4 if record else 2
        self.set_word(before, self.pick(count + 2))

    def damage(self, length: int) -> int:
        """Half of the sheets are damaged; so long is the sheet then."""
        records = 8 * self.byte(4)
        kind = self.pick(15)
        hits = {0: (0, 24, 256), 1: (0, 24, 16), 2: (24, records, 16), 3: (24, records, 4), 7: (24, records, 256)}
        if kind in hits:
            self.hit(*hits[kind])
        elif kind == 4:
            self.detour()
        elif kind == 5:
            return self.pick(length)
        elif kind == 6:
            return length + 1 + self.pick(16)
        return length


def record_at(record: int) -> int:
    """Where a record begins."""
    return 16 + 8 * record if record <= 120 else 16


def drawn(state: int) -> tuple[bytes, int]:
    """A sheet for this state of the generator, and the state behind it."""
    drawing = Drawing(state)
    drawing.head()
    length = drawing.damage(drawing.set_records())
    return bytes(drawing.bytes[:length]), drawing.draws.state
