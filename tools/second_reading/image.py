"""The image of a rail as bytes, in its two forms."""

from .rail import Line, Message, News, Rail, Refusal, Request, Scanner, in_shape, lines_of
from .refusals import NO_IMAGE, Refused
from .sheet import MOST_SCANNERS, MOST_SLOTS, Ban

FIRST_FORM = 1
SECOND_FORM = 2
HEADER_BYTES = 16
BAN_BYTES = 8
SCANNER_BYTES = 170
MESSAGE_BYTES = {FIRST_FORM: 16, SECOND_FORM: 10}
ALL = range(1, MOST_SCANNERS + 1)
# "Eight bytes for each of 66 pairs, upward by lower, then higher scanner."
PAIRS = [(lower, higher) for lower in ALL for higher in ALL if lower < higher]
# "132 two-byte heads by sender, then receiver."
LINES = lines_of(MOST_SCANNERS)
NEWS, REFUSAL, REQUEST = 1, 2, 3


def write(rail: Rail, form: int) -> bytes:
    """"The header. Then the bans. Then scanners 1 to n. Then 132 two-byte heads, and the messages." """
    heads, messages = chains(rail)
    scanners = [scanner_bytes(rail.scanners[number]) for number in range(1, rail.n + 1)]
    records = [message_bytes(message, following, form) for message, following in messages]
    if form == SECOND_FORM:
        scanners, records = by_place(scanners), by_place(records)
    parts = [header(rail, form), ban_bytes(rail.bans), *scanners, *(low(head, 2) for head in heads), *records]
    return b"".join(parts)


def low(number: int, size: int) -> bytes:
    """"Low byte first." """
    return number.to_bytes(size, "little")


def header(rail: Rail, form: int) -> bytes:
    """"1, n, the rule, the verdict (1 for `none`, else 0), twelve slot counts." The second form "begins with 2". """
    return bytes([form, rail.n, rail.rule, int(rail.verdict)]) + bytes(rail.counts).ljust(MOST_SCANNERS, b"\0")


def ban_bytes(bans: frozenset[Ban]) -> bytes:
    """"Bit 8 x (lower's slot - 1) + higher's slot - 1." """
    words = dict.fromkeys(PAIRS, 0)
    for lower, slot, higher, other in bans:
        words[lower, higher] |= 1 << MOST_SLOTS * (slot - 1) + other - 1
    return b"".join(low(words[pair], BAN_BYTES) for pair in PAIRS)


def scanner_bytes(scanner: Scanner) -> bytes:
    """"Slot, last slot, the masks of those listened to and of those informed (two bytes each, scanner 1 lowest), twelve
    view slots, eight reasons (1 if stored, twelve left-side slots), six counts (sent, then received: news, refusals,
    requests)."
    """
    parts = [bytes([scanner.slot, scanner.last]), low(mask(scanner.listens), 2), low(mask(scanner.informs), 2)]
    parts.append(slots_by_scanner(scanner.view))
    for own in range(1, MOST_SLOTS + 1):
        stored = own in scanner.reasons
        parts.append(bytes([int(stored)]) + slots_by_scanner(scanner.reasons.get(own, {})))
    parts += [low(count, 8) for count in scanner.sent + scanner.received]
    return b"".join(parts)


def mask(scanners: set[int]) -> int:
    """"Scanner 1 lowest." """
    return sum(1 << number - 1 for number in scanners)


def slots_by_scanner(slots: dict[int, int]) -> bytes:
    """Twelve slots; "unused is zero". """
    return bytes(slots.get(number, 0) for number in ALL)


def chains(rail: Rail) -> tuple[list[int], list[tuple[Message, int]]]:
    """"A head is the index of the first message of its line. Zero ends a line's chain. The writer lays messages out
    line by line, in the order of the heads." The messages are "numbered from 1"; each stands with the index of the
    next.
    """
    heads, messages = [], []
    for line in LINES:
        waiting = rail.lines.get(line, [])
        heads.append(len(messages) + 1 if waiting else 0)
        for place, message in enumerate(waiting, 1):
            messages.append((message, len(messages) + 2 if place < len(waiting) else 0))
    return heads, messages


def message_bytes(message: Message, following: int, form: int) -> bytes:
    """"The sort (1 news, 2 refusal, 3 request), the slot, the index of the next message (two bytes), twelve left-side
    slots." In the second form "its twelve left-side slots are six bytes".
    """
    sort, slot, left = parts_of(message)
    slots = slots_by_scanner(left)
    return bytes([sort, slot]) + low(following, 2) + (packed(slots) if form == SECOND_FORM else slots)


def parts_of(message: Message) -> tuple[int, int, dict[int, int]]:
    """A message's sort, slot and left side."""
    if isinstance(message, News):
        return NEWS, message.slot, {}
    if isinstance(message, Refusal):
        return REFUSAL, message.slot, message.left
    return REQUEST, 0, {}


def packed(slots: bytes) -> bytes:
    """"Six bytes, each two slots, the lower-numbered scanner in the low half." """
    return bytes(slots[at] | slots[at + 1] << 4 for at in range(0, MOST_SCANNERS, 2))


def by_place(records: list[bytes]) -> list[bytes]:
    """"The first byte of all records, then the second, and so on." """
    return [bytes(column) for column in zip(*records)]


def read(data: bytes) -> Rail:
    """"The reader takes bytes exactly if they are the image of a rail in shape, in either form, and gives that rail;
    otherwise 13." "Bytes that begin with 2 are read as the second form, all others as the first."

    What the bytes seem to say is read; they are an image exactly if that is a rail in shape whose image they are.
    """
    try:
        form = SECOND_FORM if data[0] == SECOND_FORM else FIRST_FORM
        rail = seeming(data, form)
    except (IndexError, ValueError) as fault:
        raise Refused(NO_IMAGE) from fault
    if not in_shape(rail) or write(rail, form) != data:
        raise Refused(NO_IMAGE)
    return rail


def form_of(data: bytes) -> int:
    """The form of an image."""
    return data[0]


def moved(data: bytes) -> bytes:
    """"The mover is given the bytes of an image and writes the image of the same rail in the other form"; it "tests
    13"."""
    rail = read(data)
    return write(rail, FIRST_FORM if form_of(data) == SECOND_FORM else SECOND_FORM)


class Cursor:
    """Takes bytes from the front; an IndexError where there are too few."""

    def __init__(self, data: bytes) -> None:
        self.data = data
        self.at = 0

    def take(self, size: int) -> bytes:
        """The next bytes."""
        if self.at + size > len(self.data):
            raise IndexError("too short")
        self.at += size
        return self.data[self.at - size : self.at]

    def number(self, size: int) -> int:
        """The next number, "low byte first"."""
        return int.from_bytes(self.take(size), "little")


def seeming(data: bytes, form: int) -> Rail:
    """The rail that bytes seem to be the image of; an IndexError or a ValueError where they name what there is not."""
    cursor = Cursor(data)
    _, n, rule, verdict = cursor.take(4)
    counts = tuple(cursor.take(MOST_SCANNERS)[:n])
    if not 1 <= n <= MOST_SCANNERS:
        raise ValueError("n")
    bans = frozenset(ban for pair in PAIRS for ban in bans_of(pair, cursor.number(BAN_BYTES)))
    records = taken_records(cursor, n, SCANNER_BYTES, form)
    scanners = {number: seeming_scanner(record) for number, record in enumerate(records, 1)}
    heads = [cursor.number(2) for _ in LINES]
    many, over = divmod(len(data) - cursor.at, MESSAGE_BYTES[form])
    if over:
        raise ValueError("length")
    messages = [seeming_message(record, form) for record in taken_records(cursor, many, MESSAGE_BYTES[form], form)]
    lines = {line: chain(head, messages) for line, head in zip(LINES, heads) if head}
    return Rail(counts, bans, rule, bool(verdict), scanners, lines)


def taken_records(cursor: Cursor, many: int, size: int, form: int) -> list[bytes]:
    """The next records, set upright again where they are "laid by place"."""
    if form == FIRST_FORM:
        return [cursor.take(size) for _ in range(many)]
    columns = [cursor.take(many) for _ in range(size)]
    return by_place(columns)


def bans_of(pair: Line, word: int) -> list[Ban]:
    """The bans between two scanners. "Bit 8 x (lower's slot - 1) + higher's slot - 1." """
    lower, higher = pair
    places = [divmod(bit, MOST_SLOTS) for bit in range(MOST_SLOTS * MOST_SLOTS) if word >> bit & 1]
    return [(lower, slot + 1, higher, other + 1) for slot, other in places]


def seeming_scanner(record: bytes) -> Scanner:
    """The scanner that a record says."""
    cursor = Cursor(record)
    slot, last = cursor.take(2)
    listens, informs = unmasked(cursor.number(2)), unmasked(cursor.number(2))
    view = known(cursor.take(MOST_SCANNERS))
    reasons = {}
    for own in range(1, MOST_SLOTS + 1):
        stored = cursor.number(1)
        left = known(cursor.take(MOST_SCANNERS))
        if stored:
            reasons[own] = left
    counts = [cursor.number(8) for _ in range(6)]
    return Scanner(slot, last, listens, informs, view, reasons, counts[:3], counts[3:])


def unmasked(word: int) -> set[int]:
    """The scanners of a mask."""
    return {number for number in range(1, 17) if word >> number - 1 & 1}


def known(slots: bytes) -> dict[int, int]:
    """The slots that are not zero, by scanner."""
    return {number: slot for number, slot in zip(ALL, slots) if slot}


def seeming_message(record: bytes, form: int) -> tuple[Message, int]:
    """The message that a record says, and the index of the next. What it says beyond that is lost here, and missed by
    the reader when the rail is written again.
    """
    sort, slot = record[:2]
    following = int.from_bytes(record[2:4], "little")
    left = known(unpacked(record[4:]) if form == SECOND_FORM else record[4:])
    if sort == NEWS:
        return News(slot), following
    if sort == REFUSAL:
        return Refusal(slot, left), following
    if sort == REQUEST:
        return Request(), following
    raise ValueError("sort")


def unpacked(halves: bytes) -> bytes:
    """"Each two slots, the lower-numbered scanner in the low half." """
    return bytes(half for byte in halves for half in (byte & 15, byte >> 4))


def chain(head: int, messages: list[tuple[Message, int]]) -> list[Message]:
    """The messages of one line. "Zero ends a line's chain." """
    line: list[Message] = []
    while head:
        if head > len(messages) or len(line) >= len(messages):
            raise ValueError("chain")
        message, head = messages[head - 1]
        line.append(message)
    return line
