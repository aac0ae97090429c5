"""Random sheets, good and damaged, of both editions."""

from random import Random

from second_reading.sheet import GAP, HEADER_BYTES, MOST_RECORDS, RECORD_BYTES, Sheet, write


def problem(random: Random, most: int) -> tuple[int, ...]:
    """Slot counts of 1 to `most` scanners, small ones oftener."""
    n = min(random.choice((1, 2, 2, 3, 3, 3, 4, 4, 5, 6, 8, 12)), most)
    most_slots = random.choice((1, 2, 2, 3, 3, 4, 5, 8))
    return tuple(random.randint(1, most_slots) for _ in range(n))


def good(random: Random, most: int = 12, edition: int = 0) -> Sheet:
    """A sheet that is not refused."""
    counts = problem(random, most)
    edition = edition or random.choice((1, 2))
    if len(counts) == 1:
        return Sheet(edition, counts, ())
    return Sheet(edition, counts, tuple(bans(random, counts) if edition == 1 else gaps(random, counts)))


def bans(random: Random, counts: tuple[int, ...]) -> list[tuple[int, int, int, int]]:
    """Records of edition 1, as dense as chance will have it, at times one twice."""
    linked, banned = random.choice((0.3, 0.6, 1.0)), random.choice((0.1, 0.3, 0.5, 0.7, 0.95, 1.0))
    found = [
        (lower, higher, slot, other)
        for higher in range(2, len(counts) + 1)
        for lower in range(1, higher)
        if random.random() < linked
        for slot in range(1, counts[lower - 1] + 1)
        for other in range(1, counts[higher - 1] + 1)
        if random.random() < banned
    ]
    if found and random.random() < 0.3:
        found.append(random.choice(found))
    if random.random() < 0.5:
        random.shuffle(found)
    return found


def gaps(random: Random, counts: tuple[int, ...]) -> list[tuple[int, int, int, int]]:
    """Records of edition 2, some of which hit no pair of owned slots."""
    found = []
    for _ in range(random.choice((0, 1, 2, 4, 8, 16))):
        lower, higher = sorted(random.sample(range(1, len(counts) + 1), 2))
        wide = random.choice((1, 2, 3, GAP))
        least, greatest = sorted((random.randint(-wide, wide), random.randint(-wide, wide)))
        found.append((lower, higher, least, greatest))
    return found


def chained(random: Random, sheet: Sheet) -> bytes:
    """The bytes of a sheet, at times with its records elsewhere and with spare ones between them."""
    data = bytearray(write(sheet))
    many = len(sheet.records)
    if random.random() < 0.5 or not many:
        return bytes(data)
    total = many + random.choice((0, 1, 2, 5))
    places = random.sample(range(1, total + 1), many)
    data[2:4] = places[0].to_bytes(2, "little")
    data[4:6] = total.to_bytes(2, "little")
    records = [random.randbytes(RECORD_BYTES) for _ in range(total)]
    for number, place in enumerate(places):
        at = HEADER_BYTES + RECORD_BYTES * number
        following = places[number + 1] if number + 1 < many else 0
        records[place - 1] = bytes(data[at : at + 4]) + following.to_bytes(2, "little") + bytes(2)
    return bytes(data[:HEADER_BYTES]) + b"".join(records)


def damaged(random: Random, data: bytes) -> bytes:
    """The bytes of a sheet with one thing wrong, or with a change that does no harm."""
    bytes_now = bytearray(data)
    return bytes(random.choice(DAMAGES)(random, bytes_now))


def shortened(random: Random, data: bytearray) -> bytearray:
    """Breaks off."""
    return data[: random.choice((0, 1, 7, 23, 24, max(len(data) - 1, 0), random.randint(0, len(data))))]


def lengthened(random: Random, data: bytearray) -> bytearray:
    """Bytes behind the sheet, at times more than any sheet has."""
    return data + random.randbytes(random.choice((1, 7, 8, 40_000)))


def header_changed(random: Random, data: bytearray) -> bytearray:
    """A byte of the header has another value."""
    data[random.choice((0, 1, 1, 2, 3, 4, 5, 6, 7, *range(8, 24)))] = random.choice((0, 1, 2, 3, 8, 9, 12, 13, 16, 255))
    return data


def record_changed(random: Random, data: bytearray) -> bytearray:
    """A byte of a record has another value."""
    if len(data) > HEADER_BYTES:
        data[random.randrange(HEADER_BYTES, len(data))] = random.choice((0, 1, 2, 3, 7, 8, 9, 248, 249, 250, 255))
    return data


def link_changed(random: Random, data: bytearray) -> bytearray:
    """The next index of a record is another one: the chain loops, leaves records out or leads beyond the last."""
    many = (len(data) - HEADER_BYTES) // RECORD_BYTES
    if many > 0:
        at = HEADER_BYTES + RECORD_BYTES * random.randrange(many) + 4
        data[at : at + 2] = random.randint(0, many + 1).to_bytes(2, "little")
    return data


def too_many(random: Random, data: bytearray) -> bytearray:
    """A sheet that says that it has more records than there may be, or just as many, and has them."""
    many = random.choice((MOST_RECORDS, MOST_RECORDS + 1))
    data[2:6] = bytes(2) + many.to_bytes(2, "little")
    return data[:HEADER_BYTES] + bytes(RECORD_BYTES * many)


def faults_at_once(random: Random, data: bytearray) -> bytearray:
    """Several things wrong, of which the first decides."""
    for _ in range(random.randint(2, 3)):
        data = random.choice((header_changed, record_changed, link_changed))(random, data)
        data = data.ljust(HEADER_BYTES, b"\0")
    return data


DAMAGES = (
    shortened,
    lengthened,
    header_changed,
    header_changed,
    record_changed,
    record_changed,
    link_changed,
    link_changed,
    too_many,
    faults_at_once,
)


def either(random: Random, most: int = 12, edition: int = 0) -> bytes:
    """The bytes of a sheet, mostly a good one."""
    data = chained(random, good(random, most, edition))
    if len(data) >= HEADER_BYTES and random.random() < 0.35:
        return damaged(random, data)
    return data


def stuck_or_spinning(random: Random, examples: list[bytes]) -> bytes:
    """A sheet that comes to no plan, or one that differs from it in a ban or two."""
    data = bytearray(random.choice(examples))
    for _ in range(random.choice((0, 1, 1, 2))):
        many = (len(data) - HEADER_BYTES) // RECORD_BYTES
        at = HEADER_BYTES + RECORD_BYTES * random.randrange(many)
        slot = random.choice((2, 3))
        lower_or_higher = data[at + slot - 2]
        data[at + slot] = random.randint(1, data[7 + lower_or_higher])
    return bytes(data)


def full_lines(random: Random) -> Sheet:
    """Scanners like those with slots 1, 8, 1, 1 of which the second refuses and resends until its lines are full: bans
    1:1 with 2:8; 2:1 to 2:7 each with 3:1; 2:1 with 4:1.
    """
    many = random.choice((7, 8, 8, 8))
    counts = [random.choice((1, 1, 2)), many, *(random.choice((1, 1, 2)) for _ in range(random.randint(2, 4)))]
    records = [(1, 2, 1, many)]
    records += [(2, 3, slot, 1) for slot in range(1, many)]
    records += [(2, other, random.randint(1, many), 1) for other in range(4, len(counts) + 1)]
    if random.random() < 0.5:
        records.append((1, 3, 1, 1))
    return Sheet(1, tuple(counts), tuple(records))
