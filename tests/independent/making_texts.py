"""Random texts of sheets, most of them with a fault."""

from random import Random

from second_reading.texts import LONGEST

WRONG_LINES = (
    b"slot 1 2",
    b"Slots 1",
    b"slots 1 x",
    b"slots -1",
    b"slots 18446744073709551616",
    b"ban 1:1",
    b"ban 1:1 2:1 3:1",
    b"ban 1:1 2",
    b"ban 1: 2:1",
    b"ban :1 2:1",
    b"ban 1:1:1 2:1",
    b"ban 1:-1 2:1",
    b"ban 1:99999999999999999999 2:1",
    b"gap 1 2 0",
    b"gap 1 2 0 0 0",
    b"gap 1 2 --1 0",
    b"gap 1 2 - 0",
    b"gap 1 2 +1 2",
    b"gap -1 2 0 0",
    b"gap 1 2 0 -18446744073709551616",
    b"ban\v1:1 2:1",
    b"ban 1:1 2:1\r\r",
    b"b\ran 1:1 2:1",
    b"\xff",
    b"\0",
)
EDGES = (b"0", b"00", b"18446744073709551615", b"0000000000000000000000000000000000001")


def text(random: Random) -> bytes:
    """A text: `slots`, mostly first, then bans or gaps, mostly of scanners and slots that are there."""
    if random.random() < 0.02:
        return long_text(random)
    n = random.choice((1, 2, 3, 3, 4, 12))
    counts = [random.randint(1, random.choice((1, 2, 3, 8))) for _ in range(n)]
    sort = random.choice((ban, ban, gap))
    lines = [slots(random, counts)] if random.random() < 0.93 else []
    lines += [sort(random, counts) for _ in range(random.choice((0, 1, 2, 3, 5, 9)))]
    if random.random() < 0.5:
        lines.insert(random.randint(0, len(lines)), odd_line(random, counts))
    ends = random.choice((b"\n", b"\n", b"\r\n"))
    return ends.join(dressed(random, line) for line in lines) + random.choice((ends, ends, b"", b"\n\n", b"#", b"\r"))


def numeral(random: Random, number: int) -> bytes:
    """A number, at times with leading zeros, seldom another one at the edge of what is a number."""
    if random.random() < 0.01:
        return random.choice(EDGES)
    return b"0" * random.choice((0, 0, 0, 0, 1, 30)) + str(number).encode()


def off(random: Random, least: int, greatest: int) -> int:
    """A number of that range, seldom one just outside."""
    dice = random.random()
    if dice < 0.02:
        return max(least - 1, 0)
    if dice < 0.04:
        return greatest + 1
    return random.randint(least, greatest)


def slots(random: Random, counts: list[int]) -> bytes:
    """The `slots` line, seldom with a count or a number of counts out of range."""
    said = list(counts)
    dice = random.random()
    if dice < 0.03:
        said[random.randrange(len(said))] = random.choice((0, 9, 10))
    elif dice < 0.05:
        said = []
    elif dice < 0.07:
        said = [1] * 13
    return b" ".join([b"slots", *(numeral(random, count) for count in said)])


def pair(random: Random, n: int) -> tuple[int, int]:
    """Two scanners, mostly different ones that are there."""
    one, other = off(random, 1, n), off(random, 1, n)
    if one == other and n > 1 and random.random() < 0.9:
        other = other % n + 1
    return one, other


def place(random: Random, counts: list[int], scanner: int) -> bytes:
    """A place, mostly one that is there."""
    count = counts[scanner - 1] if 1 <= scanner <= len(counts) else 8
    return numeral(random, scanner) + b":" + numeral(random, off(random, 1, count))


def ban(random: Random, counts: list[int]) -> bytes:
    """A `ban`, either scanner first."""
    one, other = pair(random, len(counts))
    return b" ".join([b"ban", place(random, counts, one), place(random, counts, other)])


def gap(random: Random, counts: list[int]) -> bytes:
    """A `gap`, mostly with the lower-numbered scanner first and the least gap before the greatest."""
    one, other = pair(random, len(counts))
    if random.random() < 0.95:
        one, other = sorted((one, other))
    least, greatest = (random.randint(-7, 7) for _ in range(2))
    if random.random() < 0.95:
        least, greatest = sorted((least, greatest))
    if random.random() < 0.05:
        least = random.choice((-8, 8))
    if random.random() < 0.05:
        greatest = random.choice((-8, 8))
    scanners = numeral(random, one), numeral(random, other)
    return b" ".join([b"gap", *scanners, signed(random, least), signed(random, greatest)])


def signed(random: Random, number: int) -> bytes:
    """A signed number; 0 at times as -0."""
    minus = b"-" if number < 0 or number == 0 and random.random() < 0.3 else b""
    return minus + numeral(random, abs(number))


def odd_line(random: Random, counts: list[int]) -> bytes:
    """A line that may not stand where it stands."""
    dice = random.random()
    if dice < 0.4:
        return random.choice(WRONG_LINES)
    if dice < 0.6:
        return slots(random, counts)
    if dice < 0.8:
        return random.choice((ban, gap))(random, counts)
    return b" ".join(random.choices((b"slots", b"ban", b"gap", b"1", b"2:1", b"-1", b"1:1"), k=random.randint(1, 5)))


def dressed(random: Random, line: bytes) -> bytes:
    """The line with other blanks, and with a comment or lines without words before it."""
    dice = random.random()
    if dice < 0.1:
        line = b"\t" + line.replace(b" ", b" \t ")
    elif dice < 0.2:
        line += random.choice((b"# ban 1:1", b" #", b"#\xff\r", b"  ", b"\t"))
    elif dice < 0.3:
        line = random.choice((b"\n", b"# a comment\n", b" \t\n", b"\r\n")) + line
    return line


def long_text(random: Random) -> bytes:
    """A text about as long as the longest, or one with as many records as a sheet can have, or one more."""
    dice = random.random()
    if dice < 0.3:
        many = random.choice((4224, 4225))
        return b"slots 2 2\n" + b"gap 1 2 0 0\n" * many
    if dice < 0.6:
        many = random.choice((4224, 4225, 4226))
        return b"slots 2 2" + b"\nban 1:1 2:1" * many
    start = b"slots 2 2\nban 1:1 2:1\n" + random.choice((b"", b"", b"bad\n"))
    filler = random.choice((b"\n", b"# filler\n", b"#" + b"x" * 9000 + b"\n", b"x" if random.random() < 0.3 else b" "))
    body = start + filler * (LONGEST // len(filler) + 1)
    size = LONGEST + random.choice((-2, -1, 0, 0, 1, 2, 9))
    return body[:size] + random.choice((b"", b"", b"\n", b"bad", b"\nbad"))
