"""The rail as `board` draws it."""

from collections.abc import Iterator

from .rail import LeftSide, Message, News, Rail, Refusal, Scanner


def lines(rail: Rail) -> Iterator[str]:
    """`verdict none` where that stands, a block for each scanner, then a line for each line of the rail on which
    something waits. "All lists are upward."
    """
    if rail.verdict:
        yield "verdict none"
    for number in range(1, rail.n + 1):
        yield from block(number, rail.scanners[number])
    for sender, receiver in rail.waiting():
        messages = ", ".join(map(said, rail.lines[sender, receiver]))
        yield f"line {sender} to {receiver}: {messages}"


def block(number: int, scanner: Scanner) -> Iterator[str]:
    """"Its first line, then two blanks before each of view, informs, reasons, counts." """
    held = f"slot {scanner.slot}" if scanner.slot else f"slot -, last {scanner.last}"
    yield f"scanner {number} {held}"
    if scanner.listens:
        view = " ".join(f"{other}={scanner.view.get(other, '?')}" for other in sorted(scanner.listens))
        yield f"  view {view}"
    if scanner.informs:
        yield "  informs " + " ".join(map(str, sorted(scanner.informs)))
    for own, left in sorted(scanner.reasons.items()):
        yield f"  reason {own}: {left_side(left)}"
    if any(scanner.sent + scanner.received):
        yield f"  sent {counts(scanner.sent)}, received {counts(scanner.received)}"


def counts(three: list[int]) -> str:
    """"news 1 refusals 0 links 0" """
    news, refusals, links = three
    return f"news {news} refusals {refusals} links {links}"


def left_side(left: LeftSide) -> str:
    """The slots of a left side, upward by scanner, or `nothing`."""
    return " ".join(f"{other}={slot}" for other, slot in sorted(left.items())) or "nothing"


def said(message: Message) -> str:
    """A message on its line."""
    if isinstance(message, News):
        return f"news {message.slot}"
    if isinstance(message, Refusal):
        return f"refusal {message.slot}: {left_side(message.left)}"
    return "link"
