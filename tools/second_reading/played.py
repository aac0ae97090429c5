"""What the gate's programs have to print of their standard input, where that is text in the crate."""

import copy
import io
from collections import defaultdict
from collections.abc import Callable

from . import calls, crowded_rails, programs, season, sheet, texts
from .case_text import Builder, Line, lines
from .command_line import NotUnderstood, options
from .commands import commands_of
from .little import sheet_of
from .rail import News, Rail
from .refusals import Refused

LITTLE_SHEETS = 4996
SHOWN_BYTES = 64


class Texts:
    """crates/gate_texts: what `dock` and `board` print of each sheet."""

    def __init__(self) -> None:
        self.out: list[bytes] = []
        self.builder = Builder()
        self.dispatcher = calls.Dispatcher(Rail((), frozenset(), 0, False, {}, {}))
        self.words: list[bytes] | None = []

    def follow(self, line: Line) -> None:
        """Prints what a line asks for."""
        self.builder.follow(line)
        answer = programs.Answer(defaultdict(lambda: bytes(self.builder.data)), io.BytesIO())
        if line.word == "case":
            self.words = []
            answer.say(line.text)
        elif line.word == "dock":
            programs.settle(answer, bytes(self.builder.data), line.numbers[0])
        elif line.word == "board":
            rule = str(line.numbers[0]).encode() if line.numbers else b"1"
            self.begin(answer, [b"--rule", rule, b"sheet"])
        elif line.word == "option":
            self.option(answer, line.text[7:])
        elif line.word == "end" and self.words is not None:
            self.begin(answer, self.words)
        elif line.word == "word":
            programs.board_word(answer, self.dispatcher, line.text[5:])
        self.out += answer.out

    def option(self, answer: programs.Answer, word: bytes) -> None:
        """One word more of the command line, as long as they are read: up to the file, or a word not understood."""
        if self.words is None:
            return
        self.words.append(word)
        if not self.goes_on(self.words + [b"0"]) and not self.goes_on(self.words):
            self.begin(answer, self.words)

    def goes_on(self, words: list[bytes]) -> bool:
        """Whether all these words are options, or belong to one."""
        try:
            return not options(words, programs.BOARD_OPTIONS).words
        except NotUnderstood:
            return False

    def begin(self, answer: programs.Answer, words: list[bytes]) -> None:
        """The board begins, or what comes instead; no more words are read up to the next case."""
        self.words = None
        try:
            begun = programs.board_begins(answer, options(words, programs.BOARD_OPTIONS))
        except NotUnderstood as word:
            answer.say(word.said)
            return
        self.dispatcher = begun or calls.Dispatcher(Rail((), frozenset(), 0, False, {}, {}))


def texts_of(text: bytes) -> bytes:
    """What `gate_texts` prints."""
    desk = Texts()
    for line in lines(text):
        desk.follow(line)
    return b"".join(desk.out)


def seasons_of(text: bytes) -> bytes:
    """What `gate_seasons` prints: a sheet goes onto the stream behind its length (`add`), or as it is (`raw`)."""
    out, builder, stream = [], Builder(), b""
    for line in lines(text):
        if line.word == "case":
            out.append(line.text)
        elif line.word == "add":
            stream += framed(bytes(builder.data))
        elif line.word == "raw":
            stream += bytes(builder.data)
        elif line.word == "all":
            stream += b"".join(framed(sheet.write(sheet_of(ordinal))) for ordinal in range(LITTLE_SHEETS))
        elif line.word == "season":
            out += [figure.encode() for figure in season.figures(io.BytesIO(stream).read).lines()]
            stream = b""
        builder.follow(line)
        if line.word in ("add", "raw", "all", "season"):
            builder = Builder()
    return b"".join(line + b"\n" for line in out)


def framed(data: bytes) -> bytes:
    """A sheet "behind its length in two bytes, low byte first"."""
    return (len(data) % 2**16).to_bytes(2, "little") + data


def scribes_of(text: bytes) -> bytes:
    """What `gate_sheet_text` prints first, of the texts on its standard input: each stands in front of a line that names it."""
    out, collected = [], b""
    for line in text.splitlines(True):
        if line.startswith(b"="):
            out.append(line.rstrip(b"\n") + b"\n" + answered(collected[:-1] if line.startswith(b"=-") else collected))
            collected = b""
        else:
            collected += line
    return b"".join(out)


def answered(text: bytes) -> bytes:
    """The fault; or the sheet's length and bytes, eight on a line, and its text; of a long one only the two lengths."""
    try:
        found = texts.sheet_of(text)
    except texts.Fault as fault:
        return f"{fault}\n".encode()
    data, told = sheet.write(found), texts.text_of(found)
    if len(data) > SHOWN_BYTES:
        return f"sheet {len(data)}\ntext {len(told)}\n".encode()
    rows = [" " + data[at : at + 8].hex(" ") for at in range(0, len(data), 8)]
    return "\n".join([f"sheet {len(data)}", *rows, ""]).encode() + told


SORTS = {
    "case": "cases",
    "start": "sheets accepted",
    "refused": "sheets refused",
    "run": "runs",
    "deliver": "deliveries",
    "taken": "rails asked for their slots",
    "line": "lines looked at",
    "same": "rails compared",
}
SORT_OF = {"last": "taken", "differs": "same"}


class Checks:
    """crates/gate_cases: each line of a case says what must come of it by docs/RULES.md."""

    def __init__(self) -> None:
        self.builder = Builder()
        self.rail = self.kept = Rail((), frozenset(), 0, False, {}, {})

    def holds(self, line: Line) -> bool:
        """Whether a check holds; a line that checks nothing does."""
        self.builder.follow(line)
        check = getattr(self, f"check_{line.word}", None)
        return check is None or check(line)

    def check_start(self, line: Line) -> bool:
        """The sheet is accepted, by rule 1 or by the one given."""
        self.rail = calls.start(bytes(self.builder.data), (line.numbers or [1])[0])
        return True

    def check_refused(self, line: Line) -> bool:
        """The sheet is refused with this number, and the rail is empty."""
        self.rail = Rail((), frozenset(), 0, False, {}, {})
        number, rule = (line.numbers + [1])[:2]
        return refusal(calls.start, bytes(self.builder.data), rule) == number

    def check_keep(self, _: Line) -> bool:
        """The rail is kept beside."""
        self.kept = copy.deepcopy(self.rail)
        return True

    def check_same(self, _: Line) -> bool:
        """The rail is the same as the one that was kept, made by the start of the sheet where none was made of it yet.
        """
        return alike(self.rail, self.kept)

    def check_differs(self, _: Line) -> bool:
        """It is another."""
        return not alike(self.rail, self.kept)

    def check_run(self, line: Line) -> bool:
        """`run WORD K`, or `run WORD K of N`; `run refused 5`."""
        word = line.text.split(b" ")[1].decode()
        allowed = (line.numbers + [programs.ROUNDS])[1]
        if word == "refused":
            return refusal(calls.run, self.rail, programs.ROUNDS) == line.numbers[0]
        return calls.run(self.rail, allowed) == (word, line.numbers[0])

    def check_taken(self, line: Line) -> bool:
        """The slots of the scanners; one without a slot has 0."""
        return [scanner.slot for _, scanner in sorted(self.rail.scanners.items())] == line.numbers

    def check_last(self, line: Line) -> bool:
        """The last slots that they took."""
        return [scanner.last for _, scanner in sorted(self.rail.scanners.items())] == line.numbers

    def check_deliver(self, line: Line) -> bool:
        """`deliver A-B`, or `deliver A-B refused K`."""
        sender, receiver, *number = line.numbers
        return refusal(calls.deliver, self.rail, sender, receiver) == (number or [0])[0]

    def check_line(self, line: Line) -> bool:
        """`line A-B holds K`, or `line A-B holds K news of S`, each of them news of this slot."""
        sender, receiver, many, *slot = line.numbers
        waiting = self.rail.lines.get((sender, receiver), [])
        return len(waiting) == many and all(message == News(slot[0]) for message in waiting if slot)


def refusal(call: Callable[..., object], *arguments: object) -> int:
    """The number with which a call comes back, 0 where it is not refused."""
    try:
        call(*arguments)
    except Refused as refused:
        return refused.number
    return 0


def alike(one: Rail, other: Rail) -> bool:
    """"Two rails are the same when n, rule, slot counts, verdict, bans, scanner records and the messages waiting on
    each line, in order, agree."
    """
    waiting = [{line: messages for line, messages in rail.lines.items() if messages} for rail in (one, other)]
    parts = [(rail.counts, rail.rule, rail.verdict, rail.bans, rail.scanners) for rail in (one, other)]
    return parts[0] == parts[1] and waiting[0] == waiting[1]


def worked_cases_of(text: bytes) -> bytes:
    """What `gate_cases` prints: the titles, each check that fails, and how many of each sort were made."""
    checks, out, failed = Checks(), [], 0
    made = dict.fromkeys(SORTS, 0)
    for line in lines(text):
        sort = SORT_OF.get(line.word, line.word)
        if sort in made:
            made[sort] += 1
        if line.word == "case":
            out.append(line.text)
        if not checks.holds(line):
            failed += 1
            out.append(b"failed: " + line.text)
    out += [f"{said} {made[sort]}".encode() for sort, said in SORTS.items()]
    out.append(f"{failed} failed".encode())
    return b"".join(line + b"\n" for line in out)


def crowded_rails_of(_: bytes) -> bytes:
    """crates/gate_crowded: how many of each kind it tries. It reads nothing."""
    return crowded_rails.printed()


PLAYED = {
    "gate_texts": texts_of,
    "gate_seasons": seasons_of,
    "gate_sheet_text": scribes_of,
    "gate_cases": worked_cases_of,
    "gate_crowded": crowded_rails_of,
    "gate_commands": commands_of,
}
