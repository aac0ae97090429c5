"""What each program prints, and the status with which it ends."""

import io
from collections.abc import Callable, Mapping
from dataclasses import dataclass, field
from typing import BinaryIO

from . import board_text, calls, image, little, season, sheet, texts, turning
from .command_line import Call, Deliver, NotUnderstood, Options, Pick, Run, Words, call, number, opened, options
from .rail import Rail
from .refusals import RULE, Refused

ROUNDS = 100_000
DONE, REFUSED, NOT_UNDERSTOOD, CANNOT_WRITE = range(4)
Files = Mapping[bytes, bytes]


@dataclass
class Answer:
    """What a program has said so far. "The status is the greatest of what was said." """

    files: Files
    input: BinaryIO
    out: list[bytes] = field(default_factory=list)
    err: list[bytes] = field(default_factory=list)
    status: int = DONE

    def say(self, line: str | bytes, status: int = DONE) -> None:
        """A line on standard output."""
        self.out.append((line.encode() if isinstance(line, str) else line) + b"\n")
        self.status = max(self.status, status)

    def complain(self, line: str | bytes, status: int) -> None:
        """A line on standard error."""
        self.err.append((line.encode() if isinstance(line, str) else line) + b"\n")
        self.status = max(self.status, status)


def run(program: str, words: Words, stdin: bytes, files: Files) -> tuple[bytes, bytes, int]:
    """Standard output, standard error and exit status of a program, given its words, its input and the files there."""
    return run_on(program, words, io.BytesIO(stdin), files)


def run_on(program: str, words: Words, stdin: BinaryIO, files: Files) -> tuple[bytes, bytes, int]:
    """The same with a standard input that is read only as far as the program reads it."""
    answer = Answer(files, stdin)
    PROGRAMS[program](answer, words)
    return b"".join(answer.out), b"".join(answer.err), answer.status


def dock(answer: Answer, _: Words) -> None:
    """"The program reads a sheet on standard input, runs with 100,000 rounds and prints. For a refused sheet it prints
    `sheet refused` and the number. Otherwise it prints `verdict` and the word, `rounds` and the count, and for `plan` a
    line for each scanner: `scanner`, its number, `slot`, its slot." "`dock` takes no notice of its arguments."
    """
    settle(answer, answer.input.read(), ROUNDS)


def settle(answer: Answer, data: bytes, rounds: int) -> None:
    """What `dock` prints of a sheet, with so many rounds allowed."""
    try:
        rail = calls.start(data, 1)
    except Refused as refused:
        answer.say(f"sheet refused {refused.number}", REFUSED)
        return
    word, rounds = calls.run(rail, rounds)
    answer.say(f"verdict {word}")
    answer.say(f"rounds {rounds}")
    if word == "plan":
        for scanner in range(1, rail.n + 1):
            answer.say(f"scanner {scanner} slot {rail.scanners[scanner].slot}")


def board(answer: Answer, words: Words) -> None:
    """"Prints the rail after the start (or as read from the image) and after each call that is not refused."

    "`call not understood: W`: `board` goes on with the next call."
    """
    try:
        found = options(words, BOARD_OPTIONS)
        dispatcher = board_begins(answer, found)
    except NotUnderstood as word:
        answer.say(word.said, NOT_UNDERSTOOD)
        return
    if dispatcher is not None:
        for word in found.words[1:]:
            board_word(answer, dispatcher, word)


def draw(answer: Answer, first: str, rail: Rail) -> None:
    """A first line, and the rail."""
    answer.say(first)
    for line in board_text.lines(rail):
        answer.say(line)


def board_begins(answer: Answer, found: Options) -> calls.Dispatcher | None:
    """"Under rule 2 the first line is `start, rule 2`"; with an image "the first line is `image` or `image, rule 2`".
    "The dispatcher begins with the board, at count zero."
    """
    rail = board_opens(answer, found)
    if rail is None:
        return None
    draw(answer, ("image" if found.image else "start") + (", rule 2" if rail.rule == 2 else ""), rail)
    return calls.Dispatcher(rail)


def board_opens(answer: Answer, found: Options) -> Rail | None:
    """"A rule that is refused prints `rule refused 11` and nothing more, before the file is opened"; "an image that is
    not taken prints `image refused 13` and nothing more."
    """
    if found.rule not in (1, 2):
        answer.say(f"rule refused {RULE}", REFUSED)
        return None
    data = file_of(answer, found.words, BOARD_FORM)
    try:
        return image.read(data) if found.image else calls.start(data, found.rule)
    except Refused as refused:
        answer.say(f"{'image' if found.image else 'sheet'} refused {refused.number}", REFUSED)
        return None


def board_word(answer: Answer, dispatcher: calls.Dispatcher, word: bytes) -> None:
    """A word behind the file: a call, or one that is not understood."""
    try:
        board_call(answer, dispatcher, call(word))
    except NotUnderstood as unknown:
        answer.say(unknown.said, NOT_UNDERSTOOD)


def board_call(answer: Answer, dispatcher: calls.Dispatcher, made: Call) -> None:
    """"`A-B` a delivery (`deliver A B` and the rail, or `deliver A B: refused K`), `rN` a run"; "a pick prints `pick A
    B: delivered C D` and the rail, C to D the line it served; or `pick A B: refused K` and no rail."
    """
    rail = dispatcher.rail
    match made:
        case Run(rounds):
            word, full = calls.run(rail, rounds)
            draw(answer, f"run {rounds}: {word}, {full} rounds", rail)
        case Deliver(sender, receiver):
            said = f"deliver {sender} {receiver}"
            try:
                calls.deliver(rail, sender, receiver)
                draw(answer, said, rail)
            except Refused as refused:
                answer.say(f"{said}: refused {refused.number}")
        case Pick(sender, receiver):
            said = f"pick {sender} {receiver}"
            try:
                served = dispatcher.pick((sender, receiver))
                draw(answer, f"{said}: delivered {served[0]} {served[1]}", rail)
            except Refused as refused:
                answer.say(f"{said}: refused {refused.number}")


BOARD_OPTIONS = (b"--rule", b"--image")
BOARD_FORM = b"board [--rule N] SHEET [CALL ..], or board --image IMAGE [CALL ..]"
WRITE_FORM = b"image write [--rule N] [--small] SHEET [CALL ..]"
MOVE_FORM = b"image move IMAGE"


def file_of(answer: Answer, words: Words, form: bytes) -> bytes:
    """The file that the first word names. "`no file given: ` and the form of the command." """
    if not words:
        raise NotUnderstood(b"no file given: " + form)
    return opened(answer.files, words[0])


def writes_bytes(program: Callable[[Answer, Words], bytes]) -> Callable[[Answer, Words], None]:
    """"A program that writes bytes for another program writes nothing at all on standard output where it refuses; it
    says `refused K` in one line on standard error." "A program that writes bytes prints one such line at most."
    """

    def writing(answer: Answer, words: Words) -> None:
        try:
            answer.out.append(program(answer, words))
        except NotUnderstood as word:
            answer.complain(word.said, NOT_UNDERSTOOD)
        except Refused as refused:
            answer.complain(f"refused {refused.number}", REFUSED)
        except texts.Fault as fault:
            answer.complain(str(fault), REFUSED)

    return writing


@writes_bytes
def image_program(answer: Answer, words: Words) -> bytes:
    """"The first in this order: command, options, rule, file, sheet or image, calls from left to right." """
    command = command_of(words, (b"write", b"move"), WRITE_FORM + b", or " + MOVE_FORM)
    return image_write(answer, words[1:]) if command == b"write" else image_move(answer, words[1:])


def image_write(answer: Answer, words: Words) -> bytes:
    """"Starts the sheet, makes the calls as `board` does, picks too, with a dispatcher that begins at zero (refused
    ones change nothing), and writes the image of the rail they leave, in the first form, with `--small` in the
    second." "`call not understood: W`: `image write` stops."
    """
    found = options(words, (b"--rule", b"--small"))
    if found.rule not in (1, 2):
        raise Refused(RULE)
    rail = calls.start(file_of(answer, found.words, WRITE_FORM), found.rule)
    made = [call(word) for word in found.words[1:]]
    dispatcher = calls.Dispatcher(rail)
    for each in made:
        image_call(dispatcher, each)
    return image.write(rail, image.SECOND_FORM if found.small else image.FIRST_FORM)


def image_call(dispatcher: calls.Dispatcher, made: Call) -> None:
    """Makes a call; a refused one changes nothing."""
    try:
        match made:
            case Run(rounds):
                calls.run(dispatcher.rail, rounds)
            case Deliver(sender, receiver):
                calls.deliver(dispatcher.rail, sender, receiver)
            case Pick(sender, receiver):
                dispatcher.pick((sender, receiver))
    except Refused:
        pass


def image_move(answer: Answer, words: Words) -> bytes:
    """"`image move IMAGE`: the same rail in the other form; `refused 13` where it is an image of neither." """
    found = options(words, ())
    no_word_behind(found.words, 1)
    return image.moved(file_of(answer, found.words, MOVE_FORM))


def command_of(words: Words, commands: tuple[bytes, ...], form: bytes) -> bytes:
    """"`no command given: ` and the form of the command", "`command not understood: ` and the word". """
    if not words:
        raise NotUnderstood(b"no command given: " + form)
    if words[0] not in commands:
        raise NotUnderstood(b"command not understood: " + words[0])
    return words[0]


def no_word_behind(words: Words, many: int) -> None:
    """"`argument not understood: W`: a word too many." """
    if len(words) > many:
        raise NotUnderstood(b"argument not understood: " + words[many])


@writes_bytes
def little_program(_: Answer, words: Words) -> bytes:
    """"It says the first of these that is so": no number, a first word that is no number, a word too many, 14. """
    if not words:
        raise NotUnderstood(b"no number given: little N")
    ordinal = number(words[0])
    if ordinal is None:
        raise NotUnderstood(b"number not understood: " + words[0])
    no_word_behind(words, 1)
    return sheet.write(little.sheet_of(ordinal))


def season_program(answer: Answer, words: Words) -> None:
    """"With `--progress` it says how many sheets it has read, in a line on standard error after every 1,000." Another
    option, or that one a second time, gets `option not understood: ` and the word, any other word `argument not
    understood: ` and the word; "nothing is read then".
    """
    try:
        found = options(words, (b"--progress",))
        no_word_behind(found.words, 0)
    except NotUnderstood as word:
        answer.say(word.said, NOT_UNDERSTOOD)
        return

    def progress(sheets: int) -> None:
        if words:
            answer.complain(f"{sheets} sheets", DONE)

    for line in season.figures(answer.input.read, progress).lines():
        answer.say(line)


@writes_bytes
def turn_program(answer: Answer, words: Words) -> bytes:
    """"`turn bans` reads a sheet of edition 2 on standard input and writes its ban sheet on standard output; `turn
    gaps` reads one of edition 1 and writes its gap sheet."
    """
    command = command_of(words, (b"bans", b"gaps"), b"turn bans, or turn gaps")
    no_word_behind(words, 1)
    data = answer.input.read()
    return sheet.write(turning.ban_sheet(data) if command == b"bans" else turning.gap_sheet(data))


@writes_bytes
def scribe_program(answer: Answer, words: Words) -> bytes:
    """"`scribe sheet` reads a text on standard input and writes its sheet on standard output; `scribe text` reads a
    sheet and writes its text." "Nothing is read before the command line is understood."
    """
    command = command_of(words, (b"sheet", b"text"), b"scribe sheet, or scribe text")
    no_word_behind(words, 1)
    data = answer.input.read()
    return sheet.write(texts.sheet_of(data)) if command == b"sheet" else texts.text_of(sheet.read(data))


PROGRAMS: dict[str, Callable[[Answer, Words], None]] = {
    "dock": dock,
    "board": board,
    "image": image_program,
    "little": little_program,
    "season": season_program,
    "turn": turn_program,
    "scribe": scribe_program,
}
