"""The words of a command line: options, numbers, calls."""

import re
import sys
from collections.abc import Mapping
from dataclasses import dataclass

Words = list[bytes]

# A number may be of any length.
sys.set_int_max_str_digits(0)


class NotUnderstood(Exception):
    """A word that is not understood, a file that cannot be read, or a word that is missing: one line that says so."""

    def __init__(self, said: bytes) -> None:
        super().__init__(said)
        self.said = said


@dataclass(frozen=True)
class Deliver:
    """`A-B`, a delivery."""

    sender: int
    receiver: int


@dataclass(frozen=True)
class Run:
    """`rN`, a run with N rounds."""

    rounds: int


@dataclass(frozen=True)
class Pick:
    """`wA-B`, one pick of the dispatcher with the line from A to B for its wish."""

    sender: int
    receiver: int


Call = Deliver | Run | Pick


@dataclass(frozen=True)
class Options:
    """The options found, and the words behind them. `rule` is 1 where none is given."""

    rule: int
    image: bool
    small: bool
    words: Words


def number(word: bytes) -> int | None:
    """"Numbers in calls and options are digits only; leading zeros do no harm." "Of any length". """
    return int(word.lstrip(b"0") or b"0") if re.fullmatch(rb"[0-9]+", word) else None


def small_number(word: bytes) -> int | None:
    """A number of 0 to 255."""
    found = number(word)
    return found if found is not None and found <= 255 else None


def options(words: Words, known: tuple[bytes, ...]) -> Options:
    """"`option not understood: W`: an unknown option; `--rule` as the last word or a second time; the word behind
    `--rule` that is no number of 0 to 255; the second of `--rule` and `--image`." "Options stand before the file."

    An option is a word that begins with two hyphens.
    """
    found: dict[bytes, int] = {}
    at = 0
    while at < len(words) and words[at].startswith(b"--"):
        option = words[at]
        require_option(option in known and option not in found, option)
        require_option(not {b"--rule", b"--image"} <= {option, *found}, option)
        found[option] = 1
        if option == b"--rule":
            require_option(at + 1 < len(words), option)
            at += 1
            rule = small_number(words[at])
            require_option(rule is not None, words[at])
            found[option] = rule if rule is not None else 0
        at += 1
    return Options(found.get(b"--rule", 1), b"--image" in found, b"--small" in found, words[at:])


def require_option(understood: bool, word: bytes) -> None:
    """Says that an option is not understood where that is so."""
    if not understood:
        raise NotUnderstood(b"option not understood: " + word)


def call(word: bytes) -> Call:
    """A call, or "`call not understood: W`". The scanner numbers of a call are 0 to 255."""
    if word.startswith(b"r"):
        rounds = number(word[1:])
        if rounds is not None:
            return Run(rounds)
    elif match := re.fullmatch(rb"(w?)([0-9]+)-([0-9]+)", word):
        sender, receiver = small_number(match[2]), small_number(match[3])
        if sender is not None and receiver is not None:
            return Pick(sender, receiver) if match[1] else Deliver(sender, receiver)
    raise NotUnderstood(b"call not understood: " + word)


def opened(files: Mapping[bytes, bytes], name: bytes) -> bytes:
    """"`cannot read W`: a file." """
    try:
        return files[name]
    except KeyError as absent:
        raise NotUnderstood(b"cannot read " + name) from absent
