"""Outcomes of a run, to be counted: what the lines say, without their numbers."""

import re
from collections.abc import Iterator

Said = tuple[bytes, bytes, int]
KEEP_NUMBER = re.compile(r"(?:refused \d+|^start.*|^image(?:, .*)?)$")


def outcomes(said: Said) -> set[str]:
    """The outcomes that were said, each once."""
    out, err, _ = said
    found = set(of_text(err))
    try:
        text = out.decode("ascii")
    except UnicodeDecodeError:
        text = "\0"
    if "\0" in text:
        found.add("bytes")
    else:
        found |= set(of_text(out))
    return found or {"nothing"}


def of_text(said: bytes) -> Iterator[str]:
    """The outcome of each line that names one."""
    for line in said.decode("ascii", "replace").splitlines():
        if " given: " in line or " understood: " in line:
            yield line.split(": ")[0]
        elif line.startswith("cannot read"):
            yield "cannot read"
        elif KEEP_NUMBER.search(line):
            yield re.sub(r"\d+(?=[ :])", "N", line)
        elif re.match(r"verdict|run|pick|deliver|line \d+: |slots|cut|refused|\d+ sheets", line):
            yield re.sub(r"\d+", "N", line) if not line.startswith(("cut", "slots")) else line.split("s ")[0]


def wanted() -> Iterator[tuple[str, str]]:
    """What every whole run has to meet."""
    for word in ("none", "plan", "jammed", "open"):
        yield "dock", f"verdict {word}"
        yield "board", f"run N: {word}, N rounds"
    for number in (1, 2, 3, 4):
        for program in ("dock", "board"):
            yield program, f"sheet refused {number}"
        for program in ("image", "turn", "scribe"):
            yield program, f"refused {number}"
    for number in (6, 7, 8, 10):
        yield "board", f"deliver N N: refused {number}"
    for number in (7, 8, 10):
        yield "board", f"pick N N: refused {number}"
    yield from (("board", "pick N N: delivered N N"), ("board", "rule refused 11"), ("board", "image refused 13"))
    yield from (("image", "refused 11"), ("image", "refused 13"), ("little", "refused 14"), ("turn", "refused 15"))
    yield from (("season", "cut 0"), ("season", "cut 1"), ("season", "N sheets"))
    for said in FAULTS:
        yield "scribe", f"line N: {said}"
    for program in ("image", "little", "turn", "scribe"):
        yield program, "bytes"


FAULTS = (
    "not a statement",
    "slots must come first",
    "slots twice",
    "N to N scanners",
    "a slot count is N to N",
    "bans and gaps in one text",
    "no scanner N",
    "the same scanner twice",
    "the lower-numbered scanner comes first",
    "scanner N has no slot N",
    "a gap is -N to N",
    "least is above greatest",
    "more than N records",
    "text too long",
)
WANTED = tuple(wanted())
