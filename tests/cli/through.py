"""The programs, and the same command lines through `rail`."""

import re
import subprocess
from pathlib import Path

from cases import CASES, COMMANDS, EVERY, FAULTY, GAPS, LOOPS, P9, SAID_OF_FAULTY, SMALL, STATUSES, WRITING, example
from running import BIN, EXAMPLES, NAMES, Tests, reading

TEXTS = [file.stem for file in sorted(EXAMPLES.glob("*.text"))]
# No UTF-8: the programs read no file of such a name (docs/DECISIONS.md). `rail` does, for `settle` and where it is a
# text.
ODD = b"\xff\xfe night"
# What examples/README.md says of the sheets that take the second reading long.
LONG = {"long_search": b"verdict none\nrounds 73855\n", "spins": b"verdict open\nrounds 6\n"}


def statuses(tests: Tests) -> None:
    """Each status of each program, against the pages."""
    met: dict[str, set[int]] = {name: set() for name in NAMES}
    for case in CASES:
        said = tests.run([BIN / case.program, *case.words], case.stdin)
        wanted = reading(case.program, case.words, case.stdin, tests.files)
        tests.same(said, wanted, f"{case.program} {case.words}")
        tests.same(said[2], case.status, f"status of {case.program} {case.words}")
        met[case.program].add(said[2])
    for name in NAMES:
        tests.same(met[name], STATUSES.get(name, EVERY), f"statuses of {name}")


def commands(tests: Tests) -> None:
    """Through `rail` nothing changes: output, standard error and status."""
    for case in CASES:
        if case.alike:
            wanted = reading(case.program, case.words, case.stdin, tests.files)
            said = tests.through(case.command, *case.words, stdin=case.stdin)
            tests.same(said, wanted, f"{case.command} {case.words}")
    for name, command in COMMANDS.items():
        tests.same(tests.through(name, "--help"), tests.through(command, "--help"), f"{name} for {command}")
    tests.same(tests.through("dock", stdin=P9), tests.through("settle", stdin=P9), "dock for settle")


def files(tests: Tests) -> None:
    """A file in place of standard input; words too many and files that cannot be read."""
    for command, name in (("turn bans", "neighbours.sheet"), ("text sheet", "p9.text"), ("text text", "p9.sheet")):
        words = command.split()
        wanted = reading({"text": "scribe"}.get(words[0], words[0]), words[1:], tests.files[name.encode()], {})
        tests.same(tests.through(*words, name), wanted, f"{command} {name}")
    tests.same(tests.through("settle", "p9.sheet"), reading("dock", [], P9, {}), "settle p9.sheet")
    tests.put("stream", SMALL)
    wanted = reading("season", [], SMALL, {})
    tests.same(tests.through("season", "stream"), wanted, "season stream")
    tests.same(tests.through("season", "--progress", "stream"), wanted, "season --progress stream")
    for word, said in (("--each", b"option not understood: --each\n"), ("x", b"argument not understood: x\n")):
        tests.same(tests.through("season", word, "stream"), (said, b"", 2), f"season {word} stream")
    for command in ("turn bans", "text text"):
        for name in ("p9.sheet", "faulty.text", "absent"):
            said = tests.through(*command.split(), name, "x")
            tests.same(said, (b"", b"argument not understood: x\n", 2), f"{command} {name} x")
    tests.same(tests.through("turn", "ban", "absent"), (b"", b"command not understood: ban\n", 2), "turn ban absent")
    for command in ("settle", "season", "turn gaps", "text sheet"):
        for absent in ("absent", ".", ""):
            said = tests.through(*command.split(), absent)
            tests.same(said, (b"", f"rail: cannot read {absent}\n".encode(), 2), f"{command} {absent!r}")
    tests.same(tests.through("board", "."), reading("board", ["."], b"", {}), "board of a directory")


def texts(tests: Tests) -> None:
    """A text where a sheet is expected, as a file and on standard input, is its sheet."""
    for name in TEXTS:
        sheet, text = example(f"{name}.sheet"), example(f"{name}.text")
        wanted = (LONG[name], b"", 0) if name in LONG else reading("dock", [], sheet, {})
        tests.same(tests.through("settle", f"{name}.text"), wanted, f"settle {name}.text")
        tests.same(tests.through("settle", stdin=text), wanted, f"settle < {name}.text")
        for command in ("board", "image write"):
            program, *first = command.split()
            found = tests.through(program, *first, "--rule", "2", f"{name}.text", "r2", "2-1", "w1-2")
            words = [*first, "--rule", "2", f"{name}.sheet", "r2", "2-1", "w1-2"]
            tests.same(found, reading(program, words, b"", tests.files), f"{command} {name}.text")
        for way in ("bans", "gaps"):
            wanted = reading("turn", [way], sheet, {})
            tests.same(tests.through("turn", way, f"{name}.text"), wanted, f"turn {way} {name}.text")
            tests.same(tests.through("turn", way, stdin=text), wanted, f"turn {way} < {name}.text")


def pipes(tests: Tests) -> None:
    """A file of `board` that is a pipe or a device."""
    wanted = reading("board", ["p9.sheet", "r1"], b"", tests.files)
    for line in ("board <(cat p9.text) r1", "board <(cat p9.sheet) r1", "board /dev/stdin r1 <p9.text"):
        tests.same(tests.bash(f'"$1" {line}', tests.rail), wanted, line)
    wanted = reading("board", ["--image", "p9.image", "r1"], b"", tests.files)
    line = "board --image <(cat p9.image) r1"
    tests.same(tests.bash(f'"$1" {line}', tests.rail), wanted, line)


def faulty_texts(tests: Tests) -> None:
    """The line of a faulty text comes out, with status 1; what is wrong with the options comes before it."""
    wanted = (b"", SAID_OF_FAULTY, 1)
    for command in ("settle", "turn bans", "turn gaps", "board", "board --rule 2", "image write --small"):
        tests.same(tests.through(*command.split(), "faulty.text"), wanted, f"{command} faulty.text")
    for command in ("settle", "turn bans"):
        tests.same(tests.through(*command.split(), stdin=FAULTY), wanted, f"{command} < faulty.text")
    tests.same(tests.through("board", "faulty.text", "x"), wanted, "board faulty.text x")
    for words in (["image", "move", "faulty.text"], ["image", "draw", "faulty.text"]):
        tests.same(tests.through(*words), reading("image", words[1:], b"", tests.files), words)
    for options in ("--rule 3", "--rule x", "--rule 1 --rule 1", "--small", "--other", "--image", "--rule 1 --image"):
        words = [*options.split(), "faulty.text", "r1"]
        tests.same(tests.through("board", *words), reading("board", words, b"", tests.files), f"board {words}")
    for options in ("--rule 3", "--rule", "--small --small", "--image"):
        words = ["write", *options.split(), "faulty.text", "r1"]
        tests.same(tests.through("image", *words), reading("image", words, b"", tests.files), f"image {words}")


def neither(tests: Tests) -> None:
    """What is no text is left to the program: nothing, first bytes below 32; and input that is long or has no end."""
    starts = (b"\0", b"\0slots 1\n", b"\nslots 1\n", b"\tslots 1\n", b"\x1fslots 1\n")
    for number, first in enumerate((b"", LOOPS, *starts)):
        name = f"odd {number}"
        tests.put(name, first)
        wanted = reading("dock", [], first, {})
        tests.same(tests.through("settle", name), wanted, f"settle of {first!r}")
        tests.same(tests.through("settle", stdin=first), wanted, f"settle < {first!r}")
        tests.same(tests.through("board", name), reading("board", [name], b"", tests.files), f"board of {first!r}")
    for first in (b" ", b"#", b"\xff", b"\xef\xbb\xbfslots 1\n"):
        wanted = reading("scribe", ["sheet"], first, {})
        tests.same(tests.through("turn", "bans", stdin=first), wanted, f"turn bans < {first!r}")
    for length in (1_048_576, 1_048_577, 3_000_000):
        data = b"slots 1\n" + b"#" * (length - 8)
        wanted = reading("scribe", ["sheet"], data, {})
        wanted = reading("dock", [], wanted[0], {}) if wanted[2] == 0 else wanted
        tests.same(tests.through("settle", stdin=data), wanted, f"a text of {length} bytes")
        tests.put("long", data)
        tests.same(tests.through("settle", "long"), wanted, f"a text of {length} bytes in a file")
    tests.same(tests.through("settle", stdin=P9 + bytes(2_000_000)), (b"sheet refused 1\n", b"", 1), "a long sheet")
    endless = tests.bash('yes | "$1" settle', tests.rail)
    tests.same(endless, (b"", b"line 1: not a statement\n", 1), "a text without end")
    endless = tests.bash('"$1" settle </dev/zero', tests.rail)
    tests.same(endless, (b"sheet refused 2\n", b"", 1), "zeros without end")
    for how in ("<&-", "< ."):
        tests.same(tests.bash(f'"$1" settle {how}', tests.rail), (b"sheet refused 1\n", b"", 1), f"settle {how}")


def full_disk(tests: Tests) -> None:
    """Where standard output cannot be written: status 3 and `cannot write`, of the programs and of `rail`."""
    tests.put("input", b"")
    for case in WRITING:
        (tests.place / "input").write_bytes(case.stdin)
        for first in ([BIN / case.program], [tests.rail, case.command]):
            said = tests.bash('"$@" <input >/dev/full', *first, *case.words)
            tests.same(said, (b"", b"cannot write\n", 3), f"{first} {case.words}")
    for words in ("help", "help board", "why", "why 8", "--version"):
        said = tests.bash('"$@" >/dev/full', tests.rail, *words.split())
        tests.same(said, (b"", b"rail: cannot write\n", 3), words)


def full_temporary(tests: Tests) -> None:
    """Where no temporary file can be made, or none can grow: status 3, and nothing is settled."""
    last = '"$1" settle p9.text 2>&1 | tail -1; exit "${PIPESTATUS[0]}"'
    wanted = (b"rail: cannot write a temporary file\n", b"", 3)
    absent = {"TMPDIR": str(tests.scratch / "absent")}
    tests.same(tests.bash(last, tests.rail, env=absent), wanted, "no place")
    tests.same(tests.bash(f"trap '' XFSZ; ulimit -f 0; {last}", tests.rail), wanted, "no room")


def early_ends(tests: Tests) -> None:
    """A pipe that is closed early: no hang, and no message but `cannot write`, with 3; or the signal ends it."""
    long = ["p9.sheet", *["r1"] * 3_000]
    tests.put("many", b"slots 2 1 2\n" + b"ban 1:1 3:1\nban 2:1 3:2\n" * 2_000)
    lines = [[BIN / "board", *long], [tests.rail, "board", *long], [tests.rail, "board", "p9.text", *long[1:]]]
    lines += [[tests.rail, "text", "sheet", "many"], [tests.rail, "why"], [tests.rail, "help"]]
    for words in lines:
        status, said = closed_early(tests.place, words)
        ends = {-13: (b"",), 0: (b"",), 3: (b"cannot write\n",)}
        tests.check(said in ends.get(status, ()), words[:4], (status, said))
        said = tests.bash('"$@" | head -c 1 >/dev/null; exit "${PIPESTATUS[0]}"', *words)
        ends = {141: (b"",), 0: (b"",), 3: (b"cannot write\n",)}
        tests.check(said[1] in ends.get(said[2], ()), words[:4], said)


def closed_early(place: Path, words: list[str | Path]) -> tuple[int, bytes]:
    """Status and standard error of a command whose output is read to its first byte."""
    with subprocess.Popen(words, stdout=subprocess.PIPE, stderr=subprocess.PIPE, cwd=place) as running:
        assert running.stdout is not None
        running.stdout.read(1)
        running.stdout.close()
        try:
            _, said = running.communicate(timeout=60)
        except subprocess.TimeoutExpired:
            running.kill()
            return -1, b"no end"
        return running.returncode, re.sub(rb"^rail: ", b"", said)


def names(tests: Tests) -> None:
    """File names that are no UTF-8, or have blanks, newlines or hyphens."""
    for name in (ODD, b"a b", b"new\nline", b"back\\slash", b"*", b"'\"", b"-n", b"-h"):
        for data, ending in ((P9, b".sheet"), (example("p9.text"), b".text"), (GAPS, b".gaps")):
            tests.put(name + ending, data)
            given = name + ending
            sheet = data if ending != b".text" else P9
            tests.same(tests.through("settle", given), reading("dock", [], sheet, {}), f"settle {given!r}")
            wanted = reading("board", ["sheet", "r1"], b"", {b"sheet": sheet})
            if name == ODD and ending != b".text":
                wanted = (b"cannot read " + given + b"\n", b"", 2)
            tests.same(tests.through("board", given, "r1"), wanted, f"board {given!r}")
    said = b"cannot read \xff absent\n"
    tests.same(tests.through("board", b"\xff absent"), (said, b"", 2), "board of an absent file")
    tests.same(tests.through("settle", b"\xff absent"), (b"", b"rail: " + said, 2), "settle of an absent file")
    tests.put("-h", P9)
    wanted = reading("board", ["--rule", "1", "-h"], b"", tests.files)
    tests.same(tests.through("board", "--rule", "1", "-h"), wanted, "board --rule 1 -h")
    tests.same(tests.through("board", "./-h"), reading("board", ["-h"], b"", tests.files), "board ./-h")
