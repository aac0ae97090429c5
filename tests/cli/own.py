"""What `rail` itself says, and where it is found."""

import os
import pty
import re
import select
import shutil
import signal
import subprocess
import time
from pathlib import Path

from cases import FAULTY, P9, SMALL, example
from running import BIN, EXAMPLES, NAMES, SECONDS, TOP, Said, Tests, reading

COMMANDS = ("settle", "board", "image", "little", "season", "turn", "text", "why", "try", "help")
PAGES = (*COMMANDS, "--version")
HINT = b"rail help lists the commands\n"
WITHOUT = {
    "settle p9.sheet": "dock",
    "settle p9.text": "scribe",
    "board p9.text r1": "board",
    "image move p9.image": "image",
    "image write p9.text": "image",
    "little 0": "little",
    "season": "season",
    "turn bans": "turn",
    "text text": "scribe",
}
WAITS = {
    "settle": ("a sheet or a text", example("p9.text"), ("dock",)),
    "season": ("a stream of sheets", b"", ("season",)),
    "turn bans": ("a sheet or a text", example("neighbours.text"), ("turn", "bans")),
    "text sheet": ("a text", example("p9.text"), ("scribe", "sheet")),
    "text text": ("a sheet", b"", ("scribe", "text")),
}


def own_words(tests: Tests) -> None:
    """Words that `rail` itself does not understand, and none."""
    for words in (["bogus"], [""], ["Settle"], ["--rule", "2"], ["help", "bogus"], ["bogus", "--help"], ["-x"]):
        word = words[1] if words[0] == "help" else words[0]
        wanted = (b"", b"rail: command not understood: " + word.encode() + b"\n" + HINT, 2)
        tests.same(tests.through(*words), wanted, words)
    said = b"rail: command not understood: \xff\n" + HINT
    tests.same(tests.through(b"\xff"), (b"", said, 2), "a word that is no UTF-8")
    tests.same(tests.through(), (b"", tests.through("help")[0], 2), "no word")
    for words, said in (
        ("settle --rule", "option not understood: --rule"),
        ("settle p9.sheet more", "argument not understood: more"),
        ("help board more", "argument not understood: more"),
        ("why 8 9", "argument not understood: 9"),
        ("try dock", "try runs a program's source, and needs a checkout with tools/try"),
    ):
        tests.same(tests.through(*words.split()), (b"", f"rail: {said}\n".encode(), 2), words)


def help_pages(tests: Tests) -> None:
    """One screen each, by every way to it; each names its command and has an example that works."""
    ways = [["help"], ["--help"], ["-h"]]
    for words in ways:
        tests.same(tests.through(*words), tests.through("help"), words)
    main = tests.through("help")[0].decode()
    for command in PAGES:
        tests.check(re.search(rf"^    {command}\b", main, re.M) is not None, f"rail help names {command}", main)
        found = tests.through("help", command)
        page(tests, found, f"help {command}")
        tests.check(found[0].startswith(f"rail {command}".encode()), f"usage of {command}", found[0])
        for flag in ("--help", "-h"):
            tests.same(tests.through(command, flag), found, f"{command} {flag}")
    page(tests, tests.through("help"), "help")
    for status in ("0 done", "1 a sheet", "2 something", "3 cannot write"):
        tests.check(status in main.replace("\n", " "), f"rail help has the status {status}", main)


def page(tests: Tests, said: Said, name: str) -> None:
    """A page of help: at most 24 lines of 80 columns, and an example that ends well."""
    lines = said[0].decode("ascii").splitlines()
    tests.same(said[1:], (b"", 0), f"status: {name}")
    tests.check(0 < len(lines) <= 24 and max(map(len, lines)) <= 80, f"one screen: {name}", lines)
    examples = [line.strip() for line in lines if re.match(r"    (printf|rail) ", line)]
    tests.check(bool(examples), f"an example: {name}", lines)
    place = tests.scratch / "examples of help"
    if not place.exists():
        shutil.copytree(EXAMPLES, place / "examples")
    for line in examples:
        if not line.startswith("rail try"):
            path = f"{tests.rail.parent}:{os.environ['PATH']}"
            said = tests.bash('cd "$1" && set -o pipefail && eval "$2"', place, line, env={"PATH": path})
            tests.check(said[1:] == (b"", 0) and (said[0] != b"" or ">" in line), line, said)


def why(tests: Tests) -> None:
    """Every number of the table in docs/RULES.md is explained, in a sentence or two or three; 9 is not used."""
    rules = (TOP / "docs/RULES.md").read_text()
    table = rules.split("## Why a call comes back")[1].split("\n## ")[0]
    rows = dict(re.findall(r"^\| (\d+) \| (.*) \|$", table, re.M))
    whole = ""
    for number in map(str, range(1, 16)):
        out, err, status = tests.through("why", number)
        said = " ".join(out.decode().split())
        tests.check((err, status) == (b"", 0) and said.startswith(f"{number} "), f"why {number}", said)
        tests.check(max(map(len, out.decode().splitlines())) <= 80, f"80 columns: why {number}", out)
        if number in rows:
            words = set(re.findall(r"[a-z]{4,}", rows[number].split("(")[0])) & set(re.findall(r"[a-z]{4,}", said))
            tests.check(len(words) > 0, f"why {number} speaks of: {rows[number]}", said)
        else:
            tests.same(said, "9 This number is not used.", "the number without a row")
        whole += out.decode()
    tests.same(tests.through("why"), (whole.encode(), b"", 0), "why alone lists them all")
    for word in ("0", "16", "08", "x", "-1", "1x", "1 ", "8.", "*"):
        said = f"rail: number not understood: {word}\n".encode()
        tests.same(tests.through("why", word), (b"", said, 2), f"why {word!r}")


def version(tests: Tests) -> None:
    """The version, of a checkout and where it is installed, with the toolchain's line."""
    number = (TOP / "VERSION").read_text()
    tests.check(re.fullmatch(r"\d+\.\d+\.\d+\n", number) is not None, "VERSION is three numbers", number)
    wanted = f"rail (Necuaxomi) {number}".encode()
    tests.same(tests.run([TOP / "bin/rail", "--version"]), (wanted, b"", 0), "version of a checkout")
    tests.same(tests.through("--version"), (wanted, b"", 0), "version where installed")
    rail = installed(tests.scratch / "version", "libexec/necuaxomi")
    toolchain = rail.parents[1] / "share/necuaxomi/TOOLCHAIN"
    toolchain.write_text("rattle-kit-0 of a test\n")
    said = wanted + b"rattle-kit-0 of a test\n"
    tests.same(tests.run([rail, "--version"]), (said, b"", 0), "version with the toolchain")
    shutil.rmtree(toolchain.parent)
    tests.same(tests.run([rail, "--version"]), (b"", b"rail: cannot read VERSION\n", 2), "no VERSION")


def places(tests: Tests) -> None:
    """`rail` finds programs through links, on PATH, from anywhere; beside itself, in libexec and in a checkout."""
    wanted = reading("dock", [], P9, {})
    links = tests.scratch / "links"
    links.mkdir()
    (links / "rail").symlink_to(os.path.relpath(tests.rail, links))
    (links / "again").symlink_to("rail")
    for link in ("rail", "again"):
        tests.same(tests.run([links / link, "settle", "p9.text"]), wanted, f"through the link {link}")
    path = {"PATH": f"{links}:{os.environ['PATH']}"}
    tests.same(tests.bash("rail settle p9.text", env=path), wanted, "on PATH")
    tests.same(tests.bash('bash "$1" settle p9.text', tests.rail), wanted, "bash rail")
    said = tests.bash('cd "$(dirname "$1")" && ./rail settle "$2"', tests.rail, tests.place / "p9.text")
    tests.same(said, wanted, "./rail")
    tests.same(tests.bash('cd .. && "$1" settle "work place/p9.text"', tests.rail), wanted, "from another directory")
    stranger = installed(tests.scratch / "a stranger beside rail", "libexec/necuaxomi").parent / "dock"
    stranger.write_text("#!/bin/sh\necho a stranger\n")
    stranger.chmod(0o755)
    tests.same(tests.run([stranger.parent / "rail", "settle", "p9.text"]), wanted, "libexec before a stranger")
    for name, programs in (("checkout", "target/bin"), ("beside", "bin"), ("libexec", "libexec/necuaxomi")):
        rail = installed(tests.scratch / f"laid out: {name}", programs)
        tests.same(tests.run([rail, "settle", "p9.text"]), wanted, f"programs in {programs}")


def no_programs(tests: Tests) -> None:
    """Where a program is missing, `rail` says what to do. A directory is none, nor is a file that cannot be run."""
    rail = tests.scratch / "no programs/bin/rail"
    rail.parent.mkdir(parents=True)
    shutil.copy(TOP / "bin/rail", rail)
    (rail.parent / "dock").mkdir()
    (rail.parent / "scribe").write_bytes((BIN / "scribe").read_bytes())
    for words, program in WITHOUT.items():
        said = f"rail: {program} is not built: run tools/build {program} or tools/try\n".encode()
        tests.same(tests.run([rail, *words.split()], P9), (b"", said, 2), words)


def installed(top: Path, programs: str) -> Path:
    """A layout with bin/rail, the programs and share/necuaxomi/VERSION."""
    for directory in ("bin", programs, "share/necuaxomi"):
        (top / directory).mkdir(parents=True, exist_ok=True)
    shutil.copy(TOP / "bin/rail", top / "bin/rail")
    shutil.copy(TOP / "VERSION", top / "share/necuaxomi/VERSION")
    for name in NAMES:
        shutil.copy(BIN / name, top / programs / name)
    return top / "bin/rail"


def try_source(tests: Tests) -> None:
    """`rail try` hands over words, input, output and status; here to a stand-in for tools/try."""
    rail = installed(tests.scratch / "try", "target/bin")
    tool = rail.parents[1] / "tools/try"
    tool.parent.mkdir()
    tool.write_text('printf "<%s>" "$@"; cat; exit 7\n')
    said = tests.run([rail, "try", "dock", "a b", "--rule", ""], b"input")
    tests.same(said, (b"<dock><a b><--rule><>input", b"", 7), "try dock ..")


def terminal(tests: Tests) -> None:
    """On a terminal the commands say what they wait for; they do not where they read something else or nothing."""
    for command, (what, text, program) in WAITS.items():
        said = f"rail {command.split()[0]}: waiting for {what} on standard input; end it with Ctrl-D\n".encode()
        if command.startswith("text") or not text:
            stdin = text
        else:
            stdin = reading("scribe", ["sheet"], text, {})[0]
        out, err, status = reading(program[0], program[1:], stdin, {})
        tests.same(typed(tests, command.split(), text, said), (out, said + err, status), f"{command} on a terminal")
        given = "stream" if command == "season" else "p9.sheet"
        err = typed(tests, [*command.split(), given], b"", b"")[1]
        tests.check(b"waiting" not in err, f"{command} FILE on a terminal", err)
        err = tests.through(*command.split(), stdin=text)[1]
        tests.check(b"waiting" not in err, f"{command} without a terminal", err)
    for words in ("settle --x", "season --x", "turn", "turn ban", "turn bans p9.sheet x", "text", "text x"):
        out, err, status = typed(tests, words.split(), b"", b"")
        tests.same((b"waiting" in err, status), (False, 2), words)
        tests.check(b" given: " in err or b" understood: " in out + err, words, (out, err))


def typed(tests: Tests, words: list[str], text: bytes, after: bytes) -> Said:
    """What `rail` says where standard input is a terminal; `after` was said, a text and Ctrl-D are typed."""
    ours, theirs = pty.openpty()
    env = os.environ | {"TMPDIR": str(tests.temporary)}
    with subprocess.Popen([tests.rail, *words], stdin=theirs, stdout=subprocess.PIPE, stderr=subprocess.PIPE,
                          cwd=tests.place, env=env, start_new_session=True) as running:
        os.close(theirs)
        assert running.stderr is not None
        err = b""
        while len(err) < len(after) and select.select([running.stderr], [], [], SECONDS)[0]:
            part = os.read(running.stderr.fileno(), 65_536)
            if not part:
                break
            err += part
        if after:
            os.write(ours, text + b"\x04")
        try:
            out, rest = running.communicate(timeout=SECONDS)
        except subprocess.TimeoutExpired:
            running.kill()
            out, rest = b"", b"no end"
    os.close(ours)
    return out, err + rest, running.returncode


def heeds_interrupts() -> None:
    """SIGINT has its usual effect, even if whoever runs the tests ignores it."""
    signal.signal(signal.SIGINT, signal.SIG_DFL)


def ended(tests: Tests) -> None:
    """A signal while standard input is awaited ends `rail`, and no temporary file is left."""
    for number in (signal.SIGTERM, signal.SIGINT, signal.SIGHUP):
        running = subprocess.Popen([tests.rail, "settle"], stdin=subprocess.PIPE, stdout=subprocess.DEVNULL,
                                   stderr=subprocess.DEVNULL, env=os.environ | {"TMPDIR": str(tests.temporary)},
                                   start_new_session=True, preexec_fn=heeds_interrupts)
        until = time.monotonic() + SECONDS
        while not list(tests.temporary.glob("*/given")) and time.monotonic() < until:
            time.sleep(0.01)
        os.killpg(running.pid, number)
        try:
            status = running.wait(timeout=SECONDS)
        except subprocess.TimeoutExpired:
            status = 0
            running.kill()
        assert running.stdin is not None
        running.stdin.close()
        tests.check(status in (-number, 128 + number), f"ends by {number.name}", status)
        tests.same(os.listdir(tests.temporary), [], f"temporary files after {number.name}")
    tests.same(tests.through("settle", stdin=FAULTY)[2], 1, "no temporary file is left after a faulty text")
    tests.same(tests.through("season", stdin=SMALL), reading("season", [], SMALL, {}), "nor after a stream")
