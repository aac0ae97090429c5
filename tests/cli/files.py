"""The files that come with `rail`: completion and the man page; and shellcheck of every script."""

import os
import re
import shlex

from own import COMMANDS, PAGES
from running import TOP, Tests

COMPLETION = TOP / "share/completions/rail"
MAN = TOP / "share/man/rail.1"
FILES = {"a b.sheet", "night.text", "folder"}
PROGRAMS = {"dock", "board", "image", "little", "season", "turn", "scribe"}
NUMBERS = {str(number) for number in range(1, 16) if number != 9}

# Loads the completion $1, and prints what it offers in the directory $2.
OFFER = '. "$1"; cd "$2"; _rail; [[ ${#COMPREPLY[@]} -eq 0 ]] || printf "%s\\n" "${COMPREPLY[@]}"'

# What stands before the cursor, the last word begun; and what is offered then.
OFFERED = (
    ("rail ", {*COMMANDS, "--help", "--version"}),
    ("rail s", {"settle", "season"}),
    ("rail --", {"--help", "--version"}),
    ("rail x", set()),
    ("rail settle ", FILES),
    ("rail settle ni", {"night.text"}),
    ("rail settle -", {"--help"}),
    ("rail settle night.text ", set()),
    ("rail board ", {"--rule", "--image", *FILES}),
    ("rail board --", {"--rule", "--image", "--help"}),
    ("rail board --rule ", {"1", "2"}),
    ("rail board --rule 2 ni", {"night.text"}),
    ("rail board --image fo", {"folder"}),
    ("rail board night.text ", set()),
    ("rail image ", {"write", "move"}),
    ("rail image write --", {"--rule", "--small"}),
    ("rail image write --small --rule ", {"1", "2"}),
    ("rail image write --small ni", {"night.text"}),
    ("rail image move ", FILES),
    ("rail little ", set()),
    ("rail little --", {"--help"}),
    ("rail season --", {"--progress", "--help"}),
    ("rail season --progress ", FILES),
    ("rail turn ", {"bans", "gaps"}),
    ("rail turn gaps ", FILES),
    ("rail text ", {"sheet", "text"}),
    ("rail text sheet n", {"night.text"}),
    ("rail why ", NUMBERS),
    ("rail why 1", {"1", "10", "11", "12", "13", "14", "15"}),
    ("rail help ", set(COMMANDS)),
    ("rail help b", {"board"}),
    ("rail try ", PROGRAMS),
    ("rail try dock n", {"night.text"}),
)


def completion(tests: Tests) -> None:
    """bash loads the completion, and it offers what may stand there."""
    loaded = tests.bash('set -eu; . "$1"; complete -p rail', COMPLETION)
    tests.same(loaded, (b"complete -F _rail rail\n", b"", 0), "loaded")
    folder = tests.scratch / "completed"
    (folder / "folder").mkdir(parents=True)
    for name in FILES - {"folder"}:
        (folder / name).touch()
    for line, wanted in OFFERED:
        words = line.split(" ")
        script = f"COMP_WORDS=({shlex.join(words)}); COMP_CWORD={len(words) - 1}; {OFFER}"
        out, err, _ = tests.bash(script, COMPLETION, folder)
        tests.same((sorted(out.decode().splitlines()), err), (sorted(wanted), b""), line)


def man_page(tests: Tests) -> None:
    """The man page has no warnings, its chapters, every command, and the version."""
    env = {"LC_ALL": "C.UTF-8", "MANWIDTH": "80", "MANPAGER": "cat", "MAN_KEEP_FORMATTING": ""}
    out, err, status = tests.run(["man", "--warnings", "-l", MAN], env=env)
    tests.same((err, status), (b"", 0), "man --warnings")
    text = re.sub(r".\x08|\x1b\[[0-9;]*m", "", out.decode())
    found = re.findall(r"^[A-Z][A-Z ]*$", text, re.M)
    wanted = ["NAME", "SYNOPSIS", "DESCRIPTION", "COMMANDS", "EXIT STATUS", "FILES", "EXAMPLES", "SEE ALSO"]
    tests.same(sorted(found), sorted(wanted), "chapters")
    for command in PAGES:
        for line in (rf"rail {command}\b", rf"{command}(\s|$)"):
            tests.check(re.search(rf"^       {line}", text, re.M) is not None, f"a line {line}", text)
    version = (TOP / "VERSION").read_text().strip()
    tests.check(f'"Necuaxomi {version}"' in MAN.read_text(), f"the man page's version is {version}")


def shellcheck(tests: Tests) -> None:
    """shellcheck has nothing to say of any script."""
    scripts = [COMPLETION]
    for directory in ("bin", "tools", "tests", ".ci"):
        for path in sorted((TOP / directory).rglob("*")):
            if path.is_file() and re.match(rb"#!.*\b(ba|da)?sh\b", path.read_bytes()[:80].split(b"\n")[0]):
                scripts.append(path)
    for script in scripts:
        tests.same(tests.run(["shellcheck", script]), (b"", b"", 0), script.relative_to(TOP))
    tests.check(os.access(TOP / "bin/rail", os.X_OK), "bin/rail can be run")
