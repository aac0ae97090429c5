"""Runs command lines and counts what agrees."""

import os
import subprocess
import sys
from collections.abc import Iterator, Mapping, Sequence
from contextlib import contextmanager
from dataclasses import dataclass, field
from pathlib import Path

TOP = Path(__file__).resolve().parents[2]
sys.path.insert(0, str(TOP / "tools"))

from second_reading import programs  # noqa: E402

EXAMPLES = TOP / "examples"
BIN = Path(os.environ.get("BIN", TOP / "target/bin")).resolve()
NAMES = tuple(programs.PROGRAMS)
SECONDS = 60
Word = str | bytes
Said = tuple[bytes, bytes, int]


def as_bytes(words: Sequence[Word]) -> list[bytes]:
    """Words of a command line as bytes."""
    return [os.fsencode(word) for word in words]


def reading(program: str, words: Sequence[Word], stdin: bytes, files: Mapping[bytes, bytes]) -> Said:
    """What the second reading of the pages says that a program says."""
    return programs.run(program, as_bytes(words), stdin, files)


@dataclass
class Tests:
    """A scratch directory, and the counts."""

    scratch: Path
    passed: int = 0
    failed: int = 0
    name: str = ""
    files: dict[bytes, bytes] = field(default_factory=dict)

    def __post_init__(self) -> None:
        self.place = self.scratch / "work place"
        self.temporary = self.scratch / "temporary"
        self.rail = self.scratch / "an installed rail" / "bin" / "rail"
        for directory in (self.place, self.temporary):
            directory.mkdir()

    def put(self, name: Word, data: bytes) -> None:
        """A file in the place where the command lines run."""
        self.files[os.fsencode(name)] = data
        (self.place / os.fsdecode(name)).write_bytes(data)

    def run(self, words: Sequence[Word | Path], stdin: bytes = b"", env: Mapping[str, str] | None = None) -> Said:
        """What a command line says, on this standard input. It must leave no temporary file."""
        whole = os.environ | {"TMPDIR": str(self.temporary)} | dict(env or {})
        try:
            done = subprocess.run(words, input=stdin, capture_output=True, cwd=self.place, env=whole, timeout=SECONDS)
        except subprocess.TimeoutExpired:
            return b"", b"no end after %d seconds" % SECONDS, -1
        left = os.listdir(self.temporary)
        return done.stdout, done.stderr + f"left: {left}".encode() * bool(left), done.returncode

    def bash(self, script: str, *words: Word | Path, env: Mapping[str, str] | None = None) -> Said:
        """What a line of bash says; the words are its $1, $2, .."""
        return self.run(["bash", "-c", script, "bash", *words], env=env)

    def through(self, *words: Word, stdin: bytes = b"") -> Said:
        """What `rail` says."""
        return self.run([self.rail, *words], stdin)

    @contextmanager
    def group(self, name: str) -> Iterator[None]:
        """A group of checks; one line says how many passed."""
        passed, failed, self.name = self.passed, self.failed, name
        yield
        failures = self.failed - failed
        print(f"{name}: {self.passed - passed} passed" + f", {failures} FAILED" * bool(failures), flush=True)

    def check(self, good: bool, what: object, found: object = "") -> None:
        """Counts a check, and tells where it fails."""
        if good:
            self.passed += 1
            return
        self.failed += 1
        print(f"FAILED {self.name}: {what}\n    found:  {shown(found)}")

    def same(self, found: object, wanted: object, what: object) -> None:
        """Checks that something is what is wanted."""
        self.check(found == wanted, f"{what}\n    wanted: {shown(wanted)}", found)


def shown(value: object) -> str:
    """A value, shortened in the middle."""
    text = repr(value)
    return text if len(text) < 1_000 else f"{text[:600]} .. {text[-300:]}"
