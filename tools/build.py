#!/usr/bin/env python3
"""Proves and builds programs, each into target/bin: bash tools/build [NAME ..], all seven if none is named.

The libraries that they need are proved in the order of crates.txt's dependencies, as many at a time as processors and
memory allow. rt lets one command at a time work over a library, so each crate is proved in a room of its own: a
folder with its sources, those of the libraries below it, and what was built of them. What the proof leaves in out/
then moves to crates/NAME/out, where every rt command finds it; rt decides what is still good there. A crate's folder
is locked meanwhile, as rt locks it, so that other builds and rt commands wait.

A line on standard error says that a crate is finished, with its seconds: [7/24] abt_engine 31 s. What rt said of it
is in target/log/NAME. The status is 0, or 1 where a crate is not proved or built, or 2 where there is no such program
or no rt, or 128 + N after signal N.
"""

import fcntl
import os
import re
import shutil
import signal
import subprocess
import sys
import time
from dataclasses import dataclass
from functools import cache
from pathlib import Path

TOP = Path(__file__).resolve().parents[1]
CRATES, BIN, LOGS = TOP / "crates", TOP / "target/bin", TOP / "target/log"
# Where the rooms are: on the disk of the sources, and if it can be out of sight of git and of `rt ci`.
ROOMS = (TOP / ".git" if (TOP / ".git").is_dir() else TOP / "target") / "build"
PROGRAMS = ("dock", "board", "image", "little", "season", "turn", "scribe")
MEMORY_OF_ONE = 3_000_000_000
LINES_OF_A_LOG = 30
NO_RT = (
    "rt is not on PATH. It is the command of the Rattle toolchain, bin/rt in its folder; README.md, 'Quick start',"
    " has the line that `rt version` must print."
)


def listed() -> dict[str, str]:
    """The line of crates.txt for each crate."""
    lines = (it.split("#")[0].strip() for it in (TOP / "crates.txt").read_text().splitlines())
    return {it.split(":")[0].split()[0]: it for it in lines if it}


LISTED = listed()
USES = {name: [it for it in line.partition(":")[2].split() if it in LISTED] for name, line in LISTED.items()}


@cache
def below(name: str) -> frozenset[str]:
    """All libraries that a crate stands on."""
    return frozenset(USES[name]).union(*(below(it) for it in USES[name]))


def is_program(name: str) -> bool:
    """Whether the crate is a program."""
    return name in USES and (CRATES / name / "src/main.rt").is_file()


def size(name: str) -> int:
    """How much there is to prove in a crate: the bytes of its sources."""
    return sum(it.stat().st_size for part in ("src", "specs", "proofs") for it in (CRATES / name / part).rglob("*.*"))


def chains(names: set[str]) -> dict[str, int]:
    """The size of the longest chain upward that begins with each of these crates: what takes long goes first."""
    found: dict[str, int] = {}
    for name in sorted(names, key=lambda it: -len(below(it))):
        found[name] = size(name) + max((found[it] for it in names if name in USES[it]), default=0)
    return found


def at_once() -> int:
    """How many crates may be proved at a time."""
    free = re.search(r"MemAvailable:\s+(\d+)", Path("/proc/meminfo").read_text())
    by_memory = 1024 * int(free[1]) // MEMORY_OF_ONE if free else 1
    return max(1, min(len(os.sched_getaffinity(0)), by_memory))


def link_or_copy(one: str, other: str) -> None:
    """Links a file, or copies it to another disk. rt replaces what it built, and writes into none of it."""
    try:
        os.link(one, other)
    except OSError:
        shutil.copy2(one, other)


class Locks:
    """Locks on the folders of crates, as rt takes them: this crate's for one alone, those below it shared."""

    def __init__(self, name: str) -> None:
        self.held: dict[str, int] = {}
        self.free = all(self.take(it, fcntl.LOCK_SH) for it in below(name)) and self.take(name, fcntl.LOCK_EX)
        if not self.free:
            self.release()

    def take(self, name: str, how: int) -> bool:
        """Takes a crate's lock, if nobody has it."""
        self.held[name] = os.open(CRATES / name, os.O_RDONLY)
        try:
            fcntl.flock(self.held[name], how | fcntl.LOCK_NB)
        except BlockingIOError:
            return False
        except OSError:
            pass  # some file systems have no locks
        return True

    def release(self, but: str = "") -> None:
        """Gives back all, or all but one crate's."""
        for name in [it for it in self.held if it != but]:
            os.close(self.held.pop(name))


@dataclass
class Proof:
    """A crate that is being proved."""

    name: str
    room: Path
    locks: Locks
    rt: subprocess.Popen[bytes]
    began: float

    @property
    def out(self) -> Path:
        """What rt makes of the crate."""
        return self.room / "crates" / self.name / "out"

    def end(self) -> bool:
        """Puts what rt made into the crate's folder, once rt has ended, and says whether the crate is built."""
        built = self.rt.returncode == 0 if not is_program(self.name) else self.is_linked()
        if self.out.is_dir():
            shutil.move(self.out, CRATES / self.name / "out")
        shutil.rmtree(self.room, ignore_errors=True)
        self.locks.release()
        return built

    def is_linked(self) -> bool:
        """Whether rt came to running the program: the status is the program's own then, and does not count."""
        said = (LOGS / self.name).read_text(errors="replace")
        return f"rt: running out/{self.name};" in said and (self.out / self.name).is_file()


def furnish(name: str, room: Path) -> None:
    """Fills a crate's room. What was made of the crate itself moves there, so that rt goes on from it."""
    own, lent = CRATES / name / "out", room / "crates" / name / "out"
    if lent.is_dir() and not own.exists():
        shutil.move(lent, own)  # a build that was killed left it
    shutil.rmtree(room, ignore_errors=True)
    for it in [*below(name), name]:
        for part in ("src", "specs", "proofs"):
            if (CRATES / it / part).is_dir():
                shutil.copytree(CRATES / it / part, room / "crates" / it / part)
        if it != name and (CRATES / it / "out/rlib").is_dir():
            to = room / "crates" / it / "out/rlib"
            shutil.copytree(CRATES / it / "out/rlib", to, copy_function=link_or_copy)
    (room / "crates.txt").write_text("".join(f"{LISTED[it]}\n" for it in [*below(name), name]))
    if own.is_dir():
        shutil.move(own, lent)


def start(name: str, jobs: int) -> Proof | None:
    """Starts rt for a crate with so many jobs, unless another command works there or below. With 0, rt chooses."""
    locks = Locks(name)
    if not locks.free:
        return None
    room = ROOMS / name
    furnish(name, room)
    locks.release(but=name)
    words = ["rt", "run" if is_program(name) else "lib", *(["--jobs", str(jobs)] if jobs else [])]
    # (rt holds the lock too, so that it stays where the build is killed and rt goes on)
    how = {"cwd": room / "crates" / name, "stdin": subprocess.DEVNULL, "pass_fds": tuple(locks.held.values())}
    with open(LOGS / name, "wb") as log:
        rt = subprocess.Popen(words, stdout=log, stderr=subprocess.STDOUT, **how)
    return Proof(name, room, locks, rt, time.monotonic())


class Build:
    """The proofs of some crates, in their order, several at a time."""

    def __init__(self, names: set[str]) -> None:
        chain = chains(names)
        self.left = sorted(names, key=lambda it: -chain[it])
        self.done: list[str] = []
        self.running: list[Proof] = []
        self.waiting: set[str] = set()
        self.most = at_once()
        self.signal = 0
        for it in (signal.SIGINT, signal.SIGTERM, signal.SIGHUP):
            signal.signal(it, self.note_signal)

    def note_signal(self, number: int, _: object) -> None:
        """Has the build end soon: not amid a move."""
        self.signal = number

    def run(self) -> bool:
        """Proves all, and says whether all went well; ends at the first that did not."""
        while self.left or self.running:
            self.fill()
            time.sleep(0.05)
            if self.signal:
                sys.exit(128 + self.signal)
            for proof in [it for it in self.running if it.rt.poll() is not None]:
                if not self.finish(proof):
                    return False
        return True

    def fill(self) -> None:
        """Starts what may start, the longest chain first."""
        ready = [it for it in self.left if below(it).isdisjoint([*self.left, *(one.name for one in self.running)])]
        together = min(self.most, len(ready) + len(self.running))
        jobs = 0 if together < 2 else self.most // together
        for name in ready[: self.most - len(self.running)]:
            proof = start(name, jobs)
            if proof:
                self.left.remove(name)
                self.running.append(proof)
            elif name not in self.waiting:
                self.waiting.add(name)
                print(f"{name}: another rt or build works there or below; waiting for it", file=sys.stderr)

    def finish(self, proof: Proof) -> bool:
        """Ends a proof and tells of it."""
        self.running.remove(proof)
        if not proof.end():
            tell_failure(proof)
            return False
        self.done.append(proof.name)
        whole = len(self.done) + len(self.running) + len(self.left)
        seconds = time.monotonic() - proof.began
        print(f"[{len(self.done)}/{whole}] {proof.name} {seconds:.0f} s", file=sys.stderr, flush=True)
        if is_program(proof.name):
            put_into_bin(proof.name)
        return True

    def stop(self) -> None:
        """Stops what still runs. rt ends its own children."""
        for proof in self.running:
            proof.rt.terminate()
        for proof in self.running:
            proof.rt.wait()
            proof.end()


def put_into_bin(name: str) -> None:
    """Puts a program into target/bin in one step: the one that is there may be running."""
    new = BIN / f".{name}.{os.getpid()}"
    shutil.copy(CRATES / name / "out" / name, new)
    new.replace(BIN / name)


def tell_failure(proof: Proof) -> None:
    """Shows the end of what rt said."""
    lines = (LOGS / proof.name).read_text(errors="replace").splitlines()
    print(*lines[-LINES_OF_A_LOG:], sep="\n", file=sys.stderr)
    why = f"rt ended with status {proof.rt.returncode}, and target/log/{proof.name} has all that it said"
    print(f"tools/build: {proof.name} is not proved or built, so the rest stops: {why}", file=sys.stderr)


def refuse(why: str) -> None:
    """Ends with status 2."""
    print(f"tools/build: {why}", file=sys.stderr)
    sys.exit(2)


def main(names: list[str]) -> int:
    """Proves and builds these programs."""
    for name in names:
        if not is_program(name):
            refuse(f"no program {name}: take one of {' '.join(PROGRAMS)}")
    if not shutil.which("rt"):
        refuse(NO_RT)
    names = list(dict.fromkeys(names)) or list(PROGRAMS)
    for it in (BIN, LOGS):
        it.mkdir(parents=True, exist_ok=True)
    build = Build({*names}.union(*(below(it) for it in names)))
    try:
        well = build.run()
    finally:
        build.stop()
    if well:
        print(*(f"target/bin/{it}" for it in names), sep="\n")
    return 0 if well else 1


if __name__ == "__main__":
    sys.exit(main(sys.argv[1:]))
