"""crates/gate_commands: what each program does, on command lines with readers and writers that give little and fail."""

import io
from dataclasses import dataclass, field

from . import programs

# The most bytes that a program takes from its input: one more than the longest sheet, or the longest text.
TAKES = {"dock": 33_817, "turn": 33_817, "scribe sheet": 1_048_577, "scribe text": 33_817}


@dataclass
class Case:
    """A command line, its input and its files; behind how many bytes the input and the outputs fail."""

    words: list[bytes] = field(default_factory=list)
    input: bytes = b""
    files: dict[bytes, bytes] = field(default_factory=dict)
    most: dict[bytes, int] = field(default_factory=dict)

    def follow(self, name: bytes, rest: bytes) -> None:
        """A line that builds the case."""
        if name == b"word":
            self.words.append(rest)
        elif name == b"text":
            self.input += rest + b"\n"
        elif name == b"hex":
            self.input += bytes.fromhex(rest.decode())
        elif name == b"zeros":
            self.input += bytes(int(rest))
        elif name == b"file":
            self.files[rest], self.input = self.input, b""
        elif name in (b"reader", b"output", b"errors") and b" " in rest:
            self.most[name] = int(rest.split(b" ")[1])

    def cut(self, name: bytes, data: bytes) -> tuple[bytes, bool]:
        """As much as goes through, and whether it fails behind that."""
        most = self.most.get(name, len(data) + 1)
        return data[:most], most < len(data)

    def told(self, program: bytes) -> list[bytes]:
        """Status, outputs, and how much of the input is left; a name that is that of no program is told as such."""
        if program.decode() not in programs.PROGRAMS:
            return [b"no program " + program, b"output ", b"errors ", b"left " + str(len(self.input)).encode()]
        given, _ = self.cut(b"reader", self.input)
        stdin = io.BytesIO(given)
        out, err, status = programs.run_on(program.decode(), self.words, stdin, self.files)
        out, failed = self.cut(b"output", out)
        if failed:
            status = programs.CANNOT_WRITE
            err += b"cannot write\n"
        err, _ = self.cut(b"errors", err)
        command = b" ".join([program] + self.words[:1]).decode() if program == b"scribe" else program.decode()
        taken = min(stdin.tell(), TAKES.get(command, stdin.tell()))
        lines = [("status", str(status).encode()), ("output", readable(out)), ("errors", readable(err))]
        lines.append(("left", str(len(self.input) - taken).encode()))
        return [name.encode() + b" " + value for name, value in lines]


def readable(data: bytes) -> bytes:
    """Letters as they are; a newline, a backslash and all other bytes by what they are called."""
    named = {10: "\\n", 92: "\\\\"}
    return "".join(named.get(b, chr(b) if 32 <= b <= 126 else f"\\x{b:02x}") for b in data).encode()


def commands_of(text: bytes) -> bytes:
    """What `gate_commands` prints of its cases."""
    case, out = Case(), []
    for line in text.split(b"\n"):
        name, _, rest = line.partition(b" ")
        if name == b"run":
            out += case.told(rest)
            case = Case()
        elif name == b"case":
            out.append(line)
        else:
            case.follow(name, rest)
    return b"".join(line + b"\n" for line in out)
