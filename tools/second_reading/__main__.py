"""Behaves as a program does: python3 -m second_reading PROGRAM WORD .. < INPUT (in tools/)."""

import os
import sys
from collections.abc import Iterator, Mapping

from .programs import CANNOT_WRITE, PROGRAMS, run_on


class Disk(Mapping[bytes, bytes]):
    """The files of this machine, by name; one that cannot be read is absent."""

    def __getitem__(self, name: bytes) -> bytes:
        try:
            with open(name, "rb") as file:
                return file.read()
        except (OSError, ValueError) as fault:
            raise KeyError(name) from fault

    def __iter__(self) -> Iterator[bytes]:
        raise NotImplementedError

    def __len__(self) -> int:
        raise NotImplementedError


class Input:
    """Standard input, of which no byte is taken that is not asked for."""

    def read(self, size: int | None = None) -> bytes:
        """At most `size` bytes, fewer only at the end; all where no size is given."""
        found = b""
        while size is None or len(found) < size:
            part = os.read(0, 65536 if size is None else size - len(found))
            if not part:
                break
            found += part
        return found


def main(words: list[str]) -> int:
    """The program named by the first word, on the words behind it."""
    if not words or words[0] not in PROGRAMS:
        print("python3 -m second_reading " + "|".join(PROGRAMS) + " WORD ..", file=sys.stderr)
        return 2
    out, err, status = run_on(words[0], [os.fsencode(word) for word in words[1:]], Input(), Disk())
    try:
        sys.stdout.buffer.write(out)
        sys.stdout.buffer.flush()
    except OSError:
        err, status = b"cannot write\n", CANNOT_WRITE
        os.dup2(os.open(os.devnull, os.O_WRONLY), 1)
    sys.stderr.buffer.write(err)
    return status


if __name__ == "__main__":
    sys.exit(main(sys.argv[1:]))
