"""A log of lines, which has each of them before anything is done with it."""

from __future__ import annotations

import io
import os
from pathlib import Path
from typing import BinaryIO, Union

Target = Union[str, Path, BinaryIO]


class Record:
    """Adds lines to the file of a path, or to a binary file. A line is handed to the machine at once, without a buffer:
    so it survives the end of this process, but not that of the machine."""

    def __init__(self, target: Target):
        self.is_own = isinstance(target, (str, Path))
        if isinstance(target, (str, Path)):
            self.file: BinaryIO = open(target, "ab", buffering=0)  # type: ignore[assignment]
        elif isinstance(target, io.TextIOBase):
            raise TypeError("a record is a path or a binary file, and this is a file of text")
        else:
            self.file = target

    def take(self, line: bytes) -> None:
        rest = memoryview(line)
        while rest:
            taken = self.file.write(rest)
            rest = rest[len(rest) if taken is None else taken:]
        self.file.flush()

    def close(self) -> None:
        if self.is_own:
            self.file.close()


def lines_in(path: Path) -> list[bytes]:
    """The complete lines of a record; what a crash has cut off is taken off the file."""
    data = path.read_bytes() if path.exists() else b""
    whole = data[:data.rfind(b"\n") + 1]
    if len(whole) < len(data):
        os.truncate(path, len(whole))
    return whole.splitlines()
