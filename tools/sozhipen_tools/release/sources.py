"""Of which sources a release is: a checksum of all that the proof reads."""

from __future__ import annotations

import hashlib
import os
from pathlib import Path
from typing import Iterator

FOLDERS = ("crates",)
FILES = ("crates.txt",)
# What a build leaves, and what Python keeps of modules.
MADE = ("out", "__pycache__")


def sha256(path: Path) -> str:
    return hashlib.sha256(path.read_bytes()).hexdigest()


def paths(top: Path) -> Iterator[Path]:
    """The files of the sources, in an order that is the same on each machine."""
    found = [top / name for name in FILES]
    for folder in FOLDERS:
        for where, inner, names in os.walk(top / folder):
            inner[:] = [name for name in inner if name not in MADE]
            found += [Path(where, name) for name in names]
    return iter(sorted(found, key=lambda path: path.relative_to(top).as_posix()))


def sum_of(top: Path) -> str:
    """The checksum of names and contents."""
    whole = hashlib.sha256()
    for path in paths(top):
        whole.update(f"{sha256(path)}  {path.relative_to(top).as_posix()}\n".encode())
    return whole.hexdigest()


def stamp_of(top: Path) -> str:
    """What changes with each file of the sources that is written, and is quick to find."""
    found = [path.stat() for path in paths(top)]
    return f"{len(found)} {sum(it.st_size for it in found)} {max(it.st_mtime_ns for it in found)}"


def known_sum(top: Path, note: Path) -> str:
    """The checksum, which is kept in a file of notes as long as no file of the sources is written."""
    stamp = stamp_of(top)
    try:
        if (told := note.read_text(encoding="ascii").splitlines())[0] == stamp:
            return told[1]
    except (OSError, ValueError, IndexError):
        pass
    found = sum_of(top)
    try:
        note.parent.mkdir(exist_ok=True)
        note.write_text(f"{stamp}\n{found}\n", encoding="ascii")
    except OSError:
        pass
    return found
