"""The folder of a release, as those read it who use it."""

from __future__ import annotations

from dataclasses import dataclass
from pathlib import Path
from typing import Optional

from ..places import TOP
from .sources import known_sum, sha256

RELEASE = TOP / "release"
SUMS, OF = "SHA256SUMS", "SOURCES"
# The programs, each as the kit links it, and beside it one for machines whose C library is too old for that.
PROGRAMS = ("replay", "desk")
STATIC = "-static"
LIBRARY, HEADER, PAGE = "libsozhipen.so", "szp.h", "sozhipen.html"


@dataclass(frozen=True)
class Release:
    """What the two files of a release say: the checksum of each file, and by a word of what it was made."""
    folder: Path
    sums: dict[str, str]
    of: dict[str, str]

    def is_whole(self, name: str) -> bool:
        """Whether a file is there as the sums say."""
        path = self.folder / name
        return name in self.sums and path.is_file() and sha256(path) == self.sums[name]


def pairs(path: Path, second_first: bool) -> dict[str, str]:
    """The two words of each line, the second up to its end."""
    rows = [line.split(None, 1) for line in path.read_text(encoding="utf-8").splitlines() if line.strip()]
    return {(b if second_first else a).strip(): (a if second_first else b).strip() for a, b in rows}


def release_in(folder: Path) -> Optional[Release]:
    """The release in a folder, None where there is none."""
    try:
        return Release(folder, pairs(folder / SUMS, True), pairs(folder / OF, False))
    except (OSError, ValueError):
        return None


def fitting(top: Path = TOP) -> Optional[Release]:
    """The release of a clone, where it is of the sources that stand there."""
    found = release_in(top / "release")
    is_of_them = found is not None and found.of.get("sources") == known_sum(top, top / "release" / "out" / "sources")
    return found if is_of_them else None


def released(name: str, top: Path = TOP) -> Optional[Path]:
    """A program of the release that fits the sources of a clone, which is whole; None where there is none."""
    found = fitting(top)
    return found.folder / name if found is not None and found.is_whole(name) else None
