#!/usr/bin/env python3
"""Prints the answers of a desk of keeper.py as they come; started again, it continues where it was:

    python3 examples/live/follow.py FOLDER [--words fire,fault] [--once]

FOLDER is the keeper's. The answers are read while they are written; after a crash the keeper writes the same bytes
again, so a place in them stays valid. A line `refused ..`, with which the program ends, is not counted: the next
program has other bytes there. The place is saved in FOLDER/followed each time after lines were printed: a crash between
the two prints these lines once more. Only objects with a member of one of the words are printed, and lines of text that
begin with one; without `--words`, all lines. With `--once` it ends at the last complete line.
"""

from __future__ import annotations

import argparse
import json
import os
import sys
import time
from dataclasses import dataclass
from pathlib import Path
from typing import Iterator, Optional

PAUSE = 0.2
# How a line begins with which the program ends.
LAST_WORD = b"refused "


@dataclass(frozen=True)
class Place:
    """A segment, and how many bytes of its answers were printed."""
    segment: int
    offset: int


class Follower:
    def __init__(self, folder: Path):
        self.answers, self.kept = folder / "answers", folder / "followed"
        self.place = self.kept_place()
        self.ended = b""

    def kept_place(self) -> Place:
        try:
            segment, offset = self.kept.read_text(encoding="ascii").split()
            return Place(int(segment), int(offset))
        except FileNotFoundError:
            return Place(min(self.segments(), default=0), 0)

    def keep(self, place: Place) -> None:
        part = self.kept.with_name(f"{self.kept.name}.part")
        part.write_text(f"{place.segment} {place.offset}\n", encoding="ascii")
        os.replace(part, self.kept)
        self.place = place

    def segments(self) -> list[int]:
        return sorted({int(path.name.partition(".")[0]) for path in self.answers.glob("[0-9]*")})

    def following(self) -> Optional[int]:
        """The next segment that has answers: then those of this one are whole."""
        return next((segment for segment in self.segments() if segment > self.place.segment), None)

    def data(self) -> bytes:
        """The answers of this segment behind the place."""
        name = f"{self.place.segment:012}"
        for path in (self.answers / name, self.answers / f"{name}.part"):
            try:
                with path.open("rb") as file:
                    file.seek(self.place.offset)
                    return file.read()
            except FileNotFoundError:
                pass
        return b""

    def lines(self) -> Iterator[bytes]:
        """The whole lines that are there behind the place; each is behind it once the next one is asked for."""
        while True:
            following = self.following()
            data = self.data()
            lines = data[:data.rfind(b"\n") + 1].splitlines(keepends=True)
            ended = lines.pop() if lines and lines[-1].startswith(LAST_WORD) else b""
            yield from (line.rstrip(b"\n") for line in lines)
            if lines:
                self.keep(Place(self.place.segment, self.place.offset + sum(map(len, lines))))
            if ended and ended != self.ended:
                yield ended.rstrip(b"\n")
            self.ended = ended
            if following is None:
                return
            self.keep(Place(following, 0))


def has_word(line: bytes, words: set[str]) -> bool:
    """Whether an object has a member of one of the names, or a line of text begins with one."""
    return not words.isdisjoint(json.loads(line) if line.startswith(b"{") else line.decode().split(" ", 1)[:1])


def main() -> int:
    parser = argparse.ArgumentParser(usage=argparse.SUPPRESS, description=__doc__,
                                     formatter_class=argparse.RawDescriptionHelpFormatter)
    parser.add_argument("folder", metavar="FOLDER", type=Path)
    parser.add_argument("--words", default="", help="as fire,fault")
    parser.add_argument("--once", action="store_true")
    asked = parser.parse_args()
    words = {word for word in asked.words.split(",") if word}
    follower = Follower(asked.folder)
    while True:
        for line in follower.lines():
            if not words or has_word(line, words):
                sys.stdout.buffer.write(line + b"\n")
                sys.stdout.buffer.flush()
        if asked.once:
            return 0
        time.sleep(PAUSE)


if __name__ == "__main__":
    sys.exit(main())
