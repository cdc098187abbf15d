"""Behaves as the program `desk`: reads a script without an end, and answers and closes each line before it reads the
next.

    tools/run reference.desk [--limit N] [--image NAME] [--keep RULES2] [--text] RULES

Answers are objects in JSON, one to a line, or with --text lines of text. --limit is the greatest number of firings of
each fire command. The run goes on from the image in the file of --image, where it is there; a line that saves, and the
end of the script, put one there. Where the image is of other rules, the run goes on under those of RULES, as
images/changes.py says, and tells of each rule first whether it stays, is new or is gone:

    {"change":"stays","rule":"big"}         or as text         rule "big" stays

With --keep a run without an image keeps events for as long as the rules of RULES2 need them, too; one from an image is
refused where these need them for longer than it keeps them.

The file of an image that is refused stays as it is. The statuses are those of `replay` (docs/SCRIPT.md). It is slow,
and for short streams.
"""

from __future__ import annotations

import os
import sys
from dataclasses import dataclass
from typing import Iterable, Optional, Union

from .images.resume import Refused, begun, saved
from .meaning.answers import object_of, text_of
from .meaning.desk import Desk, Save
from .meaning.program import Program
from .meaning.run import Run
from .replay import BadWords, WriteFailed, image_file, number, options_and_rules, program_of_file, put, put_lines

USAGE = "usage: desk [--limit N] [--image NAME] [--keep RULES2] [--text] RULES"


class NotSaved(Exception):
    """The image could not be put into its file."""


@dataclass(frozen=True)
class Asked:
    """What the words ask for: the limit of a fire command, the name of the image's file, the form of the answers, the
    rule file, and that of the rules for which events are kept."""
    limit: int
    image: Optional[str]
    as_text: bool
    rules: str
    keep: Optional[str]


def asked(words: list[str]) -> Asked:
    """What the words ask for, or BadWords."""
    options, rules = options_and_rules(words, ("limit", "image", "keep"), ("text",))
    if len(rules) != 1:
        raise BadWords
    return Asked(number(options.get("limit", "100000"), 7, 1, 1_000_000), options.get("image"), "text" in options,
                 rules[0], options.get("keep"))


@dataclass(frozen=True)
class Programs:
    """The program of a desk, and that of the rules for which it keeps events, where there are some."""
    own: Program
    keep: Optional[Program] = None


def programs_of(a: Asked) -> Union[Programs, str]:
    """The programs that the words name, or the line of the first refusal."""
    own = program_of_file(a.rules)
    if isinstance(own, str) or a.keep is None:
        return own if isinstance(own, str) else Programs(own)
    keep = program_of_file(a.keep)
    return keep if isinstance(keep, str) else Programs(own, keep)


@dataclass(frozen=True)
class ImageFile:
    """The file of the image: at every moment it has one image whole, the old one or the new one."""
    name: str

    def put(self, state: Run) -> None:
        """Puts the image of a run there, and returns once it is safe; Refused or NotSaved."""
        data, part = saved(state), self.name + ".part"
        try:
            with open(part, "wb") as file:
                file.write(data)
                file.flush()
                os.fsync(file.fileno())
            os.replace(part, self.name)
        except OSError:
            raise NotSaved from None


def desk_at_start(program: Program, limit: int, as_text: bool, image: Optional[bytes], save: Optional[Save],
                  keep: Optional[Program] = None) -> Desk:
    """A desk before its first line, with what it tells of its rules: a new one, or one that goes on from an image; or
    Refused. With `keep` events are kept for those rules too."""
    state, rules = begun(image, program, limit, keep)
    desk = Desk(state.world, limit, limit, [], number=state.number, firings=state.firings, faulty=state.faulty,
                save=save, write=text_of if as_text else object_of)
    desk.tell(desk.number, *rules)
    return desk


def asked_desk(programs: Programs, a: Asked) -> Desk:
    """The desk that the words ask for; or Refused."""
    if a.image is None:
        return desk_at_start(programs.own, a.limit, a.as_text, None, None, programs.keep)
    try:
        image = image_file(a.image)
    except FileNotFoundError:
        image = None
    return desk_at_start(programs.own, a.limit, a.as_text, image, ImageFile(a.image).put, programs.keep)


def scripted(programs: Programs, a: Asked, lines: Iterable[bytes]) -> int:
    """Runs a script up to its end, and leaves an image; the status."""
    try:
        state = asked_desk(programs, a)
        put_lines(state.lines)
        state.lines.clear()
        for line in lines:
            state.number += 1
            state.line(state.number, line.removesuffix(b"\n"))
            put_lines(state.lines)
            state.lines.clear()
        if state.save is not None:
            state.save(state)
    except Refused as refused:
        put_lines([f"refused checkpoint {refused}"])
        return 9
    except NotSaved:
        return 6
    return state.status


def desk(words: list[str]) -> int:
    """Does all that the program does, and answers the status."""
    try:
        a = asked(words)
    except BadWords:
        put(f"{USAGE}\n")
        return 2
    programs = programs_of(a)
    if isinstance(programs, str):
        put(programs + "\n")
        return 3
    return scripted(programs, a, sys.stdin.buffer)


def main() -> int:
    if sys.argv[1:] == ["--help"]:
        print((__doc__ or "").strip())
        return 0
    try:
        return desk(sys.argv[1:])
    except WriteFailed:
        return 6
    except OSError:
        return 5


if __name__ == "__main__":
    sys.exit(main())
