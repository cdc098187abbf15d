"""Runs a rule file and a script, by the quickest of those that answer alike: what `./try` at the top calls.

The program of release/ is taken where it is of the sources of this clone, else the built one. Otherwise the second
evaluator answers, line by line, scripts of up to MOST_LINES lines, and longer ones the checked program where the kit is
there. Output and status are the program's
(docs/SCRIPT.md); all else that is told stands on standard error.
"""

from __future__ import annotations

import os
import re
import stat
import sys
from dataclasses import dataclass
from difflib import get_close_matches
from pathlib import Path
from typing import BinaryIO, Callable, Optional

from ..certificates import draw
from ..places import BUILT
from ..reference import replay
from ..reference.meaning.program import Program
from ..reference.meaning.reader import FILE_END
from ..reference.meaning.run import program_or_refusal
from ..reference.replay import BadWords, WriteFailed, options_and_rules
from ..rulefile import lint, where
from . import cases, why
from .programs import (built_is_current, by_built, by_checked, by_evaluator, checked_is_there, name_of_built, put,
                       released_program, tell)

# As long as the second evaluator takes some seconds, where rules join events: docs/TOOLS.md.
MOST_LINES = 10_000

MODES = ("run", "check", "lives", "save", "proof")
# Those that read a script, and go on from an image.
SCRIPTED = ("run", "save")

USAGE = """usage: ./try [--mode run|check|lives|save|proof] [--limit N] [--resume IMAGE]
             [--by released|proved|evaluator|checked] RULES [SCRIPT]
       ./try --gen N                     a load that the program makes itself (docs/SCRIPT.md)
       ./try --where RULES               where and why a rule file is refused, all at once
       ./try --lint RULES                what is accepted in a rule file, and seldom meant
       ./try --why RULES SCRIPT [--line N] [--rule NAME] [--fact N ..] [--resume IMAGE]
       ./try --draw RULES [OUTPUT]       the certificates of `--mode proof`, or of its OUTPUT, as one HTML page
       ./try --cases FOLDER [RULES] [--data NAME=FILE ..] [--write]
Without SCRIPT it reads lines from standard input. An example: ./try examples/dear.drl examples/dear.jsonl
"""

TOOLS_BY_WORD: dict[str, Callable[[], int]] = {"--where": where.main, "--lint": lint.main, "--why": why.main,
                                               "--draw": draw.main, "--cases": cases.main}


OPTIONS = tuple(f"--{name}" for name in replay.OPTIONS)


class Ended(Exception):
    """Nothing is to be run; the status, and what is wrong."""

    def __init__(self, status: int, text: str):
        super().__init__(text)
        self.status = status


@dataclass
class Asked:
    """What the words ask for."""
    mode: str
    limit: int
    image: Optional[str]
    by: Optional[str]
    rules: Path
    script: Optional[Path]

    @property
    def options(self) -> list[str]:
        """The options in the program's words."""
        resumed = [] if self.image is None else [f"--resume={self.image}"]
        return ["--mode", self.mode, "--limit", str(self.limit), *resumed]


# ---- words


def without_by(words: list[str]) -> tuple[list[str], Optional[str]]:
    """The words without `--by NAME`, which is no word of the program; NAME may be the path of a program that was built
    elsewhere."""
    place = next((k for k, word in enumerate(words) if word == "--by" or word.startswith("--by=")), None)
    if place is None:
        return words, None
    name, width = (words[place][5:], 1) if "=" in words[place] else (" ".join(words[place + 1:place + 2]), 2)
    if name not in ("released", "proved", "evaluator", "checked") and not is_program(name):
        raise Ended(2, "--by is released, proved, evaluator, checked or the path of a built program, and not "
                    f"`{name}`")
    return words[:place] + words[place + width:], name


def is_program(name: str) -> bool:
    return "/" in name and Path(name).is_file() and os.access(name, os.X_OK)


def what_is_wrong(words: list[str]) -> str:
    """Which word the program does not take."""
    for word in words:
        name = word.partition("=")[0]
        if word.startswith("-") and word not in ("-", "--") and name not in OPTIONS:
            near = get_close_matches(name, [*OPTIONS, "--by", *TOOLS_BY_WORD], 1)
            return f"`{word}` is no option" + (f": {near[0]}?" if near else "")
        if sum(other.partition("=")[0] == name for other in words) > 1 and word.startswith("--") and word != "--":
            return f"`{name}` stands twice"
    return "an option lacks its value"


def number_of(text: str) -> int:
    if not re.fullmatch("[0-9]{1,7}", text) or not 1 <= int(text) <= 1_000_000:
        raise Ended(2, f"--limit is a number from 1 to 1000000, of at most 7 digits, and not `{text}`")
    return int(text)


def asked_by(words: list[str]) -> Asked:
    words, by = without_by(words)
    try:
        options, files = options_and_rules(words)
    except BadWords:
        raise Ended(2, what_is_wrong(words)) from None
    mode, limit = options.get("mode", "run"), number_of(options.get("limit", "100000"))
    if mode not in MODES:
        near = get_close_matches(mode.lower(), MODES, 1)
        raise Ended(2, f"--mode is {', '.join(MODES[:-1])} or {MODES[-1]}, and not `{mode}`"
                    + (f": {near[0]}?" if near else ""))
    if (image := options.get("resume")) is not None and mode not in SCRIPTED:
        raise Ended(2, f"--resume goes on with a script, and --mode {mode} reads none")
    if not files:
        raise Ended(2, "which rule file?")
    if len(files) > 2:
        raise Ended(2, f"one rule file and one script, and `{files[2]}` is a third")
    return Asked(mode, limit, image, by, Path(files[0]), Path(files[1]) if len(files) == 2 else None)


# ---- files


def neighbour(path: Path) -> str:
    """A file beside it whose name is nearly the same."""
    if not path.parent.is_dir():
        return f" (there is no directory {path.parent})"
    near = get_close_matches(path.name, [p.name for p in path.parent.iterdir()], 1)
    return f": {path.parent / near[0]}?" if near else ""


def rules_in(path: Path) -> bytes:
    """The bytes of the rule file, with the program's status where there are none."""
    if path.is_dir():
        raise Ended(5, f"{path} is a directory, and no rule file")
    try:
        with path.open("rb") as file:
            return file.read(FILE_END + 1)
    except FileNotFoundError:
        put("refused item 0 line 0 Missing\n")
        raise Ended(3, f"there is no rule file {path}{neighbour(path)}") from None
    except OSError as error:
        raise Ended(5, f"the rule file {path} cannot be read: {error.strerror}") from None


def size_of(path: Path) -> Optional[int]:
    """The size of a file; that of a pipe is not known."""
    status = path.stat()
    return status.st_size if stat.S_ISREG(status.st_mode) else None


def script_in(path: Optional[Path]) -> BinaryIO:
    """The script, from its file or from standard input."""
    if path is None:
        if sys.stdin.isatty():
            tell('lines of a script, as {"do":"fire"}; Ctrl-D ends it')
        return sys.stdin.buffer
    if path.is_dir():
        raise Ended(5, f"{path} is a directory, and no script")
    try:
        return path.open("rb")
    except FileNotFoundError:
        raise Ended(5, f"there is no script {path}{neighbour(path)}") from None
    except OSError as error:
        raise Ended(5, f"the script {path} cannot be read: {error.strerror}") from None


def is_long(script: BinaryIO) -> bool:
    """Whether a file has more lines than the second evaluator is for; what comes by a pipe or from hand has not."""
    if not stat.S_ISREG(os.fstat(script.fileno()).st_mode):
        return False
    start = script.tell()
    many = sum(1 for _ in zip(script, range(MOST_LINES + 1))) > MOST_LINES
    script.seek(start)
    return many


# ---- the run


def chosen(asked: Asked, script: Optional[BinaryIO]) -> str:
    """Who answers, which is said. Images are not for the checked program: it sees no files."""
    has_image = asked.image is not None or asked.mode == "save"
    if asked.by == "checked" and has_image:
        raise Ended(2, "--by checked takes no --resume and no --mode save: it sees no files of this machine")
    if asked.by:
        return asked.by
    if released_program()[0]:
        return "released"
    if built_is_current():
        return "proved"
    is_for_checked = script is not None and not has_image and is_long(script) and checked_is_there()
    return "checked" if is_for_checked else "evaluator"


def answered(asked: Asked, by: str, program: Program, script: Optional[BinaryIO]) -> int:
    if by == "checked":
        if not checked_is_there():
            raise Ended(127, "the Rattle kit (rt) is not on this machine")
        tell(f"the checked program (the script has more than {MOST_LINES:,} lines), built anew by rt try in one to "
             "two minutes; nothing is proved")
        return by_checked(asked.options, asked.rules, script)
    tell("the second evaluator, sozhipen_tools.reference; nothing is proved")
    wanted = replay.Asked(asked.mode, asked.limit, str(asked.rules), asked.image, None)
    return by_evaluator(program, wanted, script)


def hint(asked: Asked, status: int) -> None:
    """What to ask next."""
    if status == 1 and asked.script is not None:
        tell(f"a line was faulty: ./try --why {asked.rules} {asked.script} --line N tells why")
    if status == 9:
        tell(f"the image {asked.image or 'after the script'} is refused: docs/SCRIPT.md, Images, has the words")
    if status == 4:
        tell(f'the limit of {asked.limit} firings: ./try --lint {asked.rules} tells of rules that make themselves '
             'pending again')


def refused(asked: Asked, data: bytes) -> int:
    """Tells all that is wrong in the rule file."""
    sys.stderr.write(where.report(str(asked.rules), data, size_of(asked.rules)))
    if asked.script is not None and asked.script.suffix == ".drl":
        tell("the rule file stands first, and the script after it")
    return 3


def run_rules(words: list[str]) -> int:
    asked = asked_by(words)
    data = rules_in(asked.rules)
    script = script_in(asked.script) if asked.mode in SCRIPTED else None
    try:
        return run_script(asked, data, script)
    finally:
        if script is not None and asked.script is not None:
            script.close()


def named(by: str) -> tuple[Path, str]:
    """A program that answers, and what it is."""
    if by == "released":
        program, name = released_program()
        if program is None:
            raise Ended(127, name)
        return program, name
    return (BUILT, name_of_built()) if by == "proved" else (Path(by), f"the program {by}")


def run_script(asked: Asked, data: bytes, script: Optional[BinaryIO]) -> int:
    by = chosen(asked, script)
    if by in ("released", "proved") or is_program(by):
        program_file, name = named(by)
        tell(name)
        status = by_built([*asked.options, "--", str(asked.rules)], script, program_file)
        if status == 3:
            return refused(asked, data)
        hint(asked, status)
        return status
    program = program_or_refusal(data)
    if isinstance(program, str):
        put(program + "\n")
        return refused(asked, data)
    status = answered(asked, by, program, script)
    hint(asked, status)
    return status


def generated(words: list[str]) -> int:
    """The load of a number: the program alone is quick enough for it."""
    released, name = released_program()
    if released or built_is_current():
        tell(name if released else name_of_built())
        return by_built(words, None, released or BUILT)
    raise Ended(2, "--gen is for the proved program, which is not built (README.md, Commands)")


def main() -> int:
    words = sys.argv[1:]
    if words and words[0] in TOOLS_BY_WORD:
        sys.argv = [f"./try {words[0]}", *words[1:]]
        return TOOLS_BY_WORD[words[0]]()
    if "--help" in words or "-h" in words:
        sys.stdout.write(USAGE)
        return 0
    try:
        if any(word == "--gen" or word.startswith("--gen=") for word in words):
            return generated(words)
        return run_rules(words)
    except Ended as ended:
        tell(f"{ended} (--help tells the words)" if ended.status == 2 else str(ended))
        return ended.status
    except WriteFailed:
        return 6
    except OSError as error:
        tell(f"a read failed: {error.strerror}")
        return 5
    except KeyboardInterrupt:
        return 130


if __name__ == "__main__":
    sys.exit(main())
