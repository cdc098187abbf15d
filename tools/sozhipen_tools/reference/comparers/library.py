"""Holds the library of faces/c, and the class Desk over it, against the program `desk`, on random rule files and scripts.

    tools/run reference.comparers.library PROGRAM [--handle LIBRARY] [--seeds A B] [--lives | --share]

Files and scripts are those of reference.comparers.desk, with lines that only a desk knows, in parts that go on from the
image of the one before. The program runs over each part. The library gets it in random pieces, in JSON and in text, and
the class line by line. Output, status and image have to be the program's, byte for byte. SOZHIPEN_LIBRARY names the
library. With --handle LIBRARY the calls of crates/desk_c are held against the program in its place, over the same
scripts without the lines that save, since a handle has no file for an image. The status is 0 where all was as it has
to be, 1 where it was not.
"""

from __future__ import annotations

import subprocess
import sys
import tempfile
from ctypes import CDLL
from dataclasses import replace
from pathlib import Path
from random import Random
from typing import Iterator, Optional

from sozhipen.answers import Answer as DeskLine, Ended
from sozhipen.desk import Desk, DeskAnswer
from sozhipen.handle import HandleEngine, calls_of
from sozhipen.library import GOES, Engine

from ...words import Parser
from ..generators.generate import chosen_cases
from ..meaning.script import lines_of
from .desk import Answer, Asked, asked_of

PIECES = (1, 3, 17, 100, 4096, 1_000_000)


def by_program(a: Asked, program: str) -> Iterator[Answer]:
    """What the program answers to each part."""
    with tempfile.TemporaryDirectory() as folder:
        Path(folder, "rules.drl").write_bytes(a.case.rules)
        image = Path(folder, "image")
        for part in a.parts:
            done = subprocess.run([program, *a.words], cwd=folder, input=part, stdout=subprocess.PIPE, check=False)
            yield Answer(done.stdout, done.returncode, image.read_bytes() if image.exists() else None)


def by_library(a: Asked, rng: Random) -> Iterator[Answer]:
    """What the library answers to each part, which it gets in pieces."""
    image: Optional[bytes] = None
    for part in a.parts:
        engine, at, told = Engine(a.case.rules, a.limit or 0, 0, image, a.as_text), 0, b""
        while at < len(part) and engine.status == GOES:
            size = rng.choice(PIECES)
            engine.feed(part[at:at + size])
            told, at = told + engine.output(), at + size
        status = engine.end()
        told += engine.output()
        image = engine.save() if status <= 1 else image
        engine.close()
        yield Answer(told, status, image)


def by_handle(a: Asked, calls: CDLL, rng: Random) -> Iterator[Answer]:
    """What the calls of crates/desk_c answer to each part, which they get in pieces."""
    image: Optional[bytes] = None
    for part in a.parts:
        engine, at, told = HandleEngine(calls, a.case.rules, a.limit or 0, image, a.as_text), 0, b""
        while at < len(part) and engine.status == GOES:
            size = rng.choice(PIECES)
            engine.feed(part[at:at + size])
            told, at = told + engine.output(), at + size
        status = engine.end()
        told += engine.output()
        image = engine.save() if status <= 1 else image
        engine.close()
        yield Answer(told, status, image)


def without_saves(a: Asked) -> Asked:
    """The same without the lines that save."""
    return replace(a, parts=[b"".join(line for line in part.splitlines(keepends=True) if b"save" not in line)
                             for part in a.parts])


def raw(answers: list[DeskLine]) -> bytes:
    """The bytes of these answers."""
    return b"".join(told + b"\n" for it in answers if isinstance(it, DeskAnswer) and it.index < len(it.batch.answers)
                    for told in it.batch.answers[it.index])


def by_class(a: Asked) -> Iterator[Answer]:
    """What the class answers to each part, which it gets line by line."""
    with tempfile.TemporaryDirectory() as folder:
        image = Path(folder, "image")
        for part in a.parts:
            answers: list[DeskLine] = []
            try:
                desk = Desk(text=a.case.rules, limit=a.limit, image=image)
                for line in lines_of(part):
                    answers.append(desk.send_line(line.decode("utf-8", "surrogateescape")))
                status, said = desk.close(), ""
            except Ended as ended:
                status, said = ended.status, ended.said
            told = raw(answers) + (said + "\n" if said else "").encode()
            yield Answer(told, status, image.read_bytes() if image.exists() else None)


def differs(a: Asked, wanted: list[Answer], found: list[Answer], who: str) -> bool:
    """Whether these answers are others, which is told."""
    for k, (one, other) in enumerate(zip(wanted, found)):
        if one != other:
            print(f"{who}: part {k}, {a.words}: status {other.status} in place of {one.status}, output "
                  f"{'the same' if one.output == other.output else 'another'}, image "
                  f"{'the same' if one.image == other.image else 'another'}")
            return True
    return len(wanted) != len(found)


def main() -> int:
    parser = Parser(description="Holds the library and the class Desk against the program desk.")
    parser.add_argument("program", metavar="PROGRAM")
    parser.add_argument("--handle", metavar="LIBRARY", type=calls_of, help="the shared library of crates/desk_c")
    parser.add_argument("--seeds", nargs=2, type=int, metavar=("A", "B"), default=(0, 100), help="from A, below B")
    parser.add_argument("--lives", action="store_true", help="files whose events have finite lives")
    parser.add_argument("--share", action="store_true", help="files whose rules share conditions")
    asked = parser.parse_args()
    program, case_of = str(Path(asked.program).resolve()), chosen_cases(asked.lives, asked.share)
    wrong = parts = 0
    for seed in range(*asked.seeds):
        case, rng = case_of(seed), Random(f"library/{seed}")
        for as_text in (False, True):
            a = replace(asked_of(case, seed, as_text, False, False), has_image=True)
            a = without_saves(a) if asked.handle else a
            wanted = list(by_program(a, program))
            if asked.handle:
                wrong += differs(a, wanted, list(by_handle(a, asked.handle, rng)), f"seed {seed}: the handle")
            else:
                wrong += differs(a, wanted, list(by_library(a, rng)), f"seed {seed}: the library")
            if not as_text and not asked.handle:
                wrong += differs(a, wanted, list(by_class(a)), f"seed {seed}: the class")
            parts += len(a.parts)
    print(f"{asked.seeds[1] - asked.seeds[0]} files and scripts, {parts} runs, of which {wrong} are others")
    return 1 if wrong else 0


if __name__ == "__main__":
    sys.exit(main())
