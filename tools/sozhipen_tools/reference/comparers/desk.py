"""Holds a program `desk` against the reference, on random rule files and scripts.

    tools/run reference.comparers.desk PROGRAM [--seeds A B] [--lives | --share] [--text] [--folder FOLDER]
        [--keep-going] [--seconds N]

Among the lines of each script stand such as only a desk knows: facts, counts, and saves. The script is cut at random
lines, and each part is a run of its own that goes on from the image of the one before. With `--text` the program gets a
part at once; without it one line after the other, and not before it has closed the answer to the last one. Output,
status and image of each part have to be those of the reference, byte for byte. With `--text` here the program answers
in text alone, in both ways, and knows no lines but those of `replay`. The files of the first difference are left in the
folder. The status is 0 where all was as it has to be, 1 where it was not.
"""

from __future__ import annotations

import os
import re
import select
import subprocess
import sys
import tempfile
import time
from collections import Counter
from dataclasses import dataclass
from random import Random
from typing import Iterator, Optional

from ...pipes import pipe
from ...words import Parser
from ..desk import desk_at_start
from ..generators.generate import Case, chosen_cases, write_case
from ..images.resume import saved
from ..meaning.desk import Save
from ..meaning.program import Program
from ..meaning.run import program_or_refusal
from ..meaning.script import lines_of
from .compare import absolute, first_difference

MOST_PARTS = 3
LIMITS = [1, 2, 5, 30]
# The end of an answer that is closed.
CLOSED = re.compile(rb'(?:^|\n)(?:{"done":[^\n]*|done [0-9]+)\n\Z')
ODD_LINES = [b'{"do":"save","now":1}', b'{"do":"facts","type":1}', b'{"do":"counts","type":"T0"}',
             b'{"do":"facts","type":"Nope"}', b'{"do":"facts","type":null}', b'{"do":"Save"}']


@dataclass(frozen=True)
class Answer:
    """What a part of a script printed, its status, and the image behind it, None where there is no file."""
    output: bytes
    status: int
    image: Optional[bytes]


@dataclass(frozen=True)
class Asked:
    """The parts of a script, each for a run of its own; the limit, None where the words give none; whether the words
    name a file for the image, and ask for text; whether the program gets a line after the other."""
    case: Case
    parts: list[bytes]
    limit: Optional[int]
    has_image: bool
    as_text: bool
    waits: bool

    @property
    def words(self) -> list[str]:
        return ([] if self.limit is None else ["--limit", str(self.limit)]) + ["--text"] * self.as_text + (
            ["--image", "image"] * self.has_image) + ["rules.drl"]


# ---- what is asked


def desk_line(rng: Random, program: Program) -> bytes:
    """A line that only a desk knows, or one like it."""
    name = rng.choice(list(program.types)).encode()
    return rng.choice([b'{"do":"facts"}', b'{"type":"%s","do":"facts"}' % name, b'{"do":"counts"}',
                       b'{"do":"save"}', b' {"do":"counts"}\r', rng.choice(ODD_LINES)])


def with_desk_lines(rng: Random, lines: list[bytes], program: Program) -> list[bytes]:
    """The lines, and behind about each third one of these."""
    return [it for line in lines for it in [line, *([desk_line(rng, program)] if rng.random() < 0.3 else [])]]


def asked_of(case: Case, seed: int, as_text: bool, waits: bool, text_alone: bool) -> Asked:
    """What a seed's case asks a desk, perhaps one that answers in text alone. Without an image there is one part."""
    rng, program = Random(f"desk/{seed}"), program_or_refusal(case.rules)
    if isinstance(program, str):
        return Asked(case, [case.script], case.limit, False, as_text, waits)
    lines, has_image = lines_of(case.script), rng.random() < 0.8
    lines = lines if text_alone else with_desk_lines(rng, lines, program)
    cuts = sorted(rng.randint(0, len(lines)) for _ in range(rng.randrange(MOST_PARTS) if has_image else 0))
    parts = [b"".join(line + b"\n" for line in lines[a:b]) for a, b in zip([0, *cuts], [*cuts, len(lines)])]
    if not case.script.endswith(b"\n"):
        parts[-1] = parts[-1][:-1]
    limit = case.limit if rng.random() < 0.5 else rng.choice(LIMITS)
    return Asked(case, parts, limit, has_image, as_text, waits)


# ---- who answers


def by_reference(a: Asked) -> Iterator[Answer]:
    program, image = program_or_refusal(a.case.rules), None
    for part in a.parts:
        if isinstance(program, str):
            yield Answer(program.encode() + b"\n", 3, None)
            continue
        save: Optional[Save] = (lambda run: None) if a.has_image else None
        state = desk_at_start(program, a.limit or 100_000, a.as_text, image, save)
        for line in lines_of(part):
            state.number += 1
            state.line(state.number, line)
        image = saved(state) if a.has_image else None
        yield Answer("".join(line + "\n" for line in state.lines).encode(), state.status, image)


def answered(process: subprocess.Popen, part: bytes, seconds: float) -> bytes:
    """Writes each whole line only when the one before it is closed; what is printed."""
    output, until = b"", time.monotonic() + seconds
    *lines, rest = part.split(b"\n")
    for line in lines:
        if not written(process, line + b"\n"):
            return output
        answer = b""
        while not CLOSED.search(answer):
            piece = read_before(process, until)
            if not piece:
                return output + answer
            answer += piece
        output += answer
    written(process, rest)
    return output


def written(process: subprocess.Popen, data: bytes) -> bool:
    """Writes it, and tells whether the program was there to take it."""
    try:
        pipe(process.stdin).write(data)
        return True
    except BrokenPipeError:
        return False


def read_before(process: subprocess.Popen, until: float) -> bytes:
    """What is printed next; nothing at the end, and where nothing comes in time."""
    out = pipe(process.stdout).fileno()
    ready, _, _ = select.select([out], [], [], max(0.0, until - time.monotonic()))
    return os.read(out, 1 << 16) if ready else b""


def ran(command: list[str], part: bytes, folder: str, waits: bool, seconds: float) -> tuple[bytes, int]:
    """The output and the status of a run, -1 where it does not end in time."""
    with subprocess.Popen(command, cwd=folder, stdin=subprocess.PIPE, stdout=subprocess.PIPE, bufsize=0) as process:
        output = answered(process, part, seconds) if waits else b""
        try:
            rest, _ = process.communicate(None if waits else part, seconds)
            return output + rest, process.returncode
        except subprocess.TimeoutExpired:
            process.kill()
            return output, -1


def by_program(command: list[str], a: Asked, folder: str, seconds: float) -> Iterator[Answer]:
    write_case(a.case, folder)
    image = os.path.join(folder, "image")
    for part in a.parts:
        output, status = ran(command + a.words, part, folder, a.waits, seconds)
        yield Answer(output, status, read_file(image) if os.path.exists(image) else None)


def read_file(name: str) -> bytes:
    with open(name, "rb") as file:
        return file.read()


# ---- what differs


def difference(wanted: Answer, got: Answer) -> Optional[str]:
    if said := first_difference(wanted.output, got.output):
        return said
    if wanted.status != got.status:
        return f"the reference ends with the status {wanted.status}, the program with {got.status}"
    return None if wanted.image == got.image else "the images differ"


def compared(command: list[str], a: Asked, seconds: float, counts: Counter[str]) -> Optional[str]:
    """The first difference of the parts."""
    with tempfile.TemporaryDirectory(prefix="desk-") as folder:
        for k, (wanted, got) in enumerate(zip(by_reference(a), by_program(command, a, folder, seconds)), 1):
            counts["parts"] += 1
            counts["images"] += wanted.image is not None
            counts["bytes"] += len(wanted.output)
            if said := difference(wanted, got):
                return f"{' '.join(a.words)}, part {k} of {len(a.parts)}: {said}"
    return None


def keep(folder: str, seed: int, a: Asked) -> str:
    """Leaves the rule file of a seed, and the parts of its script."""
    place = os.path.join(folder, str(seed))
    write_case(a.case, place)
    for k, part in enumerate(a.parts, 1):
        with open(os.path.join(place, f"part{k}.jsonl"), "wb") as file:
            file.write(part)
    return place


def main() -> int:
    parser = Parser(description="Holds a program `desk` against the reference on random files and scripts.")
    parser.add_argument("program", metavar="PROGRAM", help="the program, a command")
    parser.add_argument("--seeds", type=int, nargs=2, default=(0, 100), metavar=("A", "B"), help="from A up to B - 1")
    parser.add_argument("--lives", action="store_true", help="files over events of finite lives")
    parser.add_argument("--share", action="store_true", help="files whose rules share conditions")
    parser.add_argument("--text", action="store_true", help="the program answers in text alone")
    parser.add_argument("--folder", default="reference-failures", help="where the files of failing seeds are left")
    parser.add_argument("--keep-going", action="store_true", help="do not stop at the first difference")
    parser.add_argument("--seconds", type=float, default=60.0, help="the time that a run may take")
    asked = parser.parse_args()
    command, counts = absolute(asked.program), Counter[str]()
    for seed in range(*asked.seeds):
        case = chosen_cases(asked.lives, asked.share)(seed)
        both = [asked_of(case, seed, asked.text or not waits, waits, asked.text) for waits in (True, False)]
        told = [(a, said) for a in both if (said := compared(command, a, asked.seconds, counts))]
        counts["differed" if told else "agreed"] += 1
        for a, said in told[:1]:
            print(f"seed {seed}: {said} (files in {keep(asked.folder, seed, a)})", flush=True)
        if told and not asked.keep_going:
            break
    print(f"{counts['agreed']} of {counts['agreed'] + counts['differed']} seeds agreed: {counts['parts']} runs, "
          f"{counts['images']} images, {counts['bytes']} bytes")
    return 1 if counts["differed"] else 0


if __name__ == "__main__":
    sys.exit(main())
