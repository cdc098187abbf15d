"""Cuts scripts: the first part is run in the mode `save`, the rest goes on from the image, and both have to be the run
without a break.

    tools/run reference.comparers.cuts [--scripts N] [--from SEED] [--replay PROGRAM] [--folder FOLDER] [--keep-going]
        [--threefold] [--share]

Each script is cut once behind each of its lines, and some more times behind three lines at once, where the runs between
go on from an image and save one. Every image has to be that of the run without a break behind the same line, byte for
byte; the last part has to print what that run prints behind the cut, and to end with its status. Where that run has met
the limit, its last line and the status 4 are the answer.

In half of the scripts events that are forgotten still block a `not`, or stand in an accumulate, where some cut is; the
seeds are taken in their order until both halves are full. With --share the rules of a file share conditions, and all
seeds are taken. Without --replay the evaluator goes on from its own images, and each run is also tried without what
rows count of forgotten events: how many differ then is told. The files of the first difference are left in the folder.
The status is 0 where all was as it has to be, 1 where it was not.
"""

from __future__ import annotations

import os
import subprocess
import sys
import tempfile
from collections import Counter
from dataclasses import dataclass, replace
from itertools import count as numbers, islice
from random import Random
from typing import Callable, Iterator, Optional

from ...words import Parser
from ..generators.generate import Case, case_of, lives_case_of, shared_case_of, write_case
from ..images.image import Image, decode, encode
from ..images.resume import Refused, resumed
from ..images.saving import fits
from ..meaning.program import Program
from ..meaning.run import Run, program_or_refusal, run, run_on
from ..meaning.script import lines_of
from ..meaning.trees import Folded, Negated
from ..meaning.worlds import World
from .compare import absolute
from .modes import Answer, image_answer, resumed_answer, text

LIMIT = 100_000
LIMIT_MET = 4
THREES = 3
SECONDS = 60.0


@dataclass(frozen=True)
class Asked:
    """What one call is asked: a part of a script, the image that it goes on from, and whether it saves one."""
    script: bytes
    image: Optional[bytes] = None
    saves: bool = False


Answers = Callable[[Asked], Answer]


@dataclass(frozen=True)
class Whole:
    """The run without a break: what it has printed and what a call that saves answers, behind each line; its status."""
    printed: list[int]
    saved: list[Answer]
    lines: list[str]
    status: int

    def behind(self, cut: int) -> Answer:
        """What is printed behind a cut, and the status."""
        return text(self.lines[self.printed[cut]:]), self.status

    @property
    def end(self) -> int:
        """The line behind which the run ends: at the limit, or the last one."""
        return next((k for k, (_, status) in enumerate(self.saved) if status == LIMIT_MET), len(self.saved) - 1)


def whole_of(program: Program, script: bytes, limit: int) -> Whole:
    """The run without a break, with the images on its way."""
    state = Run(World(program), limit, limit, [])
    printed, saved = [0], [image_answer(state)]
    for line in lines_of(script):
        if not state.ended:
            run_on(state, line + b"\n")
        printed.append(len(state.lines))
        saved.append(image_answer(state))
    return Whole(printed, saved, state.lines, state.status)


# ---- who is asked


def by_reference(program: Program, limit: int) -> Answers:
    def answer(asked: Asked) -> Answer:
        if not asked.saves:
            return resumed_answer(program, asked.image or b"", asked.script, limit)
        try:
            state = (run(program, asked.script, limit) if asked.image is None
                     else run_on(resumed(asked.image, program, limit), asked.script))
        except Refused as refused:
            return text([f"refused checkpoint {refused}"]), 9
        return image_answer(state)
    return answer


def by_program(command: list[str], case: Case, folder: str) -> Answers:
    write_case(case, folder)
    limit = [] if case.limit is None else ["--limit", str(case.limit)]

    def answer(asked: Asked) -> Answer:
        words = limit + ["--mode", "save"] * asked.saves
        if asked.image is not None:
            with open(os.path.join(folder, "image"), "wb") as f:
                f.write(asked.image)
            words += ["--resume", "image"]
        try:
            done = subprocess.run(command + words + ["rules.drl"], cwd=folder, input=asked.script, capture_output=True,
                                  timeout=SECONDS)
        except subprocess.TimeoutExpired:
            return b"no end in time\n", -1
        return done.stdout, done.returncode
    return answer


# ---- what is held against the run without a break


def told(wanted: Answer, got: Answer) -> Optional[str]:
    if wanted == got:
        return None
    return (f"the run without a break has {wanted[0][:300]!r} and the status {wanted[1]}, this one {got[0][:300]!r} "
            f"and {got[1]}")


def difference(whole: Whole, lines: list[bytes], cuts: list[int], answer: Answers) -> Optional[str]:
    """What is wrong with a script that is cut behind these lines, in rising order; behind the last of them it runs to
    its end."""
    image, start = None, 0
    for cut in cuts:
        got = answer(Asked(b"".join(line + b"\n" for line in lines[start:cut]), image, True))
        if said := told(whole.saved[cut], got):
            return f"saved behind line {cut}: {said}"
        image, start = got[0], cut
        if got[1] == LIMIT_MET:
            return None
    got = answer(Asked(b"\n".join(lines[start:]), image))
    said = told(whole.behind(start), got)
    return said and f"resumed behind line {start}: {said}"


def extras_of(data: Answer, program: Program, counts: Counter) -> int:
    """How many rows of an image count forgotten events under a `not` or an accumulate."""
    if data[1] not in (0, 1):
        return 0
    conditions = [program.rules[e.rule].conditions[e.condition] for e in decode(data[0]).extras]
    negated, folded = (sum(isinstance(c, kind) for c in conditions) for kind in (Negated, Folded))
    counts["negated"] += negated
    counts["folded"] += folded
    counts["existing"] += len(conditions) - negated - folded
    return negated + folded


def differs_without(program: Program, whole: Whole, lines: list[bytes], cut: int, limit: int) -> bool:
    """Whether a run that goes on without what rows count of forgotten events would answer otherwise."""
    data, status = whole.saved[cut]
    image: Optional[Image] = decode(data) if status in (0, 1) else None
    if image is None or not image.extras or not fits(replace(image, extras=()), program):
        return False
    other = encode(replace(image, extras=()))
    return resumed_answer(program, other, b"\n".join(lines[cut:]), limit) != whole.behind(cut)


def first_difference(program: Program, case: Case, whole: Whole, answer: Answers, counts: Counter, rng: Random,
                     threefold: bool = False) -> Optional[str]:
    lines = lines_of(case.script)
    threes = [sorted(rng.randint(0, len(lines)) for _ in range(3)) for _ in range(THREES)]
    for cuts in threes[:1] if threefold else [[cut] for cut in range(whole.end + 1)] + threes:
        counts[len(cuts)] += 1
        if said := difference(whole, lines, cuts, answer):
            return f"cut behind {', '.join(map(str, cuts))}: {said}"
    return None


# ---- the scripts


@dataclass(frozen=True)
class Script:
    """A seed's case with its program, and its run without a break."""
    seed: int
    case: Case
    program: Program
    whole: Whole
    counts: Counter

    @property
    def limit(self) -> int:
        return self.case.limit or LIMIT


def mixed_case_of(seed: int) -> Case:
    """Two of three seeds are of finite lives."""
    return case_of(seed) if seed % 3 == 0 else lives_case_of(seed)


def script_of(seed: int, case: Case) -> Optional[Script]:
    """Of a file that is refused there is none."""
    program = program_or_refusal(case.rules)
    counts: Counter[str] = Counter()
    if isinstance(program, str):
        return None
    whole = whole_of(program, case.script, case.limit or LIMIT)
    counts["telling images"] = sum(extras_of(data, program, counts) > 0 for data in whole.saved)
    return Script(seed, case, program, whole, counts)


def shared_scripts(count: int, first: int) -> Iterator[Script]:
    """So many scripts of files whose rules share conditions."""
    return islice(filter(None, (script_of(seed, shared_case_of(seed)) for seed in numbers(first))), count)


def scripts(count: int, first: int) -> Iterator[Script]:
    """So many scripts, in half of which forgotten events still block or stand somewhere."""
    left = {True: count - count // 2, False: count // 2}
    seed = first
    while any(left.values()):
        script = script_of(seed, mixed_case_of(seed))
        seed += 1
        if script is None:
            continue
        blocks = script.counts["telling images"] > 0
        if left[blocks]:
            left[blocks] -= 1
            yield script


def keep(folder: str, script: Script) -> str:
    place = os.path.join(folder, str(script.seed))
    write_case(script.case, place)
    return place


def summary(counts: Counter, own: bool) -> str:
    without = f"; without these {counts['differ']} of the runs that go on differ" if own else ""
    return (f"{counts['right']} of {counts['right'] + counts['wrong']} scripts went on as without a break, over "
            f"{counts[1]} single cuts and "
            f"{counts[3]} threefold ones; {counts['telling']} scripts with forgotten events that block a `not` or "
            "stand in an accumulate: in "
            f"{counts['telling images']} images, under a `not` {counts['negated']} rows, under an exists "
            f"{counts['existing']}, under an "
            f"accumulate {counts['folded']}{without}")


def main() -> int:
    parser = Parser(description="Cuts scripts, and holds the runs that go on against those without a break.")
    parser.add_argument("--scripts", type=int, default=100, help="how many (default 100)")
    parser.add_argument("--from", dest="first", type=int, default=0, metavar="SEED", help="the first seed")
    parser.add_argument("--replay", help="the program, a command; without it the evaluator itself")
    parser.add_argument("--folder", default="reference-failures",
                        help="where the files of the first difference are left")
    parser.add_argument("--keep-going", action="store_true", help="do not stop at the first difference")
    parser.add_argument("--threefold", action="store_true", help="cut each script at three lines at once alone")
    parser.add_argument("--share", action="store_true", help="files whose rules share conditions")
    asked = parser.parse_args()
    counts: Counter = Counter()
    for script in (shared_scripts if asked.share else scripts)(asked.scripts, asked.first):
        lines = lines_of(script.case.script)
        with tempfile.TemporaryDirectory(prefix="cuts-") as room:
            answer = (by_program(absolute(asked.replay), script.case, room) if asked.replay
                      else by_reference(script.program, script.limit))
            said = first_difference(script.program, script.case, script.whole, answer, counts,
                                    Random(f"cuts/{script.seed}"), asked.threefold)
        counts.update(script.counts)
        counts["telling"] += script.counts["telling images"] > 0
        if not asked.replay:
            counts["differ"] += sum(differs_without(script.program, script.whole, lines, cut, script.limit)
                                    for cut in range(len(lines) + 1))
        counts["wrong" if said else "right"] += 1
        if said:
            print(f"seed {script.seed}, {said} (files in {keep(asked.folder, script)})", flush=True)
            if not asked.keep_going:
                break
    print(summary(counts, asked.replay is None))
    return 1 if counts["wrong"] else 0


if __name__ == "__main__":
    sys.exit(main())
