"""Holds the built program against the reference, on random rule files and scripts.

    tools/run reference.comparers.compare --seeds A B [--replay PROGRAM] [--folder FOLDER] [--keep-going]
        [--lives | --share] [--modes]

With --modes the program is also asked for its other modes: check and lives, the image of a run that is cut, the run
that goes on from it, an image that is spoilt, and certificates, which are confirmed. With --lives the files are over
events of finite lives, which end within the scripts; with --share the rules of a file share conditions. For each seed
from A up to B - 1 the program runs on the seed's file and script, and its bytes and status are compared with those of
the reference. The first difference is printed with its seed, and the files of that seed, with both outputs, are left in
the folder. The last lines say how many seeds agreed and what was seen. The status is 0 where all agreed, 1 where one
did not.
"""

from __future__ import annotations

import os
import shlex
import shutil
import subprocess
import sys
import tempfile
from collections import Counter
from dataclasses import replace
from typing import Optional

from ...places import BUILT
from ...words import Parser
from ..generators.generate import Case, chosen_cases, write_case
from ..meaning.keeping import has_forgotten
from ..meaning.run import outcome, report_of
from .modes import questions

# In the place of the status of a program that did not end in time.
NO_END = -1000

LINES = {"new": "inserts", "fire": "firings", "limit": "limits", "held": "held lines",
         "forgetting": "files with events forgotten at their end"}
LINES_OF_CODES = {"fault": "faults", "refused": "refusals"}


def words_of(case: Case) -> list[str]:
    return ([] if case.limit is None else ["--limit", str(case.limit)]) + ["rules.drl"]


def program_answer(command: list[str], words: list[str], case: Case, image: bytes,
                   seconds: float) -> tuple[bytes, int, bytes]:
    """The program's output, status and standard error in a folder of its own."""
    with tempfile.TemporaryDirectory(prefix="reference-") as folder:
        write_case(case, folder)
        with open(os.path.join(folder, "image"), "wb") as f:
            f.write(image)
        with open(os.path.join(folder, "script.jsonl"), "rb") as script:
            try:
                done = subprocess.run(command + words, cwd=folder, stdin=script, capture_output=True, timeout=seconds)
            except subprocess.TimeoutExpired:
                return b"", NO_END, b"no end in time\n"
        return done.stdout, done.returncode, done.stderr


def other_difference(command: list[str], case: Case, seed: int, seconds: float) -> Optional[str]:
    """What is wrong with the program's answers in its other modes."""
    for q in questions(case, seed):
        output, status, _ = program_answer(command, q.words, replace(case, script=q.script), q.image, seconds)
        if said := q.judge(output, status):
            return f"{' '.join(q.words)}: {said}"
    return None


def first_difference(wanted: bytes, got: bytes) -> Optional[str]:
    """The first line that differs, None where the bytes are equal."""
    if wanted == got:
        return None
    a, b = wanted.split(b"\n"), got.split(b"\n")
    k = next((k for k in range(min(len(a), len(b))) if a[k] != b[k]), min(len(a), len(b)))
    text = [part[k].decode("utf-8", "backslashreplace") if k < len(part) else "the end" for part in (a, b)]
    return f"line {k + 1}: the reference has {text[0]!r}, the program {text[1]!r}"


def count_lines(counts: Counter, output: bytes) -> None:
    """Inserts, firings, faults and refusals by their codes."""
    for line in output.decode("utf-8").split("\n"):
        words = line.split(" ")
        if words[0] in ("fault", "refused"):
            counts[f"{words[0]} {words[-1]}"] += 1
        elif words[0] in ("new", "fire", "limit", "held"):
            counts[words[0]] += 1


def absolute(command: str) -> list[str]:
    """The words of the command, those that name a file made absolute."""
    words = shlex.split(command)
    return [os.path.abspath(w) if os.path.isfile(w) and not (k == 0 and os.sep not in w) else w
            for k, w in enumerate(words)]


def keep(folder: str, seed: int, case: Case, wanted: tuple[bytes, int], got: tuple[bytes, int, bytes]) -> str:
    """Leaves the files of a seed, with both answers."""
    place = os.path.join(folder, str(seed))
    write_case(case, place)
    for name, data in (("reference.out", wanted[0]), ("program.out", got[0]), ("program.err", got[2]),
                       ("words", " ".join(words_of(case)).encode() + b"\n"),
                       ("statuses", f"reference {wanted[1]} program {got[1]}\n".encode())):
        with open(os.path.join(place, name), "wb") as f:
            f.write(data)
    return place


def summary(counts: Counter) -> str:
    """Inserts, firings and the other lines that were seen, then faults and refusals by code."""
    plain = [f"{name} {counts[word]}" for word, name in LINES.items() if counts[word] or word in ("new", "fire")]
    for sort in ("fault", "refused"):
        coded = {key.split(" ")[1]: n for key, n in sorted(counts.items()) if key.startswith(sort + " ")}
        each = ", ".join(f"{code} {n}" for code, n in coded.items())
        plain.append(f"{LINES_OF_CODES[sort]} {sum(coded.values())} ({each})")
    return ", ".join(plain)


def main() -> int:
    parser = Parser(description="Holds the program against the reference on random files and scripts.")
    parser.add_argument("--seeds", type=int, nargs=2, required=True, metavar=("A", "B"), help="from A up to B - 1")
    parser.add_argument("--replay", default=shlex.quote(str(BUILT)), help="the program, a command")
    parser.add_argument("--folder", default="reference-failures", help="where the files of failing seeds are left")
    parser.add_argument("--seconds", type=float, default=60.0, help="the time that the program may take for a seed")
    parser.add_argument("--keep-going", action="store_true", help="do not stop at the first difference")
    parser.add_argument("--modes", action="store_true", help="ask for the other modes too")
    parser.add_argument("--lives", action="store_true", help="files over events of finite lives")
    parser.add_argument("--share", action="store_true", help="files whose rules share conditions")
    asked = parser.parse_args()
    command = absolute(asked.replay)
    if shutil.which(command[0]) is None:
        parser.error(f"{command[0]} is not there: build it (README.md at the top), or name another by --replay")
    counts: Counter = Counter()
    agreed = differed = 0
    for seed in range(*asked.seeds):
        case = chosen_cases(asked.lives, asked.share)(seed)
        found = outcome(case.rules, case.script, case.limit or 100_000)
        wanted = report_of(found)
        count_lines(counts, wanted[0])
        counts["forgetting"] += not isinstance(found, str) and has_forgotten(found.world)
        got = program_answer(command, words_of(case), case, b"", asked.seconds)
        difference = first_difference(wanted[0], got[0])
        if difference is None and wanted[1] != got[1]:
            difference = f"the reference ends with the status {wanted[1]}, the program with {got[1]}"
        if difference is None and asked.modes:
            difference = other_difference(command, case, seed, asked.seconds)
        if difference is None:
            agreed += 1
            continue
        differed += 1
        place = keep(asked.folder, seed, case, wanted, got)
        print(f"seed {seed}: {difference} (files in {place})", flush=True)
        if not asked.keep_going:
            break
    print(f"{agreed} of {agreed + differed} seeds agreed: {summary(counts)}")
    return 0 if differed == 0 else 1


if __name__ == "__main__":
    sys.exit(main())
