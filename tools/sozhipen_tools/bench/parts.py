"""Says where the instructions of a line go: to which crates of the program.

    tools/run bench.parts --replay PROGRAM NAME:LINES ..

It counts by callgrind, for each load of bench.measure, the script of 2n lines less that of n. What the libraries of the
kit and of C cost is counted to the crates that call them, by their parts of the calls' cost. A crate whose functions
the compiler has put into those of another is counted there.
"""

from __future__ import annotations

import os
import re
import shutil
import subprocess
import sys
import tempfile
from collections import Counter, defaultdict
from pathlib import Path
from typing import Iterable, NamedTuple

from ..places import clone
from ..words import Parser
from .measure import Files, Wanted, program_words, wanted, written

# How often what libraries cost goes on to the callers of those that called them.
ROUNDS = 12
NAMED = re.compile(r"\((\d+)\)(?: (.*))?$")
LEAST = 0.01


class Profile(NamedTuple):
    """The own cost of each function, and the cost of calls by caller and called."""
    own: Counter[str]
    calls: Counter[tuple[str, str]]


def profile_of(lines: Iterable[str]) -> Profile:
    """The profile that a file of callgrind has; a recursion's number is left out."""
    names: dict[str, str] = {}

    def name(text: str) -> str:
        found = NAMED.match(text)
        if not found:
            return text
        if found[2]:
            names[found[1]] = re.sub(r"'\d+$", "", found[2])
        return names[found[1]]
    made = Profile(Counter(), Counter())
    function = called = ""
    is_call = False
    for text in lines:
        if text.startswith("fn="):
            function = name(text[3:].rstrip("\n"))
        elif text.startswith("cfn="):
            called = name(text[4:].rstrip("\n"))
        elif text.startswith("calls="):
            is_call = True
        elif text[:1] in "0123456789+-*" and len(words := text.split()) > 1:
            if not is_call:
                made.own[function] += int(words[1])
            elif function != called:
                made.calls[function, called] += int(words[1])
            is_call = False
    return made


def crate_of(function: str) -> str:
    return function.partition("::")[0] if "::" in function else ""


def by_crate(profile: Profile, crates: set[str]) -> Counter[str]:
    """The cost by crate; what no crate calls is counted to the empty name."""
    callers: defaultdict[str, list[tuple[str, int]]] = defaultdict(list)
    for (caller, called), calls in profile.calls.items():
        callers[called].append((caller, calls))
    found: Counter[str] = Counter()
    left = {function: float(cost) for function, cost in profile.own.items()}
    for _ in range(ROUNDS):
        onward: defaultdict[str, float] = defaultdict(float)
        for function, cost in left.items():
            crate, by = crate_of(function), callers[function]
            whole = sum(calls for _, calls in by)
            if crate in crates or not whole:
                found[crate if crate in crates else ""] += int(cost)
                continue
            for caller, calls in by:
                onward[caller] += cost * calls / whole
        left = onward
    found[""] += int(sum(left.values()))
    return found


def counted(program: str, files: Files, crates: set[str]) -> Counter[str]:
    out = files.rules.parent / "profile"
    with open(files.script, "rb") as script:
        subprocess.run(["valgrind", "--tool=callgrind", f"--callgrind-out-file={out}", *program_words(program, files)],
                       stdin=script, stdout=subprocess.DEVNULL, stderr=subprocess.DEVNULL, check=True)
    with open(out, encoding="utf-8", errors="replace") as lines:
        return by_crate(profile_of(lines), crates)


def told(program: str, folder: Path, load: Wanted, crates: set[str]) -> str:
    rows = []
    for n in load.sizes:
        once, twice = written(folder, load.name, n), written(folder, load.name, 2 * n)
        parts = counted(program, twice, crates)
        parts.subtract(counted(program, once, crates))
        whole = sum(parts.values())
        lines = twice.lines - once.lines
        shown = [f"{crate or 'start, end'} {cost / lines:,.0f} ({100 * cost / whole:.0f} %)"
                 for crate, cost in parts.most_common() if cost > LEAST * whole]
        rows.append(f"{load.name:20} {whole / lines:,.0f} instructions/line: {', '.join(shown)}")
    return "\n".join(rows)


def main(given: list[str]) -> int:
    parser = Parser(description="Says to which crates of the program the instructions of a line go.")
    parser.add_argument("--replay", metavar="PROGRAM", required=True, help="the program")
    parser.add_argument("loads", nargs="+", type=wanted, metavar="NAME:LINES[,LINES..]")
    asked = parser.parse_args(given)
    missing = [name for name in (asked.replay, "valgrind") if not shutil.which(name)]
    if missing:
        parser.error(f"no such program: {', '.join(missing)}")
    program = os.path.abspath(shutil.which(asked.replay))
    crates = {path.name for path in (clone() / "crates").iterdir() if path.is_dir()}
    with tempfile.TemporaryDirectory() as temporary:
        for load in asked.loads:
            print(told(program, Path(temporary), load, crates), flush=True)
    return 0


if __name__ == "__main__":
    sys.exit(main(sys.argv[1:]))
