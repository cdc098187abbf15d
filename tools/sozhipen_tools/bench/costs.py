"""What a line, a field, a rule, a firing, a kept fact and an image cost, told one by one.

    tools/run bench.costs --replay PROGRAM [--runs N] [--callgrind] [--scale S]

Each row is of a load of bench.measure, or of two of them, of which the one is taken off the other: microseconds of
processor time, user and system, the least of N runs (3), and the same of Python's `json.loads` of the same lines; or,
with --callgrind, instructions at 2,000 lines, which do not depend on what else the machine does. --scale 0.01 takes a
hundredth of the lines.
"""

from __future__ import annotations

import argparse
import os
import shutil
import sys
import tempfile
from pathlib import Path
from typing import NamedTuple, Optional

from ..words import Parser
from .measure import adopt_orphans, by_json, instructions_a_line, least, saved_and_resumed, written

COUNTED_LINES = 2000


class Cost(NamedTuple):
    """What is told of a load at so many lines: a line, or, beside another load, so many things in each line."""
    what: str
    load: str
    lines: int
    beside: Optional[str] = None
    in_line: float = 1
    is_json: bool = False


COSTS = [
    Cost("a line of 60 spaces", "blank", 500_000),
    Cost("a move of the clock", "clocks", 150_000),
    Cost("a line that matches nothing", "bare", 150_000, is_json=True),
    *(Cost(f"an insert of {number} fields", f"fields{number}", 50_000, is_json=True) for number in (2, 8, 16, 32)),
    Cost("a declared type more, of 128", "types128", 50_000, "inserts", 127),
    Cost("a rule more on one stream, an event", "rules_50", 15_000, "rules_1", 49 / 3),
    Cost("a firing", "fires_10", 10_000, "fires_1", 9 / 2),
    Cost("a firing that modifies its fact", "counters", 10_000, "fires_1", 9 / 2),
]
KEPT = {"two numbers": "kept_two", "six fields, three of them texts": "kept_six"}
KEPT_LINES = 100_000
IMAGE_LINES = 500_000


def told(cost: Cost, asked: argparse.Namespace, folder: Path) -> str:
    n = max(10, int((COUNTED_LINES if asked.callgrind else cost.lines) * asked.scale))

    def instructions(name: str) -> float:
        return instructions_a_line(asked.replay, folder, name, n)

    def microseconds(name: str) -> float:
        files = written(folder, name, n)
        return least(asked.replay, files, asked.runs, False)[0].seconds / files.lines * 1e6
    spent = instructions if asked.callgrind else microseconds
    each = (spent(cost.load) - (spent(cost.beside) if cost.beside else 0)) / cost.in_line
    row = f"{cost.what:36} " + (f"{each:9,.0f} instructions" if asked.callgrind else f"{each:9.3f} µs")
    if cost.is_json and not asked.callgrind:
        files = written(folder, cost.load, n)
        row += f"  json.loads {by_json(files, asked.runs).seconds / files.lines * 1e6:.2f} µs"
    return row + f"  ({cost.load}{' less ' + cost.beside if cost.beside else ''}, {n:,} lines)"


def kept(asked: argparse.Namespace, folder: Path) -> str:
    """Bytes of a kept fact: the memory of twice the facts less that of the facts."""
    rows = []
    for what, name in KEPT.items():
        lines = max(10, int(KEPT_LINES * asked.scale))
        once, twice = (least(asked.replay, written(folder, name, n), 1, False)[0].mebibytes for n in (lines, 2 * lines))
        rows.append(f"{'a kept fact of ' + what:48} {(twice - once) * 2**20 / lines:,.0f} B  ({name}, {lines:,} facts)")
    return "\n".join(rows)


def image(asked: argparse.Namespace, folder: Path) -> str:
    files = written(folder, "inserts", max(10, int(IMAGE_LINES * asked.scale)))
    ran = least(asked.replay, files, asked.runs, False)[0].seconds
    saved, size, resumed = saved_and_resumed(asked.replay, files, asked.runs)
    return (f"an image of {files.lines:,} facts, a fact: saved {(saved.seconds - ran) / files.lines * 1e6:.2f} µs, "
            f"resumed {resumed.seconds / files.lines * 1e6:.2f} µs, {size / files.lines:.0f} B")


def asked_for(given: list[str]) -> argparse.Namespace:
    parser = Parser(description="Tells what a line, a field, a rule, a firing, a kept fact and an image cost.")
    parser.add_argument("--replay", metavar="PROGRAM", required=True, help="the program")
    parser.add_argument("--runs", type=int, default=3, metavar="N", help="take the least of so many runs (3)")
    parser.add_argument("--callgrind", action="store_true", help="instructions in the place of time, by valgrind")
    parser.add_argument("--scale", type=float, default=1, metavar="S", help="so many times the lines (1)")
    asked = parser.parse_args(given)
    missing = [name for name in [asked.replay, *(["valgrind"] if asked.callgrind else [])] if not shutil.which(name)]
    if missing:
        parser.error(f"no such program: {', '.join(missing)}")
    return asked


def main(given: list[str]) -> int:
    asked = asked_for(given)
    asked.replay = os.path.abspath(shutil.which(asked.replay))
    adopt_orphans()
    with tempfile.TemporaryDirectory() as temporary:
        folder = Path(temporary)
        for cost in COSTS:
            print(told(cost, asked, folder), flush=True)
        if not asked.callgrind:
            print(kept(asked, folder), flush=True)
            print(image(asked, folder), flush=True)
    return 0


if __name__ == "__main__":
    sys.exit(main(sys.argv[1:]))
