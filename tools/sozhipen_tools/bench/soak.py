"""A desk over a long stream: how long each line takes, with saves and without, and what becomes of its memory.

    tools/run bench.soak --desk PROGRAM [--lines N] [--every M] [--load NAME] [--folder FOLDER]

The script is a load of `bench.measure --list`, of N lines (10,000,000 of `fraud_reference`), with a line that saves
behind each M (100,000). It is run with a file for the image, and without one, where those lines are faults. Each line
is clocked by the processor time of the program (line_clock.c, which wants a C compiler, `cc`), so that what else the
machine does counts less. Of both runs it prints the parts of the times, the processor time, and at each tenth of the
run what the program holds in memory; of the saves their times and the bytes of the image. The status is 1 where a run
ended by another status than 0 or 1, or fewer saves are told than were asked for. It wants Linux, and of the disk some
200 bytes a line.
"""

from __future__ import annotations

import argparse
import array
import os
import re
import subprocess
import sys
import tempfile
import time
from pathlib import Path
from random import Random
from typing import Iterator, NamedTuple

from ..words import Parser
from .measure import SEED, line_clock
from .sharing import LOADS

SAVE = '{"do":"save"}\n'
PARTS = (("p50", 0.5), ("p90", 0.9), ("p99", 0.99), ("p99.9", 0.999), ("p99.99", 0.9999))
HELD = re.compile(r"RssAnon:\s+(\d+) kB")


class Script(NamedTuple):
    """The files of a soak, and the numbers of the lines that save, from 0."""
    rules: Path
    lines: Path
    saves: list[int]


class Run(NamedTuple):
    """What a run took: the nanoseconds of each line, kibibytes held as it went on, and its status."""
    times: array.array[int]
    held: list[int]
    status: int


def written(folder: Path, name: str, n: int, every: int) -> Script:
    load = LOADS[name](n, Random(SEED))
    rules, lines, saves, number = folder / "soak.drl", folder / "soak.jsonl", [], 0
    rules.write_text(load.rules, encoding="utf-8")
    with open(lines, "w", encoding="utf-8") as out:
        for count, text in enumerate(load.script, 1):
            out.write(text + "\n")
            number += 1
            if count % every == 0:
                out.write(SAVE)
                saves.append(number)
                number += 1
    return Script(rules, lines, saves)


def held_by(process: subprocess.Popen[bytes]) -> Iterator[int]:
    """Kibibytes of a process that runs, ten times a second."""
    while process.poll() is None:
        try:
            found = HELD.search(Path(f"/proc/{process.pid}/status").read_text(encoding="ascii"))
        except OSError:
            return
        if found:
            yield int(found[1])
        time.sleep(0.1)


def run(program: str, script: Script, folder: Path, words: list[str]) -> Run:
    told = folder / "times"
    clock = {"LD_PRELOAD": str(line_clock(folder)), "LINE_CLOCK": str(told), "LINE_CLOCK_PROCESSOR": "1"}
    with open(script.lines, "rb") as lines, open(folder / "answers", "wb") as answers, subprocess.Popen(
        [program, *words, str(script.rules)], stdin=lines, stdout=answers, env={**os.environ, **clock}) as process:
        held = list(held_by(process))
    times: array.array[int] = array.array("Q")
    times.frombytes(told.read_bytes())
    return Run(times, held, process.returncode)


def spread(times: list[int]) -> str:
    ranked = sorted(times)
    parts = [f"{name} {ranked[min(len(ranked) - 1, int(part * len(ranked)))] / 1000:.1f}" for name, part in PARTS]
    return f"{'  '.join(parts)}  worst {ranked[-1] / 1000:.1f} µs"


def tenths(held: list[int]) -> str:
    places = [len(held) * part // 10 for part in range(1, 10)] + [len(held) - 1]
    return " ".join(f"{held[place] / 1024:.1f}" for place in places) if held else "not seen"


def told(name: str, found: Run, saves: list[int]) -> list[int]:
    """Prints the rows of a run, and gives the times of the lines that save."""
    saving = set(saves)
    lines = [time for number, time in enumerate(found.times) if number not in saving]
    print(f"{name}: {len(found.times)} lines, {sum(found.times) / 1e9:.2f} s, status {found.status}")
    print(f"  a line: {spread(lines)}")
    print(f"  held at each tenth, MiB: {tenths(found.held)}; at most {max(found.held, default=0) / 1024:.1f}")
    return [found.times[number] for number in saves if number < len(found.times)]


def saved_in(answers: Path) -> int:
    """How many saves are told."""
    with open(answers, "rb") as lines:
        return sum(b'"saved":true' in line for line in lines)


def soaked(program: str, script: Script, folder: Path) -> bool:
    image = folder / "image"
    image.unlink(missing_ok=True)
    plain = run(program, script, folder, [])
    told("without saves", plain, script.saves)
    saving = run(program, script, folder, ["--image", str(image)])
    saves = told("with saves", saving, script.saves)
    known = saved_in(folder / "answers")
    if saves:
        print(f"  a save: {spread(saves)}, {known} told, image {image.stat().st_size / 2**20:.2f} MiB")
    return plain.status in (0, 1) and saving.status == 0 and known == len(script.saves)


def main(words: list[str]) -> int:
    parser = Parser(description=__doc__, formatter_class=argparse.RawDescriptionHelpFormatter)
    parser.add_argument("--desk", metavar="PROGRAM", required=True, help="the program desk")
    parser.add_argument("--lines", metavar="N", type=int, default=10_000_000, help="so many lines (10000000)")
    parser.add_argument("--every", metavar="M", type=int, default=100_000, help="a save behind so many (100000)")
    parser.add_argument("--load", metavar="NAME", choices=sorted(LOADS), default="fraud_reference",
                        help="the load (fraud_reference)")
    parser.add_argument("--folder", type=Path, help="keep the files there")
    asked = parser.parse_args(words)
    with tempfile.TemporaryDirectory() as temporary:
        folder = (asked.folder or Path(temporary)).resolve()
        folder.mkdir(parents=True, exist_ok=True)
        script = written(folder, asked.load, asked.lines, asked.every)
        return 0 if soaked(os.path.abspath(asked.desk), script, folder) else 1


if __name__ == "__main__":
    sys.exit(main(sys.argv[1:]))
