"""Measures a program that is called as `replay` is, over the loads of bench.loads, bench.desks, bench.features and
bench.sharing.

    tools/run bench.measure --list
    tools/run bench.measure --replay PROGRAM [--runs N] [--clips] [--json] [--callgrind] [--latency] [--lines]
        [--images] [--folder FOLDER] NAME:LINES[,LINES..] ..

A row has the seconds of processor time, user and system, the least of N runs (3), the time of a line with its part of
the start, the peak of memory with its bytes a line, and the firings. `inserts:20000,40000` measures both, and says how
the seconds grew: 2.00 is linear. The further words:

    --clips      beside CLIPS (Debian's package `clips`), whose runs come between, where the load has a twin: the same
                 facts, which CLIPS reads in its own form, and the same rules. The ratio is the program's time by that
                 of CLIPS
    --json       beside Python's `json.loads` of each line, with the start of Python, some hundredths of a second
    --callgrind  instructions a line by valgrind: those of the script of 2n lines less those of n, so that the start
                 falls out
    --latency    on a pipe, by the clock: how long a line and a mark after it take to be answered, where the program
                 waits for each
    --lines      from a file, by the clock: how long each line takes, where line_clock.c hands out one at a time; it
                 wants a C compiler, `cc`
    --images     how much longer the run takes that saves an image in place of its lines, the image, and a run that
                 goes on from it over no lines; the peaks of memory are told by that of the run
    --folder     keeps the files of the loads there

The status is 1 where a run ended by another status than 0, or CLIPS fired another number of times. It wants Linux, for
the peaks.
"""

from __future__ import annotations

import argparse
import array
import ctypes
import json
import os
import re
import shutil
import subprocess
import sys
import tempfile
from pathlib import Path
from random import Random
from time import perf_counter_ns
from typing import NamedTuple, Optional

from ..pipes import pipe
from ..words import Parser
from .sharing import LOADS  # those of loads, desks and features too

SEED = 7
FIRINGS = "1000000"
PR_SET_CHILD_SUBREAPER = 36
# The command waits for the end of what the shell has as its input.
FROM_SHELL = ('exec 3<&0; from=$1; to=$2; shift 2; { read -r _ <&3; exec "$@" < "$from" > "$to" 2> /dev/null 3<&-; } & '
              'echo $!')
# A line that is no JSON: it changes nothing, and is answered by the number of the line.
MARK = b"x\n"
MARKS = 1000
LOADS_EACH_LINE = "import json, sys\nfor line in sys.stdin.buffer: json.loads(line)"


class Files(NamedTuple):
    """The files of a load: the rules, the script with its number of lines, and commands for CLIPS."""
    rules: Path
    script: Path
    lines: int
    commands: Optional[Path]


class Spent(NamedTuple):
    """What a run took; the order of fields is that of comparing runs."""
    seconds: float
    mebibytes: float
    status: int
    fired: int


# ---- files


def fact_of(text: str) -> str:
    """An inserted fact, as CLIPS reads it."""
    command = json.loads(text)
    return (f"({command['type']} "
            f"{' '.join(f'({field} {json.dumps(value)})' for field, value in command['fields'].items())})\n")


def commands_of(folder: Path, name: str, n: int, twin: str) -> Path:
    rules, commands = folder / f"{name}.clp", folder / f"{name}.{n}.go"
    rules.write_text(twin, encoding="utf-8")
    commands.write_text(f'(set-fact-duplication TRUE)\n(load "{rules.name}")\n(reset)\n(load-facts '
                        f'"{name}.{n}.facts")\n(run)\n(exit)\n',
                        encoding="utf-8")
    return commands


def written(folder: Path, name: str, n: int) -> Files:
    """Writes a load line by line, so that this process stays small."""
    made = LOADS[name](n, Random(SEED))
    rules, script, lines = folder / f"{name}.drl", folder / f"{name}.{n}.jsonl", 0
    known = folder / f"{name}.{n}.facts" if made.clips else Path(os.devnull)
    rules.write_text(made.rules, encoding="utf-8")
    with open(script, "w", encoding="utf-8") as out, open(known, "w", encoding="utf-8") as facts:
        for text in made.script:
            out.write(text + "\n")
            lines += 1
            if made.clips and text.startswith('{"do":"insert"'):
                facts.write(fact_of(text))
    return Files(rules, script, lines, commands_of(folder, name, n, made.clips) if made.clips else None)


# ---- runs


def adopt_orphans() -> None:
    """Makes the children of a child that has ended children of this process."""
    ctypes.CDLL(None).prctl(PR_SET_CHILD_SUBREAPER, 1, 0, 0, 0)


def ran(command: list[str], script: Path, folder: Path) -> Spent:
    """Runs a command from a shell that ends before it: the peak of a process begins with its parent's memory, and a
    shell has little."""
    printed = folder / "printed"
    words = ["sh", "-c", FROM_SHELL, "sh", str(script), str(printed), *command]
    with subprocess.Popen(words, cwd=folder, stdin=subprocess.PIPE, stdout=subprocess.PIPE) as shell:
        number = int(pipe(shell.stdout).readline())
        shell.wait()
        pipe(shell.stdin).close()
        _, status, used = os.wait4(number, 0)
    with open(printed, "rb") as lines:
        fired = sum(text.startswith(b"fire") for text in lines)
    return Spent(used.ru_utime + used.ru_stime, used.ru_maxrss / 1024, os.waitstatus_to_exitcode(status), fired)


def program_words(program: str, files: Files) -> list[str]:
    return [program, "--limit", FIRINGS, str(files.rules)]


def least(program: str, files: Files, runs: int, clips: bool) -> tuple[Spent, Optional[Spent]]:
    """The least runs of the program and of CLIPS, one after the other."""
    ours, theirs = [], []
    for _ in range(runs):
        ours.append(ran(program_words(program, files), files.script, files.rules.parent))
        if clips and files.commands:
            theirs.append(ran(["clips", "-f2", files.commands.name], Path(os.devnull), files.rules.parent))
    return min(ours), min(theirs, default=None)


def by_json(files: Files, runs: int) -> Spent:
    """The least run of Python that loads each line."""
    command = [sys.executable, "-c", LOADS_EACH_LINE]
    return min(ran(command, files.script, files.rules.parent) for _ in range(runs))


def instructions(program: str, files: Files) -> int:
    with open(files.script, "rb") as script:
        told = subprocess.run(["valgrind", "--tool=callgrind", "--callgrind-out-file=/dev/null",
                               *program_words(program, files)],
                              stdin=script, stdout=subprocess.DEVNULL, stderr=subprocess.PIPE, text=True).stderr
    found = re.search(r"Collected : (\d+)", told)
    if not found:
        raise SystemExit(f"measure: valgrind counted nothing: {told.strip()}")
    return int(found[1])


# ---- a pipe


class Pipe:
    """A program that answers line by line."""

    def __init__(self, command: list[str]):
        self.child = subprocess.Popen(command, stdin=subprocess.PIPE, stdout=subprocess.PIPE)
        self.lines = 0

    def answered(self, text: bytes) -> int:
        """Nanoseconds from the writing of a line, and a mark after it, to the answer of the mark."""
        self.lines += 2
        answer = b"fault %d " % self.lines
        begun = perf_counter_ns()
        try:
            os.write(pipe(self.child.stdin).fileno(), text + MARK)
        except BrokenPipeError:
            raise self.ended() from None
        while not (told := pipe(self.child.stdout).readline()).startswith(answer):
            if not told:
                raise self.ended()
        return perf_counter_ns() - begun

    def ended(self) -> SystemExit:
        return SystemExit(f"measure: the program ended on the pipe, at line {self.lines} with the marks")


def share(times: list[int], part: float) -> str:
    return f"{sorted(times)[min(len(times) - 1, int(part * len(times)))] / 1000:.1f}"


def spread(times: list[int]) -> str:
    worst = max(range(len(times)), key=times.__getitem__)
    parts = "  ".join(f"{name} {share(times, part)} µs"
                      for name, part in (("p50", 0.5), ("p99", 0.99), ("p99.9", 0.999)))
    return f"{parts}  worst {times[worst] / 1000:.1f} µs (line {worst + 1})"


def latency(program: str, files: Files) -> str:
    """The marks alone come first, so the start falls out."""
    pipe = Pipe(program_words(program, files))
    with pipe.child, open(files.script, "rb") as script:
        marks = [pipe.answered(b"\n") for _ in range(MARKS)]
        times = [pipe.answered(text) for text in script]
    return f"  on a pipe {spread(times)}  a mark alone {share(marks, 0.5)} µs"


def line_clock(folder: Path) -> Path:
    """The library, made there, that hands a program its input line by line, and clocks each."""
    clock = folder / "line_clock.so"
    subprocess.run(["cc", "-O2", "-shared", "-fPIC", "-o", clock, Path(__file__).with_name("line_clock.c"), "-ldl"],
                   check=True)
    return clock


def by_lines(program: str, files: Files) -> str:
    folder = files.rules.parent
    clock, told = line_clock(folder), folder / "times"
    with open(files.script, "rb") as script:
        subprocess.run(program_words(program, files), stdin=script, stdout=subprocess.DEVNULL, check=True,
                       env={**os.environ, "LD_PRELOAD": str(clock), "LINE_CLOCK": str(told)})
    times = array.array("Q")
    times.frombytes(told.read_bytes())
    return f"  from a file {spread(times.tolist())}"


# ---- images


def saved_and_resumed(program: str, files: Files, runs: int) -> tuple[Spent, int, Spent]:
    """The least run that saves, the bytes of the image, and the least that goes on from it over no lines."""
    folder = files.rules.parent
    command = [program, "--limit", FIRINGS]
    saved = min(ran([*command, "--mode", "save", str(files.rules)], files.script, folder) for _ in range(runs))
    image = (folder / "printed").rename(folder / "image")
    resumed = min(ran([*command, "--resume", str(image), str(files.rules)], Path(os.devnull), folder)
                  for _ in range(runs))
    return saved, image.stat().st_size, resumed


def images(program: str, files: Files, runs: int, ours: Spent) -> str:
    saved, size, resumed = saved_and_resumed(program, files, runs)
    told = (f"  saved in {saved.seconds - ours.seconds:.3f} s, peak {saved.mebibytes / ours.mebibytes:.2f}  image "
            f"{size / 2**20:.1f} MiB")
    told += f"  resumed in {resumed.seconds:.3f} s, peak {resumed.mebibytes / ours.mebibytes:.2f}"
    return told + (f"  status {saved.status}, {resumed.status}" if saved.status or resumed.status else "")


# ---- rows


class Wanted(NamedTuple):
    name: str
    sizes: list[int]


def wanted(word: str) -> Wanted:
    name, _, sizes = word.partition(":")
    if name not in LOADS:
        raise argparse.ArgumentTypeError(f"no load {name}: --list tells them")
    if not re.fullmatch(r"[1-9]\d*(,[1-9]\d*)*", sizes):
        raise argparse.ArgumentTypeError(f"{word}: NAME:LINES, or NAME:LINES,LINES")
    return Wanted(name, [int(size) for size in sizes.split(",")])


def growth(before: Spent, after: Spent) -> str:
    return f"  growth {after.seconds / before.seconds:.2f}" if before.seconds else ""


def beside(ours: Spent, theirs: Spent) -> str:
    ratio = f"  ratio {ours.seconds / theirs.seconds:.2f}" if theirs.seconds else ""
    often = "" if theirs.fired == ours.fired else ", not as often"
    return f"  | CLIPS {theirs.seconds:.3f} s  {theirs.mebibytes:.1f} MiB  fired {theirs.fired}{often}{ratio}"


def instructions_a_line(program: str, folder: Path, name: str, n: int) -> float:
    once, twice = written(folder, name, n), written(folder, name, 2 * n)
    return (instructions(program, twice) - instructions(program, once)) / (twice.lines - once.lines)


def by_callgrind(program: str, folder: Path, name: str, n: int) -> str:
    return f"  {instructions_a_line(program, folder, name, n):,.0f} instructions/line"


def measured(asked: argparse.Namespace, folder: Path, load: Wanted) -> bool:
    """Prints the rows of a load; whether all went as it has to."""
    good = True
    before: Optional[Spent] = None
    for n in load.sizes:
        files = written(folder, load.name, n)
        ours, theirs = least(asked.replay, files, asked.runs, asked.clips)
        row = (f"{load.name:20} {files.lines:8} lines  {ours.seconds:.3f} s  {ours.seconds / files.lines * 1e6:.2f} "
               f"µs/line  {ours.mebibytes:.1f} MiB  {ours.mebibytes * 2**20 / files.lines:,.0f} B/line  "
               f"fired {ours.fired}")
        row += f"  status {ours.status}" if ours.status else ""
        row += growth(before, ours) if before else ""
        row += f"  json.loads {by_json(files, asked.runs).seconds:.3f} s" if asked.json else ""
        row += by_callgrind(asked.replay, folder, load.name, n) if asked.callgrind and not ours.status else ""
        row += latency(asked.replay, files) if asked.latency and not ours.status else ""
        row += by_lines(asked.replay, files) if asked.lines and not ours.status else ""
        row += images(asked.replay, files, asked.runs, ours) if asked.images and not ours.status else ""
        row += beside(ours, theirs) if theirs else ""
        print(row, flush=True)
        good = good and not ours.status and (not theirs or theirs.fired == ours.fired)
        before = ours
    return good


def asked_for(given: list[str]) -> argparse.Namespace:
    parser = Parser(description="Measures a program over the loads of bench.loads.")
    parser.add_argument("--list", action="store_true", help="tell the loads")
    parser.add_argument("--replay", metavar="PROGRAM", help="the program")
    parser.add_argument("--runs", type=int, default=3, metavar="N", help="take the least of so many runs (3)")
    parser.add_argument("--clips", action="store_true", help="beside CLIPS, where the load has a twin")
    parser.add_argument("--json", action="store_true", help="beside Python's json.loads of each line")
    parser.add_argument("--callgrind", action="store_true", help="instructions a line, by valgrind")
    parser.add_argument("--latency", action="store_true", help="how long a line takes on a pipe")
    parser.add_argument("--lines", action="store_true", help="how long a line of a file takes")
    parser.add_argument("--images", action="store_true", help="how long an image takes, and a run that goes on from it")
    parser.add_argument("--folder", type=Path, help="keep the files there")
    parser.add_argument("loads", nargs="*", type=wanted, metavar="NAME:LINES[,LINES..]")
    asked = parser.parse_args(given)
    if not asked.list and not (asked.replay and asked.loads and asked.runs > 0):
        parser.error("--list, or --replay PROGRAM and a load, with one run or more")
    needed = [(asked.replay, asked.replay), ("clips", asked.clips), ("valgrind", asked.callgrind), ("cc", asked.lines)]
    missing = [name for name, wants in needed if wants and not shutil.which(name)]
    if missing:
        parser.error(f"no such program: {', '.join(missing)}")
    return asked


def head_of(text: str) -> str:
    """The first paragraph of a doc, in one line."""
    return " ".join(text.partition("\n\n")[0].split())


def main(given: list[str]) -> int:
    asked = asked_for(given)
    if asked.list:
        print("\n".join(f"{name:20} {head_of(make.__doc__ or '')}" for name, make in LOADS.items()))
        return 0
    asked.replay = os.path.abspath(shutil.which(asked.replay))
    adopt_orphans()
    with tempfile.TemporaryDirectory() as temporary:
        folder = (asked.folder or Path(temporary)).resolve()
        folder.mkdir(parents=True, exist_ok=True)
        good = [measured(asked, folder, load) for load in asked.loads]
    return 0 if all(good) else 1


if __name__ == "__main__":
    sys.exit(main(sys.argv[1:]))
