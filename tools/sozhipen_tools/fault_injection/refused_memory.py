"""Refuses memory to the program `replay`, one allocation after the other, and looks at how its runs end.

    tools/run fault_injection.refused_memory                     # each allocation of each run, with the built program
    tools/run fault_injection.refused_memory --from 1 --to 500   # of each run those of these numbers
    tools/run fault_injection.refused_memory --try --from 40 --to 44
                                    # before the program is built, by `rt try`, which builds anew for each number

The runs are a bank's entry points (a case of crates/cases) and the three desks of examples. Each run in which an
allocation was refused is to end with the status 7 and a front of what the whole run prints, or as the whole run does.
The built program is crates/replay_main/out/replay_main (or --program); a small library in C, built by $CC or cc, stands
before its allocator and counts from 1. It counts from the start of the process on, so the first refusals can meet the
words of the command line: status 10, and nothing printed. Prints each run that ends otherwise, and for each run how
many allocations were refused and how it ended then. The status is 0 where every run ended as it is to end, 1 where one
did not, and 2 where there is no program or no compiler.
"""
from __future__ import annotations

import os
import re
import struct
import subprocess
import sys
import tempfile
from collections import Counter
from pathlib import Path
from typing import NamedTuple, Optional

from ..places import BUILT, clone
from ..reference.comparers.gate_cases import cases_of
from ..words import Parser

BANK = b"each call fails in turn: a bank's entry points, faults among its lines"
DESKS = ("fraud", "alarm", "plant")

LIBRARY = r"""
#define _GNU_SOURCE
#include <dlfcn.h>
#include <fcntl.h>
#include <stdlib.h>
#include <sys/mman.h>

static long *count;
static long refused;

static int refuses(void) {
    if (!count) {
        int file = open(getenv("REFUSED_COUNT"), O_RDWR);
        count = mmap(0, sizeof *count, PROT_READ | PROT_WRITE, MAP_SHARED, file, 0);
        refused = atol(getenv("REFUSED_CALL"));
    }
    return ++*count == refused;
}

void *malloc(size_t size) {
    static void *(*next)(size_t);
    if (!next) next = dlsym(RTLD_NEXT, "malloc");
    return refuses() ? 0 : next(size);
}

void *realloc(void *old, size_t size) {
    static void *(*next)(void *, size_t);
    if (!next) next = dlsym(RTLD_NEXT, "realloc");
    return refuses() ? 0 : next(old, size);
}

void *aligned_alloc(size_t alignment, size_t size) {
    static void *(*next)(size_t, size_t);
    if (!next) next = dlsym(RTLD_NEXT, "aligned_alloc");
    return refuses() ? 0 : next(alignment, size);
}
"""


class Row(NamedTuple):
    """A run: the bytes of its rule file and of its script."""
    name: str
    rules: bytes
    script: bytes


class Ended(NamedTuple):
    status: Optional[int]
    printed: bytes


def rows() -> list[Row]:
    """The bank's run and those of the desks."""
    cases = cases_of((clone() / "crates/cases/stdin").read_bytes())
    bank = next(case for case in cases if case.title.endswith(BANK))
    examples = clone() / "examples"
    return [Row("bank", bank.rules, bank.script)] + [
        Row(desk, (examples / f"{desk}.drl").read_bytes(), (examples / f"{desk}.jsonl").read_bytes()) for desk in DESKS
    ]


def is_as_wanted(ended: Ended, whole: Ended) -> bool:
    if ended.status == 7:
        return whole.printed.startswith(ended.printed)
    return ended.status is not None and ended in (whole, Ended(10, b""))


class Built:
    """The built program, behind the library that refuses."""

    def __init__(self, program: Path, folder: Path) -> None:
        self.program, self.folder, self.count = program, folder, folder / "count"
        source, self.library = folder / "refuse.c", folder / "refuse.so"
        source.write_text(LIBRARY)
        subprocess.run([os.environ.get("CC", "cc"), "-O1", "-shared", "-fPIC", "-o", self.library, source, "-ldl"],
                       check=True)

    def run(self, row: Row, call: int) -> Ended:
        """The run with this allocation refused; with 0, none."""
        self.count.write_bytes(bytes(8))
        rules = self.folder / f"{row.name}.drl"
        rules.write_bytes(row.rules)
        outside = {"LD_PRELOAD": str(self.library), "REFUSED_COUNT": str(self.count), "REFUSED_CALL": str(call)}
        done = subprocess.run([self.program, rules], input=row.script, stdout=subprocess.PIPE, env=outside, timeout=60)
        return Ended(done.returncode, done.stdout)

    def calls(self) -> int:
        """How many allocations the last run asked for."""
        return struct.unpack("l", self.count.read_bytes())[0]


def try_built(program: Path, low: int, high: Optional[int]) -> bool:
    good = True
    with tempfile.TemporaryDirectory() as folder:
        built = Built(program, Path(folder))
        for row in rows():
            whole = built.run(row, 0)
            calls = built.calls()
            statuses: Counter[Optional[int]] = Counter()
            for call in range(low, min(calls, high or calls) + 1):
                ended = built.run(row, call)
                statuses[ended.status] += 1
                good = tell(row, call, ended, whole) and good
            print(f"{row.name}: {calls} allocations, {told(statuses)}", flush=True)
    return good


def checked_runs(folder: Path, call: Optional[int]) -> list[Ended]:
    """All runs in one build by `rt try`, with this allocation of each refused."""
    words = ["rt", "try", "--cases", str(folder)] + ([] if call is None else ["--fail-alloc", str(call)])
    for row in rows():
        (folder / row.name).write_bytes(row.script)
        (folder / f"{row.name}.args").write_text(f"{row.name}.drl\n")
        rules = folder.with_name(f"{folder.name}-{row.name}.drl")
        rules.write_bytes(row.rules)
        words += ["--data", f"{row.name}.drl={rules}"]
    done = subprocess.run(words, cwd=clone() / "crates/replay_main", capture_output=True)
    statuses = dict(re.findall(rb"^case=(\S+) run=ended status=(\d+) ", done.stderr, re.M))
    names = [row.name.encode() for row in rows()]
    printed: dict[bytes, bytes] = {}
    name = b""
    for line in done.stdout.splitlines(keepends=True):
        if line.startswith(b"== ") and line[3:-1] in names:
            name = line[3:-1]
        else:
            printed[name] = printed.get(name, b"") + line
    return [Ended(int(statuses[name]) if name in statuses else None, printed.get(name, b"")) for name in names]


def try_checked(low: int, high: int) -> bool:
    """The runs by `rt try`: all of them in one build for each number."""
    good = True
    with tempfile.TemporaryDirectory() as top:
        folder = Path(top) / "runs"
        folder.mkdir()
        whole = checked_runs(folder, None)
        for call in range(low, high + 1):
            for row, ended, all_of_it in zip(rows(), checked_runs(folder, call), whole):
                good = tell(row, call, ended, all_of_it) and good
                print(f"{row.name}, allocation {call}: status {ended.status}, {len(ended.printed)} bytes", flush=True)
    return good


def tell(row: Row, call: int, ended: Ended, whole: Ended) -> bool:
    """Whether a run ended as it is to end; prints how where it did not."""
    good = is_as_wanted(ended, whole)
    if not good:
        print(f"{row.name}, allocation {call}: status {ended.status}, {len(ended.printed)} bytes to "
              f"{ended.printed[-40:]!r}", flush=True)
    return good


def told(statuses: Counter) -> str:
    return (", ".join(f"{count} ended with {status}" for status, count in sorted(statuses.items(), key=str))
            or "none refused")


def main() -> int:
    parser = Parser(description="Refuses memory to the program, one allocation after the other.")
    parser.add_argument("--from", dest="low", type=int, default=1, metavar="N", help="the first allocation to refuse")
    parser.add_argument("--to", dest="high", type=int, metavar="N",
                        help="the last one; with --try at first the same as --from")
    parser.add_argument("--program", type=Path, default=BUILT)
    parser.add_argument("--try", dest="checked", action="store_true", help="by `rt try`, one build for each number")
    wanted = parser.parse_args()
    if wanted.checked:
        return 0 if try_checked(wanted.low, wanted.high or wanted.low) else 1
    try:
        return 0 if try_built(wanted.program.resolve(strict=True), wanted.low, wanted.high) else 1
    except (OSError, subprocess.CalledProcessError) as fault:
        print(fault, file=sys.stderr)
        return 2


if __name__ == "__main__":
    sys.exit(main())
