"""Measures how the program checks large rule files, and such as are made to be dear.

    tools/run bench.rule_files --replay PROGRAM [--runs N] [--seconds N] [NAME:NUMBER ..]

For each file, at half of its number and at the whole: its bytes, the seconds of processor time of `--mode check`, user
and system, the least of N runs (3), the peak of memory, and what is printed. A run is ended after --seconds (60).
"""

from __future__ import annotations

import argparse
import os
import shutil
import sys
import tempfile
from pathlib import Path
from typing import Callable

from ..words import Parser
from .loads import many, rule, types
from .measure import adopt_orphans, ran

WITHIN = 'ulimit -t "$1"; shift; exec "$@"'
MOST_BYTES = 1 << 20


def rules(number: int) -> str:
    """Rules of 8 patterns with 32 tests each."""
    pattern = f"A( {', '.join(f'x > {i}' for i in range(32))} ) "
    return types(A="x") + many(number, lambda i: rule(f"r{i}", 8 * pattern))


def conditions(form: str, number: int) -> str:
    return types(A="x") + rule("r", number * form)


FILES: dict[str, tuple[int, Callable[[int], str]]] = {
    "rules": (256, rules),
    "comments": (1024, lambda n: n * (1022 * "/" + "\n\n")),
    "parentheses": (1_048_000, lambda n: "rule r when A( x > " + n * "("),
    "minus": (1_048_000, lambda n: "rule r when A() then insert( new A( " + n * "-"),
    "fields": (67_000, lambda n: types(A=" ".join(f"f{i}" for i in range(n)))),
    "imports": (116_000, lambda n: n * "import a;"),
    "conditions": (250_000, lambda n: conditions("A() ", n)),
    "exists": (70_000, lambda n: conditions("exists( A() ) ", n)),
    "nots": (90_000, lambda n: conditions("not( A() ) ", n)),
    "chain": (16_000, lambda n: types(T0="x") + many(n - 1, lambda i: f"declare T{i + 1} extends T{i} end\n")),
    "alternatives": (6_000, lambda n: types(A="x", B="x")
                     + many(n, lambda i: rule(f"r{i}", 8 * "( A() or B() ) "))),
    "subtypes": (4_000, lambda n: types(U="x") + many(255, lambda i: f"declare T{i} extends U end\n")
                 + many(n, lambda i: rule(f"r{i}", "U()"))),
}


def wanted(word: str) -> tuple[str, int]:
    name, _, number = word.partition(":")
    if name not in FILES:
        raise argparse.ArgumentTypeError(f"no file {name}, but {', '.join(FILES)}")
    if number and not number.isdecimal():
        raise argparse.ArgumentTypeError(f"{word}: NAME, or NAME:NUMBER")
    return name, int(number) if number else FILES[name][0]


def told(name: str, number: int, asked: argparse.Namespace, folder: Path) -> str:
    file = folder / f"{name}.drl"
    file.write_text(FILES[name][1](number), encoding="utf-8")
    command = ["sh", "-c", WITHIN, "sh", str(asked.seconds), asked.replay, "--mode", "check", str(file)]
    spent = min(ran(command, Path(os.devnull), folder) for _ in range(asked.runs))
    answer = (folder / "printed").read_text(encoding="utf-8").strip() or f"ended after {asked.seconds} s"
    size = file.stat().st_size
    return (f"{name:12} {number:9,}  {size:9,} bytes  {spent.seconds:.3f} s  {spent.mebibytes:.1f} MiB  {answer}"
            + ("  (more than 1 MiB)" if size > MOST_BYTES else ""))


def main(given: list[str]) -> int:
    parser = Parser(description="Measures how the program checks large rule files, and such as are made to be dear.")
    parser.add_argument("--replay", metavar="PROGRAM", required=True, help="the program")
    parser.add_argument("--runs", type=int, default=3, metavar="N", help="take the least of so many runs (3)")
    parser.add_argument("--seconds", type=int, default=60, metavar="N", help="end a run after so many seconds (60)")
    parser.add_argument("files", nargs="*", type=wanted, metavar="NAME:NUMBER", help=", ".join(FILES))
    asked = parser.parse_args(given)
    if not shutil.which(asked.replay):
        parser.error(f"no such program: {asked.replay}")
    asked.replay = os.path.abspath(shutil.which(asked.replay))
    adopt_orphans()
    with tempfile.TemporaryDirectory() as temporary:
        for name, number in asked.files or [(name, number) for name, (number, _) in FILES.items()]:
            for size in (number // 2, number):
                print(told(name, size, asked, Path(temporary)), flush=True)
    return 0


if __name__ == "__main__":
    sys.exit(main(sys.argv[1:]))
