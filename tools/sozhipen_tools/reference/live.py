"""Behaves as a run of the program `replay` on a pipe: each line is answered before the next is read, where
reference.replay reads all first.

    tools/run reference.live [--limit N] [--resume IMAGE] RULES

For callers that are tried before the program is proved (docs/LIVE.md). It is slow, and for short streams.
"""

from __future__ import annotations

import sys
from typing import Iterable

from .images.resume import Refused
from .meaning.program import Program
from .meaning.run import Run
from .replay import Asked, BadWords, WriteFailed, asked, program_of_file, put, put_lines, run_at_start

USAGE = "usage: replay [--limit N] [--resume NAME] RULES"


def scripted(program: Program, a: Asked, lines: Iterable[bytes]) -> int:
    """Runs a script, from its beginning or from an image, line by line; the status."""
    try:
        state = run_at_start(program, a)
    except Refused as refused:
        put(f"refused checkpoint {refused}\n")
        return 9
    return answered(state, lines)


def answered(state: Run, lines: Iterable[bytes]) -> int:
    """Answers each line before the next one is taken; the status of the run."""
    for line in lines:
        state.number += 1
        state.line(state.number, line.removesuffix(b"\n"))
        put_lines(state.lines)
        state.lines.clear()
        if state.ended:
            break
    return state.status


def live(words: list[str]) -> int:
    try:
        a = asked(words)
    except BadWords:
        a = None
    if a is None or a.mode != "run" or a.rules is None:
        put(f"{USAGE}\n")
        return 2
    program = program_of_file(a.rules)
    if isinstance(program, str):
        put(program + "\n")
        return 3
    return scripted(program, a, sys.stdin.buffer)


def main() -> int:
    if sys.argv[1:] == ["--help"]:
        print((__doc__ or "").strip())
        return 0
    try:
        return live(sys.argv[1:])
    except WriteFailed:
        return 6
    except OSError:
        return 5


if __name__ == "__main__":
    sys.exit(main())
