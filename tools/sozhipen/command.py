"""The client as a command: lines of a script in, JSON lines out.

    python3 -m sozhipen [--program PROGRAM] [--live] [--limit N] [--image IMAGE] RULES < SCRIPT
    {"line":4,"at":0,"fire":"dear item","facts":[{"id":2,"type":"Item","fields":{"price":250,"stock":0}}],
     "results":[],"names":{}}

where each answer stands in one line.

The status is that of the program; 70 where it cannot be started, or was killed by a signal.
"""

from __future__ import annotations

import argparse
import json
import os
import sys
from typing import Any

from sozhipen_tools.words import Parser

from .answers import Answer, Ended, Fault, Firing, NoProgram
from .session import Session

NOT_STARTED, NOT_WRITTEN, INTERRUPTED = 70, 6, 130


def say(**members: Any) -> None:
    text = json.dumps(members, ensure_ascii=False, separators=(",", ":")) + "\n"
    sys.stdout.buffer.write(text.encode("utf-8", "replace"))
    sys.stdout.buffer.flush()


def say_fault(fault: Fault, clock: int) -> None:
    rule = {} if fault.rule is None else {"rule": fault.rule}
    say(line=fault.line, at=clock, fault=fault.code, **rule, sent=fault.sent)


def say_firing(firing: Firing) -> None:
    say(**firing.as_json())
    for key, facts in (("new", firing.made), ("modified", firing.modified), ("retracted", firing.retracted)):
        for fact in facts:
            say(line=firing.line, at=firing.clock, **{key: fact.as_json()})
    for fault in firing.faults:
        say_fault(fault, firing.clock)


def say_asked(answer: Answer) -> None:
    """What only a desk answers."""
    for fact in answer.told_kept:
        say(line=answer.line, at=answer.clock, kept=fact.as_json())
    if answer.told_counts is not None:
        say(line=answer.line, at=answer.clock,
            **{key: value for key, value in answer.told_counts.items() if key not in ("line", "clock")})
    if answer.told_saved:
        say(line=answer.line, at=answer.clock, saved=True)


def say_answer(answer: Answer) -> None:
    """Prints what a line answered. It is called as the answers come, so that a reader on a pipe has them at once."""
    try:
        if answer.told_fault:
            say_fault(answer.told_fault, answer.clock)
        elif answer.told_fact:
            say(line=answer.line, at=answer.clock, new=answer.told_fact.as_json())
        elif answer.told_held:
            say(line=answer.line, at=answer.clock, held=answer.told_held)
        for firing in answer.told_firings:
            say_firing(firing)
        if answer.told_limit is not None:
            say(line=answer.line, at=answer.clock, limit=answer.told_limit)
        say_asked(answer)
    except BrokenPipeError:
        os._exit(NOT_WRITTEN)


def asked(words: list[str]) -> argparse.Namespace:
    parser = Parser(prog="client", description="Runs a script, and prints each answer as a JSON line.")
    parser.add_argument("--program",
                        help="the program; without it the built one, or the second evaluator where it is not built")
    parser.add_argument("--live", action="store_true", default=None,
                        help="the program is a `desk`, as one of this name is without it")
    parser.add_argument("--limit", type=int, help="at most so many firings; of a desk, for each fire line")
    parser.add_argument("--image", "--resume", metavar="IMAGE",
                        help="the image from which the program goes on; a desk leaves the next one there")
    parser.add_argument("rules", help="the rule file")
    return parser.parse_args(words)


def main(words: list[str]) -> int:
    options = asked(words)
    try:
        session = Session(options.rules, options.program, options.limit, say_answer, image=options.image,
                          live=options.live)
    except NoProgram as error:
        print(f"client: {error}", file=sys.stderr)
        return NOT_STARTED
    try:
        for line in sys.stdin.buffer:
            session.send_line(line.removesuffix(b"\n").decode("utf-8", "surrogateescape"))
        return session.close()
    except KeyboardInterrupt:
        session.kill()
        return INTERRUPTED
    except Ended as ended:
        say(line=session.lines, at=session.clock, ended=ended.said, status=ended.status)
        return ended.status if ended.status >= 0 else NOT_STARTED
