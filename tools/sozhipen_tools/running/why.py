"""Tells of a script why a line answers what it answers, and why a rule does or does not fire there.

    tools/run running.why RULES SCRIPT [--line N] [--rule NAME] [--fact N ..] [--resume IMAGE]

Without `--line` it is the last line. Of a `fire` line the world is meant that it finds, of any other line the one that
it leaves. It tells the line with its answers, of each fault the field, the fact, the floor or the action that it is
about, and which matches are pending. With `--rule`, condition by condition, how many rows go on and what keeps the
others back; with `--fact` as well, which test sends that fact away. With `--resume` the script has the lines after an
image, and lines count as in the whole script. The status is 0, 3 where the rule file is refused, or 9 where the image
is.
"""

from __future__ import annotations

import argparse
import sys
from pathlib import Path
from typing import Iterator, Optional

from ..reference.images.resume import Refused
from ..reference.meaning.worlds import floor_of
from ..rulefile.lint import Desk, desk_of
from ..rulefile.where import report
from ..words import Parser
from . import faults
from .history import History, again, begun, followed, shown_fact
from .moments import moment
from .rows import Inspection, Text, told_of_fact, told_of_rule, told_pending

MOST_PENDING = 20


def told_of_line(history: History) -> Iterator[str]:
    """The line, what it answered, and why it is faulty."""
    yield f"line {history.number}: {history.line.decode('utf-8', 'replace')[:200].strip()}"
    reasons = list(faults.told(history))
    for answer in history.answers:
        if not answer.startswith(f"fault {history.number} "):
            yield f"  {answer}{again(history, answer)}"
    yield from (f"  {reason}" for reason in reasons)
    if not history.answers:
        yield "  (it answers nothing)"


def told_of_world(history: History) -> Iterator[str]:
    """The clock, the floors, and what is pending."""
    w = history.world
    floors = ", ".join(f"`{entry}` {moment(floor_of(w, entry))}" for entry in w.program.latenesses)
    yield f"{'found' if history.is_fire else 'left'}: the clock is {moment(w.clock)}; events are taken from: {floors}"
    lines = told_pending(w)
    yield f"pending: {len(lines) or 'nothing'}"
    yield from (f"  {line}{again(history, line)}" for line in lines[:MOST_PENDING])
    if len(lines) > MOST_PENDING:
        yield f"  and {len(lines) - MOST_PENDING} more"
    left = len(told_pending(history.behind)) if history.is_fire and lines else 0
    if left:
        yield f"left pending: {left}, as the line has a `max` or the run a limit"


def told_of_named_rule(name: str, data: bytes, desk: Desk, history: History, numbers: list[int]) -> Iterator[str]:
    """The conditions of a rule one by one, of each way of its alternatives, and facts that are asked for."""
    ways = [(place, item, rule) for place, (item, rule) in enumerate(desk.rules) if rule.name == name]
    for number, (place, item, rule) in enumerate(ways, start=1):
        yield f'rule "{name}"' + (f", way {number} of {len(ways)}" if len(ways) > 1 else "")
        yield from told_of_way(Inspection(item, place, rule, history.world, Text(data, desk)), history, numbers)


def told_of_way(inspection: Inspection, history: History, numbers: list[int]) -> Iterator[str]:
    yield from told_of_rule(inspection, history)
    for number in numbers:
        told = history.facts.get(number)
        if told is None:
            past = ", nor does the image have it" if history.skipped else ""
            yield f"  there is no fact #{number} up to this line{past}"
        elif (told.gone is not None and told.gone <= history.number
              and not any(f.id == number for f in history.world.facts)):
            yield f"  {shown_fact(told.fact)} was retracted at line {told.gone}"
        else:
            version = next((f for f in history.world.facts if f.id == number), told.fact)
            yield from told_of_fact(inspection, version)


def told(asked: argparse.Namespace, data: bytes, script: bytes, image: Optional[bytes] = None) -> Iterator[str]:
    desk = desk_of(data)
    run = None if image is None else begun(desk.program, image)
    if run and asked.line is not None and asked.line <= run.number:
        yield f"line {asked.line} is not after the image, which has {run.number} lines: ask about a later one"
        return
    history = followed(desk.program, script, asked.line, run)
    yield from told_of_line(history)
    if history.ended:
        yield "the run ended at this line: the limit of firings"
    yield from told_of_world(history)
    names = [rule.name for _, rule in desk.rules]
    if asked.rule is None:
        return
    if asked.rule not in names:
        yield (f"there is no rule \"{asked.rule}\"; the rules are "
               + ", ".join(f'"{name}"' for name in dict.fromkeys(names)))
        return
    yield from told_of_named_rule(asked.rule, data, desk, history, asked.fact)


def main() -> int:
    parser = Parser(prog="why",
                    description="Why a line answers what it answers, and why a rule does or does not fire there.")
    parser.add_argument("rules", metavar="RULES", type=Path)
    parser.add_argument("script", metavar="SCRIPT", type=Path)
    parser.add_argument("--line", type=int, metavar="N", help="the line of the script; without it the last one")
    parser.add_argument("--rule", metavar="NAME", help="the rule to look into")
    parser.add_argument("--fact", type=int, metavar="N", nargs="+", default=[], help="facts to follow through the rule")
    parser.add_argument("--resume", type=Path, metavar="IMAGE", help="an image; the script has the lines after it")
    asked = parser.parse_args()
    if asked.fact and asked.rule is None:
        parser.error("--fact is asked of a --rule")
    if asked.line is not None and asked.line < 1:
        parser.error("lines count from 1")
    try:
        data, script = asked.rules.read_bytes(), asked.script.read_bytes()
        image = None if asked.resume is None else asked.resume.read_bytes()
    except OSError as error:
        print(f"why: {error.filename}: {error.strerror}", file=sys.stderr)
        return 5
    refusal = report(str(asked.rules), data)
    if refusal:
        sys.stderr.write(refusal)
        return 3
    try:
        for line in told(asked, data, script, image):
            print(line)
    except Refused as refused:
        print(f"why: {asked.resume}: refused checkpoint {refused}", file=sys.stderr)
        return 9
    return 0


if __name__ == "__main__":
    sys.exit(main())
