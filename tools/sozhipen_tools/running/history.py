"""A run that is followed line by line, with what became of facts and firings; for short scripts, by the second
evaluator."""

from __future__ import annotations

from dataclasses import dataclass, field
from typing import Optional, Union

from ..reference.images.laden import LadenWorld
from ..reference.images.resume import image_in, resumed_from
from ..reference.meaning.answers import fire_line
from ..reference.meaning.firings import planned
from ..reference.meaning.program import Program
from ..reference.meaning.run import Run
from ..reference.meaning.script import BadCommand, BadJson, Command, FireLine, command_of, is_blank, lines_of
from ..reference.meaning.trees import Value
from ..reference.meaning.worlds import Fact, Match, World, after_step, first_pending, step_fault

LIMIT = 100_000
# The line of what an image has: one before it, and which is not known.
BEFORE = -1


@dataclass
class Told:
    """A fact that was inserted at a line, and the line at which it was no longer there."""
    fact: Fact
    line: int
    gone: Optional[int] = None


@dataclass
class History:
    """The world before and behind each line up to the one that is asked for, of which the last two are kept. `skipped`
    is how many lines an image has taken, from which the run goes on: what they printed is not known. `earlier` has the
    firings that lines before it printed, with the last such line; `modified` the last line at which a fact became a
    newer version; `begun_at` is the line that began the world, 0 where none did, and BEFORE where it stands before the
    image."""
    program: Program
    lines: list[bytes]
    before: World
    behind: World
    answers: list[str] = field(default_factory=list)
    facts: dict[int, Told] = field(default_factory=dict)
    fired: dict[tuple, int] = field(default_factory=dict)
    earlier: dict[str, int] = field(default_factory=dict)
    modified: dict[int, int] = field(default_factory=dict)
    begun_at: int = 0
    ended: bool = False
    skipped: int = 0

    @property
    def number(self) -> int:
        return self.skipped + len(self.lines)

    @property
    def line(self) -> bytes:
        return self.lines[-1] if self.lines else b""

    @property
    def is_fire(self) -> bool:
        return isinstance(command_or_none(self.line), FireLine)

    @property
    def world(self) -> World:
        """The world that a `fire` line finds, and the one that any other line leaves."""
        return self.before if self.is_fire else self.behind


def command_or_none(line: bytes) -> Optional[Command]:
    try:
        return None if is_blank(line) else command_of(line)
    except (BadJson, BadCommand):
        return None


def begun(program: Program, image: bytes) -> Run:
    """The run that goes on from an image; Refused where it cannot. Without forgotten events that still count it is one
    over the facts of the image alone."""
    run = resumed_from(image_in(image), program, LIMIT)
    w = run.world
    if isinstance(w, LadenWorld) and not w.extras:
        run.world = World(w.program, w.facts, w.clock, w.last_starts, w.promises, w.next_id, w.next_tag, w.fired,
                          w.begun)
    return run


def followed(program: Program, script: bytes, last: Optional[int], run: Optional[Run] = None) -> History:
    """The run up to a line, or to the end of the script, from its beginning or from where a run stands."""
    run = run or Run(World(program), LIMIT, LIMIT, [])
    skipped = run.number
    lines = lines_of(script)[:None if last is None else max(0, last - skipped)]
    history = History(program, lines, run.world, run.world, skipped=skipped)
    history.facts = {f.id: Told(f, BEFORE) for f in run.world.facts}
    history.fired = dict.fromkeys(run.world.fired, BEFORE)
    history.begun_at = BEFORE if run.world.begun else 0
    for number, line in enumerate(lines, start=skipped + 1):
        history.earlier.update((answer, number - 1) for answer in history.answers if answer.startswith("fire "))
        history.before, run.lines = run.world, []
        run.line(number, line)
        history.behind, history.answers = run.world, run.lines
        history.begun_at = history.begun_at or (number if history.behind.begun else 0)
        note_facts(history, number)
        for key in history.behind.fired - history.before.fired:
            history.fired[key] = number
        if run.ended:
            history.lines, history.ended = lines[:number - skipped], True
            break
    return history


def note_facts(history: History, number: int) -> None:
    """The facts that came and went with a line; of a modified one the newest version."""
    before, behind = history.before.facts, history.behind.facts
    if behind[:len(before)] == before:
        history.facts.update((f.id, Told(f, number)) for f in behind[len(before):])
        return
    known = {f.id for f in history.before.facts}
    there = {f.id for f in history.behind.facts}
    for f in history.behind.facts:
        if f.id not in known:
            history.facts[f.id] = Told(f, number)
        elif history.facts[f.id].fact is not f:
            history.facts[f.id].fact, history.modified[f.id] = f, number
    for gone in known - there:
        history.facts[gone].gone = number


def again(history: History, firing: str) -> str:
    """Why a firing that an earlier line printed comes again; nothing where none did."""
    line = history.earlier.get(firing)
    if line is None:
        return ""
    numbers = [int(cell[1:]) for cell in firing[firing.rindex('"') + 1:].split() if cell.startswith("#")]
    newer = [f"#{number}" for number in numbers if history.modified.get(number, 0) >= line]
    why = (f"{', '.join(newer)} was modified since, and is a newer version" if newer
           else "the match ceased since, and came back")
    return f"  (again, as at line {line}: {why})"


def shown_value(value: Union[Value, Fact]) -> str:
    if isinstance(value, Fact):
        return f"#{value.id}"
    if isinstance(value, bool):
        return "true" if value else "false"
    return f'"{value}"' if isinstance(value, str) else str(value)


def shown_fact(f: Fact) -> str:
    """A fact with its values."""
    values = ", ".join(f"{name} {shown_value(value)}" for name, value in f.values.items())
    return f"#{f.id} {f.type}" + (f" ( {values} )" if values else "")


@dataclass(frozen=True)
class FaultyAction:
    """An action that was faulty: its firing, its place in the rule from 1, the world at that moment, and the step that
    it asked for."""
    firing: str
    match: Match
    place: int
    code: str
    world: World
    step: object


def faulty_actions(history: History) -> list[FaultyAction]:
    """The faulty actions of the firings of a `fire` line, which is done once more, action by action."""
    w, found = history.before, []
    for _ in range(sum(answer.startswith("fire ") for answer in history.answers)):
        m = first_pending(w)
        if m is None:
            break
        steps = [planned(action, m.row, w) for action in w.program.rules[m.rule].actions]
        w = w.with_fired(w.fired | {m.key})
        for place, step in enumerate(steps, start=1):
            code = "Overflow" if step is None else step_fault(step, w)
            if step is None or code is not None:
                found.append(FaultyAction(fire_line(m, w), m, place, code or "", w, step))
            else:
                w = after_step(step, w)
    return found
