"""What happened in a run, from its rule file, its script and its output: the facts, the firings and the faults.

The output does not say at which of several `fire` lines a match fired: those that fire nothing print nothing. A firing
belongs to the first one at which its match is pending. That is asked of the meaning in the second evaluator, for this
one match, so that the matches which nobody printed need not be found.
"""

from __future__ import annotations

import re
from dataclasses import dataclass, field, replace
from typing import NoReturn, Optional

from ..reference.meaning.answers import quoted
from ..reference.meaning.firings import planned
from ..reference.meaning.program import DEFAULT, Program
from ..reference.meaning.run import Fault as LineFault, asked_step, program_or_refusal
from ..reference.meaning.script import BadCommand, BadJson, Command, FireLine, HeldLine, command_of, is_blank, lines_of
from ..reference.meaning.temporal import INFINITE, NEVER, greatest_start
from ..reference.meaning.trees import Condition, Existing, Negated, Plain, Rule, Value
from ..reference.meaning.worlds import (EMPTY_ROW, Fact, Insertion, Modification, Promise, Retraction, Row, Step, World,
                                        bound_by, candidates, changed, fact_with, folded, is_mature, passes, step_fault,
                                        times_of)

FIRE_LINE = re.compile(r'fire ("(?:[^"\\]|\\.)*")((?: #[0-9]+| =-?[0-9]+)*)')
CELL = re.compile(r"([#=])(-?[0-9]+)")

Cell = tuple[str, int]


class Unfit(Exception):
    """The three files do not belong together, or the rule file is refused."""


@dataclass(frozen=True)
class Change:
    """A modification: its moment, and the fields that it gave other values."""
    clock: int
    values: dict[str, Value]


@dataclass
class Life:
    """A fact from its insertion on. An event lies from `start` to `end`; a plain fact starts at the clock of its
    insertion. `first` names the first field that holds neither the start nor the duration."""
    number: int
    type: str
    entry: str
    event: bool
    values: dict[str, Value]
    start: int
    end: int
    told: int
    line: int
    maker: Optional[int]
    first: Optional[str] = None
    changes: list[Change] = field(default_factory=list)
    gone: Optional[int] = None
    retracted: bool = False


@dataclass(frozen=True)
class Waiting:
    """A `not` waited for events of a type, from the end of the event that its tests name up to the first moment
    behind."""
    type: str
    since: int
    until: int


@dataclass
class Firing:
    """A firing with the numbers of the facts that it names, their values then, what its variables stand for that name
    no fact, and the numbers of the facts that its actions inserted."""
    number: int
    rule: str
    cells: tuple[Cell, ...]
    clock: int
    line: int
    waiting: Optional[Waiting]
    values: dict[int, dict[str, Value]]
    variables: dict[str, Value]
    made: list[int] = field(default_factory=list)

    @property
    def facts(self) -> list[int]:
        return [number for sign, number in self.cells if sign == "#"]


@dataclass(frozen=True)
class Fault:
    """A fault with its line of the script, or with the firing whose action was faulty."""
    number: int
    code: str
    clock: int
    line: int
    text: str
    firing: Optional[int]


@dataclass(frozen=True)
class Promised:
    """A line that promises that no event comes into an entry point any more that starts before a moment."""
    number: int
    entry: str
    start: int
    clock: int
    line: int


@dataclass(frozen=True)
class Printed:
    """A line of the output with the line of the script that printed it, and the clock."""
    clock: int
    line: int
    text: str


@dataclass
class Recording:
    rules: list[str]
    lives: dict[int, Life] = field(default_factory=dict)
    firings: list[Firing] = field(default_factory=list)
    faults: list[Fault] = field(default_factory=list)
    promises: list[Promised] = field(default_factory=list)
    printed: list[Printed] = field(default_factory=list)
    end: int = 0


# ---- one match in one world


def row_behind(condition: Condition, row: Row, cells: list[Cell], w: World) -> Optional[Row]:
    """The row behind a condition that takes its fact or its result from the front of the cells, None where there is
    none."""
    source = condition.source
    passing = [f for f in candidates(source, w) if passes(source, f, row)]
    if isinstance(condition, Negated):
        return row if not passing and is_mature(source, row, w) else None
    if isinstance(condition, Existing):
        return row if passing else None
    if not cells:
        return None
    cell = cells.pop(0)
    if isinstance(condition, Plain):
        return next((Row(row.cells + (f,), {**row.names, **bound_by(source, f)}) for f in passing
                     if ("#", f.id) == cell), None)
    return next((longer for longer in folded(condition, passing, row) if ("=", longer.cells[-1]) == cell), None)


def row_of(rule: Rule, cells: tuple[Cell, ...], w: World) -> Optional[Row]:
    """The row of a rule with these facts and results, None where it is none in this world."""
    row, rest = EMPTY_ROW, list(cells)
    for condition in rule.conditions:
        longer = row_behind(condition, row, rest, w)
        if longer is None:
            return None
        row = longer
    return None if rest else row


def waiting_of(condition: Condition, row: Row, program: Program) -> Optional[Waiting]:
    """How long a `not` waited for what was found before it, None where it never waits."""
    if not isinstance(condition, Negated) or not condition.source.temporal_tests:
        return None
    source = condition.source
    others = [times_of(row.names[t.other]) for t in source.temporal_tests]
    tests = [(t.operator, t.parameters, other) for t, other in zip(source.temporal_tests, others)]
    last = greatest_start(tests, program.types[source.type].duration is None)
    if last in (NEVER, INFINITE):
        return None
    return Waiting(source.type, max(end for _, end in others), last + program.latenesses[source.entry or DEFAULT] + 1)


def longest_waiting(rule: Rule, row: Row, lives: dict[int, Life], program: Program, clock: int) -> Optional[Waiting]:
    """The waiting of the rule that ended last, at the latest now; None where all was known as soon as the facts
    were."""
    known = max((lives[f.id].told for f in row.facts), default=0)
    waited = [replace(w, until=min(w.until, clock)) for c in rule.conditions if (w := waiting_of(c, row, program))]
    found = [w for w in waited if w.until > max(known, w.since)]
    return max(found, key=lambda w: w.until) if found else None


# ---- the run


class Recorder:
    """Goes through script and output side by side; `worlds` are those behind each step so far."""

    def __init__(self, program: Program, output: list[str]):
        self.program = program
        self.rules: dict[str, list[int]] = {}
        for k in range(len(program.rules)):
            self.rules.setdefault(quoted(program.title(k)), []).append(k)
        self.output = output
        self.worlds = [World(program)]
        self.fired: dict[tuple, int] = {}
        self.recording = Recording(list(dict.fromkeys(program.title(k) for k in range(len(program.rules)))))

    @property
    def world(self) -> World:
        return self.worlds[-1]

    @property
    def next_output(self) -> str:
        place = len(self.recording.printed)
        return self.output[place] if place < len(self.output) else ""

    def take(self, line: int) -> None:
        """The next line of the output was printed by this line of the script."""
        self.recording.printed.append(Printed(self.world.clock, line, self.next_output))

    def unfit(self, wanted: str) -> NoReturn:
        raise Unfit(f"line {len(self.recording.printed) + 1} of the output is `{self.next_output}`, and {wanted}")

    def expect(self, wanted: str, line: int) -> None:
        if self.next_output != wanted:
            self.unfit(f"line {line} of the script asks for `{wanted}`")
        self.take(line)

    def whole(self, script: bytes) -> Recording:
        """The recording of the whole script, or up to the limit of firings."""
        for number, line in enumerate(lines_of(script), start=1):
            self.line(number, line)
            if self.next_output.startswith("limit "):
                self.take(number)
                break
        if self.next_output:
            self.unfit("the script asks for nothing more")
        self.recording.end = self.world.clock
        return self.recording

    def line(self, number: int, line: bytes) -> None:
        word, _, code = self.next_output.rpartition(" ")
        if word == f"fault {number}":
            self.fault(number, code, line.decode("utf-8", "replace"), None)
            return
        if is_blank(line):
            return
        try:
            self.command(number, command_of(line))
        except (BadJson, BadCommand, LineFault):
            self.unfit(f"line {number} of the script is faulty")

    def command(self, number: int, command: Command) -> None:
        if isinstance(command, FireLine):
            self.fire(number, command.most)
            return
        if isinstance(command, HeldLine):
            self.held(number)
            return
        step = asked_step(command, self.world)
        if code := step_fault(step, self.world):
            raise LineFault(code)
        self.step(step, number, None)

    def held(self, line: int) -> None:
        """A line for each type of events. How many are kept is taken as it is printed."""
        for info in self.program.types.values():
            if info.event:
                if not re.fullmatch(f"held {info.name} [0-9]+", self.next_output):
                    self.unfit(f"line {line} of the script asks how many events of {info.name} are kept")
                self.take(line)

    def fault(self, line: int, code: str, text: str, firing: Optional[Firing]) -> None:
        self.expect(f"fault {line} {code}", line)
        self.recording.faults.append(Fault(len(self.recording.faults) + 1, code, self.world.clock, line, text,
                                           None if firing is None else firing.number))

    def step(self, step: Step, line: int, maker: Optional[Firing]) -> None:
        """Does a step without a fault, and notes what it does to the life of a fact."""
        before = self.world
        self.worlds.append(changed(step, before))
        if isinstance(step, Promise):
            number = len(self.recording.promises) + 1
            self.recording.promises.append(Promised(number, step.entry, step.start, before.clock, line))
        if isinstance(step, Insertion):
            self.expect(f"new #{before.next_id} {step.type}", line)
            self.inserted(line, maker)
        elif isinstance(step, Modification):
            self.recording.lives[step.id].changes.append(Change(before.clock, step.values))
        elif isinstance(step, Retraction) and fact_with(step.type, step.id, before):
            life = self.recording.lives[step.id]
            life.gone, life.retracted = before.clock, True

    def inserted(self, line: int, maker: Optional[Firing]) -> None:
        """The life of the newest fact begins."""
        fact, clock = self.world.facts[-1], self.world.clock
        info = self.program.types[fact.type]
        start, end = times_of(fact) if info.event else (clock, clock)
        first = next((name for name in info.fields if name not in (info.timestamp, info.duration)), None)
        life = Life(fact.id, fact.type, fact.entry, info.event, fact.values, start, end, clock, line,
                    None if maker is None else maker.number, first)
        if info.expires is not None:
            life.gone = start + info.expires
        if maker:
            maker.made.append(fact.id)
        self.recording.lives[fact.id] = life

    def fire(self, line: int, most: Optional[int]) -> None:
        done = 0
        while (most is None or done < most) and (found := FIRE_LINE.fullmatch(self.next_output)):
            cells = tuple((sign, int(number)) for sign, number in CELL.findall(found[2]))
            pending = next(((k, row) for k in self.rules.get(found[1], [])
                            if (row := self.pending_row(k, cells)) is not None), None)
            if pending is None:
                return
            self.firing(*pending, cells, line)
            done += 1

    def pending_row(self, k: int, cells: tuple[Cell, ...]) -> Optional[Row]:
        """The row where it is a match that has not fired, or has ceased since it did."""
        rule = self.program.rules[k]
        row = row_of(rule, cells, self.world)
        if row is None:
            return None
        fired = self.fired.get((k, row.tags, row.values))
        keeps_mark = fired is not None and all(row_of(rule, cells, w) for w in self.worlds[fired:])
        return None if keeps_mark else row

    def firing(self, k: int, row: Row, cells: tuple[Cell, ...], line: int) -> None:
        """Notes a firing, and does its actions."""
        self.take(line)
        rule, title = self.program.rules[k], self.program.title(k)
        self.fired[k, row.tags, row.values] = len(self.worlds) - 1
        waiting = longest_waiting(rule, row, self.recording.lives, self.program, self.world.clock)
        values = {fact.id: fact.values for fact in row.facts}
        variables = {name: value for name, value in row.names.items() if not isinstance(value, Fact)}
        firing = Firing(len(self.recording.firings) + 1, title, cells, self.world.clock, line, waiting, values,
                        variables)
        self.recording.firings.append(firing)
        for step in [planned(action, row, self.world) for action in rule.actions]:
            code = "Overflow" if step is None else step_fault(step, self.world)
            if step is None or code is not None:
                self.fault(line, code or "", f"an action of {title}", firing)
            else:
                self.step(step, line, firing)


def recording_of(rules: bytes, script: bytes, output: bytes) -> Recording:
    """The recording of a run, or Unfit."""
    program = program_or_refusal(rules)
    if isinstance(program, str):
        raise Unfit(f"the rule file is not accepted: {program}")
    return Recorder(program, [line.decode("utf-8") for line in lines_of(output)]).whole(script)
