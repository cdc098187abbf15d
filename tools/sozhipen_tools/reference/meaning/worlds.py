"""What an accepted rule file means: worlds, rows, matches, the order of firing, and steps.

A world keeps every fact that was inserted and not retracted; rows and matches are taken from the whole list in each
world, by looking candidates up (lookup) and taking over what came of the same facts before. The conditions, the
stream mode with its windows, its explicit expiry and its negative patterns that wait are those of the Drools Fusion 5
User Guide; the bounds of expiry, the moment of maturity, the order of firing behind salience, lateness and the
whole-number results of accumulates are this project's own.
"""

from __future__ import annotations

from bisect import bisect_right
from dataclasses import dataclass, field, replace
from functools import cached_property
from typing import Any, Callable, Optional, Union

from . import temporal
from .lookup import NO_FACTS, Group, Groups, LastTaken, Memory, Wanted, equalities
from .program import DEFAULT, Program, salience_of
from .temporal import INFINITE, NEVER
from .trees import (AnyOf, Compare, Comparison, Condition, Existing, Expr, FieldOf, Folded, LengthWindow, Literal,
                    Negated, Operand, Own, Plain, Rule, Source, TimeWindow, Value, Variable)

INT_LOW, INT_HIGH = -(2**63), 2**63 - 1
TIME_END = 2**53

# What the variables of a rule stand for: a Fact, or a Value.
Names = dict[str, Any]


# ---- worlds


@dataclass(frozen=True, eq=False)
class Fact:
    """A fact in one version: a modification keeps id and entry point and takes a new tag. Times are 0 for plain
    facts."""
    id: int
    tag: int
    type: str
    entry: str
    values: dict[str, Any]
    start: int
    end: int


@dataclass(frozen=True, eq=False)
class World:
    """The list of facts in order of insertion, the clock, the last start and the promise of each entry point (0 where
    none is kept), the next numbers, the matches that are marked as fired, and whether it has begun: by its first event,
    or by a line."""
    program: Program
    facts: tuple[Fact, ...] = ()
    clock: int = 0
    last_starts: dict[str, int] = field(default_factory=dict)
    promises: dict[str, int] = field(default_factory=dict)
    next_id: int = 1
    next_tag: int = 1
    fired: frozenset = frozenset()
    begun: bool = False
    memory: Memory = field(default_factory=Memory)

    @cached_property
    def matches(self) -> list["Match"]:
        return matches_of(self)

    @cached_property
    def streams(self) -> dict[tuple[str, str], list[Fact]]:
        """The present facts by type and entry point, in order of insertion. That of events is the order of their
        starts, so those that are present are the last ones."""
        self.memory.places.hold(self.facts)
        found = {}
        for place, group in self.memory.places.groups.items():
            expires = self.program.types[place[0]].expires
            first = 0 if expires is None else bisect_right(group.starts, self.clock - expires)
            found[place] = group.facts[first:]
        return found

    def alike(self, **changes: Any) -> "World":
        """The same with changes on which no match depends."""
        other = replace(self, **changes)
        for name in ("matches", "streams"):
            if name in self.__dict__:
                other.__dict__[name] = self.__dict__[name]
        return other

    def with_fired(self, fired: frozenset) -> "World":
        return self.alike(fired=fired)


def floor_of(w: World, entry: str) -> int:
    """The least start that the entry point takes: its last start, the clock less its lateness, or its promise."""
    return max(w.last_starts.get(entry, 0), w.clock - w.program.latenesses[entry], w.promises.get(entry, 0))


def is_present(f: Fact, w: World) -> bool:
    """Explicit expiry alone takes events out: they are present while `now - start < offset`."""
    expires = w.program.types[f.type].expires
    return expires is None or w.clock - f.start < expires


def present(w: World) -> list[Fact]:
    return [f for f in w.facts if is_present(f, w)]


# ---- rows


@dataclass(eq=False)
class Taken:
    """What a row was for a condition: what it asks of facts, in which group and of how many it looked, which facts were
    tested, which of them passed, and the rows that came of it. With the same facts the same comes of it. `last` is the
    greatest start that a `not` waits for, once that was asked."""
    row: "Row"
    wanted: Wanted
    group: Group = NO_FACTS
    count: int = -2
    last: Any = None
    near: list[Fact] = field(default_factory=list)
    passing: list[Fact] = field(default_factory=list)
    longer: Optional[list["Row"]] = None


@dataclass(frozen=True, eq=False)
class Row:
    """What the conditions so far bound: in their order a fact for each pattern and a number for each accumulate; what
    the variables stand for; and, by the condition, what was taken for it."""
    cells: tuple[Union[Fact, int], ...]
    names: Names
    taken: dict[int, Taken] = field(default_factory=dict)

    @cached_property
    def facts(self) -> list[Fact]:
        return [c for c in self.cells if isinstance(c, Fact)]

    @cached_property
    def tags(self) -> tuple[int, ...]:
        return tuple(f.tag for f in self.facts)

    @cached_property
    def values(self) -> tuple[int, ...]:
        return tuple(c for c in self.cells if not isinstance(c, Fact))


EMPTY_ROW = Row((), {})


def bound_by(source: Source, f: Fact) -> Names:
    """What the variables of a source stand for where it took this fact."""
    names: Names = {} if source.variable is None else {source.variable: f}
    return {**names, **{b.variable: f.values[b.field] for b in source.binds}}


def value_of(o: Operand | Expr, names: Names, own: Optional[Fact]) -> Value:
    """The value of an operand; `own` is the tested fact."""
    if isinstance(o, Literal):
        return o.value
    if isinstance(o, Own):
        assert own is not None, "a field alone is one of the tested fact"
        return own.values[o.field]
    assert isinstance(o, (Variable, FieldOf)), "an operand"
    return names[o.name] if isinstance(o, Variable) else names[o.variable].values[o.field]


RELATIONS: dict[str, Callable[[Any, Any], bool]] = {
    "==": lambda a, b: a == b, "!=": lambda a, b: a != b, "<": lambda a, b: a < b,
    "<=": lambda a, b: a <= b, ">": lambda a, b: a > b, ">=": lambda a, b: a >= b}


def comparison_holds(c: Comparison, f: Fact, names: Names) -> bool:
    left = f.values[c.field]
    if isinstance(c, Compare):
        return RELATIONS[c.relation](left, value_of(c.operand, names, f))
    return any(left == value_of(o, names, f) for o in c.operands)


def test_holds(test: AnyOf, f: Fact, names: Names) -> bool:
    """One of the groups holds wholly."""
    return any(all(comparison_holds(c, f, names) for c in group) for group in test.groups)


def stream_of(source: Source, w: World) -> list[Fact]:
    """The present facts of the pattern's type and entry point that pass its constant tests, in order of insertion."""
    stream = w.streams.get((source.type, source.entry or DEFAULT), [])
    if not source.constant_tests:
        return stream
    return w.memory.filtered(source, stream, lambda f: all(test_holds(t, f, {}) for t in source.constant_tests))


def in_time_window(stream: list[Fact], length: int, clock: int) -> list[Fact]:
    """The facts while `now - start < length`. A stream is in the order of the starts, so these are its last ones."""
    first = len(stream)
    while first and clock - stream[first - 1].start < length:
        first -= 1
    return stream[first:]


def candidates(source: Source, w: World) -> list[Fact]:
    """Those of the stream that lie in the pattern's window: of the last so many milliseconds, or the last n of them."""
    stream, window = stream_of(source, w), source.window
    if isinstance(window, TimeWindow):
        return in_time_window(stream, window.length, w.clock)
    if isinstance(window, LengthWindow):
        return stream[-window.count:]
    return stream


def passes(source: Source, f: Fact, row: Row) -> bool:
    """The other tests hold of the fact with the row, and so do the temporal tests with the events that they name."""
    return (all(test_holds(t, f, row.names) for t in source.joined_tests)
            and all(temporal.holds(t.operator, t.parameters, times_of(f), times_of(row.names[t.other]))
                    for t in source.temporal_tests))


def times_of(f: Fact) -> tuple[int, int]:
    return (f.start, f.end)


def times_named(source: Source, row: Row) -> tuple[temporal.Timed, ...]:
    """The temporal tests of a source, each with the times of the event that it names."""
    return tuple((t.operator, t.parameters, times_of(row.names[t.other])) for t in source.temporal_tests)


def is_point(source: Source, w: World) -> bool:
    return w.program.types[source.type].duration is None


def is_mature(source: Source, row: Row, w: World) -> bool:
    """No event that the negative pattern waits for can come any more, or there is no end to the waiting."""
    if not w.program.types[source.type].event:
        return True
    return is_over(last_awaited(source, row, w), floor_of(w, source.entry or DEFAULT))


def last_awaited(source: Source, row: Row, w: World) -> Any:
    """The greatest start of an event that a negative pattern waits for."""
    return temporal.greatest_start(times_named(source, row), is_point(source, w))


def is_over(last: Any, floor: int) -> bool:
    """Whether the waiting for events up to this start ends at the floor, or has no end."""
    return last == NEVER or last == INFINITE or last < floor


def fold(function: str, values: list[int]) -> Optional[int]:
    """The result of an accumulate function over the arguments, None where there is no result."""
    if function == "count":
        return len(values)
    if function == "sum":
        return sum(values) if INT_LOW <= sum(values) <= INT_HIGH else None
    if not values:
        return None
    if function == "average":
        return sum(values) // len(values)
    return min(values) if function == "min" else max(values)


def arguments(condition: Folded, passing: list[Fact]) -> list:
    """What an accumulate takes of the facts that pass."""
    return [bound_by(condition.source, f)[condition.argument] for f in passing]


def with_result(condition: Folded, values: list, row: Row) -> list[Row]:
    """The row with the result over the arguments, where there is one and all result tests hold of it."""
    result = fold(condition.function, values)
    if result is None or not all(RELATIONS[rel](result, value_of(o, row.names, None)) for rel, o in condition.tests):
        return []
    names = {} if condition.result is None else {condition.result: result}
    return [Row(row.cells + (result,), {**row.names, **names})]


def folded(condition: Folded, passing: list[Fact], row: Row) -> list[Row]:
    """The row with the result over the facts that pass."""
    return with_result(condition, arguments(condition, passing), row)


def longer_rows(condition: Condition, passing: list[Fact], row: Row) -> list[Row]:
    """What a condition makes of a row, of the facts that pass; the waiting of a negative pattern aside."""
    if isinstance(condition, Plain):
        return [Row(row.cells + (f,), {**row.names, **bound_by(condition.source, f)}) for f in passing]
    if isinstance(condition, Negated):
        return [] if passing else [row]
    if isinstance(condition, Existing):
        return [row] if passing else []
    return folded(condition, passing, row)


def wanted(source: Source, row: Row, w: World) -> Wanted:
    """What the equalities and the temporal tests ask of a fact, for this row."""
    values = tuple(value_of(o, row.names, None) for _, o in equalities(source))
    if not source.temporal_tests:
        return Wanted(values)
    bounds = temporal.start_bounds(times_named(source, row), is_point(source, w))
    return Wanted(values, INFINITE, -INFINITE) if bounds is None else Wanted(values, *bounds)


def take_again(condition: Condition, row: Row, near: list[Fact], taken: Taken) -> None:
    """Where other facts are to be tested than before, those that were tested keep their outcome and their rows."""
    source, tested = condition.source, taken.near
    if taken.longer is not None and near == tested:
        return
    if taken.longer is not None and near[:len(tested)] == tested:
        passing = taken.passing + [f for f in near[len(tested):] if passes(source, f, row)]
    else:
        passing = [f for f in near if passes(source, f, row)]
    if isinstance(condition, Plain) and taken.longer:
        known = {longer.cells[-1]: longer for longer in taken.longer}
        longer = [known.get(f) or longer_rows(condition, [f], row)[0] for f in passing]
    else:
        longer = longer_rows(condition, passing, row)
    taken.near, taken.passing, taken.longer = near, passing, longer


def extended(condition: Condition, found: list[Row], among: Groups, last: LastTaken, w: World) -> list[Row]:
    """What a condition makes of the rows before it, of the candidates. Most rows look at what they looked at before:
    then nothing is looked up."""
    source, longer = condition.source, []
    if not last.is_of(found, among):
        last.renew(found, among, lambda row: taken_for(condition, row, among, w))
    if not (isinstance(condition, Negated) and w.program.types[source.type].event):
        for taken in last.fruitful:
            longer += taken.longer
        return longer
    floor = floor_of(w, source.entry or DEFAULT)
    for taken in last.fruitful:
        if taken.last is None:
            taken.last = last_awaited(source, taken.row, w)
        if is_over(taken.last, floor):
            longer += taken.longer
    return longer


def taken_for(condition: Condition, row: Row, among: Groups, w: World) -> Taken:
    """What a row is for a condition, of the candidates in their groups."""
    taken = row.taken.get(id(condition))
    if taken is None:
        taken = row.taken[id(condition)] = Taken(row, wanted(condition.source, row, w))
    group = among.group(taken.wanted.values)
    if group is not taken.group or group.count != taken.count:
        take_again(condition, row, group.near(taken.wanted), taken)
        taken.group, taken.count = group, group.count
    return taken


def looked_at(rule: Rule, w: World) -> list:
    """All of the world that the rows of a rule depend on: the candidates of its conditions, and how far a `not` may
    have waited."""
    return [candidates(c.source, w) for c in rule.conditions] + [
        floor_of(w, c.source.entry or DEFAULT) for c in rule.conditions if isinstance(c, Negated)
                                                                 and c.source.temporal_tests]


def rows(rule: Rule, w: World) -> list[Row]:
    """The rows of a rule, condition by condition over all candidates; those of before, where it looks at nothing
    else."""
    last, looked = w.memory.last_rows(rule, Row((), {})), looked_at(rule, w)
    if last.looked_at != looked:
        found = [last.root]
        for condition, facts, taken in zip(rule.conditions, looked, last.taken):
            among = w.memory.index(condition.source, facts)
            found = extended(condition, found, among, taken, w)
        last.looked_at, last.rows = looked, found
    return last.rows


# ---- matches


@dataclass(frozen=True, eq=False)
class Match:
    """A rule, by its place in the file, with a row."""
    rule: int
    row: Row

    @cached_property
    def key(self) -> tuple:
        """What makes two matches one: the rule, the tags and the values."""
        return (self.rule, self.row.tags, self.row.values)


def matches_of_rule(k: int, rule: Rule, w: World) -> list[Match]:
    """A row that was one before is the same match."""
    found, last = rows(rule, w), w.memory.last_rows(rule, None)
    if list(last.matches) != found:
        last.matches = {row: last.matches.get(row) or Match(k, row) for row in found}
    return list(last.matches.values())


def matches_of(w: World) -> list[Match]:
    return [m for k, rule in enumerate(w.program.rules) for m in matches_of_rule(k, rule, w)]


def pending(w: World) -> list[Match]:
    """The matches that are not marked as fired."""
    return [m for m in w.matches if m.key not in w.fired]


def firing_key(m: Match, w: World) -> tuple:
    """Greater salience; the greater greatest tag, 0 without facts; the earlier rule; greater tags; greater values."""
    return (salience_of(w.program.rules[m.rule]), max(m.row.tags, default=0), -m.rule, m.row.tags, m.row.values)


def first_pending(w: World) -> Optional[Match]:
    found = pending(w)
    return max(found, key=lambda m: firing_key(m, w)) if found else None


# ---- steps


@dataclass(frozen=True)
class Insertion:
    type: str
    entry: str
    values: dict[str, Any]


@dataclass(frozen=True)
class Modification:
    """Of a plain fact; the values of some of its fields."""
    id: int
    type: str
    values: dict[str, Value]


@dataclass(frozen=True)
class Retraction:
    id: int
    type: str


@dataclass(frozen=True)
class ClockMove:
    to: int


@dataclass(frozen=True)
class Promise:
    entry: str
    start: int


@dataclass(frozen=True)
class Begin:
    """No reference fact comes any more."""


Step = Union[Insertion, Modification, Retraction, ClockMove, Promise, Begin]


def start_and_duration(step: Insertion, w: World) -> tuple[int, int]:
    """The start is the timestamp field's or the clock, the duration the duration field's or 0."""
    info = w.program.types[step.type]
    start = w.clock if info.timestamp is None else step.values[info.timestamp]
    return start, 0 if info.duration is None else step.values[info.duration]


def fact_with(type_name: str, number: int, w: World) -> Optional[Fact]:
    """The present fact of this type with this id."""
    return next((f for f in w.facts if f.id == number and f.type == type_name and is_present(f, w)), None)


def insertion_fault(step: Insertion, w: World) -> Optional[str]:
    if not w.program.types[step.type].event:
        return None
    start, duration = start_and_duration(step, w)
    if not 0 <= duration <= TIME_END:
        return "BadDuration"
    if start < floor_of(w, step.entry):
        return "Late"
    return "Ahead" if start > w.clock else None


def clock_fault(step: ClockMove, w: World) -> Optional[str]:
    if step.to < w.clock:
        return "ClockBack"
    return "ClockEnd" if step.to > TIME_END else None


def promise_fault(step: Promise, w: World) -> Optional[str]:
    if step.start < w.promises.get(step.entry, 0):
        return "PromiseBack"
    return "PromiseEnd" if step.start > TIME_END else None


def absence_fault(step: Union[Modification, Retraction], w: World) -> Optional[str]:
    """A plain fact that is not there; an event that is not there is none to retract, which is no fault."""
    return "Absent" if not w.program.types[step.type].event and fact_with(step.type, step.id, w) is None else None


def step_fault(step: Step, w: World) -> Optional[str]:
    """Why the world does not take the step, in the order in which it is asked."""
    if isinstance(step, Insertion):
        return insertion_fault(step, w)
    if isinstance(step, ClockMove):
        return clock_fault(step, w)
    if isinstance(step, Promise):
        return promise_fault(step, w)
    if isinstance(step, Begin):
        return None
    return absence_fault(step, w)


def changed(step: Step, w: World) -> World:
    """The world with the step done, fired marks aside."""
    if isinstance(step, Insertion):
        return with_inserted(step, w)
    if isinstance(step, Modification):
        old = fact_with(step.type, step.id, w)
        assert old is not None, "a step without a fault"
        new = replace(old, tag=w.next_tag, values={**old.values, **step.values})
        return replace(w, facts=tuple(new if f is old else f for f in w.facts), next_tag=w.next_tag + 1)
    if isinstance(step, Retraction):
        gone = fact_with(step.type, step.id, w)
        return replace(w, facts=tuple(f for f in w.facts if f is not gone))
    if isinstance(step, ClockMove):
        return replace(w, clock=step.to)
    if isinstance(step, Begin):
        return replace(w, begun=True)
    return replace(w, promises={**w.promises, step.entry: step.start})


def with_inserted(step: Insertion, w: World) -> World:
    """The next id and the next tag; an event's start becomes the last start of its entry point, and the world has
    begun."""
    start, end, last_starts, event = 0, 0, w.last_starts, w.program.types[step.type].event
    if event:
        start, duration = start_and_duration(step, w)
        end, last_starts = start + duration, {**w.last_starts, step.entry: start}
    new = Fact(w.next_id, w.next_tag, step.type, step.entry, step.values, start, end)
    return replace(w, facts=w.facts + (new,), last_starts=last_starts, next_id=w.next_id + 1, next_tag=w.next_tag + 1,
                   begun=w.begun or event)


def after_step(step: Step, w: World) -> World:
    """The world behind a step without a fault: of the fired matches those stay marked that are matches still."""
    next_world = changed(step, w)
    return next_world.with_fired(w.fired & {m.key for m in next_world.matches})
