"""Why a rule does not fire: for each condition how many rows go on, and what keeps the others back."""

from __future__ import annotations

import re
from collections import Counter
from dataclasses import dataclass
from typing import Iterator, Optional, Union

from ..reference.meaning import temporal
from ..reference.meaning.answers import fire_line, quoted
from ..reference.meaning.program import DEFAULT
from ..reference.meaning.tokens import Token
from ..reference.meaning.trees import (AnyOf, Condition, Existing, Folded, Literal, Negated, Plain, Rule, Source,
                                       Temporal, TimeWindow, operands_of)
from ..reference.meaning.worlds import (RELATIONS, Fact, Row, World, bound_by, candidates, comparison_holds, firing_key,
                                        fold, is_mature, is_present, longer_rows, passes, pending, present, test_holds,
                                        times_named, times_of, value_of)
from ..rulefile.forms import with_article
from ..rulefile.lint import Desk
from ..rulefile.tolerant import ReadItem
from ..rulefile.written import type_token
from .history import BEFORE, History, shown_fact, shown_value
from .moments import moment

MOST_SHOWN = 8


# ---- the text of the rule


class Text:
    """The words of a rule file in which its nodes are written."""

    def __init__(self, data: bytes, desk: Desk):
        self.data = data
        tokens = [token for item in desk.items for token in item.tokens]
        self.behind = {id(a): b.at for a, b in zip(tokens, tokens[1:])}

    def of(self, item: ReadItem, node: object) -> str:
        return "".join(self.with_blank(token) for token in item.tokens_of(node)).strip()

    def with_blank(self, token: Token) -> str:
        """A token as it is written, and a blank where one or a comment stands behind it."""
        written = self.data[token.at:self.behind.get(id(token), len(self.data))]
        if token.kind == "text":
            return quoted(str(token.value)) + (" " if written.rstrip() != written else "")
        found = re.match(rb"[^\s/#]+", written)
        word = found.group() if found else b""
        return word.decode() + (" " if len(word) < len(written) else "")


# ---- one fact


def holds(test: Union[AnyOf, Temporal], f: Fact, row: Row) -> bool:
    if isinstance(test, AnyOf):
        return test_holds(test, f, row.names)
    return temporal.holds(test.operator, test.parameters, times_of(f), times_of(row.names[test.other]))


def place_of_sending(source: Source, f: Fact, w: World) -> Optional[str]:
    """Why a fact is not looked at by a pattern at all, whatever its tests say."""
    if f.type != source.type:
        return f"is no `{source.type}`"
    if f.entry != (source.entry or DEFAULT):
        return f"came into `{f.entry}`, and the pattern looks into `{source.entry or DEFAULT}`"
    if not any(f is there for there in w.facts):
        return "is not there"
    if not is_present(f, w):
        return f"expired at {moment(f.start + (w.program.types[f.type].expires or 0))}"
    return None


def window_sending(source: Source, f: Fact, w: World) -> str:
    """Why a fact that passes the constant tests is not in the window."""
    if isinstance(source.window, TimeWindow):
        return f"left the window at {moment(f.start + source.window.length)}"
    assert source.window is not None
    return f"is not among the last {source.window.count} that pass the constant tests"


def meant(test: Union[AnyOf, Temporal], f: Fact, row: Row) -> str:
    """The values that a test compares."""
    if not isinstance(test, AnyOf):
        (start, end), other = times_of(f), row.names[test.other]
        times = moment(start) if start == end else f"{moment(start)} to {moment(end)}"
        of_other = moment(other.start) if other.start == other.end else f"{moment(other.start)} to {moment(other.end)}"
        others = [op for op in temporal.OPERATORS if temporal.holds(op, (), times_of(f), times_of(other))]
        return (f"it is at {times}, and ${test.other}, #{other.id}, at {of_other}, so that "
                f"{' and '.join(f'`{op}`' for op in others) or 'none'} holds")
    told = []
    for c in (c for group in test.groups for c in group if not comparison_holds(c, f, row.names)):
        others = [shown_value(value_of(o, row.names, f)) for o in operands_of(c) if not isinstance(o, Literal)]
        told.append(f"{c.field} is {shown_value(f.values[c.field])}"
                    + (f", and it is compared with {', '.join(others)}" if others else ""))
    return "; ".join(dict.fromkeys(told))


@dataclass
class Inspection:
    """A rule in a world, with its place among the rules and the text of its conditions."""
    item: ReadItem
    place: int
    rule: Rule
    world: World
    text: Text

    def kind(self, source: Source) -> str:
        """The type that a way looks at, where another stands in the file."""
        return "" if type_token(self.item, source).value == source.type else f", here `{source.type}`"

    def sending(self, source: Source, f: Fact, row: Row) -> Optional[str]:
        """What sends a fact away from a pattern, with what was found before; None where it passes."""
        if away := place_of_sending(source, f, self.world):
            return away
        tests: list[Union[AnyOf, Temporal]] = [*source.constant_tests]
        for test in tests:
            if not holds(test, f, row):
                return f"fails `{self.text.of(self.item, test)}`: {meant(test, f, row)}"
        if source.window is not None and not any(f is c for c in candidates(source, self.world)):
            return window_sending(source, f, self.world)
        tests = [*source.joined_tests, *source.temporal_tests]
        for test in tests:
            if not holds(test, f, row):
                return f"fails `{self.text.of(self.item, test)}`: {meant(test, f, row)}"
        return None

    def tally(self, source: Source, row: Row) -> str:
        """How many facts each test sends away, in words."""
        among = candidates(source, self.world)
        if not among:
            return self.no_candidate(source)
        counts: Counter[str] = Counter()
        tests: list[Union[AnyOf, Temporal]] = [*source.joined_tests, *source.temporal_tests]
        for f in among:
            failed = next((t for t in tests if not holds(t, f, row)), None)
            if failed is not None:
                counts[self.text.of(self.item, failed)] += 1
        return "; ".join(f"`{test}` sends {count} away" for test, count in counts.items()) or "each passes"

    def no_candidate(self, source: Source) -> str:
        """Where the facts of the type are, when the pattern has none to look at."""
        of_type = [f for f in present(self.world) if f.type == source.type]
        entry = source.entry or DEFAULT
        here = [f for f in of_type if f.entry == entry]
        if not of_type:
            return f"there is no `{source.type}`"
        if not here:
            elsewhere = Counter(f.entry for f in of_type)
            return (f"there is no `{source.type}` in `{entry}`; "
                    + ", ".join(f"{n} in `{e}`" for e, n in elsewhere.items()))
        for test in source.constant_tests:
            if not any(test_holds(test, f, {}) for f in here):
                return f"none of the {len(here)} passes `{self.text.of(self.item, test)}`"
        passing = [f for f in here if all(test_holds(t, f, {}) for t in source.constant_tests)]
        return "none is in the window" if passing else f"none of the {len(here)} passes all constant tests"

    def waiting(self, source: Source, row: Row) -> str:
        """Until when a `not` waits, and for what."""
        w, entry = self.world, source.entry or DEFAULT
        last = temporal.greatest_start(times_named(source, row), w.program.types[source.type].duration is None)
        until = last + w.program.latenesses[entry] + 1
        return (f"waits until the clock is {moment(until)}, at the latest: {with_article(source.type)} that starts up "
                f"to {moment(last)} may still come into `{entry}`")

    def kept_back(self, condition: Condition, row: Row) -> str:
        """Why a row does not go on behind a condition."""
        source = condition.source
        if isinstance(condition, (Plain, Existing)):
            return self.tally(source, row)
        passing = [f for f in candidates(source, self.world) if passes(source, f, row)]
        if isinstance(condition, Negated):
            return self.forbidden(passing, row) if passing else self.waiting(source, row)
        return self.no_result(condition, passing, row)

    def forbidden(self, passing: list[Fact], row: Row) -> str:
        """Which facts keep a row back in a `not`."""
        passed = ", ".join(f"#{f.id}" for f in passing[:MOST_SHOWN]) + (", .." if len(passing) > MOST_SHOWN else "")
        itself = all(any(f is cell for cell in row.cells) for f in passing)
        return (f"{passed} {'passes' if len(passing) == 1 else 'pass'}, which it forbids"
                + (": the fact itself" if itself else ""))

    def elsewhere(self, source: Source) -> str:
        """In which other entry points facts of the type are, where a pattern has none to look at."""
        if candidates(source, self.world):
            return ""
        entries = Counter(f.entry for f in present(self.world) if f.type == source.type
                          and f.entry != (source.entry or DEFAULT))
        return "".join(f", {count} in `{entry}`" for entry, count in entries.items())

    def no_result(self, condition: Folded, passing: list[Fact], row: Row) -> str:
        """Why an accumulate gives nothing, or which test its result fails."""
        result = fold(condition.function, [bound_by(condition.source, f)[condition.argument] for f in passing])
        if result is None:
            return f"`{condition.function}` has no result" + (f": {self.tally(condition.source, row)}" if not passing
                                                              else "")
        failed = next(t for t in condition.tests if not RELATIONS[t[0]](result, value_of(t[1], row.names, None)))
        return f"the result is {result}, of {len(passing)}, and `{self.text.of(self.item, failed)}` fails"


# ---- a rule


def shown_row(row: Row) -> str:
    cells = " ".join(f"#{c.id}" if isinstance(c, Fact) else f"={c}" for c in row.cells)
    return cells or "the empty row"


def grown(condition: Condition, row: Row, w: World) -> list[Row]:
    """What a condition makes of a row, as the meaning says it."""
    passing = [f for f in candidates(condition.source, w) if passes(condition.source, f, row)]
    longer = longer_rows(condition, passing, row)
    return longer if not isinstance(condition, Negated) or is_mature(condition.source, row, w) else []


def some(lines: list[str], what: str) -> Iterator[str]:
    """The first lines, and how many more there are; equal ones once."""
    counts = Counter(lines)
    for line in list(counts)[:MOST_SHOWN]:
        yield line
    if len(counts) > MOST_SHOWN:
        yield f"and {len(counts) - MOST_SHOWN} more {what}"


def told_of_rule(inspection: Inspection, history: History) -> Iterator[str]:
    """Condition by condition how many rows go on, what keeps the others back, and what the matches are."""
    w, found = inspection.world, [Row((), {})]
    for number, condition in enumerate(inspection.rule.conditions, start=1):
        yield f"  {number}  {inspection.text.of(inspection.item, condition)}{inspection.kind(condition.source)}"
        behind, back = [], []
        for row in found:
            longer = grown(condition, row, w)
            behind += longer
            if not longer:
                back.append(f"{shown_row(row)}: {inspection.kept_back(condition, row)}")
        looked = len(candidates(condition.source, w))
        elsewhere = inspection.elsewhere(condition.source) if behind else ""
        yield (f"     {looked} {'fact' if looked == 1 else 'facts'} to look at{elsewhere}; rows: {len(found)} come, "
               f"{len(behind)} go on")
        yield from (f"     {line}" for line in some(back, "are kept back"))
        found = behind
        if not found:
            return
    yield from told_of_matches(found, inspection, history)


def fired_at(history: History, key: tuple) -> str:
    line = history.fired.get(key)
    return "before the image" if line == BEFORE else f"at line {line}"


def told_of_matches(found: list[Row], inspection: Inspection, history: History) -> Iterator[str]:
    """Which matches are pending, and since when the others have fired."""
    lines = []
    for row in found:
        key = (inspection.place, row.tags, row.values)
        state = (f"fired {fired_at(history, key)}, and stands since" if key in inspection.world.fired
                 else "pending")
        lines.append(f"  {shown_row(row)}: {state}")
    yield from some(lines, "matches")


def told_of_fact(inspection: Inspection, f: Fact) -> Iterator[str]:
    """What sends a fact away from each pattern of its type, or lets it go on."""
    found, w = [Row((), {})], inspection.world
    yield f"  {shown_fact(f)}"
    for number, condition in enumerate(inspection.rule.conditions, start=1):
        if condition.source.type == f.type:
            lines = []
            for row in found:
                away = inspection.sending(condition.source, f, row)
                behind = f"after {shown_row(row)} it " if row.cells else "it "
                lines.append(behind + (away or "passes"))
            yield from (f"     condition {number}: {line}" for line in some(lines or ["no row comes here"], "rows"))
        found = [longer for row in found for longer in grown(condition, row, w)]


def told_pending(w: World) -> list[str]:
    """The pending matches in the order in which they fire, as long as no action changes it."""
    return [fire_line(m, w) for m in sorted(pending(w), key=lambda m: firing_key(m, w), reverse=True)]
