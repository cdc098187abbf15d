"""Tells of an accepted rule file what is seldom meant.

    tools/run rulefile.lint [--without NAME,NAME] RULES

prints for each warning `file:line:column: name: what it does`, the line with a caret, and what to write instead. Each
says what is so, and not what might be: where that takes more than the file, nothing is told. The status is 0 without a
warning, 1 with one, 3 where the file is refused (then rulefile.where tells of it).
"""

from __future__ import annotations

import sys
from dataclasses import dataclass
from pathlib import Path
from typing import Any, Iterator, Optional

from ..reference.meaning import temporal
from ..reference.meaning.checks import check, comparisons
from ..reference.meaning.lives import network, place_of_variable, positive_events
from ..reference.meaning.program import DEFAULT, Program
from ..reference.meaning.temporal import INFINITE
from ..reference.meaning.tokens import Token
from ..reference.meaning.trees import (AnyOf, Compare, Comparison, Condition, EntryDeclaration, Existing, Expr, FieldOf,
                                       Folded, Insert, Item, LengthWindow, Literal, Modify, Negate, Negated, Plain,
                                       Retract, Rule, Source, Temporal, TimeWindow, Variable, operands_of)
from ..reference.meaning.worlds import RELATIONS
from ..words import Parser
from . import kept
from .alike import forms_of
from .forms import with_article
from .tolerant import Complaint, ReadItem
from .where import read_tolerantly, report, shown
from .written import written_out

# From how many rules on an accumulate that they have in common is told.
SEVERAL = 3


@dataclass
class Desk:
    """An accepted rule file: its items with the places of their tokens, and its program."""
    items: list[ReadItem]
    program: Program

    @property
    def rules(self) -> list[tuple[ReadItem, Rule]]:
        return [(item, item.body) for item in self.items if isinstance(item.body, Rule)]

    def is_event(self, source: Source) -> bool:
        return self.program.types[source.type].event


def warning(name: str, token: Token, what: str, instead: str = "") -> Complaint:
    return Complaint(token.at, name, what, instead)


def entry_of(source: Source) -> str:
    return source.entry or DEFAULT


# ---- entry points


def entry_token(item: ReadItem, source: Source) -> Token:
    """The name of the entry point in a pattern."""
    tokens = item.tokens_of(source)
    place = next((k for k, token in enumerate(tokens) if token.kind == "word" and token.value == "point"), None)
    return tokens[place + 1] if place is not None and place + 1 < len(tokens) else tokens[0]


def undeclared_entries(desk: Desk) -> Iterator[Complaint]:
    """Entry points that patterns name and nobody declares, each at its first pattern."""
    known = {item.body.name for item in desk.items if isinstance(item.body, EntryDeclaration)} | {DEFAULT}
    for item, rule in desk.rules:
        for condition in rule.conditions:
            entry = entry_of(condition.source)
            if entry not in known:
                known.add(entry)
                yield warning("undeclared-entry", entry_token(item, condition.source),
                              f"no `declare entry-point` names `{entry}`: the pattern makes one of its own, of "
                              "lateness 0",
                              f'`declare entry-point "{entry}" end`, or the name that is meant')


def missing_from(desk: Desk) -> Iterator[Complaint]:
    """A pattern that looks into DEFAULT, in a rule that looks for the same type elsewhere as well, or in a file that
    else does so."""
    made = {action.type for _, rule in desk.rules for action in rule.actions if isinstance(action, Insert)}
    in_file = {name: usual_entry(desk, name) for name in desk.program.types}
    for item, rule in desk.rules:
        for condition in rule.conditions:
            source = condition.source
            in_rule = sorted({entry_of(c.source) for c in rule.conditions if c.source.type == source.type} - {DEFAULT})
            elsewhere = in_rule[0] if in_rule else in_file[source.type]
            if source.entry is None and elsewhere and source.type not in made:
                others = (f"another one of `{source.type}` in this rule" if in_rule
                          else f"those of `{source.type}` in other rules")
                yield warning("no-from", item.tokens_of(source)[0],
                              f"this pattern looks into `DEFAULT`, and {others} into `{elsewhere}`",
                              f'`from entry-point "{elsewhere}"` after it')


def usual_entry(desk: Desk, type_name: str) -> Optional[str]:
    """The one entry point besides DEFAULT that patterns of a type look into, where these are twice as many as those
    without a `from`."""
    entries = [c.source.entry for _, rule in desk.rules for c in rule.conditions if c.source.type == type_name]
    named = [entry for entry in entries if entry is not None]
    return (named[0] if len(set(named)) == 1 and named[0] != DEFAULT and len(named) >= 2 * (len(entries) - len(named))
            else None)


def unseen_entries(desk: Desk) -> Iterator[Complaint]:
    """An entry point that no pattern looks into, where each type is spoken of."""
    named = {entry_of(c.source) for _, rule in desk.rules for c in rule.conditions}
    spoken = {c.source.type for _, rule in desk.rules for c in rule.conditions}
    for item in desk.items:
        if (isinstance(item.body, EntryDeclaration) and item.body.name not in named | {DEFAULT}
            and spoken >= set(desk.program.types)):
            yield warning("unseen-entry", item.tokens[4],
                          f"no pattern looks into `{item.body.name}`: what comes in there is seen by no rule",
                          f'`from entry-point "{item.body.name}"` after the patterns that are meant')


# ---- times


def same_moment(desk: Desk) -> Iterator[Complaint]:
    """`before[0s,..]` in a `not`: an event of the same moment may still come, so the rule waits for the clock to
    move."""
    for item, rule in desk.rules:
        for condition in rule.conditions:
            for test in condition.source.temporal_tests if isinstance(condition, Negated) else []:
                waits = test.operator == "before" and test.parameters and min(test.parameters) == 0
                if waits and may_be_last(desk, rule, condition, test) and passing_itself(desk, rule, condition) is None:
                    yield warning("same-moment", item.tokens_of(test)[1],
                                  "this `before` lets an event of the same moment in, so the `not` waits "
                                  "until the clock has moved on", "`before[1ms,..]`, which waits for nothing")


def may_be_last(desk: Desk, rule: Rule, condition: Condition, test: Temporal) -> bool:
    """Whether an event that passes all tests may start as late as the one that this test names."""
    k = rule.conditions.index(condition)
    places = set(positive_events(rule, desk.program.types, k)) | {k}
    solved = network(rule, desk.program.types, places)
    return solved.solvable and solved.bound((k, "s"), (place_of_variable(rule, test.other), "s")) == 0


def bare_numbers(desk: Desk) -> Iterator[Complaint]:
    """A span below a second that is written as a number, without a unit."""
    for item, rule in desk.rules:
        for condition in rule.conditions:
            source = condition.source
            if isinstance(source.window, TimeWindow):
                yield from bare_number(window_tokens(item, source), "this window is of {} milliseconds")
            for test in source.temporal_tests:
                yield from bare_number(item.tokens_of(test), "these are milliseconds: at most {}")


def bare_number(tokens: list[Token], what: str) -> Iterator[Complaint]:
    spans = [token for token in tokens if token.kind in ("number", "time")]
    numbers = [token for token in spans if token.kind == "number" and token.value]
    most = max((int(token.value) for token in spans), default=0)
    if numbers and most < 1000:
        yield warning("bare-number", numbers[0], what.format(most),
                      "a unit: `60s`, `500ms`")


def window_tokens(item: ReadItem, source: Source) -> list[Token]:
    tokens = item.tokens_of(source)
    place = next((k for k, token in enumerate(tokens) if token.kind == "word" and token.value == "over"), len(tokens))
    return tokens[place:place + 7]


def windows_beyond_expiry(desk: Desk) -> Iterator[Complaint]:
    """A window of time in which each present event of its type lies."""
    for item, rule in desk.rules:
        for condition in rule.conditions:
            source = condition.source
            expires = desk.program.types[source.type].expires
            if isinstance(source.window, TimeWindow) and expires is not None and source.window.length >= expires:
                yield warning("no-effect", window_tokens(item, source)[0],
                              f"`{source.type}` expires after {kept.span(expires)}, so a window of "
                              f"{kept.span(source.window.length)} leaves nothing out", "a shorter window, or none")


def too_late(desk: Desk) -> Iterator[Complaint]:
    """A window or an expiry that is over when an event comes as late as its entry point allows: no rule sees it."""
    for item, rule in desk.rules:
        for condition in rule.conditions:
            source = condition.source
            lateness, expires = desk.program.latenesses[entry_of(source)], desk.program.types[source.type].expires
            if not desk.is_event(source) or lateness == 0:
                continue
            if isinstance(source.window, TimeWindow) and source.window.length <= lateness:
                yield warning("too-late", window_tokens(item, source)[0],
                              f"`{entry_of(source)}` is up to {kept.span(lateness)} late: an event that is "
                              f"{kept.span(source.window.length)} late is not in the window when it comes",
                              "a longer window")
            elif expires is not None and expires <= lateness:
                yield warning("too-late", item.tokens_of(source)[0],
                              f"`{entry_of(source)}` is up to {kept.span(lateness)} late: {with_article(source.type)} "
                              f"that is {kept.span(expires)} late has expired when it comes", "a longer @expires")


def impossible_tests(desk: Desk) -> Iterator[Complaint]:
    """A `not`, an `exists` or an accumulate whose temporal tests no event can meet."""
    does = {Negated: "forbids nothing", Existing: "never holds", Folded: "takes nothing in"}
    for item, rule in desk.rules:
        for k, condition in enumerate(rule.conditions):
            if type(condition) in does and condition.source.temporal_tests:
                places = set(positive_events(rule, desk.program.types, k)) | {k}
                if not network(rule, desk.program.types, places).solvable:
                    yield warning("impossible", item.tokens_of(condition.source.temporal_tests[-1])[1],
                                  f"no event can meet these temporal tests, so the condition {does[type(condition)]}",
                                  "one of them is to go")


# ---- tests


def literal(expr: Expr) -> Optional[Literal]:
    """The value of an expression that is one, None of any other."""
    if isinstance(expr, Negate):
        inner = literal(expr.inner)
        return None if inner is None else Literal(-int(inner.value))
    return expr if isinstance(expr, Literal) else None


def surely_passes(source: Source, values: dict[str, Optional[Literal]], others_hold: bool) -> bool:
    """Whether a fact with these values passes the constant tests; fields that are not among them hold as before, or may
    not."""
    def holds(c: Comparison) -> bool:
        if c.field not in values:
            return others_hold and not any(getattr(o, "field", None) in values for o in operands_of(c))
        value, operands = values[c.field], operands_of(c)
        literals = [o for o in operands if isinstance(o, Literal)]
        if value is None or len(literals) < len(operands):
            return False
        relation = RELATIONS[c.relation] if isinstance(c, Compare) else RELATIONS["=="]
        return any(relation(value.value, o.value) for o in literals)

    def holds_test(test: AnyOf) -> bool:
        named = any(c.field in values or getattr(o, "field", None) in values for group in test.groups for c in group
                    for o in operands_of(c))
        return all(holds(c) for c in test.groups[0]) if len(test.groups) == 1 or named else others_hold

    return all(holds_test(test) for test in source.constant_tests)


def source_of_variable(rule: Rule, variable: Optional[str]) -> Source:
    return rule.conditions[place_of_variable(rule, variable or "")].source


def changed_types(rule: Rule) -> set[str]:
    """The types of which the actions insert, modify or retract facts."""
    return {a.type if isinstance(a, Insert) else source_of_variable(rule, a.variable).type for a in rule.actions}


def is_looked_at(rule: Rule, variable: Optional[str], fields: set[str]) -> bool:
    """Whether some test with a variable depends on these fields of a fact."""
    source = source_of_variable(rule, variable)
    bound = {b.variable for b in source.binds if b.field in fields}
    operands = [o for c in rule.conditions for comparison in comparisons(c.source) for o in operands_of(comparison)]
    operands += [o for c in rule.conditions if isinstance(c, Folded) for _, o in c.tests]
    named = any(isinstance(o, Variable) and o.name in bound or isinstance(o, FieldOf) and o.variable == variable
                and o.field in fields for o in operands)
    tests = [c for test in source.joined_tests for group in test.groups for c in group]
    tests += [c for condition in rule.conditions if condition.source is not source
              and condition.source.type == source.type for c in comparisons(condition.source)]
    return named or any(c.field in fields or getattr(o, "field", None) in fields for c in tests for o in operands_of(c))


def modifies_for_ever(rule: Rule) -> bool:
    """Whether each fact that the rule modifies is found again, in its new version, and nothing else ends it."""
    for action in rule.actions:
        if isinstance(action, Modify):
            values = {name: literal(value) for name, value in action.sets}
            if is_looked_at(rule, action.variable, set(values)):
                return False
            if not surely_passes(source_of_variable(rule, action.variable), values, True):
                return False
    return any(isinstance(a, Modify) for a in rule.actions) and not any(isinstance(a, Retract) for a in rule.actions)


def inserts_for_ever(desk: Desk, rule: Rule, action: Insert) -> bool:
    """Whether the fact that an action inserts is found by a pattern of the rule in the place of the one before."""
    values = {name: literal(value) for name, value in zip(desk.program.types[action.type].fields, action.values)}
    for condition in rule.conditions:
        source = condition.source
        if (isinstance(condition, Plain) and source.type == action.type and entry_of(source) == DEFAULT
                and not source.joined_tests and not source.temporal_tests and surely_passes(source, values, False)):
            gone = [a.variable for a in rule.actions if not isinstance(a, Insert)]
            named = any(o.variable == source.variable for c in rule.conditions for x in comparisons(c.source)
                        for o in operands_of(x) if isinstance(o, FieldOf))
            bound = {b.variable for b in source.binds}
            used = any(isinstance(o, Variable) and o.name in bound for c in rule.conditions
                       for x in comparisons(c.source) for o in operands_of(x))
            timed = any(t.other == source.variable for c in rule.conditions for t in c.source.temporal_tests)
            return not (named or used or timed) and all(variable == source.variable for variable in gone)
    return False


def again(desk: Desk) -> Iterator[Complaint]:
    """A rule that makes itself pending again, whatever there is: the run ends at the limit of firings."""
    for item, rule in desk.rules:
        counted = {c.source.type for c in rule.conditions if not isinstance(c, Plain)}
        if counted & changed_types(rule):
            continue
        name = "each firing makes the rule pending again, up to the limit of firings"
        instead = "a field that says that it is done: `$a : Item( done == false )` and `done = true`"
        if modifies_for_ever(rule):
            first = next(a for a in rule.actions if isinstance(a, Modify))
            yield warning("again", item.tokens_of(first)[0],
                          f"`${first.variable}` passes as before when it is modified: {name}", instead)
        for action in rule.actions:
            if isinstance(action, Insert) and inserts_for_ever(desk, rule, action):
                yield warning("again", item.tokens_of(action)[3],
                              f"the new `{action.type}` is found by the rule itself: {name}", instead)


def found_types(rule: Rule) -> set[str]:
    return {c.source.type for c in rule.conditions}


def rests_on_events(desk: Desk, rule: Rule, but: Source, changed: set[str], of_other: set[str]) -> bool:
    """Whether all that a rule finds but for one pattern stays while the clock stands: events, and the absence of facts
    that neither it nor another rule, which finds facts of these types, is about."""
    def remains(c: Condition) -> bool:
        absent = isinstance(c, Negated) and (stays(desk, c) or not desk.is_event(c.source)
                                             and c.source.type not in of_other)
        found = (isinstance(c, (Plain, Existing)) and desk.is_event(c.source)
                 and not isinstance(c.source.window, LengthWindow))
        return (absent or found) and c.source.type not in changed

    return all(remains(c) for c in rule.conditions if c.source is not but)


def flip_of(desk: Desk, rule: Rule) -> Optional[tuple[Source, dict[str, Optional[Literal]]]]:
    """The pattern of the one fact that a rule modifies, with the new values, where all else that it finds stays."""
    changes = [a for a in rule.actions if not isinstance(a, Insert)]
    if len(changes) != 1 or not isinstance(changes[0], Modify):
        return None
    source = source_of_variable(rule, changes[0].variable)
    if not rests_on_events(desk, rule, source, changed_types(rule), set(desk.program.types)):
        return None
    return source, {name: literal(value) for name, value in changes[0].sets}


def asks_the_same(first: Source, second: Source, but: set[str]) -> bool:
    """Whether two patterns of a type have the same constant tests, but for those of some fields."""
    def tests(source: Source) -> list:
        return [test for test in source.constant_tests if not but & {c.field for group in test.groups for c in group}]
    return ((first.type, entry_of(first)) == (second.type, entry_of(second))
            and all(t in tests(first) for t in tests(second)))


def in_turn(token: Token, action: str, other: Rule, type_name: str, instead: str) -> Complaint:
    """Two rules each of which makes the other pending again."""
    return warning("to-and-fro", token,
                   f'this and the `{action}` of "{other.name}" make one another pending: where both rules '
                   f"have their events for one `{type_name}`, they fire in turn up to the limit of firings", instead)


def given_and_taken(desk: Desk) -> Iterator[Complaint]:
    """A rule that inserts what it forbids, and one that retracts that, both for events."""
    for item, rule in desk.rules:
        for action in (a for a in rule.actions if isinstance(a, Insert)):
            forbidden = [c.source for c in rule.conditions if isinstance(c, Negated) and c.source.type == action.type]
            if len(forbidden) != 1 or not all(isinstance(a, Insert) for a in rule.actions):
                continue
            values = {name: literal(value)
                      for name, value in zip(desk.program.types[action.type].fields, action.values)}
            other = next((other for _, other in desk.rules if takes(desk, other, forbidden[0], values, rule)
                          and rests_on_events(desk, rule, forbidden[0], changed_types(rule) | changed_types(other),
                                              found_types(other))), None)
            if other is not None:
                yield in_turn(item.tokens_of(action)[3], "retract", other, action.type,
                              "let what is done stay: a field that says it, `modify( $a ) { done = true }` instead of "
                              "the `retract`")


def takes(desk: Desk, rule: Rule, forbidden: Source, values: dict[str, Optional[Literal]], giver: Rule) -> bool:
    """Whether a rule retracts a fact with these values, and all else that it finds stays."""
    gone = [a.variable for a in rule.actions if not isinstance(a, Insert)]
    source = (source_of_variable(rule, gone[0]) if len(gone) == 1 and any(isinstance(a, Retract) for a in rule.actions)
              else None)
    return (source is not None and (source.type, entry_of(source)) == (forbidden.type, entry_of(forbidden))
            and surely_passes(source, values, False)
            and rests_on_events(desk, rule, source, changed_types(giver) | changed_types(rule), found_types(giver)))


def to_and_fro(desk: Desk) -> Iterator[Complaint]:
    """Two rules that make one another pending: where both have found their events, neither comes to an end."""
    yield from given_and_taken(desk)
    flips = [(item, rule, *flip) for item, rule in desk.rules for flip in [flip_of(desk, rule)] if flip]
    for k, (item, rule, source, values) in enumerate(flips):
        for _, other, source_of_other, values_of_other in flips[k + 1:]:
            fields = set(values) | set(values_of_other)
            if not (asks_the_same(source, source_of_other, fields) and asks_the_same(source_of_other, source, fields)):
                continue
            looked_at = (is_looked_at(rule, source.variable, fields)
                         or is_looked_at(other, source_of_other.variable, fields))
            made = (changed_types(rule) | changed_types(other)) - {source.type}
            if looked_at or made & (found_types(rule) | found_types(other)):
                continue
            if surely_passes(source_of_other, values, True) and surely_passes(source, values_of_other, True):
                action = next(a for a in rule.actions if isinstance(a, Modify))
                yield in_turn(item.tokens_of(action)[0], "modify", other, source.type,
                              "keep the moment in the fact, and let the next event be later: `since = $e.at`, and `at "
                              "> $since`")


def is_kept_event(desk: Desk, condition: Condition) -> bool:
    """A pattern of events that stay: without a window, and without an expiry."""
    source = condition.source
    return (isinstance(condition, Plain) and desk.is_event(source) and source.window is None
            and desk.program.types[source.type].expires is None)


def is_retracted_by(rule: Rule, forbidden: Source) -> bool:
    """Whether the rule retracts facts that the pattern forbids, as far as constants say."""
    found = [source_of_variable(rule, a.variable) for a in rule.actions if isinstance(a, Retract)]
    return any(source.type == forbidden.type and not contradict(source, forbidden) for source in found)


def how_it_goes(desk: Desk, rule: Rule, forbidden: Source) -> Optional[str]:
    """How a fact that a rule inserts and forbids goes again, where what the rule matches stays."""
    expires = desk.program.types[forbidden.type].expires
    if expires is not None:
        return f"expires, {kept.span(expires)} later"
    matched = {c.source.type for c in rule.conditions if isinstance(c, Plain)}
    by = next((r.name for _, r in desk.rules if is_retracted_by(r, forbidden) and not changed_types(r) & matched), None)
    return None if by is None else f'is retracted, by "{by}"'


def stays(desk: Desk, condition: Condition) -> bool:
    """Whether a `not` or an `exists` that holds of old events holds of them for ever: none can come any more, or none
    goes."""
    source = condition.source
    tests = [(t.operator, t.parameters, (0, 0)) for t in source.temporal_tests]
    if isinstance(condition, Negated):
        return desk.is_event(source) and temporal.greatest_start(tests, True) not in (INFINITE, temporal.NEVER)
    return desk.is_event(source) and source.window is None and desk.program.types[source.type].expires is None


def has_passed(desk: Desk, rule: Rule, forbidden: Source) -> bool:
    """Whether what an accumulate of the rule counts is gone when the fact that the rule forbids expires."""
    expires = desk.program.types[forbidden.type].expires
    folded = [c.source for c in rule.conditions if isinstance(c, Folded) and c.tests]
    spans = [s.window.length if isinstance(s.window, TimeWindow) else desk.program.types[s.type].expires
             for s in folded]
    return expires is not None and any(span is not None and span <= expires for span in spans)


def old_events(desk: Desk) -> Iterator[Complaint]:
    """A rule that fires once for what it inserts and forbids: when that goes, it fires again for the same old
    events."""
    for item, rule in desk.rules:
        old = next((c for c in rule.conditions if is_kept_event(desk, c)), None)
        forbidding = [c.source for c in rule.conditions if isinstance(c, (Negated, Existing)) and not stays(desk, c)]
        inserts = [a for a in rule.actions if isinstance(a, Insert)
                   and [a.type] == [source.type for source in forbidding]]
        if old is None or len(inserts) < len(rule.actions) or not inserts or has_passed(desk, rule, forbidding[0]):
            continue
        if any(w.at == item.tokens_of(inserts[0])[3].at for w in given_and_taken(desk)):
            continue
        goes = how_it_goes(desk, rule, forbidding[0])
        if goes is not None:
            yield warning("old-events", item.tokens_of(inserts[0])[3],
                          f"when the `{inserts[0].type}` {goes}, the rule fires again for the same "
                          f"old `{old.source.type}`", f"a window of time on `{old.source.type}`, or an @expires for it")


def pairs_itself(desk: Desk) -> Iterator[Complaint]:
    """Two patterns of a rule that find one and the same fact."""
    for item, rule in desk.rules:
        for k, condition in enumerate(rule.conditions):
            for before in rule.conditions[:k]:
                if (isinstance(condition, Plain) and isinstance(before, Plain)
                    and finds_the_same(desk, before.source, condition.source)):
                    yield warning("pairs-itself", item.tokens_of(condition.source)[0],
                                  f"{with_article(condition.source.type)} is found by this pattern together "
                                  "with itself", itself_instead(desk, condition.source))
                    break


def passing_itself(desk: Desk, rule: Rule, condition: Condition) -> Optional[int]:
    """The number of an earlier condition whose fact passes a `not` or an `exists` itself."""
    source = condition.source
    for j, before in enumerate(rule.conditions[:rule.conditions.index(condition)], start=1):
        if (isinstance(before, Plain) and finds_the_same(desk, before.source, source)
                and all(test in before.source.constant_tests for test in source.constant_tests)):
            return j
    return None


def meets_itself(desk: Desk) -> Iterator[Complaint]:
    """A `not` or an `exists` that the fact of an earlier condition passes itself."""
    does = {Negated: "this `not` never holds", Existing: "this `exists` always holds"}
    for item, rule in desk.rules:
        for condition in (c for c in rule.conditions if type(c) in does):
            j = passing_itself(desk, rule, condition)
            if j is not None:
                yield warning("meets-itself", item.tokens_of(condition.source)[0],
                              f"the `{condition.source.type}` of condition {j} passes "
                              f"here itself, so {does[type(condition)]}", itself_instead(desk, condition.source))


def itself_instead(desk: Desk, source: Source) -> str:
    return "a test of a key, as `id != $a.id`" + ("; of an event, `after[1ms,..]`" if desk.is_event(source) else "")


def finds_the_same(desk: Desk, first: Source, second: Source) -> bool:
    """Whether each fact that passes the constant tests of both passes the other tests of the second together with
    itself."""
    if first.type != second.type or entry_of(first) != entry_of(second) or second.window not in (None, first.window):
        return False
    own = {b.variable: b.field for b in first.binds}
    tests = [c for test in second.joined_tests for group in test.groups for c in group
             if test not in first.joined_tests]
    if any(len(test.groups) > 1 for test in second.joined_tests):
        return False
    joined = all(isinstance(c, Compare) and c.relation in ("==", "<=", ">=")
                 and field_of_first(c, first, own) == c.field for c in tests)
    point = desk.program.types[first.type].duration is None
    timed = all(t.other == first.variable and point and temporal.holds(t.operator, t.parameters, (0, 0), (0, 0))
                for t in second.temporal_tests)
    return joined and timed and bool(tests or second.temporal_tests) and not contradict(first, second)


def field_of_first(c: Compare, first: Source, own: dict[str, str]) -> Optional[str]:
    """The field of the first pattern's fact that a comparison is with, None where it is with something else."""
    if isinstance(c.operand, FieldOf):
        return c.operand.field if c.operand.variable == first.variable else None
    return own.get(c.operand.name) if isinstance(c.operand, Variable) else None


def contradict(first: Source, second: Source) -> bool:
    """Whether both ask for other constants of one field, so that no fact passes both; any test but an equality counts
    as one."""
    constants = [{c.field: c for test in s.constant_tests for group in test.groups for c in group}
                 for s in (first, second)]
    return any(constants[0][name] != constants[1][name] for name in constants[0].keys() & constants[1].keys())


def unused_bindings(desk: Desk) -> Iterator[Complaint]:
    """What is bound inside `not` and `exists` is seen by nobody."""
    for item, rule in desk.rules:
        for condition in rule.conditions:
            if isinstance(condition, (Negated, Existing)):
                for bind in condition.source.binds:
                    yield warning("unseen-binding", item.tokens_of(bind)[0],
                                  f"nobody sees what `${bind.variable}` binds inside `not` and `exists`",
                                  "leave it out")


# ---- lives


def kept_for_ever(desk: Desk) -> Iterator[Complaint]:
    """A type of events that are never forgotten, with each pattern that asks for it."""
    for info in desk.program.types.values():
        if not info.event or info.expires is not None or kept.lives.life_of_type(desk.program, info.name) != INFINITE:
            continue
        for reason in kept.reasons(desk.program, info.name):
            item, rule = desk.rules[reason.rule]
            source = rule.conditions[reason.condition].source
            table = (f"`@reference` for `{reason.plain}`, if its facts are there before any event and stay; else "
                     if is_fixed(desk, reason.plain) else "")
            yield warning("for-ever", item.tokens_of(source)[0],
                          f"events of `{info.name}` are kept for ever, since {reason.why}",
                          table + f"a window of time here{', ' if reason.by_length else ', a bound, '}or an @expires "
                          "for the type")


def is_fixed(desk: Desk, type_name: Optional[str]) -> bool:
    """Whether it is a type that no rule changes."""
    return type_name is not None and all(type_name not in changed_types(rule) for _, rule in desk.rules)


# ---- what rules have in common


def same_accumulates(desk: Desk) -> Iterator[Complaint]:
    """An accumulate over one source that stands in several rules, behind conditions or before tests that differ: the
    network makes the result of each for itself."""
    places: dict[Any, list[tuple[ReadItem, Source]]] = {}
    fronts: dict[Any, set[Any]] = {}
    for item, rule in desk.rules:
        forms = forms_of(rule)
        for k, condition in enumerate(rule.conditions):
            if isinstance(condition, Folded):
                source = meant_source(rule, k, forms)
                places.setdefault(source, []).append((item, condition.source))
                fronts.setdefault(source, set()).add((rule_at(item), tuple(forms[:k + 1])))
    for source, found in places.items():
        rules = {at for at, _ in fronts[source]}
        if len(rules) >= SEVERAL and len({front for _, front in fronts[source]}) >= SEVERAL:
            item, first = found[0]
            yield warning("same-sum", item.tokens_of(first)[0],
                          f"{len(rules)} rules accumulate over this `{first.type}`, and each makes the result for "
                          "itself",
                          "a rule that keeps the result in a fact for the others: "
                          "docs/RECIPES.md, *Many rules over one sum*")


def rule_at(item: ReadItem) -> int:
    """Where the rule begins: the ways of a rule are one."""
    return item.tokens[0].at


def meant_source(rule: Rule, k: int, forms: list[Any]) -> Any:
    """An accumulate without its tests, where variables stand for fields of types."""
    types = [condition.source.type for condition in rule.conditions]

    def typed(form: Any) -> Any:
        if isinstance(form, frozenset):
            return frozenset(map(typed, form))
        if not isinstance(form, tuple):
            return form
        is_variable = len(form) == 2 and type(form[0]) is int and isinstance(form[1], str)
        return (types[form[0]], form[1]) if is_variable else tuple(map(typed, form))

    return typed(forms[k][1:4])


LINTS = [undeclared_entries, missing_from, unseen_entries, same_moment, bare_numbers, windows_beyond_expiry, too_late,
         impossible_tests, again, to_and_fro, old_events, pairs_itself, meets_itself, unused_bindings,
         kept_for_ever, same_accumulates]


def desk_of(data: bytes) -> Desk:
    """An accepted rule file."""
    items, _ = read_tolerantly(data)
    return Desk(written_out(items, numbered=False),
                check([Item(0, item.body) for item in items if item.body is not None]))


def warnings_of(data: bytes) -> list[Complaint]:
    """All warnings of an accepted rule file, by their places."""
    desk = desk_of(data)
    return sorted({w for lint in LINTS for w in lint(desk)})


def main() -> int:
    parser = Parser(description="Tells of an accepted rule file what is seldom meant.")
    parser.add_argument("rules", metavar="RULES")
    parser.add_argument("--without", default="", metavar="NAME,NAME",
                        help="warnings that are not to be told, as for-ever")
    asked = parser.parse_args()
    try:
        data = Path(asked.rules).read_bytes()
    except OSError as error:
        print(f"lint.py: {asked.rules}: {error.strerror}", file=sys.stderr)
        return 3 if isinstance(error, FileNotFoundError) else 5
    refusal = report(asked.rules, data)
    if refusal:
        sys.stdout.write(refusal)
        return 3
    told = [w for w in warnings_of(data) if w.code not in asked.without.split(",")]
    sys.stdout.write("".join(shown(asked.rules, data, w) for w in told))
    return 1 if told else 0


if __name__ == "__main__":
    sys.exit(main())
