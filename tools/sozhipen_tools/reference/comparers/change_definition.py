"""What the definition says of other rules over a running state, as plainly as it stands in crates/rule_change/specs.

Its world keeps all events, and its matches are found anew in each world, by every condition and every fact. Nothing is
taken from images/changes.py, which goes on from what images keep.
"""

from __future__ import annotations

from dataclasses import dataclass, replace
from functools import cached_property
from typing import Any, Optional

from ..images.prefixes import whole_form
from ..meaning.answers import GONE, NEW, STAYS, RuleChanged
from ..meaning.keeping import inferred_lives, lives_of
from ..meaning.lookup import Memory
from ..meaning.program import DEFAULT, Lives, Program, observed_types
from ..meaning.temporal import INFINITE
from ..meaning.trees import LengthWindow, Negated, Rule, Source, TimeWindow
from ..meaning.worlds import Fact, Match, Row, World, is_mature, is_present, longer_rows, passes, pending, test_holds

# ---- worlds of all events


def in_window(source: Source, facts: list[Fact], clock: int) -> list[Fact]:
    if isinstance(source.window, TimeWindow):
        return [f for f in facts if clock - f.start < source.window.length]
    return facts[-source.window.count:] if isinstance(source.window, LengthWindow) else facts


def rows_anew(rule: Rule, w: World) -> list[Row]:
    """The rows of a rule: each condition by all facts, for each row before it."""
    found = [Row((), {})]
    for c in rule.conditions:
        source = c.source
        fit = [f for f in w.facts if (f.type, f.entry) == (source.type, source.entry or DEFAULT) and is_present(f, w)
               and all(test_holds(test, f, {}) for test in source.constant_tests)]
        among = in_window(source, fit, w.clock)
        made = [(row, longer_rows(c, [f for f in among if passes(source, f, row)], row)) for row in found]
        found = [longer for row, rows in made for longer in rows
                 if not isinstance(c, Negated) or is_mature(source, row, w)]
    return found


@dataclass(frozen=True, eq=False)
class HistoryWorld(World):
    """A world that keeps all events and takes nothing over from the world before it."""

    @cached_property
    def matches(self) -> list[Match]:
        return [Match(k, row) for k, rule in enumerate(self.program.rules) for row in rows_anew(rule, self)]


# ---- which rules stay


def is_same_rule(old: Program, k: int, new: Program, j: int) -> bool:
    """The same name, salience, conditions and actions, whatever variables are called."""
    return old.title(k) == new.title(j) and whole_form(old.rules[k]) == whole_form(new.rules[j])


def places_from(old: Program, new: Program) -> list[Optional[int]]:
    """For each new rule the place of the old one that stays as it, None where it is new: the first that is the same and
    does not stay as an earlier one."""
    found: list[Optional[int]] = []
    for j in range(len(new.rules)):
        same = (k for k in range(len(old.rules)) if k not in found and is_same_rule(old, k, new, j))
        found.append(next(same, None))
    return found


def told_by(old: Program, new: Program) -> list[RuleChanged]:
    """The new rules in their order, then those that are gone in theirs; each name with each status once."""
    came = places_from(old, new)
    told = [RuleChanged(new.title(j), NEW if k is None else STAYS) for j, k in enumerate(came)]
    told += [RuleChanged(old.title(k), GONE) for k in range(len(old.rules)) if k not in came]
    return [it for place, it in enumerate(told) if it not in told[:place]]


# ---- the verdict


def have_types(old: Program, new: Program) -> bool:
    """Each type is there still, with the same fields in their order, role, times, expiry and reference."""
    def said(program: Program, name: str) -> Any:
        info = program.types[name]
        return (info.event, list(info.fields.items()), info.timestamp, info.duration, info.expires, info.reference)

    return all(name in new.types and said(old, name) == said(new, name) for name in old.types)


def have_entries(old: Program, new: Program) -> bool:
    return all(entry in new.latenesses and new.latenesses[entry] == lateness
               for entry, lateness in old.latenesses.items())


def carried(lives: Lives, new: Program) -> Lives:
    """The lives of before, by the names of the types, and those of types that are new."""
    return {name: lives[name] if name in lives else life for name, life in inferred_lives(new).items()}


def first_longer(lives: Lives, new: Program) -> Optional[str]:
    """The first type whose events the rules need for longer than these lives keep them."""
    needs = inferred_lives(new)
    return next((name for name in new.types if name in needs and name in lives and needs[name] > lives[name]), None)


def first_counted_anew(lives: Lives, old: Program, new: Program) -> Optional[str]:
    """The first type that a new rule counts, of which events past a finite life were forgotten."""
    came = places_from(old, new)
    added = [rule for rule, k in zip(new.rules, came) if k is None]
    counted = observed_types(added, new.types)
    return next((name for name in new.types if name in counted and lives.get(name, INFINITE) != INFINITE), None)


def verdict(w: World, new: Program) -> Optional[str]:
    """Why other rules are refused, None where they are taken."""
    old, lives = w.program, lives_of(w.program)
    if not have_types(old, new):
        return "OtherTypes"
    if not have_entries(old, new):
        return "OtherEntries"
    if {m.rule for m in pending(w)} - set(places_from(old, new)):
        return "Pending"
    if longer := first_longer(carried(lives, new), new):
        return f"Longer {longer}"
    if counted := first_counted_anew(lives, old, new):
        return f"Forgotten {counted}"
    return None


# ---- the world behind the change


def changed_by(w: World, new: Program) -> World:
    """The facts, the moments, the clock and the numbers as they are; of the matches those of new rules are marked, and
    those of rules that stay which were."""
    came = places_from(w.program, new)
    other = replace(w, program=replace(new, lives=carried(lives_of(w.program), new)), fired=frozenset(),
                    memory=Memory())
    return other.with_fired(frozenset(m.key for m in other.matches
                                      if came[m.rule] is None or (came[m.rule], *m.key[1:]) in w.fired))


def begun_for(program: Program, keep: Optional[Program]) -> Program:
    """The program of a desk without an image: events are kept for as long as one of the two needs them."""
    if keep is None:
        return program
    own, needs = inferred_lives(program), inferred_lives(keep)
    return replace(program, lives={name: max(life, needs[name]) if name in needs else life
                                   for name, life in own.items()})
