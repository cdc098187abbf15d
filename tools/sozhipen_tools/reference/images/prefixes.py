"""Which rules begin with the same conditions, and what a rule asks for and does.

What variables are called is no matter, only what they stand for. Patterns and accumulates of a rule are counted, each
for itself; a variable stands for a pattern's fact, a field of it or a result.
"""

from __future__ import annotations

from functools import lru_cache
from typing import Hashable, Optional

from ..meaning import temporal
from ..meaning.program import DEFAULT, Program, salience_of
from ..meaning.trees import (Action, AnyOf, Binary, Bind, Compare, Comparison, Condition, Expr, FieldOf, Folded,
                             Insert, Literal, Modify, Negate, Operand, Own, Plain, Rule, Source, Variable,
                             kind_of_value, operands_of)

# For each variable what it stands for: the number of a fact, with a field where it is a value; or the number of a
# result.
Places = dict[str, tuple]


def side(o: Operand | Expr, places: Places) -> Hashable:
    if isinstance(o, Literal):
        return ("literal", kind_of_value(o.value), o.value)
    if isinstance(o, Own):
        return ("own", o.field)
    assert isinstance(o, (Variable, FieldOf)), "an operand"
    return places[o.name] if isinstance(o, Variable) else places[o.variable] + (o.field,)


def compared(c: Comparison, places: Places) -> Hashable:
    relation = c.relation if isinstance(c, Compare) else "in"
    return (c.field, relation, tuple(side(o, places) for o in operands_of(c)))


def tested(test: AnyOf, places: Places) -> Hashable:
    return tuple(tuple(compared(c, places) for c in group) for group in test.groups)


def pattern(s: Source, places: Places) -> Hashable:
    return (s.type, s.entry or DEFAULT, s.window, tuple(tested(t, places) for t in s.constant_tests),
            tuple(tested(t, places) for t in s.joined_tests),
            tuple((tuple(temporal.edges(t.operator, t.parameters)), places[t.other]) for t in s.temporal_tests))


def argument_field(c: Folded) -> Optional[str]:
    """The field whose values an accumulate takes, None where facts are counted by their own variable."""
    return next((b.field for b in c.source.binds if b.variable == c.argument), None)


def form(c: Condition, places: Places) -> Hashable:
    """What a condition asks for, with places for variables: equal for two conditions that ask for the same."""
    if not isinstance(c, Folded):
        return (type(c).__name__, pattern(c.source, places))
    return ("Folded", pattern(c.source, places), c.function, argument_field(c),
            tuple((rel, side(o, places)) for rel, o in c.tests))


def forms(rule: Rule) -> list[Hashable]:
    """Those of all conditions of a rule."""
    return forms_and_places(rule)[0]


def forms_and_places(rule: Rule) -> tuple[list[Hashable], Places]:
    """The same, with the places of the variables that are in sight behind all conditions."""
    found: list[Hashable] = []
    places: Places = {}
    facts = results = 0
    for c in rule.conditions:
        found.append(form(c, places))
        if isinstance(c, Plain):
            names: Places = {} if c.source.variable is None else {c.source.variable: ("fact", facts)}
            names.update({p.variable: ("fact", facts, p.field) for p in c.source.parts if isinstance(p, Bind)})
            facts += 1
        else:
            names = {c.result: ("result", results)} if isinstance(c, Folded) and c.result is not None else {}
            results += isinstance(c, Folded)
        places = {**places, **names}
    return found, places


@lru_cache(maxsize=16)
def fronts(program: Program) -> dict[tuple[int, int], tuple]:
    """For each rule and each of its conditions what the rule asks for up to this one."""
    return {(k, j): tuple(known[:j + 1])
            for k, known in enumerate(map(forms, program.rules)) for j in range(len(known))}


@lru_cache(maxsize=16)
def owners(program: Program) -> dict[tuple[int, int], int]:
    """For each rule and each of its conditions the first rule that begins with the same conditions up to this one."""
    first: dict[tuple, int] = {}
    return {(k, j): first.setdefault(front, k) for (k, j), front in fronts(program).items()}


# ---- whole rules


def computed(e: Expr, places: Places) -> Hashable:
    if isinstance(e, Negate):
        return ("-", computed(e.inner, places))
    if isinstance(e, Binary):
        return (e.sign, computed(e.left, places), computed(e.right, places))
    return side(e, places)


def done(a: Action, places: Places) -> Hashable:
    """What an action does."""
    if isinstance(a, Insert):
        return ("insert", a.type, tuple(computed(e, places) for e in a.values))
    if isinstance(a, Modify):
        return ("modify", places[a.variable], tuple((name, computed(e, places)) for name, e in a.sets))
    return ("retract", places[a.variable])


def whole_form(rule: Rule) -> Hashable:
    """What a rule asks for and does, and its salience: equal for two rules that differ in their names alone."""
    found, places = forms_and_places(rule)
    return salience_of(rule), tuple(found), tuple(done(a, places) for a in rule.actions)
