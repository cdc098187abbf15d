"""Writes a file out into plain rules: one rule for each choice among alternatives, types with the fields of their
parents.

A pattern on a type with subtypes is an alternative between the type and those below it, in the order of the file; a
`not` on it is one `not` for each of them. Of alternatives the first varies slowest. What is refused here comes before
all other checks.
"""

from __future__ import annotations

from dataclasses import replace
from itertools import product
from math import prod
from typing import Callable, Optional

from .program import type_declarations
from .reader import Refused
from .trees import (Alternatives, Body, Condition, Existing, Folded, Item, LengthWindow, Negated, Plain, Rule,
                    TypeDeclaration, WrittenCondition)

MOST_SUBRULES, MOST_CONDITIONS, MOST_FIELDS = 256, 8, 32

Way = tuple[Condition, ...]
WrittenWay = tuple[WrittenCondition, ...]
# a condition with another type
OverType = Callable[[Condition, str], Condition]


class Types:
    """The types of a file; a name that is declared twice means its first declaration."""

    def __init__(self, items: list[Item]):
        self.first: dict[str, TypeDeclaration] = {}
        for t in type_declarations(items):
            self.first.setdefault(t.name, t)

    def parent(self, t: TypeDeclaration) -> Optional[TypeDeclaration]:
        return None if t.parent is None else self.first.get(t.parent)

    def ancestors(self, t: TypeDeclaration) -> list[TypeDeclaration]:
        """The parent, its parent and so on; where this never ends, up to the first that stands there twice."""
        found: list[TypeDeclaration] = []
        above = self.parent(t)
        while above is not None and not any(above is a for a in found):
            found.append(above)
            above = self.parent(above)
        return found

    def is_endless(self, t: TypeDeclaration) -> bool:
        """The type, or one of its ancestors, is its own ancestor."""
        above = self.ancestors(t)
        return bool(above) and self.parent(above[-1]) is not None

    def names_above(self, t: TypeDeclaration) -> list[str]:
        """The names of its ancestors; behind them that of a parent which is not declared."""
        above = self.ancestors(t)
        parent = (above[-1] if above else t).parent
        return [a.name for a in above] + ([] if parent is None or parent in self.first else [parent])

    def kinds(self, name: str) -> list[str]:
        """The type, and those below it in the order of the file."""
        return [name] + [t.name for t in self.first.values() if t.name != name and name in self.names_above(t)]

    def has_subtypes(self, name: str) -> bool:
        return len(self.kinds(name)) > 1

    def written_out(self, t: TypeDeclaration) -> TypeDeclaration:
        """With the fields of its parent before its own, and those annotations of the parent that it does not write
        itself."""
        fields, annotations = t.fields, t.annotations
        for above in self.ancestors(t):
            fields = above.fields + fields
            own = {type(a) for a in annotations}
            annotations += tuple(a for a in above.annotations if type(a) not in own)
        return TypeDeclaration(t.name, annotations, fields)


# ---- the choices of a rule


def on_kind(c: Condition, name: str) -> Condition:
    return replace(c, source=replace(c.source, type=name))


def ways(c: WrittenCondition, types: Types, over: OverType = on_kind) -> list[Way]:
    """What a condition is written out to: one list of conditions for each choice."""
    if isinstance(c, Alternatives):
        return [way for choice in c.choices for way in ways_of_all(choice, types, over)]
    if isinstance(c, Plain):
        return [(over(c, name),) for name in types.kinds(c.source.type)]
    if isinstance(c, Negated):
        return [tuple(over(c, name) for name in types.kinds(c.source.type))]
    return [(c,)]


def ways_of_all(conditions: WrittenWay, types: Types, over: OverType = on_kind) -> list[Way]:
    return [tuple(c for way in chosen for c in way) for chosen in product(*(ways(c, types, over) for c in conditions))]


def count_of_ways(c: WrittenCondition, types: Types) -> int:
    if isinstance(c, Alternatives):
        return sum(prod(count_of_ways(inner, types) for inner in choice) for choice in c.choices)
    return len(types.kinds(c.source.type)) if isinstance(c, Plain) else 1


def longest_way(c: WrittenCondition, types: Types) -> int:
    if isinstance(c, Alternatives):
        return max(sum(longest_way(inner, types) for inner in choice) for choice in c.choices)
    return len(types.kinds(c.source.type)) if isinstance(c, Negated) else 1


def plain_conditions(conditions: WrittenWay) -> list[Condition]:
    """All conditions, those within alternatives included."""
    return [inner for c in conditions
            for inner in (plain_conditions(sum(c.choices, ())) if isinstance(c, Alternatives) else [c])]


# ---- refusals, in their order


def lacks_parent(body: Body, types: Types) -> bool:
    return isinstance(body, TypeDeclaration) and body.parent is not None and body.parent not in types.first


def is_below_itself(body: Body, types: Types) -> bool:
    return isinstance(body, TypeDeclaration) and types.is_endless(body)


def observes_subtypes(body: Body, types: Types) -> bool:
    """An exists, an accumulate or a window of length stands on a type that another type extends."""
    return isinstance(body, Rule) and any(
        (isinstance(c, (Existing, Folded)) or isinstance(c.source.window, LengthWindow))
                                          and types.has_subtypes(c.source.type)
        for c in plain_conditions(body.conditions))


def is_too_large(body: Body, types: Types) -> bool:
    """Too many subrules, too many conditions in one of them, too many fields of a type with its parent's."""
    if isinstance(body, TypeDeclaration):
        return body.parent is not None and len(types.written_out(body).fields) > MOST_FIELDS
    if not isinstance(body, Rule):
        return False
    count = prod(count_of_ways(c, types) for c in body.conditions)
    negated = any(isinstance(c, Negated) and types.has_subtypes(c.source.type)
                  for c in plain_conditions(body.conditions))
    longest = sum(longest_way(c, types) for c in body.conditions)
    return count > MOST_SUBRULES or (count > 1 or negated) and longest > MOST_CONDITIONS


CODES = [("UnknownType", lacks_parent), ("BadExtends", is_below_itself), ("HasSubtypes", observes_subtypes),
         ("LimitPassed", is_too_large)]


# ---- the file


def rules_written_out(rule: Rule, types: Types) -> list[Rule]:
    """The rule for each choice; where there are several, with their numbers behind its name."""
    chosen = ways_of_all(rule.conditions, types)
    names = [rule.name] if len(chosen) == 1 else [f"{rule.name} #{k + 1}" for k in range(len(chosen))]
    return [replace(rule, name=name, conditions=way) for name, way in zip(names, chosen)]


def bodies_written_out(body: Body, types: Types) -> list:
    if isinstance(body, TypeDeclaration):
        return [types.written_out(body)]
    if isinstance(body, Rule):
        return rules_written_out(body, types)
    return [body]


def expand(items: list[Item]) -> tuple[list[Item], list[int]]:
    """The items of the plain file, and for each the place of the item that it comes from; or Refused."""
    types = Types(items)
    for k, item in enumerate(items):
        for code, fails in CODES:
            if fails(item.body, types):
                raise Refused(k + 1, item.line, code)
    written = [(Item(item.line, body), k) for k, item in enumerate(items)
               for body in bodies_written_out(item.body, types)]
    return [item for item, _ in written], [k for _, k in written]
