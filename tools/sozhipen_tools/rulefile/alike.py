"""What conditions say whatever their variables are called: two of one form find the same."""

from __future__ import annotations

from typing import Any

from ..reference.meaning.trees import (AnyOf, Bind, Condition, FieldOf, Folded, OneOf, Rule, Source, Temporal, Variable,
                                       operands_of)

# What a variable stands for: the place of its condition, and the field, or nothing where it is the fact or the result.
Meaning = tuple[int, str]
Names = dict[str, Meaning]


def forms_of(rule: Rule) -> list[Any]:
    """The form of each condition, in their order."""
    names: Names = {}
    forms = []
    for place, condition in enumerate(rule.conditions):
        forms.append(form_of(condition, place, names))
    return forms


def form_of(condition: Condition, place: int, names: Names) -> Any:
    """The form of a condition, whose variables become known."""
    source = condition.source
    names.update({part.variable: (place, part.field) for part in source.binds})
    if source.variable is not None:
        names[source.variable] = (place, "")
    form = (type(condition).__name__, form_of_source(source, names))
    if not isinstance(condition, Folded):
        return form
    if condition.result is not None:
        names[condition.result] = (place, "")
    tests = tuple((relation, form_of_operand(operand, names)) for relation, operand in condition.tests)
    return (*form, condition.function, names.get(condition.argument), tests)


def form_of_source(source: Source, names: Names) -> Any:
    """Tests stand in no order; what a pattern binds is no part of its form."""
    parts = [form_of_part(part, names) for part in source.parts if not isinstance(part, Bind)]
    return source.type, source.entry or "DEFAULT", source.window, frozenset(parts)


def form_of_part(part: Any, names: Names) -> Any:
    if isinstance(part, Temporal):
        return part.operator, part.parameters, names.get(part.other)
    assert isinstance(part, AnyOf), "it binds nothing"
    return tuple(tuple((c.field, "in" if isinstance(c, OneOf) else c.relation,
                        tuple(form_of_operand(o, names) for o in operands_of(c))) for c in group)
                 for group in part.groups)


def form_of_operand(operand: Any, names: Names) -> Any:
    if isinstance(operand, Variable):
        return names.get(operand.name)
    if isinstance(operand, FieldOf):
        return names.get(operand.variable, (-1, ""))[0], operand.field
    return operand
