"""What steps and firings do to a world, and what they answer."""

from __future__ import annotations

from typing import Any, Optional

from .answers import Answer, Faulted, Fired, Inserted, Modified, Retracted
from .program import DEFAULT
from .trees import Action, Binary, Expr, Insert, Modify, Negate
from .worlds import (INT_HIGH, INT_LOW, Insertion, Match, Modification, Names, Retraction, Row, Step, World, after_step,
                     fact_with, step_fault, value_of)

# ---- steps


def done(step: Step, w: World) -> tuple[list[Answer], World]:
    """What a step without a fault answers, and the world behind it."""
    after = after_step(step, w)
    if isinstance(step, Insertion):
        return [Inserted(after.facts[-1])], after
    if isinstance(step, Modification):
        newer = fact_with(step.type, step.id, after)
        assert newer is not None, "a step without a fault"
        return [Modified(newer)], after
    return [Retracted(step.type, step.id)] if isinstance(step, Retraction) else [], after


# ---- actions


class Overflow(Exception):
    """The value of an expression or of a part of it lies outside 64 bits."""


def number_of(n: int) -> int:
    if not INT_LOW <= n <= INT_HIGH:
        raise Overflow
    return n


def expression_value(e: Expr, names: Names) -> Any:
    """The value over whole numbers, or Overflow."""
    if isinstance(e, Negate):
        return number_of(-expression_value(e.inner, names))
    if isinstance(e, Binary):
        left, right = expression_value(e.left, names), expression_value(e.right, names)
        return number_of(left + right if e.sign == "+" else left - right if e.sign == "-" else left * right)
    return value_of(e, names, None)


def planned(action: Action, row: Row, w: World) -> Optional[Step]:
    """The step of an action with the values of the row, None where one of its expressions overflows."""
    try:
        if isinstance(action, Insert):
            values = [expression_value(e, row.names) for e in action.values]
            return Insertion(action.type, DEFAULT, dict(zip(w.program.types[action.type].fields, values)))
        f = row.names[action.variable]
        if isinstance(action, Modify):
            return Modification(f.id, f.type, {name: expression_value(e, row.names) for name, e in action.sets})
        return Retraction(f.id, f.type)
    except Overflow:
        return None


# ---- firings


def firing(m: Match, w: World) -> tuple[list[Answer], World]:
    """Marks the match as fired, and does its rule's actions in order, each as a step of the world at that moment.

    All expressions have the values of the row as the firing began. A faulty action answers its fault and changes
    nothing."""
    answers: list[Answer] = [Fired(m, w)]
    steps = [planned(action, m.row, w) for action in w.program.rules[m.rule].actions]
    w = w.with_fired(w.fired | {m.key})
    for step in steps:
        fault = "Overflow" if step is None else step_fault(step, w)
        if step is None or fault is not None:
            answers.append(Faulted(str(fault)))
        else:
            told, w = done(step, w)
            answers += told
    return answers, w
