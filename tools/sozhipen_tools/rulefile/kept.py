"""Why the events of a type are kept as long as they are: the rule and the condition that ask for it."""

from __future__ import annotations

from dataclasses import dataclass
from typing import Optional, Union

from ..reference.meaning import lives
from ..reference.meaning.program import Program
from ..reference.meaning.temporal import INFINITE
from ..reference.meaning.trees import LengthWindow, Rule, TimeWindow


@dataclass(frozen=True)
class Reason:
    """A condition of a rule, by their places, that asks for the whole life of a type; why, in words; the plain type
    that it is for; whether a window of length is, so that a bound would not help."""
    rule: int
    condition: int
    why: str
    plain: Optional[str] = None
    by_length: bool = False


def span(milliseconds: Union[int, float]) -> str:
    """A time as rule files write it."""
    left, text = int(milliseconds), ""
    for unit, length in (("d", 86_400_000), ("h", 3_600_000), ("m", 60_000), ("s", 1_000), ("ms", 1)):
        count, left = divmod(left, length)
        text += f"{count}{unit}" if count else ""
    return text or "0s"


def why_for_ever(rule: Rule, program: Program, i: int) -> tuple[str, Optional[str], bool]:
    """What makes the life of a pattern infinite, the plain type that does, and whether a window of length does."""
    condition = rule.conditions[i]
    if isinstance(condition.source.window, LengthWindow):
        return ("an event leaves a window of length only when others come, and the type is kept as a whole, also what "
                "has left it"), None, True
    for j in (j for j in lives.places_run_over(rule, program.types, i) if j != i):
        other = rule.conditions[j].source
        if not lives.is_event(rule.conditions[j], program.types):
            return (f"condition {j + 1} is of the plain type `{other.type}`, of which a fact may come or change at any "
                    "time", other.type, False)
        if isinstance(other.window, LengthWindow):
            return f"condition {j + 1} has a window of length, which an event leaves only when others come", None, True
        if lives.reach(rule, program.types, i, j) == INFINITE:
            return (f"no temporal test bounds how long after it `{other.type}` of condition {j + 1} may start", None,
                    False)
    return "its own entry point or window has no bound", None, False


def why_so_long(rule: Rule, program: Program, i: int, life: Union[int, float]) -> str:
    """What makes the life of a pattern this long."""
    condition = rule.conditions[i]
    if isinstance(condition.source.window, TimeWindow):
        return f"its window of {span(condition.source.window.length)}"
    for j in lives.places_run_over(rule, program.types, i):
        reach, tail = lives.reach(rule, program.types, i, j), lives.tail(rule.conditions[j], program)
        if reach is not lives.NOTHING and reach + tail == life:
            other = rule.conditions[j].source.type
            return (f"`{other}` of condition {j + 1} may start {span(max(reach, 0))} after it"
                    + (f", and come or count {span(tail)} later" if tail else ""))
    return "nothing can come that joins it"


def reasons(program: Program, name: str) -> list[Reason]:
    """All conditions whose pattern asks for the life of the type: for a finite one at least one."""
    life = lives.life_of_type(program, name)
    found = []
    for k, rule in enumerate(program.rules):
        for i, condition in enumerate(rule.conditions):
            if condition.source.type == name and lives.life_of_pattern(rule, program, i) == life:
                why = (why_for_ever(rule, program, i) if life == INFINITE
                       else (why_so_long(rule, program, i, life), None, False))
                found.append(Reason(k, i, *why))
    return found


def life_text(program: Program, name: str) -> Optional[str]:
    """The life of a type of events in words; None for a plain type."""
    info = program.types[name]
    if not info.event:
        return None
    if info.expires is not None:
        return f"{span(info.expires)} from its start, by its @expires"
    life = lives.life_of_type(program, name)
    return "for ever" if life == INFINITE else f"{span(life)} after its end"
