"""How long an event can still matter: the lives of event types, inferred from the rules' temporal tests.

After Walzer, Breddin and Groch (DEBS 2008) and the chapter on memory management of the Drools Fusion 5 User Guide; the
bounds are those of simple temporal networks (Dechter, Meiri, Pearl 1991). All patterns are named by their place in the
rule.
"""

from __future__ import annotations

from typing import Any

from . import temporal
from .program import Program, TypeInfo
from .temporal import A_END, A_START, B_END, B_START, INFINITE, Edge, Network
from .trees import Condition, LengthWindow, Plain, Rule, Temporal, TimeWindow

NOTHING = None


def is_event(condition: Condition, types: dict[str, TypeInfo]) -> bool:
    return types[condition.source.type].event


def positive_events(rule: Rule, types: dict[str, TypeInfo], end: int) -> list[int]:
    """The places of the positive event patterns among the first `end` conditions."""
    return [k for k in range(end) if isinstance(rule.conditions[k], Plain) and is_event(rule.conditions[k], types)]


def place_of_variable(rule: Rule, variable: str) -> int:
    """The place of the positive pattern that binds the variable to its fact."""
    return next(k for k, c in enumerate(rule.conditions) if isinstance(c, Plain) and c.source.variable == variable)


def network_edges(rule: Rule, types: dict[str, TypeInfo], places: set[int]) -> list[Edge]:
    """Over two points of each event condition, the edges of the operators among them, and what starts and ends are."""
    edges: list[Edge] = []
    for k in sorted(places):
        info = types[rule.conditions[k].source.type]
        edges += temporal.event_edges((k, "s"), (k, "e"), info.duration is None)
        for part in rule.conditions[k].source.parts:
            if isinstance(part, Temporal):
                other = place_of_variable(rule, part.other)
                names = {A_START: (k, "s"), A_END: (k, "e"), B_START: (other, "s"), B_END: (other, "e")}
                if other in places:
                    edges += [(names[x], names[y], most)
                              for x, y, most in temporal.edges(part.operator, part.parameters)]
    return edges


def network(rule: Rule, types: dict[str, TypeInfo], places: set[int]) -> Network:
    return Network([(k, point) for k in places for point in "se"], network_edges(rule, types, places))


def network_of_positives(rule: Rule, types: dict[str, TypeInfo]) -> Network:
    return network(rule, types, set(positive_events(rule, types, len(rule.conditions))))


def network_places(rule: Rule, types: dict[str, TypeInfo], i: int, j: int) -> set[int]:
    """The conditions of the network for i and j: the positive event patterns, for an i that is none those before it,
    and both."""
    seen = len(rule.conditions) if isinstance(rule.conditions[i], Plain) else i
    return set(positive_events(rule, types, seen)) | {i, j}


def reach(rule: Rule, types: dict[str, TypeInfo], i: int, j: int) -> Any:
    """The greatest start of j less the end of i over all solutions; INFINITE, or NOTHING where there is no solution."""
    solved = network(rule, types, network_places(rule, types, i, j))
    return solved.bound((j, "s"), (i, "e")) if solved.solvable else NOTHING


def tail(condition: Condition, program: Program) -> float:
    """How long after its start a fact of the condition can come in or still count."""
    info, source = program.types[condition.source.type], condition.source
    if not info.event or isinstance(source.window, LengthWindow):
        return INFINITE
    window = source.window.length if isinstance(source.window, TimeWindow) else 0
    return max(program.latenesses[source.entry or "DEFAULT"], window, info.expires or 0)


def places_run_over(rule: Rule, types: dict[str, TypeInfo], i: int) -> list[int]:
    """The conditions whose facts may still meet an event of i: all of them for a positive pattern, else i and those
    before it. Reference facts are there before any event, and so are none of these."""
    end = len(rule.conditions) if isinstance(rule.conditions[i], Plain) else i + 1
    return [j for j in range(end) if not types[rule.conditions[j].source.type].reference]


def life_of_pattern(rule: Rule, program: Program, i: int) -> Any:
    """The life of an event pattern whose type has no explicit expiry."""
    window = rule.conditions[i].source.window
    if isinstance(window, TimeWindow):
        return window.length
    if isinstance(window, LengthWindow):
        return INFINITE
    others = places_run_over(rule, program.types, i)
    if any(not is_event(rule.conditions[j], program.types) for j in others):
        return INFINITE
    reaches = [(reach(rule, program.types, i, j), tail(rule.conditions[j], program)) for j in others]
    return max([r + t for r, t in reaches if r is not NOTHING], default=0)


def life_of_type(program: Program, name: str) -> Any:
    """The greatest of 0 and the lives of the type's patterns in all rules."""
    return max([0] + [life_of_pattern(rule, program, i) for rule in program.rules
                      for i, c in enumerate(rule.conditions) if c.source.type == name])


def life_lines(program: Program) -> list[str]:
    """The lines of the mode lives."""
    lines = []
    for info in program.types.values():
        if info.event and info.expires is not None:
            lines.append(f"life {info.name} explicit {info.expires}")
        elif info.event:
            life = life_of_type(program, info.name)
            lines.append(f"life {info.name} {'infinite' if life == INFINITE else life}")
    return lines
