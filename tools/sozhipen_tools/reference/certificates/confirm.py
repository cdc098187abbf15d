"""Confirms certificates of lives, on its own: of how lives are found nothing is taken but the edges of a rule's
network.

Each step of it adds up and compares. Where certificates are good, all times that pass the temporal tests of a rule keep
each bound that a life rests on: along a path the bounds of its edges add up, and round a cycle they leave no times at
all.
"""

from __future__ import annotations

import re
from dataclasses import dataclass
from typing import Optional

from ..meaning.answers import quoted
from ..meaning.lives import network_edges
from ..meaning.program import DEFAULT, Program
from ..meaning.temporal import Edge
from ..meaning.trees import LengthWindow, Plain, Rule, TimeWindow


@dataclass(frozen=True)
class Life:
    """What is said of a type: that it is plain, has an explicit expiry, an infinite life, or a finite one."""
    kind: str
    value: int = 0

    @staticmethod
    def plain() -> "Life":
        return Life("plain")

    @staticmethod
    def explicit(value: int) -> "Life":
        return Life("explicit", value)

    @staticmethod
    def infinite() -> "Life":
        return Life("infinite")

    @staticmethod
    def finite(value: int) -> "Life":
        return Life("finite", value)


Table = dict[str, Life]


@dataclass(frozen=True)
class Part:
    """Of a rule, for the condition i and the condition j: the edges of a path, or of a cycle. Points are `(place,
    "s")`, `(place, "e")`."""
    rule: int
    i: int
    j: int
    cycle: bool
    edges: tuple[Edge, ...]

    @property
    def total(self) -> int:
        return sum(bound for _, _, bound in self.edges)


# ---- what is asked for


def is_event(rule: Rule, program: Program, k: int) -> bool:
    return program.types[rule.conditions[k].source.type].event


def asked(program: Program, table: Table) -> list[tuple[int, int, int]]:
    """The rule, the condition i and the condition j of each part, in their order."""
    found = []
    for k, rule in enumerate(program.rules):
        for i, c in enumerate(rule.conditions):
            if table[c.source.type].kind == "finite" and not isinstance(c.source.window, TimeWindow):
                end = len(rule.conditions) if isinstance(c, Plain) else i + 1
                found += [(k, i, j) for j in range(end) if not program.types[rule.conditions[j].source.type].reference]
    return found


def edges_of_part(program: Program, part: Part) -> list[Edge]:
    """Those among the positive event patterns, for an i that is none those before it, and i and j."""
    rule = program.rules[part.rule]
    end = len(rule.conditions) if isinstance(rule.conditions[part.i], Plain) else part.i
    places = {k for k in range(end) if isinstance(rule.conditions[k], Plain) and is_event(rule, program, k)}
    return network_edges(rule, program.types, places | {part.i, part.j})


def tail_of_part(program: Program, part: Part) -> Optional[int]:
    """How long after its start an event of j can come in or still count, None where there is no end."""
    source = program.rules[part.rule].conditions[part.j].source
    info = program.types[source.type]
    if not info.event or isinstance(source.window, LengthWindow):
        return None
    return max(program.latenesses[source.entry or DEFAULT], source.window.length if source.window else 0,
               info.expires or 0)


# ---- what is good


def is_good_table(program: Program, table: Table) -> bool:
    """Each type has a life that is none other's, and no finite life is below 0 or a window of its type."""
    if list(table) != list(program.types):
        return False
    for name, info in program.types.items():
        wanted = Life.plain() if not info.event else None if info.expires is None else Life.explicit(info.expires)
        if table[name] != wanted if wanted is not None else table[name].kind not in ("finite", "infinite"):
            return False
    finite = {name: life.value for name, life in table.items() if life.kind == "finite"}
    windows = [(c.source.type, c.source.window) for rule in program.rules for c in rule.conditions
               if c.source.window is not None]
    return all(n >= 0 for n in finite.values()) and not any(
        name in finite and (isinstance(w, LengthWindow) or w.length > finite[name]) for name, w in windows)


def is_chain(edges: tuple[Edge, ...]) -> bool:
    return bool(edges) and all(a[1] == b[0] for a, b in zip(edges, edges[1:]))


def is_good_part(program: Program, table: Table, part: Part) -> bool:
    """Its edges are the network's and lead from one to the next: from the start of j to the end of i, with a sum that
    leaves room for the tail within the life, or round to where they begin, with a sum below 0, where j is on an event
    type: a plain fact has no end."""
    network = set(edges_of_part(program, part))
    if not is_chain(part.edges) or not all(edge in network for edge in part.edges):
        return False
    first, last = part.edges[0][0], part.edges[-1][1]
    if part.cycle:
        return first == last and part.total < 0 and is_event(program.rules[part.rule], program, part.j)
    tail, life = tail_of_part(program, part), table[program.rules[part.rule].conditions[part.i].source.type].value
    return first == (part.j, "s") and last == (part.i, "e") and tail is not None and part.total + tail <= life


def confirm(program: Program, table: Table, parts: list[Part]) -> bool:
    """Whether the certificates are good, for these lives."""
    return (is_good_table(program, table) and [(p.rule, p.i, p.j) for p in parts] == asked(program, table)
            and all(is_good_part(program, table, part) for part in parts))


# ---- as text


def point_text(point: tuple[int, str]) -> str:
    return f"{point[1]}{point[0] + 1}"


def part_line(program: Program, part: Part) -> str:
    edges = "".join(f" {point_text(x)}-{point_text(y)}<={bound}" for x, y, bound in part.edges)
    tail = "" if part.cycle else f" tail {tail_of_part(program, part)}"
    return f"{part_head(program, part)}{' cycle' if part.cycle else ''}{edges} sum {part.total}{tail}"


def part_head(program: Program, part: Part) -> str:
    return f"proof {quoted(program.title(part.rule))} {part.i + 1} {part.j + 1}"


EDGE = re.compile(r" ([se])([1-9][0-9]*)-([se])([1-9][0-9]*)<=(-?[0-9]+)")


def part_of_line(program: Program, line: str, place: tuple[int, int, int]) -> Optional[Part]:
    """The part of this place that a line says, None where it says none, or its sum or tail is another."""
    head = part_head(program, Part(*place, False, ()))
    if not line.startswith(head + " "):
        return None
    body = line[len(head):]
    cycle = body.startswith(" cycle")
    edges = tuple(((int(k) - 1, a), (int(m) - 1, b), int(bound)) for a, k, b, m, bound in EDGE.findall(body))
    part = Part(*place, cycle, edges)
    return part if part_line(program, part) == line else None


def confirm_lines(program: Program, table: Table, lines: list[str]) -> bool:
    """Whether what a run in the mode proof printed is good: a line for each part that is asked for, and `confirmed`."""
    places = asked(program, table)
    if len(lines) != len(places) + 1 or lines[-1] != "confirmed":
        return False
    found = [part_of_line(program, line, place) for line, place in zip(lines, places)]
    parts = [part for part in found if part is not None]
    return len(parts) == len(found) and confirm(program, table, parts)
