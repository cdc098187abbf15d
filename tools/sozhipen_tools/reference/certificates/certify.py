"""Certificates of lives: for each bound that a finite life rests on, a path of edges that gives it.

A life rests on how far behind the end of an event, of condition i, each other one, of condition j, may start. Where the
temporal tests let this be, a path from the start of j to the end of i bounds it by the sum of its edges: one of least
sum, and of these one of fewest edges. Where no times pass the tests, a cycle of edges with a sum below 0 tells it.
"""

from __future__ import annotations

from typing import Iterator, Optional

from ..meaning.keeping import lives_of
from ..meaning.lives import network_edges, network_places, places_run_over
from ..meaning.program import Program
from ..meaning.temporal import INFINITE, Edge, Point
from ..meaning.trees import TimeWindow
from .confirm import Life, Part, Table, confirm, part_line


def table_of(program: Program) -> Table:
    """The life of each type."""
    lives = lives_of(program)
    return {t.name: Life.plain() if not t.event else Life.explicit(t.expires) if t.expires is not None
            else Life.infinite() if lives[t.name] == INFINITE else Life.finite(int(lives[t.name]))
            for t in program.types.values()}


def walks(edges: list[Edge], start: Point, most: int) -> Iterator[dict]:
    """By the number of edges, from 1 up, the least sum of a walk from a point to each point that is reached, with the
    walk."""
    found = {start: (0, ())}
    for _ in range(most):
        longer: dict = {}
        for x, y, bound in edges:
            if x in found:
                total, walk = found[x]
                if y not in longer or total + bound < longer[y][0]:
                    longer[y] = (total + bound, walk + ((x, y, bound),))
        yield longer
        found = longer


def shortest_path(edges: list[Edge], x: Point, y: Point) -> tuple[Edge, ...]:
    """Of the paths from x to y of least sum one of fewest edges. A path goes through no point twice."""
    points = len({point for edge in edges for point in edge[:2]})
    best: Optional[tuple[int, tuple[Edge, ...]]] = None
    for reached in walks(edges, x, points):
        if y in reached and (best is None or reached[y][0] < best[0]):
            best = reached[y]
    assert best is not None, "the bound is finite, so there is a path"
    return best[1]


def negative_cycle(edges: list[Edge]) -> Optional[tuple[Edge, ...]]:
    """A cycle of fewest edges whose sum is below 0, from its last point on, None where there is none."""
    points = sorted({point for edge in edges for point in edge[:2]}, key=lambda point: (point[0], point[1] == "e"),
                    reverse=True)
    by_start = {point: walks(edges, point, len(points)) for point in points}
    for _ in points:
        for point, reached in [(point, next(by_start[point])) for point in points]:
            if point in reached and reached[point][0] < 0:
                return reached[point][1]
    return None


def certify(program: Program) -> list[Part]:
    """A part for each rule, each condition i on a type of a finite life that has no window, and each j that it runs
    over."""
    parts, lives = [], lives_of(program)
    for k, rule in enumerate(program.rules):
        for i, condition in enumerate(rule.conditions):
            if (lives.get(condition.source.type, INFINITE) == INFINITE
                or isinstance(condition.source.window, TimeWindow)):
                continue
            for j in places_run_over(rule, program.types, i):
                edges = network_edges(rule, program.types, network_places(rule, program.types, i, j))
                cycle = negative_cycle(edges)
                path = shortest_path(edges, (j, "s"), (i, "e")) if cycle is None else cycle
                parts.append(Part(k, i, j, cycle is not None, path))
    return parts


def proof_lines(program: Program) -> list[str]:
    """The lines of the mode proof: the certificates, which were confirmed."""
    parts = certify(program)
    assert confirm(program, table_of(program), parts), "certificates are good"
    return [part_line(program, part) for part in parts] + ["confirmed"]
