"""The thirteen temporal operators, and networks of bounds on differences of points.

The words are those of the Drools Fusion 5 User Guide ("Temporal Reasoning"); the rows with parameters, and the exchange
of the two parameters of `after` and `before`, are this project's own. In the table A is the tested event, B the one
that the variable names; each row is a list of edges `x - y <= most` on the points A.s, A.e, B.s, B.e. Networks of such
edges are those of Dechter, Meiri and Pearl, "Temporal constraint networks" (1991).
"""

from __future__ import annotations

from functools import lru_cache
from typing import Any, Iterable, Optional

# A corner of an operator, or the start or the end of a condition's event.
Point = Any
Edge = tuple[Point, Point, int]

A_START, A_END, B_START, B_END = "A.s", "A.e", "B.s", "B.e"

OPERATORS = ("after", "before", "coincides", "during", "includes", "finishes", "finishedby", "starts", "startedby",
             "meets", "metby", "overlaps", "overlappedby")

# How many parameters an operator may have.
COUNTS = {"after": {0, 1, 2}, "before": {0, 1, 2}, "coincides": {0, 1, 2}, "during": {0, 1, 2, 4},
          "includes": {0, 1, 2, 4}, "finishes": {0, 1}, "finishedby": {0, 1}, "starts": {0, 1}, "startedby": {0, 1},
          "meets": {0, 1}, "metby": {0, 1}, "overlaps": {0, 1, 2}, "overlappedby": {0, 1, 2}}

EXCHANGED = {A_START: B_START, A_END: B_END, B_START: A_START, B_END: A_END}

# The operators that are others with A and B exchanged.
CONVERSES = {"includes": "during", "overlappedby": "overlaps"}


def at_most(x: Point, y: Point, most: int) -> Edge:
    return (x, y, most)


def between(low: int, x: Point, y: Point, high: int) -> list[Edge]:
    """low <= x - y <= high"""
    return [(y, x, -low), (x, y, high)]


def near(x: Point, y: Point, v: int) -> list[Edge]:
    """|x - y| <= v"""
    return [(x, y, v), (y, x, v)]


def before(x: Point, y: Point) -> list[Edge]:
    """x < y, over whole numbers"""
    return [(x, y, -1)]


def distance(later: Point, earlier: Point, parameters: tuple[int, ...]) -> list[Edge]:
    """The rows of `after` and `before`: how far `later` lies behind `earlier`."""
    if len(parameters) == 2:
        return between(min(parameters), later, earlier, max(parameters))
    least = parameters[0] if parameters else 1
    return [(earlier, later, -least)]


def during(p: tuple[int, ...]) -> list[Edge]:
    if not p:
        return before(B_START, A_START) + before(A_END, B_END)
    if len(p) == 1:
        starts, ends = (1, p[0]), (1, p[0])
    else:
        starts, ends = (p[0], p[1]), (p[-2], p[-1])
    return between(starts[0], A_START, B_START, starts[1]) + between(ends[0], B_END, A_END, ends[1])


def overlaps(p: tuple[int, ...]) -> list[Edge]:
    row = before(A_START, B_START) + before(B_START, A_END) + before(A_END, B_END)
    if len(p) == 1:
        row += between(0, A_END, B_START, p[0])
    elif p:
        row += between(p[0], A_END, B_START, p[1])
    return row


@lru_cache(maxsize=None)
def edges(operator: str, p: tuple[int, ...]) -> list[Edge]:
    """The edges of an operator with accepted parameters."""
    if operator in CONVERSES:
        return [(EXCHANGED[x], EXCHANGED[y], most) for x, y, most in edges(CONVERSES[operator], p)]
    v = p[0] if p else 0
    if operator == "after":
        return distance(A_START, B_END, p)
    if operator == "before":
        return distance(B_START, A_END, p)
    if operator == "coincides":
        return near(A_START, B_START, v) + near(A_END, B_END, p[-1] if p else 0)
    if operator == "during":
        return during(p)
    if operator == "finishes":
        return before(B_START, A_START) + near(A_END, B_END, v)
    if operator == "finishedby":
        return before(A_START, B_START) + near(A_END, B_END, v)
    if operator == "starts":
        return near(A_START, B_START, v) + before(A_END, B_END)
    if operator == "startedby":
        return near(A_START, B_START, v) + before(B_END, A_END)
    if operator == "meets":
        return near(A_END, B_START, v)
    if operator == "metby":
        return near(A_START, B_END, v)
    return overlaps(p)


def are_refused(operator: str, p: tuple[int, ...]) -> bool:
    """No row has so many parameters, or one is negative though the operator is neither after nor before."""
    return len(p) not in COUNTS[operator] or (operator not in ("after", "before") and any(v < 0 for v in p))


def holds(operator: str, p: tuple[int, ...], a: tuple[int, int], b: tuple[int, int]) -> bool:
    """Whether the operator holds of A with start and end `a` and B with start and end `b`."""
    point = {A_START: a[0], A_END: a[1], B_START: b[0], B_END: b[1]}
    return all(point[x] - point[y] <= most for x, y, most in edges(operator, p))


INFINITE = float("inf")


class Network:
    """All least upper bounds of a network of edges; `solvable` is false where no whole numbers satisfy all edges.

    `bound(x, y)` is the greatest `x - y` over all solutions, INFINITE where there is no greatest: the length of a
    shortest path, which some solution attains.
    """

    def __init__(self, points: Iterable[Point], edges_given: Iterable[Edge]):
        names = list(points)
        best = {(x, y): (0 if x == y else INFINITE) for x in names for y in names}
        for x, y, most in edges_given:
            best[x, y] = min(best[x, y], most)
        for via in names:
            for x in names:
                for y in names:
                    best[x, y] = min(best[x, y], best[x, via] + best[via, y])
        self.best = best
        self.solvable = all(best[x, x] >= 0 for x in names)

    def bound(self, x: Point, y: Point) -> Any:
        return self.best[x, y]


def event_edges(start: Point, end: Point, point: bool) -> list[Edge]:
    """A start is not behind its end; both are one where the type has no duration."""
    return [(start, end, 0)] + ([(end, start, 0)] if point else [])


NEVER = "never"


# An operator, its parameters, and the times of the event that it names.
Timed = tuple[str, tuple[int, ...], tuple[int, int]]


@lru_cache(maxsize=100_000)
def start_bounds(tests: tuple[Timed, ...], point: bool) -> Optional[tuple[float, float]]:
    """The least and the greatest start of a possible event that satisfies all tests: numbers, -INFINITE and INFINITE
    where there is none least or greatest; None where no event is possible."""
    zero = "0"
    bounds: list[Edge] = event_edges(A_START, A_END, point)
    for operator, parameters, (start, end) in tests:
        given = {B_START: start, B_END: end}
        for x, y, most in edges(operator, parameters):
            # The points of B are numbers: x - b <= most is x - 0 <= most + b, and so on.
            shift = given.get(y, 0) - given.get(x, 0)
            bounds.append((zero if x in given else x, zero if y in given else y, most + shift))
    network = Network([zero, A_START, A_END], bounds)
    return (-network.bound(zero, A_START), network.bound(A_START, zero)) if network.solvable else None


def greatest_start(tests: Iterable[Timed], point: bool) -> Any:
    """The greatest start of a possible event that satisfies all tests: a number, INFINITE where there is none greatest,
    NEVER where no event is possible."""
    bounds = start_bounds(tuple(tests), point)
    return NEVER if bounds is None else bounds[1]
