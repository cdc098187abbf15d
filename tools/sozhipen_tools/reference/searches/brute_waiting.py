"""Holds the moment until which a negative pattern waits against brute force over small times.

    tools/run reference.searches.brute_waiting --seeds A B

A seed gives a negative pattern of one to three temporal tests that name one or two events, and the times of these
events. Its greatest possible start is taken by a network of bounds (`temporal.greatest_start`), and by going through
all starts and ends in a room about the events, by what an operator says of two events. The parameters are so small that
a greatest start lies within the room; one at its edge counts as none. Then the floors about that start are gone
through: the row is to be mature where no start from the floor on is possible.
"""

from __future__ import annotations

import sys
from collections import Counter
from random import Random
from typing import Any

from ...words import Parser
from ..meaning import temporal
from ..meaning.program import DEFAULT, Program, TypeInfo
from ..meaning.temporal import INFINITE, NEVER
from ..meaning.trees import Negated, Rule, Source, Temporal
from ..meaning.worlds import Fact, Row, World, is_mature

MOST_PARAMETER = 4
ROOM = 40


def random_source(rng: Random, variables: list[str]) -> Source:
    tests = []
    for _ in range(rng.choice([1, 1, 2, 3])):
        operator = rng.choice(temporal.OPERATORS + ("after", "before") * 4)
        low = -MOST_PARAMETER if operator in ("after", "before") else 0
        count = rng.choice(sorted(temporal.COUNTS[operator]))
        tests.append(Temporal(operator, tuple(rng.randint(low, MOST_PARAMETER) for _ in range(count)),
                              rng.choice(variables)))
    return Source(None, rng.choice(["Point", "Lasting"]), tuple(tests), None, rng.choice([None, "X"]))


def random_row(rng: Random, variables: list[str]) -> Row:
    names = {}
    for k, variable in enumerate(variables):
        start = rng.randint(0, 6)
        names[variable] = Fact(k + 1, k + 1, "Lasting", DEFAULT, {}, start, start + rng.choice([0, 1, 2, 5]))
    return Row(tuple(names.values()), names)


def searched_starts(source: Source, row: Row) -> list[int]:
    """The starts in the room at which an event that satisfies all tests can start."""
    found = []
    for start in range(-ROOM, ROOM + 1):
        for end in range(start, start + 1 if source.type == "Point" else ROOM + 1):
            if all(temporal.holds(t.operator, t.parameters, (start, end),
                                  (row.names[t.other].start, row.names[t.other].end))
                   for t in source.temporal_tests):
                found.append(start)
                break
    return found


def searched_greatest(starts: list[int]) -> Any:
    if not starts:
        return NEVER
    return INFINITE if starts[-1] == ROOM else starts[-1]


def world_with(source: Source, floor: int, rng: Random) -> World:
    """A world in which the floor of the source's entry point is this one, by its last start, its promise or the
    clock."""
    types = {"Point": TypeInfo("Point", True, {}, None, None, None),
             "Lasting": TypeInfo("Lasting", True, {"len": "Int"}, None, "len", None)}
    entry, lateness = source.entry or DEFAULT, rng.randint(0, 3)
    program = Program(types, {DEFAULT: lateness, "X": lateness}, [Rule("r", (), (Negated(source),), ())], set())
    by = rng.choice(["clock", "promise", "last start"])
    clock = floor + lateness if by == "clock" else rng.randint(max(0, floor) if by == "last start" else 0,
                                                               max(floor + lateness, 0))
    lower = rng.randint(0, max(floor, 0))
    return World(program, (), clock, {entry: floor if by == "last start" else min(lower, clock)},
                 {entry: floor if by == "promise" else lower})


def differs(seed: int, counts: Counter) -> str:
    """What differs for a seed, or nothing."""
    rng = Random(f"waiting/{seed}")
    variables = ["a", "b"][: rng.choice([1, 2])]
    source, row = random_source(rng, variables), random_row(rng, variables)
    starts = searched_starts(source, row)
    greatest = searched_greatest(starts)
    given = temporal.greatest_start([(t.operator, t.parameters, (row.names[t.other].start, row.names[t.other].end))
                                     for t in source.temporal_tests], source.type == "Point")
    counts["never" if greatest == NEVER else "open" if greatest == INFINITE else "last"] += 1
    if given != greatest:
        return f"by bounds {given}, searched {greatest} for {source} and {row}"
    about = greatest if isinstance(greatest, int) else 5
    for floor in range(max(0, about - 2), max(0, about) + 3):
        w = world_with(source, floor, rng)
        waits = isinstance(greatest, int) and any(s >= floor for s in starts)
        if is_mature(source, row, w) == waits:
            return f"at the floor {floor} of {w} mature is {not waits} by the search, for {source} and {row}"
    return ""


def main() -> int:
    parser = Parser(description="Holds how long a negative pattern waits against brute force over small times.")
    parser.add_argument("--seeds", type=int, nargs=2, default=(0, 1000), metavar=("A", "B"), help="from A up to B - 1")
    asked = parser.parse_args()
    counts: Counter = Counter()
    wrong = [(seed, said) for seed in range(*asked.seeds) if (said := differs(seed, counts))]
    for seed, said in wrong:
        print(f"seed {seed}: {said}")
    count = asked.seeds[1] - asked.seeds[0]
    print(f"{count - len(wrong)} of {count} patterns agreed: {counts['last']} wait up to a last start, "
          f"{counts['open']} are open, "
          f"{counts['never']} have no possible event")
    return 0 if not wrong else 1


if __name__ == "__main__":
    sys.exit(main())
