"""Holds the inference of lives (meaning.lives) against brute force over small times.

    tools/run reference.searches.brute_lives --seeds A B

A seed gives a program of one or two rules over small spans: up to eight conditions on events that are points, or up to
three of which some last; some stand in `not`, `exists` or an accumulate, some under a window, on a plain type, on one
of reference facts, or on one with an expiry. The table of lives is taken twice: with the reach that a network of bounds
gives, and with one that is searched for. There one event ends at 0, the other starts at each distance from the greatest
down, and all events of the network take whole starts and ends in a room about them, by what an operator says of two
events (`temporal.holds`) and by no bound or path. The spans are so small that a finite reach stays in the room; one
that gets to its edge counts as infinite.
"""

from __future__ import annotations

import sys
from functools import lru_cache
from random import Random
from typing import Any, Callable, Iterator, Optional

from ...words import Parser
from ..meaning import lives, temporal
from ..meaning.program import Program, TypeInfo
from ..meaning.temporal import INFINITE
from ..meaning.trees import (Condition, Existing, Folded, LengthWindow, Negated, Plain, Rule, Source, Temporal,
                             TimeWindow, Window)

Span = tuple[int, int]
Domains = dict[int, int]  # for each place the spans that are left, as bits

TYPES = {
    "Point": TypeInfo("Point", True, {}, None, None, None),
    "Lasting": TypeInfo("Lasting", True, {"len": "Int"}, None, "len", None),
    "Expiring": TypeInfo("Expiring", True, {}, None, None, 2),
    "Fact": TypeInfo("Fact", False, {}, None, None, None),
    "Reference": TypeInfo("Reference", False, {}, None, None, None, True),
}
LATENESSES = {"DEFAULT": 0, "late": 3}


# ---- random programs


def random_test(rng: Random, other: str) -> Temporal:
    operator = rng.choice(sorted(temporal.COUNTS) + ["after", "before"] * 6)
    counts = sorted(temporal.COUNTS[operator])
    count = counts[-1] if rng.random() < 0.8 else rng.choice(counts)  # mostly bounded on both sides
    return Temporal(operator, tuple(rng.randint(0, 1) for _ in range(count)), other)


def random_rule(rng: Random, name: str) -> Rule:
    lasting = rng.random() < 0.4
    count = rng.randint(1, 3 if lasting else 8)
    conditions: list[Condition] = []
    bound: list[str] = []
    for k in range(count):
        kind = rng.choices(["Point", "Lasting" if lasting else "Point", "Expiring", "Fact", "Reference"],
                           [6, 6, 2, 0.1, 1])[0]
        event = TYPES[kind].event
        tests = ([random_test(rng, rng.choice(bound)) for _ in range(rng.choice([1, 1, 1, 2]))] if event and bound
                 else [])
        windows: list[Optional[Window]] = [None] * 20
        windows += [TimeWindow(4), LengthWindow(2)]
        window = rng.choice(windows) if event else None
        source = Source(f"v{k}", kind, tuple(tests), window, rng.choice([None, None, "late"]))
        sort = rng.choices(["plain", "not", "exists", "fold"], [6, 1, 1, 1])[0]
        if sort == "plain":
            conditions.append(Plain(source))
            bound += [f"v{k}"] if event else []
        elif sort == "fold":
            conditions.append(Folded(None, source, "count", f"v{k}", ()))
        else:
            conditions.append(Negated(source) if sort == "not" else Existing(source))
    return Rule(name, (), tuple(conditions), ())


def random_program(seed: int) -> Program:
    rng = Random(f"lives/{seed}")
    return Program(TYPES, LATENESSES, [random_rule(rng, f"r{k}") for k in range(rng.randint(1, 2))], set())


# ---- the search


@lru_cache(maxsize=None)
def spans(room: int, point: bool) -> tuple[Span, ...]:
    return tuple((s, e) for s in range(-room, room + 1) for e in (range(s, s + 1) if point else range(s, room + 1)))


@lru_cache(maxsize=None)
def allowed(room: int, operator: str, parameters: tuple[int, ...], a_point: bool,
            b_point: bool) -> tuple[list[int], list[int]]:
    """For each span of A the spans of B of which the operator holds, as bits, and the other way round."""
    of_a, of_b = [0] * len(spans(room, a_point)), [0] * len(spans(room, b_point))
    for i, a in enumerate(spans(room, a_point)):
        for j, b in enumerate(spans(room, b_point)):
            if temporal.holds(operator, parameters, a, b):
                of_a[i] |= 1 << j
                of_b[j] |= 1 << i
    return of_a, of_b


def bits(mask: int) -> Iterator[int]:
    while mask:
        low = mask & -mask
        yield low.bit_length() - 1
        mask ^= low


def kept(tables: list[tuple[int, int, list[int]]], domains: Domains) -> Optional[Domains]:
    """The spans that have a partner across each test; nothing where an event has none left."""
    domains, changed = dict(domains), True
    while changed:
        changed = False
        for a, b, of_a in tables:
            left = sum(1 << i for i in bits(domains[a]) if of_a[i] & domains[b])
            if left != domains[a]:
                domains[a], changed = left, True
            if not left:
                return None
    return domains


def has_solution(tables: list[tuple[int, int, list[int]]], domains: Domains) -> bool:
    left = kept(tables, domains)
    if left is None:
        return False
    open_places = [k for k, mask in left.items() if mask & (mask - 1)]
    if not open_places:
        return True
    domains = left
    k = min(open_places, key=lambda place: bin(domains[place]).count("1"))
    return any(has_solution(tables, {**domains, k: 1 << value}) for value in bits(domains[k]))


def searched_reach(rule: Rule, types: dict[str, TypeInfo], i: int, j: int) -> Any:
    """The greatest start of j behind the end of i, INFINITE where it gets to the edge of the room, NOTHING where there
    is no solution."""
    seen = len(rule.conditions) if isinstance(rule.conditions[i], Plain) else i
    places = set(lives.positive_events(rule, types, seen)) | {i, j}
    point = {k: types[rule.conditions[k].source.type].duration is None for k in places}
    tests = [(k, lives.place_of_variable(rule, t.other), t) for k in places
             for t in rule.conditions[k].source.temporal_tests]
    most = sum(2 + max(t.parameters, default=0) for _, _, t in tests) + 1
    room = 2 * most
    tables = []
    for a, b, t in tests:
        if b in places:
            of_a, of_b = allowed(room, t.operator, t.parameters, point[a], point[b])
            tables += [(a, b, of_a), (b, a, of_b)]
    whole = {k: (1 << len(spans(room, point[k]))) - 1 for k in places}
    for distance in range(most, -most - 1, -1):
        domains = dict(whole)
        domains[i] &= sum(1 << n for n, span in enumerate(spans(room, point[i])) if span[1] == 0)
        domains[j] &= sum(1 << n for n, span in enumerate(spans(room, point[j])) if span[0] == distance)
        if domains[i] and domains[j] and has_solution(tables, domains):
            return INFINITE if distance == most else distance
    return lives.NOTHING


def table(program: Program, reach: Callable[..., Any]) -> list[str]:
    known, lives.reach = lives.reach, reach
    try:
        return lives.life_lines(program)
    finally:
        lives.reach = known


def main() -> int:
    parser = Parser(description="Holds the lives that are inferred against brute force over small times.")
    parser.add_argument("--seeds", type=int, nargs=2, default=(0, 200), metavar=("A", "B"), help="from A up to B - 1")
    asked = parser.parse_args()
    agreed = finite = infinite = 0
    for seed in range(*asked.seeds):
        program = random_program(seed)
        inferred, searched = table(program, lives.reach), table(program, searched_reach)
        if inferred != searched:
            print(f"seed {seed}: inferred {inferred}, searched {searched}")
            continue
        agreed += 1
        infinite += sum(line.endswith("infinite") for line in inferred)
        finite += sum(not line.endswith(("infinite", " 0", " explicit 2")) for line in inferred)
    count = asked.seeds[1] - asked.seeds[0]
    print(f"{agreed} of {count} programs agreed: {finite} finite lives above 0, {infinite} infinite ones")
    return 0 if agreed == count else 1


if __name__ == "__main__":
    sys.exit(main())
