"""Worlds of which some facts are kept no more: what these count for is known of each row that they count for.

Where a run was saved, an event that is kept no more may still block a `not`, be found by an `exists` or stand in an
accumulate, for a row that is there. For such a row the number of these events, and their values, stand beside the
facts. A row that goes takes that with it: one that comes is met by no event that is kept no more.
"""

from __future__ import annotations

from dataclasses import dataclass, field
from functools import cached_property
from typing import Optional

from ..meaning.trees import Condition, Existing, Folded, Negated
from ..meaning.worlds import Match, Row, World, arguments, candidates, is_mature, longer_rows, passes, with_result
from .prefixes import owners

RowKey = tuple[tuple[int, ...], tuple[int, ...]]


@dataclass(frozen=True)
class Beyond:
    """So many events beyond the facts, and the values that an accumulate takes of them."""
    count: int
    values: tuple[int, ...]


# By the rule and the condition, and by the row before the condition.
Extras = dict[tuple[int, int], dict[RowKey, Beyond]]


def key_of(row: Row) -> RowKey:
    return row.tags, row.values


@dataclass(frozen=True, eq=False)
class LadenWorld(World):
    """A world with what its rows have beyond its facts."""
    extras: Extras = field(default_factory=dict)

    @cached_property
    def matches(self) -> list[Match]:
        return [Match(k, row) for k, rule in enumerate(self.program.rules)
                for row in rows_before(k, len(rule.conditions), self)]

    def with_fired(self, fired: frozenset) -> "LadenWorld":
        world = self.alike(fired=fired, extras=remaining(self))
        assert isinstance(world, LadenWorld)
        return world


def beyond_of(k: int, j: int, w: World) -> dict[RowKey, Beyond]:
    """What rows have beyond the facts for a condition of a rule; it stands under the first rule that begins with the
    same."""
    return w.extras.get((owners(w.program)[k, j], j), {}) if isinstance(w, LadenWorld) and w.extras else {}


def longer_with(condition: Condition, passing: list, row: Row, beyond: Optional[Beyond]) -> list[Row]:
    """What a condition makes of a row of the facts that pass and of what there is beyond them; the waiting of a `not`
    aside."""
    if beyond is None:
        return longer_rows(condition, passing, row)
    if isinstance(condition, Folded):
        return with_result(condition, arguments(condition, passing) + list(beyond.values), row)
    return [row] if isinstance(condition, Existing) else []


def rows_before(k: int, end: int, w: World) -> list[Row]:
    """The rows of the first conditions of a rule, each condition by all candidates for each row."""
    found = [Row((), {})]
    for j, condition in enumerate(w.program.rules[k].conditions[:end]):
        among, beyond = candidates(condition.source, w), beyond_of(k, j, w)
        longer: list[Row] = []
        for row in found:
            passing = [f for f in among if passes(condition.source, f, row)]
            made = longer_with(condition, passing, row, beyond.get(key_of(row)))
            longer += (made if not isinstance(condition, Negated) or not made or is_mature(condition.source, row, w)
                       else [])
        found = longer
    return found


def remaining(w: LadenWorld) -> Extras:
    """What is beyond the facts for the rows that are there still."""
    left: Extras = {}
    for (k, j), rows in w.extras.items():
        there = {key_of(row) for row in rows_before(k, j, w)}
        left[k, j] = {key: beyond for key, beyond in rows.items() if key in there}
    return {place: rows for place, rows in left.items() if rows}
