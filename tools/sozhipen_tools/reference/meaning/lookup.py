"""Which facts a row has to be tested with: those that its equalities and its temporal tests leave, looked up and not
searched for.

What is left out here fails a test of the pattern, so no row is lost; what is left is tested as the meaning says. What
was found of the same facts is not found again: tests, rows and matches depend on nothing but what is compared here
before they are taken over.
"""

from __future__ import annotations

from bisect import bisect_left, bisect_right
from collections import Counter
from dataclasses import dataclass, field
from typing import Any, Callable, Sequence

from .temporal import INFINITE
from .trees import Compare, FieldOf, Operand, Rule, Source, Variable


def equalities(source: Source) -> list[tuple[str, Operand]]:
    """The fields of the pattern that are to be equal to what an earlier condition bound; those behind `||` are none."""
    alone = [test.groups[0] for test in source.joined_tests if len(test.groups) == 1]
    return [(c.field, c.operand) for group in alone for c in group
            if isinstance(c, Compare) and c.relation == "==" and isinstance(c.operand, (Variable, FieldOf))]


@dataclass(frozen=True)
class Wanted:
    """What a row asks of the facts that go on with it: the values of its equalities, in their order, and the least and
    the greatest start that its temporal tests let through."""
    values: tuple
    low: float = -INFINITE
    high: float = INFINITE


class Filter:
    """The facts of a list that pass a test of the fact alone. Those at its front that were tested are not tested
    again."""

    def __init__(self, test: Callable[[Any], bool]):
        self.test = test
        self.facts: list = []
        self.passing: list = []

    def of(self, facts: list) -> list:
        held = len(self.facts)
        if facts[:held] != self.facts:
            held, self.passing = 0, []
        self.passing = self.passing + [f for f in facts[held:] if self.test(f)]
        self.facts = facts
        return self.passing


class Group:
    """Facts of one key in the order of their starts, as one entry point takes them in. It only grows, until another
    group takes its place: then its count is -1."""

    def __init__(self) -> None:
        self.facts: list = []
        self.starts: list[int] = []
        self.count = 0

    def add(self, fact: Any) -> None:
        self.facts.append(fact)
        self.starts.append(fact.start)
        self.count += 1

    def without_first(self, many: int) -> "Group":
        """The group that takes its place, without so many facts at the front."""
        other = Group()
        other.facts, other.starts, other.count = self.facts[many:], self.starts[many:], self.count - many
        self.count = -1
        return other

    def near(self, wanted: Wanted) -> list:
        """The facts that start where it is wanted."""
        first = 0 if wanted.low == -INFINITE else bisect_left(self.starts, wanted.low)
        behind = len(self.starts) if wanted.high == INFINITE else bisect_right(self.starts, wanted.high)
        return self.facts[first:behind]


NO_FACTS = Group()


class Groups:
    """Facts by a key. Where a list begins with the one that is held, or with what follows its first facts, only the
    others are put into their groups, and the first ones are taken out; else all groups are new ones."""

    def __init__(self, key_of: Callable[[Any], Any]):
        self.key_of = key_of
        self.facts: Sequence = []
        self.groups: dict[Any, Group] = {}
        # Another object whenever all groups are new ones; since then the groups to which facts came, or from which they
        # went, in that order.
        self.ordered = object()
        self.changed: list[Group] = []

    def hold(self, facts: Sequence) -> None:
        held = len(self.facts)
        if facts[:held] != self.facts:
            held = self.slide(facts)
        for fact in facts[held:]:
            group = self.group(self.key_of(fact))
            group.add(fact)
            self.changed.append(group)
        self.facts = facts

    def slide(self, facts: Sequence) -> int:
        """Takes out the first facts, which are gone; how many facts are left."""
        gone = next((k for k, fact in enumerate(self.facts) if facts and fact is facts[0]), 0)
        if gone == 0 or facts[:len(self.facts) - gone] != self.facts[gone:]:
            self.groups, self.ordered, self.changed = {}, object(), []
            return 0
        for key, many in Counter(map(self.key_of, self.facts[:gone])).items():
            self.changed.append(self.groups[key])
            self.groups[key] = self.groups[key].without_first(many)
        return len(self.facts) - gone

    def group(self, key: Any) -> Group:
        """The group of a key, which has no facts yet where none came."""
        found = self.groups.get(key)
        if found is None:
            found = self.groups[key] = Group()
        return found


def by_equalities(source: Source) -> Groups:
    fields = [name for name, _ in equalities(source)]
    return Groups(lambda fact: tuple([fact.values[name] for name in fields]))


def alike_in_front(some: list, others: list) -> int:
    """With how many of the same objects both lists begin."""
    low, high = 0, min(len(some), len(others))
    while low < high:
        middle = (low + high + 1) // 2
        if some[low:middle] == others[low:middle]:
            low = middle
        else:
            high = middle - 1
    return low


class LastTaken:
    """The rows that came to a condition last, with what each of them was for it, in the same order and by the group in
    which it looked; those of which rows came; and which groups had changed by then."""

    def __init__(self) -> None:
        self.fruitful: list = []
        self.begin(None)

    def begin(self, ordered: object) -> None:
        """No row has come, of groups in this order."""
        self.rows: list = []
        self.taken: list = []
        self.by_group: dict[Group, list] = {}
        self.ordered, self.changes = ordered, 0

    def is_of(self, rows: list, among: Groups) -> bool:
        return self.ordered is among.ordered and self.changes == len(among.changed) and self.rows == rows

    def renew(self, rows: list, among: Groups, look: Callable[[Any], Any]) -> None:
        """Looks with the rows that are new, and again with those whose group has changed."""
        if self.ordered is not among.ordered:
            self.begin(among.ordered)
        self.replace(rows, look)
        for group in among.changed[self.changes:]:
            for taken in self.by_group.pop(group, []):
                self.keep(look(taken.row))
        self.rows, self.changes = rows, len(among.changed)
        self.fruitful = [taken for taken in self.taken if taken.longer]

    def replace(self, rows: list, look: Callable[[Any], Any]) -> None:
        """Puts other rows in the place of those that came last; what stands before and behind them stays."""
        first = alike_in_front(self.rows, rows)
        behind = alike_in_front(self.rows[first:][::-1], rows[first:][::-1])
        gone, come = slice(first, len(self.rows) - behind), slice(first, len(rows) - behind)
        for taken in self.taken[gone]:
            self.by_group[taken.group].remove(taken)
        self.taken[gone] = [self.keep(look(row)) for row in rows[come]]

    def keep(self, taken: Any) -> Any:
        self.by_group.setdefault(taken.group, []).append(taken)
        return taken


@dataclass(eq=False)
class LastRows:
    """The empty row of a rule; and the rows and the matches that were taken last, with all that they depend on."""
    rule: Rule
    root: Any
    looked_at: list = field(default_factory=list)
    rows: list = field(default_factory=list)
    matches: dict = field(default_factory=dict)
    taken: list[LastTaken] = field(default_factory=list)

    def __post_init__(self) -> None:
        self.taken = [LastTaken() for _ in self.rule.conditions]


class Memory:
    """What the worlds of a run share, none of it part of their meaning: the facts by place, of each source those that
    pass its constant tests and the groups of its candidates, of each rule the last rows. All are of the world that
    asked last."""

    def __init__(self) -> None:
        self.places = Groups(lambda fact: (fact.type, fact.entry))
        self.filters: dict[int, tuple[Source, Filter]] = {}
        self.indexes: dict[int, tuple[Source, Groups]] = {}
        self.rules: dict[int, LastRows] = {}

    def filtered(self, source: Source, facts: list, test: Callable[[Any], bool]) -> list:
        if id(source) not in self.filters:
            self.filters[id(source)] = source, Filter(test)
        return self.filters[id(source)][1].of(facts)

    def index(self, source: Source, candidates: list) -> Groups:
        """The candidates of a source, looked up by its equalities."""
        if id(source) not in self.indexes:
            self.indexes[id(source)] = source, by_equalities(source)
        index = self.indexes[id(source)][1]
        index.hold(candidates)
        return index

    def last_rows(self, rule: Rule, empty_row: Any) -> LastRows:
        return self.rules.setdefault(id(rule), LastRows(rule, empty_row))
