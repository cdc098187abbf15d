"""The facts that an answer of a program may still name."""

from __future__ import annotations

import heapq
from dataclasses import replace
from typing import Optional

from .answers import Fact, Value
from .rules import Rules


class Facts:
    """The facts by their numbers, and the clock, at the place of the script up to which answers have come. A fact is
    forgotten when it is retracted or has expired, or when its life is over and nothing is pending. Without rules none
    expires."""

    def __init__(self, rules: Optional[Rules]):
        self.rules = rules
        self.facts: dict[int, Fact] = {}
        self.clock = 0
        self.expiring: list[tuple[int, int]] = []
        self.fading: list[tuple[int, int]] = []

    def insert(self, fact: Fact) -> None:
        self.facts[fact.id] = fact
        info = self.rules.types.get(fact.type) if self.rules else None
        if self.rules and info and info.event and fact.values is not None:
            self.note_ends(fact, *self.rules.span(fact, self.clock))

    def note_ends(self, fact: Fact, start: int, end: int) -> None:
        """Notes when an event with this start and end is forgotten."""
        assert self.rules is not None, "the type is known"
        info = self.rules.types[fact.type]
        if not info.event:
            return
        if info.expires is not None:
            heapq.heappush(self.expiring, (start + info.expires, fact.id))
            self.forget(self.expiring, self.clock)
        elif (life := self.rules.life(fact.type)) is not None:
            heapq.heappush(self.fading, (end + life + 1, fact.id))

    def modify(self, number: int, values: dict[str, Value]) -> Optional[Fact]:
        """The fact with other values in some fields, None where it is not there."""
        fact = self.facts.get(number)
        if fact is None:
            return None
        self.facts[number] = replace(fact, values=None if fact.values is None else {**fact.values, **values})
        return self.facts[number]

    def retract(self, number: int) -> Optional[Fact]:
        return self.facts.pop(number, None)

    def move(self, clock: int) -> None:
        self.clock = clock
        self.forget(self.expiring, clock)

    def nothing_pending(self) -> None:
        """Events past their lives are in no match that is still to come."""
        self.forget(self.fading, self.clock)

    def forget(self, ends: list[tuple[int, int]], clock: int) -> None:
        while ends and ends[0][0] <= clock:
            self.facts.pop(heapq.heappop(ends)[1], None)
