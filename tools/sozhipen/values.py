"""What the facts of a `replay` hold: the values that lines gave, and those that the actions of rules give, which no
answer of it tells. Actions are evaluated by the second evaluator."""

from __future__ import annotations

from collections import deque
from dataclasses import replace
from typing import Any

from sozhipen_tools.reference.images.image import Image
from sozhipen_tools.reference.meaning import worlds

from .answers import Fact, Fault, Firing
from .facts import Facts
from .rules import agreed


class Book(Facts):
    """The facts with the values that lines and actions gave them."""

    def resume(self, image: Image) -> None:
        """Goes on with the clock and the kept facts of an image of these rules."""
        assert self.rules is not None, "the image is of rules"
        types, entries = list(self.rules.types.values()), list(self.rules.latenesses)
        self.clock = image.clock
        for kept in sorted(image.facts, key=lambda fact: fact.id):
            info = types[kept.type]
            fact = Fact(kept.id, info.name, dict(zip(info.fields, kept.fields)), entries[kept.entry])
            self.facts[fact.id] = fact
            self.note_ends(fact, kept.start, kept.end)

    def firing(self, rule: str, line: int, numbers: list[int], results: list[int]) -> tuple[Firing, "Actions"]:
        """A firing, and what its actions are still to do."""
        facts = [self.facts.get(number, Fact(number, "?")) for number in numbers]
        firing = Firing(rule, line, self.clock, facts, results)
        known = all(fact.values is not None for fact in facts)
        ways = self.rules.ways(rule, facts, results) if self.rules and known else []
        if not ways:
            return firing, Actions(self, firing, [])
        firing.names = agreed([names for names, _ in ways])
        steps = ways[0][1]
        if any(other != steps for _, other in ways):
            self.doubt([step for _, other in ways for step in other])
            return firing, Actions(self, firing, [])
        return firing, Actions(self, firing, steps)

    def doubt(self, steps: list[Any]) -> None:
        """Some of these steps are done, and it is not known which: nor are the values of the facts that they change."""
        for step in steps:
            if isinstance(step, (worlds.Modification, worlds.Retraction)) and step.id in self.facts:
                self.facts[step.id] = replace(self.facts[step.id], values=None)


class Actions:
    """The actions of a firing, which are done in their order: an insertion answers one line, the others one where they
    are faulty."""

    def __init__(self, book: Book, firing: Firing, steps: list[Any]):
        self.book, self.firing, self.steps = book, firing, deque(steps)
        self.quiet()

    def quiet(self) -> None:
        """Does the actions that answer nothing, up to the next that answers."""
        while self.steps and not self.answers(self.steps[0]):
            step = self.steps.popleft()
            if isinstance(step, worlds.Modification):
                if modified := self.book.modify(step.id, step.values):
                    self.firing.modified.append(modified)
            elif gone := self.book.retract(step.id):
                self.firing.retracted.append(gone)

    def answers(self, step: Any) -> bool:
        """Whether it is an insertion, or faulty: an overflow, or a plain fact that is not there."""
        if step is None or isinstance(step, worlds.Insertion):
            return True
        rules = self.book.rules
        return rules is not None and not rules.types[step.type].event and step.id not in self.book.facts

    def answered(self) -> Any:
        """The step whose answer has come, None where it is not known."""
        return self.steps.popleft() if self.steps else None

    def new(self, number: int, type_name: str) -> None:
        step = self.answered()
        fact = Fact(number, type_name, step and step.values, rule=self.firing.rule)
        self.book.insert(fact)
        self.firing.made.append(fact)
        self.quiet()

    def fault(self, fault: Fault) -> None:
        self.answered()
        self.firing.faults.append(fault)
        self.quiet()
