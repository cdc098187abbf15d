"""A rule file by the second evaluator, sozhipen_tools.reference: what a client asks of it."""

from __future__ import annotations

from pathlib import Path
from typing import Any, Iterator, Optional

from sozhipen_tools.reference.meaning import firings, lives, trees, worlds
from sozhipen_tools.reference.meaning.run import program_or_refusal
from sozhipen_tools.reference.meaning.temporal import INFINITE

from .answers import Fact, Names

Bound = dict[str, Any]


class Rules:
    """The types of a rule file, how long their events matter, what the variables of its rules stand for, and what
    their actions are to do."""

    def __init__(self, data: bytes):
        """ValueError where the file is refused."""
        program = program_or_refusal(data)
        if isinstance(program, str):
            raise ValueError(program)
        self.types, self.latenesses = program.types, program.latenesses
        self.world = worlds.World(program)
        self.rules: dict[str, list[Any]] = {}
        for k, rule in enumerate(program.rules):
            self.rules.setdefault(program.title(k), []).append(rule)
        self.known_lives: dict[str, Optional[int]] = {}

    def life(self, type_name: str) -> Optional[int]:
        """How long an event of this type matters behind its end, None where it does for ever."""
        if type_name not in self.known_lives:
            life = lives.life_of_type(self.world.program, type_name)
            self.known_lives[type_name] = None if life == INFINITE else life
        return self.known_lives[type_name]

    def span(self, fact: Fact, clock: int) -> tuple[int, int]:
        """The start and the end of an event that is inserted at this clock."""
        info = self.types[fact.type]
        start = clock if info.timestamp is None else int(fact[info.timestamp])
        return start, start + (0 if info.duration is None else int(fact[info.duration]))

    def has(self, fact: Fact) -> bool:
        """Whether the fact is one of these types, by its fields and their kinds."""
        info = self.types.get(fact.type)
        return info is not None and fact.values is not None and info.fields == {
            name: trees.kind_of_value(value) for name, value in fact.values.items()}

    # ---- firings

    def ways(self, title: str, facts: list[Fact], results: list[int]) -> list[tuple[Bound, list[Any]]]:
        """What the variables of a rule stand for, and the step of each action, in each way of it that finds these
        facts: a rule of several ways fires in each of them under its one name."""
        return [(names, self.steps(rule, names)) for rule, names in self.named(title, facts, results)]

    def named(self, title: str, facts: list[Fact], results: list[int]) -> Iterator[tuple[Any, Bound]]:
        """Each way of a rule that finds these facts, with what its variables stand for."""
        for rule in self.rules.get(title, []):
            names = self.names(rule, facts, results)
            if names is not None:
                yield rule, names

    def names(self, rule: Any, facts: list[Any], results: list[int]) -> Optional[Bound]:
        """What the variables of a rule stand for, by the facts and results of its firing; None where the patterns find
        no such facts."""
        facts, results = list(facts), list(results)
        names: Bound = {}
        for condition in rule.conditions:
            if isinstance(condition, trees.Plain):
                if not facts or not self.finds(condition.source, facts[0], names):
                    return None
                names.update(worlds.bound_by(condition.source, facts.pop(0)))
            elif isinstance(condition, trees.Folded):
                if not results:
                    return None
                result = results.pop(0)
                names.update({} if condition.result is None else {condition.result: result})
        return None if facts or results else names

    def finds(self, source: Any, fact: Any, names: Bound) -> bool:
        """Whether a pattern finds the fact, as far as its type and its comparisons say."""
        tests = source.constant_tests + source.joined_tests
        return source.type == fact.type and all(worlds.test_holds(test, fact, names) for test in tests)

    def steps(self, rule: Any, names: Bound) -> list[Any]:
        """The step of each action, None where an expression of it overflows."""
        row = worlds.Row((), names)
        return [firings.planned(action, row, self.world) for action in rule.actions]


def agreed(names: list[Bound]) -> Names:
    """What the variables of a rule stand for in all of these ways alike."""
    first, *others = names or [{}]
    return {name: value for name, value in first.items() if all(other.get(name) == value for other in others)}


def rules_in(data: bytes) -> Optional[Rules]:
    """The rules of a text, None where it is refused, or deeper than the evaluator can go."""
    try:
        return Rules(data)
    except (ValueError, RecursionError):
        return None


def rules_of(path: Path) -> Optional[Rules]:
    """The rules of a file, None where it is not there or has none."""
    try:
        return rules_in(path.read_bytes())
    except OSError:
        return None
