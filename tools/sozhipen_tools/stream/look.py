"""Tells which rules of a file are not within a key: what a stream that is split by it would answer otherwise than one
run over all.

    tools/run stream.look --key FIELD RULES

A rule is within the key where each of its patterns of a type with that field, also in `not`, `exists` and `accumulate`,
asks for the key of the first one, and what it inserts has that key. Types without the field are tables, which all
partitions have. For each condition or action that is not so, a line `file:line:column: name: what it does` is printed,
as by rulefile.lint. The status is 0 where all rules are within the key, 1 otherwise, 3 where the file is refused.
"""

from __future__ import annotations

import argparse
import sys
from pathlib import Path
from typing import Iterator, Optional, Union

from ..reference.meaning.program import DEFAULT
from ..reference.meaning.trees import (AnyOf, Compare, Comparison, Expr, FieldOf, Folded, Insert, LengthWindow, Literal,
                                       Modify, Negated, Operand, Plain, Rule, Source, Variable, operands_of)
from ..rulefile.lint import Desk, desk_of, source_of_variable, warning
from ..rulefile.tolerant import Complaint, ReadItem
from ..rulefile.where import report, shown
from ..words import Parser


class Same:
    """What has one value: places of conditions for the keys of their facts, and operands."""

    def __init__(self) -> None:
        self.others: dict[object, object] = {}

    def root(self, one: object) -> object:
        while one in self.others:
            one = self.others[one]
        return one

    def join(self, one: object, other: object) -> None:
        if self.root(one) != self.root(other):
            self.others[self.root(one)] = self.root(other)


def is_equality(c: Comparison) -> bool:
    return c.relation == "==" if isinstance(c, Compare) else len(c.operands) == 1


def equal_in(test: AnyOf, key: str) -> set[Operand]:
    """What the key is equal to wherever the test holds."""
    groups = [{operands_of(c)[0] for c in group if c.field == key and is_equality(c)} for group in test.groups]
    return set.intersection(*groups)


def equal_to_key(source: Source, key: str) -> set[Operand]:
    """What the key of a fact is equal to that passes a pattern."""
    return {operand for part in source.parts if isinstance(part, AnyOf) for operand in equal_in(part, key)}


class Look:
    """A rule file and a key."""

    def __init__(self, desk: Desk, key: str) -> None:
        self.desk, self.key, self.types = desk, key, desk.program.types
        self.made = {action.type for _, rule in desk.rules if self.anchor(rule) is not None
                     for action in rule.actions if isinstance(action, Insert) and not self.has_key(action.type)}

    def has_key(self, type_name: str) -> bool:
        return self.key in self.types[type_name].fields

    def anchor(self, rule: Rule) -> Optional[int]:
        """The first pattern whose facts have the key; None where a rule has none."""
        return next((place for place, condition in enumerate(rule.conditions)
                     if isinstance(condition, Plain) and self.has_key(condition.source.type)), None)

    def same_of(self, rule: Rule) -> Same:
        """What is equal wherever the patterns of a rule are met."""
        same = Same()
        for place, condition in enumerate(rule.conditions):
            source = condition.source
            if isinstance(condition, Plain) and self.has_key(source.type):
                names: set[Operand] = {Variable(bind.variable) for bind in source.binds if bind.field == self.key}
                if source.variable is not None:
                    names.add(FieldOf(source.variable, self.key))
                for operand in names | equal_to_key(source, self.key):
                    same.join(operand, place)
        return same

    def found(self) -> Iterator[Complaint]:
        """All that is not within the key."""
        for item, rule in self.desk.rules:
            anchor = self.anchor(rule)
            if anchor is None and not any(self.has_key(c.source.type) for c in rule.conditions):
                yield self.told("no-key", item, rule, rule.conditions[0],
                                "all that it finds is in each partition, so each fires it")
                continue
            same = self.same_of(rule)
            yield from self.of_conditions(item, rule, anchor, same)
            if anchor is not None:
                yield from self.of_actions(item, rule, same, same.root(anchor))

    def told(self, name: str, item: ReadItem, rule: Rule, node: object, what: str) -> Complaint:
        tokens = item.tokens_of(getattr(node, "source", node))
        return warning(name, tokens[0], f'rule "{rule.name}": {what}')

    def of_conditions(self, item: ReadItem, rule: Rule, anchor: Optional[int], same: Same) -> Iterator[Complaint]:
        for place, condition in enumerate(rule.conditions):
            source = condition.source
            equal = equal_to_key(source, self.key)
            if not self.has_key(source.type):
                if source.type in self.made:
                    yield self.told("made", item, rule, condition, f"`{source.type}` has no `{self.key}`, and a rule "
                                    "inserts it: a partition sees its own alone")
                continue
            if anchor is None or not self.is_within(place if isinstance(condition, Plain) else equal, same, anchor):
                yield self.told("other-key", item, rule, condition, self.does(condition, source))
            elif isinstance(source.window, LengthWindow) and not any(isinstance(o, Literal) for o in equal):
                yield self.told("length", item, rule, condition,
                                f"a window of length over `{source.type}` counts the facts of one partition alone")

    def does(self, condition: object, source: Source) -> str:
        """What a condition does that asks for no key of a pattern."""
        if isinstance(condition, Plain):
            return f"this `{source.type}` may have another `{self.key}` than the first pattern, and be elsewhere"
        word = "accumulate" if isinstance(condition, Folded) else "not" if isinstance(condition, Negated) else "exists"
        return f"this `{word}` asks for no `{self.key}` of the first pattern: a partition sees its own alone"

    @staticmethod
    def is_within(what: Union[int, set[Operand]], same: Same, anchor: int) -> bool:
        """Whether the key of a pattern at this place, or one that is equal to one of these, is that of the first."""
        equal: list[object] = [what] if isinstance(what, int) else list(what)
        return any(same.root(one) == same.root(anchor) for one in equal)

    def of_actions(self, item: ReadItem, rule: Rule, same: Same, key: object) -> Iterator[Complaint]:
        for action in rule.actions:
            made = action.type if isinstance(action, Insert) else source_of_variable(rule, action.variable).type
            if isinstance(action, Insert):
                value = dict(zip(self.types[made].fields, action.values)).get(self.key)
                if self.types[made].event and self.desk.program.latenesses[DEFAULT]:
                    yield self.told("late", item, rule, action, f"the `{made}` moves the floor of `{DEFAULT}`, which "
                                    "has a lateness, in one partition alone")
            else:
                value = dict(action.sets).get(self.key) if isinstance(action, Modify) else None
                if not self.has_key(made):
                    yield self.told("shared", item, rule, action, f"`{made}` is in each partition, and changed in one")
            if value is not None and not self.is_key(value, same, key):
                yield self.told("other-key", item, rule, action,
                                f"the `{made}` may have another `{self.key}`, and stays in this partition")

    @staticmethod
    def is_key(value: Expr, same: Same, key: object) -> bool:
        return same.root(value) == key


def found_in(data: bytes, key: str) -> list[Complaint]:
    """All that is not within the key in an accepted rule file, by the places."""
    return sorted(set(Look(desk_of(data), key).found()))


def asked() -> argparse.Namespace:
    parser = Parser(description=__doc__, formatter_class=argparse.RawDescriptionHelpFormatter)
    parser.add_argument("rules", metavar="RULES")
    parser.add_argument("--key", metavar="FIELD", required=True, help="the field that has the key")
    return parser.parse_args()


def main() -> int:
    words = asked()
    try:
        data = Path(words.rules).read_bytes()
    except OSError as error:
        print(f"look: {words.rules}: {error.strerror}", file=sys.stderr)
        return 3 if isinstance(error, FileNotFoundError) else 5
    if refusal := report(words.rules, data):
        sys.stdout.write(refusal)
        return 3
    found = found_in(data, words.key)
    sys.stdout.write("".join(shown(words.rules, data, complaint) for complaint in found))
    return 1 if found else 0


if __name__ == "__main__":
    sys.exit(main())
