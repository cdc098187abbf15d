"""What a rule file declares: types, entry points, rules; what a variable means in a rule."""

from __future__ import annotations

from dataclasses import dataclass
from typing import Any, Callable, Iterator, Optional, Union

from .trees import (BOOL, INT, TEXT, Bind, Condition, Duration, EntryDeclaration, Expires, Folded, Item, LengthWindow,
                    Plain, Reference, Role, Rule, Salience, Source, Timestamp, TypeDeclaration)

KINDS = {"int": INT, "long": INT, "Integer": INT, "Long": INT, "boolean": BOOL, "Boolean": BOOL, "String": TEXT}

DEFAULT = "DEFAULT"


def type_declarations(items: list[Item]) -> list[TypeDeclaration]:
    return [item.body for item in items if isinstance(item.body, TypeDeclaration)]


def entry_declarations(items: list[Item]) -> list[EntryDeclaration]:
    return [item.body for item in items if isinstance(item.body, EntryDeclaration)]


def rules_of(items: list[Item]) -> list[Rule]:
    return [item.body for item in items if isinstance(item.body, Rule)]


@dataclass(frozen=True)
class TypeInfo:
    """A declared type by its first annotations and fields; a field of an unknown kind word has the kind None."""
    name: str
    event: bool
    fields: dict[str, Optional[str]]
    timestamp: Optional[str]
    duration: Optional[str]
    expires: Optional[int]
    reference: bool = False


def type_info(t: TypeDeclaration) -> TypeInfo:
    def first(sort: Any, get: Callable[[Any], Any]) -> Any:
        return next((get(a) for a in t.annotations if isinstance(a, sort)), None)

    fields: dict[str, Optional[str]] = {}
    for field, word in t.fields:
        fields.setdefault(field, KINDS.get(word))
    return TypeInfo(t.name, bool(first(Role, lambda a: a.event)), fields, first(Timestamp, lambda a: a.field),
                    first(Duration, lambda a: a.field), first(Expires, lambda a: a.offset),
                    any(isinstance(a, Reference) for a in t.annotations))


def types_by_name(items: list[Item]) -> dict[str, TypeInfo]:
    """The types in file order; a name that is declared twice means its first declaration."""
    types: dict[str, TypeInfo] = {}
    for t in type_declarations(items):
        types.setdefault(t.name, type_info(t))
    return types


def entries_named_by(condition: Condition) -> list[str]:
    entry = condition.source.entry
    return [] if entry is None else [entry]


def entries_of_item(item: Item) -> list[str]:
    """The entry points that an item declares or names."""
    if isinstance(item.body, EntryDeclaration):
        return [item.body.name]
    if isinstance(item.body, Rule):
        return [name for condition in item.body.conditions for name in entries_named_by(condition)]
    return []


def known_entries(items: list[Item]) -> list[str]:
    """DEFAULT, then the others in the order of their first mention."""
    return list(dict.fromkeys([DEFAULT] + [name for item in items for name in entries_of_item(item)]))


def latenesses(items: list[Item]) -> dict[str, int]:
    """The lateness of each known entry point, 0 where none is declared."""
    found = {name: 0 for name in known_entries(items)}
    for entry in reversed(entry_declarations(items)):
        found[entry.name] = entry.lateness or 0
    return found


def observed_types(rules: list[Rule], types: dict[str, TypeInfo]) -> set[str]:
    """The event types that stand in a not, exists or accumulate, or under a length window, of some rule."""
    return {c.source.type for rule in rules for c in rule.conditions
            if (not isinstance(c, Plain) or isinstance(c.source.window, LengthWindow))
            and c.source.type in types and types[c.source.type].event}


# ---- what a variable means


@dataclass(frozen=True)
class FactMeant:
    """The variable names a fact of this type."""
    type: str


@dataclass(frozen=True)
class ValueMeant:
    """The variable stands for a value of this kind, None where its field has none."""
    kind: Optional[str]


Meaning = Union[FactMeant, ValueMeant]
Sight = dict[str, Meaning]


def type_meant(sight: Sight, variable: str) -> str:
    """The type of the fact that a variable names."""
    meant = sight[variable]
    assert isinstance(meant, FactMeant), "a fact is meant"
    return meant.type


def sight_of_source(source: Source, types: dict[str, TypeInfo]) -> Sight:
    """The variables that a source binds."""
    sight: Sight = {}
    if source.variable is not None:
        sight[source.variable] = FactMeant(source.type)
    fields = types[source.type].fields if source.type in types else {}
    for part in source.parts:
        if isinstance(part, Bind):
            sight.setdefault(part.variable, ValueMeant(fields.get(part.field)))
    return sight


def sight_behind(condition: Condition, types: dict[str, TypeInfo]) -> Sight:
    """What a condition brings in sight of those behind it: a pattern its variables, an accumulate its result."""
    if isinstance(condition, Plain):
        return sight_of_source(condition.source, types)
    if isinstance(condition, Folded) and condition.result is not None:
        return {condition.result: ValueMeant(INT)}
    return {}


def sights(rule: Rule, types: dict[str, TypeInfo]) -> Iterator[tuple[Condition, Sight]]:
    """Each condition with what is in sight for its tests."""
    sight: Sight = {}
    for condition in rule.conditions:
        yield condition, sight
        sight = {**sight_behind(condition, types), **sight}


def sight_of_actions(rule: Rule, types: dict[str, TypeInfo]) -> Sight:
    """The variables of all positive patterns and the results of all accumulates."""
    sight: Sight = {}
    for condition in rule.conditions:
        sight = {**sight_behind(condition, types), **sight}
    return sight


# ---- the program of an accepted file

# By the event types that have no explicit expiry: for how many milliseconds behind their end events are kept.
Lives = dict[str, Union[int, float]]


@dataclass(frozen=True, eq=False)
class Program:
    """An accepted rule file; `written` are the items as they were read, `titles` the names that the rules have there.
    `lives` are those by which a run of it forgets, where they are not those of its rules."""
    types: dict[str, TypeInfo]
    latenesses: dict[str, int]
    rules: list[Rule]
    observed: set[str]
    written: tuple[Item, ...] = ()
    titles: tuple[str, ...] = ()
    lives: Optional[Lives] = None

    def title(self, rule: int) -> str:
        """The name by which a rule is printed: that of the rule as it was read, where it is written out."""
        return self.titles[rule] if self.titles else self.rules[rule].name

    @property
    def has_references(self) -> bool:
        return any(t.reference for t in self.types.values())


def salience_of(rule: Rule) -> int:
    return next((a.value for a in rule.attributes if isinstance(a, Salience)), 0)


def program_of(items: list[Item], written: list[Item], titles: list[str]) -> Program:
    types, rules = types_by_name(items), rules_of(items)
    return Program(types, latenesses(items), rules, observed_types(rules, types), tuple(written), tuple(titles))
