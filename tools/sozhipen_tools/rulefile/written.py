"""Items as the checks look at them: a rule for each way in which its alternatives can be met, types with all that they
inherit.

What is told of these stands where the file has it: each node that is written out has the tokens of the one that it
comes from.
"""

from __future__ import annotations

from dataclasses import replace
from typing import Iterator, Optional

from ..reference.meaning.expand import (CODES, MOST_CONDITIONS, MOST_FIELDS, MOST_SUBRULES, Types, is_too_large,
                                        on_kind, plain_conditions, ways_of_all)
from ..reference.meaning.tokens import Token
from ..reference.meaning.trees import Condition, Existing, Folded, Item, LengthWindow, Rule, Source, TypeDeclaration
from .forms import close_to
from .tolerant import Complaint, ReadItem

TOO_LARGE = {TypeDeclaration: f"a type has at most {MOST_FIELDS} fields, with those that it inherits",
             Rule: f"a rule is written out to more than {MOST_SUBRULES} rules, or to one of more than "
             f"{MOST_CONDITIONS} conditions"}


def types_of(items: list[ReadItem]) -> Types:
    return Types([Item(0, item.body) for item in items if item.body is not None])


def parent_token(item: ReadItem) -> Token:
    """The type that a type extends."""
    return item.tokens[min(3, len(item.tokens) - 1)]


def parent_of(item: ReadItem) -> Optional[str]:
    """The type that a type extends."""
    return item.body.parent if isinstance(item.body, TypeDeclaration) else None


def type_token(item: ReadItem, source: Source) -> Token:
    """The type in a pattern, behind its variable."""
    tokens = item.tokens_of(source)
    return tokens[2] if source.variable is not None and len(tokens) > 2 else tokens[0]


# ---- writing out


def type_written_out(item: ReadItem, types: Types) -> ReadItem:
    """What is inherited stands where the parent is named."""
    written = item.body
    assert isinstance(written, TypeDeclaration)
    body, own = types.written_out(written), written.fields + written.annotations
    inherited = [node for node in body.fields + body.annotations if not any(node is o for o in own)]
    return replace(item, body=body,
                   places={**item.places, **{id(node): [parent_token(item)] * 3 for node in inherited}})


def rules_written_out(item: ReadItem, types: Types, numbered: bool) -> Iterator[ReadItem]:
    """A rule for each way; one of too many ways or conditions is not looked at."""
    rule = item.body
    assert isinstance(rule, Rule)
    if is_too_large(rule, types):
        yield replace(item, body=None)
        return
    places = dict(item.places)

    def over(c: Condition, name: str) -> Condition:
        made = c if c.source.type == name else on_kind(c, name)
        places[id(made)], places[id(made.source)] = item.tokens_of(c), item.tokens_of(c.source)
        return made

    ways = ways_of_all(rule.conditions, types, over)
    for k, way in enumerate(ways, start=1):
        name = f"{rule.name} #{k}" if numbered and len(ways) > 1 else rule.name
        yield replace(item, body=replace(rule, name=name, conditions=way), places=places, as_written=rule)


def written_out(items: list[ReadItem], numbered: bool = True) -> list[ReadItem]:
    """All items, in the order of the file; rules of several ways with their numbers behind the name, if so wanted."""
    types = types_of(items)
    found: list[ReadItem] = []
    for item in items:
        if isinstance(item.body, Rule):
            found += rules_written_out(item, types, numbered)
        else:
            found.append(type_written_out(item, types) if isinstance(item.body, TypeDeclaration) and item.body.parent
                         else item)
    return found


# ---- what cannot be written out


def over_subtypes(rule: Rule, types: Types) -> list[Source]:
    """The patterns that would look at many facts of a type with subtypes."""
    return [c.source for c in plain_conditions(rule.conditions) if types.has_subtypes(c.source.type)
            and (isinstance(c, (Existing, Folded)) or isinstance(c.source.window, LengthWindow))]


def complaints_of_code(item: ReadItem, types: Types, code: str) -> Iterator[Complaint]:
    body = item.body
    if code == "UnknownType":
        parent = str(parent_of(item))
        yield Complaint(parent_token(item).at, code, f"the type `{parent}` is not declared",
                        close_to(parent, list(types.first)))
    elif code == "BadExtends":
        yield Complaint(parent_token(item).at, code, "the types above this one go in a circle",
                        "leave one `extends` out")
    elif code == "HasSubtypes" and isinstance(body, Rule):
        for source in over_subtypes(body, types):
            yield Complaint(type_token(item, source).at, code,
                            f"other types extend `{source.type}`, and `exists`, accumulates and windows of "
                            "length are of one type",
                            f"one of {', '.join(f'`{name}`' for name in types.kinds(source.type)[1:])}")
    else:
        yield Complaint(item.tokens[1].at, code, TOO_LARGE[type(body)])


def outside_writing(items: list[ReadItem], half: set[str]) -> Iterator[Complaint]:
    """Why items cannot be written out; nothing of a parent whose item could not be read."""
    types = types_of(items)
    for item in items:
        body = item.body
        for code, fails in CODES:
            if body is not None and fails(body, types) and not (code == "UnknownType" and parent_of(item) in half):
                yield from complaints_of_code(item, types, code)


def half_known(items: list[ReadItem], half: set[str]) -> set[str]:
    """The types that inherit from one that is not known whole."""
    types = types_of(items)
    above = {name: [t] + types.ancestors(t) for name, t in types.first.items()}
    return {name for name, line in above.items() if any(t.name in half or t.parent and t.parent not in types.first
                                                        for t in line)}
