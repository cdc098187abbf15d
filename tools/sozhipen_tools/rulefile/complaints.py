"""All that the checks of a rule file complain of, with names and places; reference.meaning.checks says only which
comes first.

Where an item could not be read whole, nothing is told of names that what was skipped may have declared or bound.
"""

from __future__ import annotations

from dataclasses import dataclass
from typing import Any, Iterable, Iterator, Optional, Sequence

from ..reference.meaning import checks, temporal
from ..reference.meaning.checks import (NO_VALUE, TIME_END, comparison_misfits, comparisons, kind_of_leaf, leaves_of,
                                        size, variables_of)
from ..reference.meaning.expand import plain_conditions
from ..reference.meaning.lives import network_of_positives, positive_events
from ..reference.meaning.program import (KINDS, FactMeant, Sight, TypeInfo, ValueMeant, entries_of_item, known_entries,
                                         observed_types, sight_of_actions, sight_of_source, sights, type_meant,
                                         types_by_name)
from ..reference.meaning.tokens import Token
from ..reference.meaning.trees import (INT, Alternatives, Binary, Compare, Condition, Duration, EntryDeclaration,
                                       Expires, Expr, FieldOf, Folded, Insert, Item, LengthWindow, Modify, Negate,
                                       OneOf, Own, Plain, Reference, Retract, Role, Rule, Salience, Source, Timestamp,
                                       TimeWindow, TypeDeclaration, operands_of)
from .forms import NO_EVAL, close_to
from .tolerant import Complaint, ReadItem
from .written import half_known, outside_writing, type_token, written_out

KIND_NAMES = {"Int": "a whole number", "Bool": "a truth value", "Text": "a text", NO_VALUE: "no value",
              None: "of no kind"}


@dataclass
class FileRead:
    """What the items declare as far as they could be read; of the names in `half` not all may be known."""
    items: list[ReadItem]
    bodies: list[Item]
    types: dict[str, TypeInfo]
    observed: set[str]
    half: set[str]


def half_read(items: list[ReadItem]) -> set[str]:
    """The names of items that could not be read whole."""
    return {str(item.tokens[1].value) for item in items if len(item.tokens) > 1 and (item.body is None or item.unclear)}


def file_of(items: list[ReadItem], half: set[str]) -> FileRead:
    bodies = [Item(k, item.body) for k, item in enumerate(items) if item.body is not None]
    types = types_by_name(bodies)
    return FileRead(items, bodies, types, observed_types([b.body for b in bodies if isinstance(b.body, Rule)], types),
                    half)


def said(code: str, token: Token, what: str, instead: str = "") -> Complaint:
    return Complaint(token.at, code, what, instead)


def listed(names: Iterable[str]) -> str:
    return ", ".join(f"`{name}`" for name in names) or "none"


# ---- names that stand twice


def name_token(item: ReadItem) -> Token:
    place = 4 if isinstance(item.body, EntryDeclaration) else 1
    return item.tokens[min(place, len(item.tokens) - 1)]


def twice_in_file(file: FileRead) -> Iterator[Complaint]:
    """Types, entry points and rules that an earlier item declares."""
    seen: dict[tuple, ReadItem] = {}
    for item in file.items:
        if isinstance(item.body, (TypeDeclaration, EntryDeclaration, Rule)):
            key = type(item.body), item.body.name
            if key in seen and item.body.name:
                yield said("TwiceDeclared", name_token(item), f"`{item.body.name}` is declared a second time")
            seen.setdefault(key, item)


def repeated(code: str, pairs: Sequence[tuple[Any, Token]], what: str) -> Iterator[Complaint]:
    """Of each name that stands twice, those behind the first."""
    seen: dict[Any, Token] = {}
    for name, token in pairs:
        if name in seen:
            shown = name if isinstance(name, str) else name.__name__.lower()
            once = ("a `not` on a type with subtypes is one for each, so it binds nothing" if seen[name].at == token.at
                    else "")
            yield said(code, token, what.format(shown), once)
        seen[name] = token


def binding_tokens(item: ReadItem, rule: Rule) -> list[tuple[str, Token]]:
    """Each variable that a rule binds, with its token."""
    found = []
    for condition in rule.conditions:
        source = condition.source
        if isinstance(condition, Folded) and condition.result is not None:
            found.append((condition.result, result_token(item, condition)))
        if source.variable is not None:
            found.append((source.variable, item.tokens_of(source)[0]))
        found += [(b.variable, item.tokens_of(b)[0]) for b in source.binds]
    return found


def result_token(item: ReadItem, condition: Folded) -> Token:
    """The variable of a result, where it is bound."""
    tokens = item.tokens_of(condition)
    return next((a for a, b in zip(tokens, tokens[1:]) if a.kind == "var" and a.value == condition.result
                 and b.value == ":"), tokens[0])


def twice_in_item(file: FileRead, item: ReadItem) -> Iterator[Complaint]:
    body = item.body
    if isinstance(body, TypeDeclaration):
        yield from repeated("TwiceDeclared", [(f[0], item.tokens_of(f)[0]) for f in body.fields],
                            "the field `{}` stands a second time")
        yield from repeated("TwiceDeclared", [(type(a), item.tokens_of(a)[0]) for a in body.annotations],
                            "`@{}` stands a second time")
    if isinstance(body, Rule):
        yield from repeated("TwiceDeclared", [(type(a), item.tokens_of(a)[0]) for a in body.attributes],
                            "`{}` stands a second time")
        yield from repeated("TwiceDeclared", binding_tokens(item, body), "`${}` is bound a second time in this rule")
        for action in body.actions:
            if isinstance(action, Modify):
                sets = [(s[0], item.tokens_of(s)[0]) for s in action.sets]
                yield from repeated("TwiceDeclared", sets, "`{}` is assigned a second time")


# ---- limits


def counts_of_file(file: FileRead) -> Iterator[Complaint]:
    """The first type, rule and entry point too many."""
    for sort, most, name in ((TypeDeclaration, 128, "types"), (Rule, 256, "rules")):
        too_many = [item for item in file.items if isinstance(item.body, sort)][most:most + 1]
        yield from (said("LimitPassed", name_token(item), f"a file has at most {most} {name}") for item in too_many)
    for k, item in enumerate(file.bodies):
        if len(known_entries(file.bodies[:k + 1])) > 64 and entries_of_item(item):
            yield said("LimitPassed", name_token(file.items[item.line]),
                       "a file has at most 64 entry points, with `DEFAULT`")
            return


def limits_of_source(item: ReadItem, source: Source) -> Iterator[Complaint]:
    token = item.tokens_of(source)[0]
    if len(comparisons(source)) + len(source.temporal_tests) + len(source.binds) > 32:
        yield said("LimitPassed", token, "a pattern has at most 32 comparisons, bindings and temporal tests")
    for c in comparisons(source):
        if isinstance(c, OneOf) and len(c.operands) > 32:
            yield said("LimitPassed", item.tokens_of(c)[0], "`in` has at most 32 operands")
    if any(abs(span) > TIME_END for span in checks.spans_of(source)):
        yield said("LimitPassed", token, "a window or a parameter is at most 2^53 ms")
    if isinstance(source.window, LengthWindow) and source.window.count > 1_000_000:
        yield said("LimitPassed", token, "a window of length is at most 1,000,000")
    if source.entry == "":
        yield said("LimitPassed", token, "an entry point has a name")


def limits_of_rule(item: ReadItem, rule: Rule) -> Iterator[Complaint]:
    if not 1 <= size(rule.name) <= 256:
        yield said("LimitPassed", name_token(item), "the name of a rule has 1 to 256 bytes")
    for nodes, most, what in ((rule.conditions, 8, "conditions"), (rule.actions, 16, "actions")):
        if len(nodes) > most:
            yield said("LimitPassed", item.tokens_of(nodes[most])[0], f"a rule has at most {most} {what}")
    for attribute in rule.attributes:
        if isinstance(attribute, Salience) and abs(attribute.value) > 2_147_483_647:
            yield said("LimitPassed", item.tokens_of(attribute)[-1], "a salience is at most 2147483647 in size")
    for condition in rule.conditions:
        yield from limits_of_source(item, condition.source)
        if isinstance(condition, Folded) and len(condition.tests) > 32:
            yield said("LimitPassed", item.tokens_of(condition)[0], "a result has at most 32 tests")
    yield from long_words(item)


def long_words(item: ReadItem) -> Iterator[Complaint]:
    """Names of more than 64 bytes, texts of more than 4,096."""
    for k, token in enumerate(item.tokens):
        if token.kind in ("word", "var") and size(str(token.value)) > 64 and k != 1:
            yield said("LimitPassed", token, f"a name has at most 64 bytes, and this one {size(str(token.value))}")
        if token.kind == "text" and size(str(token.value)) > 4096 and k != 1:
            yield said("LimitPassed", token, "a text has at most 4,096 bytes")


def limits_of(item: ReadItem) -> Iterator[Complaint]:
    body = item.body
    if isinstance(body, Rule):
        yield from limits_of_rule(item, body)
    if isinstance(body, TypeDeclaration):
        if size(body.name) > 64:
            yield said("LimitPassed", name_token(item), "a name has at most 64 bytes")
        if len(body.fields) > 32:
            yield said("LimitPassed", item.tokens_of(body.fields[32])[0], "a type has at most 32 fields")
        for annotation in body.annotations:
            if isinstance(annotation, Expires) and abs(annotation.offset) > TIME_END:
                yield said("LimitPassed", item.tokens_of(annotation)[0], "an expiry is at most 2^53 ms")
        yield from long_words(item)
    if isinstance(body, EntryDeclaration):
        if not 1 <= size(body.name) <= 64:
            yield said("LimitPassed", name_token(item), "the name of an entry point has 1 to 64 bytes")
        if abs(body.lateness or 0) > TIME_END:
            yield said("LimitPassed", name_token(item), "a lateness is at most 2^53 ms")


# ---- names that are not known


def unknown_type(file: FileRead, name: str, token: Token) -> Iterator[Complaint]:
    if name not in file.types and name not in file.half:
        instead = NO_EVAL if name == "eval" else close_to(name, list(file.types))
        yield said("UnknownType", token, f"the type `{name}` is not declared", instead)


def is_told_inside(item: ReadItem, source: Source) -> bool:
    """Whether something is told of the grammar inside a pattern."""
    tokens = item.tokens_of(source)
    return any(tokens[0].at < c.at <= tokens[-1].at for c in item.complaints)


def unknown_types(file: FileRead, item: ReadItem) -> Iterator[Complaint]:
    for token in item.new_types:
        yield from unknown_type(file, str(token.value), token)
    if isinstance(item.body, Rule):
        for condition in item.body.conditions:
            if condition.source.type != "eval" or not is_told_inside(item, condition.source):
                yield from unknown_type(file, condition.source.type, type_token(item, condition.source))
        for action in item.body.actions:
            if isinstance(action, Insert):
                yield from unknown_type(file, action.type, item.tokens_of(action)[3])


def fields_of(file: FileRead, type_name: str) -> Optional[dict]:
    """The fields of a type, None where they are not all known."""
    return None if type_name not in file.types or type_name in file.half else file.types[type_name].fields


def unknown_field(file: FileRead, type_name: str, name: str, token: Token, instead: str = "") -> Iterator[Complaint]:
    fields = fields_of(file, type_name)
    if fields is not None and name not in fields and name:
        instead = instead or close_to(name, list(fields)) or f"its fields are {listed(fields)}"
        yield said("UnknownField", token, f"`{type_name}` has no field `{name}`", instead)


def meant_by_bare_word(name: str, sight: Sight) -> str:
    """What was probably meant by a word that is no field of the pattern."""
    if name == "null":
        return "there is no `null`: each fact has all its fields"
    return f"`${name}`, or a text in quotes" if name in sight else ""


def unknown_field_of_leaf(file: FileRead, item: ReadItem, leaf: Any, sight: Sight,
                          own: Optional[str]) -> Iterator[Complaint]:
    """A field that an operand or a leaf of an expression names; `own` is the type of the tested fact."""
    if isinstance(leaf, Own):
        if own is None:
            yield said("UnknownField", item.tokens_of(leaf)[0], f"`{leaf.field}` is a field of no fact here",
                       f"`$a.{leaf.field}`")
        else:
            yield from unknown_field(file, own, leaf.field, item.tokens_of(leaf)[0],
                                     meant_by_bare_word(leaf.field, sight))
    last = item.tokens_of(leaf)[-1]
    if isinstance(leaf, FieldOf) and isinstance(sight.get(leaf.variable), FactMeant) and not is_called(item, last):
        yield from unknown_field(file, type_meant(sight, leaf.variable), leaf.field, last)


def is_called(item: ReadItem, token: Token) -> bool:
    """Whether a parenthesis opens behind a name, which is told as such."""
    behind = next((t for t in item.tokens if t.at > token.at), None)
    return behind is not None and behind.kind == "mark" and behind.value == "("


def unknown_fields(file: FileRead, item: ReadItem) -> Iterator[Complaint]:
    body = item.body
    if isinstance(body, TypeDeclaration):
        for annotation in body.annotations:
            if isinstance(annotation, (Timestamp, Duration)):
                yield from unknown_field(file, body.name, annotation.field, item.tokens_of(annotation)[2])
    if not isinstance(body, Rule):
        return
    for condition, sight in sights(body, file.types):
        source = condition.source
        for bind in source.binds:
            yield from unknown_field(file, source.type, bind.field, item.tokens_of(bind)[-1])
        for c in comparisons(source):
            yield from unknown_field(file, source.type, c.field, item.tokens_of(c)[0])
            for operand in operands_of(c):
                yield from unknown_field_of_leaf(file, item, operand, sight, source.type)
        for operand in checks.result_operands(condition):
            yield from unknown_field_of_leaf(file, item, operand, sight, None)
    sight = sight_of_actions(body, file.types)
    for action in body.actions:
        for leaf in leaves_of(action):
            yield from unknown_field_of_leaf(file, item, leaf, sight, None)
        if isinstance(action, Modify) and isinstance(sight.get(action.variable), FactMeant):
            for assigned in action.sets:
                yield from unknown_field(file, type_meant(sight, action.variable), assigned[0],
                                         item.tokens_of(assigned)[0])


def bound_in_some_way(rule: Optional[Rule]) -> set[str]:
    """The variables that patterns within the alternatives of a rule bind."""
    patterns = [c.source for some in rule.conditions if isinstance(some, Alternatives)
                for c in plain_conditions((some,)) if isinstance(c, Plain)] if rule is not None else []
    return ({b.variable for source in patterns for b in source.binds}
            | {source.variable for source in patterns if source.variable is not None})


def why_unseen(rule: Rule, written: Optional[Rule], name: str, condition: Optional[Condition], sight: Sight) -> str:
    """Why a variable that the rule binds is not in sight, or which other was meant."""
    if name in bound_in_some_way(written):
        return "some of its alternatives bind it, and the rule is for each: bind it in all of them"
    for k, c in enumerate(rule.conditions):
        bound = {c.source.variable} | {b.variable for b in c.source.binds}
        if name in bound and c is condition:
            return "a pattern cannot use its own variables: name the field, `id == number`"
        if name in bound and not isinstance(c, Plain):
            return f"what condition {k + 1} binds in its `not`, `exists` or `accumulate` is seen there alone"
        if name in bound or isinstance(c, Folded) and c.result == name:
            return f"condition {k + 1} binds it, which comes later"
    return close_to(name, list(sight)).replace("`", "`$", 1) or f"in sight are {listed('$' + v for v in sight)}"


def unknown_variable(item: ReadItem, name: str, token: Token, condition: Optional[Condition],
                     sight: Sight) -> Iterator[Complaint]:
    if name not in sight and name not in item.unclear and isinstance(item.body, Rule):
        why = why_unseen(item.body, item.as_written, name, condition, sight)
        yield said("UnknownVariable", token, f"`${name}` is bound by no earlier condition", why)


def unknown_variables(file: FileRead, item: ReadItem) -> Iterator[Complaint]:
    if not isinstance(item.body, Rule):
        return
    for condition, sight in sights(item.body, file.types):
        source = condition.source
        for leaf in checks.source_operands(source) + checks.result_operands(condition):
            for name in variables_of(leaf):
                yield from unknown_variable(item, name, item.tokens_of(leaf)[0], condition, sight)
        for test in source.temporal_tests:
            yield from unknown_variable(item, test.other, item.tokens_of(test)[-1], condition, sight)
        if isinstance(condition, Folded) and condition.argument not in sight_of_source(source, file.types):
            if condition.argument not in item.unclear:
                yield said("UnknownVariable", argument_token(item, condition),
                           f"`${condition.argument}` is no variable of the source",
                           "bind it there: `accumulate( Draw( $x : cents ); $sum : sum( $x ) )`")
    sight = sight_of_actions(item.body, file.types)
    for action in item.body.actions:
        if not isinstance(action, Insert):
            yield from unknown_variable(item, action.variable, item.tokens_of(action)[2], None, sight)
        for part in leaves_of(action):
            for name in variables_of(part):
                yield from unknown_variable(item, name, item.tokens_of(part)[0], None, sight)


def argument_token(item: ReadItem, condition: Folded) -> Token:
    """The argument of the function of an accumulate."""
    tokens = item.tokens_of(condition)
    triples = zip(tokens, tokens[1:], tokens[2:])
    return next((c for a, b, c in triples if a.value == condition.function and b.value == "(" and c.kind == "var"),
                tokens[0])


# ---- kinds


def is_known(leaf: Any, sight: Sight, own: Optional[dict]) -> bool:
    """Whether an operand names nothing that is not known."""
    if isinstance(leaf, Own):
        return own is not None and leaf.field in own
    return all(name in sight for name in variables_of(leaf))


def kind_of(file: FileRead, leaf: Any, sight: Sight, own: Optional[dict]) -> Optional[str]:
    """The kind of an operand, None where something about it is not known."""
    if not is_known(leaf, sight, own):
        return None
    if isinstance(leaf, FieldOf) and isinstance(sight[leaf.variable], FactMeant):
        return (fields_of(file, type_meant(sight, leaf.variable)) or {}).get(leaf.field)
    return kind_of_leaf(file, leaf, sight, own or {})


def misfit(left: str, relation: str, right: str) -> str:
    if right == NO_VALUE:
        return "a fact stands where a value is expected"
    if left == right:
        return f"`{relation}` is between whole numbers, and this is {KIND_NAMES[left]}"
    return f"{KIND_NAMES[left]} is compared with {KIND_NAMES[right]}"


def misfits_of_condition(file: FileRead, item: ReadItem, condition: Condition, sight: Sight) -> Iterator[Complaint]:
    source, fields = condition.source, fields_of(file, condition.source.type) or {}
    for c in comparisons(source) if fields_of(file, source.type) is not None else []:
        relation, left = c.relation if isinstance(c, Compare) else "==", fields.get(c.field)
        for operand in operands_of(c):
            right = kind_of(file, operand, sight, fields)
            if left is not None and right is not None and comparison_misfits(relation, left, right):
                yield said("WrongKind", item.tokens_of(operand)[0], misfit(left, relation, right),
                           f"`{c.field}` is {KIND_NAMES[left]}")
    for test in source.temporal_tests:
        if isinstance(sight.get(test.other), ValueMeant):
            yield said("WrongKind", item.tokens_of(test)[-1], f"`${test.other}` is a value, and no event",
                       "the variable before a pattern: `$e : Draw()`")
    if isinstance(condition, Folded):
        yield from misfits_of_result(file, item, condition, sight)


def misfits_of_result(file: FileRead, item: ReadItem, condition: Folded, sight: Sight) -> Iterator[Complaint]:
    argument = sight_of_source(condition.source, file.types).get(condition.argument)
    if (condition.function != "count" and argument is not None and argument != ValueMeant(INT)
        and argument != ValueMeant(None)):
        yield said("WrongKind", argument_token(item, condition),
                   f"`{condition.function}` is over a field of whole numbers")
    for relation, operand in condition.tests:
        right = kind_of(file, operand, sight, {})
        if right is not None and comparison_misfits(relation, INT, right):
            yield said("WrongKind", item.tokens_of(operand)[0], misfit(INT, relation, right),
                       "a result is a whole number")


def misfits_of_expression(file: FileRead, item: ReadItem, expr: Expr, kind: str, sight: Sight,
                          field: str) -> Iterator[Complaint]:
    """The leaves and operators that have another kind than is wanted."""
    if isinstance(expr, (Negate, Binary)):
        leaf = next(leaf for leaf in checks.parts_of_expr(expr) if not isinstance(leaf, (Negate, Binary)))
        if kind != INT:
            yield said("WrongKind", item.tokens_of(leaf)[0],
                       f"a sum is a whole number, and {field} is {KIND_NAMES[kind]}",
                       "`+`, `-` and `*` are between whole numbers: texts are not joined")
            return
        for inner in [expr.inner] if isinstance(expr, Negate) else [expr.left, expr.right]:
            yield from misfits_of_expression(file, item, inner, INT, sight, "a part of a sum")
        return
    found = kind_of(file, expr, sight, {})
    if found is not None and found != kind:
        what = ("a fact stands where a value is expected" if found == NO_VALUE
                else f"{KIND_NAMES[found]} stands where {KIND_NAMES[kind]} is expected")
        yield said("WrongKind", item.tokens_of(expr)[0], what, f"{field} is {KIND_NAMES[kind]}")


def misfits_of_action(file: FileRead, item: ReadItem, action: Any, sight: Sight) -> Iterator[Complaint]:
    if isinstance(action, Insert):
        fields = fields_of(file, action.type)
        if fields is None:
            return
        if len(fields) != len(action.values):
            yield said("WrongKind", item.tokens_of(action)[3],
                       f"{len(action.values)} values stand where {len(fields)} are expected",
                       f"the fields of `{action.type}` are {listed(fields)}")
            return
        pairs = [(name, kind, e) for (name, kind), e in zip(fields.items(), action.values)]
    else:
        meant = sight.get(action.variable)
        if isinstance(meant, ValueMeant):
            yield said("WrongKind", item.tokens_of(action)[2], f"`${action.variable}` is a value, and no fact",
                       "the variable before a pattern")
        fields = fields_of(file, meant.type) if isinstance(meant, FactMeant) else None
        if not isinstance(action, Modify) or fields is None:
            return
        pairs = [(name, fields.get(name), e) for name, e in action.sets]
    for name, kind, expr in pairs:
        if kind is not None:
            yield from misfits_of_expression(file, item, expr, kind, sight, f"`{name}`")


def misfits(file: FileRead, item: ReadItem) -> Iterator[Complaint]:
    body = item.body
    if isinstance(body, TypeDeclaration):
        for declared in body.fields:
            if declared[1] not in KINDS:
                yield said("WrongKind", item.tokens_of(declared)[-1], f"`{declared[1]}` is no kind",
                           kind_meant(declared[1]))
    if isinstance(body, Rule):
        for condition, sight in sights(body, file.types):
            yield from misfits_of_condition(file, item, condition, sight)
        sight = sight_of_actions(body, file.types)
        for action in body.actions:
            yield from misfits_of_action(file, item, action, sight)


def kind_meant(word: str) -> str:
    if word.lower() in ("double", "float", "bigdecimal", "number", "decimal"):
        return "there are whole numbers alone: `long`, in the smallest unit, as cents"
    if word.lower() in ("date", "datetime", "timestamp", "instant", "time"):
        return "`long`, in milliseconds"
    return close_to(word, list(KINDS)) or "the kinds are `long`, `int`, `boolean`, `String`"


# ---- events


def events_needed(file: FileRead, item: ReadItem) -> Iterator[Complaint]:
    body = item.body
    if isinstance(body, TypeDeclaration) and not file.types[body.name].event and body.name not in file.half:
        for annotation in body.annotations:
            if not isinstance(annotation, (Role, Reference)):
                yield said("NotAnEvent", item.tokens_of(annotation)[0],
                           f"`{body.name}` is a plain type, which has no times", "`@role( event )`")
    if not isinstance(body, Rule):
        return
    for condition, sight in sights(body, file.types):
        source = condition.source
        plain = source.type in file.types and not file.types[source.type].event and source.type not in file.half
        if plain and source.window is not None:
            yield said("NotAnEvent", type_token(item, source),
                       f"a window stands on `{source.type}`, which is a plain type", "`@role( event )`")
        for test in source.temporal_tests:
            if plain:
                yield said("NotAnEvent", item.tokens_of(test)[1],
                           f"a temporal test of `{source.type}`, which is a plain type", "`@role( event )`")
            other = sight.get(test.other)
            if (isinstance(other, FactMeant) and other.type in file.types and not file.types[other.type].event
                and other.type not in file.half):
                yield said("NotAnEvent", item.tokens_of(test)[-1],
                           f"`${test.other}` is of `{other.type}`, which is a plain type", "`@role( event )`")


def bad_times(file: FileRead, item: ReadItem) -> Iterator[Complaint]:
    if isinstance(item.body, TypeDeclaration):
        fields = file.types[item.body.name].fields
        for annotation in item.body.annotations:
            if isinstance(annotation, (Timestamp, Duration)) and fields.get(annotation.field, INT) not in (INT, None):
                yield said("BadTimestamp", item.tokens_of(annotation)[2], f"`{annotation.field}` is no whole number",
                           "a field of `long`, in milliseconds")


def bad_references(file: FileRead, item: ReadItem) -> Iterator[Complaint]:
    """Events that are to be there before any event."""
    if isinstance(item.body, TypeDeclaration) and file.types[item.body.name].event:
        for annotation in item.body.annotations:
            if isinstance(annotation, Reference):
                yield said("BadReference", item.tokens_of(annotation)[0],
                           f"`{item.body.name}` is a type of events, and reference facts are plain",
                           "leave it out, or `@role( event )`")


def bad_actions(file: FileRead, item: ReadItem) -> Iterator[Complaint]:
    """Modifications of events, retractions of observed ones, and changes of reference facts."""
    if not isinstance(item.body, Rule):
        return
    sight = sight_of_actions(item.body, file.types)
    for action in item.body.actions:
        meant = FactMeant(action.type) if isinstance(action, Insert) else sight.get(action.variable)
        if not isinstance(meant, FactMeant) or meant.type not in file.types:
            continue
        info, token = file.types[meant.type], item.tokens_of(action)[3 if isinstance(action, Insert) else 2]
        if isinstance(action, Modify) and info.event:
            yield said("EventFixed", token, f"`{meant.type}` is a type of events, which are never modified",
                       "insert another event")
        elif isinstance(action, Retract) and meant.type in file.observed:
            yield said("EventObserved", token,
                       f"some rule has `{meant.type}` in `not`, `exists`, `accumulate` or a window of length",
                       "let it expire, or insert another event that calls it off")
        elif info.reference:
            yield said("ReferenceFixed", token, f"`{meant.type}` is a reference type, and no rule changes its facts",
                       "keep what changes in a type of its own, which names the fact by a key; or leave `@reference` "
                       "out")


# ---- parameters


def bad_params(file: FileRead, item: ReadItem) -> Iterator[Complaint]:
    body = item.body
    if isinstance(body, EntryDeclaration) and (body.lateness or 0) < 0:
        yield said("BadParams", name_token(item), "a lateness is 0 or more")
    if isinstance(body, TypeDeclaration):
        for annotation in body.annotations:
            if isinstance(annotation, Expires) and annotation.offset < 1:
                yield said("BadParams", item.tokens_of(annotation)[0], "an expiry is 1 ms or more")
    for condition in body.conditions if isinstance(body, Rule) else []:
        source = condition.source
        if checks.window_is_bad(source):
            what = ("a window of time is 1 ms or more" if isinstance(source.window, TimeWindow)
                    else "a window of length is 1 or more")
            yield said("BadParams", window_token(item, source), what)
        for test in source.temporal_tests:
            if temporal.are_refused(test.operator, test.parameters):
                counts = " or ".join(map(str, sorted(temporal.COUNTS[test.operator])))
                either = test.operator in ("after", "before")
                what = f"`{test.operator}` has {counts} parameters{'' if either else ', none of them negative'}"
                is_below = not either and any(parameter < 0 for parameter in test.parameters)
                yield said("BadParams", item.tokens_of(test)[1], what,
                           "0 or more; `after[-1s,1s]` and `before[-1s,1s]` alone go to both sides" if is_below else "")


def window_token(item: ReadItem, source: Source) -> Token:
    return next((token for token in item.tokens_of(source) if token.value == "over" and token.kind == "word"),
                item.tokens_of(source)[0])


def never_matching(file: FileRead, item: ReadItem) -> Iterator[Complaint]:
    """The first temporal test that no events can meet with those before it."""
    rule = item.body
    if not isinstance(rule, Rule) or item.complaints or any(fields_of(file, c.source.type) is None
                                                            for c in rule.conditions):
        return
    if network_of_positives(rule, file.types).solvable:
        return
    for k in positive_events(rule, file.types, len(rule.conditions)):
        for n, test in enumerate(rule.conditions[k].source.temporal_tests):
            if not network_of_positives(with_tests_up_to(rule, k, n), file.types).solvable:
                yield said("NeverMatches", item.tokens_of(test)[1], "no events can meet this test and those before it",
                           "one of them is to go")
                return


def with_tests_up_to(rule: Rule, k: int, n: int) -> Rule:
    """The rule with the temporal tests up to the one at `n` of condition `k` alone."""
    conditions = []
    for j, condition in enumerate(rule.conditions):
        source = condition.source
        tests = [] if j > k else source.temporal_tests[:n + 1] if j == k else source.temporal_tests
        conditions.append(Plain(Source(source.variable, source.type, tuple(tests), source.window, source.entry))
                          if isinstance(condition, Plain) else condition)
    return Rule(rule.name, rule.attributes, tuple(conditions), rule.actions)


# ---- all


NAMES = [twice_in_item, unknown_types, unknown_fields, unknown_variables, misfits, events_needed, bad_times,
         bad_references, bad_actions, bad_params]


def complaints_of(items: list[ReadItem]) -> list[Complaint]:
    """All that the checks complain of, of all items that could be read."""
    half = half_read(items)
    file = file_of(written_out(items), half | half_known(items, half))
    found = list(outside_writing(items, half)) + list(twice_in_file(file)) + list(counts_of_file(file))
    for item in file.items:
        if item.body is None:
            found += unknown_types(file, item)
            continue
        found += limits_of(item)
        told = [complaint for check in NAMES for complaint in check(file, item)]
        found += told
        if not any(c.code in ("UnknownType", "UnknownVariable", "WrongKind", "NotAnEvent", "BadParams") for c in told):
            found += never_matching(file, item)
    return found
