"""The checks of a rule file in their order.

The first item that fails a check is refused, by the first code of CODES that it fails. Each check is one function of
the file, the items before the item, and the item.
"""

from __future__ import annotations

from dataclasses import dataclass
from typing import Any, Callable, Iterator, Mapping, Optional, Protocol

from . import temporal
from .expand import expand
from .lives import network_of_positives
from .program import (KINDS, FactMeant, Program, Sight, TypeInfo, ValueMeant, entries_of_item, entry_declarations,
                      known_entries, observed_types, program_of, rules_of, sight_of_actions, sight_of_source, sights,
                      type_declarations, type_info, type_meant, types_by_name)
from .reader import Refused
from .trees import (INT, Action, AnyOf, Binary, Body, Compare, Comparison, Condition, DialectAttribute, Duration,
                    EntryDeclaration, Expires, Expr, FieldOf, Folded, Insert, Item, LengthWindow, Literal, Modify,
                    Negate, OneOf, Operand, Own, Retract, Rule, Salience, Source, Timestamp, TimeWindow,
                    TypeDeclaration, Variable, kind_of_value, operands_of)

TIME_END = 2**53


@dataclass(frozen=True)
class File:
    """All the items of a file and what they declare."""
    items: list[Item]
    types: dict[str, TypeInfo]
    observed: set[str]


class Declared(Protocol):
    """What has the types that a file declares."""
    @property
    def types(self) -> dict[str, TypeInfo]: ...


# ---- walks over an item


def sources(rule: Rule) -> list[Source]:
    return [condition.source for condition in rule.conditions]


def comparisons(source: Source) -> list[Comparison]:
    return [c for part in source.parts if isinstance(part, AnyOf) for group in part.groups for c in group]


def source_operands(source: Source) -> list[Operand]:
    return [o for c in comparisons(source) for o in operands_of(c)]


def result_operands(condition: Condition) -> list[Operand]:
    return [o for _, o in condition.tests] if isinstance(condition, Folded) else []


def parts_of_expr(expr: Expr) -> Iterator[Expr]:
    """The expression and all expressions in it."""
    yield expr
    if isinstance(expr, Negate):
        yield from parts_of_expr(expr.inner)
    elif isinstance(expr, Binary):
        yield from parts_of_expr(expr.left)
        yield from parts_of_expr(expr.right)


def expressions_of(action: Action) -> list[Expr]:
    if isinstance(action, Insert):
        return list(action.values)
    return [value for _, value in action.sets] if isinstance(action, Modify) else []


def leaves_of(action: Action) -> list[Expr]:
    return [part for expr in expressions_of(action) for part in parts_of_expr(expr)]


def own_variable(action: Action) -> list[str]:
    """The variable of the fact that a modify or a retract names."""
    return [] if isinstance(action, Insert) else [action.variable]


def variables_of(o: Operand | Expr) -> list[str]:
    if isinstance(o, Variable):
        return [o.name]
    return [o.variable] if isinstance(o, FieldOf) else []


def is_repeated(names: list) -> bool:
    return len(set(names)) < len(names)


# ---- TwiceDeclared


def bound_variables(rule: Rule) -> list[str]:
    """All variables that a rule binds, those inside not, exists and accumulate included."""
    found: list[str] = []
    for condition in rule.conditions:
        source = condition.source
        found += ([] if source.variable is None else [source.variable]) + [b.variable for b in source.binds]
        if isinstance(condition, Folded) and condition.result is not None:
            found.append(condition.result)
    return found


def is_twice(file: File, before: list[Item], body: Body) -> bool:
    """An earlier item declares the name, or in the item something stands twice that may stand once."""
    if isinstance(body, TypeDeclaration):
        return (body.name in {t.name for t in type_declarations(before)} or is_repeated([f for f, _ in body.fields])
                or is_repeated([type(a) for a in body.annotations]))
    if isinstance(body, EntryDeclaration):
        return body.name in {e.name for e in entry_declarations(before)}
    if isinstance(body, Rule):
        return (body.name in {r.name for r in rules_of(before)} or is_repeated([type(a) for a in body.attributes])
                or is_repeated(bound_variables(body))
                or any(is_repeated([f for f, _ in a.sets]) for a in body.actions if isinstance(a, Modify)))
    return False


# ---- LimitPassed


def size(text: str) -> int:
    return len(text.encode("utf-8"))


def names_and_texts(rule: Rule) -> tuple[list[str], list[str]]:
    """The names of at most 64 bytes in a rule (types, fields, variables, entry points), and its texts."""
    names: list[str] = []
    texts = [a.text for a in rule.attributes if isinstance(a, DialectAttribute)]
    leaves: list = []
    for condition in rule.conditions:
        source = condition.source
        names += [source.type, *(name for name in (source.variable, source.entry) if name is not None)]
        for b in source.binds:
            names += [b.variable, b.field]
        names += [t.other for t in source.temporal_tests] + [c.field for c in comparisons(source)]
        leaves += source_operands(source) + result_operands(condition)
        if isinstance(condition, Folded):
            names += [condition.argument, *([] if condition.result is None else [condition.result])]
    for action in rule.actions:
        names += own_variable(action)
        names += [action.type] if isinstance(action, Insert) else []
        names += [field for field, _ in action.sets] if isinstance(action, Modify) else []
        leaves += leaves_of(action)
    for leaf in leaves:
        names += variables_of(leaf) + ([leaf.field] if isinstance(leaf, (FieldOf, Own)) else [])
        texts += [leaf.value] if isinstance(leaf, Literal) and isinstance(leaf.value, str) else []
    return names, texts


def spans_of(source: Source) -> list[int]:
    spans = [p for t in source.temporal_tests for p in t.parameters]
    return spans + ([source.window.length] if isinstance(source.window, TimeWindow) else [])


def source_passes_limit(source: Source) -> bool:
    return (len(comparisons(source)) + len(source.temporal_tests) + len(source.binds) > 32
            or any(len(c.operands) > 32 for c in comparisons(source) if isinstance(c, OneOf))
            or any(abs(span) > TIME_END for span in spans_of(source))
            or isinstance(source.window, LengthWindow) and source.window.count > 1_000_000
            or source.entry == "")


def rule_passes_limit(rule: Rule) -> bool:
    names, texts = names_and_texts(rule)
    return (not 1 <= size(rule.name) <= 256 or len(rule.conditions) > 8 or len(rule.actions) > 16
            or any(size(name) > 64 for name in names) or any(size(text) > 4096 for text in texts)
            or any(abs(a.value) > 2_147_483_647 for a in rule.attributes if isinstance(a, Salience))
            or any(source_passes_limit(s) for s in sources(rule))
            or any(len(c.tests) > 32 for c in rule.conditions if isinstance(c, Folded)))


def passes_limit(file: File, before: list[Item], body: Body) -> bool:
    """It is the first type, rule or entry point too many, or something in it is too long or too large."""
    item_entries = entries_of_item(Item(0, body))
    too_many_entries = len(set(known_entries(before)) | set(item_entries)) > 64
    if isinstance(body, TypeDeclaration):
        named = [body.name] + [f for f, _ in body.fields]
        named += [a.field for a in body.annotations if isinstance(a, (Timestamp, Duration))]
        return (len(type_declarations(before)) >= 128 or len(body.fields) > 32 or any(size(n) > 64 for n in named)
                or any(abs(a.offset) > TIME_END for a in body.annotations if isinstance(a, Expires)))
    if isinstance(body, EntryDeclaration):
        return too_many_entries or not 1 <= size(body.name) <= 64 or abs(body.lateness or 0) > TIME_END
    if isinstance(body, Rule):
        return len(rules_of(before)) >= 256 or too_many_entries or rule_passes_limit(body)
    return False


# ---- UnknownType, UnknownField, UnknownVariable


def lacks_type(file: File, before: list[Item], body: Body) -> bool:
    """A pattern or an insert names a type that the file does not declare."""
    if not isinstance(body, Rule):
        return False
    named = [s.type for s in sources(body)] + [a.type for a in body.actions if isinstance(a, Insert)]
    return any(name not in file.types for name in named)


def operand_lacks_field(file: File, o: Operand | Expr, sight: Sight, own_fields: Mapping[str, Any]) -> bool:
    """The operand names a field that its type has not; `own_fields` are those of the tested fact, none for a result."""
    if isinstance(o, Own):
        return o.field not in own_fields
    if isinstance(o, FieldOf) and isinstance(sight.get(o.variable), FactMeant):
        return o.field not in file.types[type_meant(sight, o.variable)].fields
    return False


def action_lacks_field(file: File, action: Action, sight: Sight) -> bool:
    if any(operand_lacks_field(file, leaf, sight, {}) for leaf in leaves_of(action)):
        return True
    if isinstance(action, Modify) and isinstance(sight.get(action.variable), FactMeant):
        return any(f not in file.types[type_meant(sight, action.variable)].fields for f, _ in action.sets)
    return False


def lacks_field(file: File, before: list[Item], body: Body) -> bool:
    """An annotation, test, binding, assignment or `$v.name` names a field that the type has not."""
    if isinstance(body, TypeDeclaration):
        return any(a.field not in dict(body.fields) for a in body.annotations if isinstance(a, (Timestamp, Duration)))
    if not isinstance(body, Rule):
        return False
    for condition, sight in sights(body, file.types):
        source, fields = condition.source, file.types[condition.source.type].fields
        if any(name not in fields for name in [b.field for b in source.binds] + [c.field for c in comparisons(source)]):
            return True
        if any(operand_lacks_field(file, o, sight, fields) for o in source_operands(source)):
            return True
        if any(operand_lacks_field(file, o, sight, {}) for o in result_operands(condition)):
            return True
    return any(action_lacks_field(file, a, sight_of_actions(body, file.types)) for a in body.actions)


def lacks_variable(file: File, before: list[Item], body: Body) -> bool:
    """A variable is used that is not in sight."""
    if not isinstance(body, Rule):
        return False
    for condition, sight in sights(body, file.types):
        source = condition.source
        used = [v for o in source_operands(source) + result_operands(condition) for v in variables_of(o)]
        used += [t.other for t in source.temporal_tests]
        if any(v not in sight for v in used):
            return True
        if isinstance(condition, Folded) and condition.argument not in sight_of_source(source, file.types):
            return True
    sight = sight_of_actions(body, file.types)
    return any(v not in sight for a in body.actions
               for v in own_variable(a) + [v for leaf in leaves_of(a) for v in variables_of(leaf)])


# ---- WrongKind

NO_VALUE = "no value"


def kind_of_leaf(file: Declared, o: Operand | Expr, sight: Sight, own_fields: Mapping[str, Any]) -> Optional[str]:
    """The kind of an operand: None where its field's kind word is unknown, NO_VALUE where a fact stands for a value or
    a value for a fact."""
    if isinstance(o, Literal):
        return kind_of_value(o.value)
    if isinstance(o, Own):
        return own_fields[o.field]
    assert isinstance(o, (Variable, FieldOf)), "an operand"
    meant = sight[o.name if isinstance(o, Variable) else o.variable]
    if isinstance(o, Variable):
        return meant.kind if isinstance(meant, ValueMeant) else NO_VALUE
    return file.types[meant.type].fields[o.field] if isinstance(meant, FactMeant) else NO_VALUE


def comparison_misfits(relation: str, left: Optional[str], right: Optional[str]) -> bool:
    """Values of two kinds, or an order between others than whole numbers."""
    return right == NO_VALUE or left != right or relation not in ("==", "!=") and left != INT


def condition_misfits(file: File, condition: Condition, sight: Sight) -> bool:
    source, fields = condition.source, file.types[condition.source.type].fields
    for c in comparisons(source):
        relation = c.relation if isinstance(c, Compare) else "=="
        if any(comparison_misfits(relation, fields[c.field], kind_of_leaf(file, o, sight, fields))
               for o in operands_of(c)):
            return True
    if any(not isinstance(sight[t.other], FactMeant) for t in source.temporal_tests):
        return True
    if isinstance(condition, Folded):
        argument = sight_of_source(source, file.types)[condition.argument]
        if condition.function != "count" and argument != ValueMeant(INT):
            return True
        return any(comparison_misfits(rel, INT, kind_of_leaf(file, o, sight, {})) for rel, o in condition.tests)
    return False


def expression_misfits(file: File, expr: Expr, kind: Optional[str], sight: Sight) -> bool:
    """The expression, or an operand in it, has another kind than is wanted; a field without a kind fits nothing."""
    if kind is None:
        return True
    if isinstance(expr, Negate):
        return kind != INT or expression_misfits(file, expr.inner, INT, sight)
    if isinstance(expr, Binary):
        return (kind != INT or expression_misfits(file, expr.left, INT, sight)
                or expression_misfits(file, expr.right, INT, sight))
    return kind_of_leaf(file, expr, sight, {}) != kind


def action_misfits(file: File, action: Action, sight: Sight) -> bool:
    if isinstance(action, Insert):
        kinds = list(file.types[action.type].fields.values())
        return len(kinds) != len(action.values) or any(
            expression_misfits(file, e, kind, sight) for e, kind in zip(action.values, kinds))
    meant = sight[action.variable]
    if not isinstance(meant, FactMeant):
        return True
    if isinstance(action, Modify):
        fields = file.types[meant.type].fields
        return any(expression_misfits(file, e, fields[f], sight) for f, e in action.sets)
    return False


def is_wrong_kind(file: File, before: list[Item], body: Body) -> bool:
    """A kind word is none of the seven; values of two kinds meet; a fact stands for a value or a value for a fact."""
    if isinstance(body, TypeDeclaration):
        return any(word not in KINDS for _, word in body.fields)
    if not isinstance(body, Rule):
        return False
    return (any(condition_misfits(file, c, sight) for c, sight in sights(body, file.types))
            or any(action_misfits(file, a, sight_of_actions(body, file.types)) for a in body.actions))


# ---- NotAnEvent, BadTimestamp, BadReference, EventFixed, EventObserved, ReferenceFixed, BadParams, NeverMatches


def needs_event(file: File, before: list[Item], body: Body) -> bool:
    """A plain type has times or expiry, stands under a window, or takes part in a temporal test."""
    if isinstance(body, TypeDeclaration):
        return not type_info(body).event and any(isinstance(a, (Timestamp, Duration, Expires))
                                                 for a in body.annotations)
    if not isinstance(body, Rule):
        return False
    for condition, sight in sights(body, file.types):
        source = condition.source
        event = file.types[source.type].event
        if source.window is not None and not event:
            return True
        if any(not event or not file.types[type_meant(sight, t.other)].event for t in source.temporal_tests):
            return True
    return False


def has_bad_timestamp(file: File, before: list[Item], body: Body) -> bool:
    """The field of a timestamp or a duration is no whole number."""
    if not isinstance(body, TypeDeclaration):
        return False
    fields = type_info(body).fields
    return any(fields[a.field] != INT for a in body.annotations if isinstance(a, (Timestamp, Duration)))


def marks_event(file: File, before: list[Item], body: Body) -> bool:
    """An event type is one of reference facts."""
    return isinstance(body, TypeDeclaration) and type_info(body).event and type_info(body).reference


def types_of_actions(file: File, rule: Rule, sort: Any) -> list[str]:
    sight = sight_of_actions(rule, file.types)
    return [type_meant(sight, a.variable) for a in rule.actions if isinstance(a, sort)]


def modifies_event(file: File, before: list[Item], body: Body) -> bool:
    return isinstance(body, Rule) and any(file.types[t].event for t in types_of_actions(file, body, Modify))


def retracts_observed(file: File, before: list[Item], body: Body) -> bool:
    """An action retracts an event of a type that a negative pattern or an accumulate observes."""
    return isinstance(body, Rule) and any(t in file.observed for t in types_of_actions(file, body, Retract))


def fixes_reference(file: File, before: list[Item], body: Body) -> bool:
    """An action inserts, modifies or retracts a reference fact."""
    if not isinstance(body, Rule):
        return False
    named = [a.type for a in body.actions if isinstance(a, Insert)] + types_of_actions(file, body, (Modify, Retract))
    return any(file.types[name].reference for name in named)


def window_is_bad(source: Source) -> bool:
    window = source.window
    return ((isinstance(window, TimeWindow) and window.length < 1)
            or (isinstance(window, LengthWindow) and window.count == 0))


def has_bad_params(file: File, before: list[Item], body: Body) -> bool:
    """An operator's parameters are refused; a window or an expiry is below 1 ms, a length is 0, a lateness below 0."""
    if isinstance(body, EntryDeclaration):
        return (body.lateness or 0) < 0
    if isinstance(body, TypeDeclaration):
        return any(a.offset < 1 for a in body.annotations if isinstance(a, Expires))
    if not isinstance(body, Rule):
        return False
    return any(window_is_bad(s) or any(temporal.are_refused(t.operator, t.parameters) for t in s.temporal_tests)
               for s in sources(body))


def never_matches(file: File, before: list[Item], body: Body) -> bool:
    """No whole numbers satisfy the operators among the rule's positive event patterns."""
    return isinstance(body, Rule) and not network_of_positives(body, file.types).solvable


Check = Callable[[File, list[Item], Body], bool]

CODES: list[tuple[str, Check]] = [
    ("TwiceDeclared", is_twice),
    ("LimitPassed", passes_limit),
    ("UnknownType", lacks_type),
    ("UnknownField", lacks_field),
    ("UnknownVariable", lacks_variable),
    ("WrongKind", is_wrong_kind),
    ("NotAnEvent", needs_event),
    ("BadTimestamp", has_bad_timestamp),
    ("BadReference", marks_event),
    ("EventFixed", modifies_event),
    ("EventObserved", retracts_observed),
    ("ReferenceFixed", fixes_reference),
    ("BadParams", has_bad_params),
    ("NeverMatches", never_matches),
]


def check(written: list[Item]) -> Program:
    """The program of the file, written out, or Refused with the first failing item, as it was read, and its first
    code."""
    items, origins = expand(written)
    types = types_by_name(items)
    file = File(items, types, observed_types(rules_of(items), types))
    for k, item in enumerate(items):
        for code, fails in CODES:
            if fails(file, items[:k], item.body):
                raise Refused(origins[k] + 1, item.line, code)
    titles = [body.name for body in (written[origin].body for origin in origins) if isinstance(body, Rule)]
    return program_of(items, written, titles)
