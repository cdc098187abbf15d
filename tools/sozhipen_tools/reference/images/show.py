"""The one text of a rule file: each item on a line of its own, its tokens with one blank between two.

Of several ways that the grammar allows one is written: no optional mark, `not` and `exists` with parentheses, names of
rules and entry points and all texts in double quotes, times as numbers, `field = value` in place of a setter, an
accumulate by `Number` and `longValue`.
"""

from __future__ import annotations

from typing import Callable, Iterable, Optional

from ..meaning.answers import quoted
from ..meaning.trees import (Action, Alternatives, Annotation, Attribute, Binary, Bind, Body, Compare, Comparison,
                             Condition, Dialect, EntryDeclaration, Expires, Expr, FieldOf, Folded, Import, Insert, Item,
                             Literal, Modify, Negate, Negated, Operand, Own, Package, Part, Plain, Reference, Role,
                             Salience, Source, Temporal, Timestamp, TimeWindow, TypeDeclaration, Value, Variable,
                             Window)

Tokens = list[str]


def parted(mark: str, write: Callable[..., Tokens], parts: Iterable) -> Tokens:
    found: Tokens = []
    for k, part in enumerate(parts):
        found += ([mark] if k else []) + write(part)
    return found


def each(write: Callable[..., Tokens], parts: Iterable) -> Tokens:
    return [token for part in parts for token in write(part)]


def number(n: int) -> Tokens:
    return ["-", str(-n)] if n < 0 else [str(n)]


def literal(value: Value) -> Tokens:
    if isinstance(value, bool):
        return ["true" if value else "false"]
    return [quoted(value)] if isinstance(value, str) else number(value)


def operand(o: Operand | Expr) -> Tokens:
    if isinstance(o, Literal):
        return literal(o.value)
    if isinstance(o, Variable):
        return ["$" + o.name]
    assert isinstance(o, (Own, FieldOf)), "an operand"
    return [o.field] if isinstance(o, Own) else ["$" + o.variable, ".", o.field]


# ---- conditions


def comparison(c: Comparison) -> Tokens:
    if isinstance(c, Compare):
        return [c.field, c.relation] + operand(c.operand)
    return [c.field, "in", "("] + parted(",", operand, c.operands) + [")"]


def part(p: Part) -> Tokens:
    if isinstance(p, Bind):
        return ["$" + p.variable, ":", p.field]
    if isinstance(p, Temporal):
        parameters = ["["] + parted(",", number, p.parameters) + ["]"] if p.parameters else []
        return ["this", p.operator] + parameters + ["$" + p.other]
    return parted("||", lambda group: parted("&&", comparison, group), p.groups)


def window(w: Window) -> Tokens:
    word, n = ("time", w.length) if isinstance(w, TimeWindow) else ("length", w.count)
    return ["over", "window", ":", word, "("] + number(n) + [")"]


def binding(variable: Optional[str]) -> Tokens:
    return [] if variable is None else ["$" + variable, ":"]


def source(s: Source) -> Tokens:
    return (binding(s.variable) + [s.type, "("] + parted(",", part, s.parts) + [")"]
            + ([] if s.window is None else window(s.window))
            + ([] if s.entry is None else ["from", "entry", "-", "point", quoted(s.entry)]))


def result_test(test: tuple[str, Operand]) -> Tokens:
    return ["longValue", test[0]] + operand(test[1])


def condition(c: Condition) -> Tokens:
    if isinstance(c, Alternatives):
        return ["("] + parted("or", lambda choice: each(condition, choice), c.choices) + [")"]
    if isinstance(c, Plain):
        return source(c.source)
    if isinstance(c, Folded):
        return (binding(c.result) + ["Number", "("] + parted(",", result_test, c.tests)
                + [")", "from", "accumulate", "("] + source(c.source)
                + [",", c.function, "(", "$" + c.argument, ")", ")"])
    return ["not" if isinstance(c, Negated) else "exists", "("] + source(c.source) + [")"]


# ---- actions


def expression(e: Expr) -> Tokens:
    """What joins two operands stands in parentheses inside another operator."""
    if isinstance(e, Negate):
        return ["-"] + enclosed(e.inner)
    return enclosed(e.left) + [e.sign] + enclosed(e.right) if isinstance(e, Binary) else operand(e)


def enclosed(e: Expr) -> Tokens:
    return ["("] + expression(e) + [")"] if isinstance(e, Binary) else expression(e)


def action(a: Action) -> Tokens:
    if isinstance(a, Insert):
        return ["insert", "(", "new", a.type, "("] + parted(",", expression, a.values) + [")", ")"]
    if isinstance(a, Modify):
        sets = parted(",", lambda assigned: [assigned[0], "="] + expression(assigned[1]), a.sets)
        return ["modify", "(", "$" + a.variable, ")", "{"] + sets + ["}"]
    return ["retract", "(", "$" + a.variable, ")"]


# ---- items


def annotation(a: Annotation) -> Tokens:
    if isinstance(a, Reference):
        return ["@", "reference"]
    if isinstance(a, Role):
        return ["@", "role", "(", "event" if a.event else "fact", ")"]
    if isinstance(a, Expires):
        return ["@", "expires", "("] + number(a.offset) + [")"]
    return ["@", "timestamp" if isinstance(a, Timestamp) else "duration", "(", a.field, ")"]


def attribute(a: Attribute) -> Tokens:
    return ["salience"] + number(a.value) if isinstance(a, Salience) else ["dialect", quoted(a.text)]


def item(b: Body) -> Tokens:
    if isinstance(b, Package):
        return ["package"] + parted(".", lambda name: [name], b.path)
    if isinstance(b, Import):
        return ["import"] + parted(".", lambda name: [name], b.path) + ([".", "*"] if b.star else [])
    if isinstance(b, Dialect):
        return ["dialect", quoted(b.text)]
    if isinstance(b, TypeDeclaration):
        parent = [] if b.parent is None else ["extends", b.parent]
        return (["declare", b.name] + parent + each(annotation, b.annotations)
                + each(lambda f: [f[0], ":", f[1]], b.fields) + ["end"])
    if isinstance(b, EntryDeclaration):
        lateness = [] if b.lateness is None else ["@", "lateness", "("] + number(b.lateness) + [")"]
        return ["declare", "entry", "-", "point", quoted(b.name)] + lateness + ["end"]
    return (["rule", quoted(b.name)] + each(attribute, b.attributes) + ["when"] + each(condition, b.conditions)
            + ["then"] + each(action, b.actions) + ["end"])


def show(items: Iterable[Item]) -> bytes:
    """The text of a file's items."""
    return "".join(" ".join(item(i.body)) + "\n" for i in items).encode("utf-8")
