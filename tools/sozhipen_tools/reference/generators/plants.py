"""Rule files with a planted refusal: each lexical code, Syntax, and each code of the checks.

A plant changes the trees, the tokens or the bytes of a file that is else accepted. It need not hit the code that it is
meant for: what the file is refused by is for the reference and the program to say, and for the comparer to count.
"""

from __future__ import annotations

import dataclasses
from random import Random
from typing import Any, Optional

from ..meaning.temporal import OPERATORS
from ..meaning.trees import (AnyOf, Binary, Bind, Body, Compare, Condition, Duration, EntryDeclaration, Existing,
                             Expires, FieldOf, Folded, Insert, LengthWindow, Literal, Modify, Negate, Negated, OneOf,
                             Own, Plain, Reference, Retract, Role, Rule, Salience, Source, Temporal, Timestamp,
                             TimeWindow, TypeDeclaration, Variable)
from .random_alternatives import with_choices, with_refused_choices
from .random_rules import FileMaker
from .writer import Writer

# ---- bytes: lexical faults

BAD_CHARS = [b"3q", b"5mss", b"1s2m", b"1_000", b"!", b"&", b"|", b"~", b"\"a\\q\"", b"\xff", b"\"a\xff\"", b"$", b"\\",
             b"1ms5", b"3$a", b"^", b"/", b"'\\u0041'", b"\"a\\", b"'\xc3'", b"5M", b"1h1h", b"\x00", b"\x0b",
             b"\xef\xbb\xbf", b"1d2", b"\"\\\n\"", b"0x10", b"\"\xed\xa0\x80\"", b"?", b"%", b"a$", b"1m30s15ms7"]
OPEN_TEXTS = [b"\"abc\n", b"'abc\n", b"\"", b"'", b"\"a'\n", b"\"a\\\"\n", b"\"\xff\n"]
OPEN_COMMENTS = [b"/*", b"/*/", b"/* // *", b"/* \"*/ /* "]
LARGE_NUMBERS = [b"9223372036854775808", b"9007199254740993ms", b"104249991375d", b"99999999999999999999999999",
                 b"9007199254740992ms", b"9223372036854775807", b"0000000000000000000000000007", b"9007199254740s993",
                 b"106751991168d"]


def with_bytes(rng: Random, data: bytes, pieces: list[bytes]) -> bytes:
    """A piece between two bytes of the file, maybe with a second one elsewhere."""
    for _ in range(rng.choice([1, 1, 1, 2])):
        blanks = [k for k in range(len(data)) if data[k] in b" \n\t"] or [0]
        k = rng.choice(blanks)
        data = data[:k] + b" " * rng.randrange(2) + rng.choice(pieces) + data[k:]
    return data


# ---- tokens: outside the grammar

STRAY = ["(", ")", "{", "}", "[", "]", ",", ";", ":", ".", "@", "+", "-", "*", "=", "==", "||", "&&", "x", "$v", "7",
         "3s", '"t"', "end", "when", "then", "rule", "declare", "not", "exists", "accumulate", "from", "over", "in",
         "this", "new", "Number", "true", "salience", "package", "import", "dialect", "insert", "or", "extends",
         "entry", "point", "window", "set", "setEnd", "set1"]


def with_tokens(rng: Random, items: list[list[str]]) -> list[list[str]]:
    """One token left out, doubled, put in, exchanged with its neighbour or replaced."""
    items = [list(tokens) for tokens in items]
    for _ in range(rng.choice([1, 1, 2])):
        tokens = rng.choice(items)
        if not tokens:
            continue
        k = rng.randrange(len(tokens))
        what = rng.randrange(5)
        if what == 0:
            tokens.pop(k)
        elif what == 1:
            tokens.insert(k, tokens[k])
        elif what == 2:
            tokens.insert(k, rng.choice(STRAY))
        elif what == 3 and k + 1 < len(tokens):
            tokens[k], tokens[k + 1] = tokens[k + 1], tokens[k]
        else:
            tokens[k] = rng.choice(STRAY)
    return items


def deep_expression(rng: Random) -> list[str]:
    """An expression about as high, or with parentheses about as deep, as there may be."""
    n = rng.choice([31, 32, 33])
    return rng.choice([["("] * n + ["1"] + [")"] * n, ["-"] * (n - 1) + ["1"], ["1"] + ["+", "1"] * (n - 1),
                       ["-"] * (n - 2) + ["(", "1", "*", "2", ")"], ["(", "1", "*"] * 16 + ["1"] + [")"] * 16])


def with_deep_expression(rng: Random, items: list[list[str]]) -> list[list[str]]:
    expr = deep_expression(rng)
    return items + [["declare", "Deep", "v", ":", "long", "end"],
                    ["rule", '"deep"', "when", "$d", ":", "Deep", "(", ")", "then", "modify", "(", "$d", ")", "{", "v",
                     "="] + expr
                    + ["}", "end"]]


# ---- trees: one leaf exchanged

Leaf = tuple[tuple, Any]


def leaves(node: Any, path: tuple = ()) -> list[tuple[tuple, Any, str]]:
    """All leaves of a tree with the way to them and the role that they play."""
    found = []
    if dataclasses.is_dataclass(node):
        for f in dataclasses.fields(node):
            value = getattr(node, f.name)
            if dataclasses.is_dataclass(value) or isinstance(value, tuple):
                found += leaves(value, path + (f.name,))
            else:
                found.append((path + (f.name,), value, f"{type(node).__name__}.{f.name}"))
    elif isinstance(node, tuple):
        for k, value in enumerate(node):
            if dataclasses.is_dataclass(value) or isinstance(value, tuple):
                found += leaves(value, path + (k,))
            else:
                found.append((path + (k,), value, "tuple"))
    return found


def with_leaf(node: Any, path: tuple, value: Any) -> Any:
    if not path:
        return value
    if isinstance(node, tuple):
        return node[:path[0]] + (with_leaf(node[path[0]], path[1:], value),) + node[path[0] + 1:]
    return dataclasses.replace(node, **{path[0]: with_leaf(getattr(node, path[0]), path[1:], value)})


LONG = "L" * 65

# What may stand in the place of a leaf, by its role.
TYPE_NAMES = ["T0", "T1", "T2", "T3", "Nope", LONG, "L" * 64]
FIELDS = ["n", "k", "m", "s", "t", "at", "len", "zz", LONG]
VARIABLES = [f"{c}{k}" for c in "abxyz" for k in range(1, 9)] + ["nobody", LONG]
NUMBERS = [0, 1, -1, 2**31 - 1, 2**31, -(2**31) + 1, -(2**31), 2**53, 2**53 + 1, -(2**53), -(2**53) - 1, 1_000_000,
           1_000_001]
WORDS = ["long", "int", "String", "boolean", "Boolean", "Long", "Integer", "float", "double", "Date", "Int"]
VALUES = [0, 1, True, False, "", "a", "x" * 4096, "x" * 4097, "\u00e9" * 2049]
RELATIONS = ["==", "!=", "<", "<=", ">", ">="]
ENTRY_NAMES = ["X", "Y", "DEFAULT", "", "e" * 64, "e" * 65, "\u00e9" * 33]

ROLES: dict[str, list] = {
    "Source.type": TYPE_NAMES, "Insert.type": TYPE_NAMES, "TypeDeclaration.name": TYPE_NAMES,
    "Compare.field": FIELDS, "OneOf.field": FIELDS, "Bind.field": FIELDS, "FieldOf.field": FIELDS, "Own.field": FIELDS,
    "Timestamp.field": FIELDS, "Duration.field": FIELDS,
    "Variable.name": VARIABLES, "FieldOf.variable": VARIABLES, "Bind.variable": VARIABLES, "Source.variable": VARIABLES,
    "Temporal.other": VARIABLES, "Folded.result": VARIABLES, "Folded.argument": VARIABLES, "Modify.variable": VARIABLES,
    "Retract.variable": VARIABLES,
    "Salience.value": NUMBERS, "Expires.offset": NUMBERS, "TimeWindow.length": NUMBERS,
    "LengthWindow.count": [0, 1, 1_000_000, 1_000_001],
    "EntryDeclaration.lateness": NUMBERS, "EntryDeclaration.name": ENTRY_NAMES, "Source.entry": ENTRY_NAMES,
    "Literal.value": VALUES, "DialectAttribute.text": ["x" * 4096, "x" * 4097], "Compare.relation": RELATIONS,
    "Temporal.operator": list(OPERATORS), "Folded.function": ["count", "sum", "min", "max", "average"],
    "Rule.name": ["", "r0", "r1", "R" * 256, "R" * 257, "\u00e9" * 129], "Role.event": [True, False]}


def change_leaf(rng: Random, body: Body) -> Body:
    """Another name, number, word or value in one place."""
    places = [(path, role) for path, value, role in leaves(body) if role in ROLES and value is not None]
    if isinstance(body, TypeDeclaration):
        places += [(("fields", k, j), "word" if j else "field") for k in range(len(body.fields)) for j in (0, 1)]
    if isinstance(body, Rule):
        places += [(("actions", k, "sets", j, 0), "field") for k, a in enumerate(body.actions) if isinstance(a, Modify)
                   for j in range(len(a.sets))]
    if not places:
        return body
    path, role = rng.choice(places)
    pool = {"word": WORDS, "field": FIELDS}.get(role) or ROLES[role]
    return with_leaf(body, path, rng.choice(pool))


# ---- trees: lists that are too long, and what stands twice


def one_of(rng: Random, options: list) -> Any:
    """One of some things, of whatever types they are."""
    return rng.choice(options)


def doubled(rng: Random, parts: tuple) -> tuple:
    """A list with one of its members twice, as far as it has any."""
    return parts + (rng.choice(parts),) if parts else parts


def change_type(rng: Random, t: TypeDeclaration) -> TypeDeclaration:
    many = tuple((f"f{k}", "long") for k in range(33 - len(t.fields)))
    return rng.choice([
        lambda: dataclasses.replace(t, fields=doubled(rng, t.fields)),
        lambda: dataclasses.replace(t, annotations=doubled(rng, t.annotations)),
        lambda: dataclasses.replace(t, fields=t.fields + many[:rng.choice([len(many), len(many) - 1])]),
        lambda: dataclasses.replace(t, annotations=t.annotations + (rng.choice(
            [Timestamp("n"), Duration("n"), Expires(5), Expires(0), Role(False), Role(True), Timestamp("s"),
             Reference()]),)),
        lambda: dataclasses.replace(t, annotations=tuple(a for a in t.annotations if not isinstance(a, Role)))])()


def change_source(rng: Random, s: Source) -> Source:
    n = rng.choice([31, 32, 33])
    events = [c + str(k) for c in "abxyz" for k in range(1, 6)]
    return rng.choice([
        lambda: dataclasses.replace(s, parts=doubled(rng, s.parts)),
        lambda: dataclasses.replace(s, parts=tuple(AnyOf(((Compare("n", "==", Literal(k)),),)) for k in range(n))),
        lambda: dataclasses.replace(s, parts=(AnyOf((tuple(Compare("n", "!=", Literal(k)) for k in range(n)),)),)),
        lambda: dataclasses.replace(s, parts=tuple(Bind(f"m{k}", "n") for k in range(n))),
        lambda: dataclasses.replace(s, parts=s.parts + (AnyOf(((OneOf("n", tuple(Literal(k) for k in range(n))),),)),)),
        lambda: dataclasses.replace(s, parts=s.parts + (Bind(rng.choice(VARIABLES), rng.choice(FIELDS)),)),
        lambda: dataclasses.replace(s, parts=s.parts + (Temporal(rng.choice(OPERATORS), tuple(
            rng.choice([-1, 0, 1, 5, 2**53 + 1]) for _ in range(rng.randrange(6))), rng.choice(events)),)),
        lambda: dataclasses.replace(s,
                                    window=rng.choice([TimeWindow(5), TimeWindow(0), LengthWindow(2),
                                                       LengthWindow(0)])),
        lambda: dataclasses.replace(s, entry=rng.choice(ENTRY_NAMES))])()


def change_rule(rng: Random, r: Rule) -> Rule:
    k = rng.randrange(len(r.conditions))
    condition = r.conditions[k]
    variables = VARIABLES[:20]
    source = condition.source

    def with_condition(changed: Condition) -> Rule:
        return dataclasses.replace(r, conditions=r.conditions[:k] + (changed,) + r.conditions[k + 1:])

    def bare(s: Source) -> Source:
        return Source(None, s.type, tuple(p for p in s.parts if isinstance(p, AnyOf)), None, s.entry)

    def some_action() -> Any:
        return rng.choice([Retract(rng.choice(variables)), Modify(rng.choice(variables), (("n", Literal(1)),)),
                           Modify(rng.choice(variables), (("n", Literal(1)), ("n", Literal(2)))),
                           Insert(rng.choice(TYPE_NAMES), (Literal(1),)),
                           Modify(rng.choice(variables),
                                  (("n", Binary("+", Variable(rng.choice(variables)), Literal(1))),)),
                           Modify(rng.choice(variables), (("n", FieldOf(rng.choice(variables), "n")),))])

    return rng.choice([
        lambda: dataclasses.replace(r, conditions=r.conditions + (condition,)),
        lambda: dataclasses.replace(r, conditions=tuple(Plain(bare(source)) for _ in range(rng.choice([8, 9])))),
        lambda: dataclasses.replace(r, actions=r.actions + tuple(some_action() for _ in range(rng.choice([1, 1, 2])))),
        lambda: dataclasses.replace(r, actions=tuple((r.actions or (some_action(),))[0]
                                                     for _ in range(rng.choice([16, 17])))),
        lambda: dataclasses.replace(r, attributes=doubled(rng, r.attributes) or (Salience(2**31),)),
        lambda: dataclasses.replace(r, conditions=r.conditions[1:] + r.conditions[:1]),
        lambda: with_condition(dataclasses.replace(condition, source=change_source(rng, source))),
        lambda: with_condition(dataclasses.replace(condition, source=change_source(rng, source))),
        lambda: with_condition(one_of(rng, [Negated, Existing, Plain])(source)),
        lambda: with_condition(Folded(rng.choice([None, "res"]), source, "sum", rng.choice(variables), tuple(
            (rng.choice(RELATIONS),
             one_of(rng, [Literal(1), Literal("a"), Own("n"), Variable("res"), Variable(rng.choice(variables))]))
            for _ in range(rng.choice([0, 1, 32, 33])))))])()


def change_body(rng: Random, body: Body) -> Body:
    if rng.random() < 0.5:
        return change_leaf(rng, body)
    if isinstance(body, TypeDeclaration):
        return change_type(rng, body)
    return change_rule(rng, body) if isinstance(body, Rule) else change_leaf(rng, body)


def change_file(rng: Random, bodies: list[Body]) -> list[Body]:
    """An item twice, one left out, or one too many of a sort."""
    rules = [b for b in bodies if isinstance(b, Rule)]
    many = rng.choice(["twice", "left out", "types", "rules", "entries", "named entries"])
    k = rng.randrange(len(bodies))
    if many == "twice":
        return bodies[:k] + [bodies[k]] + bodies[k:]
    if many == "left out":
        return bodies[:k] + bodies[k + 1:]
    if many == "types":
        return bodies + [TypeDeclaration(f"M{n}", (), ()) for n in range(rng.choice([124, 126, 128]))]
    if many == "rules":
        simple = Plain(Source(None, "T0", (), None, None))
        return bodies + [Rule(f"m{n}", (), (simple,), ()) for n in range(rng.choice([252, 256]))]
    entries: list = [EntryDeclaration(f"E{n}", None) for n in range(rng.choice([59, 62, 63, 64]))]
    if many == "entries" or not rules:
        return entries + bodies if rng.random() < 0.5 else bodies + entries
    return bodies + [Rule(f"m{n}", (), (Plain(Source(None, "T0", (), None, e.name)),), ())
                     for n, e in enumerate(entries)]


# ---- trees: a change that is meant for one code


def exchange(rng: Random, bodies: list[Body], roles: list[str], pool: list) -> list[Body]:
    """One leaf of these roles, somewhere in the file, is exchanged for one of the pool."""
    places = [(k, path) for k, b in enumerate(bodies) for path, value, role in leaves(b) if role in roles
              and value is not None]
    if not places:
        return bodies
    k, path = rng.choice(places)
    return bodies[:k] + [with_leaf(bodies[k], path, rng.choice(pool))] + bodies[k + 1:]


def pattern(name: str, variable: Optional[str], *parts: Any) -> Plain:
    return Plain(Source(variable, name, tuple(parts), None, None))


def with_rule(rng: Random, bodies: list[Body], conditions: list[Condition], actions: list) -> list[Body]:
    """A further rule, with the type that it speaks of."""
    more: list[Body] = [TypeDeclaration("Ev", (Role(True),), (("n", "long"), ("s", "String"))),
                        TypeDeclaration("Pl", (), (("n", "long"), ("s", "String"))),
                        Rule("planted", (), tuple(conditions), tuple(actions))]
    k = rng.randrange(len(bodies) + 1)
    return bodies[:k] + more + bodies[k:]


EVENT, PLAIN = pattern("Ev", "v"), pattern("Pl", "w")
FIELD_ROLES = ["Compare.field", "OneOf.field", "Bind.field", "FieldOf.field", "Own.field", "Timestamp.field",
               "Duration.field"]
VARIABLE_ROLES = ["Variable.name", "FieldOf.variable", "Temporal.other", "Folded.argument", "Modify.variable",
                  "Retract.variable"]


def unknown_type(rng: Random, bodies: list[Body]) -> list[Body]:
    return exchange(rng, bodies, ["Source.type", "Insert.type"], ["Nope", "t0"])


def unknown_field(rng: Random, bodies: list[Body]) -> list[Body]:
    return exchange(rng, bodies, FIELD_ROLES, ["zz", "N"])


def unknown_variable(rng: Random, bodies: list[Body]) -> list[Body]:
    return exchange(rng, bodies, VARIABLE_ROLES, ["nobody", "a", "v"])


def wrong_kind(rng: Random, bodies: list[Body]) -> list[Body]:
    value = one_of(rng, [Variable("v"), FieldOf("x", "n"), Literal("a"), Literal(True), FieldOf("v", "s"),
                         Negate(Literal("a"))])
    field, relation = rng.choice(["n", "s"]), rng.choice(RELATIONS)
    operand = one_of(rng, [Variable("v"), Literal(1), Literal("a"), FieldOf("x", "n"), FieldOf("v", "s")])
    test, bound = AnyOf(((Compare(field, relation, operand),),)), pattern("Ev", "v", Bind("x", "n"))
    return rng.choice([
        lambda: with_rule(rng, bodies, [bound, PLAIN], [Modify("w", (("n", value),))]),
        lambda: with_rule(rng, bodies, [bound, pattern("Pl", None, test)], []),
        lambda: with_rule(rng, bodies, [EVENT], [Insert("Pl", (Literal(1),) * rng.choice([1, 2, 3]))]),
        lambda: with_rule(rng, bodies, [bound], [rng.choice([Retract("x"), Modify("x", (("n", Literal(1)),))])]),
        lambda: exchange(rng, bodies, ["Literal.value"], ["a", True, 1])])()


def no_event(rng: Random, bodies: list[Body]) -> list[Body]:
    annotations = [(Timestamp("n"),), (Role(False), Duration("n")), (Expires(5),)]
    return rng.choice([
        lambda: with_rule(rng, bodies, [EVENT, pattern("Pl", None, Temporal("after", (), "v"))], []),
        lambda: with_rule(rng, bodies, [PLAIN, pattern("Ev", None, Temporal("after", (), "w"))], []),
        lambda: with_rule(rng, bodies, [Plain(Source(None, "Pl", (), TimeWindow(5), None))], []),
        lambda: bodies + [TypeDeclaration("Bad", one_of(rng, annotations), (("n", "long"),))]])()


def bad_timestamp(rng: Random, bodies: list[Body]) -> list[Body]:
    return bodies + [TypeDeclaration("Bad", (Role(True), one_of(rng, [Timestamp, Duration])("s")),
                                     (("s", rng.choice(["String", "boolean"])),))]


def event_fixed(rng: Random, bodies: list[Body]) -> list[Body]:
    return with_rule(rng, bodies, [PLAIN, EVENT], [Retract("w"), Modify("v", (("n", Literal(1)),))])


def bad_reference(rng: Random, bodies: list[Body]) -> list[Body]:
    return bodies + [TypeDeclaration("Bad", tuple(rng.sample([Role(True), Reference()], 2)), (("n", "long"),))]


def reference_fixed(rng: Random, bodies: list[Body]) -> list[Body]:
    action = rng.choice([Insert("Rf", (Literal(1),)), Modify("r", (("n", Literal(1)),)), Retract("r")])
    return with_rule(rng, [TypeDeclaration("Rf", (Reference(),), (("n", "long"),))] + bodies,
                     [EVENT, pattern("Rf", "r")], [action])


def event_observed(rng: Random, bodies: list[Body]) -> list[Body]:
    alone = Source(None, "Ev", (), None, None)
    observer = one_of(rng, [Negated(alone), Existing(alone),
                            Folded(None, Source("q", "Ev", (), None, None), "count", "q", ()),
                            Plain(Source(None, "Ev", (), LengthWindow(2), None)), EVENT])
    return with_rule(rng, bodies, [pattern("Ev", "u"), observer], [Retract(rng.choice(["u", "u", "w"]))])


def bad_parameters(rng: Random, bodies: list[Body]) -> list[Body]:
    timed = Temporal(rng.choice(OPERATORS), tuple(rng.choice([-1, 0, 5]) for _ in range(rng.randrange(5))), "v")
    windows = [TimeWindow(0), TimeWindow(-1), LengthWindow(0)]
    return rng.choice([
        lambda: with_rule(rng, bodies, [EVENT, pattern("Ev", None, timed)], []),
        lambda: with_rule(rng, bodies, [Plain(Source(None, "Ev", (), one_of(rng, windows), None))], []),
        lambda: bodies + [EntryDeclaration("Bad", rng.choice([-1, -(2**53)]))],
        lambda: bodies + [TypeDeclaration("Bad", (Role(True), Expires(rng.choice([0, -1]))), ())]])()


def no_match(rng: Random, bodies: list[Body]) -> list[Body]:
    tests = [Temporal("after", (1, 2), "v"),
             Temporal(rng.choice(["before", "after", "meets"]), (rng.choice([1, 2, 3]),), "v")]
    return with_rule(rng, bodies, [EVENT, pattern("Ev", None, *tests)], [])


def twice_declared(rng: Random, bodies: list[Body]) -> list[Body]:
    twice = Modify("w", (("n", Literal(1)), ("s", Literal("a")), ("n", Literal(2))))
    return rng.choice([
        lambda: bodies + [EntryDeclaration("Twice", None), EntryDeclaration("Twice", 1)],
        lambda: with_rule(rng, bodies, [EVENT, pattern("Pl", "v")], []),
        lambda: with_rule(rng, bodies, [pattern("Pl", "w", Bind("w", "n"))], []),
        lambda: with_rule(rng, bodies, [PLAIN], [twice]),
        lambda: [EntryDeclaration("DEFAULT", 5)] + bodies])()


# The changes that give one code each, where the file has a place for them; some are drawn twice as often.
MEANT = [unknown_type, unknown_field, unknown_variable, wrong_kind, wrong_kind, no_event, bad_timestamp, event_fixed,
         event_observed, bad_parameters, no_match, twice_declared, bad_reference, reference_fixed, bad_reference,
         reference_fixed]


def with_trees(rng: Random, bodies: list[Body]) -> list[Body]:
    """One or two changes to the items."""
    bodies = list(bodies)
    for _ in range(rng.choice([1, 1, 1, 2])):
        if rng.random() < 0.15:
            bodies = change_file(rng, bodies) or bodies
        else:
            k = rng.randrange(len(bodies))
            bodies[k] = change_body(rng, bodies[k])
    return bodies


# ---- the file


def planted(rng: Random) -> bytes:
    """A rule file with a refusal, mostly."""
    maker = FileMaker(rng)
    bodies, writer = maker.bodies(), Writer(rng)
    draw = rng.random()
    if draw < 0.35:
        bodies = rng.choice(MEANT)(rng, bodies)
    elif draw < 0.65:
        bodies = with_trees(rng, bodies)
    bodies = with_refused_choices(rng, bodies) if rng.random() < 0.4 else with_choices(rng, bodies)
    items = [writer.item(b) for b in bodies]
    if 0.65 <= draw < 0.77:
        items = with_tokens(rng, items)
    elif 0.77 <= draw < 0.80:
        items = with_deep_expression(rng, items)
    data = writer.text_of(items).encode("utf-8")
    if draw < 0.80:
        return data
    if draw < 0.86:
        return with_bytes(rng, data, BAD_CHARS)
    if draw < 0.90:
        return with_bytes(rng, data, OPEN_TEXTS)
    if draw < 0.94:
        return with_bytes(rng, data, OPEN_COMMENTS)
    if draw < 0.98:
        return with_bytes(rng, data, LARGE_NUMBERS)
    if draw < 0.985:
        return data + b" " * (1_048_576 - len(data) + rng.choice([0, 1]))
    cut = rng.randrange(len(data))
    return data[:cut]
