"""Random alternatives between conditions and random subtypes, put into the trees of a file that has none; and such as
are refused."""

from __future__ import annotations

from dataclasses import replace
from random import Random
from typing import Any, Callable

from ..meaning.trees import (Alternatives, AnyOf, Bind, Body, Compare, Condition, Existing, Folded, LengthWindow,
                             Literal, Negated, Plain, Reference, Role, Rule, Source, TypeDeclaration, WrittenCondition)

# ---- alternatives


def varied_source(rng: Random, s: Source) -> Source:
    """The same with other tests; what it binds is mostly bound still."""
    parts = [p for p in s.parts if not isinstance(p, AnyOf) or rng.random() < 0.6]
    if rng.random() < 0.03:
        parts = [p for p in parts if not isinstance(p, Bind)]
    if rng.random() < 0.4:
        parts.append(AnyOf(((Compare("n", rng.choice(["==", "!=", "<=", ">"]), Literal(rng.choice([0, 1, 2]))),),)))
    return replace(s, parts=tuple(parts))


def bare(s: Source) -> Source:
    return Source(None, s.type, tuple(p for p in s.parts if isinstance(p, AnyOf) and not p.names_variable), None,
                  s.entry)


def choice(rng: Random, c: Condition, depth: int) -> tuple[WrittenCondition, ...]:
    """One choice: the condition with other tests, maybe with a further condition, or alternatives again."""
    if depth < 3 and rng.random() < 0.2:
        return (alternatives(rng, c, depth + 1),)
    found: list[WrittenCondition] = [replace(c, source=varied_source(rng, c.source))]
    if rng.random() < 0.2:
        sorts: list[Callable[[Source], Condition]] = [Plain, Plain, Negated]
        found = rng.sample([found[0], rng.choice(sorts)(bare(c.source))], 2)
    return tuple(found)


def alternatives(rng: Random, c: Condition, depth: int = 1) -> Alternatives:
    choices: list[tuple[WrittenCondition, ...]] = [(c,)] + [choice(rng, c, depth)
                                                            for _ in range(rng.choice([1, 1, 1, 2]))]
    rng.shuffle(choices)
    return Alternatives(tuple(choices))


def with_alternatives(rng: Random, rule: Rule) -> Rule:
    places = [k for k in range(len(rule.conditions)) if rng.random() < 0.4]
    return replace(rule, conditions=tuple(alternatives(rng, c) if k in places else c
                                          for k, c in enumerate(rule.conditions)))


# ---- subtypes


def observed_by(bodies: list[Body]) -> set[str]:
    """The types that no other type may extend, as some condition counts or orders their facts."""
    conditions = [c for b in bodies if isinstance(b, Rule) for c in b.conditions]
    return {c.source.type for c in conditions if isinstance(c, (Existing, Folded))
            or isinstance(c.source.window, LengthWindow)}


def subtype(rng: Random, name: str, parent: TypeDeclaration, number: int) -> TypeDeclaration:
    """A type with some fields of its own, which may say otherwise what its parent says of expiry."""
    fields = tuple((f"w{number}{k}", rng.choice(["long", "boolean", "String"]))
                   for k in range(rng.choice([0, 1, 1, 2])))
    annotations = [a for a in parent.annotations if not isinstance(a, (Role, Reference)) and rng.random() < 0.1]
    return TypeDeclaration(name, tuple(annotations), fields, parent.name)


def with_subtypes(rng: Random, bodies: list[Body]) -> list[Body]:
    """One to three types below others that no condition counts."""
    types = [b for b in bodies if isinstance(b, TypeDeclaration)]
    observed = observed_by(bodies)
    added: list[TypeDeclaration] = []
    for number in range(rng.choice([1, 1, 2, 3])):
        parents = [t for t in types + added if t.name not in observed]
        if parents:
            added.append(subtype(rng, f"S{number}", rng.choice(parents), number))
    for t in added:
        bodies = bodies[:(k := rng.randrange(len(bodies) + 1))] + [t] + bodies[k:]
    return bodies


def with_choices(rng: Random, bodies: list[Body]) -> list[Body]:
    """The items of a file with subtypes, and with alternatives in some rules."""
    bodies = with_subtypes(rng, bodies) if rng.random() < 0.5 else bodies
    return [with_alternatives(rng, b) if isinstance(b, Rule) and rng.random() < 0.6 else b for b in bodies]


# ---- what is refused


def pattern(name: str) -> Plain:
    return Plain(Source(None, name, (), None, None))


def nested(rng: Random, depth: int) -> WrittenCondition:
    """Alternatives so deep within one another."""
    found: WrittenCondition = pattern("Ba")
    for _ in range(depth):
        choices: list[tuple[WrittenCondition, ...]] = [(found,), (pattern("Ba"),)]
        found = Alternatives(tuple(rng.sample(choices, 2)))
    return found


def many_ways(rng: Random) -> tuple[WrittenCondition, ...]:
    """About as many choices as there may be in all."""
    first, second = rng.choice([(16, 16), (16, 17), (128, 2), (2, 128), (257, 1), (256, 1)])
    return tuple(Alternatives(tuple((pattern("Ba"),) for _ in range(n))) for n in (first, second) if n > 1)


def long_way(rng: Random) -> tuple[WrittenCondition, ...]:
    """About as many conditions as a rule may have, in one choice or by a `not` on a type with subtypes."""
    n = rng.choice([7, 8])
    longer = Alternatives((tuple(pattern("Ba") for _ in range(n)), (pattern("Ba"),)))
    negated = tuple(Negated(Source(None, "Ba", (), None, None)) for _ in range(rng.choice([4, 5])))
    ways: list[tuple[WrittenCondition, ...]] = [(pattern("Ba"), longer), negated,
                                                (Alternatives((negated, (pattern("Ba"),))),)]
    return rng.choice(ways)


def with_refused_choices(rng: Random, bodies: list[Body]) -> list[Body]:
    """Further items that are mostly refused for their alternatives or their subtypes."""
    base, below = TypeDeclaration("Ba", (), (("n", "long"),)), TypeDeclaration("Be", (), (("m", "long"),), "Ba")
    source = Source("q", "Ba", (), None, None)

    def rule(*conditions: Any) -> Rule:
        return Rule("choices", (), conditions, ())

    sorts: list[Callable[[], list[Body]]] = [
        lambda: [TypeDeclaration("Be", (), (), "Nowhere")],
        lambda: [TypeDeclaration("Ba", (), (), "Be"), TypeDeclaration("Be", (), (), "Ba"),
                 TypeDeclaration("Bi", (), (), "Ba")],
        lambda: [TypeDeclaration("Ba", (), (), "Ba")],
        lambda: [base, TypeDeclaration("Ba", (), (), "Ba")],
        lambda: [base, below, rule(rng.choice([Existing(source), Folded(None, source, "count", "q", ())]))],
        lambda: [replace(base, annotations=(Role(True),)), below, rule(Plain(replace(source, window=LengthWindow(2))))],
        lambda: [base, below,
                 rule(Alternatives(((pattern("Ba"),), (Negated(source), Existing(replace(source, variable=None))))))],
        lambda: [base, rule(*many_ways(rng))],
        lambda: [base, below, rule(*many_ways(rng))],
        lambda: [base, below, rule(*long_way(rng))],
        lambda: [base, rule(*long_way(rng))],
        lambda: [base, rule(nested(rng, rng.choice([15, 16, 17])))],
        lambda: [base, TypeDeclaration("Be", (), tuple((f"f{k}", "long") for k in range(rng.choice([31, 32]))), "Ba")],
        lambda: [base, TypeDeclaration("Be", (), (("n", "long"),), "Ba")],
        lambda: [base, TypeDeclaration("Be", (Reference(),), (), "Bi"), TypeDeclaration("Bi", (Role(True),), (), "Ba")],
        lambda: [base, below, rule(Negated(source))],
        lambda: [base, rule(Alternatives(((pattern("Ba"),), (pattern("Bo"),)))), TypeDeclaration("or", (), ())],
        lambda: [base, replace(rule(Alternatives(((pattern("Ba"),), (pattern("Ba"),)))),
                               name=rng.choice(["x" * 253, "x" * 254]))],
        lambda: [base, rule(Alternatives(((pattern("Ba"),), (pattern("Ba"),)))),
                 replace(rule(pattern("Ba")), name=rng.choice(["choices", "choices #2"]))],
        lambda: [base, rule(pattern("Ba"), Alternatives(((pattern("Ba"),),)))]]
    more = rng.choice(sorts)()
    more = rng.sample(more, len(more)) if rng.random() < 0.3 else more
    k = rng.randrange(len(bodies) + 1)
    return bodies[:k] + more + bodies[k:]
