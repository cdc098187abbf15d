"""Random rule files that are accepted: small domains, so that joins hit and rules fire."""

from __future__ import annotations

from dataclasses import dataclass
from random import Random
from typing import Any, Callable, Optional

from ..meaning.program import DEFAULT, TypeInfo, type_info
from ..meaning.trees import (BOOL, INT, TEXT, Action, AnyOf, Binary, Bind, Body, Compare, Comparison, Condition,
                             Dialect, DialectAttribute, Duration, EntryDeclaration, Existing, Expires, Expr, FieldOf,
                             Folded, Import, Insert, LengthWindow, Literal, Modify, Negate, Negated, OneOf, Operand,
                             Own, Package, Part, Plain, Reference, Retract, Role, Rule, Salience, Source, Temporal,
                             Timestamp, TimeWindow, TypeDeclaration, Value, Variable, Window)

KIND_WORDS = {INT: ["long", "int", "Long", "Integer"], BOOL: ["boolean", "Boolean"], TEXT: ["String"]}
TEXTS = ["", "a", "b", "a b", 'q"\\', "\u00e9\n"]
NUMBERS = [0, 0, 1, 1, 2]
EDGES = [-1, 5, 2**63 - 1, -(2**63) + 1, 2**62]
SPANS = [1, 2, 3, 5, 8, 13]
ENTRY_NAMES = ["X", "late door", "Y"]
COUNTER = "n"
COUNTER_END = 2


def small_value(rng: Random, kind: Optional[str]) -> Value:
    if kind == BOOL:
        return rng.random() < 0.5
    if kind == TEXT:
        return rng.choice(TEXTS[:3] if rng.random() < 0.9 else TEXTS)
    return rng.choice(NUMBERS) if rng.random() < 0.95 else rng.choice(EDGES)


@dataclass
class Seen:
    """What is in sight: variables of facts with their types, of values with their kinds."""
    facts: dict[str, TypeInfo]
    values: dict[str, Optional[str]]


class FileMaker:
    """Makes the trees of one file.

    In a bounded file every run comes to an end by itself: an action inserts only types that stand behind all those of
    its rule's patterns, and modifies only facts whose counter is below an end, raising it. Other files may fire for
    ever, so their scripts give each fire command a greatest number.
    """

    def __init__(self, rng: Random):
        self.rng = rng
        self.bounded = rng.random() < 0.6
        self.next_variable = 0
        self.types: list[TypeInfo] = []
        self.entries = [DEFAULT] + [name for name in ENTRY_NAMES if rng.random() < 0.5]
        self.busy_entries = rng.random() < 0.4

    def chance(self, p: float) -> bool:
        return self.rng.random() < p

    def variable(self) -> str:
        self.next_variable += 1
        return self.rng.choice("abxyz") + str(self.next_variable)

    # ---- declarations

    def declaration(self, name: str, event: bool) -> TypeDeclaration:
        rng = self.rng
        fields = [(COUNTER, rng.choice(KIND_WORDS[INT]))]
        for field in "kmst"[: rng.randint(0, 3)]:
            fields.append((field, rng.choice(KIND_WORDS[rng.choice([INT, INT, BOOL, TEXT])])))
        annotations: list = []
        if event:
            annotations.append(Role(True))
            if self.chance(0.5):
                fields.append(("at", "long"))
                annotations.append(Timestamp("at"))
            if self.chance(0.4):
                fields.append(("len", "int"))
                annotations.append(Duration("len" if self.chance(0.9) else COUNTER))
            if self.chance(0.25):
                annotations.append(Expires(rng.choice(SPANS)))
        else:
            annotations += [Role(False)] if self.chance(0.2) else []
            annotations += [Reference()] if self.chance(0.4) else []
        rng.shuffle(fields)
        rng.shuffle(annotations)
        return TypeDeclaration(name, tuple(annotations), tuple(fields))

    def entry_declarations(self) -> list[EntryDeclaration]:
        found = []
        for name in self.entries:
            if self.chance(0.25 if name == DEFAULT else 0.7):
                found.append(EntryDeclaration(name, self.rng.choice([None, 0, 1, 3, 5, 10])))
        return found

    # ---- conditions

    def operand(self, kind: Optional[str], info: Optional[TypeInfo], seen: Seen) -> Operand:
        """An operand of this kind: a literal, a field of the tested fact, a variable or a field of one."""
        choices: list[Operand] = []
        if info is not None:
            choices += [Own(f) for f, k in info.fields.items() if k == kind]
        joins: list[Operand] = [Variable(v) for v, k in seen.values.items() if k == kind]
        joins += [FieldOf(v, f) for v, t in seen.facts.items() for f, k in t.fields.items() if k == kind]
        if joins and self.chance(0.7):
            return self.rng.choice(joins)
        if choices and self.chance(0.15):
            return self.rng.choice(choices)
        return Literal(small_value(self.rng, kind))

    def comparison(self, info: TypeInfo, seen: Seen) -> Comparison:
        field, kind = self.rng.choice(list(info.fields.items()))
        if self.chance(0.15):
            return OneOf(field, tuple(self.operand(kind, info, seen) for _ in range(self.rng.randint(1, 3))))
        relations = ["==", "==", "!="] + (["<=", "<=", ">=", ">=", "<", ">"] if kind == INT else [])
        return Compare(field, self.rng.choice(relations), self.operand(kind, info, seen))

    def any_of(self, info: TypeInfo, seen: Seen) -> AnyOf:
        groups = self.rng.choice([1, 1, 1, 1, 2, 3])
        return AnyOf(tuple(tuple(self.comparison(info, seen) for _ in range(self.rng.choice([1, 1, 1, 2])))
                           for _ in range(groups)))

    def temporal(self, seen: Seen) -> Optional[Temporal]:
        events = [v for v, t in seen.facts.items() if t.event]
        if not events:
            return None
        operator = self.rng.choice(["after", "after", "before", "coincides", "during", "includes", "finishes",
                                    "finishedby", "starts", "startedby", "meets", "metby", "overlaps", "overlappedby"])
        counts = {"during": [0, 1, 2, 4], "includes": [0, 1, 2, 4], "after": [0, 1, 2, 2, 2], "before": [0, 1, 2, 2, 2],
                  "coincides": [0, 1, 2], "overlaps": [0, 1, 2], "overlappedby": [0, 1, 2]}.get(operator, [0, 1])
        low = -8 if operator in ("after", "before") else 0
        parameters = [self.rng.randint(low, 8) for _ in range(self.rng.choice(counts))]
        if operator not in ("after", "before") and len(parameters) in (2, 4) and self.chance(0.8):
            parameters = sorted(parameters[:2]) + sorted(parameters[2:])
        return Temporal(operator, tuple(parameters), self.rng.choice(events))

    def source(self, seen: Seen, bind: bool, observed: bool = False) -> tuple[Source, Seen]:
        """A pattern, and what it binds; its own variables are not in sight in it."""
        rng = self.rng
        info = rng.choice(self.types)
        parts: list[Part] = [self.any_of(info, seen) for _ in range(rng.choice([0, 0, 1, 1, 2]))]
        own = Seen({}, {})
        if self.bounded and COUNTER in info.fields and not info.event and bind and self.chance(0.4):
            parts.append(AnyOf(((Compare(COUNTER, "<", Literal(COUNTER_END)),),)))
        if bind and self.chance(0.5):
            field, kind = rng.choice(list(info.fields.items()))
            name = self.variable()
            own.values[name] = kind
            parts.append(Bind(name, field))
        test = self.temporal(seen) if info.event and self.chance(0.8) else None
        if test is not None:
            parts.append(test)
        variable = self.variable() if bind and self.chance(0.8) else None
        if variable is not None:
            own.facts[variable] = info
        rng.shuffle(parts)
        window: Optional[Window] = None
        if info.event and self.chance(0.35 if observed else 0.15):
            window = TimeWindow(rng.choice(SPANS)) if self.chance(0.6) else LengthWindow(rng.randint(1, 3))
        entry = rng.choice(self.entries) if self.busy_entries and self.chance(0.5) else None
        return Source(variable, info.name, tuple(parts), window, entry), own

    def folded(self, seen: Seen) -> Folded:
        source, own = self.source(seen, False, True)
        info = next(t for t in self.types if t.name == source.type)
        function = self.rng.choice(["count", "sum", "min", "max", "average"])
        argument = self.variable()
        if function == "count" and self.chance(0.5):
            source = Source(argument, source.type, source.parts, source.window, source.entry)
        else:
            field = self.rng.choice([f for f, k in info.fields.items() if function == "count" or k == INT])
            source = Source(source.variable, source.type, source.parts + (Bind(argument, field),), source.window,
                            source.entry)
        tests = tuple((self.rng.choice(["==", "!=", "<", "<=", ">", ">="]), self.operand(INT, None, seen))
                      for _ in range(self.rng.choice([0, 0, 1, 1, 2])))
        return Folded(self.variable() if self.chance(0.7) else None, source, function, argument, tests)

    def condition(self, seen: Seen, first: bool) -> Condition:
        if self.chance(0.1 if first else 0.35):
            sorts: list[Callable[[Source], Condition]] = [Negated, Negated, Existing]
            return self.rng.choice(sorts)(self.source(seen, False, True)[0])
        if self.chance(0.2):
            folded = self.folded(seen)
            if folded.result is not None:
                seen.values[folded.result] = INT
            return folded
        source, own = self.source(seen, True)
        seen.facts.update(own.facts)
        seen.values.update(own.values)
        return Plain(source)

    # ---- actions

    def expr(self, kind: Optional[str], seen: Seen, height: int = 0) -> Expr:
        if kind == INT and height == 0 and self.chance(0.06):
            return Binary(self.rng.choice("+-*"), self.expr(INT, seen, 2), Literal(2**63 - 1))
        if kind == INT and height < 3 and self.chance(0.3):
            if self.chance(0.2):
                return Negate(self.expr(INT, seen, height + 1))
            return Binary(self.rng.choice("++-*"), self.expr(INT, seen, height + 1), self.expr(INT, seen, height + 1))
        leaf: Any = self.operand(kind, None, seen)
        # A negative number in an expression is a minus before a number.
        if isinstance(leaf, Literal) and kind == INT and int(leaf.value) < 0:
            return Negate(Literal(-int(leaf.value)))
        return leaf

    def insertion(self, rule_types: list[str], seen: Seen) -> Optional[Insert]:
        places = {t.name: k for k, t in enumerate(self.types)}
        after = max((places[name] for name in rule_types), default=-1) if self.bounded else -1
        types = [t for t in self.types[after + 1:] if not t.reference]
        if not types:
            return None
        info = self.rng.choice(types)
        return Insert(info.name, tuple(self.expr(kind, seen) for kind in info.fields.values()))

    def modification(self, seen: Seen, guarded: set[str]) -> Optional[Modify]:
        facts = [v for v, t in seen.facts.items() if not t.event and not t.reference
                 and (not self.bounded or v in guarded)]
        if not facts:
            return None
        variable = self.rng.choice(facts)
        fields = seen.facts[variable].fields
        chosen = [f for f in fields if f != COUNTER and self.chance(0.5)]
        sets = [(f, self.expr(fields[f], seen)) for f in chosen]
        if self.bounded or self.chance(0.7) or not sets:
            sets.append((COUNTER, Binary("+", FieldOf(variable, COUNTER), Literal(1))))
        return Modify(variable, tuple(sets))

    def retraction(self, seen: Seen, observed: set[str]) -> Optional[Retract]:
        facts = [v for v, t in seen.facts.items() if t.name not in observed and not t.reference]
        return Retract(self.rng.choice(facts)) if facts else None

    def guarded_variables(self, conditions: list[Condition]) -> set[str]:
        guard = AnyOf(((Compare(COUNTER, "<", Literal(COUNTER_END)),),))
        return {str(c.source.variable) for c in conditions if isinstance(c, Plain) and guard in c.source.parts}

    def conditions(self) -> tuple[list[Condition], Seen]:
        seen = Seen({}, {})
        conditions: list[Condition] = []
        for k in range(self.rng.choice([1, 2, 2, 2, 3])):
            conditions.append(self.condition(seen, k == 0))
        return conditions, seen

    def rule(self, name: str, conditions: list[Condition], seen: Seen, observed: set[str]) -> Rule:
        attributes: list = [Salience(self.rng.choice([-1, 0, 1, 5]))] if self.chance(0.3) else []
        attributes += [DialectAttribute("mvel")] if self.chance(0.1) else []
        actions: list[Action] = []
        for _ in range(self.rng.choice([0, 1, 1, 2, 3])):
            action = self.rng.choice([
                lambda: self.insertion([c.source.type for c in conditions], seen),
                lambda: self.modification(seen, self.guarded_variables(conditions)),
                lambda: self.modification(seen, self.guarded_variables(conditions)),
                lambda: self.retraction(seen, observed)])()
            if action is not None:
                actions.append(action)
        return Rule(name, tuple(attributes), tuple(conditions), tuple(actions))

    # ---- the file

    def bodies(self) -> list[Body]:
        """The items of a file, in any order."""
        rng = self.rng
        declarations = [self.declaration(f"T{k}", self.chance(0.45)) for k in range(rng.choice([1, 2, 2, 3, 3, 4]))]
        self.types = [type_info(d) for d in declarations]
        bodies: list[Body] = list(declarations)
        bodies += self.entry_declarations()
        made = [self.conditions() for _ in range(rng.randint(1, 4))]
        events = {t.name for t in self.types if t.event}
        observed = {c.source.type for conditions, _ in made for c in conditions
                    if c.source.type in events
                    and (not isinstance(c, Plain) or isinstance(c.source.window, LengthWindow))}
        names = (["r%d" % k for k in range(len(made))] if self.chance(0.8)
                 else ['q"\\\t%d' % k for k in range(len(made))])
        rules = [self.rule(name, conditions, seen, observed) for name, (conditions, seen) in zip(names, made)]
        bodies += rules
        if self.chance(0.3):
            rng.shuffle(bodies)
        head: list[Body] = []
        head += [Package(("shop", "orders"))] if self.chance(0.2) else []
        head += [Import(("com", "shop"), self.chance(0.5))] if self.chance(0.1) else []
        head += [Dialect("mvel")] if self.chance(0.1) else []
        return head + bodies
