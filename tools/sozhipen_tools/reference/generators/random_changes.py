"""Random rule files, each made of the one before it, with the lines that are run under each.

Rules go, move, are edited, get other variables, and come; types and entry points come and move. Seldom a type or an
entry point becomes another one, which is refused. What rules have pending is mostly fired before other rules come.
Often events are kept for rules that come later, and sometimes the first rules come back, or the same ones under other
comments.
"""

from __future__ import annotations

import json
from dataclasses import dataclass, replace
from functools import lru_cache
from itertools import count
from random import Random
from typing import Any, Callable, Optional, Union

from ..images.changes import changed, kept_for, longer_types, refusal
from ..images.image import RunPart
from ..images.saving import image_of
from ..images.show import item, show
from ..meaning.desk import Desk
from ..meaning.keeping import lives_of
from ..meaning.program import Program, TypeInfo, observed_types, salience_of
from ..meaning.reader import Refused, read_file
from ..meaning.run import program_or_refusal
from ..meaning.script import lines_of
from ..meaning.trees import (BOOL, INT, Body, DialectAttribute, EntryDeclaration, Expires, Item, Rule, Salience,
                             TypeDeclaration)
from ..meaning.worlds import World
from .generate import accepted_case
from .random_lives import lives_case
from .random_rules import ENTRY_NAMES, SPANS, FileMaker
from .random_shared import shared_case

FIRE = b'{"do":"fire"}'
# Lines that only a desk knows.
OF_DESKS = [b'{"do":"facts"}', b'{"do":"counts"}', b'{"do":"save"}']
SOME_CUTS = 4
# The most firings of a line, and what a world may come to.
LIMIT = 12
MOST_FACTS = 60
MOST_MATCHES = 250
MOST_TRIES = 12
GREAT = 50
NUMBERS = ["0", "1", "2", "5", "8", "20", "100"]
# The items of a file with a change, where there is one.
Change = Callable[[], Optional[list[Body]]]


@dataclass(frozen=True)
class Part:
    """A rule file, the lines that are run under it, and the file of the rules for which events are kept, where one is
    named."""
    rules: bytes
    lines: tuple[bytes, ...]
    keep: Optional[bytes] = None


@lru_cache(maxsize=64)
def accepted(rules: bytes) -> Program:
    """The program of a file that is accepted."""
    program = program_or_refusal(rules)
    assert not isinstance(program, str), "the files are accepted"
    return program


def text_of(bodies: list[Body]) -> bytes:
    return show(Item(0, body) for body in bodies)


def int_fields(info: TypeInfo) -> list[str]:
    return [name for name, kind in info.fields.items() if kind == INT]


def is_great(token: str) -> bool:
    return token.isdigit() and int(token) >= GREAT


class FileChanger:
    """Changes the items of an accepted file, step by step; each step leaves one that is accepted."""

    def __init__(self, rng: Random, program: Program):
        self.rng, self.program = rng, program
        self.bodies = [it.body for it in program.written]

    def chance(self, p: float) -> bool:
        return self.rng.random() < p

    def change(self, steps: int) -> None:
        for _ in range(steps):
            self.step()

    def step(self) -> None:
        """One change, where one of some that are tried is accepted."""
        for _ in range(MOST_TRIES):
            if self.takes(self.rng.choice(self.changes())()):
                return

    def takes(self, bodies: Optional[list[Body]]) -> bool:
        """Goes on with these items, where there are some and they are accepted."""
        program = "" if bodies is None else program_or_refusal(text_of(bodies))
        if bodies is None or isinstance(program, str):
            return False
        self.bodies, self.program = bodies, program
        return True

    def changes(self) -> list[Change]:
        common: list[Change] = [
            self.without_rule, self.without_rule, self.without_rules, self.with_other_bound, self.with_rules_moved,
            self.with_rule_edited, self.with_rule, self.with_small_rule, self.with_small_rule, self.with_small_rule,
            self.with_other_variables, self.with_twin, self.with_type, self.with_all_moved, self.with_entry]
        seldom: list[Change] = [self.with_other_type, self.without_type, self.with_other_lateness]
        return common * 6 + seldom if self.chance(0.5) else common

    # ---- places

    def places(self, sort: type) -> list[int]:
        return [k for k, body in enumerate(self.bodies) if isinstance(body, sort)]

    def with_body(self, k: int, *bodies: Body) -> list[Body]:
        return self.bodies[:k] + list(bodies) + self.bodies[k + 1:]

    def put_in(self, body: Body) -> list[Body]:
        """With one item more, mostly at the end; an item of the head stays in front."""
        k = len(self.bodies) if self.chance(0.6) else self.rng.randint(0, len(self.bodies))
        return self.bodies[:k] + [body] + self.bodies[k:]

    def name(self, letter: str) -> str:
        """A name that no rule or type has."""
        known = {body.name for body in self.bodies if isinstance(body, (Rule, TypeDeclaration))}
        return next(name for name in (f"{letter}{k}" for k in range(100)) if name not in known)

    # ---- rules

    def without_rule(self) -> Optional[list[Body]]:
        rules = self.places(Rule)
        return self.with_body(self.rng.choice(rules)) if len(rules) > 1 else None

    def without_rules(self) -> Optional[list[Body]]:
        """All but one or two rules are gone."""
        rules = self.places(Rule)
        left = self.rng.sample(rules, min(len(rules), self.rng.choice([1, 2])))
        return [body for k, body in enumerate(self.bodies) if k not in rules or k in left] if len(rules) > 2 else None

    def with_other_bound(self) -> Optional[list[Body]]:
        """The greatest number of a rule is another one: mostly that of the rule that gives a type its life."""
        long = [k for k in self.places(Rule) if any(is_great(token) for token in item(self.bodies[k]))]
        if not long:
            return None
        k = self.rng.choice(long)
        tokens = item(self.bodies[k])
        great = max((token for token in tokens if is_great(token)), key=int)
        bound = str(self.rng.randrange(1, 2 * int(great)))
        other = self.read([bound if token == great else token for token in tokens])
        return None if other is None else self.with_body(k, other)

    def with_rules_moved(self) -> list[Body]:
        places = self.places(Rule)
        rules = [self.bodies[k] for k in places]
        self.rng.shuffle(rules)
        moved = dict(zip(places, rules))
        return [moved.get(k, body) for k, body in enumerate(self.bodies)]

    def with_all_moved(self) -> list[Body]:
        """Types, entry points and rules in another order, behind the head."""
        sorts = (TypeDeclaration, EntryDeclaration, Rule)
        behind = [body for body in self.bodies if isinstance(body, sorts)]
        self.rng.shuffle(behind)
        return [body for body in self.bodies if not isinstance(body, sorts)] + behind

    def with_rule_edited(self) -> Optional[list[Body]]:
        places = self.places(Rule)
        if not places:
            return None
        k = self.rng.choice(places)
        rule = self.bodies[k]
        assert isinstance(rule, Rule)
        edited = self.rng.choice([self.other_number, self.other_number, self.other_salience, self.renamed,
                                  self.without_actions, self.without_last])(rule)
        return None if edited is None else self.with_body(k, edited)

    def other_number(self, rule: Rule) -> Optional[Rule]:
        tokens = item(rule)
        numbers = [k for k, token in enumerate(tokens) if token.isdigit()]
        if not numbers:
            return None
        k = self.rng.choice(numbers)
        return self.read(tokens[:k] + [self.rng.choice(NUMBERS)] + tokens[k + 1:])

    def read(self, tokens: list[str]) -> Optional[Rule]:
        try:
            body = read_file(" ".join(tokens).encode())[0].body
        except (Refused, IndexError):
            return None
        return body if isinstance(body, Rule) else None

    def other_salience(self, rule: Rule) -> Rule:
        others = tuple(a for a in rule.attributes if isinstance(a, DialectAttribute))
        return replace(rule, attributes=(*others, Salience(salience_of(rule) + self.rng.choice([-1, 1]))))

    def renamed(self, rule: Rule) -> Rule:
        return replace(rule, name=self.name("q"))

    def with_twin(self) -> Optional[list[Body]]:
        """With another rule that begins with the conditions of one."""
        places = self.places(Rule)
        if not places:
            return None
        rule = self.bodies[self.rng.choice(places)]
        assert isinstance(rule, Rule)
        some = rule.conditions[:self.rng.choice([len(rule.conditions), self.rng.randint(1, len(rule.conditions))])]
        return self.put_in(replace(rule, name=self.name("t"), conditions=some, actions=()))

    def without_actions(self, rule: Rule) -> Optional[Rule]:
        return replace(rule, actions=()) if rule.actions else None

    def without_last(self, rule: Rule) -> Optional[Rule]:
        return replace(rule, conditions=rule.conditions[:-1]) if len(rule.conditions) > 1 else None

    def with_other_variables(self) -> Optional[list[Body]]:
        """Of a rule that stays."""
        places = self.places(Rule)
        if not places:
            return None
        k = self.rng.choice(places)
        other = self.read([token + "x" if token.startswith("$") else token for token in item(self.bodies[k])])
        return None if other is None else self.with_body(k, other)

    def with_rule(self) -> Optional[list[Body]]:
        """With any rule over the types that have fields."""
        maker = FileMaker(self.rng)
        maker.types = [info for info in self.program.types.values() if info.fields]
        maker.entries, maker.bounded = list(self.program.latenesses), True
        if not maker.types:
            return None
        conditions, seen = maker.conditions()
        rule = maker.rule(self.name("n"), conditions, seen, set())
        observed = self.program.observed | observed_types([rule], self.program.types)
        kept = tuple(a for a in rule.actions if self.chance(0.3)) if self.chance(0.3) and not observed else ()
        return self.put_in(replace(rule, actions=kept))

    def with_small_rule(self) -> Optional[list[Body]]:
        """With a rule over two types, of a small reach."""
        rng, types = self.rng, list(self.program.types.values())
        first, second = rng.choice(types), rng.choice(types)
        joined = [f"{mine} == $a.{its}" for mine in int_fields(second)[:1] for its in int_fields(first)[:1]]
        timed = [f"this after[0ms,{rng.choice(SPANS)}ms] $a"] if first.event and second.event else []
        parts = ", ".join([*(joined if self.chance(0.7) else []), *(timed if self.chance(0.85) else [])])
        over = f" over window:time( {rng.choice(SPANS)}ms )" if second.event and self.chance(0.3) else ""
        source = f"{second.name}( {parts} ){over}"
        counted = f"$z : {second.name}( {parts} ){over}"
        last = rng.choice([source, source, f"not( {source} )", f"exists( {source} )", "",
                           f"Number( longValue >= {rng.randrange(3)} ) from accumulate( {counted}, count( $z ) )"])
        action = self.told() if self.chance(0.3) else ""
        rule = self.read([f'rule "{self.name("n")}" when $a : {first.name}( {self.alone(first)} ) {last} '
                          f"then {action} end"])
        return None if rule is None else self.put_in(rule)

    def alone(self, info: TypeInfo) -> str:
        fields = int_fields(info)
        return f"{self.rng.choice(fields)} >= {self.rng.randrange(2)}" if fields and self.chance(0.5) else ""

    def told(self) -> str:
        """An action that inserts a fact of a type that has come."""
        come = [t for t in self.program.types.values() if t.name.startswith("N") and not t.reference]
        return f"insert( new {self.rng.choice(come).name}( 1 ) );" if come else ""

    # ---- types and entry points

    def with_type(self) -> list[Body]:
        event = self.rng.choice(["", " @role( event )", " @role( event )", f" @role( event ) @expires( {self.span()} )",
                                 " @reference"])
        return self.put_in(read_file(f"declare {self.name('N')}{event} k : long end".encode())[0].body)

    def span(self) -> str:
        return f"{self.rng.choice(SPANS)}ms"

    def with_entry(self) -> Optional[list[Body]]:
        names = [name for name in [*ENTRY_NAMES, "new door"] if name not in self.program.latenesses]
        return self.put_in(EntryDeclaration(self.rng.choice(names), self.rng.choice([None, 1, 5]))) if names else None

    def with_other_type(self) -> Optional[list[Body]]:
        places = self.places(TypeDeclaration)
        k = self.rng.choice(places)
        declared = self.bodies[k]
        assert isinstance(declared, TypeDeclaration)
        others = [replace(declared, fields=declared.fields + (("extra", "long"),)),
                  replace(declared, fields=declared.fields[::-1]), replace(declared, fields=declared.fields[1:]),
                  replace(declared, annotations=tuple(a for a in declared.annotations if not isinstance(a, Expires))),
                  replace(declared, annotations=declared.annotations + (Expires(7),))]
        return self.with_body(k, self.rng.choice(others))

    def without_type(self) -> Optional[list[Body]]:
        places = self.places(TypeDeclaration)
        return self.with_body(self.rng.choice(places)) if len(places) > 1 else None

    def with_other_lateness(self) -> Optional[list[Body]]:
        places = self.places(EntryDeclaration)
        if not places:
            return None
        k = self.rng.choice(places)
        declared = self.bodies[k]
        assert isinstance(declared, EntryDeclaration)
        return self.with_body(k, replace(declared, lateness=(declared.lateness or 0) + 1))


# ---- scripts


def base_case(rng: Random) -> tuple[Program, list[bytes]]:
    """An accepted file with a script; often some of its rules begin alike."""
    while True:
        made: Any = rng.choice([lives_case, lives_case, lives_case, shared_case, shared_case, accepted_case])(rng)
        rules, script = made if isinstance(made, tuple) else (made.rules, made.script)
        program: Union[Program, str] = program_or_refusal(rules)
        if isinstance(program, str):
            continue
        changer = FileChanger(rng, program)
        for _ in range(rng.choice([0, 0, 1, 2])):
            changer.takes(changer.with_twin())
        return changer.program, lines_of(script)


def value_of_kind(rng: Random, kind: Optional[str]) -> Any:
    return rng.random() < 0.5 if kind == BOOL else rng.randrange(2) if kind == INT else rng.choice(["", "a"])


def new_line(rng: Random, info: TypeInfo, entries: list[str]) -> bytes:
    """Inserts a fact of a type that has come, perhaps into an entry point that has."""
    fields = {name: value_of_kind(rng, kind) for name, kind in info.fields.items()}
    entry = {"entry": rng.choice(entries)} if rng.random() < 0.4 else {}
    return json.dumps({"do": "insert", "type": info.name, "fields": fields, **entry}).encode()


def lines_under(rng: Random, program: Program, lines: list[bytes]) -> list[bytes]:
    """The lines, and between them such as insert facts of types that have come, and such as only a desk knows."""
    come, entries = [t for t in program.types.values() if t.name.startswith("N")], list(program.latenesses)
    found: list[bytes] = []
    for line in lines:
        found.append(line)
        found += [new_line(rng, rng.choice(come), entries)] if come and rng.random() < 0.25 else []
        found += [rng.choice(OF_DESKS)] if rng.random() < 0.06 else []
        found += [FIRE] if rng.random() < 0.08 else []
    return found


def cut_of(rng: Random, program: Program, lines: list[bytes]) -> int:
    """Behind which line other rules come: mostly, of some lines, where most rows count forgotten events."""
    places = [rng.randint(len(lines) // 4, len(lines) * 2 // 3) for _ in range(SOME_CUTS)]
    if rng.random() < 0.3:
        return places[0]
    state = Desk(World(program), LIMIT, LIMIT, [])
    counts: dict[int, int] = {}
    for k, line in enumerate(lines, 1):
        state.line(k, line)
        if k in places:
            counts[k] = len(image_of(state.world, RunPart(b"", 0, 0, False)).extras)
    return max(places, key=lambda k: counts.get(k, 0))


def first_program(part: Part) -> Program:
    """That of a desk without an image."""
    program = accepted(part.rules)
    return program if part.keep is None else kept_for(program, accepted(part.keep))


def keep_refusal(w: World, part: Part) -> Optional[str]:
    """Why a desk does not go on in a world whose events are to be kept for other rules, None where it does."""
    longer = [] if part.keep is None else longer_types(lives_of(w.program), accepted(part.keep))
    return f"Longer {longer[0]}" if longer else None


def world_under(w: World, part: Part) -> World:
    """The world under the rules of a part, the same one where these are refused."""
    new = accepted(part.rules)
    if refusal(w, new) is not None:
        return w
    other = changed(w, new)
    return w if keep_refusal(other, part) else other


def is_small(parts: list[Part]) -> bool:
    """The world stays so small under these rules that its matches can be found anew behind each line."""
    state = Desk(World(first_program(parts[0])), LIMIT, LIMIT, [])
    for part in parts:
        state.world = world_under(state.world, part)
        for line in part.lines:
            state.line(0, line)
            if len(state.world.facts) > MOST_FACTS or len(state.world.matches) > MOST_MATCHES:
                return False
    return True


def changes_of(seed: int) -> list[Part]:
    """The parts of a seed: two and three files, or more where no line is run under some."""
    tries = (parts_of(Random(f"changes/{seed}/{k}")) for k in count())
    return next(parts for parts in tries if is_small(parts))


def parts_of(rng: Random) -> list[Part]:
    program, lines = base_case(rng)
    first, cuts = program, [cut_of(rng, program, lines)]
    cuts += [rng.randint(cuts[0], len(lines))] if rng.random() < 0.4 else []
    parts: list[Part] = []
    for begin, end in zip([0, *cuts], [*cuts, len(lines)]):
        if parts:
            changer = FileChanger(rng, first if len(parts) > 1 and rng.random() < 0.4 else program)
            changer.change(rng.choice([0, 1, 1, 1, 2, 3, 4]))
            program = changer.program
            parts += [Part(text_of(changer.bodies), ())] if rng.random() < 0.4 else []
        under = lines_under(rng, program, lines[begin:end])
        if end < len(lines) and rng.random() < 0.5:
            under += [FIRE] * 3
        parts.append(Part(commented(rng, show(program.written)), tuple(under)))
    return with_keep(rng, program, parts)


def commented(rng: Random, rules: bytes) -> bytes:
    """Sometimes under a comment."""
    return b"// version %d\n%s" % (rng.randrange(10), rules) if rng.random() < 0.2 else rules


def with_keep(rng: Random, program: Program, parts: list[Part]) -> list[Part]:
    """Often events are kept for the rules of a part until these come, or for such as never come; seldom one part alone
    asks for that, which is mostly too late."""
    k = rng.randrange(1, len(parts))
    there = range(k) if rng.random() < 0.5 else range(k, k + 1) if rng.random() < 0.4 else range(0)
    rules = parts[k].rules if len(there) == k and rng.random() < 0.7 else other_rules(rng, program)
    return [replace(part, keep=rules) if place in there else part for place, part in enumerate(parts)]


def other_rules(rng: Random, program: Program) -> bytes:
    """Of a file that is some steps away, with types that may be others."""
    changer = FileChanger(rng, program)
    changer.change(2)
    for _ in range(2):
        changer.takes(changer.with_other_bound())
    return text_of(changer.bodies)
