"""Other rules over a running world: which of them stay, when they are refused, and what the world is under them.

A rule stays where one of the same name, salience, conditions and actions stands among the others, whatever its
variables are called. The facts, the numbers, the clock, the last starts and the promises stay as they are, and so do
the marks of the rules that stay: what they have pending stays pending. What a new rule matches at the change is marked,
and fires when it comes anew. Types and entry points may come; those that are there stay as they are. Events are
forgotten by the lives of before, and those of new types by the lives of the new rules.
"""

from __future__ import annotations

from collections import defaultdict
from dataclasses import replace
from typing import Any, Hashable, Optional

from ..meaning.answers import GONE, NEW, STAYS, RuleChanged
from ..meaning.keeping import inferred_lives, lives_of
from ..meaning.lookup import Memory
from ..meaning.program import Lives, Program, TypeInfo, observed_types
from ..meaning.temporal import INFINITE
from ..meaning.worlds import World, pending
from .laden import Extras, LadenWorld
from .prefixes import fronts, owners, whole_form

# ---- which rules stay


def rules_that_stay(old: Program, new: Program) -> dict[int, int]:
    """For each rule that stays its place among the new ones. Of several that are the same the first stays as the first,
    and so on."""
    places: dict[Hashable, list[int]] = defaultdict(list)
    for k, rule in enumerate(new.rules):
        places[new.title(k), whole_form(rule)].append(k)
    found = ((k, places[old.title(k), whole_form(rule)]) for k, rule in enumerate(old.rules))
    return {k: there.pop(0) for k, there in found if there}


def new_rules(old: Program, new: Program) -> list[int]:
    there = set(rules_that_stay(old, new).values())
    return [k for k in range(len(new.rules)) if k not in there]


def told(old: Program, new: Program) -> list[RuleChanged]:
    """Which rules stay and which are new, in the order of the new file, then which are gone, in that of the old one. Of
    a rule that is written out each of these is told once."""
    stay, added = rules_that_stay(old, new), new_rules(old, new)
    lines = [RuleChanged(new.title(k), NEW if k in added else STAYS) for k in range(len(new.rules))]
    lines += [RuleChanged(old.title(k), GONE) for k in range(len(old.rules)) if k not in stay]
    return list(dict.fromkeys(lines))


# ---- when it is refused


def is_same_type(info: TypeInfo, other: Optional[TypeInfo]) -> bool:
    """Its fields stand in the same order, too."""
    return info == other and other is not None and list(info.fields) == list(other.fields)


def longer_types(lives: Lives, new: Program) -> list[str]:
    """Types whose events the new rules need for longer than these lives keep them, in the order of their file. Of types
    that have no life here nothing is forgotten that they need."""
    return [name for name, life in inferred_lives(new).items() if life > lives.get(name, INFINITE)]


def forgotten_types(lives: Lives, old: Program, new: Program) -> list[str]:
    """Types of which a new rule has a `not`, an `exists`, an accumulate or a window of length, where not all that is
    present is kept."""
    counted = observed_types([new.rules[k] for k in new_rules(old, new)], new.types)
    return [name for name in new.types if name in counted and lives.get(name, INFINITE) != INFINITE]


def refusal(w: World, new: Program) -> Optional[str]:
    """Why other rules are refused over a world, None where they are not."""
    old, lives = w.program, lives_of(w.program)
    if not all(is_same_type(info, new.types.get(name)) for name, info in old.types.items()):
        return "OtherTypes"
    if any(new.latenesses.get(entry) != lateness for entry, lateness in old.latenesses.items()):
        return "OtherEntries"
    stay = rules_that_stay(old, new)
    if any(m.rule not in stay for m in pending(w)):
        return "Pending"
    if longer := longer_types(lives, new):
        return f"Longer {longer[0]}"
    if forgotten := forgotten_types(lives, old, new):
        return f"Forgotten {forgotten[0]}"
    return None


# ---- lives that are longer than a run needs


def kept_for(program: Program, keep: Program) -> Program:
    """The program, a run of which keeps events for as long as other rules need those of the types of the same names."""
    needs = inferred_lives(keep)
    return replace(program, lives={name: max(life, needs.get(name, 0))
                                   for name, life in inferred_lives(program).items()})


# ---- the world behind the change


def carried_lives(lives: Lives, new: Program) -> Lives:
    """The lives of before, and those of new types by the new rules."""
    return {name: lives.get(name, life) for name, life in inferred_lives(new).items()}


def carried_extras(w: LadenWorld, new: Program) -> Extras:
    """What rows have beyond the facts, under the first of the new rules that begins so."""
    first = {front: owners(w.program)[place] for place, front in fronts(w.program).items()}
    found = ((k, j, first.get(front)) for (k, j), front in fronts(new).items() if owners(new)[k, j] == k)
    return {(k, j): w.extras[owner, j] for k, j, owner in found if owner is not None and (owner, j) in w.extras}


def changed(w: World, new: Program) -> World:
    """The world under other rules, where these are not refused."""
    stay = rules_that_stay(w.program, new)
    changes: dict[str, Any] = {"program": replace(new, lives=carried_lives(lives_of(w.program), new)),
                               "fired": frozenset(), "memory": Memory()}
    if isinstance(w, LadenWorld):
        changes["extras"] = carried_extras(w, new)
    other = replace(w, **changes)
    marks = {(stay[k], tags, values) for k, tags, values in w.fired if k in stay}
    added = set(new_rules(w.program, new))
    return other.with_fired(frozenset(marks | {m.key for m in other.matches if m.rule in added}))
