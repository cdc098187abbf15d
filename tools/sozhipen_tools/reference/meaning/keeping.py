"""What is kept of a world: its present plain facts, and the events that may matter still, or that a pending match
names."""

from __future__ import annotations

from collections import Counter
from functools import lru_cache

from .answers import Held
from .lives import life_of_type
from .program import Lives, Program
from .temporal import INFINITE
from .worlds import Fact, World, is_present, pending, present


@lru_cache(maxsize=16)
def inferred_lives(program: Program) -> Lives:
    """The lives of the event types that have no explicit expiry, by the rules."""
    return {t.name: life_of_type(program, t.name) for t in program.types.values() if t.event and t.expires is None}


def lives_of(program: Program) -> Lives:
    """The lives by which a run of the program forgets."""
    return inferred_lives(program) if program.lives is None else program.lives


def is_kept(f: Fact, w: World, named: set[int]) -> bool:
    """Present facts of types without a finite life; events within their life; events that a pending match names."""
    if f.id in named and w.program.types[f.type].event:
        return True
    life = lives_of(w.program).get(f.type, INFINITE)
    return is_present(f, w) if life == INFINITE else w.clock <= f.end + life


def kept_facts(w: World) -> list[Fact]:
    named = {f.id for m in pending(w) for f in m.row.facts}
    return [f for f in w.facts if is_kept(f, w, named)]


def kept_events(w: World) -> list[Fact]:
    return [f for f in kept_facts(w) if w.program.types[f.type].event]


def held(w: World) -> list[Held]:
    """For each event type in file order how many of its events are kept."""
    kept = Counter(f.type for f in kept_events(w))
    return [Held(t.name, kept[t.name]) for t in w.program.types.values() if t.event]


def has_forgotten(w: World) -> bool:
    """Whether some present fact is not kept."""
    return len(present(w)) > len(kept_facts(w))
