"""What the lines of a script answer, and how it is written: as lines of text, or as objects in JSON.

Text is what the program `replay` prints, and for what it has no line what `desk` prints with `--text`. An object is in
compact JSON with its members in the order of their bytes, one to a line.
"""

from __future__ import annotations

import json
from dataclasses import dataclass
from typing import Any, Callable, Optional, Union

from .trees import Folded, Plain
from .worlds import Fact, Match, World

# ---- what steps and firings answer


@dataclass(frozen=True)
class Inserted:
    fact: Fact


@dataclass(frozen=True)
class Modified:
    """The version that the fact has become."""
    fact: Fact


@dataclass(frozen=True)
class Retracted:
    """What was retracted; an event may have been gone by then."""
    type: str
    id: int


@dataclass(frozen=True)
class Fired:
    """A match, and the world in which it fired."""
    match: Match
    world: World


@dataclass(frozen=True)
class Faulted:
    """A line, or an action of a firing, was faulty."""
    code: str


# ---- what commands answer


@dataclass(frozen=True)
class Held:
    """So many events of this type are kept."""
    type: str
    count: int


@dataclass(frozen=True)
class LimitOfRun:
    """The limit of firings ended the run."""
    limit: int


@dataclass(frozen=True)
class LimitOfLine:
    """The limit of firings ended the line."""
    limit: int


@dataclass(frozen=True)
class Saved:
    """The image of the run is in its file."""


@dataclass(frozen=True)
class Kept:
    """A fact that is kept."""
    fact: Fact


@dataclass(frozen=True)
class Counted:
    """The clock, how many facts of each type are kept, the firings of the run so far, the floor of each entry point,
    and how many matches are pending."""
    clock: int
    counts: dict[str, int]
    firings: int
    floors: dict[str, int]
    pending: int


@dataclass(frozen=True)
class Done:
    """All is told that the line answers."""


@dataclass(frozen=True)
class FireDone:
    """All is told that a fire command answers: how many firings it made, and whether a match is pending behind it."""
    fired: int
    pending: bool


# ---- what is told before the first line


@dataclass(frozen=True)
class RuleChanged:
    """Of other rules over a running state: whether a rule of this name stays, is new, or is gone."""
    name: str
    change: str


STAYS, NEW, GONE = "stays", "new", "gone"

Answer = Union[Inserted, Modified, Retracted, Fired, Faulted, Held, LimitOfRun, LimitOfLine, Saved, Kept, Counted, Done,
               FireDone, RuleChanged]


# ---- as text


def quoted(text: str) -> str:
    """A text literal: backslash, quote, newline, tab and carriage return by their escapes."""
    for raw, escape in (("\\", "\\\\"), ('"', '\\"'), ("\n", "\\n"), ("\t", "\\t"), ("\r", "\\r")):
        text = text.replace(raw, escape)
    return f'"{text}"'


def fire_line(m: Match, w: World) -> str:
    cells = "".join(f" #{c.id}" if isinstance(c, Fact) else f" ={c}" for c in m.row.cells)
    return f"fire {quoted(w.program.title(m.rule))}{cells}"


# By the sort of answer its line, of the answer and the number of the script's line; the others have none.
TEXTS: dict[type, Callable[[Any, int], str]] = {
    Inserted: lambda a, n: f"new #{a.fact.id} {a.fact.type}",
    Fired: lambda a, n: fire_line(a.match, a.world),
    Faulted: lambda a, n: f"fault {n} {a.code}",
    Held: lambda a, n: f"held {a.type} {a.count}",
    LimitOfRun: lambda a, n: f"limit {a.limit}",
    LimitOfLine: lambda a, n: f"limit {n} {a.limit}",
    Saved: lambda a, n: f"saved {n}",
    Kept: lambda a, n: f"fact #{a.fact.id} {a.fact.type}",
    Done: lambda a, n: f"done {n}",
    FireDone: lambda a, n: f"done {n}",
    RuleChanged: lambda a, n: f"rule {quoted(a.name)} {a.change}"}


def text_of(answer: Answer, number: int) -> Optional[str]:
    """The line of an answer to the script's line of this number, where it has one."""
    write = TEXTS.get(type(answer))
    return write and write(answer, number)


# ---- as objects


def named(name: Optional[str]) -> dict[str, str]:
    """The member for the variable to which a condition is bound."""
    return {} if name is None else {"name": f"${name}"}


def fired_members(a: Fired) -> dict[str, Any]:
    """What the conditions bound, in their order: facts with their fields, and the results of accumulates."""
    facts: list[dict[str, Any]] = []
    results: list[dict[str, Any]] = []
    binding = [c for c in a.world.program.rules[a.match.rule].conditions if isinstance(c, (Plain, Folded))]
    for condition, cell in zip(binding, a.match.row.cells):
        if isinstance(cell, Fact):
            facts.append({"id": cell.id, "type": cell.type, "fields": cell.values, **named(condition.source.variable)})
        elif isinstance(condition, Folded):
            results.append({"value": cell, **named(condition.result)})
    return {"fire": a.world.program.title(a.match.rule), "at": a.world.clock, "facts": facts, "results": results}


def fact_members(word: str, fact: Fact) -> dict[str, Any]:
    return {word: fact.id, "type": fact.type, "fields": fact.values}


# By the sort of answer the members of its object, but for the number of the script's line.
MEMBERS: dict[type, Callable[[Any], dict[str, Any]]] = {
    Inserted: lambda a: fact_members("new", a.fact),
    Modified: lambda a: fact_members("modified", a.fact),
    Retracted: lambda a: {"retracted": a.id, "type": a.type},
    Fired: fired_members,
    Faulted: lambda a: {"fault": a.code},
    Held: lambda a: {"held": a.type, "count": a.count},
    LimitOfLine: lambda a: {"limit": a.limit},
    Saved: lambda a: {"saved": True},
    Kept: lambda a: fact_members("fact", a.fact),
    Counted: lambda a: {"clock": a.clock, "counts": a.counts, "firings": a.firings, "floors": a.floors,
                        "pending": a.pending},
    Done: lambda a: {},
    FireDone: lambda a: {"fired": a.fired, "pending": a.pending},
    RuleChanged: lambda a: {"rule": a.name, "change": a.change}}


def object_of(answer: Answer, number: int) -> str:
    """The object of an answer to the script's line of this number, in JSON."""
    place = "done" if isinstance(answer, (Done, FireDone)) else "line"
    numbered = {} if isinstance(answer, RuleChanged) else {place: number}
    return json.dumps({**numbered, **MEMBERS[type(answer)](answer)}, sort_keys=True, separators=(",", ":"),
                      ensure_ascii=False)
