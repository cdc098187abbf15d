"""The image of a world, what images fit a program, and the world of an image that fits."""

from __future__ import annotations

from dataclasses import replace
from typing import Iterable, Optional

from ..meaning.keeping import inferred_lives, kept_facts, lives_of
from ..meaning.program import Lives, Program, TypeInfo
from ..meaning.temporal import INFINITE
from ..meaning.trees import Folded, Plain, kind_of_value
from ..meaning.worlds import TIME_END, Fact, Row, World, arguments, candidates, passes
from .image import (ENDLESS, EXPLICIT, FINITE, PLAIN, Extra, FiredMatch, Image, ImageFact, ImageLife, ImageRow, Named,
                    RunPart)
from .laden import Beyond, Extras, LadenWorld, beyond_of, key_of, rows_before
from .prefixes import owners

NUMBER_END = 2**61
LIFE_END = 2**62


# ---- the image of a world


def taken_values(condition: Folded, facts: Iterable[Fact]) -> list[int]:
    """What an accumulate takes of facts; 0 stands for what is no whole number."""
    return [v if type(v) is int else 0 for v in arguments(condition, list(facts))]


def image_row(row: Row) -> ImageRow:
    return ImageRow(tuple(Named(f.id, f.tag) for f in row.facts), row.values)


def extras_under(k: int, j: int, w: World, kept: set[int]) -> list[Extra]:
    """For each row of kept facts alone what the condition counts beyond kept facts."""
    condition, found = w.program.rules[k].conditions[j], []
    for row in rows_before(k, j, w):
        if not kept.issuperset(row.tags):
            continue
        lost = [f for f in candidates(condition.source, w) if f.tag not in kept and passes(condition.source, f, row)]
        before = beyond_of(k, j, w).get(key_of(row), Beyond(0, ()))
        count = len(lost) + before.count
        values = sorted(taken_values(condition, lost) + list(before.values)) if isinstance(condition, Folded) else []
        if count:
            found.append(Extra(k, j, image_row(row), count, tuple(values)))
    return sorted(found, key=lambda e: (e.row.tags, e.row.values))


def image_life(info: TypeInfo, lives: Lives) -> ImageLife:
    if not info.event:
        return ImageLife(PLAIN)
    if info.expires is not None:
        return ImageLife(EXPLICIT, info.expires)
    life = lives[info.name]
    return ImageLife(ENDLESS) if life == INFINITE else ImageLife(FINITE, int(life))


def image_lives(program: Program) -> Optional[tuple[ImageLife, ...]]:
    """Those by which a run of the program forgets, None where they are those of the rules."""
    lives = lives_of(program)
    if lives == inferred_lives(program):
        return None
    return tuple(image_life(info, lives) for info in program.types.values())


def image_of(w: World, run: RunPart) -> Image:
    """The clock, the numbers, and what is kept: facts, marks of matches that name kept facts alone, and what rows of
    kept facts have beyond them; the lives, where they are not those of the rules. What several rules begin with stands
    under the first of them."""
    program, entries = w.program, list(w.program.latenesses)
    types = list(program.types)
    facts = sorted(kept_facts(w), key=lambda f: f.tag)
    ids = {f.tag: f.id for f in facts}
    fired = sorted(key for key in w.fired if all(tag in ids for tag in key[1]))
    extras = [e for (k, j), owner in owners(program).items()
              if k == owner and not isinstance(program.rules[k].conditions[j], Plain)
              for e in extras_under(k, j, w, set(ids))]
    return Image(run, w.clock, w.begun, tuple(w.last_starts.get(e, 0) for e in entries),
                 tuple(w.promises.get(e, 0) for e in entries), w.next_id, w.next_tag,
                 tuple(ImageFact(f.id, types.index(f.type), entries.index(f.entry),
                                 tuple(f.values[name] for name in program.types[f.type].fields), f.tag, f.start, f.end)
                       for f in facts),
                 tuple(FiredMatch(k, ImageRow(tuple(Named(ids[tag], tag) for tag in tags), values))
                       for k, tags, values in fired),
                 tuple(extras),
                 image_lives(program))


def is_too_large(image: Image) -> bool:
    """A number of it is above 2^61."""
    return max(image.next_id, image.next_tag, image.run.lines, image.run.firings) > NUMBER_END


# ---- the world of an image


def fact_of(f: ImageFact, program: Program) -> Fact:
    info, entry = list(program.types.values())[f.type], list(program.latenesses)[f.entry]
    return Fact(f.id, f.tag, info.name, entry, dict(zip(info.fields, f.fields)), f.start, f.end)


def extras_of(image: Image) -> Extras:
    extras: Extras = {}
    for e in image.extras:
        extras.setdefault((e.rule, e.condition), {})[e.row.tags, e.row.values] = Beyond(e.count, e.values)
    return extras


def program_of(image: Image, program: Program) -> Program:
    """The program, a run of which forgets by the lives that the image says."""
    if image.lives is None:
        return program
    lives: Lives = {name: INFINITE if life.sort == ENDLESS else life.ms
                    for name, life in zip(program.types, image.lives) if life.sort in (FINITE, ENDLESS)}
    return replace(program, lives=lives)


def world_of(image: Image, program: Program) -> LadenWorld:
    """The world of the facts of an image, with what its rows have beyond them, and its lives."""
    program = program_of(image, program)
    entries = list(program.latenesses)
    return LadenWorld(program, tuple(fact_of(f, program) for f in image.facts), image.clock,
                      dict(zip(entries, image.last_starts)), dict(zip(entries, image.promises)), image.next_id,
                      image.next_tag, frozenset((m.rule, m.row.tags, m.row.values) for m in image.fired), image.begun,
                      extras=extras_of(image))


# ---- what fits: each function is one demand


def is_sorted(keys: list) -> bool:
    """Each stands behind the one before it, and none twice."""
    return all(a < b for a, b in zip(keys, keys[1:]))


def numbers_fit(image: Image, program: Program) -> bool:
    entries = len(program.latenesses)
    return (0 <= image.clock <= TIME_END and not is_too_large(image) and min(image.next_id, image.next_tag) >= 1
            and len(image.last_starts) == entries and all(0 <= n <= image.clock for n in image.last_starts)
            and len(image.promises) == entries and all(0 <= n <= TIME_END for n in image.promises))


def times_fit(f: ImageFact, info: TypeInfo, image: Image) -> bool:
    """A plain fact has no times; an event starts from 0 up to the clock and to the last start of its entry point, and
    lasts from 0 to 2^53 ms, a point 0."""
    if not info.event:
        return f.start == f.end == 0
    return (image.begun and 0 <= f.start <= min(image.clock, image.last_starts[f.entry])
            and 0 <= f.end - f.start <= (0 if info.duration is None else TIME_END))


def fact_fits(f: ImageFact, image: Image, program: Program) -> bool:
    """Its type and its entry point are the program's, its values have the kinds of its fields, its numbers were
    given."""
    if f.type >= len(program.types) or f.entry >= len(program.latenesses):
        return False
    info = list(program.types.values())[f.type]
    return ([kind_of_value(v) for v in f.fields] == list(info.fields.values()) and f.id < image.next_id
            and f.tag < image.next_tag and times_fit(f, info, image))


def facts_fit(image: Image, program: Program) -> bool:
    """Tags rise, ids stand once, and the events of an entry point start one behind the other."""
    types = list(program.types.values())
    if not all(fact_fits(f, image, program) for f in image.facts):
        return False
    starts: dict[int, list[int]] = {}
    for f in image.facts:
        if types[f.type].event:
            starts.setdefault(f.entry, []).append(f.start)
    return (is_sorted([f.tag for f in image.facts]) and len({f.id for f in image.facts}) == len(image.facts)
            and all(s == sorted(s) for s in starts.values()))


def is_safe(life: ImageLife, info: TypeInfo, program: Program) -> bool:
    """No event of the type is forgotten too early by the life: a finite one is at least that of the rules. A plain type
    and an explicit expiry are called what they are."""
    if not info.event or info.expires is not None:
        return life == image_life(info, {})
    least = inferred_lives(program)[info.name]
    return life == ImageLife(ENDLESS) or life.sort == FINITE and least <= life.ms <= LIFE_END


def lives_fit(image: Image, program: Program) -> bool:
    """The lives that it says are safe for the program."""
    if image.lives is None:
        return True
    infos = list(program.types.values())
    return len(image.lives) == len(infos) and all(is_safe(*it, program) for it in zip(image.lives, infos))


def extra_fits(e: Extra, program: Program) -> bool:
    """It stands under the first rule that begins so, at a condition that binds nothing, on events of a finite life; its
    values are those of an accumulate, rising."""
    if owners(program).get((e.rule, e.condition)) != e.rule:
        return False
    condition = program.rules[e.rule].conditions[e.condition]
    if isinstance(condition, Plain) or lives_of(program).get(condition.source.type, INFINITE) == INFINITE:
        return False
    return (1 <= e.count <= NUMBER_END and len(e.values) == (e.count if isinstance(condition, Folded) else 0)
            and list(e.values) == sorted(e.values))


def are_rows(named: Iterable[ImageRow], rows: list[Row]) -> bool:
    found = {image_row(row) for row in rows}
    return all(row in found for row in named)


def rows_fit(image: Image, w: LadenWorld) -> bool:
    """The rows of extras and the fired matches are there, by what the extras themselves add."""
    places: dict[tuple[int, int], list[ImageRow]] = {}
    for e in image.extras:
        places.setdefault((e.rule, e.condition), []).append(e.row)
    for m in image.fired:
        if m.rule >= len(w.program.rules):
            return False
        places.setdefault((m.rule, len(w.program.rules[m.rule].conditions)), []).append(m.row)
    return all(are_rows(named, rows_before(k, end, w)) for (k, end), named in places.items())


def fits(image: Image, program: Program) -> bool:
    """Whether a run of the program can go on from an image; its text of the rules aside."""
    if not lives_fit(image, program):
        return False
    program = program_of(image, program)
    extras_in_order = is_sorted([(e.rule, e.condition, e.row.tags, e.row.values) for e in image.extras])
    fired_in_order = is_sorted([(m.rule, m.row.tags, m.row.values) for m in image.fired])
    if not (numbers_fit(image, program) and facts_fit(image, program) and extras_in_order and fired_in_order
            and all(extra_fits(e, program) for e in image.extras)):
        return False
    w = world_of(image, program)
    return rows_fit(image, w) and len(kept_facts(w)) == len(w.facts)
