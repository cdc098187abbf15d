"""Holds runs that are saved and go on from their image against the same runs without a break.

    tools/run reference.comparers.try_resume --seeds A B [--cuts N]

The script of a seed is cut behind random lines. The first part is run and saved; the run that goes on from the bytes of
the image has to print what the run over the whole script prints behind the cut, to end with its status, and to have the
same image at the end. The one run keeps every event, the other only those of the image, so what is forgotten too early,
or is not counted in what rows have beyond the kept facts, shows. Two of three seeds are of finite lives. Then bytes of
the image are spoilt: the rest has one image of exactly these bytes or none. And its parts are changed: where it fits
still, the run goes on without a fault of this program. The last line says what was seen.
"""

from __future__ import annotations

import sys
from collections import Counter
from dataclasses import replace
from random import Random
from typing import Optional

from ...words import Parser
from ..generators.generate import case_of, lives_case_of
from ..images.image import BadImage, Image, decode, encode
from ..images.resume import Refused, resumed, saved
from ..images.saving import fits, world_of
from ..meaning.program import Program
from ..meaning.run import Run, program_or_refusal, run, run_on
from ..meaning.script import lines_of
from ..meaning.trees import Folded, Negated


def parts_at(script: bytes, cut: int) -> tuple[bytes, bytes]:
    """The first lines, each with its end, and the rest."""
    lines = lines_of(script)
    first = b"".join(line + b"\n" for line in lines[:cut])
    return first, script[len(first):]


def outcome_of(state: Run) -> tuple[list[str], int, Optional[bytes]]:
    return state.lines, state.status, None if state.ended else saved(state)


def count_image(counts: Counter, image: Image, program: Program) -> None:
    counts["images"] += 1
    counts["fired"] += len(image.fired)
    for e in image.extras:
        condition = program.rules[e.rule].conditions[e.condition]
        counts["folded" if isinstance(condition, Folded) else "negated" if isinstance(condition, Negated)
               else "existing"] += 1


def goes_on(program: Program, data: bytes, rest: bytes, limit: int) -> tuple[list[str], int, Optional[bytes]]:
    return outcome_of(run_on(resumed(data, program, limit), rest))


def difference(program: Program, script: bytes, limit: int, cut: int, counts: Counter, rng: Random) -> Optional[str]:
    """What is wrong with a script that is cut behind so many lines."""
    first, rest = parts_at(script, cut)
    state = run(program, first, limit)
    if state.ended:
        return None
    data = saved(state)
    image = decode(data)
    if encode(image) != data:
        return "the image has other bytes when it is written again"
    count_image(counts, image, program)
    lines, status, end = outcome_of(run(program, script, limit))
    try:
        got = goes_on(program, data, rest, limit)
    except Refused as refused:
        return f"the image is refused by {refused}"
    if got != (lines[len(state.lines):], status, end):
        return f"the run goes on with {got[:2]}, without the break it is {lines[len(state.lines):]} and {status}"
    without = encode(replace(image, extras=()))
    if image.extras and fits(decode(without), program):
        counts["telling"] += goes_on(program, without, rest, limit) != got
    return spoilt_bytes(data, counts, rng) or changed_parts(image, program, rest, counts, rng)


def spoilt_bytes(data: bytes, counts: Counter, rng: Random) -> Optional[str]:
    """Other bytes are no image's, or exactly the bytes of theirs."""
    for _ in range(8):
        k = rng.randrange(len(data) + 1)
        other = rng.choice([data[:k], data[:k] + data[k + 1:], data[:k] + bytes([rng.randrange(256)]) + data[k + 1:],
                            data[:k] + bytes([rng.randrange(3)]) + data[k + 1:], data + b"\x00",
                            data[:k] + b"\x00" + data[k:]])
        try:
            if encode(decode(other)) != other:
                return f"{other!r} is read, and written otherwise"
            counts["read"] += 1
        except BadImage:
            counts["BadImage"] += 1
    return None


def other_number(rng: Random, n: int) -> int:
    return max(0, rng.choice([n + 1, n - 1, 0, 1, n + 2**53, 2**61, 2**61 + 1, 2**64 - 1]) % 2**64)


def changed(image: Image, rng: Random) -> Image:
    """The image with one part left out, doubled or changed."""
    name = rng.choice(["clock", "begun", "last_starts", "promises", "next_id", "next_tag", "facts", "fired", "extras",
                       "facts", "fired", "extras"])
    value = getattr(image, name)
    if isinstance(value, bool):
        return replace(image, begun=not value)
    if isinstance(value, int):
        return replace(image, **{name: other_number(rng, value) % 2**62})
    if not value:
        return image
    k = rng.randrange(len(value))
    part = value[k]
    if isinstance(part, int):
        return replace(image, **{name: value[:k] + (other_number(rng, part) % 2**62,) + value[k + 1:]})
    options = [value[:k] + value[k + 1:], value[:k] + (part,) + value[k:], value[k:] + value[:k]]
    if name == "facts":
        field = rng.choice(["id", "tag", "type", "entry", "start", "end"])
        wide = other_number(rng, getattr(part, field)) % (2**16 if field in ("type", "entry") else 2**62)
        options += [value[:k] + (replace(part, **{field: wide}),) + value[k + 1:]] * 3
        options.append(value[:k] + (replace(part, fields=part.fields[1:]),) + value[k + 1:])
    else:
        names = rng.sample(part.row.facts, len(part.row.facts))
        other = [replace(part, row=replace(part.row, facts=tuple(names[1:]))), replace(part, rule=part.rule + 1)]
        if names:
            other.append(replace(part, row=replace(part.row, facts=(replace(names[0], id=names[0].id + 1),)
                                                   + tuple(names[1:]))))
        if name == "extras":
            other += [replace(part, count=other_number(rng, part.count)), replace(part, condition=part.condition + 1),
                      replace(part, values=part.values + (rng.randrange(3),), count=part.count + 1),
                      replace(part, count=part.count + 1)]
        options += [value[:k] + (o,) + value[k + 1:] for o in other]
    return replace(image, **{name: rng.choice(options)})


def changed_parts(image: Image, program: Program, rest: bytes, counts: Counter, rng: Random) -> Optional[str]:
    """An image that is changed does not fit, or a run goes on from it to an end."""
    for _ in range(4):
        other = changed(image, rng)
        if other == image:
            continue
        if not fits(other, program):
            counts["Unfit"] += 1
            continue
        counts["fit"] += 1
        state = run_on(Run(world_of(other, program), 20, 20, [], number=other.run.lines), rest)
        if (not state.ended and max(state.world.next_id, state.world.next_tag) < 2**61
            and not fits(decode(saved(state)), program)):
            counts["no more"] += 1
    return None


def main() -> int:
    parser = Parser(description="Holds saved runs that go on against runs without a break.")
    parser.add_argument("--seeds", type=int, nargs=2, default=(0, 300), metavar=("A", "B"), help="from A up to B - 1")
    parser.add_argument("--cuts", type=int, default=2, help="how many cuts of a script (default 2)")
    asked = parser.parse_args()
    counts: Counter = Counter()
    wrong = 0
    for seed in range(*asked.seeds):
        case = case_of(seed) if seed % 3 == 0 else lives_case_of(seed)
        program, rng = program_or_refusal(case.rules), Random(f"resume/{seed}")
        if isinstance(program, str):
            continue
        for _ in range(asked.cuts):
            cut = rng.randint(0, len(lines_of(case.script)))
            if said := difference(program, case.script, case.limit or 100_000, cut, counts, rng):
                wrong += 1
                print(f"seed {seed}, cut behind line {cut}: {said}", flush=True)
    print(f"{counts['images'] - wrong} of {counts['images']} runs went on as without a break; in their images: fired "
          f"matches {counts['fired']}, rows with forgotten events of a not {counts['negated']}, an exists "
          f"{counts['existing']}, an accumulate {counts['folded']}; without these {counts['telling']} runs print or "
          f"end otherwise; spoilt bytes: BadImage {counts['BadImage']}, read {counts['read']}; "
          f"changed images: Unfit {counts['Unfit']}, fit {counts['fit']}")
    return 0 if not wrong else 1


if __name__ == "__main__":
    sys.exit(main())
