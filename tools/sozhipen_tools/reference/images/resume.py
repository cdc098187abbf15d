"""Runs that are saved and go on later: from the run to the bytes of its image and back, also under other rules, with
what is refused."""

from __future__ import annotations

from dataclasses import replace
from typing import Optional

from ..meaning.answers import RuleChanged
from ..meaning.keeping import lives_of
from ..meaning.program import Program
from ..meaning.run import Run, program_or_refusal
from ..meaning.worlds import World
from .changes import changed, kept_for, longer_types, refusal, told
from .image import BadImage, Image, RunPart, decode, encode
from .saving import fits, image_of, is_too_large, world_of
from .show import show

IMAGE_END = 1 << 30


class Refused(Exception):
    """`refused checkpoint <code>`."""


def saved(state: Run) -> bytes:
    """The bytes of the image of a run, or Refused."""
    image = image_of(state.world, RunPart(show(state.world.program.written), state.number, state.firings,
                                          state.faulty))
    data = encode(image)
    if len(data) > IMAGE_END:
        raise Refused("TooLong")
    if is_too_large(image):
        raise Refused("Unfit")
    return data


def image_in(data: bytes) -> Image:
    """The image that has these bytes, or Refused."""
    if len(data) > IMAGE_END:
        raise Refused("TooLong")
    try:
        return decode(data)
    except BadImage:
        raise Refused("BadImage") from None


def run_behind(image: Image, program: Program, limit: int) -> Run:
    """The run that goes on from an image of the program's rules, or Refused."""
    if not fits(image, program):
        raise Refused("Unfit")
    part = image.run
    return Run(world_of(image, program), max(0, limit - part.firings), limit, [], number=part.lines,
               firings=part.firings, faulty=part.faulty)


def is_of(image: Image, program: Program) -> bool:
    """Whether the rules of an image are these, but for comments and white space."""
    return image.run.rules == show(program.written)


def resumed(data: bytes, program: Program, limit: int) -> Run:
    """The run of a recorder that goes on from the bytes of an image, or Refused. A recorder knows no lives of
    images."""
    image = image_in(data)
    if image.lives is not None:
        raise Refused("BadImage")
    return resumed_from(image, program, limit)


def resumed_from(image: Image, program: Program, limit: int) -> Run:
    """The run that goes on from an image, by the lives that it says, or Refused."""
    if not is_of(image, program):
        raise Refused("OtherRules")
    return run_behind(image, program, limit)


def resumed_under(data: bytes, program: Program, limit: int) -> tuple[Run, list[RuleChanged]]:
    """The run that goes on from the bytes of an image of these or of other rules, and what became of these; or
    Refused."""
    image = image_in(data)
    if is_of(image, program):
        return run_behind(image, program, limit), []
    old = program_or_refusal(image.run.rules)
    if isinstance(old, str):
        raise Refused("Unfit")
    state = run_behind(image, old, limit)
    if code := refusal(state.world, program):
        raise Refused(code)
    return replace(state, world=changed(state.world, program)), told(old, program)


def begun(data: Optional[bytes], program: Program, limit: int,
          keep: Optional[Program] = None) -> tuple[Run, list[RuleChanged]]:
    """The run of a desk before its first line, and what became of the rules of its image: from the bytes of an image,
    or from the beginning where there are none; or Refused. With `keep` events are kept for as long as those rules need
    them, too."""
    if data is None:
        world = World(program if keep is None else kept_for(program, keep))
        return Run(world, limit, limit, []), []
    state, rules = resumed_under(data, program, limit)
    if keep is not None and (longer := longer_types(lives_of(state.world.program), keep)):
        raise Refused(f"Longer {longer[0]}")
    return state, rules
