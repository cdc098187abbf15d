"""What the program is asked beside the run of a seed's script: its other modes, images of the run, and runs that go on
from them."""

from __future__ import annotations

from dataclasses import dataclass
from random import Random
from typing import Callable, Optional, Union

from ..certificates.certify import table_of
from ..certificates.confirm import confirm_lines
from ..generators.generate import Case
from ..images.image import decode, encode
from ..images.resume import Refused, resumed, saved
from ..meaning.lives import life_lines
from ..meaning.program import Program
from ..meaning.run import Run, program_or_refusal, report_of, run, run_on
from ..meaning.script import lines_of
from .try_resume import changed, parts_at

Answer = tuple[bytes, int]
Judge = Callable[[bytes, int], Optional[str]]


@dataclass(frozen=True)
class Question:
    """Words, a file with the name `image` beside the rule file, the script, and what is wrong with an answer."""
    words: list[str]
    image: bytes
    script: bytes
    judge: Judge


def is_answer(wanted: Answer) -> Judge:
    def judge(output: bytes, status: int) -> Optional[str]:
        if output == wanted[0]:
            return (None if status == wanted[1]
                    else f"the reference ends with the status {wanted[1]}, the program with {status}")
        return f"the reference prints {wanted[0][:300]!r}, the program {output[:300]!r}"
    return judge


def text(lines: list[str]) -> bytes:
    return "".join(line + "\n" for line in lines).encode("utf-8")


def looked_over(program: Union[Program, str]) -> dict[str, Answer]:
    """The answers in the modes that read no script, but for certificates."""
    if isinstance(program, str):
        return {mode: (text([program]), 3) for mode in ("check", "lives")}
    return {"check": (text([f"accepted {len(program.types)} types {len(program.rules)} rules"]), 0),
            "lives": (text(life_lines(program)), 0)}


def proof_judge(program: Program) -> Judge:
    """Of certificates several are good."""
    def judge(output: bytes, status: int) -> Optional[str]:
        good = status == 0 and confirm_lines(program, table_of(program),
                                             output.decode("utf-8", "replace").split("\n")[:-1])
        return None if good else f"status {status}, and these certificates are not good: {output[:1000]!r}"
    return judge


def image_answer(state: Run) -> Answer:
    """What the mode save answers."""
    try:
        return (text(state.lines[-1:]), 4) if state.ended else (saved(state), state.status)
    except Refused as refused:
        return text([f"refused checkpoint {refused}"]), 9


def resumed_answer(program: Program, image: bytes, script: bytes, limit: int) -> Answer:
    try:
        return report_of(run_on(resumed(image, program, limit), script))
    except Refused as refused:
        return text([f"refused checkpoint {refused}"]), 9


def spoilt(image: bytes, rng: Random) -> bytes:
    k = rng.randrange(len(image))
    return rng.choice([image[:k], image[:k] + bytes([image[k] ^ 1]) + image[k + 1:], image + b"\x00",
                       encode(changed(decode(image), rng))])


def questions(case: Case, seed: int) -> list[Question]:
    """What else is asked of a seed's case."""
    rng, program = Random(f"modes/{seed}"), program_or_refusal(case.rules)
    limit, words = case.limit or 100_000, [] if case.limit is None else ["--limit", str(case.limit)]
    asked = [Question(["--mode", mode, "rules.drl"], b"", b"", is_answer(a))
             for mode, a in looked_over(program).items()]
    if isinstance(program, str):
        return asked
    first, rest = parts_at(case.script, rng.randint(0, len(lines_of(case.script))))
    state = run(program, first, limit)
    asked.append(Question(words + ["--mode", "save", "rules.drl"], b"", first, is_answer(image_answer(state))))
    if not state.ended:
        image = saved(state)
        other = spoilt(image, rng)
        asked.append(Question(words + ["--resume", "image", "rules.drl"], image, rest,
                              is_answer(resumed_answer(program, image, rest, limit))))
        answer = resumed_answer(program, other, rest, limit)
        # From an image that fits and is that of no run, the program may go on as it likes.
        if answer[1] == 9:
            asked.append(Question(words + ["--resume", "image", "rules.drl"], other, rest, is_answer(answer)))
    return asked + [Question(["--mode", "proof", "rules.drl"], b"", b"", proof_judge(program))]
