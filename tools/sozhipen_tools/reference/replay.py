"""Behaves as the program `replay`: words, status, output.

    tools/run reference.replay WORDS < SCRIPT

The words are the program's (docs/SCRIPT.md, *The command line*), and so are the answers to wrong ones; `--help` alone
tells this. Everything that was taken into memory is assumed to fit.
"""

from __future__ import annotations

import os
import re
import sys
from dataclasses import dataclass
from typing import Callable, Optional, Sequence, Union

from .certificates.certify import proof_lines
from .generators import generate
from .images.resume import IMAGE_END, Refused, resumed, saved
from .meaning.lives import life_lines
from .meaning.program import Program
from .meaning.reader import FILE_END
from .meaning.run import Run, program_or_refusal, report, run_on
from .meaning.worlds import World

SCRIPT_END = 1 << 30
OPTIONS = ("mode", "limit", "gen", "resume")
MODES = ("run", "check", "lives", "save", "proof")
USAGE = f"usage: replay [--mode {'|'.join(MODES)}] [--limit N] [--resume NAME] RULES | replay [--limit N] --gen N"


class BadWords(Exception):
    """The words of the command line are refused."""


class WriteFailed(Exception):
    """Standard output takes no more."""


@dataclass(frozen=True)
class Asked:
    """What the words ask for: the mode, the limit, the name of the rule file, that of an image, the number of a
    load."""
    mode: str
    limit: int
    rules: Optional[str]
    image: Optional[str]
    gen: Optional[int]


def options_and_rules(words: list[str], named: Sequence[str] = OPTIONS,
                      flags: Sequence[str] = ()) -> tuple[dict[str, str], list[str]]:
    """The words by `--name value`, `--name=value` and others, as one simple command reads them; a flag has no value."""
    options: dict[str, str] = {}
    rules: list[str] = []
    rest = list(words)
    while rest:
        word = rest.pop(0)
        if word == "--":
            rules += rest
            break
        if word == "-" or not word.startswith("-"):
            rules.append(word)
            continue
        name, equals, value = word[2:].partition("=") if word.startswith("--") else (word, "", "")
        if name in options or name not in flags and name not in named or name in flags and equals:
            raise BadWords
        if name not in flags and not equals:
            if not rest or (rest[0].startswith("-") and rest[0] != "-"):
                raise BadWords
            value = rest.pop(0)
        options[name] = value
    return options, rules


def number(text: str, digits: int, low: int, high: int) -> int:
    """A number of at most so many decimal digits, within bounds."""
    if not re.fullmatch("[0-9]{1,%d}" % digits, text) or not low <= int(text) <= high:
        raise BadWords
    return int(text)


def asked(words: list[str]) -> Asked:
    """What the words ask for, or BadWords."""
    options, rules = options_and_rules(words)
    mode, image = options.get("mode", "run"), options.get("resume")
    limit = number(options.get("limit", "100000"), 7, 1, 1_000_000)
    gen = number(options["gen"], 10, 0, 2_147_483_647) if "gen" in options else None
    if mode not in MODES or len(rules) > 1 or (gen is None) == (not rules):
        raise BadWords
    if ((gen is not None and (mode != "run" or image is not None))
        or (image is not None and mode not in ("run", "save"))):
        raise BadWords
    return Asked(mode, limit, rules[0] if rules else None, image, gen)


def put(data: Union[bytes, str]) -> None:
    data = data.encode("utf-8") if isinstance(data, str) else data
    try:
        while data:
            taken = os.write(1, data)
            if taken == 0:
                raise WriteFailed
            data = data[taken:]
    except OSError:
        raise WriteFailed from None


def put_lines(lines: list[str]) -> None:
    put("".join(line + "\n" for line in lines))


def read_all(fd: int, most: int) -> bytes:
    data = bytearray()
    while len(data) < most and (piece := os.read(fd, min(1 << 20, most - len(data)))):
        data += piece
    return bytes(data)


def file_bytes(name: str, most: int) -> bytes:
    fd = os.open(name, os.O_RDONLY)
    try:
        return read_all(fd, most)
    finally:
        os.close(fd)


def image_file(name: str) -> bytes:
    return file_bytes(name, IMAGE_END + 1)


def program_of_file(name: str) -> Union[Program, str]:
    """The program of a rule file, or the line of its refusal."""
    try:
        return program_or_refusal(file_bytes(name, FILE_END + 1))
    except FileNotFoundError:
        return "refused item 0 line 0 Missing"


def generated_run(n: int, limit: int) -> tuple[str, int]:
    """The line and the status of the run over the generated file and script. This evaluator is far too slow for it."""
    rules, script = generate.large_run(n)
    output, status = report(rules, script, limit)
    lines = output.decode("utf-8").splitlines()
    fires = sum(line.startswith("fire ") for line in lines)
    faults = sum(line.startswith("fault ") for line in lines)
    return f"gen {n} lines {len(lines)} fires {fires} faults {faults}\n", status


def run_at_start(program: Program, a: Asked) -> Run:
    """A run before its first line: a new one, or one that goes on from an image."""
    if a.image is None:
        return Run(World(program), a.limit, a.limit, [])
    try:
        data = image_file(a.image)
    except FileNotFoundError:
        raise Refused("Missing") from None
    return resumed(data, program, a.limit)


def scripted(program: Program, a: Asked, read: Callable[[int], bytes] = lambda most: read_all(0, most)) -> int:
    """Runs a script, and prints its lines or the image after it."""
    try:
        state = run_at_start(program, a)
        script = read(SCRIPT_END + 1)
        if len(script) > SCRIPT_END:
            return 8
        run_on(state, script)
        if a.mode == "save" and not state.ended:
            put(saved(state))
        else:
            put_lines(state.lines[-1:] if a.mode == "save" else state.lines)
        return state.status
    except Refused as refused:
        put_lines([f"refused checkpoint {refused}"])
        return 9


def mode_text(program: Program, mode: str) -> str:
    """What the modes that read no script print of an accepted rule file."""
    if mode == "check":
        return f"accepted {len(program.types)} types {len(program.rules)} rules\n"
    return "".join(line + "\n" for line in (proof_lines(program) if mode == "proof" else life_lines(program)))


def replay(words: list[str]) -> int:
    """Does all that the program does, and answers the status."""
    try:
        a = asked(words)
    except BadWords:
        put_lines([USAGE])
        return 2
    if a.gen is not None:
        text, status = generated_run(a.gen, a.limit)
        put(text)
        return status
    try:
        program = program_of_file(a.rules or "")
        if isinstance(program, str):
            put_lines([program])
            return 3
        if a.mode in ("run", "save"):
            return scripted(program, a)
        put(mode_text(program, a.mode))
        return 0
    except OSError:
        return 5


def main() -> int:
    if sys.argv[1:] == ["--help"]:
        print((__doc__ or "").strip())
        return 0
    try:
        return replay(sys.argv[1:])
    except WriteFailed:
        return 6


if __name__ == "__main__":
    sys.exit(main())
