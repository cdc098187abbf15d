#!/usr/bin/env python3
"""Kills the keeper, its program, or both at random moments, starts it again, and checks that nothing is lost.

    PYTHONPATH=tools python3 examples/live/kills.py PROGRAM [--kills N] [--from SEED] [--keeper FILE]

PROGRAM is `desk`. Rule files and scripts are random ones of sozhipen_tools.reference; in half of them forgotten events
still block a `not` or stand in an accumulate. A script is sent to a keeper with segments of a few lines, which keeps
all of the log or that behind the last two images. At a random moment both are killed, or the keeper alone (its program
reads on up to the end of the pipe), or the program alone, or the script ends there. Then the keeper is begun again, and
the script goes on where it says.

After each of these every file that has its name is looked at. An image is one whole image of these rules, behind as
many lines as its name says. A segment of the log has its lines of the script whole, the last one maybe the front of one
more, and no line is answered that is not there. Images and answers are what they were when they got their name. A
follower prints what is new. In the end the answers have to be those of one run without a break, and the follower has to
have printed each once. The status is 0 where all was so, and 1 where it was not; the folder of a difference is left.
"""

from __future__ import annotations

import os
import select
import shutil
import signal
import subprocess
import sys
import tempfile
import time
from collections import Counter
from pathlib import Path
from random import Random
from typing import Optional

from follow import Follower  # beside this file

from sozhipen_tools.pipes import pipe
from sozhipen_tools.reference.generators.generate import case_of, lives_case_of, write_case
from sozhipen_tools.reference.images.image import decode
from sozhipen_tools.reference.images.resume import Refused, resumed
from sozhipen_tools.reference.meaning.program import Program
from sozhipen_tools.reference.meaning.run import program_or_refusal
from sozhipen_tools.words import Parser

HERE = Path(__file__).resolve().parent

SAVE = b'{"do":"save"}\n'
CLOSING = b'{"done":'
LIMIT = 100_000
BREAKS_OF_A_SCRIPT = 10
# Before a break fewer lines than these are answered, at least so many lines has a script: a random one, repeated.
ANSWERED_BEFORE_A_BREAK = 40
LINES = 300
# The greatest number of blanks behind a line: then one write may be taken in parts.
BLANKS = 30_000


def children_of(process: int) -> list[int]:
    found = subprocess.run(["pgrep", "-P", str(process)], capture_output=True, text=True, check=False)
    return [int(number) for number in found.stdout.split()]


def kill(number: int) -> None:
    try:
        os.kill(number, signal.SIGKILL)
    except ProcessLookupError:
        pass


def kill_some(random: Random, keeper: subprocess.Popen[bytes]) -> str:
    """Kills the keeper, its program, or both; which of them."""
    what = random.choice(("both", "the keeper alone", "the program alone"))
    if what == "the program alone":
        for number in children_of(keeper.pid):
            kill(number)
        closed(keeper)
    elif what == "the keeper alone":
        keeper.kill()
    else:
        os.killpg(keeper.pid, signal.SIGKILL)
    keeper.wait()
    return f"kills of {what}"


def closed(keeper: subprocess.Popen[bytes]) -> int:
    """The script ends; the status."""
    try:
        pipe(keeper.stdin).close()
    except BrokenPipeError:
        pass
    return keeper.wait()


def closed_by(answers: Path) -> int:
    """How many lines are closed by what a file of answers has."""
    return sum(line.startswith(CLOSING) for line in answers.read_bytes().split(b"\n"))


class Wrong(Exception):
    """What is not as it has to be."""


class Run:
    """A keeper that is begun over and over with the same script."""

    def __init__(self, command: list[str], folder: Path, program: Program, script: list[bytes], random: Random) -> None:
        self.command, self.folder, self.program, self.script, self.random = command, folder, program, script, random
        self.kept = folder / "kept"
        self.named: dict[Path, bytes] = {}
        self.followed: list[bytes] = []

    def begin(self) -> subprocess.Popen[bytes]:
        return subprocess.Popen(self.command, cwd=self.folder, stdin=subprocess.PIPE, stdout=subprocess.PIPE,
                                stderr=subprocess.DEVNULL, start_new_session=True)

    def answered(self) -> int:
        """How many lines are answered so far; 0 while a file gets its name."""
        try:
            return max((int(part.stem) + closed_by(part) for part in (self.kept / "answers").glob("*.part")), default=0)
        except FileNotFoundError:
            return 0

    def send(self, keeper: subprocess.Popen[bytes], most: Optional[int]) -> None:
        """Sends the rest of the script, or up to the moment when so many lines more are answered."""
        told, before = pipe(keeper.stdout).readline().split(), self.answered()
        for line in self.script[int(told[1]) if told else len(self.script):]:
            if most is not None and self.answered() >= before + most:
                return
            try:
                pipe(keeper.stdin).write(line)
                pipe(keeper.stdin).flush()
            except BrokenPipeError:
                return
            time.sleep(self.random.random() * 0.004)

    def with_a_break(self) -> str:
        """Begins the keeper, and breaks it off, or the script, at a random moment; what was broken off."""
        keeper = self.begin()
        seconds = self.random.choice((self.random.random(), 60, 60))
        goes_on = select.select([pipe(keeper.stdout)], [], [], seconds)[0]
        if goes_on:
            self.send(keeper, self.random.randrange(ANSWERED_BEFORE_A_BREAK))
            time.sleep(self.random.random() * 0.01)
        if goes_on and self.random.random() < 0.15:
            closed(keeper)
            return "ends of a script that goes on"
        return kill_some(self.random, keeper)

    def to_the_end(self) -> None:
        keeper = self.begin()
        self.send(keeper, None)
        if closed(keeper) not in (0, 1):
            raise Wrong("the keeper does not come to the end of the script")

    # ---- what is there

    def files(self, kind: str) -> list[Path]:
        """The files that have their names, in the order of these."""
        return sorted((self.kept / kind).glob("*[0-9]"))

    def look(self) -> None:
        """Looks at each file that has its name, and follows the answers."""
        for path in self.files("answers") + self.files("image"):
            if self.named.setdefault(path, path.read_bytes()) != path.read_bytes():
                raise Wrong(f"{path} has changed")
        answers = self.files("answers")
        for path, following in zip(answers, answers[1:]):
            self.look_at_answers(path, int(following.name) - int(path.name))
        for path in self.files("image"):
            self.look_at_image(path)
        segments = self.files("log")
        for path in segments:
            self.look_at_log(path, path == segments[-1])
        if (self.kept / "answers").exists():
            self.followed += Follower(self.kept).lines()

    def look_at_answers(self, path: Path, lines: int) -> None:
        if closed_by(path) != lines:
            raise Wrong(f"{path} has not the answers to its {lines} lines")

    def look_at_image(self, path: Path) -> None:
        try:
            resumed(path.read_bytes(), self.program, LIMIT)
        except Refused as refused:
            raise Wrong(f"{path} is refused: {refused}") from None
        if decode(path.read_bytes()).run.lines != int(path.name):
            raise Wrong(f"{path} is not the image behind so many lines")

    def look_at_log(self, path: Path, is_last: bool) -> None:
        *lines, rest = path.read_bytes().split(b"\n")
        whole = [line + b"\n" for line in lines]
        ends = whole[-1:] == [SAVE]
        before, part = int(path.suffix[1:]), self.kept / "answers" / f"{path.stem}.part"
        of_script = whole[:-1] if ends else whole
        next_line = self.script[before + len(of_script):][:1] or [SAVE]
        if of_script != self.script[before:before + len(of_script)] or not (ends and not rest or is_last):
            raise Wrong(f"{path} has not the lines of the script")
        if rest and not (next_line[0].startswith(rest) or SAVE.startswith(rest)):
            raise Wrong(f"{path} ends with what is no front of a line")
        if part.exists() and closed_by(part) > len(whole):
            raise Wrong(f"{part} answers a line that is not in the log")

    # ---- what there has to be

    def whole_log(self) -> bytes:
        """The script with the lines that save, behind each segment that has answers."""
        numbers = [int(path.name) for path in self.files("answers")]
        last = max(int(path.stem) for path in self.files("log"))
        rest, lines = iter(self.script), []
        for first, end in zip(numbers, [*numbers[1:], last]):
            lines += [line for _, line in zip(range(end - first - 1), rest)] + [SAVE]
        return b"".join([*lines, *rest])

    def compare(self) -> None:
        log = self.whole_log()
        if not log.endswith(b"".join(path.read_bytes() for path in self.files("log"))):
            raise Wrong("the log is not the script")
        whole = subprocess.run([self.command[2], "--image", "whole", "rules.drl"], cwd=self.folder, input=log,
                               capture_output=True, check=False).stdout
        if b"".join(path.read_bytes() for path in self.files("answers")) != whole:
            raise Wrong("the answers are not those of a run without a break")
        if self.followed != whole.splitlines():
            raise Wrong("a follower does not print each answer once")


def tried(command: list[str], folder: Path, seed: int, breaks: int, count: Counter[str]) -> Optional[str]:
    """What a random script with so many breaks shows, and nothing where it is as it has to be."""
    program, random = program_or_refusal((folder / "rules.drl").read_bytes()), Random(seed)
    assert isinstance(program, Program)
    lines = (folder / "script.jsonl").read_bytes().splitlines()
    lines *= LINES // len(lines) + 1
    script = [line + b" " * random.choice((0,) * 9 + (random.randrange(BLANKS),)) + b"\n" for line in lines]
    run = Run([*command, "--lines", "4", "--keep", str(seed // 2 % 2 * 2)], folder, program, script, random)
    try:
        for _ in range(breaks):
            count[run.with_a_break()] += 1
            run.look()
        run.to_the_end()
        run.look()
        run.compare()
    except Wrong as wrong:
        return str(wrong)
    count["scripts"] += 1
    count["images"] += len(run.files("answers"))
    return None


def main() -> int:
    parser = Parser(description=__doc__.split("\n")[0])
    parser.add_argument("program")
    parser.add_argument("--kills", type=int, default=200)
    parser.add_argument("--from", dest="seed", type=int, default=0)
    parser.add_argument("--keeper", default=str(HERE / "keeper.py"))
    asked = parser.parse_args()
    command = [sys.executable, os.path.abspath(asked.keeper), os.path.abspath(asked.program), "rules.drl", "kept"]
    seed, left, count = asked.seed, asked.kills, Counter[str]()
    while left > 0:
        folder = Path(tempfile.mkdtemp(prefix="kills-"))
        write_case((lives_case_of if seed % 2 else case_of)(seed), str(folder))
        if isinstance(program_or_refusal((folder / "rules.drl").read_bytes()), Program):
            breaks = min(BREAKS_OF_A_SCRIPT, left)
            left -= breaks
            if said := tried(command, folder, seed, breaks, count):
                print(f"seed {seed}: {said}; see {folder}")
                return 1
        shutil.rmtree(folder)
        seed += 1
    print(", ".join(f"{number} {what}" for what, number in sorted(count.items())) + ": no difference")
    return 0


if __name__ == "__main__":
    sys.exit(main())
