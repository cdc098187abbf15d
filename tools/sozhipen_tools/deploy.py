"""Puts other rules over a running desk by replay, where a change of rules is refused: makes an image of the new rules.

    tools/run deploy OLD-IMAGE LOG NEW-RULES [--out NEW-IMAGE] [--before IMAGE] [--desk PROGRAM] [--limit N]

OLD-IMAGE is an image of the desk, and LOG has the lines of its script up to there: a file, or the folder `log` of
examples/live/keeper.py. NEW-IMAGE, without --out a file beside OLD-IMAGE, is one of the new rules behind the same line,
from which a desk goes on. The last lines of the log are run under the new rules, their fire lines too, from so far back
as these rules look: what fires there is marked as fired, and is not told. In front of them stand the tables and the
plain facts of that moment, under the numbers that they have.

To know these the old rules are run up to there: from the first line where LOG has it, otherwise from an earlier image,
which --before names; with a keeper's folder it is found. The lines that are printed say how far the lookback goes, what
was marked, and what could not be carried over. --limit is that of the desk.

The status is 0 if the image was made, 2 if files or words do not fit together, and 3 if the new rules are refused.
"""

from __future__ import annotations

import json
import os
import re
import subprocess
import sys
import tempfile
from collections import Counter
from dataclasses import dataclass, field, replace
from itertools import islice
from pathlib import Path
from typing import Any, Iterable, Iterator, Optional

from .pipes import pipe
from .places import BUILT_DESK, command_of
from .reference.images.changes import is_same_type, rules_that_stay
from .reference.images.image import (BadImage, Extra, FiredMatch, Image, ImageFact, ImageRow, Named, decode, encode,
                                     head_in, rules_in)
from .reference.images.show import show
from .reference.meaning.keeping import inferred_lives
from .reference.meaning.program import Program
from .reference.meaning.run import program_or_refusal
from .reference.meaning.temporal import INFINITE
from .reference.meaning.trees import Rule
from .words import Parser

SAVE = b'{"do":"save"}'
FIRE = b'{"do":"fire"}\n'
# Lines that may move the clock.
MOVES = re.compile(rb'"(?:at|advance)"')
MOST_FIRINGS = "1000000"


# The objects that a desk answers.
Answers = list[dict[str, Any]]


class NotDeployed(Exception):
    """Why no image can be made."""


def program_of(rules: bytes, name: object) -> Program:
    program = program_or_refusal(rules)
    if isinstance(program, str):
        raise NotDeployed(f"{name}: {program}")
    return program


def image_of(path: Path) -> Image:
    try:
        return decode(path.read_bytes())
    except BadImage:
        raise NotDeployed(f"{path}: these bytes are no image") from None


def counted(number: int, name: str, ending: str = "s") -> str:
    return f"{number} {name}{'' if number == 1 else ending}"


def shown(name: str) -> str:
    return json.dumps(name, ensure_ascii=False)


# ---- the log


def members_of(line: bytes) -> dict[str, Any]:
    """Those of the object in a line, where there is one."""
    try:
        found = json.loads(line)
    except ValueError:
        return {}
    return found if isinstance(found, dict) else {}


def is_number(value: Any) -> bool:
    return isinstance(value, int) and not isinstance(value, bool)


@dataclass
class Log:
    """The lines of a script up to an image; `first` is the number of the first one, from 1."""
    path: Path
    end: int
    first: int = 1

    def __post_init__(self) -> None:
        if self.path.is_dir():
            numbers = [int(file.name.partition(".")[0]) for file in self.files()]
            if not numbers:
                raise NotDeployed(f"{self.path} has no segments")
            self.first = numbers[0] + 1
            return
        many = sum(1 for _ in self.all_lines())
        self.first = max(1, self.end - many + 1)

    def files(self) -> list[Path]:
        return sorted(self.path.glob("*.*")) if self.path.is_dir() else [self.path]

    def all_lines(self) -> Iterator[bytes]:
        for file in self.files():
            with open(file, "rb") as lines:
                yield from lines

    def lines(self, begin: int, end: Optional[int] = None) -> Iterator[bytes]:
        """Those from one number up to before another one, or to the image. One that saves is left blank."""
        found = islice(self.all_lines(), begin - self.first, (self.end + 1 if end is None else end) - self.first)
        return (b"\n" if line.strip() == SAVE else line.rstrip(b"\n") + b"\n" for line in found)

    def earlier_images(self) -> list[Path]:
        """Those of the keeper whose log this is, the first one first."""
        folder = self.path.parent / "image"
        names = [path for path in folder.glob("*[0-9]") if path.name.isdigit()] if self.path.is_dir() else []
        return sorted((path for path in names if int(path.name) <= self.end), key=lambda path: int(path.name))


@dataclass(frozen=True)
class Lookback:
    """It begins with this line, at this moment; so long the rules look back."""
    begin: int
    moment: int
    wanted: float


def longest_duration(log: Log, program: Program) -> int:
    """That of an event of the log; 0 where no type has one."""
    fields = {name: info.duration for name, info in program.types.items() if info.duration is not None}
    if not fields:
        return 0
    longest = 0
    for members in (members_of(line) for line in log.lines(log.first) if b"insert" in line):
        values, name = members.get("fields"), fields.get(str(members.get("type")))
        length = values.get(name) if isinstance(values, dict) else None
        longest = max(longest, length if isinstance(length, int) else 0)
    return longest


def reach_of(program: Program, duration: int) -> float:
    """How long an event can matter from its start on, in milliseconds; perhaps for ever."""
    explicit = [info.expires for info in program.types.values() if info.expires is not None]
    return max([0, *explicit, *(life + duration + 1 for life in inferred_lives(program).values())])


def lookback_of(log: Log, begin: int, clock: int, wanted: float, until: int) -> Lookback:
    """Of the lines from one on, before which the clock has this time, those from the first one that moves it into what
    the rules look back on."""
    for number, line in enumerate(log.lines(begin), begin):
        moved = moment_of(members_of(line), clock) if MOVES.search(line) else clock
        if moved > until - wanted:
            return Lookback(number, clock, wanted)
        clock = max(clock, moved)
    return Lookback(log.end + 1, clock, wanted)


def moment_of(members: dict[str, Any], clock: int) -> int:
    """To which moment a line moves the clock, which has this time."""
    if members.get("do") == "at" and is_number(members.get("ms")):
        return int(members["ms"])
    if members.get("do") == "advance" and is_number(members.get("by")):
        return clock + int(members["by"])
    return clock


# ---- runs


@dataclass
class Desks:
    """A program `desk`, and a folder for its files."""
    command: list[str]
    limit: str
    folder: Path

    def run(self, rules: bytes, lines: Iterable[bytes], image: Optional[Image]) -> Image:
        """The image that a run leaves, from an image where there is one."""
        return self.ran(rules, lines, image, self.limit, subprocess.DEVNULL)

    def answered(self, rules: bytes, lines: Iterable[bytes], image: Optional[Image],
                 limit: Optional[str] = None) -> tuple[Image, Answers]:
        """The same, and what it answers."""
        with tempfile.TemporaryFile(dir=self.folder) as output:
            made = self.ran(rules, lines, image, limit or self.limit, output)
            output.seek(0)
            return made, [members_of(line) for line in output]

    def ran(self, rules: bytes, lines: Iterable[bytes], image: Optional[Image], limit: str, output: Any) -> Image:
        name, file = self.folder / "image", self.folder / "rules.drl"
        name.unlink(missing_ok=True)
        if image is not None:
            name.write_bytes(encode(image))
        file.write_bytes(rules)
        command = [*self.command, "--limit", limit, "--image", str(name), str(file)]
        with subprocess.Popen(command, stdin=subprocess.PIPE, stdout=output) as process:
            try:
                pipe(process.stdin).writelines(lines)
                pipe(process.stdin).close()
            except BrokenPipeError:
                pass
        if process.returncode not in (0, 1):
            raise NotDeployed(f"{self.command[0]} ended with status {process.returncode}")
        return decode(name.read_bytes())


# ---- what goes in front of the lookback


def without_actions(program: Program) -> bytes:
    """The text of the rules, of which none does anything."""
    return show(replace(it, body=replace(it.body, actions=())) if isinstance(it.body, Rule) else it
                for it in program.written)


@dataclass
class Deployment:
    """The old rules and the new ones, the old image, and what cannot be carried over, in the words in which it is
    told."""
    desks: Desks
    old: Program
    new: Program
    image: Image
    left_out: list[str] = field(default_factory=list)

    @property
    def stay(self) -> set[str]:
        """The names of rules that stay."""
        return {self.old.title(k) for k in rules_that_stay(self.old, self.new)}

    def moved_facts(self, image: Image) -> Iterator[ImageFact]:
        """The plain facts of an image of the old rules, under the places of the new ones; others are counted."""
        old_types, types = list(self.old.types.values()), list(self.new.types)
        old_entries, entries = list(self.old.latenesses), list(self.new.latenesses)
        lost: Counter[str] = Counter()
        for fact in image.facts:
            info, entry = old_types[fact.type], old_entries[fact.entry]
            if info.event:
                continue
            if entry in entries and is_same_type(info, self.new.types.get(info.name)):
                yield replace(fact, type=types.index(info.name), entry=entries.index(entry))
            else:
                lost[info.name] += 1
        self.left_out += [f"{counted(many, 'plain fact')} of {name}, which is another type under the new rules"
                          for name, many in lost.items()]

    def count_events(self, image: Image) -> None:
        """Events from before the lookback that the new rules may need for ever."""
        names, lives = list(self.old.types), inferred_lives(self.new)
        lost = Counter(names[fact.type] for fact in image.facts if lives.get(names[fact.type]) == INFINITE)
        self.left_out += [f"{counted(many, 'event')} of {name} from before the lookback; the new rules may need them "
                          "for ever" for name, many in lost.items()]

    def moments(self, values: tuple[int, ...]) -> tuple[int, ...]:
        found = dict(zip(self.old.latenesses, values))
        return tuple(found.get(entry, 0) for entry in self.new.latenesses)

    def front(self, image: Image) -> Image:
        """The image under the new rules of what stands before the lookback: the plain facts and the moments, with each
        match of them marked."""
        self.count_events(image)
        rules = without_actions(self.new)
        made = replace(image, run=replace(image.run, rules=rules), facts=tuple(self.moved_facts(image)), fired=(),
                       last_starts=self.moments(image.last_starts), promises=self.moments(image.promises), extras=(),
                       lives=None)
        while True:
            made, answers = self.desks.answered(rules, [FIRE], made, MOST_FIRINGS)
            if not answers[-1].get("pending"):
                return replace(made, run=replace(image.run, rules=show(self.new.written)))

    # ---- the lookback under the new rules

    def replayed(self, front: Image, lines: list[bytes], before: Answers) -> tuple[Image, list[str]]:
        """The image behind the lookback, and what fired there. Facts that its lines insert have the numbers of the old
        run, which answered so."""
        made, answers = self.desks.answered(show(self.new.written), lines, front)
        given = given_numbers(before)
        if given_numbers(answers) != given:
            made, answers = self.piece_by_piece(front, lines, given)
        if numbers_by_rules(answers) != numbers_by_rules(before):
            self.left_out.append("the numbers of facts that rules made in the lookback")
        self.tell_answers(answers, before)
        return renumbered(made, given_numbers(answers), given, front.next_id, self.image.next_id), self.fired(answers)

    def piece_by_piece(self, front: Image, lines: list[bytes], given: dict[int, int]) -> tuple[Image, Answers]:
        """The same, where rules make other facts than before: a line that names a fact of the lookback gets the number
        that this has there."""
        rules, inserting = show(self.new.written), {number: line for line, number in given.items()}
        made, answers, piece, lost = front, Answers(), list[bytes](), 0
        for line in lines:
            named = number_named(line)
            if named is not None and named >= front.next_id:
                made, more = self.desks.answered(rules, piece, made)
                answers, piece = answers + more, []
                now = given_numbers(answers).get(inserting.get(named, 0))
                lost += now is None
                line = b"\n" if now is None else json.dumps({**members_of(line), "id": now}).encode() + b"\n"
            piece.append(line)
        made, more = self.desks.answered(rules, piece, made)
        if lost:
            self.left_out.append(f"{counted(lost, 'line')} of the lookback that modify or retract such a fact")
        return made, answers + more

    def tell_answers(self, answers: Answers, before: Answers) -> None:
        """What the new rules refuse in the lookback, and the old ones did not."""
        known = {(it["line"], it["fault"]) for it in before if "fault" in it}
        faults = Counter(it["fault"] for it in answers if "fault" in it and (it["line"], it["fault"]) not in known)
        self.left_out += [f"{counted(many, 'line')} of the lookback, or actions there, with the fault {code}"
                          for code, many in faults.items()]
        if limited := sum("limit" in it for it in answers):
            self.left_out.append(f"firings beyond the limit, of {counted(limited, 'fire line')} of the lookback: they "
                                 "are pending")

    def fired(self, answers: Answers) -> list[str]:
        """The firings in the lookback, which are marked."""
        many = Counter(it["fire"] for it in answers if "fire" in it)
        return [f"marked: {counted(number, 'firing')} of {shown(name)}, "
                + ("which the old desk has told" if name in self.stay else "which nobody has told")
                for name, number in many.items()]

    def tell_pending(self) -> None:
        """Pending matches of rules that are gone: they were never told."""
        rules = without_actions(self.old)
        image = replace(self.image, run=replace(self.image.run, rules=rules))
        _, answers = self.desks.answered(rules, [FIRE], image, MOST_FIRINGS)
        lost = Counter(it["fire"] for it in answers if "fire" in it and it["fire"] not in self.stay)
        self.left_out += [f"{counted(many, 'pending match', 'es')} of {shown(name)}: end the old desk behind a fire "
                          "line" for name, many in lost.items()]


def given_numbers(answers: Answers) -> dict[int, int]:
    """By the number of a line that inserts the number of its fact; a rule makes facts at a line that fires."""
    firing = {it["line"] for it in answers if "fire" in it}
    return {it["line"]: it["new"] for it in answers if "new" in it and it["line"] not in firing}


def numbers_by_rules(answers: Answers) -> list[int]:
    """The numbers of the facts that rules made."""
    firing = {it["line"] for it in answers if "fire" in it}
    return [it["new"] for it in answers if "new" in it and it["line"] in firing]


def number_named(line: bytes) -> Optional[int]:
    """The fact that a line modifies or retracts."""
    members = members_of(line) if b'"id"' in line else {}
    number = members.get("id")
    return number if members.get("do") in ("modify", "retract") and is_number(number) else None


def renumbered(image: Image, now: dict[int, int], wanted: dict[int, int], first: int, free: int) -> Image:
    """The image, with these numbers for the facts that lines inserted, and free ones for those that rules made from the
    first one on."""
    if now == wanted:
        return replace(image, next_id=max(image.next_id, free))
    names, free = {number: wanted[line] for line, number in now.items() if line in wanted}, max(image.next_id, free)
    for fact in image.facts:
        if fact.id >= first and fact.id not in names:
            names[fact.id], free = free, free + 1

    def row(it: ImageRow) -> ImageRow:
        return replace(it, facts=tuple(Named(names.get(n.id, n.id), n.tag) for n in it.facts))

    def fired(it: FiredMatch) -> FiredMatch:
        return replace(it, row=row(it.row))

    def extra(it: Extra) -> Extra:
        return replace(it, row=row(it.row))

    return replace(image, facts=tuple(replace(f, id=names.get(f.id, f.id)) for f in image.facts), next_id=free,
                   fired=tuple(map(fired, image.fired)), extras=tuple(map(extra, image.extras)))


# ---- the whole


@dataclass(frozen=True)
class Asked:
    """The words."""
    old_image: Path
    log: Path
    new_rules: Path
    out: Path
    before: Optional[Path]
    desk: list[str]
    limit: str


def earlier_image(asked: Asked, log: Log, old: Image, wanted: float) -> Optional[Image]:
    """An image from which the old rules are run up to the lookback, None where they are run from the beginning."""
    known = [it for it in log.earlier_images() if int(it.name) >= log.first - 1 and is_of(it, old)]
    far = [it for it in known if clock_of(it) <= old.clock - wanted]
    found = [asked.before] if asked.before is not None else far[-1:] or known[:1]
    if not found and log.first == 1:
        return None
    if not found:
        raise NotDeployed(f"{log.path} begins with line {log.first}: --before is to name an image of the desk from "
                          "before that line, or between that line and the lookback")
    path, image = found[0], image_of(found[0])
    if not log.first - 1 <= image.run.lines <= old.run.lines:
        raise NotDeployed(f"{path} is behind line {image.run.lines}, and the log has lines {log.first} to {log.end}")
    if image.run.rules != old.run.rules:
        raise NotDeployed(f"{path} is of other rules than {asked.old_image}")
    return image


def is_of(path: Path, old: Image) -> bool:
    """Whether an image is of the rules of the old one."""
    with open(path, "rb") as file:
        return rules_in(file) == old.run.rules


def clock_of(path: Path) -> int:
    with open(path, "rb") as file:
        return head_in(file).clock


def is_behind(image: Image, old: Image) -> bool:
    """Whether the log leads to the old image."""
    def moment(it: Image) -> Any:
        return it.run, it.clock, it.begun, it.last_starts, it.promises, it.next_id, it.next_tag

    return moment(image) == moment(old)


def deployed(asked: Asked, desks: Desks) -> tuple[Image, list[str]]:
    """The image of the new rules, and what is told of it."""
    old_image = image_of(asked.old_image)
    old, new = (program_of(old_image.run.rules, asked.old_image),
                program_of(asked.new_rules.read_bytes(), asked.new_rules))
    log = Log(asked.log, old_image.run.lines)
    wanted = reach_of(new, longest_duration(log, new))
    start = earlier_image(asked, log, old_image, wanted)
    begin, clock = (1, 0) if start is None else (start.run.lines + 1, start.clock)
    lookback = lookback_of(log, begin, clock, wanted, old_image.clock)
    then = desks.run(old_image.run.rules, log.lines(begin, lookback.begin), start)
    lines = list(log.lines(lookback.begin))
    end, before = desks.answered(old_image.run.rules, lines, then)
    if not is_behind(end, old_image):
        raise NotDeployed(f"{asked.log} does not lead to {asked.old_image}: it is another log, or the limit was "
                          "another one, or there were other rules in between")
    it = Deployment(desks, old, new, old_image)
    made, fired = it.replayed(it.front(then), lines, before)
    it.tell_pending()
    length, looks = old_image.clock - lookback.moment, "for ever" if wanted == INFINITE else f"{wanted} ms"
    if start is not None and length < wanted < INFINITE:
        it.left_out.append(f"the events of {wanted - length} ms more, for which there is no earlier image")
    told = [f"lookback: {counted(len(lines), 'line')}, from line {lookback.begin} on, {length} ms; the new rules look "
            f"back {looks}"]
    return replace(made, run=replace(old_image.run, rules=made.run.rules)), told + fired + [
        f"not carried over: {reason}" for reason in it.left_out]


def asked_of_words() -> Asked:
    parser = Parser(prog="deploy", description="Makes an image of other rules of a desk, by replay.")
    parser.add_argument("old_image", type=Path, metavar="OLD-IMAGE", help="an image of the desk")
    parser.add_argument("log", type=Path, metavar="LOG", help="the lines up to the image, a file or a keeper's log")
    parser.add_argument("new_rules", type=Path, metavar="NEW-RULES", help="the rule file to come")
    parser.add_argument("--out", type=Path, metavar="NEW-IMAGE", help="the image; OLD-IMAGE.new")
    parser.add_argument("--before", type=Path, metavar="IMAGE", help="an earlier image of the desk")
    parser.add_argument("--desk", metavar="PROGRAM", help="the program; the built one, or the second evaluator")
    parser.add_argument("--limit", default="100000", metavar="N", help="the limit of the desk; 100000")
    words = parser.parse_args()
    built = [str(BUILT_DESK)] if os.access(BUILT_DESK, os.X_OK) else command_of("reference.desk")
    out = words.out or words.old_image.with_name(words.old_image.name + ".new")
    return Asked(words.old_image, words.log, words.new_rules, out, words.before,
                 built if words.desk is None else [words.desk], words.limit)


def main() -> int:
    asked = asked_of_words()
    try:
        with tempfile.TemporaryDirectory(prefix="deploy-") as folder:
            image, told = deployed(asked, Desks(asked.desk, asked.limit, Path(folder)))
        part = asked.out.with_name(asked.out.name + ".part")
        part.write_bytes(encode(image))
        os.replace(part, asked.out)
    except NotDeployed as reason:
        print(f"deploy: {reason}", file=sys.stderr)
        return 3 if ": refused item " in str(reason) else 2
    except OSError as error:
        print(f"deploy: {error}", file=sys.stderr)
        return 2
    print("\n".join([*told, f"image: {asked.out}, behind line {image.run.lines}"]))
    return 0


if __name__ == "__main__":
    sys.exit(main())
