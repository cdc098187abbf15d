"""A run: the lines of a script one by one over worlds, from the empty one, up to the limit of firings."""

from __future__ import annotations

from dataclasses import dataclass
from typing import Optional, Union

from .answers import Answer, Faulted, LimitOfRun, text_of
from .checks import check
from .firings import done, firing
from .keeping import held
from .program import DEFAULT, Program
from .reader import Refused, read_file
from .script import (LINE_END, AdvanceLine, AtLine, BadCommand, BadJson, BeginLine, Command, FireLine, HeldLine,
                     InsertLine, ModifyLine, PromiseLine, RetractLine, command_of, is_blank, lines_of)
from .trees import kind_of_value
from .worlds import (Begin, ClockMove, Insertion, Modification, Promise, Retraction, Step, World, absence_fault,
                     first_pending, step_fault)

TEXT_END = 4096


class Fault(Exception):
    """A faulty line, by its code."""


def has_kind(value: object, kind: Optional[str]) -> bool:
    """A value of a field's kind, a text of at most 4,096 bytes; what is no value of ours has none."""
    if not isinstance(value, (bool, int, str)) or kind_of_value(value) != kind:
        return False
    return not isinstance(value, str) or len(value.encode("utf-8")) <= TEXT_END


def asked_insertion(line: InsertLine, w: World) -> Insertion:
    if line.type not in w.program.types:
        raise Fault("UnknownType")
    entry = DEFAULT if line.entry is None else line.entry
    if entry not in w.program.latenesses:
        raise Fault("UnknownEntry")
    if w.program.types[line.type].reference and w.begun:
        raise Fault("ReferenceFixed")
    kinds = w.program.types[line.type].fields
    if set(line.fields) != set(kinds):
        raise Fault("BadFields")
    if not all(has_kind(line.fields[name], kind) for name, kind in kinds.items()):
        raise Fault("BadValue")
    return Insertion(line.type, entry, line.fields)


def asked_modification(line: ModifyLine, w: World) -> Modification:
    if line.type not in w.program.types:
        raise Fault("UnknownType")
    if w.program.types[line.type].event:
        raise Fault("EventFixed")
    if w.program.types[line.type].reference:
        raise Fault("ReferenceFixed")
    step = Modification(line.id, line.type, line.fields)
    if fault := absence_fault(step, w):
        raise Fault(fault)
    kinds = w.program.types[line.type].fields
    if not line.fields or any(name not in kinds for name in line.fields):
        raise Fault("BadFields")
    if not all(has_kind(value, kinds[name]) for name, value in line.fields.items()):
        raise Fault("BadValue")
    return step


def asked_retraction(line: RetractLine, w: World) -> Retraction:
    if line.type not in w.program.types:
        raise Fault("UnknownType")
    if line.type in w.program.observed:
        raise Fault("EventObserved")
    if w.program.types[line.type].reference:
        raise Fault("ReferenceFixed")
    return Retraction(line.id, line.type)


def asked_promise(line: PromiseLine, w: World) -> Promise:
    entry = DEFAULT if line.entry is None else line.entry
    if entry not in w.program.latenesses:
        raise Fault("UnknownEntry")
    return Promise(entry, line.start)


def asked_step(command: Command, w: World) -> Step:
    """The step that a line asks for, or the first Fault of what it names and gives."""
    if isinstance(command, InsertLine):
        return asked_insertion(command, w)
    if isinstance(command, ModifyLine):
        return asked_modification(command, w)
    if isinstance(command, RetractLine):
        return asked_retraction(command, w)
    if isinstance(command, PromiseLine):
        return asked_promise(command, w)
    if isinstance(command, BeginLine):
        return Begin()
    if isinstance(command, AtLine):
        return ClockMove(command.ms)
    assert isinstance(command, AdvanceLine), "the other commands are no steps"
    return ClockMove(w.clock + command.by)


@dataclass
class Run:
    """Where a run stands: the world, the firings that are left, what was printed, whether the limit ended it; the lines
    taken, the firings made, and whether one of these lines was faulty."""
    world: World
    left: int
    limit: int
    lines: list[str]
    ended: bool = False
    number: int = 0
    firings: int = 0
    faulty: bool = False

    def tell(self, number: int, *answers: Answer) -> None:
        """Prints what a line answers."""
        self.faulty = self.faulty or any(isinstance(it, Faulted) for it in answers)
        self.lines += [line for line in (self.written(it, number) for it in answers) if line is not None]

    def written(self, answer: Answer, number: int) -> Optional[str]:
        return text_of(answer, number)

    def line(self, number: int, line: bytes) -> None:
        """What one line of the script does."""
        try:
            if len(line) > LINE_END:
                raise Fault("LineLong")
            if is_blank(line):
                return
            self.obey(number, line)
        except BadJson:
            self.tell(number, Faulted("BadJson"))
        except BadCommand:
            self.tell(number, Faulted("BadCommand"))
        except Fault as fault:
            self.tell(number, Faulted(fault.args[0]))

    def obey(self, number: int, line: bytes) -> None:
        """Does what a line asks for, or raises its fault."""
        self.command(number, command_of(line))

    def command(self, number: int, command: Command) -> None:
        if isinstance(command, FireLine):
            self.fire(number, command.most)
        elif isinstance(command, HeldLine):
            self.tell(number, *held(self.world))
        else:
            step = asked_step(command, self.world)
            if fault := step_fault(step, self.world):
                raise Fault(fault)
            answers, self.world = done(step, self.world)
            self.tell(number, *answers)

    def fire(self, number: int, most: Optional[int]) -> None:
        """Fires until nothing is pending or the command has no firing left, or none is left at all."""
        made = 0
        while most is None or made < most:
            first = first_pending(self.world)
            if first is None:
                return
            if self.left == 0:
                return self.meet_limit(number)
            answers, self.world = firing(first, self.world)
            self.tell(number, *answers)
            self.left, self.firings, made = self.left - 1, self.firings + 1, made + 1

    def meet_limit(self, number: int) -> None:
        """A pending match at the limit ends the run."""
        self.tell(number, LimitOfRun(self.limit))
        self.ended = True

    @property
    def status(self) -> int:
        return 4 if self.ended else 1 if self.faulty else 0


def run_on(state: Run, script: bytes) -> Run:
    """The run goes on over the whole script, or up to the limit of firings."""
    for line in lines_of(script):
        state.number += 1
        state.line(state.number, line)
        if state.ended:
            break
    return state


def run(program: Program, script: bytes, limit: int) -> Run:
    """A run over the whole script, or up to the limit of firings."""
    return run_on(Run(World(program), limit, limit, []), script)


def program_or_refusal(rules: bytes) -> Union[Program, str]:
    """The program of a rule file, or its line of refusal."""
    try:
        return check(read_file(rules))
    except Refused as refused:
        return f"refused item {refused.item} line {refused.line} {refused.code}"


def report(rules: bytes, script: bytes, limit: int = 100_000) -> tuple[bytes, int]:
    """The bytes and the status of a run over a rule file and a script."""
    return report_of(outcome(rules, script, limit))


def outcome(rules: bytes, script: bytes, limit: int = 100_000) -> Union[Run, str]:
    """The run over a rule file and a script, or the line of the file's refusal."""
    program = program_or_refusal(rules)
    return program if isinstance(program, str) else run(program, script, limit)


def report_of(found: Union[Run, str]) -> tuple[bytes, int]:
    """The bytes and the status of a run or a refusal."""
    lines, status = ([found], 3) if isinstance(found, str) else (found.lines, found.status)
    return "".join(line + "\n" for line in lines).encode("utf-8"), status
