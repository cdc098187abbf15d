"""The child process of the workbench: reads one request as JSON, and prints what it finds as JSON lines, the quickest
first.

What was printed when the time is over is shown all the same.
"""

from __future__ import annotations

import json
import os
import subprocess
import sys
from pathlib import Path
from typing import Any, Iterator, Optional, Union

from ..pipes import pipe
from ..places import BUILT
from ..reference.meaning.program import Program
from ..reference.meaning.run import Run, program_or_refusal
from ..reference.meaning.script import lines_of
from ..reference.meaning.worlds import World
from ..running.programs import name_of_built
from ..timeline.clock import Clock, clock_of
from ..timeline.marks import fields_text, picture_of, promised, shown
from ..timeline.page import page
from ..timeline.recording import Firing, Recording, Unfit, recording_of
from ..words import Parser
from .findings import advice, fault_reason, fault_words, life_reasons, reasons_at, refusals

FIRINGS = 2_000
EXPLAINED = 20
OUTPUT = 1 << 20
ENDS = (0, 1, 3, 4)
MEMORY = 2 << 30


def say(**members: Any) -> None:
    sys.stdout.write(json.dumps(members) + "\n")
    sys.stdout.flush()


def bound(seconds: int) -> None:
    """Bounds the time of the processor and the memory of this process and its own, where the machine can."""
    try:
        import resource
        resource.setrlimit(resource.RLIMIT_CPU, (seconds, seconds + 1))
        resource.setrlimit(resource.RLIMIT_AS, (MEMORY, MEMORY))
    except (ImportError, ValueError, OSError):
        pass


# ---- the run: the lines of the output as they come


def evaluated(program: Program, script: bytes) -> Iterator[str]:
    state = Run(World(program), FIRINGS, FIRINGS, [])
    for number, line in enumerate(lines_of(script), start=1):
        state.line(number, line)
        yield from state.lines
        state.lines.clear()
        if state.ended:
            return


def take_program(named: Optional[str]) -> None:
    """Another program than that of this clone."""
    global BUILT
    BUILT = Path(named) if named else BUILT


def has_built_program() -> bool:
    return os.access(BUILT, os.X_OK) and hasattr(os, "memfd_create")


def built(rules: bytes, script: bytes) -> Iterator[str]:
    """The program reads its rule file from memory, so no file is written."""
    memory = [os.memfd_create(name) for name in ("rules", "script")]
    for fd, data in zip(memory, (rules, script)):
        os.write(fd, data)
        os.lseek(fd, 0, os.SEEK_SET)
    words = [str(BUILT), "--limit", str(FIRINGS), f"/proc/self/fd/{memory[0]}"]
    with subprocess.Popen(words, stdin=memory[1], stdout=subprocess.PIPE, pass_fds=[memory[0]]) as process:
        for fd in memory:
            os.close(fd)
        for line in pipe(process.stdout):
            yield line.decode("utf-8", "replace").rstrip("\n")
    if process.returncode not in ENDS:
        say(kind="note", text=f"the program ended with the status {process.returncode}")


def printed(program: Program, rules: bytes, script: bytes) -> list[str]:
    """Says the output in pieces, and returns it, cut where it is too long."""
    lines, size, piece = [], 0, []
    for line in built(rules, script) if has_built_program() else evaluated(program, script):
        lines.append(line)
        piece.append(line)
        size += len(line) + 1
        if len(piece) == 200 or size > OUTPUT or not has_built_program():
            say(kind="output", lines=piece)
            piece = []
        if size > OUTPUT:
            say(kind="note", text=f"the output is cut after {len(lines)} lines")
            break
    say(kind="output", lines=piece)
    return lines


# ---- what the output means


def fact_shown(number: int, type_name: str, values: dict) -> dict:
    """Values are texts already: a page's numbers do not have 64 bits."""
    return {"id": number, "type": type_name, "text": fields_text(values)}


def firing_shown(firing: Firing, recording: Recording, clock: Clock) -> dict:
    lives, waiting = recording.lives, firing.waiting
    results = " ".join(f"={number}" for sign, number in firing.cells if sign == "=")
    variables = ", ".join(f"${name} {shown(value)}" for name, value in firing.variables.items())
    return {"line": firing.line, "clock": firing.clock, "rule": firing.rule, "values": f"{results} {variables}".strip(),
            "waiting": waiting
            and f"waited from {clock.text(waiting.since)} to {clock.text(waiting.until)} for {waiting.type}",
            "facts": [fact_shown(number, lives[number].type, firing.values[number]) for number in firing.facts],
            "made": [fact_shown(number, lives[number].type, lives[number].values) for number in firing.made]}


def tell_recording(asked: dict, recording: Recording) -> None:
    clock = clock_of(recording)
    say(kind="run", end=recording.end, dates=clock.dates, facts=len(recording.lives),
        firings=[firing_shown(firing, recording, clock) for firing in recording.firings],
        faults=[{"line": fault.line, "code": fault.code, "clock": fault.clock, "sent": fault.text,
                 "words": fault_words(fault.code)}
                for fault in recording.faults],
        promises=[{"line": promise.line, "text": promised(promise, clock)} for promise in recording.promises],
        printed=[{"clock": it.clock, "line": it.line, "text": it.text} for it in recording.printed])
    say(kind="timeline", html=page(asked["title"], recording, picture_of(recording)))


def tell_faults(program: Program, script: bytes, recording: Recording) -> None:
    """Why lines are faulty, as far as the time goes: for each the run up to there is done anew."""
    for line in list(dict.fromkeys(fault.line for fault in recording.faults))[:EXPLAINED]:
        say(kind="fault", line=line, reasons=fault_reason(program, script, line))


def types_shown(program: Program) -> list[dict]:
    """For each type a line of the script that inserts one, with an empty value in each field."""
    empty: dict[Optional[str], Any] = {"Int": 0, "Bool": False, "Text": ""}
    entries = {condition.source.type: condition.source.entry for rule in program.rules for condition in rule.conditions}
    lines = []
    for info in program.types.values():
        where = {"entry": entries[info.name]} if entries.get(info.name) else {}
        fields = {name: empty[kind] for name, kind in info.fields.items()}
        line: dict[str, Any] = {"do": "insert", "type": info.name, **where, "fields": fields}
        lines.append({"type": info.name, "timestamp": info.timestamp, "line": line})
    return lines


def run(asked: dict, rules: bytes, script: bytes, program: Program) -> None:
    say(kind="accepted", types=types_shown(program),
        rules=list(dict.fromkeys(program.title(k) for k in range(len(program.rules)))),
        program=program_said(asked.get("program")))
    say(kind="lives", lives=life_reasons(program))
    say(kind="advice", findings=advice(rules))
    output = "".join(line + "\n" for line in printed(program, rules, script)).encode("utf-8")
    try:
        recording = recording_of(rules, script, output)
    except Unfit as unfit:
        say(kind="note", text=f"no time line: {unfit}")
        return
    tell_recording(asked, recording)
    tell_faults(program, script, recording)


def program_said(named: Optional[str]) -> str:
    if not has_built_program():
        return "the second evaluator, sozhipen_tools.reference"
    return f"the program {named}" if named else name_of_built()


def why(asked: dict, rules: bytes, script: bytes, program: Program) -> None:
    say(kind="why", lines=reasons_at(rules, script, asked["line"], asked["rule"] or None, asked["facts"]))


def main() -> int:
    Parser(description=__doc__.partition("\n")[0]).parse_args()
    asked = json.load(sys.stdin)
    take_program(asked.get("program"))
    bound(asked["seconds"])
    rules, script = asked["rules"].encode("utf-8"), asked["script"].encode("utf-8")
    program: Union[Program, str] = program_or_refusal(rules)
    if isinstance(program, str):
        say(kind="refused", text=program, findings=refusals(rules))
    else:
        {"run": run, "why": why}[asked["do"]](asked, rules, script, program)
    say(kind="done")
    return 0


if __name__ == "__main__":
    sys.exit(main())
