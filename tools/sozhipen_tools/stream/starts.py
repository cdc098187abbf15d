"""How far the entry points of a stream have come, whatever the partition: what a router tells each of them before a
`fire`.

A partition sees only the events of its keys, so the floor of an entry point with a lateness is lower there than in one
run over all, and a `not` that waits would go on later.
"""

from __future__ import annotations

import json
from typing import Any, Iterator, Optional

from ..reference.meaning.program import DEFAULT, Program
from ..reference.meaning.run import has_kind
from ..reference.meaning.script import TIME_END, AdvanceLine, AtLine, DeskCommand, InsertLine, PromiseLine


def promise_line(entry: str, start: int) -> bytes:
    """The line that promises an entry point this start."""
    return json.dumps({"do": "promise", "entry": entry, "from": start}, separators=(",", ":")).encode()


class Starts:
    """The clock, the latest start in each entry point with a lateness, and what was promised there."""

    def __init__(self, program: Program) -> None:
        self.types = program.types
        self.latest = {entry: 0 for entry, lateness in program.latenesses.items() if lateness > 0}
        self.promised = dict(self.latest)
        self.asked = dict(self.latest)
        self.clock = 0

    def kept(self) -> dict[str, Any]:
        """All of it, as JSON has it."""
        return {"clock": self.clock, "latest": self.latest, "promised": self.promised, "asked": self.asked}

    def go_on(self, kept: dict[str, Any]) -> None:
        """Begins where another one was, over the entry points that these rules have."""
        self.clock = kept["clock"]
        for name in ("latest", "promised", "asked"):
            getattr(self, name).update((entry, start) for entry, start in kept[name].items() if entry in self.latest)

    def see(self, command: DeskCommand) -> None:
        """Follows a line that is routed."""
        if isinstance(command, AtLine):
            self.move(command.ms)
        elif isinstance(command, AdvanceLine):
            self.move(self.clock + command.by)
        elif isinstance(command, InsertLine):
            entry, start = command.entry or DEFAULT, self.start_of(command)
            if entry in self.latest and start is not None:
                self.latest[entry] = max(self.latest[entry], start)

    def move(self, moment: int) -> None:
        if self.clock <= moment <= TIME_END:
            self.clock = moment

    def start_of(self, line: InsertLine) -> Optional[int]:
        """The start of an event that a run accepts unless it is late; None of any other fact."""
        known = self.types.get(line.type)
        if known is None or not known.event or set(line.fields) != set(known.fields):
            return None
        if not all(has_kind(line.fields[name], kind) for name, kind in known.fields.items()):
            return None
        start = self.clock if known.timestamp is None else int(line.fields[known.timestamp])
        lasts = 0 if known.duration is None else int(line.fields[known.duration])
        return start if start <= self.clock and 0 <= lasts <= TIME_END else None

    def promises(self) -> Iterator[bytes]:
        """The promises that are due before a `fire`."""
        for entry, start in self.latest.items():
            if start > self.promised[entry]:
                self.promised[entry] = start
                yield promise_line(entry, start)

    def raised(self, line: bytes, command: PromiseLine) -> bytes:
        """A promise of the script. Where one run would take it, though more was promised to the partitions before, it
        says that again."""
        entry, start = command.entry or DEFAULT, command.start
        if entry not in self.latest or not self.asked[entry] <= start <= TIME_END:
            return line
        self.asked[entry] = start
        if start < self.promised[entry]:
            return promise_line(entry, self.promised[entry])
        self.promised[entry] = start
        return line
