"""Holds events back for the lateness of their entry points, and hands them on in the order of their starts."""

from __future__ import annotations

import heapq
import json
from itertools import count
from pathlib import Path
from typing import Any, Optional, Union

from .answers import Answer, ClientError
from .client import Client
from .lines import line_of
from .record import Record, lines_in


class Ordered:
    """Drives the clock of a session by the moments of arrival. An event that starts at most the lateness before it
    arrives is not `Late`: it is inserted when the lateness after its start is over, with the clock there. Others, and
    plain facts, go in as they come. After each event stands a `fire`.

    `lateness` is taken for each entry point, where it is None that of the rule file. With a `step` the clock goes no
    further at once than so many milliseconds, and after each step stands a `fire`: what ends between two arrivals
    fires at its moment, and not at the later one.

    What is held back is in no line of the session yet. With the path of a `record` each arrival and each move of the
    clock is a line of that file first. After a crash a new session over the same rules gets all that the record has
    once more, in the same lines, and what was held back is held back again; `again` has the answers."""

    def __init__(self, session: Client, lateness: Optional[int] = None, step: Optional[int] = None,
                 record: Union[None, str, Path] = None):
        if session.rules is None:
            session.close()
            raise ClientError("the rule file is not there for the client, or refused: it has no latenesses")
        self.session, self.lateness, self.step = session, lateness, step
        self.rules = session.rules
        self.clock = session.clock
        self.held: list[tuple[int, int, tuple[str, dict[str, Any], Optional[str]]]] = []
        self.order = count()
        self.record: Optional[Record] = None
        self.again: list[Answer] = []
        if record is not None:
            self.take_again(Path(record))
            self.record = Record(record)

    def take_again(self, record: Path) -> None:
        """Does what a record has."""
        if self.session.lines and lines_in(record):
            raise ClientError(f"the record {record} is for a session that begins empty")
        for line in lines_in(record):
            call = json.loads(line)
            if "until" in call:
                self.again += self.until(call["until"])
            else:
                self.insert(*call["insert"])

    def note(self, **call: Any) -> None:
        if self.record:
            self.record.take(line_of(call).encode("utf-8", "surrogatepass") + b"\n")

    def insert(self, type_name: str, fields: dict[str, Any], entry: Optional[str] = None) -> None:
        """An event, or a plain fact, has arrived at the moment up to which the clock was moved."""
        self.note(insert=[type_name, fields, entry])
        heapq.heappush(self.held, (self.due(type_name, fields, entry), next(self.order), (type_name, fields, entry)))

    def due(self, type_name: str, fields: dict[str, Any], entry: Optional[str]) -> int:
        """The moment at which it is inserted."""
        info = self.rules.types.get(type_name)
        start = fields.get(info.timestamp) if info and info.event and info.timestamp else None
        if not isinstance(start, int):
            return self.clock
        own = self.rules.latenesses.get(entry or "DEFAULT", 0)
        return start + (own if self.lateness is None else self.lateness)

    def until(self, moment: int) -> list[Answer]:
        """Inserts what is due up to this moment, moves the clock there, and fires: the answers of these inserts and
        fires."""
        self.note(until=moment)
        answers = []
        while self.held and self.held[0][0] <= moment:
            due, _, line = heapq.heappop(self.held)
            answers += self.move(due)
            answers += [self.session.insert(*line), self.session.fire()]
        return answers + self.move(moment) + [self.session.fire()]

    def move(self, moment: int) -> list[Answer]:
        """Moves the clock, never back, and answers the fires of the steps between; the first move is one step."""
        fires = []
        while self.step and self.clock and self.clock + self.step < moment:
            self.clock += self.step
            self.session.at(self.clock)
            fires.append(self.session.fire())
        if moment > self.clock:
            self.clock = moment
            self.session.at(moment)
        return fires

    def rest(self) -> list[Answer]:
        """Inserts all that is held back still."""
        return self.until(max([self.clock] + [due for due, _, _ in self.held]))
