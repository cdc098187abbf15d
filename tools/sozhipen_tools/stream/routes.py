"""Which partitions the lines of a script go to, from its first line or from where another router was.

What a router knows is kept by the broker, as the value `routes` behind the lines that are in the logs: how the stream
is split, which workers and readers take from there, and how far its entry points have come.
"""

from __future__ import annotations

import json
import zlib
from typing import Any, NamedTuple, Optional, Sequence

from ..reference.meaning.program import Program
from ..reference.meaning.script import (BadCommand, BadJson, DeskCommand, FireLine, InsertLine, ModifyLine, PromiseLine,
                                        RetractLine, desk_command_read)
from .broker import Broker, Lost, State, script_of, until_reached
from .quick import quick_json_of
from .starts import Starts

ROUTES = "routes"


class Mixed(Exception):
    """The stream has another key or number of partitions, or lines of another script, or another router writes."""


class Routed(NamedTuple):
    """What one line of the script becomes, and the partitions that get it."""
    number: int
    lines: list[bytes]
    partitions: list[int]


def command_or_none(line: bytes) -> Optional[DeskCommand]:
    """The command of a line, None of one that is blank or faulty."""
    try:
        return desk_command_read(quick_json_of(line))
    except (BadJson, BadCommand):
        return None


class Routes:
    """Where the lines of a script go, one after the other."""

    def __init__(self, program: Program, key: str, partitions: int) -> None:
        self.starts, self.key, self.partitions = Starts(program), key, partitions
        self.number, self.is_shared = 0, True

    def partition_of(self, value: object) -> int:
        """The partition of a key."""
        return zlib.crc32(str(value).encode()) % self.partitions

    def route(self, line: bytes) -> Routed:
        """Where the next line goes. One without a command goes to the first partition, which tells its fault; one that
        names a fact by a number that partitions do not share goes to none."""
        self.number += 1
        command = command_or_none(line)
        if command is None:
            return Routed(self.number, [line], [0])
        self.starts.see(command)
        everybody = list(range(self.partitions))
        if isinstance(command, InsertLine) and self.key in command.fields:
            self.is_shared = False
            return Routed(self.number, [line], [self.partition_of(command.fields[self.key])])
        if isinstance(command, (ModifyLine, RetractLine)) and not self.is_shared:
            return Routed(self.number, [line], [])
        if isinstance(command, PromiseLine):
            return Routed(self.number, [self.starts.raised(line, command)], everybody)
        before = list(self.starts.promises()) if isinstance(command, FireLine) else []
        return Routed(self.number, [*before, line], everybody)

    def kept(self, last: Sequence[int]) -> State:
        """All that the next line is routed by, under its number, and the last numbers in the logs of the partitions."""
        told = {"key": self.key, "partitions": self.partitions, "last": last, "shared": self.is_shared,
                "starts": self.starts.kept()}
        return State(self.number + 1, json.dumps(told).encode())

    def begin(self, broker: Broker, goes_on: bool) -> None:
        """Begins a stream where there is none; Mixed where the one that is there is split otherwise. The next line is
        the first of the script, or where it `goes_on` the one behind those that were put into the logs; Lost where
        they are not there."""
        until_reached(lambda: broker.keep(ROUTES, self.kept([0] * self.partitions)))
        there = until_reached(lambda: broker.state(ROUTES))
        told = json.loads(there.image)
        if (told["key"], told["partitions"]) != (self.key, self.partitions):
            raise Mixed
        if goes_on:
            for partition, last in enumerate(told["last"]):
                if until_reached(lambda: broker.last(script_of(partition))) < last:
                    raise Lost(f"partition {partition} has no longer line {last}: begin with the whole script")
            self.number, self.is_shared = there.offset - 1, told["shared"]
            self.starts.go_on(told["starts"])


def partitions_of(broker: Broker) -> int:
    """The number of partitions of a stream, 0 before its router has begun."""
    told: dict[str, Any] = json.loads(broker.state(ROUTES).image or b'{"partitions":0}')
    return int(told["partitions"])
