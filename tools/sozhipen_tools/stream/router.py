"""Gives each line of a script to the partition of its key.

    tools/run stream.router --key FIELD --partitions N [--redis SERVER | --jetstream SERVER] [--lines N] [--taken] RULES
        < SCRIPT

An `insert` with the field goes to the partition of its value; tables, and lines that move the clock or fire, go to all.
Before each `fire` each partition is promised the latest start that was routed to any, for each entry point with a
lateness. A `modify` or `retract` names a fact by a number that only one partition knows: before the first line with a
key it goes to all, and behind that it is told on standard error and routed to none (status 1).

A router may be killed and begun again with the script from its first line: what is in the logs is left out, and an
entry goes in only behind the one that is expected, so two routers cannot mix. With --taken it first prints
`taken NUMBER`, and the script begins behind that line: all up to it is in the logs, and of what came later a second's
lines may be. A last line without its newline, which a caller that was killed leaves, is routed only where it is whole.
Status 3 where the rule file is missing or refused, 4 where another router writes to these partitions, where their last
lines are of another script, or that ends before them, where the stream was begun with another key or number of
partitions, or where the broker has lost lines that were taken, or refuses what it is asked.
"""

from __future__ import annotations

import argparse
import sys
import time
from pathlib import Path
from typing import BinaryIO, Iterator

from ..reference.meaning.run import program_or_refusal
from ..words import Parser
from .broker import Append, Broker, Entry, Lost, RefusedByServer, script_of, until_reached
from .brokers import broker_of, broker_words
from .entries import Numbered, data_of, lines_in
from .routes import ROUTES, Mixed, Routed, Routes, command_or_none

CHUNK = 1 << 20
SAVE_SECONDS = 1.0
# How many entries are put at once, where the script comes faster than they are put.
AT_ONCE = 80


class TooShort(Exception):
    """A script ends before lines that are in the logs."""


class Router:
    """Puts the lines of a script into the logs of the partitions, several to an entry."""

    def __init__(self, broker: Broker, routes: Routes, most_lines: int) -> None:
        self.broker, self.routes, self.most_lines = broker, routes, most_lines
        self.first = routes.number
        everybody = range(routes.partitions)
        self.last = [until_reached(lambda: broker.last(script_of(partition))) for partition in everybody]
        self.there = {partition: self.last_lines(partition) for partition in everybody
                      if self.last[partition] > routes.number}
        self.waiting: list[list[Numbered]] = [[] for _ in everybody]
        self.many = 0

    def last_lines(self, partition: int) -> list[Numbered]:
        """The lines of a partition under the last number there."""
        last = self.last[partition]
        entries = until_reached(lambda: self.broker.read(script_of(partition), last - 1, 1))
        return [line for entry in entries for line in lines_in(entry.data) if line.number == last]

    def take(self, line: bytes) -> Routed:
        """Routes the next line, and takes it where it is not there yet; where many wait, they are put. Mixed where the
        last lines that were there are not of this script."""
        routed = self.routes.route(line)
        lines = [Numbered(routed.number, line) for line in routed.lines]
        for partition in routed.partitions:
            if routed.number >= self.last[partition] and self.there.pop(partition, lines) != lines:
                raise Mixed
            if routed.number > self.last[partition]:
                self.waiting[partition] += lines
                self.many += len(lines)
        if self.many >= self.most_lines * AT_ONCE:
            self.flush()
        return routed

    def flush(self) -> None:
        """Puts what waits behind what this router put last. Where the broker was away, some of it may be there."""
        appends = {partition: Append(script_of(partition), self.last[partition], entries_of(lines, self.most_lines))
                   for partition, lines in enumerate(self.waiting) if lines}

        def are_there() -> bool:
            is_put = self.broker.append_each(list(appends.values()))
            return all(put or self.broker.last(append.log) == append.entries[-1].number
                       for put, append in zip(is_put, appends.values()))

        if appends and not until_reached(are_there):
            raise Mixed
        for partition, append in appends.items():
            self.last[partition], self.waiting[partition] = append.entries[-1].number, []
        self.many = 0

    def save(self) -> None:
        """Keeps what it knows, behind all lines that it took, once these have been seen to be of the script that is there.
        """
        self.flush()
        if not self.there:
            until_reached(lambda: self.broker.keep(ROUTES, self.routes.kept(self.last)))

    def end(self, goes_on: bool) -> None:
        """The script is over: Mixed where last lines that are there are not of it, TooShort where it ends before them. One
        that goes on behind the lines taken may have no line: so it is asked which these are."""
        self.save()
        if not self.there or goes_on and self.routes.number == self.first:
            return
        last = max(self.last[partition] for partition in self.there)
        if last <= self.routes.number:
            raise Mixed
        raise TooShort(f"the script ends with line {self.routes.number}, and the logs have lines up to {last}")


def entries_of(lines: list[Numbered], most: int) -> list[Entry]:
    """Lines as entries of so many lines, or of some more: all under one number are in one."""
    found: list[list[Numbered]] = [[]]
    for line in lines:
        if len(found[-1]) >= most and line.number != found[-1][-1].number:
            found.append([])
        found[-1].append(line)
    return [Entry(entry[-1].number, data_of(entry)) for entry in found]


def lines_as_they_come(file: BinaryIO) -> Iterator[list[bytes]]:
    """The lines of a file, without their newlines, as many at a time as have come together. What is behind the last
    newline is one where it is a whole command: what of one a caller left that was killed, it sends again."""
    rest = b""
    while chunk := file.read1(CHUNK):  # type: ignore[attr-defined]
        *lines, rest = (rest + chunk).split(b"\n")
        yield lines
    if command_or_none(rest) is not None:
        yield [rest]
    elif rest:
        print("router: the last line has no newline and is no command: it is not routed", file=sys.stderr)


def routed_all(file: BinaryIO, router: Router, goes_on: bool) -> bool:
    """Routes all lines of a file, which may go on behind the lines taken; whether each went to some partition."""
    is_whole, saved = True, time.monotonic()
    for lines in lines_as_they_come(file):
        for routed in map(router.take, lines):
            if not routed.partitions:
                is_whole = False
                print(f"router: line {routed.number} names a fact by a number of one partition: it is routed to none",
                      file=sys.stderr)
        router.flush()
        if time.monotonic() - saved >= SAVE_SECONDS:
            router.save()
            saved = time.monotonic()
    router.end(goes_on)
    return is_whole


def asked() -> argparse.Namespace:
    parser = Parser(description=__doc__, formatter_class=argparse.RawDescriptionHelpFormatter)
    parser.add_argument("rules", metavar="RULES")
    parser.add_argument("--key", metavar="FIELD", required=True, help="the field that has the key")
    parser.add_argument("--partitions", metavar="N", type=int, required=True)
    parser.add_argument("--lines", metavar="N", type=int, default=100, help="the most lines of an entry")
    parser.add_argument("--taken", action="store_true", help="print first how many lines were taken, and go on with "
                        "those behind them")
    broker_words(parser)
    return parser.parse_args()


def main() -> int:
    words = asked()
    try:
        program = program_or_refusal(Path(words.rules).read_bytes())
    except OSError as error:
        program = f"{words.rules}: {error.strerror}"
    if isinstance(program, str):
        print(f"router: {program}", file=sys.stderr)
        return 3
    broker, routes = broker_of(words), Routes(program, words.key, words.partitions)
    try:
        routes.begin(broker, words.taken)
        if words.taken:
            print(f"taken {routes.number}", flush=True)
        return 0 if routed_all(sys.stdin.buffer, Router(broker, routes, words.lines), words.taken) else 1
    except Mixed:
        print("router: the stream has another key or number of partitions, or lines of another script, or another "
              "router writes to it", file=sys.stderr)
        return 4
    except (TooShort, Lost, RefusedByServer) as error:
        print(f"router: {error}", file=sys.stderr)
        return 4


if __name__ == "__main__":
    sys.exit(main())
