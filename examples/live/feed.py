#!/usr/bin/env python3
"""Makes a script of withdrawals while they come, for a desk that runs by itself:

    PYTHONPATH=tools python3 examples/live/feed.py <> PIPE | python3 examples/live/keeper.py PROGRAM RULES FOLDER

PYTHONPATH is for a clone; with the package `sozhipen` installed it is not needed.

PIPE is a named pipe, opened for reading and writing, so that it never ends and writers may come and go. A row is
`card,place,amount`, or `at,card,place,amount` if the withdrawal did not happen just now. Rows are held back for the
lateness of the entry point, so that they go in by their starts. Each second the clock is moved to that of the machine,
and what is pending fires: so alerts about what did not happen come without a row.

Rows that are held back are only in memory: a crash loses those of the last two seconds.
"""

from __future__ import annotations

import argparse
import heapq
import os
import select
import sys
import time
from itertools import count
from typing import Any

from convert import cents  # beside this file

from sozhipen import Script, milliseconds

LATENESS = 2_000
TICK = 1_000
READ_MAX = 1 << 16


def now() -> int:
    return time.time_ns() // 1_000_000


def fields_of(row: str, arrived: int) -> dict[str, Any]:
    """The fields of the withdrawal in a row; ValueError if it is none."""
    cells = [cell.strip() for cell in row.split(",")]
    if len(cells) not in (3, 4):
        raise ValueError(f"{len(cells)} cells")
    *at, card, place, amount = cells
    return {"at": milliseconds(at[0]) if at else arrived, "card": card, "place": place, "cents": cents(amount)}


class Feed:
    """Holds rows back, and writes those that are due, with the clock."""

    def __init__(self, script: Script):
        self.script, self.clock = script, 0
        self.held: list[tuple[int, int, dict[str, Any]]] = []
        self.order = count()

    def take(self, row: str, arrived: int) -> None:
        """A row has arrived; one that is no withdrawal is reported on standard error."""
        try:
            fields = fields_of(row, arrived)
        except ValueError as error:
            print(f"feed: not taken: {row!r}: {error}", file=sys.stderr, flush=True)
            return
        heapq.heappush(self.held, (fields["at"] + LATENESS, next(self.order), fields))

    def move(self, moment: int) -> None:
        """Moves the clock, which never goes back, also where that of the machine does."""
        if moment > self.clock:
            self.clock = moment
            self.script.at(moment)

    def tick(self, moment: int) -> None:
        """Writes the rows that are due, moves the clock to the moment, and fires."""
        while self.held and self.held[0][0] <= moment:
            due, _, fields = heapq.heappop(self.held)
            self.move(due)
            self.script.insert("Withdrawal", fields, "ATM")
        self.move(moment)
        self.script.fire()
        self.script.out.flush()


def rows_of(handle: int, rest: bytes) -> tuple[list[str], bytes, bool]:
    """The whole rows that have come, the row that is not whole yet, and whether more may come."""
    data = os.read(handle, READ_MAX)
    *rows, rest = (rest + data).split(b"\n")
    return [row.decode("utf-8", "replace") for row in rows if row.strip()], rest, bool(data)


def main() -> int:
    about = "feed.py <> PIPE: makes a script of rows of withdrawals while they come."
    argparse.ArgumentParser(usage=argparse.SUPPRESS, description=about).parse_args()
    feed, handle, rest, goes_on = Feed(Script(sys.stdout)), sys.stdin.fileno(), b"", True
    next_tick = now() // TICK * TICK + TICK
    try:
        while goes_on:
            if select.select([handle], [], [], max(next_tick - now(), 0) / 1000)[0]:
                rows, rest, goes_on = rows_of(handle, rest)
                for row in rows:
                    feed.take(row, now())
            if now() >= next_tick:
                feed.tick(now())
                next_tick = now() // TICK * TICK + TICK
        feed.tick(now() + LATENESS)
    except BrokenPipeError:
        print("feed: the keeper has ended", file=sys.stderr)
        os.dup2(os.open(os.devnull, os.O_WRONLY), sys.stdout.fileno())
        return 1
    return 0


if __name__ == "__main__":
    sys.exit(main())
