"""Answers the lines of a stream's partitions, whichever have lines that nobody is at.

    tools/run stream.worker [--redis SERVER | --jetstream SERVER] [--desk PROGRAM] [--limit N] [--lease MS]
        [--lines N] [--until-done] NAME RULES

Any number of workers share the partitions, each under a name of its own, and each may be killed at any moment. A turn
takes the lease of a partition, reads a batch of entries behind its image, runs them through a desk, puts the answers
under the numbers of the entries, and then the next image with its offset in one step. While a desk works, its lease is
renewed. A turn that was cut off is done again, with the same answers under the same numbers, so none is lost or
doubled, even where two workers believe that they have the lease. SIGTERM and Ctrl+C end a worker behind its turn.

Standard error has why a worker ends otherwise: with status 2 where a desk ends with a status with which it would end
again, or where the broker refuses what it is asked; with status 4 where the broker has lost answers, or an image, and
lines behind the one that is there were taken away. Then nothing is answered. Where it has lost lines that are answered,
that is told too, and the worker waits for a router that puts them again.
"""

from __future__ import annotations

import argparse
import os
import random
import signal
import sys
import threading
import time
from contextlib import contextmanager
from typing import Callable, Iterator, Optional

from ..places import BUILT_DESK, command_of
from ..words import Parser
from .broker import (Away, Broker, Entry, Lost, RefusedByServer, State, Unreachable, answers_of, lease_of, script_of,
                     state_of)
from .brokers import broker_of, broker_words
from .engine import Engine, Interrupted, Stopped
from .entries import lines_behind
from .routes import partitions_of

IDLE_SECONDS = 0.02
ENTRIES = 50
# How often a lease is renewed until it would end.
RENEWED = 3


@contextmanager
def meanwhile(do: Callable[[], None], seconds: float) -> Iterator[None]:
    """Does something again and again, each time after so long, and not behind the end."""
    is_over = threading.Event()

    def again() -> None:
        while not is_over.wait(seconds):
            do()

    thread = threading.Thread(target=again)
    thread.start()
    try:
        yield
    finally:
        is_over.set()
        thread.join()


class Worker:
    """Turns over the partitions of a broker, each of entries until they have `most` lines."""

    def __init__(self, broker: Broker, engine: Engine, holder: str, lease: int = 2000, most: int = 5000) -> None:
        self.broker, self.engine, self.holder, self.lease, self.most = broker, engine, holder, lease, most
        self.is_ending = False
        self.interrupted: Optional[int] = None
        # The partitions of which it was told that their scripts are shorter than their answers.
        self.short: set[int] = set()

    def end(self, *_: object) -> None:
        """Begins no further turn."""
        self.is_ending = True

    def turn(self, partition: int) -> bool:
        """Answers a batch of a partition, where it has lines and nobody else is at it; whether there was one."""
        if not self.is_behind(partition) or not self.broker.lease(lease_of(partition), self.holder, self.lease):
            return False
        try:
            self.answer(partition)
        except Interrupted:
            self.interrupted = partition
            raise
        finally:
            self.broker.release(lease_of(partition), self.holder)
        return True

    def is_behind(self, partition: int) -> bool:
        """Whether lines of a partition wait for their answers. Answers stand before the image that they are in, so an
        image may be behind where nothing waits."""
        return self.broker.last(answers_of(partition)) < self.broker.last(script_of(partition))

    def answer(self, partition: int) -> None:
        state = self.broker.state(state_of(partition))
        entries = self.entries_of_turn(partition, state)
        if not entries:
            return
        with meanwhile(lambda: self.renew(partition), self.lease / 1000 / RENEWED):
            answers, behind = self.engine.turn(state, entries)
        there = self.broker.last(answers_of(partition))
        if there < state.offset:
            raise Lost(f"partition {partition}: answers up to {there}, an image behind {state.offset}")
        if new := lines_behind(there, answers):
            self.broker.append(answers_of(partition), there, new)
        # Behind the answers: nobody answers again what stands before an image.
        if self.broker.last(answers_of(partition)) >= behind.offset:
            self.broker.keep(state_of(partition), behind)

    def entries_of_turn(self, partition: int, state: State) -> list[Entry]:
        """The entries behind an image; none where another worker is further, so that they may have been taken away
        (stream.trim). Lost where they were, and none is."""
        lost: Optional[Lost] = None
        try:
            entries = self.entries(partition, state.offset)
        except Lost as error:
            entries, lost = [], error
        if self.broker.offset(state_of(partition)) != state.offset:
            return []
        if lost is not None:
            raise Lost(f"the broker lost the image of partition {partition}, or has an older one: {lost}")
        return lines_behind(state.offset, entries)

    def entries(self, partition: int, behind: int) -> list[Entry]:
        """So many entries behind a number as one turn has."""
        found, lines = [], 0
        while more := self.broker.read(script_of(partition), behind, ENTRIES):
            for entry in more:
                found.append(entry)
                lines += entry.data.count(b"\n")
                if lines >= self.most:
                    return found
            behind = more[-1].number
        return found

    def renew(self, partition: int) -> None:
        """Keeps a partition for longer. Where that is not possible, another worker may do the same turn."""
        try:
            self.broker.lease(lease_of(partition), self.holder, self.lease)
        except Unreachable:
            pass

    def round(self, partitions: int) -> bool:
        """A turn of the partition that is furthest behind, of those that nobody else is at; whether there was one."""
        return any(self.turn(partition) for partition in self.waiting(partitions) if not self.is_ending)

    def waiting(self, partitions: int) -> list[int]:
        """The partitions with lines that wait for their answers, the one that is furthest behind first. One whose desk
        was interrupted comes last, once, as it may be so again."""
        found = []
        for partition in range(partitions):
            answered, last = self.broker.last(answers_of(partition)), self.broker.last(script_of(partition))
            if answered < last:
                found.append((partition == self.interrupted, answered, random.random(), partition))
            elif answered > last and partition not in self.short:
                self.short.add(partition)
                print(f"worker: partition {partition} is answered up to line {answered}, and has lines up to {last}: "
                      "route the whole script again", file=sys.stderr, flush=True)
        self.interrupted = None
        return [partition for *_, partition in sorted(found)]

    def is_done(self, partitions: int) -> bool:
        """Whether all lines that are there have their answers."""
        return not any(self.is_behind(partition) for partition in range(partitions))


def work(worker: Worker, until_done: bool) -> None:
    """Turns until the worker is to end, or all lines that are there have their answers."""
    partitions, broker, desk = 0, Away("the broker"), Away("a desk that is not stopped")
    while not worker.is_ending:
        try:
            partitions = partitions or partitions_of(worker.broker)
            has_answered = worker.round(partitions)
            broker.over()
            desk.over()
            if not has_answered:
                if until_done and worker.is_done(partitions):
                    return
                time.sleep(IDLE_SECONDS)
        except (Interrupted, Unreachable) as error:
            (desk if isinstance(error, Interrupted) else broker).seen(error)
            time.sleep(IDLE_SECONDS)


def asked() -> argparse.Namespace:
    parser = Parser(description=__doc__, formatter_class=argparse.RawDescriptionHelpFormatter)
    parser.add_argument("name", metavar="NAME")
    parser.add_argument("rules", metavar="RULES")
    parser.add_argument("--desk", metavar="PROGRAM", help="the program; otherwise the built one of this clone, or the "
                        "second evaluator, which is slow")
    parser.add_argument("--limit", metavar="N", type=int, default=100_000, help="the most firings of a fire")
    parser.add_argument("--lease", metavar="MS", type=int, default=2000, help="how long a partition waits for a worker "
                        "that was killed")
    parser.add_argument("--lines", metavar="N", type=int, default=5000, help="a turn ends with the entry in which it "
                        "has so many")
    parser.add_argument("--until-done", action="store_true", help="end where all lines that are there have answers")
    broker_words(parser)
    return parser.parse_args()


def desk_command(program: Optional[str]) -> tuple[str, ...]:
    """The words that start a desk."""
    if program is None and not os.access(BUILT_DESK, os.X_OK):
        return tuple(command_of("reference.desk"))
    return (program or str(BUILT_DESK),)


def main() -> int:
    words = asked()
    engine = Engine(desk_command(words.desk), words.rules, words.limit)
    worker = Worker(broker_of(words), engine, f"{words.name}.{os.getpid()}", words.lease, words.lines)
    signal.signal(signal.SIGTERM, worker.end)
    signal.signal(signal.SIGINT, worker.end)
    try:
        work(worker, words.until_done)
    except (Stopped, Lost, RefusedByServer) as error:
        print(f"worker {words.name}: {error}", file=sys.stderr)
        return 4 if isinstance(error, Lost) else 2
    return 0


if __name__ == "__main__":
    sys.exit(main())
