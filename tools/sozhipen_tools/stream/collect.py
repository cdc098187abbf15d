"""Prints what all partitions of a stream answer, in one order.

    tools/run stream.collect [--redis SERVER | --jetstream SERVER] [--behind NUMBER] [--follow | --rest]

A line is `NUMBER PARTITION ANSWER`, with the number of the line of the script that is answered; answers to one line
come in the order of the partitions, and `done` lines are left out. What is printed ends at the last line up to which
all partitions have answered: nothing comes before it later. With --follow it goes on for ever; with --rest, where the
script is over, all answers that are there are printed. A reader that was killed goes on with --behind NUMBER, the last
line of which it has all answers. Status 4, with a word on standard error, where answers behind that line are no longer
there, as stream.trim took them away, or 2 where the broker refuses what it is asked.
"""

from __future__ import annotations

import argparse
import heapq
import sys
import time
from typing import Iterator, NamedTuple

from ..words import Parser
from .broker import Broker, Lost, RefusedByServer, answers_of, until_reached
from .brokers import broker_of, broker_words
from .engine import CLOSES
from .entries import lines_in
from .routes import partitions_of

ENTRIES = 100
IDLE_SECONDS = 0.05


class Answer(NamedTuple):
    """A line that a partition answers to a line of the script."""
    number: int
    partition: int
    line: bytes

    @property
    def place(self) -> tuple[int, int]:
        return self.number, self.partition


def answers_in(broker: Broker, partition: int, behind: int) -> Iterator[Answer]:
    """The answers of a partition to the lines behind this one, as far as they are there."""
    seen = behind
    while entries := until_reached(lambda: broker.read(answers_of(partition), seen, ENTRIES)):
        for entry in entries:
            yield from (Answer(line.number, partition, line.line) for line in lines_in(entry.data)
                        if line.number > behind)
        seen = entries[-1].number


def last_of_all(broker: Broker, partitions: int) -> int:
    """The line up to which all partitions have answered."""
    lasts = (until_reached(lambda: broker.last(answers_of(partition))) for partition in range(partitions))
    return min(lasts, default=0)


def collected(broker: Broker, partitions: int, behind: int, end: int) -> Iterator[Answer]:
    """The answers of all partitions to the lines behind one up to another."""
    for answer in heapq.merge(*(answers_in(broker, partition, behind) for partition in range(partitions)),
                              key=lambda answer: answer.place):
        if answer.number > end:
            return
        yield answer


def write(answers: Iterator[Answer]) -> None:
    out = sys.stdout.buffer
    for answer in answers:
        if not answer.line.startswith(CLOSES):
            out.write(b"%d %d %s\n" % answer)
    out.flush()


def asked() -> argparse.Namespace:
    parser = Parser(description=__doc__, formatter_class=argparse.RawDescriptionHelpFormatter)
    parser.add_argument("--behind", metavar="NUMBER", type=int, default=0, help="the lines behind this one")
    how = parser.add_mutually_exclusive_group()
    how.add_argument("--follow", action="store_true", help="go on as partitions answer")
    how.add_argument("--rest", action="store_true", help="all answers that are there")
    broker_words(parser)
    return parser.parse_args()


def collect(words: argparse.Namespace) -> None:
    """Prints the answers, for ever where it is to follow."""
    broker, behind = broker_of(words), words.behind
    while True:
        partitions = until_reached(lambda: partitions_of(broker))
        end = sys.maxsize if words.rest else last_of_all(broker, partitions)
        if end > behind:
            write(collected(broker, partitions, behind, end))
            behind = end
        elif words.follow:
            time.sleep(IDLE_SECONDS)
        if not words.follow:
            return


def main() -> int:
    try:
        collect(asked())
    except (Lost, RefusedByServer) as error:
        print(f"collect: {error}", file=sys.stderr)
        return 4 if isinstance(error, Lost) else 2
    return 0


if __name__ == "__main__":
    sys.exit(main())
