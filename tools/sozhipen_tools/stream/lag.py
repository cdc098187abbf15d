"""Measures how long answers come behind the lines of a stream, under load and as workers come, go and are lost.

    tools/run stream.lag [--broker redis | --broker jetstream] [--rates N,N..] [--seconds N] [--times N] [--workers N]
        [--partitions N] [--lease MS] [--sums N] [--desk PROGRAM]

Events are routed at a rate, in seconds of the clock. The lag of a `fire` line is the time from when it is in the logs
of all partitions to when all have answered it. A row for each rate has the median, the 99th of 100 and the greatest
lag in milliseconds; then, at the first rate, a row for what happens amid a span: a worker comes; one goes (SIGTERM); a
machine is lost: a worker is killed with the desk that is at a turn, and nobody renews its lease. The greatest lag there
is the gap in which a partition moves; `gaps` has it for each time. The files of workers are in memory, as with
TMPDIR=/dev/shm, and those of the server on the disk. SIGTERM and Ctrl+C end it with all that it started. It wants
Linux.
"""

from __future__ import annotations

import argparse
import sys
import tempfile
import threading
import time
from collections import deque
from pathlib import Path
from typing import Callable, Iterator, NamedTuple

from ..words import Parser
from .broker import Broker, answers_of, until_reached
from .brokers import KINDS
from .load import rules_with, script
from .measure import LINES_OF_AN_ENTRY, routes_of
from .processes import Server, WorkerProcess, ending_all, memory_folder
from .router import Router

LOOK_SECONDS = 0.002
STEP_SECONDS = 0.02
PATIENCE_SECONDS = 60.0
# With the moves of the clock and the `fire` lines.
LINES_OF_AN_EVENT = 1.14


class Put(NamedTuple):
    """A `fire` line that is in the logs, and when it was put there."""
    number: int
    moment: float


class Watch(threading.Thread):
    """Sees when all partitions have answered a line."""

    def __init__(self, broker: Broker, partitions: int) -> None:
        super().__init__(daemon=True)
        self.broker, self.partitions = broker, partitions
        self.waiting: deque[Put] = deque()
        self.lags: list[float] = []

    def run(self) -> None:
        while True:
            end = min(until_reached(lambda: self.broker.last(answers_of(partition)))
                      for partition in range(self.partitions))
            now = time.monotonic()
            while self.waiting and self.waiting[0].number <= end:
                self.lags.append(now - self.waiting.popleft().moment)
            time.sleep(LOOK_SECONDS)

    def taken(self) -> list[float]:
        """The lags since the last time, in their order, once nothing waits."""
        end = time.monotonic() + PATIENCE_SECONDS
        while self.waiting and time.monotonic() < end:
            time.sleep(LOOK_SECONDS)
        if self.waiting:
            raise SystemExit("lag: the workers do not follow; take a lower rate")
        found, self.lags = sorted(self.lags), []
        return found


class Feed:
    """Routes the lines of a script at a rate."""

    def __init__(self, router: Router, watch: Watch, lines: Iterator[bytes]) -> None:
        self.router, self.watch, self.lines = router, watch, lines
        self.router.save()

    def step(self, most: int) -> None:
        """Routes so many lines."""
        fires = []
        for _ in range(most):
            line = next(self.lines)
            routed = self.router.take(line)
            if b'"fire"' in line:
                fires.append(routed.number)
        self.router.flush()
        self.watch.waiting.extend(Put(number, time.monotonic()) for number in fires)

    def run(self, rate: int, seconds: float) -> list[float]:
        """The lags of lines where so many events a second are routed for so long."""
        began, done = time.monotonic(), 0
        while (now := time.monotonic() - began) < seconds:
            due = int(now * rate * LINES_OF_AN_EVENT)
            self.step(due - done)
            done = due
            time.sleep(STEP_SECONDS)
        return self.watch.taken()


class Stream:
    """A server, workers, and a feed."""

    def __init__(self, words: argparse.Namespace, server: Server, rules: Path, events: int) -> None:
        self.words, self.rules, self.server = words, rules, server
        until_reached(lambda: server.broker().last("in{0}"))
        self.watch = Watch(server.broker(), words.partitions)
        self.feed = Feed(Router(server.broker(), routes_of(words, rules), LINES_OF_AN_ENTRY), self.watch,
                         iter(script(events, 1)))
        self.workers: list[WorkerProcess] = []
        for _ in range(words.workers):
            self.come()
        self.watch.start()

    def come(self) -> None:
        """A worker comes."""
        same = [*self.server.words, "--lease", str(self.words.lease)]
        self.workers.append(WorkerProcess(f"w{len(self.workers)}", same, self.rules, self.words.desk))

    def go(self) -> None:
        """A worker ends behind its turn."""
        self.workers.pop().stop()

    def lose(self) -> None:
        """A worker is lost with the desk that is at its turn."""
        worker, end = self.workers.pop(), time.monotonic() + self.words.seconds / 3
        while worker.is_between_turns() and time.monotonic() < end:
            time.sleep(LOOK_SECONDS)
        worker.lose()

    def rows(self) -> Iterator[str]:
        """What is seen at each rate, and as workers come and go at the first one."""
        rates = [int(rate) for rate in self.words.rates.split(",")]
        self.feed.run(rates[0], 3)
        for rate in rates:
            yield shown(f"at {rate} events a second", self.feed.run(rate, self.words.seconds))
        happens: list[tuple[str, Callable[[], None], Callable[[], None]]] = [
            ("a worker comes", self.come, self.go), ("a worker goes", self.go, self.come),
            ("a machine is lost", self.lose, self.come)]
        for name, begin, back in happens:
            spans = []
            for _ in range(self.words.times):
                beginning = threading.Timer(self.words.seconds / 3, begin)
                beginning.start()
                try:
                    spans.append(self.feed.run(rates[0], self.words.seconds))
                finally:
                    beginning.cancel()
                    beginning.join()
                back()
                self.feed.run(rates[0], 2)
            gaps = ",".join(f"{span[-1] * 1000:.0f}" for span in spans)
            yield f"{shown(name, sorted(lag for span in spans for lag in span))} gaps={gaps}"

    def end(self) -> None:
        """Ends all processes."""
        for worker in self.workers:
            worker.lose()
        self.server.end()


def shown(name: str, lags: list[float]) -> str:
    """A row of lags, which are in their order."""
    median, most = lags[len(lags) // 2] * 1000, lags[-1] * 1000
    return f"{name}: median={median:.0f} 99th={lags[len(lags) * 99 // 100] * 1000:.0f} greatest={most:.0f}"


def asked() -> argparse.Namespace:
    parser = Parser(description=__doc__, formatter_class=argparse.RawDescriptionHelpFormatter)
    parser.add_argument("--broker", choices=sorted(KINDS), default="redis")
    parser.add_argument("--rates", metavar="N,N..", default="500,2000,8000", help="events a second")
    parser.add_argument("--seconds", metavar="N", type=int, default=6, help="of a row, or of each of its times")
    parser.add_argument("--times", metavar="N", type=int, default=5)
    parser.add_argument("--workers", metavar="N", type=int, default=3)
    parser.add_argument("--partitions", metavar="N", type=int, default=8)
    parser.add_argument("--lease", metavar="MS", type=int, default=2000)
    parser.add_argument("--sums", metavar="N", type=int, default=0)
    parser.add_argument("--desk", metavar="PROGRAM")
    return parser.parse_args()


def events_of(words: argparse.Namespace) -> int:
    """How many events all rows want."""
    rates = [int(rate) for rate in words.rates.split(",")]
    return words.seconds * sum(rates) + rates[0] * (3 + 3 * words.times * (words.seconds + 2)) + 1000


def main() -> int:
    words = asked()
    kind = KINDS[words.broker]
    if kind.server() is None:
        print(f"lag: there is no {kind.program}", file=sys.stderr)
        return 2
    with tempfile.TemporaryDirectory(prefix="lag-") as folder, \
            tempfile.TemporaryDirectory(prefix="lag-", dir=memory_folder()) as in_memory, ending_all():
        rules = Path(in_memory, "rules.drl")
        rules.write_text(rules_with(words.sums), encoding="utf-8")
        stream = Stream(words, Server(words.broker, Path(folder)), rules, events_of(words))
        try:
            for line in stream.rows():
                print(line, flush=True)
        finally:
            stream.end()
    return 0


if __name__ == "__main__":
    sys.exit(main())
