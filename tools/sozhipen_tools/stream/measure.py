"""Measures how fast workers answer the lines of a stream, by their number.

    tools/run stream.measure [--broker redis | --broker jetstream] [--workers N,N..] [--partitions N] [--events N]
        [--sums N] [--lines N] [--desk PROGRAM]

All lines are in the logs of a server on the loopback before the workers begin, and how many a second the router put
there is told. A row has the seconds from the start of the workers to the last answer, the events a second, and how many
times that is of the first row; then the seconds of processor of the workers with their desks, and of the server. Behind
these, rows of desks alone, so many at a time, which answer the same lines without a broker: what the engine and the
machine allow. The files of workers are in memory, as with TMPDIR=/dev/shm, and those of the server on the disk. With
--sums so many rules more sum up. SIGTERM and Ctrl+C end it with all that it started. It wants Linux.
"""

from __future__ import annotations

import argparse
import os
import resource
import sys
import tempfile
import time
from concurrent.futures import ThreadPoolExecutor
from pathlib import Path
from typing import Iterator, NamedTuple

from ..reference.meaning.program import Program
from ..reference.meaning.run import program_or_refusal
from ..words import Parser
from .answered import lines_of_partitions
from .broker import NOTHING, until_reached
from .brokers import KINDS
from .engine import Engine
from .load import rules_with, script
from .processes import Server, WorkerProcess, end_children, ending_all, memory_folder
from .router import Router
from .routes import Routes
from .worker import desk_command

TICKS = os.sysconf("SC_CLK_TCK")
LINES_OF_AN_ENTRY = 100


class Row(NamedTuple):
    """What so many workers, or desks alone, took for all lines, in seconds: of the clock, of their processor time, of
    that of the server; and the seconds in which all lines were routed."""
    many: int
    seconds: float
    of_workers: float
    of_server: float = 0.0
    routed: float = 0.0


def program_of(rules: str) -> Program:
    program = program_or_refusal(rules.encode())
    assert isinstance(program, Program), program
    return program


def routes_of(words: argparse.Namespace, rules: Path) -> Routes:
    """The routes of the script by card, from its first line."""
    return Routes(program_of(rules.read_text(encoding="utf-8")), "card", words.partitions)


def processor_seconds(process: int) -> float:
    """What a process has taken of the processor so far."""
    fields = Path(f"/proc/{process}/stat").read_text(encoding="utf-8").rpartition(")")[2].split()
    return (int(fields[11]) + int(fields[12])) / TICKS


def ended(worker: WorkerProcess) -> float:
    """The seconds of processor of a worker with its desks, once it has ended."""
    _, status, usage = os.wait4(worker.process.pid, 0)
    worker.process.returncode = os.waitstatus_to_exitcode(status)
    if worker.process.returncode != 0:
        raise SystemExit(f"measure: a worker ended with the status {worker.process.returncode}")
    return usage.ru_utime + usage.ru_stime


def row(words: argparse.Namespace, rules: Path, lines: list[bytes], workers: int) -> Row:
    """What so many workers take for these lines."""
    running: list[WorkerProcess] = []
    with tempfile.TemporaryDirectory(prefix="measure-") as folder:
        server = Server(words.broker, Path(folder))
        try:
            broker = server.broker()
            until_reached(lambda: broker.last("in{0}"))
            began = time.monotonic()
            router = Router(broker, routes_of(words, rules), LINES_OF_AN_ENTRY)
            for line in lines:
                router.take(line)
            router.save()
            before, routed, began = processor_seconds(server.process.pid), time.monotonic() - began, time.monotonic()
            same = [*server.words, "--lines", str(words.lines), "--until-done"]
            running += [WorkerProcess(f"w{number}", same, rules, words.desk) for number in range(workers)]
            of_workers = sum(map(ended, running))
            seconds = time.monotonic() - began
            return Row(workers, seconds, of_workers, processor_seconds(server.process.pid) - before, routed)
        finally:
            for worker in running:
                worker.lose()
            server.end()


def of_desks(words: argparse.Namespace, rules: Path, lines: list[bytes], desks: int) -> Row:
    """What desks alone take, one for each partition, so many at a time."""
    engine = Engine(desk_command(words.desk), str(rules), folder=str(rules.parent))
    parts = [b"".join(line.line + b"\n" for line in part)
             for part in lines_of_partitions(lines, routes_of(words, rules))]
    before, began = resource.getrusage(resource.RUSAGE_CHILDREN), time.monotonic()
    with ThreadPoolExecutor(desks) as pool:
        try:
            list(pool.map(lambda part: len(engine.run(NOTHING.image, part)), parts))
        except SystemExit:
            pool.shutdown(wait=False, cancel_futures=True)
            end_children()
            raise
    seconds, after = time.monotonic() - began, resource.getrusage(resource.RUSAGE_CHILDREN)
    return Row(desks, seconds, after.ru_utime + after.ru_stime - before.ru_utime - before.ru_stime)


def shown(rows: Iterator[Row], name: str, events: int) -> Iterator[str]:
    first = 0.0
    for one in rows:
        speed = events / one.seconds
        first = first or speed
        yield (f"{name}={one.many} seconds={one.seconds:.1f} events_a_second={speed:.0f} times={speed / first:.2f} "
               f"processor={one.of_workers:.1f}"
               + (f" broker_processor={one.of_server:.1f} routed_a_second={events / one.routed:.0f}"
                  if one.routed else ""))


def asked() -> argparse.Namespace:
    parser = Parser(description=__doc__, formatter_class=argparse.RawDescriptionHelpFormatter)
    parser.add_argument("--broker", choices=sorted(KINDS), default="redis")
    parser.add_argument("--workers", metavar="N,N..", default="1,2,4")
    parser.add_argument("--partitions", metavar="N", type=int, default=8)
    parser.add_argument("--events", metavar="N", type=int, default=200_000)
    parser.add_argument("--sums", metavar="N", type=int, default=0)
    parser.add_argument("--lines", metavar="N", type=int, default=5000, help="of a turn")
    parser.add_argument("--desk", metavar="PROGRAM")
    return parser.parse_args()


def main() -> int:
    words = asked()
    kind = KINDS[words.broker]
    if kind.server() is None:
        print(f"measure: there is no {kind.program}", file=sys.stderr)
        return 2
    lines = script(words.events, 1)
    with tempfile.TemporaryDirectory(prefix="measure-", dir=memory_folder()) as folder, ending_all():
        rules = Path(folder, "rules.drl")
        rules.write_text(rules_with(words.sums), encoding="utf-8")
        print(f"broker={words.broker} events={words.events} lines={len(lines)} partitions={words.partitions} "
              f"rules={3 + words.sums}")
        many = [int(number) for number in words.workers.split(",")]
        for name, what in (("workers", row), ("desks_alone", of_desks)):
            for line in shown((what(words, rules, lines, number) for number in many), name, words.events):
                print(line, flush=True)
    return 0


if __name__ == "__main__":
    sys.exit(main())
