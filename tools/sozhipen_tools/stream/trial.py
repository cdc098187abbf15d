"""Kills the router, the workers and the broker of a stream at random, and compares all answers with those of one run.

    tools/run stream.trial [--broker redis | --broker jetstream] [--kills N] [--workers N] [--partitions N] [--events N]
        [--between SECONDS] [--patience SECONDS] [--desk PROGRAM] [--seed N]

It starts a server of its own on the loopback, in a folder that it removes. Of the workers some are killed alone, and
some with their desks, as where a machine is lost; the router is begun again with the whole script and with what is
behind the lines taken, by turns. The stream has a table, events that come late, a `not` that waits and an accumulate.
What each partition answers has to be, byte for byte, what one run over its lines answers, each line once; the firings
of all partitions have to be those of one run over all lines; and a double answer and a lost one that are planted behind
that have to be found. The status is 1 where not all is so, and 2 without the server. SIGTERM and Ctrl+C end it with all
that it started.
"""

from __future__ import annotations

import argparse
import random
import subprocess
import sys
import tempfile
import threading
import time
from collections import Counter
from contextlib import suppress
from pathlib import Path
from typing import IO, Optional

from ..pipes import pipe
from ..places import command_of
from ..reference.meaning.run import program_or_refusal
from ..words import Parser
from .answered import Answered, differences_of_all, firings, lines_of_partitions, one_run, planted
from .broker import Unreachable
from .brokers import KINDS
from .engine import Engine
from .entries import Numbered
from .load import RULES, script
from .processes import Server, WorkerProcess, ending_all
from .routes import Routes
from .worker import Worker, desk_command

WHO = ("worker", "machine", "router", "broker")


class Feed(threading.Thread):
    """Gives a script to a router at a rate; one that was killed is begun again, by turns with the script from its first
    line and with what is behind the lines taken."""

    def __init__(self, words: list[str], lines: list[bytes], seconds: float) -> None:
        super().__init__(daemon=True)
        self.words, self.lines, self.step = words, lines, max(1, int(len(lines) / seconds / 20))
        self.given, self.begun, self.status, self.is_over = 0, 0, -1, False
        self.process: Optional[subprocess.Popen[bytes]] = None

    def run(self) -> None:
        while self.status < 0 and not self.is_over:
            goes_on = ["--taken"] if self.begun % 2 else []
            process = subprocess.Popen([*self.words, *goes_on], stdin=subprocess.PIPE, stdout=subprocess.PIPE)
            self.process, self.begun = process, self.begun + 1
            with suppress(OSError), process:
                self.feed(pipe(process.stdin), self.taken(process) if goes_on else 0)
            self.status = process.wait()
            time.sleep(0.05)

    @staticmethod
    def taken(process: subprocess.Popen[bytes]) -> int:
        """How many lines a router says were taken; OSError where it was killed before."""
        word, _, number = pipe(process.stdout).readline().partition(b" ")
        if word != b"taken":
            raise BrokenPipeError
        return int(number)

    def feed(self, into: IO[bytes], taken: int) -> None:
        into.write(b"".join(line + b"\n" for line in self.lines[taken:self.given]))
        while self.given < len(self.lines):
            into.write(b"".join(line + b"\n" for line in self.lines[self.given:self.given + self.step]))
            into.flush()
            self.given += self.step
            time.sleep(0.05)
        into.close()

    def kill(self) -> None:
        if self.process is not None:
            self.process.kill()

    def end(self) -> None:
        """Ends the router, which is not begun again."""
        self.is_over = True
        while self.is_alive():
            self.kill()
            self.join(0.05)


class Trial:
    """The processes of a stream, in a folder."""

    def __init__(self, words: argparse.Namespace, folder: Path) -> None:
        self.words, self.rules, self.folder = words, folder / "rules.drl", folder
        self.rules.write_text(RULES, encoding="utf-8")
        self.engine = Engine(desk_command(words.desk), str(self.rules))
        self.lines = script(words.events, words.seed)
        self.draw = random.Random(words.seed)
        self.server = Server(words.broker, folder)
        self.broker = self.server.broker()
        split = ["--key", "card", "--partitions", str(words.partitions)]
        self.feed = Feed([*command_of("stream.router"), *split, *self.server.words, str(self.rules)], self.lines,
                         words.kills * words.between)
        turns = [*self.server.words, "--lease", "500", "--lines", "300"]
        self.workers = [WorkerProcess(f"w{number}", turns, self.rules, words.desk) for number in range(words.workers)]

    def kill(self, who: str) -> None:
        """Kills one process, or a worker with its desks, and starts it again."""
        if who == "broker":
            self.server.kill()
        elif who == "router":
            self.feed.kill()
        else:
            number = self.draw.randrange(len(self.workers))
            worker = self.workers[number]
            (worker.lose if who == "machine" else worker.kill)()
            self.workers[number] = worker.again()

    def run(self) -> Counter[str]:
        """Kills until the stream is through; what was killed how often."""
        killed: Counter[str] = Counter()
        self.feed.start()
        for _ in range(self.words.kills):
            time.sleep(self.draw.uniform(0.2, 1.6) * self.words.between)
            who = self.draw.choice([who for who in WHO if who != "router" or self.feed.is_alive()])
            self.kill(who)
            killed[who] += 1
        self.feed.join(self.words.patience + self.words.kills * self.words.between)
        self.wait()
        return killed

    def wait(self) -> None:
        """Waits until all lines have their answers, or no more come."""
        reader = Worker(self.broker, self.engine, "")
        end = time.monotonic() + self.words.patience
        while time.monotonic() < end:
            try:
                if reader.is_done(self.words.partitions):
                    return
            except Unreachable:
                pass
            time.sleep(0.05)

    def end(self) -> None:
        """Ends all processes."""
        self.broker.close()
        self.feed.end()
        for worker in self.workers:
            worker.lose()
        self.server.end()

    def faults(self) -> list[str]:
        """What is not as it has to be."""
        program = program_or_refusal(RULES.encode())
        assert not isinstance(program, str), program
        parts = lines_of_partitions(self.lines, Routes(program, "card", self.words.partitions))
        runs = [one_run(self.engine, part) for part in parts]
        found = differences_of_all(self.broker, runs)
        whole = one_run(self.engine, [Numbered(*line) for line in enumerate(self.lines, 1)])
        if sum(map(firings, runs), Counter()) != firings(whole):
            found.append("the firings of all partitions are not those of one run over all lines")
        found += self.unfound(runs)
        print(f"lines={len(self.lines)} routed={sum(map(len, parts))} firings={sum(firings(whole).values())}")
        return found if self.feed.status == 0 else [*found, f"the router ended with the status {self.feed.status}"]

    def unfound(self, runs: list[list[Answered]]) -> list[str]:
        """What is planted and not found."""
        return [f"a planted {what} answer is not found" for what in ("double", "lost")
                if not differences_of_all(planted(self.broker, 0, what), runs[:1])]


def asked() -> argparse.Namespace:
    parser = Parser(description=__doc__, formatter_class=argparse.RawDescriptionHelpFormatter)
    parser.add_argument("--broker", choices=sorted(KINDS), default="redis")
    parser.add_argument("--kills", metavar="N", type=int, default=20)
    parser.add_argument("--workers", metavar="N", type=int, default=3)
    parser.add_argument("--partitions", metavar="N", type=int, default=4)
    parser.add_argument("--events", metavar="N", type=int, default=6000)
    parser.add_argument("--between", metavar="SECONDS", type=float, default=0.6, help="between two kills, on average")
    parser.add_argument("--patience", metavar="SECONDS", type=float, default=40, help="how long the rest may take")
    parser.add_argument("--desk", metavar="PROGRAM")
    parser.add_argument("--seed", metavar="N", type=int, default=1)
    return parser.parse_args()


def main() -> int:
    words = asked()
    if KINDS[words.broker].server() is None:
        print(f"trial: there is no {KINDS[words.broker].program}", file=sys.stderr)
        return 2
    began = time.monotonic()
    with tempfile.TemporaryDirectory(prefix="trial-") as folder, ending_all():
        trial = Trial(words, Path(folder))
        try:
            killed = trial.run()
            faults = trial.faults()
        finally:
            trial.end()
    counts = " ".join(f"{who}={many}" for who, many in sorted(killed.items()))
    print(f"broker={words.broker} seed={words.seed} killed: {counts} seconds={time.monotonic() - began:.0f}")
    print("\n".join(faults) or "same: all answers, each once; a planted double answer and a planted lost one are found")
    return 1 if faults else 0


if __name__ == "__main__":
    sys.exit(main())
