"""The server of a broker and the workers of a stream as processes that a trial starts, stops and kills."""

from __future__ import annotations

import os
import random
import signal
import socket
import subprocess
import sys
from contextlib import contextmanager, suppress
from dataclasses import dataclass, field
from pathlib import Path
from typing import Iterator, NoReturn, Optional, Sequence

from ..places import command_of
from .address import Address
from .brokers import KINDS, ServerBroker

# Where Linux keeps files in memory.
MEMORY = "/dev/shm"
ENDING = (signal.SIGTERM, signal.SIGINT)


def ended(number: int, _: object) -> NoReturn:
    """What a signal does that ends this process: it is left as by an exception, once."""
    for ending in ENDING:
        signal.signal(ending, signal.SIG_IGN)
    raise SystemExit(128 + number)


def children() -> list[int]:
    """The processes that this one started and that run, as Linux tells it."""
    found: list[int] = []
    for task in Path("/proc/self/task").iterdir():
        with suppress(OSError):
            found += map(int, (task / "children").read_text(encoding="ascii").split())
    return found


def end_children() -> None:
    """Kills the processes that this one started; those that lead a group, with it."""
    for process in children():
        with suppress(OSError):
            (os.killpg if os.getpgid(process) == process else os.kill)(process, signal.SIGKILL)


@contextmanager
def ending_all() -> Iterator[None]:
    """What is started within ends with it, and so where SIGTERM or SIGINT ends this process."""
    for number in ENDING:
        signal.signal(number, ended)
    try:
        yield
    finally:
        end_children()


def memory_folder() -> Optional[str]:
    """A folder in memory, where there is one. A desk forces its image to the disk, and a worker removes it."""
    return MEMORY if os.access(MEMORY, os.W_OK) else None


def free_port() -> int:
    """A port that nobody has, below those that connections come from, which may take one before a server does."""
    while True:
        port = random.randrange(20_000, 30_000)
        with socket.socket() as taken:
            try:
                taken.bind(("127.0.0.1", port))
            except OSError:
                continue
            return port


class Server:
    """A server on the loopback, with its logs in a folder."""

    def __init__(self, kind: str, folder: Path) -> None:
        self.kind, self.folder, self.address = KINDS[kind], folder, Address("127.0.0.1", free_port())
        self.words = [f"--{kind}", str(self.address.port)]
        self.start()

    def start(self) -> None:
        words = [self.kind.server() or self.kind.program, *self.kind.words(self.address, str(self.folder))]
        self.process = subprocess.Popen(words, stdout=subprocess.DEVNULL, stderr=subprocess.DEVNULL)

    def broker(self) -> ServerBroker:
        """A client of the server."""
        return self.kind.broker(self.address)

    def kill(self) -> None:
        """Kills the server, and starts it again."""
        self.end()
        self.start()

    def end(self) -> None:
        """Kills the server; standard error tells where it had ended by itself."""
        if self.process.poll() is not None:
            print(f"the server had ended by itself, with status {self.process.returncode}", file=sys.stderr, flush=True)
        self.process.kill()
        self.process.wait()


@dataclass
class WorkerProcess:
    """A worker with its desks, in a group of processes that stands for a machine."""
    name: str
    words: Sequence[str]
    rules: Path
    desk: Optional[str]
    process: subprocess.Popen[bytes] = field(init=False)

    def __post_init__(self) -> None:
        desk = [] if self.desk is None else ["--desk", self.desk]
        command = [*command_of("stream.worker"), *self.words, *desk, self.name, str(self.rules)]
        self.process = subprocess.Popen(command, env={**os.environ, "TMPDIR": str(self.rules.parent)},
                                        start_new_session=True)

    def again(self) -> WorkerProcess:
        """A worker of the same words."""
        return WorkerProcess(self.name, self.words, self.rules, self.desk)

    def is_between_turns(self) -> bool:
        """Whether no desk of the worker runs, as Linux tells it."""
        process = self.process.pid
        return not Path(f"/proc/{process}/task/{process}/children").read_text(encoding="ascii")

    def stop(self) -> int:
        """Asks the worker to end behind its turn; its status."""
        self.process.terminate()
        return self.process.wait()

    def kill(self) -> None:
        """Kills the worker alone: a desk of it ends where its input ends."""
        self.process.kill()
        self.process.wait()

    def lose(self) -> None:
        """Kills the worker and all its desks, as the end of their machine does."""
        if self.process.poll() is None:
            os.killpg(self.process.pid, signal.SIGKILL)
            self.process.wait()
