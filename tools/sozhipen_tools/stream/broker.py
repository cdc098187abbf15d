"""What a stream wants of a broker, and one that keeps all in memory, for tests.

A broker has logs of numbered entries, values that go with an offset, and leases. Of partition 3 these are the log
`in{3}`, the script; the log `out{3}`, what it answers; the value `state{3}`, the image behind the entries up to an
offset; and the lease `lease{3}` of the worker that is at it.
"""

from __future__ import annotations

import sys
import threading
import time
from abc import ABC, abstractmethod
from typing import Callable, Iterable, NamedTuple, Optional, Sequence, TypeVar

T = TypeVar("T")
AGAIN_SECONDS = 0.05
LONG_SECONDS = 5.0


class Unreachable(Exception):
    """The broker does not answer: whether it did what it was asked last is not known."""


class RefusedByServer(Exception):
    """The server of a broker refused what it was asked, and would again; it says why."""


class Lost(Exception):
    """A broker has no longer what it acknowledged, or what was taken away is asked for."""


class Away:
    """How long somebody, such as a broker, is waited for: where that is long, standard error tells it, once."""

    def __init__(self, whom: str) -> None:
        self.whom = whom
        self.since: Optional[float] = None

    def seen(self, error: Exception) -> None:
        """This came in place of an answer."""
        now = time.monotonic()
        self.since = now if self.since is None else self.since
        if now - self.since >= LONG_SECONDS:
            print(f"waiting for {self.whom}: {error}", file=sys.stderr, flush=True)
            self.since = float("inf")

    def over(self) -> None:
        """There was an answer."""
        self.since = None


def until_reached(ask: Callable[[], T]) -> T:
    """The answer of a broker, however long it is away."""
    away = Away("the broker")
    while True:
        try:
            return ask()
        except Unreachable as error:
            away.seen(error)
            time.sleep(AGAIN_SECONDS)


class Entry(NamedTuple):
    """An entry of a log; numbers are above 0 and rise."""
    number: int
    data: bytes


class Linked(NamedTuple):
    """An entry, and the number of the one that it was put behind (0: none)."""
    before: int
    entry: Entry


class Append(NamedTuple):
    """Entries, whose numbers rise, for a log whose last entry is the one of number `behind` (0: it is empty)."""
    log: str
    behind: int
    entries: Sequence[Entry]


class State(NamedTuple):
    """An image and the number of the last entry in it; 0 and no bytes before the first."""
    offset: int
    image: bytes


NOTHING = State(0, b"")


def linked(behind: int, entries: Iterable[Entry]) -> list[Linked]:
    """Entries that are put one behind the other, the first behind this number."""
    found = []
    for entry in entries:
        found.append(Linked(behind, entry))
        behind = entry.number
    return found


def unbroken(log: str, behind: int, found: Iterable[Linked]) -> list[Entry]:
    """The entries of a log that follow a number; Lost where one is missing before or among them."""
    entries = []
    for before, entry in found:
        if before > behind:
            raise Lost(f"{log}: lines behind {behind} up to {before} are no longer there")
        entries.append(entry)
        behind = entry.number
    return entries


def script_of(partition: int) -> str:
    """The log of the lines of a partition."""
    return f"in{{{partition}}}"


def answers_of(partition: int) -> str:
    """The log of what a partition answers."""
    return f"out{{{partition}}}"


def state_of(partition: int) -> str:
    """The value with the image of a partition."""
    return f"state{{{partition}}}"


def lease_of(partition: int) -> str:
    """The lease of a partition."""
    return f"lease{{{partition}}}"


class Broker(ABC):
    """The operations; each is done whole or not at all, and raises Unreachable where the broker does not answer."""

    @abstractmethod
    def append(self, log: str, behind: int, entries: Sequence[Entry]) -> bool:
        """Puts these entries, whose numbers rise, behind the last one of a log where that is `behind` (0: the log is
        empty). Otherwise nothing is put, and the answer is False."""

    def append_each(self, appends: Sequence[Append]) -> list[bool]:
        """`append` of each, whether or not others are put; at once where a broker takes several."""
        return [self.append(*one) for one in appends]

    @abstractmethod
    def last(self, log: str) -> int:
        """The number of the last entry of a log, 0 where it is empty."""

    @abstractmethod
    def read(self, log: str, behind: int, most: int) -> list[Entry]:
        """At most so many entries of a log, the first of those with numbers above `behind`; Lost where one of these was
        there, and is no longer."""

    @abstractmethod
    def trim(self, log: str, number: int) -> None:
        """Takes away entries with numbers below this one, as far as it is no work; never the last entry."""

    @abstractmethod
    def state(self, name: str) -> State:
        """A value with its offset."""

    @abstractmethod
    def offset(self, name: str) -> int:
        """The offset of a value alone."""

    @abstractmethod
    def keep(self, name: str, state: State) -> bool:
        """Sets a value and its offset in one step; False, and nothing is set, where the offset would not rise."""

    @abstractmethod
    def lease(self, name: str, holder: str, milliseconds: int) -> bool:
        """Takes a lease that nobody else holds, for so long from now on."""

    @abstractmethod
    def release(self, name: str, holder: str) -> None:
        """Gives back a lease where this one holds it."""


class MemoryBroker(Broker):
    """A broker within the process, for any number of threads."""

    def __init__(self) -> None:
        self.lock = threading.Lock()
        self.logs: dict[str, list[Linked]] = {}
        self.states: dict[str, State] = {}
        self.leases: dict[str, tuple[str, float]] = {}

    def append(self, log: str, behind: int, entries: Sequence[Entry]) -> bool:
        with self.lock:
            there = self.logs.setdefault(log, [])
            if behind != (there[-1].entry.number if there else 0):
                return False
            there.extend(linked(behind, entries))
            return True

    def last(self, log: str) -> int:
        with self.lock:
            there = self.logs.get(log)
            return there[-1].entry.number if there else 0

    def read(self, log: str, behind: int, most: int) -> list[Entry]:
        with self.lock:
            found = [one for one in self.logs.get(log, []) if one.entry.number > behind]
            return unbroken(log, behind, found[:most])

    def trim(self, log: str, number: int) -> None:
        with self.lock:
            there = self.logs.get(log, [])
            self.logs[log] = [one for one in there[:-1] if one.entry.number >= number] + there[-1:]

    def state(self, name: str) -> State:
        with self.lock:
            return self.states.get(name, NOTHING)

    def offset(self, name: str) -> int:
        return self.state(name).offset

    def keep(self, name: str, state: State) -> bool:
        with self.lock:
            if state.offset <= self.states.get(name, NOTHING).offset:
                return False
            self.states[name] = state
            return True

    def lease(self, name: str, holder: str, milliseconds: int) -> bool:
        with self.lock:
            now = time.monotonic()
            other, end = self.leases.get(name, (holder, 0.0))
            if other != holder and now < end:
                return False
            self.leases[name] = (holder, now + milliseconds / 1000)
            return True

    def release(self, name: str, holder: str) -> None:
        with self.lock:
            if self.leases.get(name, ("", 0.0))[0] == holder:
                del self.leases[name]
