"""What a program answers, as objects."""

from __future__ import annotations

from dataclasses import dataclass, field
from datetime import datetime
from typing import TYPE_CHECKING, Any, Iterator, Mapping, Optional, Union

from .times import date_of

if TYPE_CHECKING:
    from .client import Client

Value = Union[int, bool, str]


@dataclass(frozen=True)
class Fact:
    """A fact or an event with its values at one moment. `values` is None where they are not known; `entry` is the entry
    point by which it came, None where that is not known; `rule` names the rule that inserted it, None where a line of
    the script did, or where that is not known."""
    id: int
    type: str
    values: Optional[dict[str, Value]] = None
    entry: Optional[str] = "DEFAULT"
    rule: Optional[str] = None

    def __getitem__(self, name: str) -> Value:
        if self.values is None:
            raise KeyError(f"the values of {self} are not known")
        return self.values[name]

    def __str__(self) -> str:
        return f"#{self.id} {self.type}"

    def as_json(self) -> dict[str, Any]:
        made = {} if self.rule is None else {"rule": self.rule}
        return {"id": self.id, "type": self.type, "fields": self.values, **made}


@dataclass(frozen=True)
class Fault:
    """A fault of a line, or of an action of `rule`. `sent` is the text of the line."""
    line: int
    code: str
    sent: str
    rule: Optional[str] = None

    def __str__(self) -> str:
        return f"fault {self.line} {self.code}" + ("" if self.rule is None else f" (an action of {self.rule})")


Names = Mapping[str, Union[Fact, Value]]


@dataclass
class Firing:
    """A firing: the line that made it and the clock then, a fact for each pattern, a result for each accumulate, what
    the rule's variables stand for, and what its actions did. A modified fact stands in `modified` as it is behind the
    action."""
    rule: str
    line: int
    clock: int
    facts: list[Fact]
    results: list[int]
    names: Names = field(default_factory=dict)
    made: list[Fact] = field(default_factory=list)
    modified: list[Fact] = field(default_factory=list)
    retracted: list[Fact] = field(default_factory=list)
    faults: list[Fault] = field(default_factory=list)

    @property
    def date(self) -> datetime:
        """The clock where it counts from 1970."""
        return date_of(self.clock)

    def __str__(self) -> str:
        return " ".join([f'fire "{self.rule}"'] + [f"#{fact.id}" for fact in self.facts]
                        + [f"={result}" for result in self.results])

    def as_json(self) -> dict[str, Any]:
        values = {name: value for name, value in self.names.items() if not isinstance(value, Fact)}
        return {"line": self.line, "at": self.clock, "fire": self.rule,
                "facts": [fact.as_json() for fact in self.facts], "results": self.results, "names": values}


class Answer:
    """The answer of one line. `number` counts the lines of the session from 1, `line` those of the run, the ones before
    its image too; `place` counts all that go to the program. `command` is the line's reading, None where it has none,
    and `clock` the moment behind the line. What is asked of it below waits until the answer has come, and raises Ended
    where it cannot come any more."""

    def __init__(self, session: "Client", number: int, text: str, command: Optional[dict[str, Any]]):
        self.session, self.number, self.text, self.command = session, number, text, command
        self.place = number
        self.clock = 0
        self.done = False
        self.begin_told()

    def begin_told(self) -> None:
        """Nothing is told yet."""
        self.told_fact: Optional[Fact] = None
        self.told_fault: Optional[Fault] = None
        self.told_firings: list[Firing] = []
        self.told_held: dict[str, int] = {}
        self.told_limit: Optional[int] = None
        self.told_pending: Optional[bool] = None
        self.told_kept: list[Fact] = []
        self.told_counts: Optional[dict[str, Any]] = None
        self.told_saved = False

    @property
    def line(self) -> int:
        """The number of the line in the run. With an image that only the program can read, an answer has to come
        first; and the clock is known from the first `at`, firing or counts."""
        return self.session.reading.lines_before + self.number

    @property
    def word(self) -> Optional[str]:
        """The word behind `do`."""
        word = self.command.get("do") if self.command else None
        return word if isinstance(word, str) else None

    def wait(self, seconds: Optional[float] = None) -> "Answer":
        """Waits until the answer has come, or TimeoutError."""
        self.session.await_answer(self, seconds)
        return self

    @property
    def fact(self) -> Optional[Fact]:
        """The fact that an insert made, None where it was faulty."""
        return self.wait().told_fact

    @property
    def fault(self) -> Optional[Fault]:
        """The fault of the line, None where it was good. Faults of actions stand in the firings."""
        return self.wait().told_fault

    @property
    def firings(self) -> list[Firing]:
        return self.wait().told_firings

    def __iter__(self) -> Iterator[Firing]:
        """Its firings."""
        return iter(self.firings)

    @property
    def fired(self) -> int:
        """How many firings a fire line made."""
        return len(self.firings)

    @property
    def pending(self) -> Optional[bool]:
        """Whether a match is pending behind a fire line, and waits for the next one. None of other lines, and where it
        is not known: `replay` does not tell where the `max` of the line is reached."""
        return self.wait().told_pending

    @property
    def held(self) -> dict[str, int]:
        """By type how many of its events are kept."""
        return self.wait().told_held

    @property
    def limit(self) -> Optional[int]:
        """The limit of firings that a fire line of a `desk` met: a match is pending behind it, and waits for the next
        fire. None where it met none."""
        return self.wait().told_limit


class ClientError(Exception):
    """What the client raises."""


class NoProgram(ClientError):
    """The program, its rule file or the library is not there."""


class Faulty(ClientError):
    """A line is faulty and changed nothing: its `fault`."""

    def __init__(self, fault: Fault):
        super().__init__(f"{fault}: {fault.sent}")
        self.fault = fault


class NotKnown(ClientError):
    """The program does not know a word of the script, or the client not what is asked of it."""


class Ended(ClientError):
    """The program ended: with its status, and the line that it ended with (`refused ..`, `limit ..`), or nothing."""

    def __init__(self, status: int, said: str):
        how = f"status {status}" if status >= 0 else f"killed by signal {-status}"
        super().__init__(f"the program ended: {said + ', ' if said else ''}{how}")
        self.status, self.said = status, said
