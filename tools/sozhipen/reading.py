"""What the output of a program tells of the lines of a script: what is the same of each program."""

from __future__ import annotations

from collections import Counter, deque
from typing import Any, Callable, Optional

from sozhipen_tools.reference.images.image import Head

from .answers import Answer, Fact, Fault
from .facts import Facts
from .rules import Rules


class BadOutput(Exception):
    """A line of the output is none that the program could have written; `said` has it."""


class Reading:
    """Takes the output line by line, and hands each answer on as soon as it is whole. `lines_before` is how many lines
    the run took before those of the session; `before` is what the image says of that run, None without one."""

    def __init__(self, rules: Optional[Rules], facts: Facts, before: Optional[Head], hand_on: Callable[[Answer], None]):
        self.rules, self.book, self.before, self.hand_on = rules, facts, before, hand_on
        self.lines_before = before.lines if before else 0
        self.pending: deque[Optional[Answer]] = deque()
        self.faults: list[Fault] = []
        self.fired: Counter[str] = Counter()
        self.changes: list[tuple[str, str]] = []
        self.said = ""

    # ---- lines, in the threads that write them

    def enter(self, answer: Answer) -> bytes:
        """A line is the next to go; what has to go behind it."""
        raise NotImplementedError

    def is_open(self, answer: Answer) -> bool:
        """Whether no line so far closes this answer."""
        return False

    def closing(self) -> bytes:
        """A line that closes the answers so far."""
        raise NotImplementedError

    # ---- the output, in the reading thread

    def take(self, text: str) -> None:
        """A line of the output, without its newline; or BadOutput."""
        raise NotImplementedError

    def end(self, status: int) -> None:
        """The output has ended."""

    def status(self, status: int) -> int:
        """The status of the lines of the session, by that of a program that has read its script to the end."""
        raise NotImplementedError

    def known_facts(self) -> list[Fact]:
        """The facts that an answer may still name."""
        return list(self.book.facts.values())

    # ---- what readings share

    def noted(self, fault: Fault) -> Fault:
        self.faults.append(fault)
        return fault

    def move_clock(self, command: dict[str, Any]) -> None:
        """Does what a line `at` or `advance` without a fault does."""
        self.book.move(command["ms"] if command["do"] == "at" else self.book.clock + command["by"])

    def finish(self, answer: Answer) -> None:
        """The first pending line has its whole answer."""
        answer.clock = self.book.clock
        self.pending.popleft()
        self.hand_on(answer)
