"""The text that `replay` answers. It has no values, and does not say where an answer ends: a shadow of the world gives
the values, and lines whose answer is known, the marks, go behind lines that would leave it open."""

from __future__ import annotations

import json
import re
from pathlib import Path
from typing import Callable, Optional, Union

from sozhipen_tools.reference.images.image import Head

from .answers import Answer, Fact, Fault
from .images import image_of
from .reading import Reading
from .rules import Rules
from .values import Actions, Book

FIRE = re.compile(r'fire ("(?:[^"\\]|\\.)*")((?: #[0-9]+| =-?[0-9]+)*)')
CELL = re.compile(r"([#=])(-?[0-9]+)")
NEW = re.compile(r"new #([0-9]+) (\w+)")
FAULT = re.compile(r"fault ([0-9]+) (\w+)")
HELD = re.compile(r"held (\w+) ([0-9]+)")

# A line that is no JSON answers one fault, keeps nothing and wants nothing of the rule file.
MARK = b"x\n"
MARKED = ("fire", "held")
ANSWERED = ("insert", *MARKED)


def name_in(quoted: str) -> str:
    """The name of a rule as it is printed, without quotes and escapes."""
    return str(json.loads(quoted, strict=False))


class TextReading(Reading):
    """The answers of `replay`. Where a mark stands among the pending lines there is None. `places` counts the lines of
    the program's script, the marks too, `taken` those with their whole answers; the last place that is known to answer
    is `answering`."""

    book: Book

    def __init__(self, rules: Optional[Rules], image: Union[None, str, Path], hand_on: Callable[[Answer], None]):
        found, book = None if image is None else image_of(Path(image), rules), Book(rules)
        if found:
            book.resume(found)
        before = Head(found.run.lines, found.run.firings, found.run.faulty, found.clock) if found else None
        super().__init__(rules, book, before, hand_on)
        self.places = self.answering = self.taken = self.lines_before
        self.actions: Optional[Actions] = None

    def enter(self, answer: Answer) -> bytes:
        self.enter_line(answer, answer.word == "insert")
        answer.place = self.places
        return self.closing() if answer.word in MARKED else b""

    def enter_line(self, answer: Optional[Answer], answers: bool) -> None:
        """A line of the program's is the next to go; whether it is known to answer."""
        self.places += 1
        self.pending.append(answer)
        if answers:
            self.answering = self.places

    def is_open(self, answer: Answer) -> bool:
        return not answer.done and self.answering < answer.place

    def closing(self) -> bytes:
        self.enter_line(None, True)
        return MARK

    # ---- the output

    def take(self, text: str) -> None:
        if found := FAULT.fullmatch(text):
            self.fault(int(found[1]), found[2])
        elif found := NEW.fullmatch(text):
            self.new(int(found[1]), found[2])
        elif found := FIRE.fullmatch(text):
            self.firing(found[1], found[2])
        elif found := HELD.fullmatch(text):
            if answer := self.up_to_word("held"):
                answer.told_held[found[1]] = int(found[2])
        elif text.startswith(("refused ", "limit ", "usage: ")):
            self.said = text

    def fault(self, place: int, code: str) -> None:
        while self.pending and self.taken + 1 < place:
            self.finish_first()
        head = self.pending[0] if self.pending else None
        if head is None:
            self.finish_first()
        elif self.actions:
            self.actions.fault(self.noted(Fault(head.line, code, head.text, self.actions.firing.rule)))
        else:
            head.told_fault = self.noted(Fault(head.line, code, head.text))
            self.finish_first()

    def new(self, number: int, type_name: str) -> None:
        if self.actions:
            self.actions.new(number, type_name)
        elif answer := self.up_to_word("insert"):
            command = answer.command or {}
            fields, entry = command.get("fields"), command.get("entry") or "DEFAULT"
            answer.told_fact = Fact(number, type_name, fields, entry)
            self.finish_first()

    def firing(self, name: str, cells: str) -> None:
        if answer := self.up_to_word("fire"):
            found = [(sign, int(number)) for sign, number in CELL.findall(cells)]
            firing, self.actions = self.book.firing(name_in(name), answer.line, [n for sign, n in found if sign == "#"],
                                                    [n for sign, n in found if sign == "="])
            answer.told_firings.append(firing)
            self.fired[firing.rule] += 1

    def up_to_word(self, word: str) -> Optional[Answer]:
        """The first line that is not answered and begins with this word; those before it were good and answer
        nothing."""
        while self.pending and (self.pending[0] is None or self.pending[0].word != word):
            self.finish_first()
        return self.pending[0] if self.pending else None

    def finish_first(self) -> None:
        """The first pending line, or mark, has its whole answer."""
        self.actions = None
        self.taken += 1
        answer = self.pending[0]
        if answer is None:
            self.pending.popleft()
        else:
            self.do(answer)
            self.finish(answer)

    def do(self, answer: Answer) -> None:
        """What a line without a fault does to the facts and the clock."""
        command, book = answer.command, self.book
        if answer.told_fault or command is None:
            return
        if answer.told_fact:
            book.insert(answer.told_fact)
        elif answer.word == "modify":
            book.modify(command["id"], command["fields"])
        elif answer.word == "retract":
            book.retract(command["id"])
        elif answer.word in ("at", "advance"):
            self.move_clock(command)
        elif answer.word == "fire":
            self.behind_fire(answer, command.get("max"))

    def behind_fire(self, answer: Answer, most: Optional[int]) -> None:
        """Fewer firings than were allowed say that nothing is pending; as many say nothing."""
        answer.told_pending = False if most is None or len(answer.told_firings) < most else None
        if most is None:
            self.book.nothing_pending()

    # ---- the end

    def end(self, status: int) -> None:
        """Behind a whole script its last lines that answer nothing were good."""
        if self.said or status not in (0, 1):
            return
        while self.pending and self.pending[0] is not None and self.pending[0].word not in ANSWERED:
            self.finish_first()

    def status(self, status: int) -> int:
        """The marks are faulty lines of the program's, and none of the session's."""
        return 1 if self.faults else 0
