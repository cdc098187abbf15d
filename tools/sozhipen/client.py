"""What a run over a rule file is asked, and what is known of it: the same over a program on pipes (`Session`) and over
the engine in this process (`Desk`)."""

from __future__ import annotations

import json
from collections import Counter
from typing import Any, Iterator, Optional, TypeVar

from .answers import Answer, ClientError, Ended, Fact, Fault, Faulty, Firing, NotKnown
from .lines import Lines, line_of
from .reading import Reading
from .rules import Rules


def reading_of(text: str) -> Optional[dict[str, Any]]:
    """The object that a line has, None where it has none."""
    try:
        command = json.loads(text)
    except (ValueError, RecursionError):
        return None
    return command if isinstance(command, dict) else None


Self = TypeVar("Self", bound="Client")


class Client(Lines[Answer]):
    """Each method writes one line of a script, and returns its `Answer`. Where `raises` is set, a line that is faulty
    raises `Faulty`; otherwise its answer has the `fault`. `faults` has all faults since the beginning or the image,
    those of actions too."""

    reading: Reading
    raises = False
    written = 0
    ended: Optional[Ended] = None
    asks_counts = True

    def begin_words(self) -> None:
        """Before the first line nothing is known of the words that the program takes."""
        self.known_words: set[str] = set()

    @property
    def rules(self) -> Optional[Rules]:
        """The rules, None where the client cannot read them."""
        raise NotImplementedError

    # ---- what is known, at the place of the script up to which answers have come

    @property
    def lines(self) -> int:
        """The number of the line that was written last, those before the image counted too."""
        return self.reading.lines_before + self.written

    @property
    def clock(self) -> int:
        return self.reading.book.clock

    @property
    def faults(self) -> list[Fault]:
        return self.reading.faults

    @property
    def changes(self) -> list[tuple[str, str]]:
        """Behind an image of other rules, what became of each rule: `stays`, `new` or `gone`, with its name. A desk
        tells it before its first answer."""
        return self.reading.changes

    @property
    def facts(self) -> list[Fact]:
        """The facts that an answer may still name; of a `desk` those that came in this session. NotKnown of a desk
        whose rule file cannot be read here."""
        return self.reading.known_facts()

    def known_counts(self) -> dict[str, Any]:
        """The clock, the lines written, the faults by code, the firings by rule, and the `facts` by type. After an
        image, `before` has the lines and firings up to it, and whether one of them was faulty: by rule and by code
        these are not known, and stand in none of the others, but the lines do. Without `facts` there is no count of
        them."""
        found = {"clock": self.clock, "lines": self.lines,
                 "faults": dict(Counter(fault.code for fault in self.faults)), "firings": dict(self.reading.fired)}
        try:
            found["facts"] = dict(Counter(fact.type for fact in self.reading.known_facts()))
        except NotKnown:
            pass
        if before := self.reading.before:
            found["before"] = {"lines": before.lines, "firings": before.firings, "faulty": before.faulty}
        return found

    # ---- what is asked

    def counts(self) -> dict[str, Any]:
        """For a dashboard. A `desk` that runs and knows the line `counts` is asked, and besides the `known_counts`
        there are `kept`, the kept facts by type, `floors` by entry point, how many matches are `pending`, and the
        firings in all, `all_firings`, those before its image too."""
        told = self.asked_counts() if self.asks_counts and not self.ended else None
        found = self.known_counts()
        if told is not None:
            found.update(kept=told["counts"], floors=told["floors"], pending=told["pending"],
                         all_firings=told["firings"])
        return found

    def asked_counts(self) -> Optional[dict[str, Any]]:
        """The counts of the program, None where it does not know the line or has ended. It is not asked again then."""
        try:
            return self.send_known({"do": "counts"}).wait().told_counts
        except (Ended, NotKnown):
            self.asks_counts = False
            return None

    def kept(self, type_name: Optional[str] = None) -> list[Fact]:
        """The facts that a `desk` keeps, those of a type or all, in the order of their tags: as they came, or were
        modified last. NotKnown of another program, ClientError where there is no such type."""
        of_type = {} if type_name is None else {"type": type_name}
        return self.accepted({"do": "facts", **of_type}).told_kept

    def save(self) -> Optional[bytes]:
        """Has a `desk` put its image in place, and returns once it is safe there, with the image where it is in this
        process. NotKnown where it does not save while it runs, or names no image."""
        answer = self.accepted({"do": "save"})
        if not answer.told_saved:
            raise ClientError(f"the image is not told as saved: {answer.text}")
        return None

    def accepted(self, command: dict[str, Any]) -> Answer:
        """The answer of a line that not every program knows; ClientError where it is faulty."""
        answer = self.send_known(command)
        if answer.fault:
            raise ClientError(f"{answer.fault}: {answer.text}")
        return answer

    # ---- lines

    def send_known(self, command: dict[str, Any]) -> Answer:
        """Sends a line that not every program knows; NotKnown where this one does not."""
        answer, word = self.send(command), command["do"]
        if word not in self.known_words:
            if answer.fault and answer.fault.code == "BadCommand":
                without = ", as one without an image" if word == "save" else ""
                raise NotKnown(f"this program does not know the line {answer.text}: it answers BadCommand{without}")
            self.known_words.add(word)
        return answer

    def send(self, command: dict[str, Any]) -> Answer:
        return self.write(line_of(command), command)

    def send_line(self, text: str) -> Answer:
        """Sends a line of a script as it stands, without its newline."""
        return self.write(text, reading_of(text))

    def write(self, text: str, command: Optional[dict[str, Any]]) -> Answer:
        """Sends a line with this text; `command` is its reading, None where it has none."""
        raise NotImplementedError

    def await_answer(self, answer: Answer, seconds: Optional[float]) -> None:
        """Waits until an answer is whole, at most so many seconds."""
        raise NotImplementedError

    def judged(self, answer: Answer) -> Answer:
        """The answer, or Faulty where the caller wants faults raised."""
        if self.raises and answer.fault:
            raise Faulty(answer.fault)
        return answer

    def each_firing(self) -> Iterator[Firing]:
        """Fires one match after another, each when it is asked for, until nothing is pending: lines that the caller
        writes in between count for the next."""
        while firings := self.fire(1).firings:
            yield from firings

    # ---- the end

    def __enter__(self: Self) -> Self:
        return self

    def close(self) -> int:
        """Ends the script, and returns the status for the caller's lines: 0, or 1 where one was faulty. Ended where
        the script was not read to its end."""
        raise NotImplementedError

    def kill(self) -> None:
        """Ends the run at once."""
        raise NotImplementedError

    def __exit__(self, kind: Any, error: Any, trace: Any) -> None:
        if kind is None:
            self.close()
        elif not self.ended:
            self.kill()
