"""The engine in this process, as a client:

    with Desk("rules.drl") as desk:
        desk.at(1000)
        desk.insert("Item", {"price": 250, "stock": 3})
        for firing in desk.fire():
            print(firing.rule, firing.facts[0]["price"])

It has the methods of a `Session` over the program `desk`, and its answers. Lines that insert, modify or retract wait
for each other, and go to the engine together: with any other line, as soon as an answer is asked for, or when there are
many.
"""

from __future__ import annotations

import os
import threading
from functools import cached_property
from pathlib import Path
from typing import Any, Callable, Iterator, Mapping, Optional, Union

from .answers import Answer, ClientError, Ended, Fact, Names, NoProgram, NotKnown, Value
from .client import Client, reading_of
from .images import head_in_bytes
from .library import GOES, Engine
from .objects import ObjectReading, all_names
from .record import Record, Target
from .rules import Rules, rules_in


class Batch:
    """Lines that go to the engine together, from the number `first` on, and what they are answered: an answer finds its
    own by its place among them. `clock` is the moment before the last of them, which alone may move it."""

    def __init__(self, desk: "Desk", first: int, clock: int) -> None:
        self.desk, self.first, self.clock = desk, first, clock
        self.lines: list[str] = []
        self.raw = b""
        self.read: dict[int, DeskAnswer] = {}

    @property
    def script(self) -> bytes:
        return ("\n".join(self.lines) + "\n").encode("utf-8", "surrogatepass")

    @cached_property
    def answers(self) -> list[list[bytes]]:
        """The objects of each line, the last one the object with `done`."""
        found: list[list[bytes]] = [[]]
        for told in self.raw.splitlines():
            found[-1].append(told)
            if told.startswith(b'{"done":'):
                found.append([])
        return found

    def has(self, index: int) -> bool:
        """Whether the answer of a line is whole."""
        return index < len(self.answers) - 1

    def answer(self, index: int) -> "DeskAnswer":
        """The answer of a line, which is read."""
        if index not in self.read:
            answer = self.read[index] = DeskAnswer(self, index, reading_of(self.lines[index]))
            self.desk.reading.read(answer)
        return self.read[index]


class DeskAnswer(Answer):
    """An answer that is read when it is first asked for what it tells: as long as nobody asks, it is little work."""

    session: "Desk"
    done = True

    def __init__(self, batch: Batch, index: int, command: Optional[dict[str, Any]]):
        self.batch, self.index, self.command = batch, index, command

    def __getattr__(self, name: str) -> Any:
        if name in DERIVED:
            return DERIVED[name](self)
        if not name.startswith("told_"):
            raise AttributeError(name)
        self.session.flush()
        with self.session.writing:
            self.__dict__.update(self.batch.answer(self.index).__dict__)
        return self.__dict__[name]


# What an answer has of its batch.
DERIVED: dict[str, Callable[[DeskAnswer], Any]] = {
    "session": lambda answer: answer.batch.desk, "clock": lambda answer: answer.batch.clock,
    "number": lambda answer: answer.batch.first + answer.index,
    "place": lambda answer: answer.batch.first + answer.index,
    "text": lambda answer: answer.batch.lines[answer.index]}


class LazyNames(Mapping[str, Union[Fact, Value]]):
    """What the variables of a rule stand for, found when it is first asked for."""

    def __init__(self, found: Callable[[], Names]):
        self.found = found

    @cached_property
    def names(self) -> Names:
        return self.found()

    def __getitem__(self, name: str) -> Union[Fact, Value]:
        return self.names[name]

    def __iter__(self) -> Iterator[str]:
        return iter(self.names)

    def __len__(self) -> int:
        return len(self.names)

    def __repr__(self) -> str:
        return repr(self.names)


class DeskReading(ObjectReading):
    """The answers of a desk in this process. It remembers no facts: the engine is asked for those that it keeps."""

    def __init__(self, desk: "Desk", image: Optional[bytes]):
        super().__init__(None, None, lambda answer: None)
        self.desk = desk
        self.before = None if image is None else head_in_bytes(image)
        if self.before:
            self.lines_before, self.book.clock = self.before.lines, self.before.clock

    def read(self, answer: DeskAnswer) -> None:
        """Reads what an answer tells; the clock is then the moment behind its line."""
        answers = answer.batch.answers
        self.book.clock = answer.batch.clock
        self.pending.append(answer)
        answer.begin_told()
        for told in answers[answer.index] if answer.index < len(answers) else ():
            self.take(told.decode("utf-8", "replace"))
        answer.clock = self.book.clock
        self.pending.clear()

    def finish(self, answer: Answer) -> None:
        self.pending.popleft()

    def names(self, rule: str, facts: list[Fact], results: list[int], told: Names) -> Names:
        return LazyNames(lambda: all_names(self.desk.rules, rule, facts, results, told))

    def known_facts(self) -> list[Fact]:
        raise NotKnown("a desk in this process remembers no facts")


# Lines that wait for others, up to so many, before they go to the engine.
WAITING, MOST_WAITING = ("insert", "modify", "retract"), 256
WAITING_TEXTS = tuple(f'{{"do":"{word}",' for word in WAITING)
KILLED = -9


def rule_text(rules: Union[None, str, Path], text: Union[None, str, bytes]) -> bytes:
    """The text of the rules: that of the file, or that is given."""
    if (rules is None) == (text is None):
        raise TypeError("a desk wants the path of a rule file, or its text")
    if text is not None:
        return text.encode("utf-8", "surrogatepass") if isinstance(text, str) else text
    try:
        return Path(str(rules)).read_bytes()
    except OSError as error:
        raise NoProgram(f"there is no rule file {rules} ({error.strerror})") from None


def image_bytes(image: Union[None, bytes, str, Path]) -> Optional[bytes]:
    """The bytes of an image, None where no file of the name is there."""
    if image is None or isinstance(image, bytes):
        return image
    path = Path(image)
    return path.read_bytes() if path.exists() else None


def put_image(path: Path, image: bytes) -> None:
    """Puts an image in the place of the one in a file, whole, and on the disk."""
    part = path.with_name(path.name + ".part")
    with open(part, "wb") as file:
        file.write(image)
        file.flush()
        os.fsync(file.fileno())
    os.replace(part, path)
    folder = os.open(path.parent, os.O_RDONLY)
    try:
        os.fsync(folder)
    finally:
        os.close(folder)


class Desk(Client):
    """A desk over a rule file: the path of one, or its `text`. Its `limit` is that of each fire line; `memory` bounds
    the bytes that the engine holds, past which the desk ends with the status 7. With an `image`, bytes that `save`
    gave, it goes on from there; with the path of one it does where the file is there, and `save` and `close` put the
    next one there. With `raises` a faulty line raises `Faulty`. `on_answer` is called with each answer, and `record` takes each
    line before the engine does."""

    def __init__(self, rules: Union[None, str, Path] = None, limit: Optional[int] = None,
                 on_answer: Optional[Callable[[Answer], None]] = None, record: Optional[Target] = None,
                 image: Union[None, bytes, str, Path] = None, raises: bool = False, memory: Optional[int] = None,
                 text: Union[None, str, bytes] = None):
        self.record: Optional[Record] = None
        self.started_with = (rules, limit, on_answer, record, image, raises, memory, text)
        self.source = rule_text(rules, text)
        self.image = Path(image) if isinstance(image, (str, Path)) else None
        begun = image_bytes(image)
        self.reading: DeskReading = DeskReading(self, begun)
        self.on_answer, self.raises = on_answer, raises
        self.clock_now, self.asks_first = self.reading.book.clock, begun is not None and self.reading.before is None
        self.waits_for_none = raises or on_answer is not None
        self.batch = Batch(self, 1, self.clock_now)
        self.writing = threading.RLock()
        self.begin_words()
        self.engine = Engine(self.source, limit or 0, memory or 0, begun)
        if self.engine.status != GOES:
            raise self.end_by(self.engine.status, self.engine.output().decode("utf-8", "replace").strip())
        if record is not None:
            self.record = Record(record)

    @cached_property
    def read_rules(self) -> Optional[Rules]:
        return rules_in(self.source)

    @property
    def rules(self) -> Optional[Rules]:
        return self.read_rules

    @property
    def clock(self) -> int:
        return self.clock_now

    @property
    def facts(self) -> list[Fact]:
        """The facts that the engine keeps."""
        return self.kept()

    # ---- lines

    @property
    def lines(self) -> int:
        return self.reading.lines_before + self.batch.first - 1 + len(self.batch.lines)

    def write(self, text: str, command: Optional[dict[str, Any]]) -> Answer:
        if "\n" in text:
            raise ValueError("a line has a newline in it")
        with self.writing:
            answer = self.entered(text, command)
            if (command is None or command.get("do") not in WAITING or self.waits_for_none
                    or answer.index >= MOST_WAITING):
                self.take()
        return answer

    def entered(self, text: str, command: Optional[dict[str, Any]]) -> DeskAnswer:
        """The answer of a line that is the next to go."""
        if self.ended:
            raise self.ended
        if self.record:
            self.record.take(text.encode("utf-8", "surrogatepass") + b"\n")
        lines = self.batch.lines
        answer = DeskAnswer(self.batch, len(lines), command)
        lines.append(text)
        return answer

    def flush(self) -> None:
        """Has the engine take the lines that wait."""
        if self.batch.lines:
            with self.writing:
                if self.batch.lines:
                    self.take()

    def begin_batch(self) -> Batch:
        """The lines that go next; another batch is begun."""
        batch = self.batch
        self.batch = Batch(self, batch.first + len(batch.lines), self.clock_now)
        return batch

    def take(self) -> None:
        """The engine takes the lines that wait."""
        batch = self.begin_batch()
        self.engine.feed(batch.script)
        batch.raw = self.engine.output()
        self.see(batch)

    def see(self, batch: Batch) -> None:
        """Reads the answers that have to be known at once: all where one may have a fault, else the last one where its
        line is none that waits: it may have firings, or move the clock. Hands them on, and raises what is to be
        raised."""
        count, has_ended = len(batch.lines), self.engine.status != GOES
        reads_all = has_ended or self.asks_first or self.on_answer is not None or b'"fault":' in batch.raw
        for index in range(0 if reads_all else count - 1, count):
            if reads_all or not batch.lines[index].startswith(WAITING_TEXTS):
                answer = batch.answer(index)
                self.clock_now = answer.clock
                if self.on_answer:
                    self.on_answer(answer)
        self.batch.clock, self.asks_first = self.clock_now, False
        if has_ended:
            raise self.end_by(self.engine.status, self.reading.said)
        if self.raises and reads_all:
            self.judged(batch.answer(count - 1))

    def await_answer(self, answer: Answer, seconds: Optional[float]) -> None:
        """The answers are there once the lines have gone; Ended where the run ended before."""
        self.flush()
        assert isinstance(answer, DeskAnswer), "the answer is one of this desk"
        if self.ended and not answer.batch.has(answer.index):
            raise self.ended

    # ---- images, and the end

    def save(self) -> bytes:
        """The image of this moment, by a line `save`. Where the desk has the path of an image, it is put there."""
        self.flush()
        with self.writing:
            self.entered('{"do":"save"}', {"do": "save"})
            batch = self.begin_batch()
            image = self.engine.save()
            batch.raw = self.engine.output()
            self.see(batch)
        return self.put(image)

    def put(self, image: Optional[bytes]) -> bytes:
        """Puts an image to the file of the desk, where it has one."""
        if image is None:
            raise ClientError("there is no image")
        if self.image:
            put_image(self.image, image)
        return image

    def end_by(self, status: int, said: str = "") -> Ended:
        """The run has ended: its memory is given back."""
        self.ended = Ended(status, said)
        self.engine.close()
        if self.record:
            self.record.close()
        return self.ended

    def close(self) -> int:
        """Ends the script, and returns the status: 0, or 1 where a line was faulty, also one before the image. Ended
        where the run had ended before, or its image could not be made."""
        if not self.ended:
            self.flush()
        with self.writing:
            ended = self.ended
            if ended is None:
                status = self.engine.end()
                said = self.engine.output().decode("utf-8", "replace").strip()
                image = self.engine.save() if status <= 1 and self.image else None
                ended = self.end_by(status, said)
                if image is not None:
                    self.put(image)
        if ended.status not in (0, 1):
            raise ended
        return ended.status

    def kill(self) -> None:
        """Ends the run where it stands, without an image of the end."""
        with self.writing:
            if not self.ended:
                self.end_by(KILLED)

    def restart(self) -> "Desk":
        """Another desk over the same rules, which begins as this one did."""
        self.kill()
        return Desk(*self.started_with)
