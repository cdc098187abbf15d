"""A running program on pipes: lines go in, and a thread reads what is answered while they do.

    with Session("rules.drl") as session:
        session.at(1000)
        session.insert("Item", {"price": 250, "stock": 3})
        for firing in session.fire().firings:
            print(firing.rule, firing.facts[0]["price"])

Each method writes one line and returns its `Answer` at once; what is asked of the answer waits for it.
"""

from __future__ import annotations

import os
import subprocess
import sys
import threading
from pathlib import Path
from typing import Any, Callable, Optional, Union

from sozhipen_tools.pipes import pipe

from .answers import Answer, Ended, NoProgram
from .client import Client
from .objects import ObjectReading
from .programs import Program, is_desk, option_words, program_words
from .reading import BadOutput, Reading
from .record import Record, Target
from .rules import Rules, rules_of
from .texts import TextReading


class Session(Client):
    """A program that runs over a rule file. `on_answer` is called in the reading thread with each answer that has come,
    in the order of the lines; it must neither ask for another nor send a line. `record`, a path or a binary file, takes
    each line of the caller's before the program gets it: a script that gives the same run again. With the path of an
    `image` the program goes on from it, and lines count on from its last one. `faults` has all faults since the
    beginning or the image. With `raises` each method waits for its answer, and raises `Faulty` where that is a fault.

    With `live` the program is a `desk`, and where `live` is None its name says whether it is one. Its `limit` is that
    of each fire line, and the session goes on; the `image` need not be there yet, and at the end of the session the
    next one is put there. Answers come from the program alone. The rule file need not be there for the client; where it
    is, `names` has the variables of fields too, and a fact its `entry` and `rule`.

    A `replay` tells no values: the client evaluates the actions of its rules. Where an answer of `at`, `advance`,
    `modify` or `retract` is asked for, a line after it is written that the program is known to answer."""

    def __init__(self, rules: Union[str, Path], program: Program = None, limit: Optional[int] = None,
                 on_answer: Optional[Callable[[Answer], None]] = None, record: Optional[Target] = None,
                 image: Union[None, str, Path] = None, live: Optional[bool] = None, raises: bool = False):
        self.started_with = (rules, program, limit, on_answer, record, image, live, raises)
        self.live = is_desk(program_words(program)) if live is None else live
        self.read_rules = rules_of(Path(rules))
        self.reading: Reading = (ObjectReading(self.read_rules, image, self.hand_on) if self.live
                                 else TextReading(self.read_rules, image, self.hand_on))
        self.on_answer = on_answer
        self.record = None if record is None else Record(record)
        self.raises, self.asks_counts = raises, self.live
        self.begin_words()
        self.changed, self.writing = threading.Condition(), threading.Lock()
        options = option_words(self.live, limit, image)
        self.process = self.started(program_words(program, self.live) + options + ["--", str(rules)])
        self.reader = threading.Thread(target=self.read, daemon=True)
        self.reader.start()

    @staticmethod
    def started(words: list[str]) -> subprocess.Popen[bytes]:
        try:
            if words[0] == sys.executable and words[1].endswith(".py"):
                os.stat(words[1])
            return subprocess.Popen(words, stdin=subprocess.PIPE, stdout=subprocess.PIPE)
        except OSError as error:
            raise NoProgram(f"there is no program {error.filename or words[0]} to run ({error.strerror}): build it "
                            "(README.md, Commands), or leave the second evaluator to answer, and name none") from None

    @property
    def rules(self) -> Optional[Rules]:
        return self.read_rules

    # ---- lines

    def write(self, text: str, command: Optional[dict[str, Any]]) -> Answer:
        if "\n" in text:
            raise ValueError("a line has a newline in it")
        with self.writing:
            answer = Answer(self, self.written + 1, text, command)
            with self.changed:
                self.written += 1
                behind = self.reading.enter(answer)
            line = text.encode("utf-8", "surrogatepass") + b"\n"
            if self.record:
                self.record.take(line)
            self.put(line + behind)
        return self.judged(answer)

    def put(self, data: bytes) -> None:
        try:
            pipe(self.process.stdin).write(data)
            pipe(self.process.stdin).flush()
        except (OSError, ValueError):
            self.reader.join()
            raise self.how_it_ended() from None

    # ---- answers

    def await_answer(self, answer: Answer, seconds: Optional[float]) -> None:
        if self.reading.is_open(answer):
            with self.writing:
                with self.changed:
                    closing = self.reading.closing()
                self.put(closing)
        with self.changed:
            if not self.changed.wait_for(lambda: answer.done or self.ended, seconds):
                raise TimeoutError(f"line {answer.line} has no answer yet")
        if not answer.done:
            raise self.how_it_ended()

    def read(self) -> None:
        """Takes each line of the output, up to its end: the reading thread."""
        try:
            for raw in pipe(self.process.stdout):
                self.reading.take(raw.decode("utf-8", "replace").rstrip("\n"))
        except BadOutput:
            self.process.kill()
        finally:
            pipe(self.process.stdout).close()
            self.close_input()
            self.end_reading(self.process.wait())

    def end_reading(self, status: int) -> None:
        self.reading.end(status)
        with self.changed:
            self.ended = Ended(status, self.reading.said)
            self.changed.notify_all()
        first = self.reading.pending[0] if self.reading.pending else None
        if self.on_answer and first and first.told_firings:
            self.on_answer(first)

    def hand_on(self, answer: Answer) -> None:
        """An answer is whole: the reading thread is in it."""
        with self.changed:
            answer.done = True
            self.changed.notify_all()
        if self.on_answer:
            self.on_answer(answer)

    # ---- the end

    def close(self) -> int:
        """Ends the script, waits for the program, and returns the status that it has for the caller's own lines, since
        the beginning or the image: 0, or 1 where some line was faulty. That of a `desk` is its own, which counts the
        lines before the image too; its image is in place. Ended where the program did not read the script to its end,
        or a `desk` did not leave its image."""
        with self.writing:
            self.close_input()
        self.reader.join()
        self.close_record()
        ended = self.how_it_ended()
        if ended.status not in (0, 1) or ended.said or self.reading.pending:
            raise ended
        return self.reading.status(ended.status)

    def how_it_ended(self) -> Ended:
        """The end of the program, which the reading thread has seen."""
        assert self.ended is not None, "the program has ended"
        return self.ended

    def close_input(self) -> None:
        try:
            pipe(self.process.stdin).close()
        except OSError:
            pass

    def kill(self) -> None:
        """Ends the program at once."""
        self.process.kill()
        self.reader.join()
        self.close_record()

    def close_record(self) -> None:
        if self.record:
            self.record.close()

    def restart(self) -> "Session":
        """Another program over the same rules, which begins as this one did, empty or from the image."""
        if not self.ended:
            self.kill()
        return Session(*self.started_with)
