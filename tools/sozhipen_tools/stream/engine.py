"""Runs a batch of lines through a desk, from one image to the next."""

from __future__ import annotations

import subprocess
import tempfile
from dataclasses import dataclass
from pathlib import Path
from typing import Iterator, Optional

from .broker import Entry, State
from .entries import Numbered, data_of, lines_in

# Statuses with which a desk has read its input to the end; those after which another attempt may succeed.
WHOLE = (0, 1)
MAY_PASS = (5, 6, 7)
CLOSES = b"done "


class Stopped(Exception):
    """A desk ended with a status with which it will end again."""


class Interrupted(Exception):
    """A desk was killed, or refused a read, a write or memory."""


@dataclass(frozen=True)
class Engine:
    """A program `desk` with its rule file, and the folder for its files; otherwise that is the environment's."""
    command: tuple[str, ...]
    rules: str
    limit: int = 100_000
    folder: Optional[str] = None

    def turn(self, state: State, entries: list[Entry]) -> tuple[list[Entry], State]:
        """What each of these entries, behind a state, answers, and the state behind them; Stopped or Interrupted."""
        lines = [line for entry in entries for line in lines_in(entry.data)]
        told, image = self.run(state.image, b"".join(line.line + b"\n" for line in lines))
        answers = answers_of_lines(told)
        if len(answers) != len(lines):
            raise Stopped(f"{len(answers)} answers to {len(lines)} lines")
        return list(answers_of_entries(entries, answers)), State(entries[-1].number, image)

    def run(self, image: bytes, script: bytes) -> tuple[bytes, bytes]:
        """What a desk that goes on from an image prints, and its next image. Lines and answers are files: behind a pipe
        each answer would wake who reads it."""
        with tempfile.TemporaryDirectory(prefix="stream-", dir=self.folder) as folder:
            lines, answers, file = Path(folder, "lines"), Path(folder, "answers"), Path(folder, "image")
            lines.write_bytes(script)
            if image:
                file.write_bytes(image)
            words = [*self.command, "--limit", str(self.limit), "--image", str(file), "--text", self.rules]
            with lines.open("rb") as given, answers.open("wb") as out:
                status = subprocess.run(words, stdin=given, stdout=out, check=False).returncode
            told = answers.read_bytes()
            if status in WHOLE:
                return told, file.read_bytes()
        if status < 0 or status in MAY_PASS:
            raise Interrupted(f"status {status}")
        raise Stopped(f"status {status}: {told[-200:].decode(errors='replace').strip()}")


def answers_of_lines(told: bytes) -> list[list[bytes]]:
    """What each line answers, with the `done` that closes it."""
    found: list[list[bytes]] = [[]]
    for line in told.split(b"\n")[:-1]:
        found[-1].append(line)
        if line.startswith(CLOSES):
            found.append([])
    return found[:-1]


def answers_of_entries(entries: list[Entry], answers: list[list[bytes]]) -> Iterator[Entry]:
    """The answers to each entry, under its number; each line under that of the line that it answers."""
    place = 0
    for entry in entries:
        told = []
        for line in lines_in(entry.data):
            told += [Numbered(line.number, answer) for answer in answers[place]]
            place += 1
        yield Entry(entry.number, data_of(told))
