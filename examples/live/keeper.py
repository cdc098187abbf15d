#!/usr/bin/env python3
"""Keeps a desk that loses nothing: each line of a script is on the disk before the program `desk` gets it.

    python3 keeper.py PROGRAM RULES FOLDER [--lines N] [--keep K] [--limit N] [--next RULES2] [--text] < SCRIPT

Behind each N lines, and behind the last one, the log has a line `save`, which ends a segment. FOLDER has log/ and
answers/ of each segment and the image/ before it, in files that are named by the number of lines before the segment;
in log/ a second number says how many of these are the script's. The answers to the last segment are in a file that ends
in `.part`. It gets its name when the segment is saved, and then the image does. With --keep, what log/ and image/ have
before the last K images is removed. With --next events are kept for rules to come, too (docs/CHANGING-RULES.md).

After a crash the same command runs the lines behind the last image again, which answer the same bytes into the same
file. Then `taken N` on standard output says how many lines of the script were logged: the sender goes on behind these.

The status is the program's, 0 or 1 if the script ended. It is 2 if there is no program, or it was killed or does not
save, if the disk refuses a write, or if another keeper has FOLDER. Standard error says what went wrong.
"""

from __future__ import annotations

import argparse
import fcntl
import os
import select
import shutil
import subprocess
import sys
import tempfile
from pathlib import Path
from typing import Iterator

SAVE = b'{"do":"save"}\n'
READ_MAX = 1 << 16
FAILED, INTERRUPTED = 2, 130
BROKEN = "see docs/OPERATING.md, *When something breaks*"
WORDS = {
    2: "it does not accept these options",
    3: "the rule file is refused; `./try --where RULES` says where",
    5: "a read of the rule file, the image or the script failed; the same command goes on",
    6: "it could not write its answers or its image; the same command goes on",
    7: "it was refused memory; with more memory the same command goes on",
    9: f"an image is refused; if the rule file was changed, read docs/CHANGING-RULES.md; otherwise {BROKEN}",
}


class Failure(Exception):
    """Why the keeper cannot go on."""


def failed(status: int, last: bytes) -> int:
    """Tells how the program ended, with its last line where that says more; the keeper's status."""
    how = f"was killed by signal {-status}; the same command goes on" if status < 0 else \
        f"ended with status {status}: {WORDS.get(status, 'before its script did')}"
    tell(f"the program {how}" + (f" ({last.decode('utf-8', 'replace').strip()})" if last[:8] == b"refused " else ""))
    return status if status > 1 else FAILED


def tell(text: str) -> None:
    print(f"keeper: {text}", file=sys.stderr, flush=True)


def on_disk(path: Path) -> None:
    """What the path names is written to the disk, a folder with its names."""
    handle = os.open(path, os.O_RDONLY)
    try:
        os.fsync(handle)
    finally:
        os.close(handle)


def put_in_place(part: Path, name: Path) -> None:
    """Gives a file that is complete its name."""
    on_disk(part)
    os.replace(part, name)
    on_disk(name.parent)


def number_of(path: Path) -> int:
    """The number of lines before a segment or an image."""
    return int(path.name.partition(".")[0])


class Keeper:
    """What is kept of a run in a folder, which one keeper has at a time, and the program behind it."""

    def __init__(self, path: Path, size: int, keep: int) -> None:
        path.mkdir(parents=True, exist_ok=True)
        self.size, self.keep, self.lock = size, keep, os.open(path, os.O_RDONLY)
        try:
            fcntl.flock(self.lock, fcntl.LOCK_EX | fcntl.LOCK_NB)
        except BlockingIOError:
            raise Failure(f"another keeper has {path}") from None
        self.logs, self.answers, self.images = (path / name for name in ("log", "answers", "image"))
        for folder in (self.logs, self.answers, self.images):
            folder.mkdir(exist_ok=True)
        for old in path.glob("running-*"):
            shutil.rmtree(old, ignore_errors=True)
        # The program of a killed keeper ends with the pipe, maybe within a line, and puts an image behind answers that
        # nobody got. So each program puts its images under a name of its own, and the keeper names what was saved.
        self.running = Path(tempfile.mkdtemp(prefix="running-", dir=path), "image")
        on_disk(path)

    def named_images(self) -> list[Path]:
        return sorted(self.images.glob("*[0-9]"), key=number_of)

    def start(self, words: list[str], rules: str) -> None:
        """Starts the program from the last image, and runs the lines of the log behind it again."""
        images = self.named_images()
        if images:
            shutil.copyfile(images[-1], self.running)
        self.process = subprocess.Popen([*words, "--image", str(self.running), rules], stdin=subprocess.PIPE,
                                        stdout=subprocess.PIPE, bufsize=0)
        assert self.process.stdin and self.process.stdout
        self.input, self.output, self.last, self.rest = self.process.stdin, self.process.stdout, [b"", b""], b""
        os.set_blocking(self.input.fileno(), False)
        lines = self.open(number_of(images[-1]) if images else 0)
        while lines:
            lines = self.give(lines)
        if self.segment != max(map(number_of, self.logs.iterdir())):
            raise Failure(f"{self.log.name} ends without `save`; {BROKEN}")
        print(f"taken {self.before + self.count}", flush=True)

    def open(self, segment: int) -> list[bytes]:
        """Begins a segment. The lines that the log has of it already are on the disk then; what was cut off in writing
        is taken off the file."""
        self.segment, self.count, name = segment, 0, f"{segment:012}"
        new = None if any(self.logs.iterdir()) else self.logs / f"{name}.{0:012}"
        path = next(self.logs.glob(f"{name}.*"), new)
        if path is None:
            raise Failure(f"{self.logs} has no segment {name}; {BROKEN}")
        self.before, self.log = int(path.suffix[1:]), open(path, "a+b")
        self.log.seek(0)
        *lines, rest = self.log.read().split(b"\n")
        self.log.truncate(self.log.tell() - len(rest))
        os.fsync(self.log.fileno())
        on_disk(self.logs)
        self.part = open(self.answers / f"{name}.part", "wb")
        return [line + b"\n" for line in lines]

    def script(self) -> Iterator[list[bytes]]:
        """The lines of standard input, those together that came together; the last one may come without a newline."""
        rest, data = b"", b"\n"
        while data:
            while self.output in select.select([self.output, sys.stdin], [], [])[0]:
                self.take_answers()
            data = os.read(sys.stdin.fileno(), READ_MAX)
            *lines, rest = (rest + (data or rest and b"\n")).split(b"\n")
            # One that looks like the keeper's own is told apart from it, and means the same.
            yield [line + (b" \n" if line == SAVE.strip() else b"\n") for line in lines]

    def take(self, lines: list[bytes], ends: bool = False) -> None:
        """Lines came together, or the script ends: the log gets them, up to the end of a segment, then the program."""
        while lines or ends and self.count:
            room = max(1, self.size - self.count)
            part, lines = lines[:room], lines[room:]
            part += [SAVE] if len(part) == room or ends else []
            self.log.write(b"".join(part))
            self.log.flush()
            os.fsync(self.log.fileno())
            self.give(part)

    def give(self, lines: list[bytes]) -> list[bytes]:
        """The program gets lines of the log, and answers them; what the log has of the segment that begins then."""
        due, unanswered, self.count = memoryview(b"".join(lines)), len(lines), self.count + len(lines)
        while unanswered > 0:
            readable, writable, _ = select.select([self.output], [self.input] if due else [], [])
            try:
                due = due[os.write(self.input.fileno(), due):] if writable else due
            except BrokenPipeError:
                due = due[:0]
            if readable:
                unanswered -= self.take_answers()
        return self.end_segment(self.segment + self.count) if lines[-1] == SAVE else []

    def take_answers(self) -> int:
        """Takes what the program answers, and tells how many lines that closes; EOFError where it answers no more."""
        data = os.read(self.output.fileno(), READ_MAX)
        if not data:
            raise EOFError
        *lines, self.rest = (self.rest + data).split(b"\n")
        self.part.write(b"".join(line + b"\n" for line in lines))
        self.part.flush()
        self.last = (self.last + lines)[-2:]
        return sum(line.startswith((b'{"done":', b"done ")) for line in lines)

    def end_segment(self, end: int) -> list[bytes]:
        """The line `save` of this number is answered: the answers get their name, and last the image, from which the
        next keeper goes on."""
        saved = [[b'{"line":%d,"saved":true}' % end, b'{"done":%d}' % end], [b"saved %d" % end, b"done %d" % end]]
        if self.last not in saved:
            raise Failure(f"the program does not save at line {end}: {b' '.join(self.last).decode()}")
        self.log.close()
        self.part.close()
        put_in_place(Path(self.part.name), Path(self.part.name).with_suffix(""))
        (self.logs / f"{end:012}.{self.before + self.count - 1:012}").touch()
        on_disk(self.logs)
        put_in_place(self.running, self.images / f"{end:012}")
        images = self.named_images()
        for path in (*self.logs.iterdir(), *images) if 0 < self.keep <= len(images) else ():
            if number_of(path) < number_of(images[-self.keep]):
                path.unlink()
        return self.open(end)

    def run(self, words: list[str], rules: str) -> int:
        """Keeps the script; the status."""
        try:
            self.start(words, rules)
            for lines in self.script():
                self.take(lines)
            self.take([], ends=True)
            self.input.close()
            while True:
                self.take_answers()
        except EOFError:
            status = self.process.wait()
            shutil.rmtree(self.running.parent, ignore_errors=True)
        return status if self.input.closed and status in (0, 1) else failed(status, self.last[-1])


def main() -> int:
    about = "keeper.py PROGRAM RULES FOLDER [OPTIONS] < SCRIPT: keeps a desk that loses nothing."
    parser = argparse.ArgumentParser(usage=argparse.SUPPRESS, description=about)
    parser.add_argument("program", metavar="PROGRAM", help="the program `desk`")
    parser.add_argument("rules", metavar="RULES", help="the rule file")
    parser.add_argument("folder", metavar="FOLDER", type=Path, help="where the log, the images and the answers are")
    parser.add_argument("--lines", metavar="N", type=int, default=10_000, help="the lines of a segment; 10000")
    parser.add_argument("--keep", metavar="K", type=int, default=0, help="how many images are kept; all")
    parser.add_argument("--limit", metavar="N", type=int, default=100_000, help="the most firings of a line; 100000")
    parser.add_argument("--next", metavar="RULES2", help="rules to come, for which events are kept")
    parser.add_argument("--text", action="store_true", help="the answers are lines of text")
    asked = parser.parse_args()
    words = [asked.program, "--limit", str(asked.limit), *(["--text"] if asked.text else []),
             *(["--keep", asked.next] if asked.next else [])]
    try:
        # Before anything is kept: whether there is a program, and whether it accepts the rules.
        tried = subprocess.run([*words, asked.rules], stdin=subprocess.DEVNULL, stdout=subprocess.PIPE, check=False)
        if tried.returncode:
            return failed(tried.returncode, tried.stdout)
        return Keeper(asked.folder, asked.lines, asked.keep).run(words, asked.rules)
    except Failure as failure:
        tell(str(failure))
    except OSError as error:
        tell(f"{error}; once that is fixed, the same command goes on")
    except KeyboardInterrupt:
        return INTERRUPTED
    return FAILED


if __name__ == "__main__":
    sys.exit(main())
