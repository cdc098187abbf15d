"""The words of all scripts: each tells what it is for by --help, soon, and in one line that it does not know a word."""

import os
import subprocess
import sys
import tempfile
import unittest
from concurrent.futures import ThreadPoolExecutor
from dataclasses import dataclass

from support import LIVE, TOP, with_packages

from sozhipen_tools.__main__ import tools
from sozhipen_tools.places import command_of

UNKNOWN = "--no-such-word"
# They answer such a word as the program does: by its usage line.
AS_THE_PROGRAM = ("reference.desk", "reference.live", "reference.replay")
# Seconds of the processor, which are about those of the clock where nothing else runs.
MOST_SECONDS = 1.0


@dataclass
class Answer:
    """What a script printed and said, its status, and how long it took."""
    printed: str
    said: str
    status: int
    seconds: float


def commands() -> dict[str, list[str]]:
    """The words that start each script, by its name."""
    found = {name: command_of(name) for name in tools()}
    found.update({f"examples/live/{path.name}": [sys.executable, str(path)] for path in sorted(LIVE.glob("*.py"))})
    found.update({name: [sys.executable, str(TOP / name)] for name in ("tools/run", "tools/test.py")})
    found.update({name: [str(TOP / name)] for name in ("try", "tools/wrong_bodies")})
    return found


def answer(command: list[str]) -> Answer:
    with tempfile.TemporaryFile() as printed, tempfile.TemporaryFile() as said:
        process = subprocess.Popen(command, stdin=subprocess.DEVNULL, stdout=printed, stderr=said, env=with_packages())
        _, status, usage = os.wait4(process.pid, 0)
        process.returncode = os.waitstatus_to_exitcode(status)
        printed.seek(0)
        said.seek(0)
        return Answer(printed.read().decode(), said.read().decode(), process.returncode,
                      usage.ru_utime + usage.ru_stime)


def answers(word: str) -> dict[str, Answer]:
    """What each script answers to a word."""
    known = commands()
    with ThreadPoolExecutor(os.cpu_count()) as pool:
        return dict(zip(known, pool.map(answer, ([*command, word] for command in known.values()))))


class Words(unittest.TestCase):
    def test_help(self) -> None:
        for name, told in answers("--help").items():
            with self.subTest(name):
                self.assertEqual((told.status, told.said), (0, ""))
                self.assertGreater(len(told.printed.splitlines()), 1)
                self.assertLess(told.seconds, MOST_SECONDS)

    def test_an_unknown_word(self) -> None:
        for name, told in answers(UNKNOWN).items():
            with self.subTest(name):
                line, silence = (told.printed, told.said) if name in AS_THE_PROGRAM else (told.said, told.printed)
                self.assertEqual((told.status, line.count("\n"), silence), (2, 1, ""))
                if name in tools() and name not in AS_THE_PROGRAM:
                    self.assertIn(UNKNOWN, line)


if __name__ == "__main__":
    unittest.main()
