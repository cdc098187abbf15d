"""The feed of a desk that runs by itself, and the follower of its answers."""

from __future__ import annotations

import io
import json
import subprocess
import sys
import tempfile
import unittest
from pathlib import Path

from support import LIVE, live, with_packages

from sozhipen import Script

live("convert")
feed, follow = live("feed"), live("follow")


class Fed(unittest.TestCase):
    def setUp(self) -> None:
        self.out = io.StringIO()
        self.feed = feed.Feed(Script(self.out))

    def lines(self) -> list[tuple[str, int]]:
        """The lines so far: each word, and the clock, the start of an event, or 0."""
        found = [json.loads(line) for line in self.out.getvalue().splitlines()]
        return [(line["do"], line.get("ms", line.get("fields", {}).get("at", 0))) for line in found]

    def test_rows_wait_and_are_sorted(self) -> None:
        self.feed.take("1970-01-01 00:00:09.000,4417,harbour,120.00", 10_000)
        self.feed.take("1970-01-01 00:00:08.500,4417,station,80.00", 10_100)
        self.feed.tick(10_200)
        self.feed.tick(12_000)
        self.assertEqual(self.lines(), [("at", 10_200), ("fire", 0), ("at", 10_500), ("insert", 8_500), ("at", 11_000),
                                        ("insert", 9_000), ("at", 12_000), ("fire", 0)])

    def test_a_clock_that_goes_back(self) -> None:
        for moment in (5_000, 4_000, 6_000):
            self.feed.tick(moment)
        self.assertEqual(self.lines(), [("at", 5_000), ("fire", 0), ("fire", 0), ("at", 6_000), ("fire", 0)])

    def test_rows(self) -> None:
        fields = {"at": 7, "card": "4417", "place": "harbour", "cents": 12_000}
        self.assertEqual(feed.fields_of("4417, harbour, 120.00", 7), fields)
        for row in ("4417,harbour", "4417,harbour,much", "yesterday,4417,harbour,1.00"):
            with self.assertRaises(ValueError):
                feed.fields_of(row, 7)

    def test_ticks_without_rows(self) -> None:
        command = [sys.executable, str(LIVE / "feed.py")]
        process = subprocess.Popen(command, stdin=subprocess.PIPE, stdout=subprocess.PIPE, env=with_packages())
        assert process.stdout is not None
        ticks = [json.loads(process.stdout.readline())["do"] for _ in range(4)]
        self.assertEqual(ticks, ["at", "fire"] * 2)
        out, _ = process.communicate(b"4417,harbour,120.00\n")
        words = [json.loads(line)["do"] for line in out.splitlines()]
        self.assertEqual(process.returncode, 0)
        self.assertEqual((words.count("insert"), words[-1]), (1, "fire"))


class Followed(unittest.TestCase):
    def setUp(self) -> None:
        folder = tempfile.TemporaryDirectory()
        self.addCleanup(folder.cleanup)
        self.folder = Path(folder.name)
        (self.folder / "answers").mkdir()

    def answers(self, name: str, data: bytes) -> None:
        (self.folder / "answers" / name).write_bytes(data)

    def followed(self) -> list[bytes]:
        return list(follow.Follower(self.folder).lines())

    def test_lines_are_printed_once(self) -> None:
        self.answers("000000000000.part", b"new #1 Item\nfire \"de")
        self.assertEqual(self.followed(), [b"new #1 Item"])
        self.answers("000000000000.part", b"new #1 Item\nfire \"dear\" #1\n")
        self.assertEqual(self.followed(), [b"fire \"dear\" #1"])
        self.assertEqual(self.followed(), [])

    def test_segments(self) -> None:
        self.answers("000000000000", b"new #1 Item\nfault 3 BadJson\n")
        self.answers("000000000003", b"new #2 Item\n")
        self.answers("000000000006.part", b"new #3 Item\n")
        self.assertEqual(self.followed(), [b"new #1 Item", b"fault 3 BadJson", b"new #2 Item", b"new #3 Item"])
        self.assertEqual((self.folder / "followed").read_text(), "6 12\n")

    def test_answers_that_are_written_again(self) -> None:
        self.answers("000000000003.part", b"new #2 Item\nnew #3 Item\n")
        self.assertEqual(len(self.followed()), 2)
        self.answers("000000000003.part", b"new #2 It")
        self.assertEqual(self.followed(), [])
        self.answers("000000000003.part", b"new #2 Item\nnew #3 Item\nnew #4 Item\n")
        self.assertEqual(self.followed(), [b"new #4 Item"])

    def test_a_line_that_ends_the_program(self) -> None:
        self.answers("000000000000.part", b"limit 1 5\nrefused checkpoint TooLong\n")
        follower = follow.Follower(self.folder)
        self.assertEqual([list(follower.lines()), list(follower.lines())],
                         [[b"limit 1 5", b"refused checkpoint TooLong"], []])
        self.answers("000000000000.part", b"limit 1 5\nsaved 2\n")
        self.assertEqual(self.followed(), [b"saved 2"])

    def test_words(self) -> None:
        """A member of an object has the name, and no text in it; a line of text begins with the word."""
        told = {b'{"fault":"BadJson","line":1}': True, b'{"at":0,"facts":[],"fire":"fault","line":2}': False,
                b"fault 3 BadJson": True, b'fire "fault"': False, b"refused checkpoint TooLong": True}
        self.assertEqual({line: follow.has_word(line, {"fault", "refused"}) for line in told}, told)


if __name__ == "__main__":
    unittest.main()
