"""A stream over the servers of brokers: kills over each of them, and what is measured of one."""

from __future__ import annotations

import os
import re
import subprocess
import tempfile
import time
import unittest
from pathlib import Path

from support import DESK_PROGRAM

from sozhipen_tools.places import command_of
from sozhipen_tools.stream.brokers import KINDS


@unittest.skipUnless(os.access(DESK_PROGRAM, os.X_OK), f"there is no program {DESK_PROGRAM}")
class OverServers(unittest.TestCase):
    def told(self, kind: str, tool: str, *words: str) -> str:
        """What a tool prints over a server of this kind."""
        if KINDS[kind].server() is None:
            self.skipTest(f"there is no {KINDS[kind].program}")
        command = [*command_of(tool), "--broker", kind, "--desk", DESK_PROGRAM, *words]
        done = subprocess.run(command, capture_output=True, text=True, check=False, timeout=600)
        self.assertEqual(done.returncode, 0, done.stdout + done.stderr)
        return done.stdout

    def test_kills(self) -> None:
        for kind in KINDS:
            with self.subTest(kind):
                self.assertIn("same: all answers, each once", self.told(kind, "stream.trial", "--kills", "20"))

    def test_an_end(self) -> None:
        """SIGTERM ends what a trial started: its server, its router and its workers."""
        if KINDS["redis"].server() is None:
            self.skipTest("there is no redis-server")
        with tempfile.TemporaryDirectory() as folder:
            trial = subprocess.Popen([*command_of("stream.trial"), "--kills", "90", "--desk", DESK_PROGRAM],
                                     env={**os.environ, "TMPDIR": folder}, stdout=subprocess.DEVNULL)
            started: set[str] = set()
            end = time.monotonic() + 30
            while len(started) < 5 and time.monotonic() < end:
                started = {child for task in Path(f"/proc/{trial.pid}/task").iterdir()
                           for child in (task / "children").read_text(encoding="ascii").split()}
                time.sleep(0.01)
            trial.terminate()
            self.assertEqual(trial.wait(60), 128 + 15)
            self.assertEqual(os.listdir(folder), [])
        self.assertGreaterEqual(len(started), 5)
        self.assertEqual([child for child in started if Path(f"/proc/{child}").exists()], [])

    def test_measure(self) -> None:
        for kind in KINDS:
            with self.subTest(kind):
                told = self.told(kind, "stream.measure", "--workers", "1,2", "--events", "5000", "--sums", "1")
                self.assertEqual(re.findall(r"workers=(\d)", told), ["1", "2"])
                self.assertEqual(re.findall(r"desks_alone=(\d)", told), ["1", "2"])

    def test_lag(self) -> None:
        for kind in KINDS:
            with self.subTest(kind):
                told = self.told(kind, "stream.lag", "--rates", "100", "--seconds", "3", "--times", "1")
                self.assertEqual(len(re.findall(r"(?m)^.*: median=\d+ 99th=\d+ greatest=\d+", told)), 4)
                self.assertRegex(told, r"(?m)^a machine is lost: .* gaps=\d+$")


if __name__ == "__main__":
    unittest.main()
