"""A desk of five rules that are changed four times in a week, under kills: each alarm comes once. By the second
evaluator, and by the built `desk`, or that of DESK_PROGRAM, where it changes rules."""

from __future__ import annotations

import os
import subprocess
import tempfile
import unittest
from collections import Counter
from pathlib import Path
from random import Random
from unittest import mock

from support import DESK_PROGRAM

from sozhipen_tools.fault_injection import killed_changes
from sozhipen_tools.places import command_of
from sozhipen_tools.reference.meaning.program import Program


def changes_rules(desk: str) -> bool:
    """Whether there is this program, and it knows of rules to come."""
    if not os.access(desk, os.X_OK):
        return False
    with tempfile.TemporaryDirectory() as folder:
        rules = Path(folder, "rules.drl")
        rules.write_text("declare Item end", encoding="utf-8")
        return subprocess.run([desk, "--keep", str(rules), str(rules)], stdin=subprocess.DEVNULL, check=False,
                              stdout=subprocess.DEVNULL).returncode == 0


class Killed(unittest.TestCase):
    def tried(self, command: list[str], seed: int, kills: int) -> None:
        counts = Counter[str]()
        self.assertIsNone(killed_changes.first_difference(command, seed, kills, 7, counts))
        self.assertEqual(counts["changes"], 4)
        self.assertGreater(counts["kills"], 3)
        self.assertGreater(counts["alarms"], 50)
        self.assertGreater(counts["lines answered again"], 0)

    def test_a_week(self) -> None:
        self.tried(command_of("reference.desk"), 0, 6)

    @unittest.skipUnless(changes_rules(DESK_PROGRAM), f"there is no program {DESK_PROGRAM}, or it changes no rules")
    def test_weeks_of_the_program(self) -> None:
        for seed in range(3):
            self.tried([DESK_PROGRAM], seed, 40)

    def test_what_is_wrong_is_told(self) -> None:
        """An alarm that comes twice; and each rule has some."""
        week = killed_changes.week_of(Random("week/0"))
        alarms = killed_changes.wanted(week)
        self.assertEqual({name for _, name, _ in alarms}, set(killed_changes.RULES))
        self.assertEqual(len(set(alarms)), len(alarms))
        for part in range(5):
            self.assertIsInstance(killed_changes.program_of(killed_changes.file_of(part)), Program)
        with mock.patch.object(killed_changes.Caller, "run", lambda caller: alarms[1:] + alarms[:1] * 2):
            said = killed_changes.first_difference([], 0, 0, 7, Counter())
        self.assertRegex(said or "", r"^missing \[\], too many \[\(")


if __name__ == "__main__":
    unittest.main()
