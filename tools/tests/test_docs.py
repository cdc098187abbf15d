"""The examples of docs/TOOLS.md are what the tools print."""

import os
import re
import tempfile
import unittest
from pathlib import Path

from support import TOP, tried

PAGE = (TOP / "docs" / "TOOLS.md").read_text()
BLOCKS = re.findall(r"^```\n(.*?)^```$", PAGE, re.S | re.M)

# What the page says is changed in the rule file before `--where`.
MISTAKES = (('rule "stuck" when', 'rule "stuck"\n  no-loop true\nwhen'), ("10s]", "10 s]"), ("new Alert", "new Alarm"))


class Page(unittest.TestCase):
    def test_examples(self) -> None:
        commands = [(block.strip(), BLOCKS[k + 1]) for k, block in enumerate(BLOCKS) if block.startswith("./try --")]
        self.assertEqual(len(commands), 5)
        with tempfile.TemporaryDirectory() as folder:
            for command, wanted in commands:
                words = command.split()[1:]
                rules = BLOCKS[0]
                for old, new in MISTAKES if "--where" in words else ():
                    self.assertIn(old, rules)
                    rules = rules.replace(old, new)
                Path(folder, "parcels.drl").write_text(rules)
                Path(folder, "parcels.jsonl").write_text(BLOCKS[1])
                os.chdir(TOP if "--cases" in words else folder)
                with self.subTest(command):
                    self.assertEqual(tried(*words)[0], wanted)
            os.chdir(TOP)


if __name__ == "__main__":
    unittest.main()
