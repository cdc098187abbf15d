"""`./try` from the top: who answers, what goes through, what is said of wrong words and files; and cases."""

import io
import os
import shutil
import subprocess
import sys
import tempfile
import unittest
from pathlib import Path
from unittest import mock

from support import TOP, evaluator, tried, with_packages

from sozhipen_tools.places import command_of
from sozhipen_tools.running import programs


def setUpModule() -> None:
    os.chdir(TOP)


DEAR, SCRIPT = TOP / "examples" / "dear.drl", TOP / "examples" / "dear.jsonl"


class Try(unittest.TestCase):
    def test_a_short_script(self) -> None:
        output, said, status = tried("--by", "evaluator", DEAR, SCRIPT)
        self.assertEqual((output, status), ((TOP / "examples" / "dear.out").read_text(), 1))
        self.assertIn("the second evaluator", said.splitlines()[0])

    def test_the_desks(self) -> None:
        for script in sorted((TOP / "examples" / "desks").glob("*.jsonl")):
            with self.subTest(script.stem):
                output, _, status = tried("--by", "evaluator", script.with_suffix(".drl"), script)
                self.assertEqual((output, status), (script.with_suffix(".out").read_text(), 1))

    def test_a_drawing(self) -> None:
        """Of the certificates that are printed, and of none that are no good."""
        proof = tried("--by=evaluator", "--mode=proof", "examples/smoke.drl")[0]
        with tempfile.TemporaryDirectory() as folder:
            output = Path(folder, "proof.out")
            output.write_text(proof)
            drawn = tried("--draw", "examples/smoke.drl", output)
            self.assertEqual((drawn, drawn[0].count("<figure"), drawn[2]),
                             (tried("--draw", "examples/smoke.drl"), 4, 0))
            output.write_text(proof.replace("e1<=10000 sum 10000", "e1<=9999 sum 9999"))
            with mock.patch("sys.stderr", io.StringIO()):
                self.assertEqual(tried("--draw", "examples/smoke.drl", output)[::2], ("", 1))

    def test_standard_input(self) -> None:
        output, _, status = tried("--by", "evaluator", DEAR,
                                  script='{"do":"insert","type":"Order","fields":{"amount":60}}\n{"do":"fire"}')
        self.assertEqual((output, status), ('new #1 Order\nfire "large order" #1\n', 0))

    def test_the_words_of_the_program(self) -> None:
        self.assertEqual(tried("--by=evaluator", "--mode", "check", DEAR)[::2], ("accepted 2 types 3 rules\n", 0))
        self.assertIn("life Scan infinite", tried("--by=evaluator", "--mode=lives", "examples/parcels.drl")[0])
        proof = tried("--by=evaluator", "--mode=proof", "examples/smoke.drl")[0].splitlines()
        self.assertEqual((len(proof), proof[1], proof[-1]),
                         (5, 'proof "no water" 1 2 s2-e1<=10000 sum 10000 tail 2000', "confirmed"))
        output, _, status = tried("--by=evaluator", "--limit", "3", "examples/endless.drl", "examples/endless.jsonl")
        self.assertEqual((output.splitlines()[-1], status), ("limit 3", 4))

    def test_a_program_that_was_built_elsewhere(self) -> None:
        with tempfile.TemporaryDirectory() as folder:
            program = Path(folder, "replay")
            program.write_text('#!/bin/sh\necho "$*"\ncat\n')
            program.chmod(0o755)
            output, said, status = tried("--by", program, "--limit", "5", DEAR, script="a line\n")
        self.assertEqual((output, status), (f"--mode run --limit 5 -- {DEAR}\na line\n", 0))
        self.assertIn(f"the program {program}", said)

    def test_images(self) -> None:
        """An image is made and gone on from, whoever answers; where none can be, one line says so."""
        lines = SCRIPT.read_text(encoding="utf-8").splitlines(keepends=True)
        whole = tried("--by", "evaluator", DEAR, SCRIPT)[0]
        with tempfile.TemporaryDirectory() as folder:
            image = Path(folder, "image")
            made = subprocess.run([TOP / "try", "--by", "evaluator", "--mode", "save", DEAR],
                                  input="".join(lines[:4]).encode(), capture_output=True, check=False)
            image.write_bytes(made.stdout)
            self.assertEqual((made.returncode, made.stdout[:4]), (0, b"FXC1"))
            before = tried("--by", "evaluator", DEAR, script="".join(lines[:4]))[0]
            rest = tried("--by", "evaluator", "--resume", image, DEAR, script="".join(lines[4:]))
            self.assertEqual((before + rest[0], rest[2]), (whole, 1))
            image.write_bytes(made.stdout + b"x")
            refused = tried("--by", "evaluator", "--resume", image, DEAR, SCRIPT)
            self.assertEqual((refused[0], refused[2]), ("refused checkpoint BadImage\n", 9))
            program = Path(folder, "replay")
            program.write_text('#!/bin/sh\necho "$*"\n', encoding="ascii")
            program.chmod(0o755)
            self.assertEqual(tried("--by", program, "--mode=save", "--resume", image, DEAR, SCRIPT)[0],
                             f"--mode save --limit 100000 --resume={image} -- {DEAR}\n")
        self.assertEqual(tried("--by", "evaluator", "--resume", "nosuch", DEAR, SCRIPT)[::2],
                         ("refused checkpoint Missing\n", 9))

    def test_the_name_of_the_built_program(self) -> None:
        """It is the proved one where its checksum is that of the program that passed the gate."""
        with tempfile.TemporaryDirectory() as folder:
            program, checksum = Path(folder, "replay_main"), Path(folder, "proved.sha256")
            program.write_bytes(b"#!/bin/sh\nexit 0\n")
            with mock.patch.object(programs, "BUILT", program), mock.patch.object(programs, "CHECKSUM", checksum):
                self.assertIn("a built program", programs.name_of_built())
                subprocess.run("sha256sum replay_main > proved.sha256", shell=True, cwd=folder, check=True)
                self.assertEqual(programs.name_of_built(), "the proved program")
                program.write_bytes(b"#!/bin/sh\nexit 1\n")
                self.assertIn("a built program", programs.name_of_built())

    def test_a_rule_file_that_is_too_long(self) -> None:
        with tempfile.TemporaryDirectory() as folder:
            rules = Path(folder, "long.drl")
            rules.write_bytes(b" " * 1_500_000)
            output, said, status = tried("--by", "evaluator", rules, SCRIPT)
        self.assertEqual((output, status), ("refused item 0 line 0 TooLong\n", 3))
        self.assertIn("the file has 1500000 bytes", said)

    def test_what_to_ask_next(self) -> None:
        """Behind a faulty line, and behind the limit, whoever answers."""
        for status, part in ((1, "--why"), (4, "--lint")):
            with tempfile.TemporaryDirectory() as folder:
                program = Path(folder, "replay")
                program.write_text(f"#!/bin/sh\nexit {status}\n")
                program.chmod(0o755)
                self.assertIn(part, tried("--by", program, DEAR, SCRIPT)[1])

    def test_a_refusal(self) -> None:
        with tempfile.TemporaryDirectory() as folder:
            rules = Path(folder, "rules.drl")
            rules.write_text("declare Item price : long end\nrule dear when Item( prize > 3 ) then end\n")
            output, said, status = tried(rules, SCRIPT)
        self.assertEqual((output, status), ("refused item 2 line 2 UnknownField\n", 3))
        self.assertIn("rules.drl:2:22: UnknownField: `Item` has no field `prize`", said)
        self.assertIn("`price`?", said)

    def test_what_is_wrong(self) -> None:
        for words, status, part in (((), 2, "which rule file?"), ((".",), 5, "a directory"),
                                    (("examples/daer.drl",), 3, "examples/dear.drl?"),
                                    ((DEAR, "nothere.jsonl"), 5, "there is no script"),
                                    ((DEAR, "examples"), 5, "a directory"), ((DEAR, SCRIPT, "x"), 2, "a third"),
                                    (("--limit", "0", DEAR), 2, "from 1 to"), (("--mode", "Check", DEAR), 2, "check?"),
                                    (("--lmit", "3", DEAR), 2, "--limit?"),
                                    (("--mode", "check", "--mode", "check", DEAR), 2, "stands twice"),
                                    (("--by", "hand", DEAR), 2, "--by is"),
                                    (("--resume", "x", "--mode", "lives", DEAR), 2, "--mode lives reads none"),
                                    (("--by", "checked", "--resume", "x", DEAR, SCRIPT), 2, "takes no --resume")):
            with self.subTest(words):
                output, said, came = tried(*words)
                self.assertEqual(came, status)
                self.assertIn(part, said)

    def test_the_tools(self) -> None:
        self.assertEqual(tried("--where", DEAR)[::2], ("", 0))
        self.assertIn("again", tried("--lint", "examples/endless.drl")[0])
        self.assertIn("`amount` is a whole number", tried("--why", DEAR, SCRIPT, "--line", 6)[0])

    def test_a_reader_that_ends(self) -> None:
        command = [*command_of("reference.live"), str(TOP / "examples" / "live" / "withdrawals.drl")]
        program = subprocess.Popen(command, stdin=subprocess.PIPE, stdout=subprocess.PIPE, stderr=subprocess.PIPE)
        program.stdin.write(b'{"do":"held"}\n')
        program.stdin.flush()
        self.assertEqual(program.stdout.readline(), b"held Withdrawal 0\n")
        program.stdout.close()
        program.stdin.write(b'{"do":"held"}\n')
        program.stdin.close()
        self.assertEqual((program.wait(), program.stderr.read()), (6, b""))
        program.stderr.close()


class Caller(unittest.TestCase):
    """examples/live/caller.py, where its program is not there, and where a row lacks a column."""

    def called(self, program: str, rows: str) -> tuple[str, str, int]:
        command = [sys.executable, "examples/live/caller.py", program, "examples/live/withdrawals.drl"]
        done = subprocess.run(command, input=rows, capture_output=True, text=True, cwd=TOP, env=with_packages())
        return done.stdout, done.stderr, done.returncode

    def test_no_program(self) -> None:
        _, said, status = self.called("nothere", "")
        self.assertEqual((said.count("\n"), status), (1, 2))
        self.assertIn("there is no program nothere to run", said)

    def test_a_row_that_lacks_a_column(self) -> None:
        rows = (TOP / "examples" / "live" / "withdrawals.csv").read_text().splitlines()
        with tempfile.TemporaryDirectory() as folder:
            output, said, status = self.called(str(evaluator(Path(folder))),
                                               "\n".join(rows[:3] + ["2026-03-02 10:00:10"] + rows[3:]) + "\n")
        self.assertEqual((len(output.splitlines()), status), (3, 1))
        self.assertIn("line 4 of the table: no at, card, place, amount", said)


class Cases(unittest.TestCase):
    def test_the_examples(self) -> None:
        output, _, status = tried("--cases", "examples/cases", "examples/live/withdrawals.drl")
        self.assertEqual((output.splitlines()[-1], status), ("cases=5 expected=5 differs=0 shown=0", 0))

    def test_a_difference_is_told_by_its_line(self) -> None:
        with tempfile.TemporaryDirectory() as folder:
            shutil.copy(SCRIPT, Path(folder, "dear"))
            Path(folder,
                 "dear.stdout").write_text((TOP / "examples" / "dear.out").read_text().replace("#2\n", "#7\n", 1))
            output, _, status = tried("--cases", folder, DEAR)
            self.assertEqual(status, 1)
            self.assertIn('       3 - fire "dear item" #7\n       3 + fire "dear item" #2\n', output)
            tried("--cases", folder, DEAR, "--write")
            self.assertEqual(tried("--cases", folder, DEAR)[2], 0)

    def test_words_and_names(self) -> None:
        with tempfile.TemporaryDirectory() as folder:
            shutil.copy(TOP / "examples" / "endless.jsonl", Path(folder, "endless"))
            Path(folder, "endless.args").write_text("--limit\n2\nendless.drl\n")
            self.assertIn("no rule file endless.drl", tried("--cases", folder)[1])
            output, _, status = tried("--cases", folder, "--data", "endless.drl=examples/endless.drl")
            self.assertEqual(status, 0)
            self.assertIn("   limit 2\n", output)


if __name__ == "__main__":
    unittest.main()
