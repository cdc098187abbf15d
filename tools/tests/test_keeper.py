"""The keeper of a desk: what has its name is complete, what went wrong is told, and neither a kill nor a failing disk
loses or doubles a line.

The program is the second evaluator, and in some tests also the built one where it is there; DESK_PROGRAM names another
one.
"""

from __future__ import annotations

import contextlib
import fcntl
import io
import os
import resource
import subprocess
import sys
import tempfile
import unittest
from pathlib import Path
from typing import Any
from unittest import mock

from support import DESK_PROGRAM, LIVE, TOP, evaluator, live, saves

keeper = live("keeper")
live("follow")
kills = live("kills")

EXAMPLES = TOP / "examples"
RULES = EXAMPLES / "dear.drl"
LINES = (EXAMPLES / "dear.jsonl").read_bytes().splitlines(keepends=True)
SCRIPT = b"".join(LINES)
SAVE = keeper.SAVE
# A program that accepts each rule file, and does something else when it is to run.
ACTS = '#!/bin/sh\ncase "$*" in *--image*) ;; *) exit 0 ;; esac\n{}\n'
# A desk that closes each line, and does not know the line `save`.
OLDER = """exec python3 -c 'import sys
for n, line in enumerate(sys.stdin, 1): print("{\\"done\\":%d}" % n, flush=True)'"""


class Case(unittest.TestCase):
    evaluator: str

    @classmethod
    def setUpClass(cls) -> None:
        """The second evaluator begins often here: it is compiled once, and nothing is written then."""
        folder = tempfile.TemporaryDirectory()
        cls.addClassCleanup(folder.cleanup)
        for only_read in ("", "1"):
            program = evaluator(Path(folder.name), "reference.desk")
            kept = f"PYTHONPYCACHEPREFIX={folder.name}/compiled PYTHONDONTWRITEBYTECODE={only_read} exec "
            program.write_text(program.read_text(encoding="utf-8").replace("exec ", kept), encoding="utf-8")
            subprocess.run([program, "--help"], stdout=subprocess.DEVNULL, check=True)
            cls.evaluator = str(program)

    def setUp(self) -> None:
        folder = tempfile.TemporaryDirectory()
        self.addCleanup(folder.cleanup)
        self.path = Path(folder.name)
        self.desk = self.path / "desk"
        self.program = self.program_of()

    def program_of(self) -> str:
        return self.evaluator

    def keep(self, script: bytes, *words: str, **options: Any) -> tuple[int, str, str]:
        """Runs a keeper over a script: its status, what it prints, and what it says."""
        command = [sys.executable, str(LIVE / "keeper.py"), self.program, str(RULES), str(self.desk), *words]
        done = subprocess.run(command, input=script, capture_output=True, check=False, **options)
        return done.returncode, done.stdout.decode(), done.stderr.decode()

    def files(self, kind: str) -> dict[str, bytes]:
        """What the files have whose names are numbers, by these."""
        return {path.name: path.read_bytes() for path in sorted((self.desk / kind).glob("*[0-9]"))}

    def log(self) -> bytes:
        return b"".join(self.files("log").values())

    def one_run(self, *words: str) -> bytes:
        """What one run over the log answers."""
        (self.path / "whole").unlink(missing_ok=True)
        command = [self.program, "--image", str(self.path / "whole"), *words, str(RULES)]
        return subprocess.run(command, input=self.log(), capture_output=True, check=False).stdout

    def check_one_run(self, *words: str) -> None:
        self.assertEqual(b"".join(self.files("answers").values()), self.one_run(*words))


class OtherRules(Case):
    """The rules of a desk are changed between two scripts; events are kept for the second ones."""
    RULES = "declare Ask @role( event ) end\nrule any when Ask() then end\n"
    LATER = RULES + "rule two when $a : Ask() Ask( this after[1ms,9s] $a ) then end\n"

    def kept(self, rules: str, *words: str) -> int:
        name = self.path / "rules.drl"
        name.write_text(rules, encoding="utf-8")
        (self.path / "later.drl").write_text(self.LATER, encoding="utf-8")
        lines = b'{"do":"insert","type":"Ask","fields":{}}\n{"do":"fire"}\n{"do":"advance","by":8000}\n'
        with mock.patch(f"{__name__}.RULES", name):
            return self.keep(lines, *words)[0]

    def test_a_change(self) -> None:
        self.assertEqual(self.kept(self.RULES, "--next", str(self.path / "later.drl")), 0)
        self.assertEqual(self.kept(self.LATER), 0)
        first, second = self.files("answers").values()
        self.assertTrue(second.startswith(b'{"change":"stays","rule":"any"}\n{"change":"new","rule":"two"}\n'))
        self.assertEqual([answers.count(b'"fire":') for answers in (first, second)], [1, 2])


class Words(Case):
    """What is told when the program ends before its script, or is no desk."""

    def act(self, body: str) -> None:
        self.program = str(self.path / "program")
        Path(self.program).write_text(ACTS.format(body), encoding="ascii")
        os.chmod(self.program, 0o755)

    def test_statuses(self) -> None:
        words = {0: "before its script", 5: "a read", 6: "could not write", 7: "memory", 9: "image", 11: "before"}
        for status, word in words.items():
            self.act(f"exit {status}")
            found, _, said = self.keep(b"x\n")
            self.assertEqual(found, status or 2)
            self.assertRegex(said, f"\\Akeeper: the program ended with status {status}: [^\n]*{word}[^\n]*\n\\Z")

    def test_the_line_that_it_ends_with(self) -> None:
        self.act("echo 'refused checkpoint BadImage'; exit 9")
        for script in (b"", b"x\n" * 20_000):
            found, _, said = self.keep(script)
            self.assertEqual(found, 9)
            self.assertRegex(said, r"\A[^\n]*\(refused checkpoint BadImage\)\n\Z")

    def test_a_signal(self) -> None:
        self.act("kill -9 $$")
        self.assertEqual(self.keep(b"")[::2],
                         (2, "keeper: the program was killed by signal 9; the same command goes on\n"))

    def test_a_refused_rule_file(self) -> None:
        self.program = str(self.path / "program")
        Path(self.program).write_text("#!/bin/sh\necho 'refused item 2 line 5 Syntax'; exit 3\n", encoding="ascii")
        os.chmod(self.program, 0o755)
        found, out, said = self.keep(b"x\n")
        self.assertEqual((found, out, self.desk.exists()), (3, "", False))
        self.assertRegex(said, r"\Akeeper: .*--where.*\(refused item 2 line 5 Syntax\)\n\Z")

    def test_no_program(self) -> None:
        self.program = "/no/such/program"
        found, _, said = self.keep(b"")
        self.assertEqual(found, 2)
        self.assertRegex(said, r"\Akeeper: .*/no/such/program.*; the same command goes on\n\Z".replace("; ", ".*"))

    def test_a_program_that_does_not_save(self) -> None:
        self.act(OLDER)
        found, out, said = self.keep(b"x\n" * 7, "--lines", "5")
        self.assertEqual((found, out), (2, "taken 0\n"))
        self.assertEqual(said, 'keeper: the program does not save at line 6: {"done":5} {"done":6}\n')
        self.assertEqual((self.files("image"), self.files("answers")), ({}, {}))

    def test_two_keepers(self) -> None:
        self.desk.mkdir()
        handle = os.open(self.desk, os.O_RDONLY)
        self.addCleanup(os.close, handle)
        fcntl.flock(handle, fcntl.LOCK_EX)
        self.assertEqual(self.keep(b"x\n"), (2, "", f"keeper: another keeper has {self.desk}\n"))
        self.assertEqual(list(self.desk.iterdir()), [])

    def test_a_log_that_has_a_gap(self) -> None:
        """Lines that would be left out: of a segment without its end, and of a log that is not this keeper's."""
        self.act(OLDER)
        first = "000000000000"
        for names, wrong in (([f"{first}.{first}", "000000000005.000000000004"], f"{first} ends without `save`"),
                             ([first], f"/log has no segment {first}")):
            self.desk = self.path / names[-1]
            (self.desk / "log").mkdir(parents=True)
            for name in names:
                (self.desk / "log" / name).write_bytes(b"x\n")
            found, out, said = self.keep(b"y\n")
            self.assertEqual((found, out), (2, ""))
            self.assertRegex(said, f"\\Akeeper: .*{wrong}; .*\n\\Z")


class Kept(Case):
    def test_a_script_that_goes_on(self) -> None:
        self.assertEqual(self.keep(b"".join(LINES[:4])), (0, "taken 0\n", ""))
        first = self.files("answers")
        self.assertEqual(first["000000000000"].splitlines()[-2:], [b'{"line":5,"saved":true}', b'{"done":5}'])
        self.assertEqual(self.keep(b"".join(LINES[4:]).rstrip(b"\n")), (1, "taken 4\n", ""))
        self.assertEqual((list(self.files("answers")), list(self.files("log")), list(self.files("image"))), (
            ["000000000000", "000000000005"],
            ["000000000000.000000000000", "000000000005.000000000004", "000000000010.000000000008"],
            ["000000000005", "000000000010"]))
        self.assertEqual((self.files("answers")["000000000000"], self.log().replace(SAVE, b"")),
                         (first["000000000000"], SCRIPT))
        self.check_one_run()
        kept = self.files("answers"), self.files("log"), self.files("image")
        self.assertEqual(self.keep(b""), (1, "taken 8\n", ""))
        self.assertEqual((self.files("answers"), self.files("log"), self.files("image")), kept)
        self.assertEqual(list(self.desk.glob("running-*")), [])

    def test_segments(self) -> None:
        """Answers as text; lines that look like the keeper's, or have other ends inside; images that need not stay."""
        script = SCRIPT + SAVE * 2 + b"\r\r\n \r" + SAVE
        self.assertEqual(self.keep(script, "--lines", "3", "--text", "--limit", "1")[0], 1)
        self.assertEqual([data.count(b"\n") for data in self.files("log").values()], [4, 4, 4, 4, 0])
        self.assertEqual(self.log().count(b'{"do":"save"} \n'), 2)
        self.check_one_run("--text", "--limit", "1")
        self.assertEqual(self.files("answers")["000000000004"].splitlines()[1:3], [b"limit 5 1", b"done 5"])
        self.assertEqual(self.keep(b"x\n", "--text", "--keep", "2")[1], "taken 12\n")
        self.assertEqual([list(self.files(kind)) for kind in ("image", "log")], [
            ["000000000016", "000000000018"], ["000000000016.000000000012", "000000000018.000000000013"]])
        self.assertEqual(self.keep(b"")[1], "taken 13\n")

    def test_an_image_that_is_deleted(self) -> None:
        """The one before takes its place, and the lines after that are run again."""
        self.keep(SCRIPT, "--lines", "3")
        kept = self.files("answers"), self.files("log"), self.files("image")
        for name in ("000000000008", "000000000011"):
            (self.desk / "image" / name).unlink()
        self.assertEqual(self.keep(b"", "--lines", "3"), (1, "taken 8\n", ""))
        self.assertEqual((self.files("answers"), self.files("log"), self.files("image")), kept)

    def test_a_disk_that_is_full(self) -> None:
        """A file takes no more than some bytes: the last line that was begun is not one of the log."""
        for most in (0, 200):
            taken = SCRIPT.count(b"\n", 0, most)

            def full(most: int = most) -> None:
                resource.setrlimit(resource.RLIMIT_FSIZE, (most, most))

            with self.subTest(most):
                self.desk = self.path / str(most)
                found, _, said = self.keep(SCRIPT, preexec_fn=full)
                self.assertEqual(found, 2)
                self.assertRegex(said, r"\Akeeper: .*File too large; once that is fixed, the same command goes on\n\Z")
                self.assertEqual(self.log(), SCRIPT[:most])
                self.assertEqual(self.keep(b"".join(LINES[taken:])), (1, f"taken {taken}\n", ""))
                self.assertEqual(self.log().replace(SAVE, b""), SCRIPT)
                self.check_one_run()


class Killed(Case):
    """Some kills at random moments, and what they find in a keeper that is planted."""
    KILLS = 4

    def killed(self, path: Path, count: int) -> tuple[int, str]:
        """The status and what is told of so many kills of the keeper in a file."""
        words = ["kills.py", self.program, "--kills", str(count), "--from", "3", "--keeper", str(path)]
        said = io.StringIO()
        with mock.patch.object(sys, "argv", words), mock.patch.object(tempfile, "tempdir", str(self.path)):
            with mock.patch.multiple(kills, LINES=100, ANSWERED_BEFORE_A_BREAK=12), contextlib.redirect_stdout(said):
                return kills.main(), said.getvalue()

    def test_some_kills(self) -> None:
        status, said = self.killed(LIVE / "keeper.py", self.KILLS)
        self.assertRegex(said, "no difference\n$")
        self.assertEqual(status, 0)

    def planted(self, old: str, new: str) -> str:
        text = (LIVE / "keeper.py").read_text(encoding="utf-8")
        self.assertEqual(text.count(old), 1, old)
        path = self.path / "planted.py"
        path.write_text(text.replace(old, new), encoding="utf-8")
        status, said = self.killed(path, 40)
        self.assertEqual(status, 1, said)
        return said

    def test_a_line_that_is_lost(self) -> None:
        self.planted("lines = self.give(lines)", "lines = self.give(lines[1:] or lines)")

    def test_a_line_that_is_doubled(self) -> None:
        self.planted("lines = self.give(lines)", "lines = self.give(lines[:1] + lines)")

    def test_answers_that_are_doubled(self) -> None:
        self.planted('.part", "wb")', '.part", "ab")')

    def test_a_line_that_is_answered_before_it_is_logged(self) -> None:
        self.assertIn("answers a line that is not in the log", self.planted("self.log.flush()", "pass"))


@unittest.skipUnless(saves(DESK_PROGRAM), f"there is no program {DESK_PROGRAM} that saves while it runs")
class KeptByTheBuiltDesk(Kept):
    def program_of(self) -> str:
        return DESK_PROGRAM


@unittest.skipUnless(saves(DESK_PROGRAM), f"there is no program {DESK_PROGRAM} that saves while it runs")
class KilledWithTheBuiltDesk(Killed):
    KILLS = 20

    def program_of(self) -> str:
        return DESK_PROGRAM


if __name__ == "__main__":
    unittest.main()
