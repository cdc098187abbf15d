"""The Java client, against the built program: compiled by javac, run over examples, and by a caller in Java.

REPLAY_PROGRAM names another program than the built one. Without javac or the program the tests are skipped.
"""

from __future__ import annotations

import os
import shutil
import subprocess
import tempfile
import unittest
from pathlib import Path

from support import PROGRAM, TOP

EXAMPLES = TOP / "examples"
# Examples with the statuses of their runs.
RUNS = {"smoke": 0, "dear": 1, "fraud": 1}

CALLER = """
import java.util.List;
import java.util.concurrent.TimeoutException;

public class Caller {
    public static void main(String[] words) throws Exception {
        try (Replay replay = new Replay(words[0], words[1])) {
            System.out.println(replay.turn("{\\"do\\":\\"at\\",\\"ms\\":5}", "{\\"do\\":\\"oops\\"}"));
            String[] rooms = {"hall \\"2\\"", "é\\n"};
            for (String room : rooms) {
                String fields = "{\\"room\\":" + Replay.text(room) + "}";
                String line = "{\\"do\\":\\"insert\\",\\"type\\":\\"Smoke\\",\\"fields\\":" + fields + "}";
                System.out.println(replay.turn(line));
            }
            System.out.println(replay.turn());
            String[] move = {"no JSON", "", "{\\"do\\":\\"at\\",\\"ms\\":20006}", "{\\"do\\":\\"fire\\"}"};
            System.out.println(replay.turn(move));
            System.out.println(replay.end());
        }
        try (Replay replay = new Replay(words[0], words[2], "--limit", "2")) {
            replay.turn("{\\"do\\":\\"insert\\",\\"type\\":\\"Clock\\",\\"fields\\":{\\"ticks\\":0}}");
            replay.turn("{\\"do\\":\\"fire\\"}");
        } catch (Replay.Ended ended) {
            System.out.println(ended.status() + " " + ended.answers());
        }
        try (Replay replay = new Replay("/bin/cat", "/dev/stdin")) {
            replay.turn(List.of("nobody answers the mark"), 50);
        } catch (TimeoutException late) {
            System.out.println(late.getMessage());
        }
    }
}
"""

SAID = """[fault 2 BadCommand]
[new #1 Smoke]
[new #2 Smoke]
[]
[fault 5 BadJson, fire "no water" #2, fire "no water" #1]
1
4 [fire "tick" #1, fire "tick" #1, limit 2]
no answer within 50 ms
"""


@unittest.skipUnless(shutil.which("javac") and shutil.which("java"), "there is no javac on this machine")
@unittest.skipUnless(os.access(PROGRAM, os.X_OK), f"there is no program {PROGRAM}")
class Client(unittest.TestCase):
    folder: Path

    @classmethod
    def setUpClass(cls) -> None:
        folder = tempfile.TemporaryDirectory()
        cls.addClassCleanup(folder.cleanup)
        cls.folder = Path(folder.name)
        (cls.folder / "Caller.java").write_text(CALLER, encoding="utf-8")
        sources = [str(EXAMPLES / "live" / "Replay.java"), str(cls.folder / "Caller.java")]
        compiler = ["javac", "-encoding", "UTF-8", "-Xlint:all", "-Werror", "-d", folder.name]
        subprocess.run(compiler + sources, check=True)

    def java(self, *words: object, script: bytes = b"") -> subprocess.CompletedProcess[bytes]:
        command = ["java", "-cp", str(self.folder), *map(str, words)]
        return subprocess.run(command, input=script, capture_output=True, check=False)

    def test_examples_line_by_line(self) -> None:
        for name, status in RUNS.items():
            with self.subTest(name):
                rules, script, out = (EXAMPLES / f"{name}.{kind}" for kind in ("drl", "jsonl", "out"))
                done = self.java("Replay", PROGRAM, rules, script=script.read_bytes())
                self.assertEqual((done.returncode, done.stdout), (status, out.read_bytes()))

    def test_a_caller(self) -> None:
        done = self.java("Caller", PROGRAM, EXAMPLES / "smoke.drl", EXAMPLES / "endless.drl")
        self.assertEqual(done.stdout.decode("utf-8"), SAID, done.stderr.decode("utf-8"))

    def test_a_program_that_ends(self) -> None:
        script = (EXAMPLES / "endless.jsonl").read_bytes()
        limited = self.java("Replay", PROGRAM, EXAMPLES / "endless.drl", "--limit", "3", script=script)
        self.assertEqual((limited.returncode, limited.stdout.splitlines()[-1]), (4, b"limit 3"))
        missing = self.java("Replay", PROGRAM, self.folder / "none.drl")
        self.assertEqual(missing.returncode, 3)
        self.assertIn(b"refused item 0 line 0 Missing", missing.stderr)
        self.assertEqual(self.java("Replay", "/no/such/program", "rules.drl").returncode, 2)


if __name__ == "__main__":
    unittest.main()
