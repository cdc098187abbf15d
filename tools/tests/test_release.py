"""The maker of a release, its check, and who reads it, over a small clone with a build that was made up."""

from __future__ import annotations

import contextlib
import io
import os
import shutil
import subprocess
import tempfile
import unittest
from pathlib import Path
from unittest import mock

from support import TOP, tried

from sozhipen_tools.release import check, folder, make
from sozhipen_tools.release.sources import known_sum, sum_of
from sozhipen_tools.running import programs

PROGRAM = '#!/bin/sh\n[ "$1" = --version ] && exit 0\necho "the released: $*"\n'


class Releases(unittest.TestCase):
    def setUp(self) -> None:
        room = tempfile.TemporaryDirectory()
        self.addCleanup(room.cleanup)
        self.top = Path(room.name)
        (self.top / "crates.txt").write_text("a:\n", encoding="ascii")
        (self.top / "crates" / "a" / "src").mkdir(parents=True)
        (self.top / "crates" / "a" / "src" / "lib.rt").write_text("fn a() {}\n", encoding="ascii")
        (self.top / "faces" / "c").mkdir(parents=True)
        shutil.copy(TOP / "faces" / "c" / "szp.h", self.top / "faces" / "c")
        for name in folder.PROGRAMS:
            out = self.top / "crates" / f"{name}_main" / "out"
            out.mkdir(parents=True)
            for file, text in ((f"{name}_main", PROGRAM), (f"{name}_main.o", f"the object of {name}")):
                (out / file).write_text(text, encoding="ascii")
            subprocess.run(f"chmod +x {name}_main; sha256sum {name}_main > proved.sha256", shell=True, cwd=out,
                           check=True)
        for name, value in (("link_static", self.linked), ("link_library", self.linked), ("clone", lambda: self.top),
                            ("needed", lambda path: "glibc 2.34"), ("compiler", lambda: "cc"),
                            ("said", lambda *words: "the kit")):
            for module in (make, check):
                if hasattr(module, name):
                    patch = mock.patch.object(module, name, value)
                    patch.start()
                    self.addCleanup(patch.stop)

    @staticmethod
    def linked(*paths: Path) -> None:
        """Stands for the linker: what it makes has the bytes of the object file in it."""
        program, out = paths[-2:]
        out.write_bytes(b"#!/bin/sh\n# " + program.read_bytes() + b"\n")
        out.chmod(0o755)

    def run_tool(self, tool: object, *words: str) -> tuple[int, str]:
        told = io.StringIO()
        with mock.patch("sys.argv", ["tool", *words]), contextlib.redirect_stdout(told), \
                contextlib.redirect_stderr(told):
            try:
                status = tool.main()  # type: ignore[attr-defined]
            except SystemExit as ended:
                status = ended.code
        return status, told.getvalue()

    def test_a_release_and_its_check(self) -> None:
        self.assertEqual(self.run_tool(check)[0], 0)
        self.assertEqual(self.run_tool(make)[0], 0)
        self.assertEqual(self.run_tool(check), (0, "release: no byte is another\n"))
        status, told = self.run_tool(make, str(self.top / "again"))
        self.assertEqual((status, told), (0, self.run_tool(make)[1]))

    def test_a_planted_byte(self) -> None:
        self.run_tool(make)
        for path in ("release/replay", "release/libsozhipen.so", "release/szp.h", "crates/desk_main/out/desk_main",
                     "crates/desk_main/out/desk_main.o"):
            kept = (self.top / path).read_bytes()
            (self.top / path).write_bytes(kept + b"x")
            status, told = self.run_tool(check)
            self.assertEqual((status, "OTHER BYTES" in told), (1, True), path)
            (self.top / path).write_bytes(kept)
        (self.top / "crates" / "desk_main" / "out" / "desk_main.o").unlink()
        status, told = self.run_tool(check)
        self.assertEqual((status, "not compared" in told), (0, True))

    def test_other_sources(self) -> None:
        self.run_tool(make)
        self.assertEqual(folder.released("replay", self.top), self.top / "release" / "replay")
        note = self.top / "release" / "out" / "sources"
        self.assertEqual(known_sum(self.top, note), sum_of(self.top))
        (self.top / "crates" / "a" / "src" / "lib.rt").write_text("fn b() {}  \n", encoding="ascii")
        self.assertEqual(known_sum(self.top, note), sum_of(self.top))
        self.assertIsNone(folder.released("replay", self.top))
        (self.top / "crates" / "desk_main" / "out" / "desk_main").write_bytes(b"another")
        status, told = self.run_tool(check)
        self.assertEqual((status, "other sources" in told), (0, True))

    def test_a_build_that_did_not_pass(self) -> None:
        (self.top / "crates" / "desk_main" / "out" / "proved.sha256").write_text("0 desk_main\n", encoding="ascii")
        status, told = self.run_tool(make)
        self.assertEqual((status, "has not passed" in told), (2, True))
        self.assertEqual(self.run_tool(make, "--unproved")[0], 0)
        self.assertIn("build not proved\n", (self.top / "release" / folder.OF).read_text(encoding="utf-8"))

    def test_who_answers(self) -> None:
        """`./try` takes the released program, and the static one where that cannot be started."""
        self.run_tool(make)
        with mock.patch.object(programs, "fitting", lambda: folder.fitting(self.top)):
            rules = TOP / "examples" / "dear.drl"
            output, said, status = tried(rules, rules.with_suffix(".jsonl"))
            self.assertEqual((output, status), (f"the released: --mode run --limit 100000 -- {rules}\n", 0))
            self.assertIn("release/replay, proved, of these sources", said)
            sums = (self.top / "release" / folder.SUMS)
            (self.top / "release" / "replay").write_text("#!/no/such/loader\n", encoding="ascii")
            sums.write_text("".join(f"{make.sha256(self.top / 'release' / it)}  {it}\n" for it in
                                    ("replay", "replay-static")), encoding="ascii")
            program, name = programs.released_program()
            self.assertEqual((program, name), (self.top / "release" / "replay-static",
                                               "release/replay-static, proved, of these sources"))
            os.unlink(sums)
            self.assertIsNone(programs.released_program()[0])


if __name__ == "__main__":
    unittest.main()
