"""The text for Prometheus: of an image, of the counts of a client, and its form."""

from __future__ import annotations

import contextlib
import io
import json
import re
import sys
import tempfile
import unittest
from pathlib import Path
from unittest import mock

from support import TOP

from sozhipen import Session
from sozhipen_tools import metrics
from sozhipen_tools.metrics import Family, NoMetrics, of_counts, read, text_of
from sozhipen_tools.places import command_of
from sozhipen_tools.reference.images.resume import saved
from sozhipen_tools.reference.meaning.run import Run, program_or_refusal, run_on
from sozhipen_tools.reference.meaning.worlds import World

EXAMPLES = TOP / "examples"
LINE = re.compile(r'# (HELP|TYPE) \w+ .+|\w+(\{(\w+="([^"\\]|\\.)*",?)+\})? -?\d+(\.\d+)?')


def image_of(name: str) -> bytes:
    """The image behind the script of an example."""
    program = program_or_refusal((EXAMPLES / f"{name}.drl").read_bytes())
    assert not isinstance(program, str)
    state = Run(World(program), 100_000, 100_000, [])
    run_on(state, (EXAMPLES / f"{name}.jsonl").read_bytes())
    return saved(state)


class Folder(unittest.TestCase):
    def setUp(self) -> None:
        folder = tempfile.TemporaryDirectory()
        self.addCleanup(folder.cleanup)
        self.folder = Path(folder.name)

    def run_main(self, *words: object) -> tuple[int, str, str]:
        out, err = io.StringIO(), io.StringIO()
        with mock.patch.object(sys, "argv", ["metrics", *map(str, words)]):
            with contextlib.redirect_stdout(out), contextlib.redirect_stderr(err):
                return metrics.main(), out.getvalue(), err.getvalue()

    def test_an_image(self) -> None:
        image = self.folder / "fraud.image"
        image.write_bytes(image_of("fraud"))
        status, text, _ = self.run_main(image, EXAMPLES / "fraud.drl", "--label", "desk=fraud")
        self.assertEqual(status, 0)
        self.assertEqual([line for line in text.splitlines() if not LINE.fullmatch(line)], [])
        for line in ('sozhipen_clock_milliseconds{desk="fraud"} 3712000',
                     'sozhipen_script_lines_total{desk="fraud"} 46',
                     'sozhipen_firings_total{desk="fraud"} 21', 'sozhipen_faulty{desk="fraud"} 1',
                     'sozhipen_kept_facts{desk="fraud",type="Withdrawal"} 10',
                     'sozhipen_fired_matches{desk="fraud",rule="as announced"} 3',
                     'sozhipen_floor_milliseconds{desk="fraud",entry="ATM"} 3710000',
                     f'sozhipen_image_bytes{{desk="fraud"}} {image.stat().st_size}'):
            self.assertIn(line, text.splitlines())

    def test_the_last_image_of_a_folder(self) -> None:
        (self.folder / "image").mkdir()
        self.assertIn("there is no image", self.run_main(self.folder, EXAMPLES / "smoke.drl")[2])
        (self.folder / "image" / "000000000004").write_bytes(b"an older one")
        (self.folder / "image" / "000000000008").write_bytes(image_of("smoke"))
        out = self.folder / "desk.prom"
        self.assertEqual(self.run_main(self.folder, EXAMPLES / "smoke.drl", "--out", out), (0, "", ""))
        self.assertIn("sozhipen_script_lines_total 8\n", out.read_text(encoding="utf-8"))
        self.assertEqual(sorted(path.name for path in self.folder.iterdir()), ["desk.prom", "image"])

    def test_facts(self) -> None:
        image = self.folder / "fraud.image"
        image.write_bytes(image_of("fraud"))
        text = self.run_main(image, EXAMPLES / "fraud.drl", "--facts")[1]
        facts = [json.loads(line) for line in text.splitlines()]
        account = {"id": 1, "type": "Account", "entry": "DEFAULT", "fields": {"number": 7, "owner": "Ann"}}
        self.assertEqual(facts[0], account)
        self.assertEqual(len(facts), 16)

    def test_what_is_no_image_of_these_rules(self) -> None:
        image = self.folder / "image"
        for data, wrong in ((b"FXC1", "these bytes are no image"), (image_of("fraud"), "the image is of other rules")):
            image.write_bytes(data)
            with self.assertRaisesRegex(NoMetrics, wrong):
                read(image, EXAMPLES / "smoke.drl")
        self.assertEqual(self.run_main(self.folder / "none", EXAMPLES / "smoke.drl")[0], 2)

    def test_counts_of_a_client(self) -> None:
        with Session(EXAMPLES / "smoke.drl", command_of("reference.live")) as session:
            session.insert("Smoke", {"room": "hall"})
            session.insert("Smoke", {"floor": 2})
            session.at(12_001)
            session.fire().wait()
            text = text_of(of_counts(session.counts()))
        for line in ("sozhipen_clock_milliseconds 12001", "sozhipen_script_lines_total 4",
                     'sozhipen_rule_firings_total{rule="no water"} 1', 'sozhipen_faults_total{code="BadFields"} 1'):
            self.assertIn(line, text.splitlines())

    def test_texts_of_labels(self) -> None:
        families = [Family.of_each("n", "gauge", "a\\b\nc", "rule", {'say "it"\\\n': 1})]
        self.assertEqual(text_of(families, {"desk": "a"}),
                         '# HELP n a\\\\b\\nc\n# TYPE n gauge\nn{desk="a",rule="say \\"it\\"\\\\\\n"} 1\n')


if __name__ == "__main__":
    unittest.main()
