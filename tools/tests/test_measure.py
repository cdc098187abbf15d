"""The loads by the second evaluator, and measuring over small programs that stand for others."""

import contextlib
import io
import os
import re
import tempfile
import unittest
from pathlib import Path
from random import Random
from typing import Callable
from unittest import mock

from support import evaluator

from sozhipen_tools.bench import costs, measure, parts, rule_files, soak, unproved
from sozhipen_tools.bench.loads import FIRE
from sozhipen_tools.bench.sharing import LOADS

# Loads that are to fire nothing, such as do not in 200 lines, and in how many lines some of these do.
NEVER = {"bare", "blank", "clocks", "skewed", "pile", "retracted", "cascade", "expiring", "burst", "burst_life",
         "strangers", "strangers_one", "many_nots", "many_nots_one", "kept_two", "kept_six", "kept_join_two",
         "kept_join_six", "kept_not_two", "kept_not_six", "kept_event_two", "kept_event_six", "kept_event_join_six",
         "kept_event_sum_six", "joined_stream", "long_texts", "not_of_one_key", "hour_count", "hour_sum", "hour_min",
         "hour_max", "hour_average", "length_10", "length_10000", "length_min"}
SELDOM = {"churn", "wide", "wide_one", "texts", "fields", "sums", "lengths", "forgetful", "forgetful_one", "rules_1",
          "rules_10", "rules_50", "rules_250", "beats", "fields2", "fields8", "fields16", "fields32", "joins_64",
          "joins_256", "coincides_by_key", "finishes_by_key", "finishedby_by_key", "metby_by_key", "starts_by_key",
          "startedby_by_key", "startedby_alone", "right_shared", "right_timed", "right_tallies", "ranges"}
LONGER = {"churn": 800, "wide": 400, "forgetful": 600, "beats": 900, "ranges": 400}

CLIPS = """grep -c . < "$(sed -n 's/^(load-facts "\\(.*\\)")$/\\1/p' "$2")" > counted
while read -r facts; do for fact in $(seq "$facts"); do echo "fire $fact"; done; done < counted
"""
VALGRIND = 'echo "==1== Collected : $(( 1000 + 5 * $(wc -l) ))" >&2'


class Case(unittest.TestCase):
    def setUp(self) -> None:
        folder = tempfile.TemporaryDirectory()
        self.addCleanup(folder.cleanup)
        self.folder = Path(folder.name)
        path = mock.patch.dict(os.environ, {"PATH": f"{self.folder}{os.pathsep}{os.environ['PATH']}"})
        path.start()
        self.addCleanup(path.stop)
        measure.adopt_orphans()

    def program(self, name: str, commands: str) -> str:
        file = self.folder / name
        file.write_text(f"#!/bin/sh\n{commands}\n", encoding="utf-8")
        file.chmod(0o755)
        return str(file)

    def evaluator(self) -> str:
        return str(evaluator(self.folder, "reference.replay"))

    def told(self, *words: object) -> tuple[int, str]:
        """The status and the output of a call."""
        with contextlib.redirect_stdout(io.StringIO()) as out:
            status = measure.main([*map(str, words)])
        return status, out.getvalue()

    def refused(self, *words: object) -> str:
        with contextlib.redirect_stderr(io.StringIO()) as err, self.assertRaises(SystemExit) as ended:
            measure.main([*map(str, words)])
        self.assertEqual(ended.exception.code, 2)
        return err.getvalue().splitlines()[-1]


class Loads(Case):
    def fired(self, name: str, n: int) -> int:
        files = measure.written(self.folder, name, n)
        spent = measure.ran(measure.program_words(self.evaluator(), files), files.script, self.folder)
        self.assertEqual(spent.status, 0, (self.folder / "printed").read_text(encoding="utf-8")[:200])
        return spent.fired

    def test_images_of_the_evaluator(self) -> None:
        status, told = self.told("--replay", self.evaluator(), "--runs", "1", "--images", "inserts:40")
        self.assertEqual(status, 0)
        self.assertRegex(told,
                         r"  saved in -?\d+\.\d{3} s, peak \d\.\d\d  image 0\.0 MiB  resumed in \d+\.\d{3} s, peak "
                         r"\d\.\d\d\n")

    def test_each_is_accepted_and_fires(self) -> None:
        for name in LOADS:
            with self.subTest(name):
                fired = self.fired(name, 200)
                self.assertEqual(fired == 0, name in NEVER or name in SELDOM)

    def test_seldom_ones_fire_in_longer_scripts(self) -> None:
        for name, n in LONGER.items():
            with self.subTest(name):
                self.assertGreater(self.fired(name, n), 0)

    def test_scripts_have_about_so_many_lines_each_time_the_same(self) -> None:
        for name, make in LOADS.items():
            with self.subTest(name):
                lines = list(make(1000, Random(7)).script)
                self.assertTrue(900 <= len(lines) <= 1000, len(lines))
                self.assertEqual(list(make(1000, Random(7)).script), lines)

    def test_small_ones_are_written(self) -> None:
        for name in LOADS:
            self.assertGreater(measure.written(self.folder, name, 10).lines, 5, name)

    def test_twins_have_a_rule_for_each_rule_or_alternatives(self) -> None:
        for name, make in LOADS.items():
            made = make(10, Random(7))
            if made.clips:
                self.assertEqual(made.clips.count("(defrule "), made.rules.count('rule "'), name)
                self.assertEqual(made.clips.count("("), made.clips.count(")"), name)

    def test_alternatives_fire_as_those_by_hand(self) -> None:
        scripts = [list(LOADS[name](300, Random(7)).script) for name in ("alternatives", "alternatives_by_hand")]
        self.assertEqual(*scripts)
        self.assertEqual(self.fired("alternatives", 300), self.fired("alternatives_by_hand", 300))

    def test_pending_ones_fire_near_the_beginning_and_at_the_end(self) -> None:
        lines = list(LOADS["endless_pending"](1000, Random(7)).script)
        self.assertEqual([place for place, text in enumerate(lines) if text == FIRE], [50, len(lines) - 1])


class Measuring(Case):
    def test_rows(self) -> None:
        status, out = self.told("--replay", self.evaluator(), "--runs", 1, "--folder", self.folder / "files",
                                "inserts:100,200", "pairs:100")
        self.assertEqual(status, 0)
        rows = out.splitlines()
        self.assertRegex(rows[0], r"^inserts +100 lines  \d+\.\d{3} s  [\d.]+ µs/line  [\d.]+ MiB  [\d,]+ B/line  "
                                  r"fired \d+$")
        self.assertRegex(rows[1], r"^inserts +200 lines .* fired 15  growth \d\.\d\d$")
        self.assertRegex(rows[2], r"^pairs +\d+ lines .* fired \d+$")
        self.assertTrue({"inserts.drl", "inserts.100.jsonl", "inserts.200.jsonl",
                         "pairs.drl"} <= set(os.listdir(self.folder / "files")))

    def test_peak_is_the_programs_own(self) -> None:
        files = measure.written(self.folder, "inserts", 10)
        self.assertLess(measure.ran([self.program("small", "exit 0")], files.script, self.folder).mebibytes, 8)

    def test_beside_clips(self) -> None:
        self.program("clips", CLIPS)
        words = ("--runs", 2, "--clips", "--replay")
        every = self.program("every", "grep insert | sed 's/^/fire /'")
        status, out = self.told(*words, every, "inserts:50", "pairs:50")
        self.assertEqual(status, 0)
        self.assertRegex(out.splitlines()[0],
                         r"fired 49  \| CLIPS \d+\.\d{3} s  [\d.]+ MiB  fired 49(  ratio [\d.]+)?$")
        self.assertNotIn("CLIPS", out.splitlines()[1])
        status, out = self.told(*words, self.evaluator(), "inserts:50")
        self.assertEqual(status, 1)
        self.assertIn("MiB  fired 49, not as often", out)

    def test_instructions_are_of_the_lines_alone(self) -> None:
        self.program("valgrind", VALGRIND)
        status, out = self.told("--runs", 1, "--callgrind", "--replay", self.program("none", "exit 0"), "join:100")
        self.assertEqual((status, re.findall(r"[\d,]+ instructions/line", out)), (0, ["5 instructions/line"]))

    def test_beside_json(self) -> None:
        status, out = self.told("--runs", 1, "--json", "--replay", self.program("none", "exit 0"), "join:100")
        self.assertEqual(status, 0)
        self.assertRegex(out, r"fired 0  json\.loads \d+\.\d{3} s\n$")

    def test_latency(self) -> None:
        live = str(evaluator(self.folder, "reference.live"))
        status, out = self.told("--runs", 1, "--latency", "--replay", live, "pairs:60")
        self.assertEqual(status, 0)
        self.assertRegex(out,
                         r"p50 [\d.]+ µs  p99 [\d.]+ µs  p99\.9 [\d.]+ µs  worst [\d.]+ µs \(line \d+\)  a mark alone "
                         r"[\d.]+ µs\n$")
        with self.assertRaisesRegex(SystemExit, "the program ended"):
            self.told("--runs", 1, "--latency", "--replay", self.program("none", "exit 0"), "pairs:60")

    def test_lines_of_a_file_are_clocked(self) -> None:
        status, out = self.told("--runs", 1, "--lines", "--replay", self.evaluator(), "pairs:60")
        self.assertEqual(status, 0)
        self.assertRegex(out,
                         r"  from a file p50 [\d.]+ µs  p99 [\d.]+ µs  p99\.9 [\d.]+ µs  worst [\d.]+ µs \(line "
                         r"\d+\)\n$")

    def test_a_bad_end_is_told(self) -> None:
        status, out = self.told("--runs", 1, "--replay", self.program("none", "exit 3"), "pairs:60")
        self.assertEqual((status, out.split("fired ")[1]), (1, "0  status 3\n"))

    def test_list(self) -> None:
        status, out = self.told("--list")
        self.assertEqual((status, [row.split()[0] for row in out.splitlines()]), (0, list(LOADS)))
        self.assertTrue(all(re.search(r"\S +\S.*\.$", row) for row in out.splitlines()))

    def test_wrong_words(self) -> None:
        there = ("--replay", self.evaluator())
        self.assertIn("no load insert: --list tells them", self.refused(*there, "insert:100"))
        self.assertIn("NAME:LINES", self.refused(*there, "inserts:"))
        self.assertIn("NAME:LINES", self.refused(*there, "inserts:0,2"))
        self.assertIn("no such program: gone", self.refused("--replay", "gone", "inserts:100"))
        self.assertIn("--list, or --replay PROGRAM", self.refused(*there))
        self.assertIn("--list, or --replay PROGRAM", self.refused(*there, "--runs", "0", "inserts:100"))


class Soaks(Case):
    def soaked(self, desk: object) -> tuple[int, str]:
        with contextlib.redirect_stdout(io.StringIO()) as out:
            status = soak.main(["--desk", str(desk), "--lines", "60", "--every", "20", "--load", "pairs"])
        return status, out.getvalue()

    def test_lines_and_saves_are_told(self) -> None:
        status, out = self.soaked(evaluator(self.folder, "reference.desk"))
        self.assertEqual(status, 0, out)
        self.assertRegex(out, r"^without saves: \d+ lines, [\d.]+ s, status 1\n  a line: p50 ")
        self.assertRegex(out, r"with saves: \d+ lines, [\d.]+ s, status 0\n  a line: p50 ")
        self.assertRegex(out, r"  a save: p50 .* 2 told, image [\d.]+ MiB\n$")

    def test_a_save_that_is_not_told_is_seen(self) -> None:
        evaluates = evaluator(self.folder, "reference.desk")
        self.assertEqual(self.soaked(self.program("forgetful", f"{evaluates} \"$@\" | LD_PRELOAD= grep -v saved"))[0], 1)


class Costs(Case):
    def told_by(self, main: Callable[[list[str]], int], *words: str) -> list[str]:
        with contextlib.redirect_stdout(io.StringIO()) as out:
            self.assertEqual(main([*words]), 0)
        return out.getvalue().splitlines()

    def test_microseconds(self) -> None:
        rows = self.told_by(costs.main, "--replay", self.program("none", "exit 0"), "--runs", "1", "--scale", "0.001")
        self.assertEqual(len(rows), len(costs.COSTS) + len(costs.KEPT) + 1)
        self.assertRegex(rows[2], r"^a line that matches nothing +\d+\.\d{3} µs  json\.loads [\d.]+ µs  "
                                  r"\(bare, 150 lines\)$")
        self.assertRegex(rows[8], r"^a rule more on one stream, an event +-?\d+\.\d{3} µs  "
                                  r"\(rules_50 less rules_1, 15 lines\)$")
        self.assertRegex(rows[-2], r"^a kept fact of six fields, three of them texts +-?[\d,]+ B  "
                                   r"\(kept_six, 100 facts\)$")
        self.assertRegex(rows[-1], r"^an image of 500 facts, a fact: saved -?[\d.]+ µs, resumed [\d.]+ µs, 0 B$")

    def test_instructions(self) -> None:
        self.program("valgrind", VALGRIND)
        rows = self.told_by(costs.main, "--replay", self.program("none", "exit 0"), "--callgrind", "--scale", "0.05")
        self.assertEqual(len(rows), len(costs.COSTS))
        self.assertRegex(rows[2], r"^a line that matches nothing +5 instructions  \(bare, 100 lines\)$")
        self.assertRegex(rows[8], r" 0 instructions  \(rules_50 less rules_1, 100 lines\)$")

    def test_each_load_of_a_cost_is_there(self) -> None:
        named = {name for cost in costs.COSTS for name in (cost.load, cost.beside) if name} | set(costs.KEPT.values())
        self.assertLessEqual(named, set(LOADS))

    def test_rule_files(self) -> None:
        names = [f"{name}:{8}" for name in rule_files.FILES]
        rows = self.told_by(rule_files.main, "--replay", self.evaluator(), "--runs", "1", *names)
        self.assertEqual([row.split()[:2] for row in rows],
                         [[name, number] for name in rule_files.FILES for number in ("4", "8")])
        self.assertEqual([row.split()[8] for row in rows[1::2]],
                         ["accepted"] * 2 + ["refused"] * 2 + ["accepted"] * 6 + ["refused"] * 2)

    def test_libraries_are_counted_to_the_crates_that_call_them(self) -> None:
        text = """fn=(1) session::step|3 10|cfn=(2) std::list::push'2|calls=1 0|4 30|fn=(2)|1 20|cfn=(3) malloc
                  calls=2 0|1 12|fn=(3)|1 12|fn=(4) agenda::take|1 5|cfn=(2)|calls=1 0|4 10|fn=(5) main|1 7"""
        profile = parts.profile_of(line.strip() for part in text.splitlines() for line in part.split("|"))
        self.assertEqual(parts.by_crate(profile, {"session", "agenda"}),
                         {"session": 10 + 15 + 9, "agenda": 5 + 5 + 3, "": 7})

    def test_a_module_without_its_checks(self) -> None:
        kept = ["define i64 @f(i64 %0) #0 {\n", '  call void @llvm.memset.p0.i64(ptr %0, i8 0, i64 8, i1 false)\n',
                '  call void @"rattle-llvm-checks::Unreachable"()\n', "  unreachable\n", "}\n"]
        dropped = ["  call void @llvm.memset.p0.i64(ptr %0, i8 -86, i64 8, i1 false)\n", "  call void @llvm.trap()\n",
                   '  call void @"rattle-llvm-checks::Overflow"(i64 3)\n']
        attributes = 'attributes #0 = { nounwind%s%s"target-cpu"="x86-64" }\n'
        told = list(unproved.without_checks([*kept[:2], *dropped, *kept[2:],
                                             attributes % (" sanitize_address", ' "frame-pointer"="all" ')]))
        self.assertEqual(told, [*kept, attributes % ("", " ")])
        alone = unproved.without_checks(["attributes #8 = { sanitize_address }\n"])
        self.assertEqual(list(alone), ['attributes #8 = { "unwatched" }\n'])

    def test_whole_rule_files_have_at_most_a_mebibyte(self) -> None:
        for name, (number, text) in rule_files.FILES.items():
            self.assertLessEqual(len(text(number).encode()), rule_files.MOST_BYTES, name)

    def test_a_check_that_takes_too_long_is_ended(self) -> None:
        endless = self.program("endless", "while :; do :; done")
        rows = self.told_by(rule_files.main, "--replay", endless, "--runs", "1", "--seconds", "1", "imports:2")
        self.assertTrue(all(row.endswith("  ended after 1 s") for row in rows), rows)


if __name__ == "__main__":
    unittest.main()
