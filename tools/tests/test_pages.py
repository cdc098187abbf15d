"""What is in fences on README, the pages in docs and tools/README.md is run, and prints what the page says.

Rule files with their scripts are run by the second evaluator, and by the built program where it is there
(REPLAY_PROGRAM, and DESK_PROGRAM of `desk`, name another one); commands run in a tree of links, so that what they write
stays out of the clone.
"""

from __future__ import annotations

import os
import re
import shlex
import shutil
import subprocess
import sys
import tempfile
import unittest
from dataclasses import dataclass
from pathlib import Path
from typing import Optional

from support import DESK_PROGRAM, PROGRAM, TOP, evaluator, saves

from sozhipen_tools.places import command_of
from sozhipen_tools.reference.certificates.certify import proof_lines
from sozhipen_tools.reference.meaning.lives import life_lines
from sozhipen_tools.reference.meaning.run import program_or_refusal, report
from sozhipen_tools.stream.brokers import KINDS

IS_BUILT = os.access(PROGRAM, os.X_OK)
SAVES = saves(DESK_PROGRAM)
PATHS = [TOP / "README.md", *sorted((TOP / "docs").glob("*.md")), TOP / "tools" / "README.md"]
PAGES = {path.stem if path.parent != TOP / "tools" else "tools/README": path for path in PATHS}
FENCE = re.compile(r"^( *)```(\w*)\n(.*?)^ *```$", re.M | re.S)
LIMIT = 100_000

# Fences that no test runs, by how they begin.
NOT_RUN = {
    'rule "no water" when': "a picture of README; examples/smoke.drl is run",
    'rule "same town"': "a rule without its types; the example below it is run",
    "$sum : Number(": "two conditions without a rule",
    "clock  ": "a picture",
    "    Smoke  ": "a picture",
    "ground     fx_base": "a picture; tools/run documents.check compares it with crates.txt",
    "rt ci": "the gate",
    "replay [--mode": "the usage line",
    "desk [--limit": "the usage line",
    "crates/replay_main/out/replay_main RULES": "forms of a command",
    "python3 examples/live/keeper.py": "forms of a command; Operating runs it",
    "tools/run workbench": "the form of a command; test_workbench runs it",
    "tools/run  ": "forms of commands",
    "python3 -m pip install": "it changes the machine",
    "apt-get ": "it changes the machine",
    "=== 1 what": "the form of a case; the gate runs all cases",
    "tools/run bench.": "they take minutes; test_measure runs each tool and each load",
    "tools/run stream.measure": "they take minutes; test_stream_trial runs them",
}


@dataclass(frozen=True)
class Block:
    page: str
    number: int
    language: str
    text: str

    def begins(self, *words: str) -> bool:
        return self.text.startswith(words)


def blocks_of(page: str) -> list[Block]:
    found = enumerate(FENCE.finditer(PAGES[page].read_text(encoding="utf-8")))
    return [Block(page, k, match[2], re.sub(rf"^{match[1]}", "", match[3], flags=re.M)) for k, match in found]


BLOCKS = {page: blocks_of(page) for page in PAGES}
RULES = ("declare ", "rule ", "// ")
SCRIPT = '{"do":'
# How commands begin that import the client from a clone.
CLONE = "PYTHONPATH=tools python3 examples/live/"


def after(block: Block) -> Block:
    """The block behind this one on its page."""
    return BLOCKS[block.page][block.number + 1]


def before(block: Block) -> Optional[Block]:
    return BLOCKS[block.page][block.number - 1] if block.number else None


def triples() -> list[tuple[Block, Block, Block]]:
    """Rule files with their scripts and outputs."""
    found = []
    for blocks in BLOCKS.values():
        for rules, script, output in zip(blocks, blocks[1:], blocks[2:]):
            if rules.begins(*RULES) and script.begins(SCRIPT) and not output.begins("./try "):
                found.append((rules, script, output))
    return found


def refused_or_lives() -> list[tuple[Block, Block]]:
    """Rule files with their lives, or with their refusal."""
    return [(rules, said) for blocks in BLOCKS.values() for rules, said in zip(blocks, blocks[1:])
            if rules.begins(*RULES) and said.begins("life ", "refused ")]


class Tree:
    """Links to the clone, with the programs where its pages have them; the second evaluator is there in place of a
    `desk` that is not built."""

    def __init__(self) -> None:
        self.path = Path(tempfile.mkdtemp(prefix="pages-"))
        for entry in TOP.iterdir():
            if entry.name not in (".git", "crates"):
                (self.path / entry.name).symlink_to(entry)
        replay, desk = (self.path / "crates" / name / "out" / name for name in ("replay_main", "desk_main"))
        for place in (replay.parent, desk.parent):
            place.mkdir(parents=True)
        if IS_BUILT:
            replay.symlink_to(PROGRAM)
        desk.symlink_to(DESK_PROGRAM if SAVES else evaluator(desk.parent, "reference.desk"))

    def run(self, command: str, script: Optional[str] = None) -> subprocess.CompletedProcess[str]:
        words = ["bash", "-c", command]
        return subprocess.run(words, cwd=self.path, input=script or "", capture_output=True, text=True, check=False)

    def remove(self) -> None:
        shutil.rmtree(self.path)


class Pages(unittest.TestCase):
    def setUp(self) -> None:
        self.tree = Tree()
        self.addCleanup(self.tree.remove)

    def block(self, page: str, begin: str) -> Block:
        return next(block for block in BLOCKS[page] if block.begins(begin))

    def commands(self, page: str, begin: str, program: bool = False) -> None:
        """A block of commands prints what the next one has."""
        if program and not IS_BUILT:
            self.skipTest(f"there is no program {PROGRAM}")
        block = self.block(page, begin)
        self.assertEqual(self.tree.run(block.text).stdout, after(block).text)


class Examples(unittest.TestCase):
    def test_rule_files_with_scripts(self) -> None:
        self.assertGreaterEqual(len(triples()), 27)
        for rules, script, output in triples():
            with self.subTest(f"{rules.page}, fence {rules.number}"):
                found, _ = report(rules.text.encode(), script.text.encode(), LIMIT)
                self.assertEqual(found.decode(), output.text)
                if IS_BUILT:
                    self.assertEqual(self.by_program(rules.text, script.text), output.text)

    def by_program(self, rules: str, script: str, *words: str) -> str:
        with tempfile.TemporaryDirectory() as folder:
            file = Path(folder, "rules.drl")
            file.write_text(rules, encoding="utf-8")
            command = [PROGRAM, *words, str(file)]
            return subprocess.run(command, input=script, capture_output=True, text=True, check=False).stdout

    def test_lives_and_refusals(self) -> None:
        self.assertEqual(len(refused_or_lives()), 2)
        for rules, said in refused_or_lives():
            program = program_or_refusal(rules.text.encode())
            lines = [program] if isinstance(program, str) else life_lines(program)
            self.assertEqual("".join(line + "\n" for line in lines), said.text)
            if IS_BUILT:
                self.assertEqual(self.by_program(rules.text, "", "--mode", "lives"), said.text)

    def test_a_certificate(self) -> None:
        rules = next(block for block in BLOCKS["LIVES"] if block.begins(*RULES))
        shown = next(block for block in BLOCKS["LIVES"] if block.begins("proof "))
        program = program_or_refusal(rules.text.encode())
        assert not isinstance(program, str)
        self.assertIn(shown.text.strip(), proof_lines(program))


class Commands(Pages):
    def test_readme(self) -> None:
        self.commands("README", "./try examples/smoke.drl")

    def test_desks(self) -> None:
        block = self.block("EXAMPLES", "./try examples/fraud.drl")
        self.assertEqual(self.tree.run(block.text).stdout, (TOP / "examples" / "fraud.out").read_text(encoding="utf-8"))
        self.commands("EXAMPLES", "sed ")

    def test_command_line(self) -> None:
        if not IS_BUILT:
            self.skipTest(f"there is no program {PROGRAM}")
        for block in BLOCKS["SCRIPT"]:
            for command, said in re.findall(r"^\$ (.*)\n((?:(?!\$ ).*\n)*)", block.text, re.M):
                self.assertEqual(self.tree.run(command).stdout, said, command)

    def test_a_live_run(self) -> None:
        programs = [command_of("reference.desk"), *([[DESK_PROGRAM]] if SAVES else [])]
        blocks = [block.text for block in BLOCKS["DESK"] if block.text.startswith("> ")]
        self.assertEqual(len(blocks), 3)
        blocks[2] = blocks[0] + blocks[2]
        for block, words in zip(blocks, ([], ["--text"], ["--image"])):
            shown = block.splitlines(keepends=True)
            script = "".join(line[2:] for line in shown if line.startswith("> "))
            wanted = "".join(line for line in shown if not line.startswith("> "))
            for place, program in enumerate(programs):
                named = [f"image{place}"] if words == ["--image"] else []
                command = shlex.join([*program, "--limit", "3", *words, *named, "examples/endless.drl"])
                self.assertEqual(self.tree.run(command, script).stdout, wanted, program)

    def test_caller(self) -> None:
        if not IS_BUILT:
            self.skipTest(f"there is no program {PROGRAM}")
        block = self.block("LIVE", CLONE + "caller.py")
        done = self.tree.run(block.text)
        self.assertEqual(sorted((done.stdout + done.stderr).splitlines()), sorted(after(block).text.splitlines()))

    def test_client(self) -> None:
        self.commands("LIVE", "tools/run sozhipen ")

    def test_time_line(self) -> None:
        self.assertEqual(self.tree.run(self.block("TOOLS", "tools/run timeline").text).stderr, "")
        drawn = (self.tree.path / "page.html").read_bytes()
        self.assertEqual(drawn, (TOP / "docs" / "pictures" / "fraud.html").read_bytes())

    def test_convert(self) -> None:
        block = self.block("LIVE", CLONE + "convert.py < examples/live/withdrawals.csv > with")
        done = self.tree.run(block.text)
        self.assertEqual((done.returncode, done.stdout.count("\nfire ")), (0, 3))

    def test_lookback(self) -> None:
        self.commands("LIVE", CLONE + "convert.py < examples/live/withdrawals.csv > all", program=True)

    def test_large_rule_files(self) -> None:
        self.commands("PERFORMANCE", 'python3 -c "print(', program=True)

    def test_how_slow_the_second_evaluator_is(self) -> None:
        if not IS_BUILT:
            self.skipTest(f"there is no program {PROGRAM}")
        done = self.tree.run(self.block("TOOLS", "program=").text)
        self.assertRegex(done.stdout, r"(?s)\Abeats +\d+ lines .*\nline 6000: ", done.stderr)

    def test_coprocess(self) -> None:
        if not IS_BUILT:
            self.skipTest(f"there is no program {PROGRAM}")
        self.assertEqual(self.tree.run(self.block("LIVE", "coproc ").text).stdout, "new #1 Mark\nstatus 0\n")

    @unittest.skipUnless((TOP / "release" / "libsozhipen.so").is_file(), "there is no library in release/")
    def test_embedding(self) -> None:
        self.commands("EMBEDDING", "cc -o example")
        block = next(block for block in BLOCKS["EMBEDDING"] if block.language == "python")
        done = self.tree.run(f"PYTHONPATH=tools {sys.executable} -", block.text)
        self.assertEqual(done.stdout, after(block).text, done.stderr)

    def test_python(self) -> None:
        blocks = [block for page in ("LIVE", "OPERATING") for block in BLOCKS[page] if block.language == "python"]
        self.assertEqual(len(blocks), 4)
        for block in blocks:
            if block.begins("import json, sys, zlib"):
                continue
            done = self.tree.run(f"PYTHONPATH=tools {sys.executable} -", block.text)
            if block.page == "LIVE":
                self.assertEqual(done.stdout, after(block).text, done.stderr)
            else:
                self.assertIn('sozhipen_rule_firings_total{desk="smoke",rule="no water"} 1\n', done.stdout, done.stderr)

    @unittest.skipUnless(KINDS["redis"].server(), "there is no redis-server")
    def test_partitions(self) -> None:
        self.addCleanup(self.tree.run, "redis-cli -p 17400 shutdown nosave")
        self.commands("SCALING", "mkdir broker")

    @unittest.skipUnless(KINDS["jetstream"].server(), "there is no nats-server")
    def test_partitions_in_jetstream(self) -> None:
        done = self.tree.run(self.block("SCALING", "mkdir nats").text)
        self.assertEqual(done.stdout, after(self.block("SCALING", "mkdir broker")).text, done.stderr)

    def test_split(self) -> None:
        block = self.block("LIVE", "import json, sys, zlib")
        (self.tree.path / "split.py").write_text(block.text, encoding="utf-8")
        names = ("ada", "bea", "cyd", "dan", "eve")
        lines = [f'{{"do":"insert","type":"Login","fields":{{"user":"{name}"}}}}' for name in names]
        script = "\n".join([*lines, '{"do":"fire"}', ""])
        self.assertEqual(self.tree.run("python3 split.py user a.jsonl b.jsonl", script).returncode, 0)
        parts = [(self.tree.path / name).read_text(encoding="utf-8").splitlines() for name in ("a.jsonl", "b.jsonl")]
        self.assertEqual([part[-1] for part in parts], ['{"do":"fire"}'] * 2)
        self.assertEqual(sorted(parts[0][:-1] + parts[1][:-1]), sorted(lines))

    @unittest.skipUnless(IS_BUILT and shutil.which("javac"), "there is no program, or no javac")
    def test_java(self) -> None:
        block = next(block for block in BLOCKS["LIVE"] if block.language == "java")
        body = f"public class Page {{ public static void main(String[] words) throws Exception {{\n{block.text}}} }}\n"
        (self.tree.path / "Page.java").write_text(body, encoding="utf-8")
        done = self.tree.run("javac -d classes examples/live/Replay.java Page.java && java -cp classes Page")
        self.assertEqual(done.stdout, after(block).text, done.stderr)
        done = self.tree.run(self.block("LIVE", "java examples/live/Replay.java").text)
        self.assertEqual(done.stdout, (TOP / "examples" / "smoke.out").read_text(encoding="utf-8"))


class Operating(Pages):
    """The commands of whoever operates a desk, one after the other in one shell, over a small desk."""
    WITHDRAWALS = 60
    SEGMENT = 20
    PROGRAM = "crates/desk_main/out/desk_main"

    def stream(self) -> list[str]:
        lines = []
        for k in range(self.WITHDRAWALS):
            at = 1_796_032_800_000 + 5_000 * k
            fields = f'{{"at":{at},"card":"c{k // 2}","place":"p{k % 2}","cents":5000}}'
            insert = f'{{"do":"insert","type":"Withdrawal","entry":"ATM","fields":{fields}}}'
            lines += [f'{{"do":"at","ms":{at}}}', insert, '{"do":"fire"}']
        return [line + "\n" for line in lines]

    def keep(self, lines: list[str]) -> None:
        command = shlex.join([sys.executable, "examples/live/keeper.py", self.PROGRAM, "examples/live/withdrawals.drl",
                              "desk", "--lines", str(self.SEGMENT)])
        self.assertEqual(self.tree.run(command, "".join(lines)).stdout, "taken 0\n")

    def test_commands(self) -> None:
        lines = self.stream()
        self.keep(lines + ["x\n"])
        rules = (TOP / "examples" / "live" / "withdrawals.drl").read_text(encoding="utf-8")
        for name, text in (("new.drl", rules.replace("100000", "120000")), ("lookback.jsonl", "".join(lines[:120])),
                           ("rest.jsonl", "".join(lines[120:]))):
            (self.tree.path / name).write_text(text, encoding="utf-8")
        commands = [block.text for block in BLOCKS["OPERATING"] if not block.language and not block.begins(*NOT_RUN)]
        pruning = next(k for k, text in enumerate(commands) if 'rm "$file"' in text)
        fired = self.tree.run(self.block_of_follower() + " --once").stdout
        done = self.tree.run("".join(commands[:pruning] + commands[pruning + 1:] + [commands[pruning]]))
        self.assertEqual(done.stderr, "")
        self.assertEqual(done.stdout.splitlines().count("same"), 2)
        self.assertRegex(done.stdout, r'^{"clock":.*,"pending":0}\n{"done":192}\n +1 BadJson\n')
        self.assertIn('{"id": 5, "type": "Withdrawal"', done.stdout)
        self.assertIn("sozhipen_kept_facts", (self.tree.path / "desk.prom").read_text(encoding="utf-8"))
        answers = "".join(path.read_text() for path in sorted((self.tree.path / "desk2" / "answers").glob("[0-9]*")))
        self.assertIn('"fire":', answers)
        self.assertIn('"fire":', fired)
        self.assertEqual([path.name for path in (self.tree.path / "desk" / "answers").iterdir()], ["000000000191.part"])

    def test_follower(self) -> None:
        self.keep(self.stream())
        done = self.tree.run(self.block_of_follower() + " --once")
        self.assertEqual(done.returncode, 0, done.stderr)
        self.assertIn('"fire":', done.stdout)
        self.assertEqual(self.tree.run(self.block_of_follower() + " --once").stdout, "")

    def block_of_follower(self) -> str:
        return self.block("LIVE", "python3 examples/live/follow.py").text.strip()


class ChangingRules(Pages):
    """The rows of the page, each over images of its own, and the image that is made by replay."""

    def test_rows(self) -> None:
        files, replayed, printed = (block.text for block in BLOCKS["CHANGING-RULES"])
        page = PAGES["CHANGING-RULES"].read_text(encoding="utf-8")
        rows = [re.split(r"(?<!\\)\|", row)[1:3] for row in re.findall(r"^\|(.*\| `.* run .*)\|$", page, re.M)]
        self.assertEqual(len(rows), 10)
        self.assertEqual(self.tree.run(files).stderr, "")
        functions = "".join(line for line in files.splitlines(keepends=True) if "()" in line and "{ " in line)
        begin = files.splitlines()[0].partition(";")[0] + "\n" + functions
        for command, wanted in [(row[0].strip().strip("`").replace("\\|", "|"), re.findall("`([^`]+)`", row[1]))
                                for row in rows]:
            with self.subTest(command):
                self.assertEqual(self.tree.run(begin + command).stdout.splitlines(), wanted)
        self.assertEqual(self.tree.run(begin + replayed).stdout, printed)


class Tables(unittest.TestCase):
    """What tables say of the examples."""
    DESKS = {"The fraud desk": "fraud", "The alarm centre": "alarm", "The plant monitor": "plant",
             "The water works": "desks/water"}
    # What stands in the right column beside the forms.
    WORDS = {"exists", "fault", "DEFAULT", "HasSubtypes", "@reference", '{"do":"promise","entry":"logins","from":m+1}'}

    def test_desks_fire_what_the_tables_say(self) -> None:
        page = (TOP / "docs" / "EXAMPLES.md").read_text(encoding="utf-8")
        chapters = dict(re.findall(r"^## (.*)\n((?:(?!## ).*\n)*)", page, re.M))
        for title, name in self.DESKS.items():
            printed = (TOP / "examples" / f"{name}.out").read_text(encoding="utf-8").splitlines()
            fired = [line for line in printed if line.startswith(("fire ", "fault "))]
            self.assertEqual(re.findall(r"`((?:fire|fault) [^`]+)`", chapters[title]), fired, title)

    def test_recorded_outputs(self) -> None:
        outputs = sorted((TOP / "examples").rglob("*.out"))
        self.assertGreaterEqual(len(outputs), 15)
        for output in outputs:
            rules, script = (output.with_suffix(suffix).read_bytes() for suffix in (".drl", ".jsonl"))
            with self.subTest(output.name):
                self.assertEqual(report(rules, script, LIMIT)[0], output.read_bytes())

    def test_forms_of_other_engines_stand_in_the_examples(self) -> None:
        page = (TOP / "docs" / "COMING-FROM.md").read_text(encoding="utf-8").partition("## Accepted")[0]
        files = [path for path in (TOP / "examples" / "coming-from").iterdir() if path.suffix in (".drl", ".jsonl")]
        text = "".join(self.bare(path.read_text(encoding="utf-8")) for path in files)
        rows = [re.split(r"(?<!\\)\|", row) for row in re.findall(r"^\|(.*)\|$", page, re.M)]
        forms = [form for _, right in rows for form in re.findall(r"`([^`]+)`", self.without_advice(right))]
        self.assertGreater(len(forms), 100)
        missing = [form for form in forms if form not in self.WORDS and self.bare(form.replace("\\|", "|")) not in text]
        self.assertEqual(missing, [])

    @staticmethod
    def without_advice(cell: str) -> str:
        return re.sub(r"\*[^*`]*(?:`[^`]*`[^*`]*)*\*", "", cell)

    @staticmethod
    def bare(text: str) -> str:
        """The text without blanks and comments, and without a `;` at its end."""
        return re.sub(r"\s+", "", re.sub(r"//.*", "", text)).rstrip(";")


class All(unittest.TestCase):
    """That each fence is run by a test above, or is named as one that is not."""

    def test_each_fence(self) -> None:
        run = {(block.page, block.number) for group in triples() + refused_or_lives() for block in group}
        for page, blocks in BLOCKS.items():
            for block in blocks:
                if (page, block.number) in run or block.begins(*NOT_RUN):
                    continue
                with self.subTest(f"{page}, fence {block.number}"):
                    self.assertTrue(self.is_run(block), block.text)

    @staticmethod
    def is_run(block: Block) -> bool:
        if block.language or block.page in ("OPERATING", "CHANGING-RULES") or block.begins("proof ", "$ ", "> "):
            return True
        if block.page == "TOOLS" and block.begins("declare Scan", '{"do":"at","ms":5000}'):
            return True  # test_docs
        commands = ("./try ", "sed ", "python3 ", "PYTHONPATH=tools ", "tools/run ", "coproc ", "java ", "program=",
                    "mkdir ", "cc -o ")
        is_output = (previous := before(block)) is not None and (bool(previous.language) or previous.begins(*commands))
        return block.begins(*commands) or is_output


if __name__ == "__main__":
    unittest.main()
