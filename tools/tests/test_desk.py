"""The second evaluator of a desk: what its lines are, when they are there, its images, and the comparer of desks."""

from __future__ import annotations

import json
import os
import select
import shlex
import subprocess
import tempfile
import unittest
from pathlib import Path
from typing import Any, Optional

from support import TOP, evaluator

from sozhipen_tools.pipes import pipe
from sozhipen_tools.places import command_of
from sozhipen_tools.reference.desk import desk_at_start
from sozhipen_tools.reference.generators.generate import case_of, lives_case_of, shared_case_of
from sozhipen_tools.reference.meaning.run import program_or_refusal, run, run_on

DESK = command_of("reference.desk")
ENDLESS = (TOP / "examples" / "endless.drl").read_text(encoding="utf-8")

INSERT = '{"do":"insert","type":"Clock","fields":{"ticks":0}}'
# By the line of a script under the limit 3, which each `fire` has for itself, what it answers as text.
LIMITS = [(INSERT, ["new #1 Clock"]),
          ('{"do":"fire"}', ['fire "tick" #1'] * 3 + ["limit 2 3"]),
          ('{"do":"fire","max":1}', ['fire "tick" #1']),
          ('{"do":"fire","max":3}', ['fire "tick" #1'] * 3),
          ('{"do":"fire","max":4}', ['fire "tick" #1'] * 3 + ["limit 5 3"])]

ITEMS = """
declare Item price : long stock : long note : String end
declare Order cents : long end
rule "dear" when $i : Item( price > 10, stock > 0 ) then modify( $i ) { stock = 0 } end
rule "sum" when $n : Number( longValue > 5 ) from accumulate( Order( $c : cents ), sum( $c ) )
  Order( cents == 9 ) then insert( new Order( 9223372036854775807 + $n ) ); end
"""
LEAST = -2 ** 63
TEXT = 'a"b\\\n\u0001\u007f\u00e9'


def item(price: int, note: str) -> dict[str, Any]:
    return {"price": price, "stock": 4, "note": note}


# By the line of a script what it answers, but for the number of the line and what closes it.
ANSWERS: list[tuple[Any, list[dict[str, Any]]]] = [
    ({"do": "insert", "type": "Item", "fields": item(11, TEXT)},
     [{"new": 1, "type": "Item", "fields": item(11, TEXT)}]),
    ("", []),
    ("x" * 70_000, [{"fault": "LineLong"}]),
    ({"do": "fire"}, [{"at": 0, "fire": "dear", "results": [],
                       "facts": [{"id": 1, "name": "$i", "type": "Item", "fields": item(11, TEXT)}]},
                      {"modified": 1, "type": "Item", "fields": {**item(11, TEXT), "stock": 0}}]),
    ({"do": "modify", "type": "Item", "id": 1, "fields": {"price": LEAST}},
     [{"modified": 1, "type": "Item", "fields": {"price": LEAST, "stock": 0, "note": TEXT}}]),
    ({"do": "facts", "type": "Item"},
     [{"fact": 1, "type": "Item", "fields": {"price": LEAST, "stock": 0, "note": TEXT}}]),
    ({"do": "facts", "type": "Nope"}, [{"fault": "UnknownType"}]),
    ({"do": "retract", "type": "Item", "id": 1}, [{"retracted": 1, "type": "Item"}]),
    ({"do": "retract", "type": "Item", "id": 1}, [{"fault": "Absent"}]),
    ({"do": "insert", "type": "Order", "fields": {"cents": 9}}, [{"new": 2, "type": "Order", "fields": {"cents": 9}}]),
    ({"do": "counts"}, [{"clock": 0, "counts": {"Item": 0, "Order": 1}, "firings": 1, "floors": {"DEFAULT": 0},
                         "pending": 1}]),
    ({"do": "fire"}, [{"at": 0, "fire": "sum", "results": [{"name": "$n", "value": 9}],
                       "facts": [{"id": 2, "type": "Order", "fields": {"cents": 9}}]}, {"fault": "Overflow"}]),
    ({"do": "save"}, [{"fault": "BadCommand"}])]

# Within 10 s no Sprinkler: an event waits in the image; "twice" has fired.
WAITING = """
declare Smoke @role( event ) room : long end
declare Sprinkler @role( event ) room : long end
rule "no water" when $s : Smoke( $r : room ) not( Sprinkler( room == $r, this after[0s,10s] $s ) ) then end
rule "twice" when Smoke( $r : room ) Smoke( room == $r ) then end
"""


def written(line: Any) -> str:
    return (line if isinstance(line, str) else json.dumps(line)) + "\n"


class Case(unittest.TestCase):
    def setUp(self) -> None:
        folder = tempfile.TemporaryDirectory()
        self.addCleanup(folder.cleanup)
        self.folder = Path(folder.name)

    def write(self, text: str, name: str = "rules.drl") -> str:
        (self.folder / name).write_text(text, encoding="utf-8")
        return name

    def ran(self, *words: str, script: str = "", tool: str = "reference.desk") -> tuple[bytes, int]:
        done = subprocess.run([*command_of(tool), *words], cwd=self.folder, input=script.encode(),
                              stdout=subprocess.PIPE, check=False)
        return done.stdout, done.returncode

    def lines(self, *words: str, script: str = "") -> tuple[list[str], int]:
        output, status = self.ran(*words, script=script)
        return output.decode().split("\n")[:-1], status


class Answers(Case):
    def test_each_fire_line_has_the_limit_for_itself(self) -> None:
        self.write(ENDLESS)
        script = "".join(line + "\n" for line, _ in LIMITS)
        wanted = [told for n, (_, lines) in enumerate(LIMITS, 1) for told in [*lines, f"done {n}"]]
        self.assertEqual(self.lines("--limit", "3", "--text", "rules.drl", script=script), (wanted, 0))
        told, status = self.lines("--limit", "3", "rules.drl", script=script)
        self.assertEqual([line for line in told if '"limit"' in line or '"fired"' in line], [
            '{"limit":3,"line":2}', '{"done":2,"fired":3,"pending":true}', '{"done":3,"fired":1,"pending":true}',
            '{"done":4,"fired":3,"pending":true}', '{"limit":3,"line":5}', '{"done":5,"fired":3,"pending":true}'])
        self.assertEqual(status, 0)

    def test_objects(self) -> None:
        self.write(ITEMS)
        told, status = self.lines("rules.drl", script="".join(written(line) for line, _ in ANSWERS))
        wanted: list[dict[str, Any]] = []
        for number, (line, answers) in enumerate(ANSWERS, 1):
            fires = sum("fire" in answer for answer in answers)
            closing = {"fired": fires, "pending": False} if line == {"do": "fire"} else {}
            wanted += [{**answer, "line": number} for answer in answers] + [{"done": number, **closing}]
        self.assertEqual([json.loads(line) for line in told], wanted)
        self.assertEqual(status, 1)

    def test_bytes(self) -> None:
        self.write(ITEMS)
        told, _ = self.lines("rules.drl", script=written({"do": "insert", "type": "Item", "fields": item(LEAST, TEXT)}))
        self.assertEqual(told[0], r'{"fields":{"note":"a\"b\\\n\u0001' + '\u007f\u00e9","price":-9223372036854775808,'
                                  '"stock":4},"line":1,"new":1,"type":"Item"}')

    def test_a_pending_match_has_the_fields_of_an_event_past_its_life(self) -> None:
        self.write(WAITING)
        script = [{"do": "insert", "type": "Smoke", "fields": {"room": 7}}, {"do": "at", "ms": 60_000}, {"do": "held"},
                  {"do": "fire", "max": 2}, {"do": "facts"}]
        told, _ = self.lines("rules.drl", script="".join(map(written, script)))
        fired = [json.loads(line) for line in told if '"fire"' in line]
        self.assertEqual([fact["fields"] for firing in fired for fact in firing["facts"]], [{"room": 7}] * 3)
        self.assertEqual(told[3], '{"count":1,"held":"Smoke","line":3}')

    def test_what_an_event_that_is_gone_answers(self) -> None:
        self.write("declare Smoke @role( event ) @expires( 1s ) end rule r when Smoke() then end")
        script = [{"do": "insert", "type": "Smoke", "fields": {}}, {"do": "at", "ms": 1_000},
                  {"do": "retract", "type": "Smoke", "id": 1}]
        told, status = self.lines("rules.drl", script="".join(map(written, script)))
        self.assertEqual((told[-2:], status), (['{"line":3,"retracted":1,"type":"Smoke"}', '{"done":3}'], 0))

    def test_what_actions_answer(self) -> None:
        self.write("declare Smoke @role( event ) room : long end declare Item price : long end "
                   "rule twice salience 1 when $s : Smoke( $r : room ) then retract( $s ); retract( $s ); "
                   "insert( new Item( $r + 1 ) ); end "
                   "rule gone when $i : Item( price > 1 ) then retract( $i ); retract( $i ); end")
        script = [{"do": "insert", "type": "Smoke", "fields": {"room": 7}}, {"do": "fire"}]
        told, status = self.lines("rules.drl", script="".join(map(written, script)))
        self.assertEqual((told[3:6], status), ([
            '{"line":2,"retracted":1,"type":"Smoke"}', '{"line":2,"retracted":1,"type":"Smoke"}',
            '{"fields":{"price":8},"line":2,"new":2,"type":"Item"}'], 1))
        self.assertEqual(told[7:], ['{"line":2,"retracted":2,"type":"Item"}', '{"fault":"Absent","line":2}',
                                    '{"done":2,"fired":2,"pending":false}'])


def line_of(members: dict[str, Any]) -> Optional[str]:
    """The line of the program `replay` for what an object says, where it has one."""
    if "new" in members:
        return f"new #{members['new']} {members['type']}"
    if "fault" in members:
        return f"fault {members['line']} {members['fault']}"
    if "held" in members:
        return f"held {members['held']} {members['count']}"
    return None


class Random(unittest.TestCase):
    def test_objects_and_text_say_what_a_run_prints(self) -> None:
        for case in [make(seed) for seed in range(12) for make in (case_of, lives_case_of, shared_case_of)]:
            program = program_or_refusal(case.rules)
            if isinstance(program, str):
                continue
            printed = run(program, case.script, 100_000).lines
            text, objects = (desk_at_start(program, 100_000, as_text, None, None) for as_text in (True, False))
            for state in (text, objects):
                run_on(state, case.script)
            self.assertEqual([line for line in text.lines if not line.startswith("done ")], printed)
            told = [line_of(members) or f'fire {len(members["facts"])} {len(members["results"])}'
                    for members in map(json.loads, objects.lines) if line_of(members) or "fire" in members]
            self.assertEqual(told, [f"fire {line.count(' #')} {line.count(' =')}" if line.startswith("fire ") else line
                                    for line in printed])


# What is written to a desk, and what is there before more is written.
PIECES = [(b'{"do":"held"}\n', b"done 1\n"),
          (b'{"do":"in', b""),
          (b'sert","type":"Clock","fields":{"ticks":0}}\n{"do"', b"new #1 Clock\ndone 2\n"),
          (b':"fire","max":1}\n' + b"x" * 70_000, b'fire "tick" #1\ndone 3\n'),
          (b"\n\nlast", b"fault 4 LineLong\ndone 4\ndone 5\n")]


class Pipe(Case):
    def test_each_line_is_answered_before_more_is_read(self) -> None:
        self.write(ENDLESS)
        process = subprocess.Popen([*DESK, "--text", "rules.drl"], cwd=self.folder, stdin=subprocess.PIPE,
                                   stdout=subprocess.PIPE, bufsize=0)
        into, out = pipe(process.stdin), pipe(process.stdout)
        for piece, wanted in PIECES:
            into.write(piece)
            told = b""
            while len(told) < len(wanted):
                told += out.read(len(wanted) - len(told)) or b"(the end)"
            self.assertEqual(told, wanted)
            self.assertEqual(select.select([out], [], [], 0.1)[0], [])
        told, _ = process.communicate()
        self.assertEqual((told, process.returncode), (b"fault 6 BadJson\ndone 6\n", 1))


class Images(Case):
    def at_room(self, ms: int, room: int) -> str:
        return written({"do": "at", "ms": ms}) + written({"do": "insert", "type": "Smoke", "fields": {"room": room}})

    def test_a_line_that_saves(self) -> None:
        """The file is the image of the lines up to this one, and what goes on from it is what follows here."""
        self.write(WAITING)
        first = self.at_room(5, 1) + written({"do": "fire"})
        rest = self.at_room(3_000, 1) + written({"do": "fire"}) + written({"do": "at", "ms": 20_000}) + written(
            {"do": "fire"})
        whole, _ = self.lines("--text", "--image", "whole", "rules.drl", script=first + '{"do":"save"}\n' + rest)
        saved = whole.index("saved 4")
        self.assertEqual(whole[:saved], ["done 1", "new #1 Smoke", "done 2", 'fire "twice" #1 #1', "done 3"])
        self.assertIn('fire "no water" #1', whole[saved:])
        up_to, _ = self.ran("--mode", "save", "rules.drl", script=first + "\n", tool="reference.replay")
        self.assertEqual(self.lines("--text", "--image", "part", "rules.drl", script=first + '{"do":"save"}\n')[1], 0)
        self.assertEqual((self.folder / "part").read_bytes(), up_to)
        told, status = self.lines("--text", "--image", "part", "rules.drl", script=rest)
        self.assertEqual((told, status), (whole[saved + 2:], 0))
        self.assertEqual((self.folder / "part").read_bytes(), (self.folder / "whole").read_bytes())

    def test_its_file_is_there_when_the_line_is_answered(self) -> None:
        self.write(ENDLESS)
        process = subprocess.Popen([*DESK, "--image", "image", "rules.drl"], cwd=self.folder, stdin=subprocess.PIPE,
                                   stdout=subprocess.PIPE, bufsize=0)
        pipe(process.stdin).write(f'{INSERT}\n{{"do":"save"}}\n'.encode())
        told = b""
        while not told.endswith(b'{"done":2}\n'):
            told += pipe(process.stdout).read(1 << 16)
        self.assertTrue(told.endswith(b'\n{"line":2,"saved":true}\n{"done":2}\n'), told)
        image = (self.folder / "image").read_bytes()
        process.kill()
        process.communicate()
        up_to, _ = self.ran("--mode", "save", "rules.drl", script=f"{INSERT}\n\n", tool="reference.replay")
        self.assertEqual(image, up_to)

    def test_refused_and_not_saved(self) -> None:
        self.write(ENDLESS)
        (self.folder / "spoilt").write_bytes(b"FXC1")
        self.assertEqual(self.ran("--image", "spoilt", "rules.drl"), (b"refused checkpoint BadImage\n", 9))
        self.assertEqual(self.ran("--image", "gone/image", "rules.drl", script='{"do":"save"}\n'), (b"", 6))
        self.assertEqual(self.ran("--image", "gone/image", "rules.drl", script="\n"), (b'{"done":1}\n', 6))
        self.assertEqual((self.folder / "spoilt").read_bytes(), b"FXC1")


class Words(Case):
    def test_statuses(self) -> None:
        self.write(ENDLESS)
        self.write("rule", "bad.drl")
        usage = (b"usage: desk [--limit N] [--image NAME] [--keep RULES2] [--text] RULES\n", 2)
        for words in ("", "--limit 0 rules.drl", "--text=1 rules.drl", "--text --text rules.drl",
                      "--mode run rules.drl", "rules.drl rules.drl", "--image"):
            self.assertEqual(self.ran(*words.split()), usage, words)
        self.assertEqual(self.ran("gone.drl"), (b"refused item 0 line 0 Missing\n", 3))
        self.assertEqual(self.ran("bad.drl", script="\n"), (b"refused item 1 line 1 Syntax\n", 3))
        self.assertEqual(self.ran("."), (b"", 5))

    def test_nobody_reads(self) -> None:
        self.write(ENDLESS)
        process = subprocess.Popen([*DESK, "--image", "image", "rules.drl"], cwd=self.folder, stdin=subprocess.PIPE,
                                   stdout=subprocess.PIPE)
        pipe(process.stdout).close()
        pipe(process.stdin).write(b"\n")
        pipe(process.stdin).close()
        self.assertEqual(process.wait(), 6)
        self.assertFalse((self.folder / "image").exists())


class Comparer(Case):
    def compared(self, program: str, *words: str) -> tuple[str, int]:
        output, status = self.ran(program, *words, tool="reference.comparers.desk")
        return output.decode(), status

    def program(self, name: str, commands: str) -> str:
        file = self.folder / name
        file.write_text(f"#!/bin/sh\n{commands}\n", encoding="utf-8")
        file.chmod(0o755)
        return str(file)

    def test_the_evaluator_is_as_the_evaluator(self) -> None:
        told, status = self.compared(str(evaluator(self.folder, "reference.desk")), "--seeds", "0", "4")
        self.assertEqual(status, 0, told)
        self.assertRegex(told, r"^4 of 4 seeds agreed: \d+ runs, [1-9]\d* images, \d{4,} bytes\n$")

    def test_another_byte(self) -> None:
        other = self.program("other", shlex.join(DESK) + """ "$@" | sed -u 's/"new":2/"new":3/'""")
        told, status = self.compared(other, "--seeds", "0", "1")
        self.assertEqual(status, 1)
        self.assertIn('"new":2,"type":"T0"}\', the program', told)

    def test_an_answer_that_comes_late(self) -> None:
        late = self.program("late", "cat > late; " + shlex.join(DESK) + ' "$@" < late')
        told, status = self.compared(late, "--seeds", "0", "1", "--seconds", "1")
        self.assertEqual(status, 1)
        self.assertTrue(os.path.exists(self.folder / "reference-failures" / "0" / "part1.jsonl"))


if __name__ == "__main__":
    unittest.main()
