"""The client over the second evaluator, and over small programs that stand for others."""

import io
import json
import subprocess
import sys
import tempfile
import unittest
from pathlib import Path
from typing import Any, Union

from support import TOP, evaluator, with_packages

from sozhipen import Ended, Fact, NoProgram, NotKnown, Ordered, Session, date_of, milliseconds
from sozhipen_tools.places import command_of

LIVE = command_of("reference.live")
EXAMPLES = TOP / "examples"

BILLS = """declare Order number : long cents : long paid : boolean end
declare Bill number : long cents : long end
rule "bill" salience 5 when $o : Order( $n : number, $c : cents, paid == false ) then
  insert( new Bill( $n, ( $c + 3 ) * 2 ) ); modify( $o ) { paid = true, cents = $c - 1 }
end
rule "gone" when $o : Order( paid == true ) $b : Bill( number == $o.number, $due : cents ) then
  retract( $o ); retract( $b ); modify( $o ) { cents = 0 }
end
"""
READINGS = """declare Reading @role( event ) @timestamp( at ) at : long value : long end
declare Limit value : long end
declare entry-point "plant" @lateness( 2s ) end
rule "rise" when
  $a : Reading( $v : value ) from entry-point "plant"
  Reading( value > $v, this after[1ms,10s] $a ) from entry-point "plant"
then end
rule "many" when accumulate( Reading( $x : value ) over window:time( 1m ) from entry-point "plant";
  $n : count( $x ); $n > 2 ) then end
"""


# A program that does not know `begin`, answers each insert, and has the marks faulty.
OLDER = """import sys
for number, line in enumerate(sys.stdin, 1):
    code = "BadCommand" if "begin" in line else "BadJson" if line == "x\\n" else None
    answer = "new #%d Mark" % number if "insert" in line else "fault %d %s" % (number, code) if code else None
    if answer: print(answer, flush=True)
"""
LIMITED = """import sys
sys.stdin.readline(), print("new #1 A", flush=True), sys.stdin.readline()
print('fire "tick" #1\\nfire "tick" #1\\nfire "tick" #1\\nlimit 3', flush=True)
sys.exit(4)
"""


class Case(unittest.TestCase):
    def setUp(self) -> None:
        folder = tempfile.TemporaryDirectory()
        self.addCleanup(folder.cleanup)
        self.folder = Path(folder.name)

    def file(self, name: str, text: str) -> Path:
        path = self.folder / name
        path.write_text(text, encoding="utf-8")
        return path

    def session(self, rules: str, program: Union[str, Path, list[str]] = LIVE, **options: Any) -> Session:
        session = Session(self.file("rules.drl", rules), program, **options)
        self.addCleanup(lambda: None if session.ended else session.kill())
        return session


WAYS = """declare Tank id : long end
declare Reading tank : long end
declare Level extends Reading high : long end
declare Flow extends Reading litres : long end
declare Alarm tank : long size : long end
rule "alarm" when
  Tank( $t : id ) ( Level( tank == $t, $v : high, high > 9 ) or Flow( tank == $t, $v : litres, litres > 5 ) )
then insert( new Alarm( $t, $v ) ); end
rule "both" when ( Level( $v : tank ) or Level( $v : high ) ) then insert( new Alarm( 0, $v ) ); end
rule "higher" when $a : Alarm( tank == 1, size == 6 ) ( Flow( $w : litres ) or Flow( $w : tank ) )
then modify( $a ) { size = $w + 10 } end
"""


class Values(Case):
    def test_ways(self) -> None:
        """The facts of a firing say in which way it came, where only one finds them."""
        session = self.session(WAYS)
        session.insert("Tank", {"id": 1})
        session.insert("Flow", {"tank": 1, "litres": 6})
        flow = session.fire().firings[0]
        self.assertEqual((flow.rule, flow.names, [fact.id for fact in flow.made]), ("alarm", {"t": 1, "v": 6}, [3]))
        self.assertEqual([fact.values for fact in session.facts if fact.type == "Alarm"], [None])
        session.insert("Level", {"tank": 2, "high": 2})
        self.assertEqual([fact.values for it in session.fire().firings for fact in it.made],
                         [{"tank": 0, "size": 2}] * 2)
        session.insert("Level", {"tank": 2, "high": 3})
        self.assertEqual([fact.values for it in session.fire().firings for fact in it.made], [None, None])

    def test_what_actions_give(self) -> None:
        session = self.session(BILLS)
        order = session.insert("Order", {"number": 1, "cents": 5, "paid": False}).fact
        bill, gone = session.fire().firings
        self.assertEqual((str(bill), bill.line, bill.facts, bill.names),
                         ('fire "bill" #1', 2, [order], {"o": order, "n": 1, "c": 5}))
        self.assertEqual(bill.made, [Fact(2, "Bill", {"number": 1, "cents": 16}, rule="bill")])
        self.assertEqual(bill.modified, [Fact(1, "Order", {"number": 1, "cents": 4, "paid": True})])
        self.assertEqual((gone.facts[0]["cents"], gone.names["due"], [fact.id for fact in gone.retracted]),
                         (4, 16, [1, 2]))
        self.assertEqual([(fault.line, fault.code, fault.rule) for fault in gone.faults], [(2, "Absent", "gone")])
        self.assertEqual((session.facts, session.close()), ([], 1))

    def test_overflow(self) -> None:
        session = self.session(BILLS)
        session.insert("Order", {"number": 1, "cents": 2**63 - 1, "paid": False})
        bill = session.fire().firings[0]
        self.assertEqual(([fault.code for fault in bill.faults], bill.made, bill.modified[0]["paid"]),
                         (["Overflow"], [], True))

    def test_lines_change_values(self) -> None:
        session = self.session(BILLS)
        session.insert("Order", {"number": 1, "cents": 5, "paid": True})
        session.modify("Order", 1, {"cents": 7})
        session.insert("Bill", {"number": 1, "cents": 9})
        self.assertEqual([fact["cents"] for fact in session.fire().firings[0].facts], [7, 9])

    def test_events_are_forgotten(self) -> None:
        """`rise` asks for 10 s, and the lateness is 2 s; the window of `many` is longer."""
        session = self.session(READINGS)
        self.assertEqual(session.rules.life("Reading"), 60_000)
        session.insert("Reading", {"at": 0, "value": 1}, "plant")
        session.at(60_000)
        self.assertEqual((session.fire().firings, [fact.id for fact in session.facts]), ([], [1]))
        session.at(60_001)
        self.assertEqual((session.fire().firings, session.facts), ([], []))


class Lines(Case):
    def test_many_lines_before_an_answer_is_read(self) -> None:
        """The program stands still when nobody reads what it answers: here the thread does."""
        session = self.session("declare Mark end", [sys.executable, "-c", OLDER])
        answers = [session.insert("Mark", {}) for _ in range(20_000)]
        self.assertEqual([answer.fact.id for answer in answers[::1000]], list(range(1, 20_001, 1000)))
        self.assertEqual(session.close(), 0)

    def test_faults_of_quiet_lines(self) -> None:
        session = self.session(READINGS)
        moved, back = session.at(5000), session.at(1)
        self.assertEqual((moved.fault, back.fault.code, back.fault.line, back.clock), (None, "ClockBack", 2, 5000))
        late = session.insert("Reading", {"at": 2999, "value": 1}, "plant")
        self.assertEqual((late.fact, late.fault.code, late.line), (None, "Late", 3))
        self.assertEqual(([fault.line for fault in session.faults], session.close()), ([2, 3], 1))

    def test_results_and_max(self) -> None:
        session = self.session(READINGS)
        for value in (1, 2, 2):
            session.insert("Reading", {"at": 0, "value": value}, "plant")
        self.assertEqual([(it.rule, it.results, it.names) for it in session.fire(1).firings], [("many", [3], {"n": 3})])
        self.assertEqual(session.close(), 0)

    def test_a_script_line_by_line(self) -> None:
        session = self.session(BILLS)
        for text in ("", "{", '{"do":"fire","max":-1}', '{"do":"fire"}', "[1]"):
            last = session.send_line(text)
        self.assertEqual((last.fault.code, [(fault.line, fault.code) for fault in session.faults]),
                         ("BadCommand", [(2, "BadJson"), (3, "BadCommand"), (5, "BadCommand")]))
        with self.assertRaises(ValueError):
            session.send_line("\n")

    def test_counts(self) -> None:
        session = self.session(READINGS)
        session.at(5000)
        for value in (1, 2, 3):
            session.insert("Reading", {"at": 5000, "value": value}, "plant")
        session.insert("Limit", {"value": 1})
        session.at(1)
        session.fire().wait()
        self.assertEqual(session.counts(), {"clock": 5000, "lines": 7, "faults": {"ClockBack": 1},
                                            "firings": {"many": 1}, "facts": {"Reading": 3, "Limit": 1}})
        session.close()

    def test_words_of_other_programs(self) -> None:
        older = self.session(READINGS, [sys.executable, "-c", OLDER])
        with self.assertRaisesRegex(NotKnown, "begin.*BadCommand"):
            older.begin()
        self.assertEqual((older.promise(10, "plant").text, older.promise(11, "plant").fault),
                         ('{"do":"promise","entry":"plant","from":10}', None))

    def test_a_promise_and_a_begin(self) -> None:
        session = self.session("declare Limit @reference value : long end "
                               + READINGS.replace("declare Limit value : long end", ""))
        self.assertEqual(session.promise(-1, "plant").fault.code, "PromiseBack")
        first = session.insert("Limit", {"value": 1})
        self.assertEqual((session.begin().fault, session.begin().fault, first.fact.id), (None, None, 1))
        self.assertEqual(session.insert("Limit", {"value": 2}).fault.code, "ReferenceFixed")


class Ends(Case):
    def test_a_refused_file(self) -> None:
        session = self.session("rule")
        with self.assertRaisesRegex(Ended, "refused item 1 line 1 Syntax, status 3"):
            session.fire().wait()

    def test_a_missing_file_and_a_missing_program(self) -> None:
        with self.assertRaisesRegex(Ended, "Missing"):
            Session(self.folder / "none.drl", LIVE).close()
        with self.assertRaisesRegex(NoProgram, "build it"):
            Session(self.folder / "none.drl", "/no/such/program")

    def test_the_limit(self) -> None:
        loop = 'declare A n : long end rule "tick" when $a : A() then modify( $a ) { n = $a.n + 1 } end'
        session = self.session(loop, [sys.executable, "-c", LIMITED])
        session.insert("A", {"n": 0})
        answer = session.fire()
        with self.assertRaisesRegex(Ended, "limit 3, status 4"):
            answer.wait()
        self.assertEqual([firing.facts[0]["n"] for firing in answer.told_firings], [0, 1, 2])
        with self.assertRaises(Ended):
            session.close()

    def test_a_program_that_dies_and_another_that_begins(self) -> None:
        session = self.session(READINGS, [sys.executable, "-c", "import os; os.kill(os.getpid(), 15)"])
        with self.assertRaisesRegex(Ended, "killed by signal 15"):
            session.insert("Reading", {"at": 0, "value": 1}, "plant").wait()
        session = self.session(READINGS)
        session.insert("Limit", {"value": 1}).wait()
        session.kill()
        again = session.restart()
        self.assertEqual((again.insert("Limit", {"value": 1}).fact.id, again.close()), (1, 0))

    def test_a_program_that_breaks_off_with_the_status_1(self) -> None:
        session = self.session(READINGS, [sys.executable, "-c", "import sys; sys.stdin.readline(); sys.exit(1)"])
        answer = session.insert("Limit", {"value": 1})
        with self.assertRaises(Ended):
            answer.wait()
        with self.assertRaises(Ended):
            session.close()

    def test_a_long_wait(self) -> None:
        session = self.session(READINGS, [sys.executable, "-c", "import time; time.sleep(60)"])
        with self.assertRaises(TimeoutError):
            session.insert("Limit", {"value": 1}).wait(0.1)


class InOrder(Case):
    def test_none_is_late_within_the_lateness(self) -> None:
        session = self.session(READINGS)
        ordered, fired = Ordered(session), []
        for arrived, start, value in ((1000, 1000, 5), (2500, 2400, 1), (2600, 1200, 7), (3300, 3200, 3),
                                      (9000, 9000, 0)):
            fired += ordered.until(arrived)
            ordered.insert("Reading", {"at": start, "value": value}, "plant")
        ordered.insert("Limit", {"value": 1})
        fired += ordered.rest()
        self.assertEqual([(answer.fact["at"], answer.clock) for answer in fired if answer.fact
                          and answer.fact.type == "Reading"],
                         [(1000, 3000), (1200, 3200), (2400, 4400), (3200, 5200), (9000, 11000)])
        self.assertEqual([it.facts[1]["value"] for answer in fired for it in answer.firings if it.rule == "rise"],
                         [7, 3])
        self.assertEqual(session.close(), 0)

    def test_small_steps(self) -> None:
        """Silence is told at the first step behind 13000: 10 s behind the reading, and the lateness of 2 s."""
        silent = """declare Beat @role( event ) @timestamp( at ) at : long end
declare entry-point "plant" @lateness( 2s ) end
rule "silent" when $a : Beat() from entry-point "plant"
  not( Beat( this after[1ms,10s] $a ) from entry-point "plant" ) then end"""
        for step, fired in ((None, [100_000]), (1000, [14_000])):
            ordered = Ordered(self.session(silent), step=step)
            ordered.until(1000)
            ordered.insert("Beat", {"at": 1000}, "plant")
            self.assertEqual([it.clock for answer in ordered.until(100_000) for it in answer.firings], fired)

    def test_dates(self) -> None:
        self.assertEqual(milliseconds("2026-03-02 10:00:00.200"), 1772445600200)
        self.assertEqual(milliseconds("2026-03-02 11:00:00.200+01:00"), 1772445600200)
        self.assertEqual(milliseconds(date_of(1772445600200)), 1772445600200)

    def test_a_recorded_script(self) -> None:
        record = io.BytesIO()
        session = self.session(READINGS, record=record)
        session.at(5)
        session.fire().wait()
        self.assertEqual(record.getvalue(), b'{"do":"at","ms":5}\n{"do":"fire"}\n')

    def test_a_record_on_a_path(self) -> None:
        """It has each line at once, and goes on behind those that it has."""
        path = self.folder / "record"
        for clock in (5, 6):
            session = self.session(READINGS, record=path)
            session.at(clock)
            self.assertEqual(path.read_bytes().splitlines()[-1], b'{"do":"at","ms":%d}' % clock)
            session.close()
        self.assertEqual(path.read_bytes(), b'{"do":"at","ms":5}\n{"do":"at","ms":6}\n')
        with open(path, "a", encoding="utf-8") as text, self.assertRaisesRegex(TypeError, "binary"):
            self.session(READINGS, record=text)

    def test_what_is_held_back_survives(self) -> None:
        """Another session gets the same lines, and what was held back is held back again."""
        arrivals, whole, parts = self.folder / "arrivals", self.folder / "whole", self.folder / "parts"
        rows = [(1000, 1000, 5), (2500, 2400, 1), (2600, 1200, 7), (3300, 3200, 3)]
        for record, cut in ((self.folder / "one", len(rows)), (arrivals, 2)):
            ordered = Ordered(self.session(READINGS, record=whole if cut > 2 else None), record=record)
            for arrived, start, value in rows[:cut]:
                ordered.until(arrived)
                ordered.insert("Reading", {"at": start, "value": value}, "plant")
            if cut > 2:
                ordered.rest()
            ordered.session.close() if cut > 2 else ordered.session.kill()
        arrivals.write_bytes(arrivals.read_bytes() + b'{"unti')
        ordered = Ordered(self.session(READINGS, record=parts), record=arrivals)
        self.assertEqual((len(ordered.held), len(ordered.again)), (2, 2))
        for arrived, start, value in rows[2:]:
            ordered.until(arrived)
            ordered.insert("Reading", {"at": start, "value": value}, "plant")
        ordered.rest()
        ordered.session.close()
        self.assertEqual(parts.read_bytes(), whole.read_bytes())
        self.assertEqual(arrivals.read_bytes(), (self.folder / "one").read_bytes())


class FromImage(Case):
    def image(self, rules: str, script: str) -> Path:
        """The image after a script, by the second evaluator."""
        path = self.folder / "image"
        command = [*command_of("reference.replay"), "--mode", "save", str(self.file("rules.drl", rules))]
        path.write_bytes(subprocess.run(command, input=script.encode(), capture_output=True, check=False).stdout)
        return path

    def test_facts_and_numbers(self) -> None:
        image = self.image(BILLS, '{"do":"insert","type":"Order","fields":{"number":1,"cents":5,"paid":false}}\n'
                                  'no JSON\n{"do":"fire","max":1}\n')
        session = self.session(BILLS, image=image)
        self.assertEqual([(fact.id, fact.type, fact.values) for fact in session.facts],
                         [(1, "Order", {"number": 1, "cents": 4, "paid": True}),
                          (2, "Bill", {"number": 1, "cents": 16})])
        self.assertEqual(session.counts(), {"clock": 0, "lines": 3, "faults": {}, "firings": {},
                                            "facts": {"Order": 1, "Bill": 1},
                                            "before": {"lines": 3, "firings": 1, "faulty": True}})
        gone = session.fire().firings[0]
        self.assertEqual((gone.rule, gone.line, gone.facts[0]["cents"], gone.names["due"]), ("gone", 4, 4, 16))
        self.assertEqual([(fault.line, fault.code) for fault in gone.faults], [(4, "Absent")])
        self.assertEqual(session.insert("Bill", {"number": 2, "cents": 1}).fact.id, 3)
        self.assertEqual((session.advance(-1).fault.line, session.close()), (6, 1))

    def test_events_are_forgotten(self) -> None:
        script = '{"do":"at","ms":5000}\n' + "".join(
            f'{{"do":"insert","type":"Reading","entry":"plant","fields":{{"at":{at},"value":1}}}}\n'
            for at in (3000, 5000))
        session = self.session(READINGS, image=self.image(READINGS, script))
        self.assertEqual((session.clock, [fact["at"] for fact in session.facts]), (5000, [3000, 5000]))
        session.at(64_000)
        self.assertEqual((session.fire().firings, [fact["at"] for fact in session.facts]), ([], [5000]))
        self.assertEqual(Ordered(session).clock, 64_000)
        self.assertEqual(session.close(), 0)

    def test_images_that_are_refused(self) -> None:
        image = self.image(BILLS, "")
        for rules, code in ((READINGS, "OtherRules"), (BILLS, "BadImage")):
            if code == "BadImage":
                image.write_bytes(b"FXC1")
            session = self.session(rules, image=image)
            with self.assertRaisesRegex(Ended, f"refused checkpoint {code}, status 9"):
                session.fire().wait()
        with self.assertRaisesRegex(Ended, "refused checkpoint Missing"):
            self.session(BILLS, image=self.folder / "none").fire().wait()


class Command(Case):
    def run_client(self, rules: Path, script: bytes, *words: str) -> subprocess.CompletedProcess:
        return subprocess.run([*command_of("sozhipen"), "--program", str(evaluator(self.folder)), *words, str(rules)],
                              input=script, capture_output=True)

    def test_json_lines(self) -> None:
        ran = self.run_client(EXAMPLES / "dear.drl", (EXAMPLES / "dear.jsonl").read_bytes())
        said = [json.loads(line) for line in ran.stdout.splitlines()]
        item = {"id": 2, "type": "Item", "fields": {"price": 250, "stock": 0}}
        self.assertEqual(said[2], {"line": 4, "at": 0, "fire": "dear item", "facts": [item], "results": [],
                                   "names": {}})
        self.assertEqual((said[5]["line"], said[5]["fault"], ran.returncode), (6, "BadValue", 1))

    def test_bytes_that_are_no_text(self) -> None:
        ran = self.run_client(EXAMPLES / "dear.drl", b'{"do":"\xff"}\n')
        self.assertEqual((json.loads(ran.stdout)["fault"], ran.returncode), ("BadJson", 1))

    def test_ends(self) -> None:
        ran = self.run_client(self.file("rules.drl", "rule"), b'{"do":"fire"}\n')
        self.assertEqual((json.loads(ran.stdout)["ended"], ran.returncode), ("refused item 1 line 1 Syntax", 3))
        ran = self.run_client(self.file("rules.drl", ""), b"", "--program", "/no/such/program")
        self.assertEqual((ran.stdout, ran.stderr.count(b"\n"), ran.returncode), (b"", 1, 70))


class Example(Case):
    """The caller and the converter of examples/live."""
    RULES = EXAMPLES / "live" / "withdrawals.drl"
    ROW = "2026-03-02 10:00:00.200,2026-03-02 10:00:00.000,4417,harbour"

    def run_example(self, name: str, table: str, *words: object) -> subprocess.CompletedProcess:
        program = [sys.executable, str(EXAMPLES / "live" / name)]
        return subprocess.run(program + [str(word) for word in words], input=table, text=True, capture_output=True,
                              env=with_packages())

    def test_the_alerts(self) -> None:
        ran = self.run_example("caller.py", (EXAMPLES / "live" / "withdrawals.csv").read_text(), evaluator(self.folder),
                               self.RULES)
        self.assertEqual(ran.stdout.splitlines(), [
            "two places: card 4417, 120.00 at harbour 10:00:00; card 4417, 80.00 at station 10:00:20",
            "  the rule made #5 Told {'card': '4417'}", "silent: card 5082, 1500.00 at station 10:00:09"])
        self.assertEqual((ran.stderr.count("Late"), ran.returncode), (1, 1))

    def test_one_line_for_what_is_wrong(self) -> None:
        table = f"arrived,at,card,place,amount\n{self.ROW}\n"
        live = evaluator(self.folder)
        missing, odd = "line 2 of the table: no amount", f"{table.rstrip()},1.x\n"
        for name, rows, words, wrong in (("caller.py", table, (live, self.RULES), missing),
                                         ("convert.py", table, (), missing),
                                         ("convert.py", odd, (), f"{missing} in cents: 1.x"),
                                         ("caller.py", table, ("/no/such", self.RULES),
                                          "there is no program /no/such "),
                                         ("caller.py", table, ("/no/such.py", self.RULES),
                                          "there is no program /no/such.py "),
                                         ("caller.py", table, (live, "/no/such/rules"),
                                          "refused item 0 line 0 Missing")):
            ran = self.run_example(name, rows, *words)
            self.assertIn(wrong, ran.stderr.splitlines()[0])
            self.assertNotIn("Traceback", ran.stderr)

    def test_the_script_of_the_table(self) -> None:
        ran = self.run_example("convert.py", (EXAMPLES / "live" / "withdrawals.csv").read_text())
        self.assertEqual((ran.stdout.count('"insert"'), ran.stdout.count('"fire"'), ran.returncode), (7, 8, 0))


if __name__ == "__main__":
    unittest.main()
