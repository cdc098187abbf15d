"""What the client takes from the objects of `desk`: values, names, results, kept facts, counts, images while it runs;
over the second evaluator, and where the rule file is not there for the client."""

from __future__ import annotations

import json
import subprocess
import sys
import unittest
from typing import Any, Optional, Union

from support import LIVE, evaluator, with_packages
from test_client import BILLS, READINGS, WAYS, Case
from test_desk_client import ANSWERING, ENDLESS, EVALUATOR

from sozhipen import Answer, ClientError, Ended, Fact, NotKnown, Ordered, Session
from sozhipen_tools.metrics import of_counts, text_of
from sozhipen_tools.places import command_of

ORDER = {"number": 1, "cents": 5, "paid": False}
# Runs a program, whose words follow, over the rule file of the first word in place of the one that it is told, and in
# the folder of that: as one on another machine.
ELSEWHERE = """import os, sys
os.chdir(os.path.dirname(sys.argv[1]))
os.execvp(sys.argv[2], [*sys.argv[2:-1], sys.argv[1]])
"""
# A desk that knows no line but `at`.
OLDER = """import json, sys
for number, line in enumerate(sys.stdin, 1):
    if "at" not in json.loads(line)["do"]: print('{"fault":"BadCommand","line":%d}' % number)
    print('{"done":%d}' % number, flush=True)
"""


class Desk(Case):
    def desk(self, rules: str, program: Optional[list[str]] = None, **options: Any) -> Session:
        return self.session(rules, program or EVALUATOR, live=True, **options)

    def elsewhere(self, rules: str, **options: Any) -> Session:
        """A desk with its rule file and its image in a folder that the client does not look into."""
        folder = self.folder / "elsewhere"
        folder.mkdir(exist_ok=True)
        file = folder / "rules.drl"
        file.write_text(rules, encoding="utf-8")
        session = Session("there.drl", [sys.executable, "-c", ELSEWHERE, str(file), *EVALUATOR], live=True, **options)
        self.addCleanup(lambda: None if session.ended else session.kill())
        return session


class Values(Desk):
    def test_ways(self) -> None:
        """In whichever way a rule fired, its facts and what it made have their values."""
        session = self.desk(WAYS)
        session.insert("Tank", {"id": 1})
        session.insert("Flow", {"tank": 1, "litres": 6})
        alarm, *others = session.fire().firings
        made = Fact(3, "Alarm", {"tank": 1, "size": 6}, rule="alarm")
        self.assertEqual((alarm.names, alarm.made), ({"t": 1, "v": 6}, [made]))
        self.assertEqual([fact.values for it in others for fact in it.modified], [{"tank": 1, "size": 16}])
        self.assertEqual([fact.values for fact in session.facts if fact.type == "Alarm"], [{"tank": 1, "size": 16}])
        session.insert("Level", {"tank": 2, "high": 3})
        self.assertEqual(sorted(fact["size"] for it in session.fire().firings for fact in it.made), [2, 3])

    def test_variables(self) -> None:
        """Those of facts and results are told; those of fields come from the rule file."""
        for session, bill in ((self.desk(BILLS), {"n": 1, "c": 5}), (self.elsewhere(BILLS), {})):
            order = session.insert("Order", ORDER).fact
            names = dict(session.fire(1).firings[0].names)
            fact = names.pop("o")
            assert order and isinstance(fact, Fact)
            self.assertEqual((names, fact.values, session.close()), (bill, order.values, 0))
        for session, seen in ((self.desk(READINGS), "plant"), (self.elsewhere(READINGS), None)):
            for value in (1, 2, 2):
                session.insert("Reading", {"at": 0, "value": value}, "plant")
            session.at(5)
            session.insert("Reading", {"at": 5, "value": 9}, "plant")
            *rises, many = session.fire().firings
            self.assertEqual((many.results, many.names, many.facts), ([4], {"n": 4}, []))
            self.assertEqual({fact.entry for rise in rises for fact in rise.facts}, {seen})
            self.assertEqual([(rise.facts[1]["value"], rise.clock) for rise in rises], [(9, 5)] * 3)

    def test_what_actions_did(self) -> None:
        for session in (self.desk(BILLS), self.elsewhere(BILLS)):
            session.insert("Order", ORDER)
            answer = session.fire()
            bill, gone = answer.firings
            self.assertEqual([(fact.id, fact.values) for fact in bill.made + bill.modified],
                             [(2, {"number": 1, "cents": 16}), (1, {"number": 1, "cents": 4, "paid": True})])
            self.assertEqual([(fact.id, fact.values) for fact in gone.retracted],
                             [(1, {"number": 1, "cents": 4, "paid": True}), (2, {"number": 1, "cents": 16})])
            self.assertEqual([(fault.code, fault.rule) for fault in gone.faults], [("Absent", "gone")])
            self.assertEqual((answer.fired, answer.pending, session.close()), (2, False, 1))

    def test_how_many_fired(self) -> None:
        session = self.desk(ENDLESS, limit=2)
        first = session.insert("Clock", {"ticks": 0})
        fires = [session.fire(), session.fire(1), session.fire(0), session.send_line('{"do":"fire","max":-1}')]
        self.assertEqual([(it.fired, it.pending, it.limit) for it in [first, *fires]],
                         [(0, None, None), (2, True, 2), (1, True, None), (0, True, None), (0, None, None)])
        replay = self.session(ENDLESS)
        replay.insert("Clock", {"ticks": 0})
        self.assertEqual([(it.fired, it.pending) for it in (replay.fire(3), replay.at(5))], [(3, None), (0, None)])
        replay.retract("Clock", 1)
        self.assertEqual([(it.fired, it.pending) for it in (replay.fire(3), replay.fire())], [(0, False)] * 2)


class WithoutTheRules(Desk):
    """The rule file and the image are where only the program sees them."""

    def test_what_is_not_known(self) -> None:
        session = self.elsewhere(BILLS)
        session.insert("Order", ORDER)
        with self.assertRaisesRegex(NotKnown, "kept"):
            session.facts
        self.assertEqual((session.kept()[0].values, session.counts()["kept"]), (ORDER, {"Order": 1, "Bill": 0}))
        self.assertNotIn("facts", session.counts())
        with self.assertRaisesRegex(ClientError, "rule file"):
            Ordered(session)

    def test_a_file_that_is_refused_here(self) -> None:
        """As one of a later language."""
        session = self.elsewhere(BILLS)
        session.kill()
        later = Session(self.file("later.drl", "rule later"), session.started_with[1], live=True)
        later.insert("Order", ORDER)
        self.assertEqual(([it.rule for it in later.fire().firings], later.rules, later.close()),
                         (["bill", "gone"], None, 1))

    def test_another_file_of_this_name(self) -> None:
        """Its types are not those of the facts that are told: nothing is taken from it."""
        there = self.elsewhere(BILLS)
        there.kill()
        for other in (BILLS.replace("cents", "dollars"), BILLS.replace("paid : boolean", "paid : long")):
            session = Session(self.file("rules.drl", other), there.started_with[1], live=True)
            session.insert("Order", ORDER)
            bill, gone = session.fire().firings
            self.assertEqual((list(bill.names), bill.made[0].values, len(gone.retracted), session.close()),
                             (["o"], {"number": 1, "cents": 16}, 2, 1))
            with self.assertRaises(NotKnown):
                session.facts

    def test_an_image(self) -> None:
        """The first answer tells how many lines there were before."""
        first = self.elsewhere(BILLS, image="image-there")
        first.at(500)
        first.insert("Order", ORDER)
        self.assertEqual((first.fire(1).fired, first.close()), (1, 0))
        second = self.elsewhere(BILLS, image="image-there")
        fired = second.fire()
        self.assertEqual((fired.wait().line, fired.clock, [str(it) for it in fired.firings]),
                         (4, 500, ['fire "gone" #1 #2']))
        faulty = second.send_line("{")
        self.assertEqual((faulty.fault, second.lines, second.close()),
                         (second.faults[-1], 5, 1))
        self.assertEqual([fault.line for fault in second.faults], [4, 5])


class Asked(Desk):
    def test_kept_facts(self) -> None:
        session = self.desk(BILLS)
        session.insert("Order", ORDER)
        session.fire(1)
        self.assertEqual(session.kept(), [Fact(2, "Bill", {"number": 1, "cents": 16}, rule="bill"),
                                          Fact(1, "Order", {"number": 1, "cents": 4, "paid": True})])
        self.assertEqual((session.kept("Bill"), session.lines), (session.facts[1:], 4))
        with self.assertRaisesRegex(ClientError, "UnknownType"):
            session.kept("Nothing")
        self.assertEqual((session.fire().fired, session.kept(), session.close()), (1, [], 1))

    def test_counts(self) -> None:
        session = self.desk(READINGS)
        session.at(5000)
        for value in (1, 2, 3):
            session.insert("Reading", {"at": 5000, "value": value}, "plant")
        session.insert("Limit", {"value": 1})
        session.at(1)
        counts = session.counts()
        self.assertEqual((counts.pop("kept"), counts.pop("floors"), counts.pop("pending"), counts.pop("all_firings")),
                         ({"Reading": 3, "Limit": 1}, {"DEFAULT": 5000, "plant": 5000}, 1, 0))
        self.assertEqual(counts, session.known_counts())
        self.assertEqual(counts, {"clock": 5000, "lines": 7, "faults": {"ClockBack": 1}, "firings": {},
                                  "facts": {"Reading": 3, "Limit": 1}})
        session.fire()
        text = text_of(of_counts(session.counts())).splitlines()
        for line in ('sozhipen_kept_facts{type="Limit"} 1', 'sozhipen_floor_milliseconds{entry="plant"} 5000',
                     "sozhipen_pending_matches 0", "sozhipen_firings_total 1",
                     'sozhipen_rule_firings_total{rule="many"} 1'):
            self.assertIn(line, text)
        self.assertEqual((session.close(), session.counts()), (1, session.known_counts()))

    def test_a_run_that_is_saved_and_goes_on(self) -> None:
        image = self.folder / "image"
        session = self.desk(BILLS, image=image)
        session.insert("Order", ORDER)
        session.fire(1)
        session.save()
        saved = image.read_bytes()
        session.insert("Order", {**ORDER, "number": 2}).wait()
        self.assertEqual((image.read_bytes(), session.lines), (saved, 4))
        session.save()
        session.at(5).wait()
        session.kill()
        again = session.restart()
        self.assertEqual((again.lines, [(fact.id, fact.entry) for fact in again.kept()]),
                         (5, [(2, None), (1, None), (3, None)]))
        counts = again.counts()
        self.assertEqual((counts["before"], counts["all_firings"], counts["pending"], counts["clock"]),
                         ({"lines": 5, "firings": 1, "faulty": False}, 1, 2, 0))
        self.assertEqual(([str(it) for it in again.fire().firings], again.close()),
                         (['fire "bill" #3', 'fire "gone" #3 #4', 'fire "gone" #1 #2'], 1))

    def test_a_save_that_cannot_be(self) -> None:
        without = self.desk(BILLS)
        with self.assertRaisesRegex(NotKnown, "save.*BadCommand, as one without an image"):
            without.save()
        gone = self.desk(BILLS, image=self.folder / "gone" / "image")
        with self.assertRaises(Ended):
            gone.save()

    def test_an_older_desk(self) -> None:
        """It is asked once for what it does not know."""
        session = self.desk(BILLS, [sys.executable, "-c", OLDER])
        session.at(7)
        self.assertEqual([session.counts(), session.counts()], [session.known_counts()] * 2)
        self.assertEqual((session.lines, session.clock, [str(it) for it in session.faults]),
                         (2, 7, ["fault 2 BadCommand"]))
        with self.assertRaisesRegex(NotKnown, "facts.*BadCommand"):
            session.kept()
        with self.assertRaisesRegex(NotKnown, "save.*BadCommand"):
            session.save()
        self.assertEqual((session.lines, session.at(8).fault, session.close()), (4, None, 0))

    def test_the_other_program(self) -> None:
        session = self.session(BILLS)
        self.assertEqual((session.counts(), session.lines), (session.known_counts(), 0))
        with self.assertRaisesRegex(NotKnown, "facts.*BadCommand"):
            session.kept()

    def test_an_output_that_is_none(self) -> None:
        """As of a desk that answers in text."""
        session = self.desk(ENDLESS, [sys.executable, "-c", ANSWERING, "0", "new #1 Clock"])
        with self.assertRaisesRegex(Ended, "no object: new #1 Clock, killed"):
            session.insert("Clock", {"ticks": 0}).wait()

    def test_an_object_of_another_kind(self) -> None:
        """It is passed over, also among the actions of a firing."""
        said = ['{"warning":"late","line":1}\n{"done":1}', '{"note":1}\n{"done":2,"fired":0,"pending":false}']
        session = self.desk(ENDLESS, [sys.executable, "-c", ANSWERING, "0", *said])
        answers: list[Answer] = [session.at(1), session.fire()]
        self.assertEqual(([(it.fault, it.fired, it.pending) for it in answers], session.close()),
                         ([(None, 0, None), (None, 0, False)], 0))


class Programs(Desk):
    """The client's command, and a program of examples/live that uses it."""

    def test_the_caller(self) -> None:
        desk = evaluator(self.folder, "reference.desk").rename(self.folder / "desk")
        ran = subprocess.run([sys.executable, str(LIVE / "caller.py"), str(desk), str(LIVE / "withdrawals.drl")],
                             input=(LIVE / "withdrawals.csv").read_bytes(), capture_output=True, check=False,
                             env=with_packages())
        self.assertEqual(ran.stdout.decode().splitlines(), [
            "two places: card 4417, 120.00 at harbour 10:00:00; card 4417, 80.00 at station 10:00:20",
            "  the rule made #5 Told {'card': '4417'}", "silent: card 5082, 1500.00 at station 10:00:09"])
        self.assertEqual((ran.stderr.count(b"Late"), ran.returncode), (1, 1))

    def test_what_is_asked_in_a_script(self) -> None:
        desk, rules = evaluator(self.folder, "reference.desk"), self.file("rules.drl", BILLS)
        script = "".join(json.dumps(line) + "\n" for line in (
            {"do": "insert", "type": "Order", "fields": ORDER}, {"do": "facts"}, {"do": "counts"}, {"do": "save"}))
        command = [*command_of("sozhipen"), "--live", "--program", str(desk), "--image", str(self.folder / "image")]
        ran = subprocess.run([*command, str(rules)], input=script.encode(), capture_output=True, check=True)
        fact: dict[str, Union[int, str, dict[str, Any]]] = {"id": 1, "type": "Order", "fields": ORDER}
        self.assertEqual([json.loads(line) for line in ran.stdout.splitlines()], [
            {"line": 1, "at": 0, "new": fact}, {"line": 2, "at": 0, "kept": fact},
            {"line": 3, "at": 0, "counts": {"Order": 1, "Bill": 0}, "firings": 0, "floors": {"DEFAULT": 0},
             "pending": 1}, {"line": 4, "at": 0, "saved": True}])


if __name__ == "__main__":
    unittest.main()
