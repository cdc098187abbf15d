"""The client over `desk`: over the second evaluator, over the built program, and over small programs that stand for
others. DESK_PROGRAM names another program than the built one."""

from __future__ import annotations

import json
import os
import signal
import subprocess
import sys
import unittest
from pathlib import Path
from typing import Any, Union

from support import DESK_PROGRAM, TOP, evaluator
from test_client import BILLS, LIVE, READINGS, Case

from sozhipen import Answer, Ended, Fact, Ordered, Session, program_words
from sozhipen.programs import is_desk
from sozhipen_tools.places import BUILT_DESK, command_of
from sozhipen_tools.reference.generators.generate import case_of, lives_case_of, shared_case_of

EVALUATOR = command_of("reference.desk")
ENDLESS = (TOP / "examples" / "endless.drl").read_text(encoding="utf-8")
# Each event is past its life at once, and stays while its match is pending.
BEATS = """declare Beat @role( event ) number : long end
rule "beat" when Beat() then end
"""
# A program that answers each of these lines once a line has come, and ends with a status.
ANSWERING = """import sys
for text in sys.argv[2:sys.argv.index("--")]:
    sys.stdin.readline()
    print(text, flush=True)
sys.stdin.read()
sys.exit(int(sys.argv[1]))
"""


CLOCK = '{"fields":{"ticks":0},"line":1,"new":1,"type":"Clock"}'


def answering(status: int, *lines: str) -> list[str]:
    return [sys.executable, "-c", ANSWERING, str(status), *lines]


def closed(number: int) -> str:
    return json.dumps({"done": number})


def told(answer: Answer) -> tuple[Any, ...]:
    """All that an answer has."""
    return (answer.line, answer.clock, answer.told_fact, answer.told_fault, answer.told_firings, answer.told_held)


class OverDesk(Case):
    """What the client does over each program that behaves as `desk`."""
    program: list[str] = EVALUATOR

    def desk(self, rules: str, **options: Any) -> Session:
        return self.session(rules, self.program, live=True, **options)

    def both(self, rules: str, lines: list[str]) -> tuple[list[Any], list[Any]]:
        """What a script is answered over `replay`, and over `desk`."""
        runs = []
        for session in (self.session(rules), self.desk(rules)):
            answers = [session.send_line(line) for line in lines]
            status = session.close()
            runs.append([*map(told, answers), session.counts(), session.facts, session.faults, status])
        return runs[0], runs[1]

    def test_as_over_replay(self) -> None:
        readings = [json.dumps({"do": "insert", "type": "Reading", "entry": "plant", "fields": {"at": at, "value": 9}})
                    for at in (3000, 2000, 4000, 4500)]
        script = ['{"do":"at","ms":5000}', *readings, "", '{"do":"held"}', '{"do":"fire","max":1}', '{"do":"at"',
                  '{"do":"at","ms":1}', '{"do":"fire"}', '{"do":"promise","entry":"plant","from":6000}',
                  '{"do":"advance","by":100000}', '{"do":"fire"}', '{"do":"held"}']
        replay, desk = self.both(READINGS, script)
        self.assertEqual(desk, replay)
        self.assertEqual([answer[-1] for answer in desk[:len(script)] if answer[-1]],
                         [{"Reading": 3}, {"Reading": 0}])
        order = '{"do":"insert","type":"Order","fields":{"number":1,"cents":5,"paid":false}}'
        replay, desk = self.both(BILLS, [order, '{"do":"fire"}', '{"do":"fire"}'])
        self.assertEqual(desk, replay)
        self.assertEqual([[str(firing) for firing in answer[4]] for answer in desk[:3]],
                         [[], ['fire "bill" #1', 'fire "gone" #1 #2'], []])

    def test_random_scripts_as_over_replay(self) -> None:
        for case in [case_of(9), case_of(15), case_of(16), lives_case_of(2), lives_case_of(14), shared_case_of(1)]:
            lines = [line.decode("utf-8", "surrogateescape") for line in case.script.split(b"\n")]
            replay, desk = self.both(case.rules.decode("utf-8"), lines)
            self.assertGreater(sum(desk[len(lines)]["firings"].values()), 5)
            facts = []
            for told in (replay, desk):
                told[len(lines)].pop("facts")
                facts.append(told.pop(len(lines) + 1))
            self.assertEqual(desk, replay)
            self.assertEqual([fact for fact in facts[1] if fact not in facts[0]], [])

    def test_each_line_is_closed(self) -> None:
        """A silent line has its answer without another one behind it, and no line goes but the caller's."""
        seen: list[int] = []
        record = self.folder / "record"
        session = self.desk(READINGS, on_answer=lambda answer: seen.append(answer.line), record=record)
        session.at(5).wait(60)
        session.send_line("").wait(60)
        self.assertEqual((session.fire().firings, session.held().held, seen), ([], {"Reading": 0}, [1, 2, 3, 4]))
        self.assertEqual((session.lines, session.begin().fault, session.close()), (4, None, 0))
        self.assertEqual(len(record.read_bytes().splitlines()), 5)

    def test_a_rule_that_feeds_itself(self) -> None:
        session = self.desk(ENDLESS, limit=3)
        session.insert("Clock", {"ticks": 0})
        fires = [session.fire(), session.fire(1), session.fire(3), session.fire(4)]
        self.assertEqual([(len(fire.firings), fire.limit) for fire in fires], [(3, 3), (1, None), (3, None), (3, 3)])
        self.assertEqual([firing.facts[0]["ticks"] for fire in fires for firing in fire.firings], list(range(10)))
        self.assertEqual((session.insert("Clock", {"ticks": 7}).fact, session.fire(1).firings[0].facts[0]["ticks"]),
                         (Fact(2, "Clock", {"ticks": 7}), 7))
        self.assertEqual((session.at(1).limit, session.known_counts()["firings"], session.close()), (None, {"tick": 11}, 0))

    def test_the_limit_as_a_value_ends_nothing_that_is_pending(self) -> None:
        session = self.desk(BEATS, limit=2)
        for number in range(5):
            session.insert("Beat", {"number": number})
        session.at(10_000)
        fires = [session.fire(), session.fire(), session.fire()]
        self.assertEqual([fire.limit for fire in fires], [2, 2, None])
        self.assertEqual([firing.facts[0]["number"] for fire in fires for firing in fire.firings], [4, 3, 2, 1, 0])
        self.assertEqual((session.facts, session.close()), ([], 0))

    def test_an_image_that_is_gone_on_from(self) -> None:
        image = self.folder / "image"
        first = self.desk(BILLS, image=image, limit=1)
        self.assertEqual((first.lines, "before" in first.known_counts(), image.exists()), (0, False, False))
        first.insert("Order", {"number": 1, "cents": 5, "paid": False})
        self.assertEqual((first.fire().limit, first.close()), (1, 0))
        second = self.desk(BILLS, image=image)
        self.assertEqual((second.lines, second.facts), (2, []))
        gone = second.fire().firings[0]
        self.assertEqual((gone.rule, gone.line, gone.facts[0]["cents"], gone.names["due"]), ("gone", 3, 4, 16))
        self.assertEqual([fact.values for fact in gone.facts],
                         [{"number": 1, "cents": 4, "paid": True}, {"number": 1, "cents": 16}])
        self.assertEqual([(fault.line, fault.code) for fault in gone.faults], [(3, "Absent")])
        self.assertEqual((second.insert("Bill", {"number": 2, "cents": 1}).fact.id, second.close()), (3, 1))
        third = self.desk(BILLS, image=image)
        self.assertEqual((third.known_counts()["before"], third.advance(5).line, third.advance(5).fault),
                         ({"lines": 4, "firings": 2, "faulty": True}, 5, None))
        self.assertEqual((third.faults, third.close()), ([], 1))

    def test_an_image_of_the_other_program(self) -> None:
        image = self.folder / "image"
        command = [*command_of("reference.replay"), "--mode", "save", str(self.file("rules.drl", ENDLESS))]
        image.write_bytes(subprocess.run(command, input=b'{"do":"insert","type":"Clock","fields":{"ticks":4}}\n',
                                         capture_output=True, check=True).stdout)
        desk = self.desk(ENDLESS, image=image)
        self.assertEqual((desk.fire(1).firings[0].facts[0]["ticks"], desk.close()), (4, 0))
        replay = self.session(ENDLESS, image=image)
        self.assertEqual((replay.fire(1).firings[0].facts[0]["ticks"], replay.lines, replay.close()), (5, 3, 0))

    def test_an_image_of_other_rules(self) -> None:
        image = self.folder / "image"
        with self.desk(ENDLESS, image=image) as first:
            first.insert("Clock", {"ticks": 4})
            self.assertEqual(first.changes, [])
        with self.desk(ENDLESS + 'rule "other" when Clock() then end\n', image=image) as second:
            second.fire(1).wait()
            self.assertEqual(second.changes, [("stays", "tick"), ("new", "other")])

    def test_what_is_killed_leaves_the_old_image(self) -> None:
        image = self.folder / "image"
        for kill, before in ((True, None), (False, None), (True, 1), (False, 1)):
            session = self.desk(ENDLESS, image=image)
            self.assertEqual(session.known_counts().get("before", {}).get("lines"), before)
            session.insert("Clock", {"ticks": 4}).wait()
            session.kill() if kill else session.close()
        again = session.restart()
        self.assertEqual((again.live, again.lines, again.insert("Clock", {"ticks": 0}).fact.id, again.close()),
                         (True, 2, 3, 0))

    def test_faulty_lines(self) -> None:
        session = self.desk(READINGS)
        lines = ['{"do":"at","ms":5000}', "{", "", '{"do":"fire","max":-1}', '{"do":"at","ms":1}', '{"do":"held"}']
        answers = [session.send_line(line) for line in lines]
        late = session.insert("Reading", {"at": 2999, "value": 1}, "plant")
        self.assertEqual([answer.fault and answer.fault.code for answer in [*answers, late]],
                         [None, "BadJson", None, "BadCommand", "ClockBack", None, "Late"])
        self.assertEqual((late.fact, answers[5].held, answers[4].clock), (None, {"Reading": 0}, 5000))
        self.assertEqual(([fault.line for fault in session.faults], session.close()), ([2, 4, 5, 7], 1))

    def test_events_in_order(self) -> None:
        ordered = Ordered(self.desk(READINGS), step=1000)
        for start, value in ((2400, 1), (1200, 7), (1000, 5)):
            ordered.insert("Reading", {"at": start, "value": value}, "plant")
        self.assertEqual([[fact["value"] for fact in it.facts] for answer in ordered.rest() for it in answer.firings
                          if it.rule == "rise"], [[5, 7]])
        self.assertEqual(ordered.session.close(), 0)

    def test_refusals(self) -> None:
        image = self.file("image", "FXC1")
        asked: list[tuple[str, dict[str, Any], str]] = [
            (ENDLESS, {"image": image}, "refused checkpoint BadImage, status 9"),
            ("rule", {}, "refused item 1 line 1 Syntax, status 3"),
            (ENDLESS, {"limit": 0}, "usage: desk .*, status 2")]
        for rules, options, said in asked:
            with self.assertRaisesRegex(Ended, said):
                self.desk(rules, **options).fire().wait()

    def test_an_image_that_cannot_be_put(self) -> None:
        session = self.desk(ENDLESS, image=self.folder / "gone" / "image")
        self.assertIsNone(session.at(1).fault)
        with self.assertRaises(Ended):
            session.close()


@unittest.skipUnless(os.access(DESK_PROGRAM, os.X_OK), f"there is no program {DESK_PROGRAM}")
class OverTheBuiltDesk(OverDesk):
    program = [DESK_PROGRAM]


class Ends(Case):
    """How a `desk` ends, by small programs that stand for it."""

    def desk(self, program: list[str]) -> Session:
        return self.session(ENDLESS, program, live=True)

    def test_statuses(self) -> None:
        for said, status in (("refused checkpoint TooLong", 9), ("", 6), ("", 11)):
            session = self.desk(answering(status, f"{CLOCK}\n{closed(1)}", "\n".join(filter(None, [closed(2), said]))))
            self.assertEqual((session.insert("Clock", {"ticks": 0}).fact.id, session.at(1).fault), (1, None))
            with self.assertRaises(Ended) as caught:
                session.close()
            self.assertEqual((caught.exception.said, caught.exception.status), (said, status))

    def test_a_program_that_dies(self) -> None:
        fire = '{"at":0,"facts":[],"fire":"tick","line":1,"results":[]}'
        dies = f"import os, sys; sys.stdin.readline(); print('{fire}', flush=True); os.kill(os.getpid(), "
        session = self.desk([sys.executable, "-c", f"{dies}{int(signal.SIGTERM)})"])
        answer = session.fire()
        with self.assertRaisesRegex(Ended, "killed by signal 15"):
            answer.wait()
        self.assertEqual((len(answer.told_firings), answer.done), (1, False))
        with self.assertRaisesRegex(Ended, "killed by signal 15"):
            session.close()

    def test_a_line_that_is_not_closed(self) -> None:
        """However the program ends: here as after a whole script."""
        for program in (answering(0, closed(1), CLOCK), answering(1, closed(1))):
            session = self.desk(program)
            self.assertIsNone(session.at(1).fault)
            answer = session.at(2) if CLOCK not in program else session.insert("Clock", {"ticks": 0})
            with self.assertRaises(Ended):
                session.close()
            self.assertFalse(answer.done)

    def test_another_that_begins(self) -> None:
        again = self.desk(answering(0, closed(1))).restart()
        self.assertEqual((again.live, again.at(1).fault, again.close()), (True, None, 0))


class Named(Case):
    def test_by_its_name(self) -> None:
        for words, wanted in ((["desk"], True), (["/opt/desk_main", "-x"], True), (EVALUATOR, True), (LIVE, False),
                              (["replay_main"], False), (["python3", "keeper.py", "replay", "rules", "desk"], False)):
            self.assertEqual(is_desk(words), wanted, words)
        desk = evaluator(self.folder, "reference.desk").rename(self.folder / "desk")
        programs: list[Union[str, Path, list[str]]] = [desk, str(desk), [str(desk)], EVALUATOR]
        for program in programs:
            session = self.session(ENDLESS, program, limit=1)
            session.insert("Clock", {"ticks": 0})
            self.assertEqual((session.live, session.fire().limit, session.close()), (True, 1, 0))

    def test_where_none_is_named(self) -> None:
        self.assertEqual(program_words(None, True), [str(BUILT_DESK)] if os.access(BUILT_DESK, os.X_OK) else EVALUATOR)
        self.assertFalse(self.session(ENDLESS, LIVE).live)
        session = Session(self.file("rules.drl", ENDLESS), live=True, limit=1)
        session.insert("Clock", {"ticks": 0})
        self.assertEqual((session.fire().limit, session.close()), (1, 0))


class Command(Case):
    def test_the_limit_and_the_image(self) -> None:
        desk = evaluator(self.folder, "reference.desk")
        rules, image = self.file("rules.drl", ENDLESS), self.folder / "image"
        command = [*command_of("sozhipen"), "--live", "--program", str(desk), "--limit", "1", "--image", str(image)]
        for line, script in ((2, '{"do":"insert","type":"Clock","fields":{"ticks":0}}\n{"do":"fire"}\n'),
                             (3, '{"do":"fire"}\n')):
            ran = subprocess.run([*command, str(rules)], input=script.encode(), capture_output=True, check=False)
            said = [json.loads(text) for text in ran.stdout.splitlines()]
            self.assertEqual((said[-1], ran.returncode), ({"line": line, "at": 0, "limit": 1}, 0))


if __name__ == "__main__":
    unittest.main()
