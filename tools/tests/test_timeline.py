"""Counts of the three desks, and what the page is made of."""

import json
import re
import unittest
from collections import Counter
from pathlib import Path

from support import TOP

from sozhipen_tools.timeline.clock import Clock
from sozhipen_tools.timeline.marks import EVENTS, FACTS, FAULTS, FIRINGS, PROMISES, picture_of
from sozhipen_tools.timeline.page import page, title_of
from sozhipen_tools.timeline.recording import Change, Recording, Unfit, recording_of

EXAMPLES = TOP / "examples"
PICTURES = TOP / "docs" / "pictures"

HOSTILE = b"""declare Note text : String end
rule "<b>&" when Note( $t : text ) then end
"""


def desk(name: str) -> Recording:
    rules, script, output = (EXAMPLES / f"{name}.{ending}" for ending in ("drl", "jsonl", "out"))
    return recording_of(rules.read_bytes(), script.read_bytes(), output.read_bytes())


def kinds(recording: Recording) -> Counter:
    return Counter(mark.kind for mark in picture_of(recording).marks)


class Desks(unittest.TestCase):
    def test_counts(self) -> None:
        self.assertEqual(kinds(desk("fraud")), {EVENTS: 13, FACTS: 7, FIRINGS: 21, FAULTS: 4})
        self.assertEqual(kinds(desk("alarm")), {EVENTS: 18, FACTS: 6, FIRINGS: 17, FAULTS: 3})
        self.assertEqual(kinds(desk("plant")), {EVENTS: 24, FACTS: 6, FIRINGS: 18, FAULTS: 4})

    def test_alternatives(self) -> None:
        """A rule of several ways has one lane, and its firings its name."""
        water = desk("desks/water")
        self.assertEqual([(f.rule, f.facts) for f in water.firings][:3],
                         [("runs over", [1, 5]), ("no such station", [7]), ("foul", [8, 9])])
        self.assertEqual(water.rules, ["runs over", "silent", "foul", "no such station"])

    def test_waiting(self) -> None:
        """`silent` of the fraud desk waits for calls up to 202500, and fires at the line that moves the clock on."""
        silent = next(firing for firing in desk("fraud").firings if firing.rule == "silent")
        self.assertEqual((silent.line, silent.clock, silent.waiting.since, silent.waiting.until),
                         (36, 202501, 112500, 202501))

    def test_a_promise(self) -> None:
        """It ends the waiting before the clock does."""
        script = b"""{"do":"insert","type":"Smoke","fields":{"room":"hall"}}
{"do":"at","ms":50}
{"do":"promise","entry":"radio","from":10001}
{"do":"fire"}
"""
        recording = recording_of((EXAMPLES / "smoke.drl").read_bytes(), script, b'new #1 Smoke\nfire "no water" #1\n')
        self.assertEqual([(f.line, f.waiting.since, f.waiting.until) for f in recording.firings], [(4, 0, 50)])
        picture = picture_of(recording)
        promise = next(mark for mark in picture.marks if mark.kind == PROMISES)
        self.assertEqual((promise.start, promise.gone, promise.label), (50, None, "radio from 10001"))
        self.assertEqual(promise.text, "line 3, at 50: no event that starts before 10001 comes into radio")
        self.assertEqual([lane.kind for lane in picture.lanes], [PROMISES, EVENTS, FIRINGS])
        text = page("smoke", recording, picture)
        self.assertIn("1 fact or event, 1 firing, 0 faults", text)
        self.assertIn("</svg> promise", text)

    def test_a_promise_ahead(self) -> None:
        """It is drawn up to its moment, where the clock comes there."""
        script = b"""{"do":"at","ms":50}
{"do":"promise","entry":"radio","from":60}
{"do":"at","ms":100}
"""
        recording = recording_of((EXAMPLES / "smoke.drl").read_bytes(), script, b"")
        self.assertEqual([(mark.start, mark.gone) for mark in picture_of(recording).marks], [(50, 60)])

    def test_a_begin(self) -> None:
        """Facts of a table come before it alone."""
        rules = (b"declare E @role( event ) k : long end declare F @reference k : long end rule r when $e : E() F( k "
                 b"== $e.k ) then end")
        script = b"""{"do":"insert","type":"F","fields":{"k":1}}
{"do":"begin"}
{"do":"begin"}
{"do":"insert","type":"F","fields":{"k":2}}
{"do":"insert","type":"E","fields":{"k":1}}
{"do":"fire"}
"""
        recording = recording_of(rules, script, b'new #1 F\nfault 4 ReferenceFixed\nnew #2 E\nfire "r" #2 #1\n')
        self.assertEqual((kinds(recording), [fault.code for fault in recording.faults]),
                         ({EVENTS: 1, FACTS: 1, FIRINGS: 1, FAULTS: 1}, ["ReferenceFixed"]))

    def test_lives(self) -> None:
        lives = desk("fraud").lives
        self.assertEqual((lives[7].told, lives[7].gone, lives[7].maker), (110000, 111000, 2))
        self.assertEqual(lives[7].changes, [Change(111000, {"open": False})])
        self.assertEqual((lives[4].start, lives[4].told, lives[4].gone), (98500, 100000, 7298500))
        beat = desk("alarm").lives[4]
        self.assertEqual((beat.gone, beat.retracted), (30000, False))

    def test_actions(self) -> None:
        """Facts that an action inserts are at the clock of its firing, and joined to it."""
        marks = {mark.key: mark for mark in picture_of(desk("plant")).marks}
        self.assertEqual((marks["r9"].makes, marks["f13"].start), (("f13",), 425001))


DATED = b"""declare Limit most : long end
declare Buy @role( event ) @timestamp( at ) at : long card : String end
rule "bought" when Buy() then end
"""


class Dates(unittest.TestCase):
    SCRIPT = (b'{"do":"insert","type":"Limit","fields":{"most":5}}\n{"do":"at","ms":1772445600000}\n'
              b'{"do":"insert","type":"Buy","fields":{"at":1772445600000,"card":"a card of many '
              b'letters"}}\n{"do":"fire"}\n')

    def test_a_clock_since_1970(self) -> None:
        picture = picture_of(recording := recording_of(DATED, self.SCRIPT,
                                                       b'new #1 Limit\nnew #2 Buy\nfire "bought" #2\n'))
        self.assertTrue(picture.data()["dates"])
        self.assertIn("at 2026-03-02 10:00:00; inserted at 2026-03-02 10:00:00 by line 3", picture.marks[1].text)
        self.assertIn("inserted at 0 by line 1", picture.marks[0].text)
        self.assertIn("the clock ends at 2026-03-02 10:00:00 UTC", page("dated", recording, picture))

    def test_other_clocks(self) -> None:
        self.assertFalse(picture_of(desk("fraud")).clock.dates)
        self.assertFalse(picture_of(recording_of(DATED, b"", b"")).clock.dates)
        self.assertEqual((Clock(True).text(1772445600001), Clock(False).text(5)), ("2026-03-02 10:00:00.001", "5"))

    def test_labels_have_a_field_that_is_no_time(self) -> None:
        marks = picture_of(recording_of(DATED, self.SCRIPT, b'new #1 Limit\nnew #2 Buy\nfire "bought" #2\n')).marks
        self.assertEqual([mark.label for mark in marks], ["#1 most 5", "#2 card a card of many l …", "#2"])


class Pages(unittest.TestCase):
    def test_titles(self) -> None:
        self.assertEqual(title_of(EXAMPLES / "fraud.drl"), "fraud")
        self.assertEqual(title_of(Path("/desks/card testing/rules.drl")), "card testing")

    def test_the_pictures_are_of_today(self) -> None:
        for name in ("fraud", "alarm", "plant"):
            text = page(name, recording := desk(name), picture_of(recording))
            self.assertEqual((PICTURES / f"{name}.html").read_text(encoding="utf-8"), text,
                             f"draw {name} anew, as README.md says")

    def test_texts_are_escaped(self) -> None:
        script = b'{"do":"insert","type":"Note","fields":{"text":"</script><i>"}}\n{"do":"fire"}\n'
        recording = recording_of(HOSTILE, script, b'new #1 Note\nfire "<b>&" #1\n')
        text = page("<u>", recording, picture_of(recording))
        for raw in ("</script><i>", "<b>", "<u>"):
            self.assertNotIn(raw, text)
        data = json.loads(re.search(r'id="data">(.*)</script>', text)[1])
        self.assertIn("</script><i>", data["marks"][0]["text"])

    def test_files_that_do_not_fit(self) -> None:
        insertion = b'{"do":"insert","type":"Note","fields":{"text":"a"}}\n'
        for rules, script, output in ((b"rule", b"", b""), (HOSTILE, insertion, b""),
                                      (HOSTILE, insertion, b"new #2 Note\n"), (HOSTILE, b"", b"new #1 Note\n"),
                                      (HOSTILE, b"{", b"")):
            with self.assertRaises(Unfit):
                recording_of(rules, script, output)

    def test_held_lines(self) -> None:
        rules = b"declare Call @role( event ) end declare Note end declare Ring @role( event ) end"
        script = b'{"do":"insert","type":"Call","fields":{}}\n{"do":"held"}\n'
        recording = recording_of(rules, script, b"new #1 Call\nheld Call 0\nheld Ring 0\n")
        self.assertEqual([(printed.line, printed.text) for printed in recording.printed[1:]],
                         [(2, "held Call 0"), (2, "held Ring 0")])
        with self.assertRaises(Unfit):
            recording_of(rules, script, b"new #1 Call\nheld Call 0\n")

    def test_nothing_happens(self) -> None:
        self.assertIn("0 firings", page("none", recording := recording_of(HOSTILE, b"", b""), picture_of(recording)))


if __name__ == "__main__":
    unittest.main()
