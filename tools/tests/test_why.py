"""Why lines are faulty and rules do not fire: one script, and what is told of its lines."""

import argparse
import unittest
from typing import Iterable, Optional

from sozhipen_tools.reference.images.resume import Refused, saved
from sozhipen_tools.reference.meaning.run import Run, program_or_refusal, run_on
from sozhipen_tools.reference.meaning.worlds import World
from sozhipen_tools.running.why import told

RULES = b"""declare Card number : String open : boolean end
declare Draw @role( event ) @timestamp( at ) at : long card : String cents : long end
declare Call @role( event ) @expires( 1m ) card : String end
declare Alert card : String cents : long end
declare entry-point "ATM" @lateness( 2s ) end
rule "silent" when
  $c : Card( $n : number, open == true )
  $d : Draw( card == $n, cents >= 100 ) over window:time( 1h ) from entry-point "ATM" // a large one
  not( Call( card == $n, this after[0s,10s] $d ) )
then insert( new Alert( $n, $d.cents ) ); modify( $c ) { open = false } end
rule "gone" salience -1 when $c : Card( $n : number, open == false )
  accumulate( Draw( card == $n, $x : cents ) from entry-point "ATM"; $sum : sum( $x ); $sum > 1000 )
then retract( $c ); retract( $c ); insert( new Alert( $n, $sum * 9223372036854775807 ) ); end
"""

SCRIPT = b"""{"do":"insert","type":"Card","fields":{"number":"a","open":true}}
{"do":"insert","type":"Card","fields":{"number":"b","open":false}}
{"do":"at","ms":5000}
{"do":"insert","type":"Draw","entry":"ATM","fields":{"at":4000,"card":"a","cents":500}}
{"do":"insert","type":"Draw","entry":"ATM","fields":{"at":4500,"card":"b","cents":5000}}
{"do":"insert","type":"Draw","entry":"ATM","fields":{"at":4400,"card":"b","cents":1}}
{"do":"insert","type":"Draw","entry":"ATM","fields":{"at":2000,"card":"b","cents":1}}
{"do":"insert","type":"Draw","entry":"ATM","fields":{"at":9000,"card":"b","cents":1}}
{"do":"insert","type":"Draw","entry":"ATM","fields":{"at":5000,"card":"b","cent":1}}
{"do":"insert","type":"Draw","entry":"ATM","fields":{"at":5000,"card":7,"cents":1}}
{"do":"insert","type":"Drew","fields":{}}
{"do":"insert","type":"Draw","entry":"ATN","fields":{"at":5000,"card":"b","cents":1}}
{"do":"insert","type":"Draw"}
{"do":"Fire"}
{"do":"fire",}
{"do":"at","ms":1}
{"do":"retract","type":"Call","id":1}
{"do":"modify","type":"Draw","id":3,"fields":{"cents":1}}
{"do":"modify","type":"Card","id":9,"fields":{"open":true}}
{"do":"fire"}
{"do":"at","ms":14001}
{"do":"fire"}
{"do":"insert","type":"Call","fields":{"card":"a"}}
{"do":"modify","type":"Card","id":2,"fields":{"open":true}}
{"do":"at","ms":7000000}
"""

# Of a line what is told of its fault.
FAULTS = {6: "Late: it starts at 4400, and `ATM` takes events from 4500 on, where its last one started",
          8: "Ahead: it starts at 9000, and the clock is 5000",
          9: "BadFields: `Draw` has no field `cent`, `cents`?; `cents` is missing",
          10: "BadValue: `card` is a text, and not 7",
          11: "UnknownType: the rule file declares no `Drew`; `Draw`?",
          12: "UnknownEntry: no pattern and no declaration names `ATN`; `ATM`?",
          13: "BadCommand: `fields` is missing",
          14: "BadCommand: `Fire` is no command; `fire`?",
          15: "BadJson: column 14",
          16: "ClockBack: the clock is 5000, and would go to 1",
          17: 'EventObserved: `Call` stands in a `not`, an `exists`, an accumulate or a window of length: "silent", '
          'condition 3',
          18: "EventFixed: `Draw` is a type of events",
          19: "Absent: no fact has the number 9 yet",
          20: 'Absent: action 2 of fire "gone" #2 =5000: #2 was retracted at line 20',
          24: "Absent: #2 was retracted at line 20"}


def lines(line: int, rule: Optional[str] = None, facts: Iterable[int] = (), script: bytes = SCRIPT) -> str:
    return "\n".join(told(argparse.Namespace(line=line, rule=rule, fact=list(facts)), RULES, script))


class Why(unittest.TestCase):
    def test_values_that_are_none(self) -> None:
        """Each is told by what it is."""
        for written, told_of in (("null", "`null`: each fact has all its fields"),
                                 ("1.0", "`1.0`: a whole number has no fraction and no exponent"),
                                 ("1e3", "`1e3`: a whole number has no fraction and no exponent"),
                                 (str(2**64), f"`{2**64}`, which is outside 64 bits"), ("-0", "`-0`: 0 has no sign"),
                                 ("[1]", "a list"), ("{}", "an object")):
            line = SCRIPT.splitlines()[9].replace(b":7,", b":%s," % written.encode())
            self.assertIn(f"`card` is a text, and not {told_of}\n", lines(1, script=line) + "\n")

    def test_faults(self) -> None:
        for line, text in FAULTS.items():
            with self.subTest(line):
                self.assertIn(text, lines(line))
        self.assertIn("Overflow: action 3 of", lines(20))
        script = (b'{"do":"at","ms":5000}\n'
                  b'{"do":"insert","type":"Draw","entry":"ATM","fields":{"at":2000,"card":"b","cents":1}}\n')
        self.assertIn("Late: it starts at 2000, and `ATM` takes events from 3000 on: the clock is 5000, and the "
                      "lateness 2000", lines(2, script=script))

    def test_faults_of_tables_and_promises(self) -> None:
        rules = (b"declare E @role( event ) k : long end declare F @reference k : long end rule r when $e : E() F( k "
                 b"== $e.k ) then end")
        first = [b'{"do":"insert","type":"F","fields":{"k":1}}', b'{"do":"insert","type":"E","fields":{"k":1}}']
        tried: tuple[tuple[list[bytes], bytes, str], ...] = (
                ([], b'{"do":"insert","type":"F","fields":{"k":2}}',
                 "ReferenceFixed: `F` is a reference type: its facts come before the world begins, "
                 "and it began at line 2, by the first event"),
                ([b'{"do":"begin"}'], b'{"do":"insert","type":"F","fields":{"k":2}}', "it began at line 1, by `begin`"),
                ([], b'{"do":"retract","type":"F","id":1}',
                 "ReferenceFixed: `F` is a reference type: its facts stay as they are"),
                ([], b'{"do":"begin","now":true}',
                 'BadCommand: `now` is no member of `begin`; the form is {"do":"begin"}'),
                ([b'{"do":"promise","from":5}'], b'{"do":"promise","from":4}',
                 "PromiseBack: `DEFAULT` is promised from 5 on, and would be from 4"),
                ([b'{"do":"promise","from":5}'], first[1],
                 "Late: it starts at 0, and `DEFAULT` takes events from 5 on, as was promised"),
                ([], b'{"do":"promise","from":9007199254740993}',
                 "PromiseEnd: the promise is from 9007199254740993 on"))
        for begin, line, text in tried:
            with self.subTest(line):
                script = b"\n".join([*begin, *first, line])
                self.assertIn(text, "\n".join(told(argparse.Namespace(line=None, rule=None, fact=[]), rules, script)))

    def test_a_line_without_a_fault(self) -> None:
        self.assertIn("left: the clock is 5000; events are taken from: `DEFAULT` 5000, `ATM` 4000", lines(4))
        self.assertIn("(it answers nothing)", lines(3))

    def test_pending(self) -> None:
        """At a `fire` line what it finds."""
        text = lines(22)
        self.assertIn("pending: 1\n  fire \"silent\" #1 #3", text)
        self.assertIn("found: the clock is 14001", text)

    def test_a_not_that_waits(self) -> None:
        text = lines(20, "silent")
        self.assertIn('2  $d : Draw( card == $n, cents >= 100 ) over window:time( 1h ) from entry-point "ATM"\n', text)
        self.assertIn("#1 #3: waits until the clock is 14001, at the latest: a `Call` that starts up to 14000 may "
                      "still come into `DEFAULT`", text)

    def test_kept_back(self) -> None:
        self.assertIn("#1: there is no `Draw`", lines(3, "silent"))
        self.assertIn("the empty row: none of the 1 passes `open == true`",
                      lines(1, "silent", script=SCRIPT.replace(b"true", b"false", 1)))
        self.assertIn("#1: none is in the window", lines(25, "silent", script=SCRIPT.replace(b'{"do":"fire"}', b"")))
        self.assertIn("the result is 0, of 0, and `$sum > 1000` fails", lines(2, "gone"))

    def test_what_forbids(self) -> None:
        script = SCRIPT.replace(b'{"do":"at","ms":14001}', b'{"do":"insert","type":"Call","fields":{"card":"a"}}')
        self.assertIn("#1 #3: #5 passes, which it forbids", lines(22, "silent", script=script))

    def test_what_forbids_itself(self) -> None:
        rules = b"declare A @role( event ) end rule r when $a : A() not( A( this after[0s,9s] $a ) ) then end"
        text = "\n".join(told(argparse.Namespace(line=None, rule="r", fact=[]), rules,
                              b'{"do":"insert","type":"A","fields":{}}'))
        self.assertIn("#1: #1 passes, which it forbids: the fact itself", text)

    def test_facts_elsewhere(self) -> None:
        """A `not` that holds, since what it looks for came in by another entry point."""
        rules = b'declare A end declare B end declare entry-point "e" end rule r when A() not( B() ) then end'
        script = b'{"do":"insert","type":"A","fields":{}}\n{"do":"insert","type":"B","entry":"e","fields":{}}\n'
        text = "\n".join(told(argparse.Namespace(line=None, rule="r", fact=[]), rules, script))
        self.assertIn("0 facts to look at, 1 in `e`; rows: 1 come, 1 go on", text)

    def test_what_a_line_with_max_leaves(self) -> None:
        rules = b"declare A end rule r when A() then end"
        script = b'{"do":"insert","type":"A","fields":{}}\n' * 3 + b'{"do":"fire","max":1}\n'
        text = "\n".join(told(argparse.Namespace(line=None, rule=None, fact=[]), rules, script))
        self.assertIn("pending: 3", text)
        self.assertIn("left pending: 2, as the line has a `max`", text)

    def test_what_fires_again(self) -> None:
        rules = b"declare A n : long end declare B end rule r when A() then end rule s when A() not( B() ) then end"
        insert, modify = (b'{"do":"insert","type":"%s","fields":{%s}}\n',
                          b'{"do":"modify","type":"A","id":1,"fields":{"n":2}}\n')
        fire, gone = b'{"do":"fire"}\n', b'{"do":"retract","type":"B","id":2}\n'
        for between, text in ((modify,
                               'fire "r" #1  (again, as at line 2: #1 was modified since, and is a newer version)'),
                              (insert % (b"B", b"") + gone,
                               'fire "s" #1  (again, as at line 2: the match ceased since, and came back)')):
            script = insert % (b"A", b'"n":1') + fire + between + fire
            said = "\n".join(told(argparse.Namespace(line=None, rule=None, fact=[]), rules, script))
            self.assertEqual(said.count(text), 2)

    def test_an_event_told_of_when_it_is_over(self) -> None:
        rules = (b"declare A @role( event ) @timestamp( s ) @duration( d ) s : long d : long end rule r when A() then "
                 b"end")
        script = b'{"do":"at","ms":9000}\n{"do":"insert","type":"A","fields":{"s":5000,"d":4000}}\n'
        text = "\n".join(told(argparse.Namespace(line=None, rule=None, fact=[]), rules, script))
        self.assertIn("the clock is 9000, and `DEFAULT` has no @lateness: an event that is told of when it is over",
                      text)

    def test_dates(self) -> None:
        rules = b"declare A @role( event ) @timestamp( at ) at : long end rule r when A() then end"
        script = b'{"do":"at","ms":1772524800000}\n{"do":"insert","type":"A","fields":{"at":1772524800001}}\n'
        text = "\n".join(told(argparse.Namespace(line=None, rule=None, fact=[]), rules, script))
        self.assertIn("it starts at 1772524800001 (2026-03-03 08:00:00.001), and the clock is 1772524800000 "
                      "(2026-03-03 08:00:00): move", text)

    def test_a_fact(self) -> None:
        text = lines(5, "silent", [4, 2, 99])
        self.assertIn('condition 2: after #1 it fails `card == $n`: card is "b", and it is compared with "a"', text)
        self.assertIn("condition 1: it fails `open == true`: open is false", text)
        self.assertIn("there is no fact #99 up to this line", text)
        self.assertIn("left the window at 3604000", lines(25, "silent", [3], SCRIPT.replace(b'{"do":"fire"}', b"")))
        self.assertIn("was retracted at line 20", lines(21, "gone", [2]))

    def test_the_operator_that_holds(self) -> None:
        rules = b"declare A @role( event ) end rule r when $a : A() A( this after $a ) then end"
        text = "\n".join(told(argparse.Namespace(line=None, rule="r", fact=[1]), rules,
                              b'{"do":"insert","type":"A","fields":{}}'))
        self.assertIn("fails `this after $a`: it is at 0, and $a, #1, at 0, so that `coincides` and `meets` and "
                      "`metby` holds", text)

    def test_ways(self) -> None:
        """Each way of a rule, with the type that it looks at."""
        rules = b"""declare R n : long end declare L extends R end declare F n : long end
rule r when ( R( n == 1 ) or $f : F( n == 2 ) ) then end"""
        text = "\n".join(told(argparse.Namespace(line=None, rule="r", fact=[]), rules,
                              b'{"do":"insert","type":"L","fields":{"n":1}}'))
        self.assertEqual([line for line in text.splitlines() if line.startswith('rule "r"')],
                         [f'rule "r", way {k} of 3' for k in (1, 2, 3)])
        self.assertIn("  1  R( n == 1 ), here `L`\n     1 fact to look at; rows: 1 come, 1 go on\n  #1: pending", text)

    def test_what_has_fired(self) -> None:
        self.assertIn("#2 =5000: pending", lines(20, "gone"))
        rules = RULES.replace(b"modify( $c ) { open = false }", b"")
        text = "\n".join(told(argparse.Namespace(line=23, rule="silent", fact=[]), rules,
                              SCRIPT.replace(b'"Call"', b'"Cell"')))
        self.assertIn("#1 #3: fired at line 22, and stands since", text)


class FromImage(unittest.TestCase):
    """What is asked behind an image is told as in the whole script, but for what only earlier lines know."""

    def image(self, taken: int, rules: bytes = RULES, script: bytes = SCRIPT) -> tuple[bytes, bytes]:
        """The image after so many lines, and the others."""
        program = program_or_refusal(rules)
        assert not isinstance(program, str)
        lines = script.splitlines(keepends=True)
        state = run_on(Run(World(program), 100_000, 100_000, []), b"".join(lines[:taken]))
        return saved(state), b"".join(lines[taken:])

    def asked(self, line: int, rule: Optional[str] = None) -> str:
        image, rest = self.image(5)
        return "\n".join(told(argparse.Namespace(line=line, rule=rule, fact=[]), RULES, rest, image))

    def test_the_same_is_told(self) -> None:
        for line in (6, 8, 10, 15, 16, 18, 20, 22, 24):
            self.assertEqual(self.asked(line), lines(line), line)
        self.assertEqual(self.asked(22, "silent"), lines(22, "silent"))

    def test_what_only_the_image_knows(self) -> None:
        self.assertEqual(self.asked(4), "line 4 is not after the image, which has 5 lines: ask about a later one")
        rules = b'declare A n : long end rule "seen" when A( $n : n ) then end'
        script = b'{"do":"insert","type":"A","fields":{"n":1}}\n{"do":"fire"}\n{"do":"at","ms":5}\n'
        image, rest = self.image(2, rules, script)
        said = "\n".join(told(argparse.Namespace(line=3, rule="seen", fact=[7]), rules, rest, image))
        self.assertIn("#1: fired before the image, and stands since", said)
        self.assertIn("there is no fact #7 up to this line, nor does the image have it", said)

    def test_an_image_of_other_rules(self) -> None:
        image, rest = self.image(5)
        with self.assertRaisesRegex(Refused, "OtherRules"):
            list(told(argparse.Namespace(line=6, rule=None, fact=[]), RULES + b"declare Z end", rest, image))


if __name__ == "__main__":
    unittest.main()
