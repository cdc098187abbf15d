"""Warnings: of rule files that have one each, of the examples, and of none that is not so."""

import unittest

from support import TOP

from sozhipen_tools.reference.generators.generate import case_of
from sozhipen_tools.reference.meaning.run import program_or_refusal, report
from sozhipen_tools.reference.meaning.tokens import line_of
from sozhipen_tools.rulefile.lint import warnings_of

EXAMPLES = TOP / "examples"

TYPES = """declare Draw @role( event ) @timestamp( at ) @expires( 1h ) at : long card : String cents : long end
declare Call @role( event ) @expires( 1h ) card : String end
declare Card number : String open : boolean count : long end
declare Told @role( event ) @expires( 10m ) card : String end
declare Block card : String end
declare Long @role( event ) card : String end
declare Owner @reference card : String end
declare Lamp number : String on : boolean since : long end
declare Press @role( event ) @timestamp( at ) @expires( 1h ) at : long lamp : String up : boolean end
declare entry-point "ATM" @lateness( 2s ) end
"""

# Rules over these types, and the warnings that they have.
RULES = [
    ('rule r when Draw() from entry-point "ATM" then end', []),
    ('rule r when Draw() from entry-point "AMT" then end', ["undeclared-entry"]),
    ('rule r when ( Call() or Draw() from entry-point "AMT" or Draw() from entry-point "AMT" ) then end',
     ["undeclared-entry"]),
    ('declare Loud extends Call volume : long end rule r when $a : Call() Call( card == $a.card, this after[0s,9s] $a '
     ') then end', ["pairs-itself"]),
    ('rule r when $a : Draw( $c : card ) Draw( card == $c, this after[1ms,9s] $a ) from entry-point "ATM" then end',
     ["no-from"]),
    ('rule r when $a : Draw( $c : card ) from entry-point "ATM" not( Draw( card == $c, this before[0s,9s] $a ) from '
     'entry-point "ATM" ) then end',
     ["meets-itself"]),
    ('rule r when $a : Draw( $c : card ) from entry-point "ATM" not( Call( card == $c, this before[0s,9s] $a ) ) then '
     'end', ["same-moment"]),
    ('rule r when $a : Draw( $c : card ) from entry-point "ATM" not( Draw( card == $c, this before[1ms,9s] $a ) from '
     'entry-point "ATM" ) then end', []),
    ('rule r when Draw() over window:time( 60 ) then end', ["bare-number"]),
    ('rule r when Draw() over window:time( 60ms ) then end', []),
    ('rule r when $a : Call() Call( this after[1,30] $a ) then end', ["bare-number"]),
    ('rule r when Call() over window:time( 2h ) then end', ["no-effect"]),
    ('rule r when Call() over window:time( 59m ) then end', []),
    ('rule r when Draw() over window:time( 2s ) from entry-point "ATM" then end', ["too-late"]),
    ('declare Brief @role( event ) @expires( 1s ) end rule r when Brief() from entry-point "ATM" then end',
     ["too-late"]),
    ('rule r when Draw() over window:time( 2s1ms ) from entry-point "ATM" then end', []),
    ('rule r when $a : Call() not( Draw( this after[1s,2s] $a, this before[1s,2s] $a ) from entry-point "ATM" ) then '
     'end', ["impossible"]),
    ('rule r when $a : Card( open == true ) then modify( $a ) { count = 1 } end', ["again"]),
    ('rule r when $a : Card( open == true ) then modify( $a ) { count = 1, open = false } end', []),
    ('rule r when $a : Card( count < 9 ) then modify( $a ) { count = $a.count + 1 } end', []),
    ('rule r when $a : Card( $n : number ) Card( number == $n, count > 3 ) then modify( $a ) { count = 1 } end',
     ["pairs-itself"]),
    ('rule r when $a : Card() not( Block() ) then modify( $a ) { count = 1 } insert( new Block( "x" ) ); end', []),
    ('rule r when Block( card == "x" ) then insert( new Block( "x" ) ); end', ["again"]),
    ('rule r when Block( card == "x" ) then insert( new Block( "y" ) ); end', []),
    ('rule r when $b : Block() then retract( $b ); insert( new Block( "y" ) ); end', ["again"]),
    ('rule r when $l : Long( $c : card ) over window:time( 1m ) not( Told( card == $c ) ) then insert( new Told( $c ) '
     '); end', []),
    ('rule r when $l : Call( $c : card ) not( Told( card == $c ) ) then insert( new Told( $c ) ); end', []),
    ('rule r when $a : Draw( $c : card ) from entry-point "ATM" Draw( card == $c, this after[0s,9s] $a ) from '
     'entry-point "ATM" then end',
     ["pairs-itself"]),
    ('rule r when $a : Draw( $c : card ) from entry-point "ATM" Draw( card == $c, this after[1ms,9s] $a ) from '
     'entry-point "ATM" then end', []),
    ('rule r when $a : Card( $n : number, open == true ) Card( number == $n, open == false ) then end', []),
    ('rule r when $a : Call( $c : card ) not( Call( card == $c, this after[0s,9s] $a ) ) then end', ["meets-itself"]),
    ('rule r when $a : Call( $c : card ) not( Call( card == $c, this after[1ms,9s] $a ) ) then end', []),
    ('rule r when $a : Press( $l : lamp, up == true ) not( Press( lamp == $l, up == false, this after[0s,9s] $a ) ) '
     'then end', []),
    ('rule r when $a : Press( $l : lamp ) not( Press( lamp == $l, up == false, this after[0s,9s] $a ) ) then end', []),
    ('rule r when $a : Card( $n : number, open == true ) exists( Card( number == $n ) ) then end', ["meets-itself"]),
    ('rule r when Card( $n : number ) $a : Call( card == $n ) not( Call( card == $n, this after[0s,9s] $a ) ) then end',
     ["meets-itself"]),
    ('rule r when not( Block( $c : card ) ) then end', ["unseen-binding"]),
    ('rule r when Long( $c : card ) Card( number == $c ) then end', ["for-ever"]),
    ('rule r when Long( $c : card ) Owner( card == $c ) then end', []),
    ('rule r when Long( $c : card ) Owner( card == $c ) Card( number == $c ) then end', ["for-ever"]),
    ('rule r when Long( $c : card ) Card( number == $c ) not( Told( card == $c ) ) then insert( new Told( $c ) ); end',
     ["for-ever", "old-events"]),
    ('rule r when $l : Long( $c : card ) not( Call( card == $c, this after[0s,9s] $l ) ) not( Told( card == $c ) ) '
     'then insert( new Told( $c ) ); end',
     ["for-ever", "old-events"]),
    ('rule r when $l : Long( $c : card ) not( Call( card == $c, this after $l ) ) not( Told( card == $c ) ) then '
     'insert( new Told( $c ) ); end',
     ["for-ever"]),
    ('rule r when Long( card == "x" ) over window:length( 3 ) then end', ["for-ever"]),
    ('rule r when accumulate( Long( $c : card ) over window:length( 3 ); $n : count( $c ) ) then end', ["for-ever"]),
    ('rule r when Call( card == "x" ) over window:length( 3 ) then end', []),
    ('rule r when $l : Long( $c : card ) Call( card == $c, this after[0s,9s] $l ) over window:length( 3 ) then end',
     ["for-ever"]),
    ('rule r when Long( $c : card ) over window:time( 9s ) Call( card == $c ) over window:length( 3 ) then end', []),
    ('rule r when $c : Call() not( Long( this after[0s,9s] $c ) ) Draw() over window:length( 3 ) then end', []),
    ('rule r when $c : Call() Draw() over window:length( 3 ) not( Long( this after[0s,9s] $c ) ) then end',
     ["for-ever"]),
]

# The lines of the examples that have a warning; each is so, and some are there to be shown.
OF_EXAMPLES = {
    "endless.drl": ["8 again"],
    "parcels.drl": ["26 for-ever", "27 for-ever", "27 undeclared-entry"],
    "coming-from/differs.drl": ["16 pairs-itself", "23 undeclared-entry"],
    "coming-from/esper.drl": ["18 for-ever", "19 for-ever", "26 for-ever", "56 for-ever", "61 for-ever"],
    "coming-from/flink.drl": ["11 for-ever", "13 for-ever", "16 for-ever", "18 for-ever", "39 for-ever", "53 for-ever"],
}


class Lint(unittest.TestCase):
    def test_rules(self) -> None:
        for rule, names in RULES:
            with self.subTest(rule):
                self.assertEqual(sorted({w.code for w in warnings_of((TYPES + rule).encode())}), names)

    def test_a_table_that_no_rule_changes(self) -> None:
        rule = "rule r when Long( $c : card ) Card( number == $c ) then end "
        for other, told in (("", True), ("rule s when $c : Card( count == 1 ) then retract( $c ); end", False)):
            instead = [w.instead for w in warnings_of((TYPES + rule + other).encode()) if w.code == "for-ever"]
            self.assertEqual([text.startswith("`@reference` for `Card`") for text in instead], [told])

    def test_a_window_of_length_needs_more_than_a_bound(self) -> None:
        rule = "rule r when $l : Long( $c : card ) Call( card == $c{} ) over window:length( 3 ) then end"
        for bound in ("", ", this after[0s,9s] $l"):
            told = [w for w in warnings_of((TYPES + rule.format(bound)).encode()) if w.code == "for-ever"]
            self.assertEqual([w.instead for w in told], ["a window of time here, or an @expires for the type"])
            self.assertIn("condition 2 has a window of length", told[0].what)

    def test_an_entry_point_that_nobody_looks_into(self) -> None:
        rules = (b'declare Draw @role( event ) @expires( 1h ) end declare entry-point "ATM" end rule r when Draw() '
                 b'then end')
        self.assertEqual([w.code for w in warnings_of(rules)], ["unseen-entry"])

    def test_a_retraction_brings_old_events_back(self) -> None:
        block = "rule block when Long( $c : card ) not( Block( card == $c ) ) then insert( new Block( $c ) ); end "
        free = "rule free when $b : Block() Card( count > 0 ) then retract( $b ); end"
        self.assertIn("old-events", {w.code for w in warnings_of((TYPES + block + free).encode())})
        self.assertNotIn("old-events", {w.code for w in warnings_of((TYPES + block).encode())})

    def test_two_rules_to_and_fro(self) -> None:
        """They are told of, and run into the limit; where the next event has to be later they do not."""
        script = b"".join(b'{"do":"insert","type":%s}\n' % fact for fact in (
            b'"Lamp","fields":{"number":"a","on":false,"since":-1}', b'"Press","fields":{"at":0,"lamp":"a","up":true}',
            b'"Press","fields":{"at":0,"lamp":"a","up":false}')) + b'{"do":"fire"}\n'
        rule = """rule {0} when $l : Lamp( $n : number, on == {1}, $s : since ) $p : Press( lamp == $n, up == {2}{3} )
then modify( $l ) {{ on = {2}, since = $p.at }} end
"""
        for later, told in (("", True), (", at > $s", False)):
            rules = (TYPES + rule.format("on", "false", "true", later)
                     + rule.format("off", "true", "false", later)).encode()
            self.assertEqual([w.code for w in warnings_of(rules) if w.code != "for-ever"], ["to-and-fro"] if told
                             else [])
            self.assertEqual(report(rules, script, 50)[1] == 4, told)

    def test_given_and_taken_to_and_fro(self) -> None:
        script = b"".join(b'{"do":"insert","type":%s}\n' % fact for fact in (
            b'"Press","fields":{"at":0,"lamp":"a","up":true}', b'"Call","fields":{"card":"a"}')) + b'{"do":"fire"}\n'
        block = "rule block when Press( $c : lamp ) not( Block( card == $c ) ) then insert( new Block( $c ) ); end\n"
        for free, told in (("rule free when $b : Block( $c : card ) Call( card == $c ) then retract( $b ); end", True),
                           ("rule free when $b : Block( $c : card ) not( Call( card == $c ) ) then retract( $b ); end",
                            False)):
            rules = (TYPES + block + free).encode()
            self.assertEqual([w.code for w in warnings_of(rules) if w.code != "for-ever"], ["to-and-fro"] if told
                             else [])
            self.assertEqual(report(rules, script, 50)[1] == 4, told)

    def test_no_from_in_a_file(self) -> None:
        """A pattern that looks into DEFAULT, where the others of its type do not."""
        named = 'rule {} when $a : Long() from entry-point "ATM" Call( this after[0s,9s] $a ) then end\n'
        bare = "rule bare when Long() then end\n"
        for many, told in ((1, []), (2, ["no-from"])):
            rules = TYPES + "".join(named.format(f"r{k}") for k in range(many)) + bare
            self.assertEqual([w.code for w in warnings_of(rules.encode())], told)

    def test_what_an_accumulate_counted_is_gone(self) -> None:
        rule = """rule r when $l : Long( $c : card ) accumulate( $x : Long( card == $c ) over window:time( {} );
$n : count( $x ); $n >= 3 )
not( Told( card == $c ) ) then insert( new Told( $c ) ); end"""
        for span, told in (("10m", False), ("11m", True)):
            self.assertEqual("old-events" in {w.code for w in warnings_of((TYPES + rule.format(span)).encode())}, told)

    def test_one_sum_in_several_rules(self) -> None:
        """Variables may have other names; rules that share all up to there share the node, and are none."""
        rule = ('rule r{0} when $d : Draw( $c : card ) over window:time( 1ms ) accumulate( Draw( card == $c, ${1} : '
                'cents ) over window:time( 10m ); $s : sum( ${1} ); $s > {2} ) then end\n')
        for names, bounds, told in (("xyz", (1, 2, 3), True), ("xy", (1, 2), False), ("xyz", (1, 1, 1), False)):
            text = "".join(rule.format(k, name, bound) for k, (name, bound) in enumerate(zip(names, bounds)))
            found = [w for w in warnings_of((TYPES + text).encode()) if w.code == "same-sum"]
            self.assertEqual(len(found), int(told), text)
        other = rule.replace("10m", "11m")
        text = rule.format(1, "x", 1) + rule.format(2, "x", 2) + other.format(3, "x", 3)
        self.assertNotIn("same-sum", [w.code for w in warnings_of((TYPES + text).encode())])

    def test_examples(self) -> None:
        for path in sorted(EXAMPLES.glob("**/*.drl")):
            data, name = path.read_bytes(), str(path.relative_to(EXAMPLES))
            with self.subTest(name):
                told = sorted((line_of(data, w.at), w.code) for w in warnings_of(data))
                self.assertEqual([f"{line} {code}" for line, code in told], OF_EXAMPLES.get(name, []))

    def test_again_is_so(self) -> None:
        """A rule of which it is told that it makes itself pending again runs into the limit."""
        script = b'{"do":"insert","type":"Card","fields":{"number":"a","open":true,"count":2}}\n' \
                 b'{"do":"insert","type":"Block","fields":{"card":"x"}}\n{"do":"fire"}\n'
        for rule, names in RULES:
            if "Card" in rule or "Block" in rule:
                output, status = report((TYPES + rule).encode(), script, 50)
                with self.subTest(rule):
                    self.assertEqual(status == 4, names == ["again"])

    def test_random_files(self) -> None:
        """Nothing fails; what is kept for ever is what the mode lives calls infinite."""
        for seed in range(60):
            data = case_of(seed).rules
            if not isinstance(program_or_refusal(data), str):
                self.assertIsInstance(warnings_of(data), list)


if __name__ == "__main__":
    unittest.main()
