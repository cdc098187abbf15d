"""Where a refusal stands: mistakes in a rule file of which all else is right, a rule as for Drools, and random
files."""

import unittest

from support import TOP

from sozhipen_tools.reference.generators.generate import case_of
from sozhipen_tools.rulefile.where import (FILE_END, all_complaints, complaints_of, is_told, read_tolerantly,
                                           refusal_of, report)

DESK = """package bank;
declare Account id : String limit : long open : boolean end
declare Draw @role( event ) @timestamp( at ) at : long account : String cents : long end
declare Case account : String cents : long end
declare entry-point "ATM" @lateness( 2s ) end

rule "twice"
  salience 5
when
  $a : Account( $i : id, open == true )
  $d : Draw( account == $i ) from entry-point "ATM"
  Draw( account == $i, this after[1ms,30s] $d ) from entry-point "ATM"
  not( Case( account == $i ) )
then
  insert( new Case( $i, $d.cents + 1 ) );
end

rule "emptied"
when
  $a : Account( $i : id, $l : limit )
  accumulate( Draw( account == $i, $x : cents ) over window:time( 1h ) from entry-point "ATM"; \
$sum : sum( $x ); $sum > $l )
then
  modify( $a ) { open = false, limit = 0 };
end
"""

# What stands in the file, what is written instead, and what is told: the place, the code, and a part of the text.
MISTAKES = [
    ("open : boolean end", "open : boolean", "2:49 Syntax", "`end` is missing"),
    ("limit : long", "limit : double", "2:37 WrongKind", "whole numbers"),
    ("id : String limit", "from : String limit", "2:17 Syntax", "a reserved word"),
    ("declare entry-point", "declare entrypoint", "5:9 Syntax", "entry-point"),
    ("salience 5", "no-loop true", "8:3 Syntax", "let a field say"),
    ("salience 5\nwhen", "salience 5", "9:3 Syntax", "`when` is missing"),
    ("open == true", "open = true", "10:31 Syntax", "`==`"),
    ("open == true )", "open == true", "11:3 Syntax", "`)` is missing"),
    ("open == true", "open", "10:31 Syntax", "`open == true`"),
    ("open == true", "!open", "10:26 BadChar", "`open == false`"),
    ("open : boolean end", "open : boolean default true end", "2:65 Syntax", "no default"),
    ("after[1ms,30s] $d )", "after[1ms,30s] $d && this before $d )", "12:47 Syntax", "`,` before it"),
    ("not( Case( account == $i ) )", "not( Case( account == $i ) or Draw( cents == 5 ) )", "13:30 Syntax",
     "neither of two"),
    ("$x : cents ) over", "$x : cents ) and Case() over", "21:49 Syntax", "one pattern is the source"),
    ("$x : cents ) over", "$x : cents ) $k : Case() over", "21:49 Syntax", "one pattern is the source"),
    ("; $sum : sum( $x )", "; sum( $x )", "21:96 Syntax", "the result has a variable"),
    ("$sum > $l )", "$sum > $l )\n  eval( $sum * 2 > $l )", "22:14 Syntax", "no `eval`"),
    ("$sum > $l )", "$sum > $l )\n  eval( limit > 5 )", "22:3 UnknownType", "no `eval`"),
    ("$d.cents + 1", "$d.getCents() + 1", "15:36 Syntax", "the field alone"),
    ("$a : Account( $i : id, open", "$a : Acount( $i : id, open", "10:8 UnknownType", "`Account`?"),
    ("$i : id, open", "$i : ident, open", "10:22 UnknownField", "`Account` has no field `ident`"),
    ('account == $i ) from entry-point "ATM"\n  Draw', 'account == i ) from entry-point "ATM"\n  Draw',
     "11:25 UnknownField", "`$i`"),
    ("after[1ms,30s] $d", "after[1ms,30s] $e", "12:44 UnknownVariable", "`$e` is bound by no"),
    ("after[1ms,30s] $d", "after(1ms,30s) $d", "12:34 Syntax", "square brackets"),
    ("after[1ms,30s] $d", "after[1ms,30s] $a", "12:44 NotAnEvent", "`Account`, which is a plain type"),
    ("after[1ms,30s] $d", "after[1,2,3] $d", "12:29 BadParams", "0 or 1 or 2"),
    ("after[1ms,30s] $d", "after[1ms,30s] $d, this before $d", "12:53 NeverMatches", "no events"),
    ("then\n  insert", "  insert", "14:3 Syntax", "`then` is missing"),
    ("new Case( $i,", "new Case( 7,", "15:21 WrongKind", "`account` is a text"),
    ("new Case( $i, ", "new Case( ", "15:15 WrongKind", "`account`, `cents`"),
    ("insert( new Case( $i, $d.cents + 1 ) );", "Case c = new Case( $i );", "15:3 Syntax", "no variable for it"),
    ('rule "emptied"', 'rule "twice"', "18:6 TwiceDeclared", "`twice`"),
    ("; $sum : sum", ", $sum : sum", "21:94 Syntax", "`;` stands before the function"),
    ("sum( $x )", "avg( $x )", "21:103 Syntax", "average"),
    ("sum( $x )", "sum( $l )", "21:108 UnknownVariable", "no variable of the source"),
    ("open = false, ", "open = false; ", "23:30 Syntax", "`,` between"),
    ("open = false, limit = 0", "open = 0, open = false", "23:25 WrongKind", "a truth value"),
    ("modify( $a ) { open = false, limit = 0 };", "$a.setOpen( false );", "23:3 Syntax", "modify("),
    ("limit = 0 };\nend", "limit = 0 };\nend;", "24:4 Syntax", "no `;`"),
    ("( 1h )", "( 1hour )", "21:67 BadChar", "`1hour`"),
    ('rule "emptied"', "rule “emptied”", "18:6 BadChar", '`"`'),
    ('entry-point "ATM"\n  not', 'entry-point "ATM\n  not', "12:66 OpenText", "not closed"),
    ("declare Account id", "declare Account @reference id", "23:11 ReferenceFixed", "`Account` is a reference type"),
    ("declare Case account", "declare Case @reference account", "15:15 ReferenceFixed", "a type of its own"),
    ("declare Draw @role( event )", "declare Draw @role( event ) @reference", "3:30 BadReference",
     "reference facts are plain"),
    ("declare Case account", "declare Case @refrence account", "4:15 Syntax", "`reference`?"),
    ("declare Case account", "declare Room @reference( true ) account : String end declare Case account", "4:24 Syntax",
     "without parentheses"),
    ("declare Case account", "declare Room @reference @reference account : String end declare Case account",
     "4:26 TwiceDeclared", "`@reference` stands a second time"),
]

# A file of alternatives and subtypes.
WATER = """declare Reading @role( event ) @expires( 1h ) tank : String value : long end
declare Level extends Reading end
declare Pressure extends Reading valve : String end
declare Pump @reference name : String tank : String end
declare Told tank : String end

rule "alarm" when
  Pump( $n : name, $t : tank )
  ( Level( tank == $t, $v : value, value > 90 ) or $p : Pressure( tank == $t, $v : value, value > 50 ) )
  not( Told( tank == $t ) )
then
  insert( new Told( $t ) );
end
rule "silent" when $r : Reading( $t : tank ) not( Reading( tank == $t, this after[1ms,5s] $r ) ) then end
"""

MISTAKES_IN_WATER = [
    ("Level extends Reading", "Level extends Readin", "2:23 UnknownType", "`Reading`?"),
    ("Reading @role( event ) @expires", "Reading extends Level @role( event ) @expires", "1:25 BadExtends",
     "in a circle"),
    ("Level extends Reading end", "Level @role( event ) extends Reading end", "2:30 Syntax", "after the name"),
    ("Level extends Reading end", "Level extends Reading, Pump end", "2:30 Syntax", "one other"),
    ("Level extends Reading end", "Level extends Reading tank : String end", "2:31 TwiceDeclared", "`tank`"),
    ("name : String tank", "or : String tank", "4:25 Syntax", "a reserved word"),
    (" or $p : Pressure( tank == $t, $v : value, value > 50 ) )", " )", "9:49 Syntax", "a second alternative"),
    (" or $p", " || $p", "9:49 Syntax", "( A() or B() )"),
    ("value > 50 ) )", "value > 50 )", "11:1 Syntax", "`)` is missing"),
    ("Level( tank == $t,", "Level( tank = $t,", "9:17 Syntax", "`==`"),
    ("new Told( $t )", "new Told( $p.tank )", "12:21 UnknownVariable", "some of its alternatives"),
    ("value > 90", "level > 90", "9:36 UnknownField", "`Level` has no field `level`"),
    ("not( Reading( tank", "exists( Reading( tank", "14:54 HasSubtypes", "`Level`, `Pressure`"),
    ("not( Reading( tank == $t, this", "not( Reading( tank == $t, $v : value, this", "14:72 TwiceDeclared",
     "one for each"),
]

DROOLS = """import java.util.List;
declare Transaction @role( event ) @timestamp( ts ) ts : long card : String amount : double end
rule "Velocity"
    no-loop true
when
    $t1 : Transaction( $c : card, amount > 100.0 ) from entry-point "pos"
    $t2 : Transaction( card == $c, this != $t1, this after[ 0s, 60s ] $t1 ) from entry-point "pos"
then
    Alert a = new Alert( $c );
    insert( a );
    System.out.println( "velocity " + $c );
end
"""


def places(text: str) -> list[str]:
    """The line and the code of each complaint."""
    told = [line.split(":") for line in text.splitlines() if line.startswith("f:")]
    return [f"{line} {code.strip()}" for _, line, _, code, *_ in told]


class Where(unittest.TestCase):
    def test_mistakes(self) -> None:
        self.assertEqual(report("f", DESK.encode()), "")
        for old, new, place, part in MISTAKES:
            with self.subTest(new):
                self.assertIn(old, DESK)
                text = report("f", DESK.replace(old, new, 1).encode())
                line, code = place.split()
                self.assertIn(f"f:{line}: {code}: ", text)
                self.assertIn(part, text)

    def test_one_mistake_is_told_once(self) -> None:
        """What follows from a mistake is not told as another one."""
        for old, new, place, _ in MISTAKES:
            if "open = 0" not in new and "“" not in new:
                with self.subTest(new):
                    self.assertEqual(len(places(report("f", DESK.replace(old, new, 1).encode()))), 1)

    def test_alternatives_and_subtypes(self) -> None:
        self.assertEqual(report("f", WATER.encode()), "")
        for old, new, place, part in MISTAKES_IN_WATER:
            with self.subTest(new):
                self.assertIn(old, WATER)
                text = report("f", WATER.replace(old, new, 1).encode())
                line, code = place.split()
                self.assertIn(f"f:{line}: {code}: ", text)
                self.assertIn(part, text)

    def test_too_many_ways(self) -> None:
        """They are told, and not written out."""
        choice = "( " + " or ".join(["Told()"] * 16) + " )"
        text = report("f", WATER.replace("Pump( $n : name, $t : tank )",
                                         "Pump( $n : name, $t : tank )" + choice * 12).encode())
        self.assertEqual(places(text), ["7 LimitPassed"])
        deep = "( Told() or " * 17 + "Told()" + " )" * 17
        self.assertIn("at most 16 deep", report("f", WATER.replace("not( Told( tank == $t ) )", deep).encode()))

    def test_a_rule_for_drools(self) -> None:
        """All its mistakes at once."""
        self.assertEqual(places(report("f", DROOLS.encode())),
                         ["2 WrongKind", "4 Syntax", "6 Syntax", "7 Syntax", "9 Syntax", "9 UnknownType", "10 Syntax",
                          "11 Syntax"])

    def test_what_is_accepted(self) -> None:
        """Nothing is told of examples and random files, even where the checks are not asked first."""
        files = [path.read_bytes() for path in sorted(TOP.glob("examples/**/*.drl"))]
        files += [case_of(seed).rules for seed in range(60)]
        for data in files:
            if refusal_of(data) is None:
                items, complaints = read_tolerantly(data)
                self.assertEqual(complaints + complaints_of(items), [])

    def test_planted_refusals(self) -> None:
        """Random files with one refusal: it is among what is told, without asking the checks."""
        for seed in range(2, 200, 3):
            data = case_of(seed).rules
            if len(data) <= FILE_END and refusal_of(data) is not None:
                items, complaints = read_tolerantly(data)
                with self.subTest(seed):
                    self.assertTrue(is_told(data, refusal_of(data), complaints + complaints_of(items)))

    def test_an_attribute_that_is_none(self) -> None:
        for attribute in ("timer( int: 10s )", "@severity( high )", "enabled( false )", "priority 5"):
            data = f"declare A n : long end rule r {attribute} when A( n > 3 ) then end".encode()
            self.assertEqual([(c.at, c.code) for c in all_complaints(data)], [(30, "Syntax")], attribute)
        data = b"<!-- two\nlines --> declare A n : long end rule r when A( n > 3 ) then end"
        self.assertEqual([(c.at, c.instead[:9]) for c in all_complaints(data)], [(1, "a comment")])

    def test_what_to_write_instead(self) -> None:
        for conditions, instead in (("A() over window:length( 5 ) by n", "last n of a key"),
                                    ("accumulate( A( $n : n ) over window:length( 5 ) by n; $s : sum( $n ) )",
                                     "last n of a key"), ('A( s.startsWith( "x" ) )', "a truth value"),
                                    ("A( s.length > 5 )", "one more field"), ("A( s.length() > 5 )", "one more field"),
                                    ("A() from entry-point my-auths", "in quotes"),
                                    ("$a : A() A( this during[-1s] $a )", "0 or more")):
            data = f"declare A @role( event ) n : long s : String end rule r when {conditions} then end".encode()
            told = all_complaints(data)
            self.assertEqual(len(told), 1, conditions)
            self.assertIn(instead, told[0].instead)

    def test_odd_bytes(self) -> None:
        for data in (b"", b"\xff", b"rule", b"declare", b'"', b"/*", b"rule r when", b"\xef\xbb\xbfpackage a",
                     b"declare T end\x00", b"$"):
            self.assertEqual(all_complaints(data) == [], refusal_of(data) is None)


if __name__ == "__main__":
    unittest.main()
