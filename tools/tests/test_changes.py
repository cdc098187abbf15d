"""Other rules over a running state, by the second evaluator: what stays, what is refused, the bytes of lives, and the
comparer of changes."""

from __future__ import annotations

import json
import subprocess
import tempfile
import unittest
from collections import Counter
from dataclasses import replace
from functools import lru_cache
from io import BytesIO
from pathlib import Path
from typing import Any, Callable, Optional, Union
from unittest import mock

from sozhipen import Session
from sozhipen_tools.places import command_of
from sozhipen_tools.reference.comparers import changes as comparer
from sozhipen_tools.reference.desk import desk_at_start
from sozhipen_tools.reference.generators.random_changes import changes_of
from sozhipen_tools.reference.images import changes, resume
from sozhipen_tools.reference.images.image import (ENDLESS, EXPLICIT, FINITE, PLAIN, BadImage, ImageLife, decode,
                                                   encode, head_in)
from sozhipen_tools.reference.images.resume import Refused, resumed, saved
from sozhipen_tools.reference.meaning.program import Program
from sozhipen_tools.reference.meaning.run import program_or_refusal

Line = dict[str, Any]
FIRE: Line = {"do": "fire"}

PAID = "declare Paid @role( event ) @expires( 1h ) cents : long end\n"
BIG = 'rule "big" when Paid( cents > 100 ) then end\n'
HUGE = 'rule "huge" when Paid( cents > 1000 ) then end\n'

# Events of lives that the rules give: those of Ask 10 s, those of Paid 0.
BRIEF = "declare Ask @role( event ) end declare Paid @role( event ) end\n"
ASKED = 'rule "asked" when $a : Ask() Paid( this after[0s,10s] $a ) then end\n'
UNPAID = 'rule "unpaid" when $a : Ask() not( Paid( this after[0s,10s] $a ) ) then end\n'
# Three types more; an ask is needed no more.
SENT = BRIEF + """
declare Sent @role( event ) end declare Note n : long end declare Kept @role( event ) @expires( 1h ) end
rule "sent" when $s : Sent() Paid( this after[0s,3s] $s ) then end
"""
WITHIN_AN_HOUR = 'rule "twice" when $p : Paid() Paid( this after[0s,1h] $p ) then end\n'


parts_of = lru_cache(changes_of)


def insert(name: str, **fields: Union[int, str, bool]) -> Line:
    return {"do": "insert", "type": name, "fields": fields}


def paid(cents: int) -> Line:
    return insert("Paid", cents=cents)


def at(ms: int) -> Line:
    return {"do": "at", "ms": ms}


def program_of(rules: str) -> Program:
    program = program_or_refusal(rules.encode())
    assert not isinstance(program, str), program
    return program


class Desk:
    """What desks print and leave that follow one another over one image."""

    def __init__(self, rules: str, *lines: Line, keep: Optional[str] = None):
        self.image: Optional[bytes] = None
        self.first = self.under(rules, *lines, keep=keep)

    def under(self, rules: str, *lines: Line, keep: Optional[str] = None) -> list[str]:
        """The lines of text of the next run, but for those that close a line."""
        try:
            state = desk_at_start(program_of(rules), 100, True, self.image, lambda run: None,
                                  None if keep is None else program_of(keep))
        except Refused as refused:
            return [f"refused checkpoint {refused}"]
        for line in lines:
            state.number += 1
            state.line(state.number, json.dumps(line).encode())
        self.image = saved(state)
        return [line for line in state.lines if not line.startswith("done ")]


class Rows(unittest.TestCase):
    """One change each, over rules that are told in a line."""

    def test_a_new_rule_is_silent_about_what_is_there(self) -> None:
        desk = Desk(PAID + BIG, paid(1500), FIRE)
        self.assertEqual(desk.first, ["new #1 Paid", 'fire "big" #1'])
        self.assertEqual(desk.under(PAID + BIG + HUGE, FIRE), ['rule "big" stays', 'rule "huge" new'])

    def test_a_new_rule_fires_for_what_comes(self) -> None:
        desk = Desk(PAID + BIG, paid(1500), FIRE)
        self.assertEqual(desk.under(PAID + BIG + HUGE, FIRE, paid(2000), FIRE)[2:],
                         ["new #2 Paid", 'fire "big" #2', 'fire "huge" #2'])

    def test_what_is_pending_of_a_rule_that_stays_fires(self) -> None:
        self.assertEqual(Desk(PAID + BIG, paid(1500)).under(PAID + BIG + HUGE, FIRE)[2:], ['fire "big" #1'])

    def test_a_rule_with_something_pending_cannot_go(self) -> None:
        desk = Desk(PAID + BIG, paid(1500))
        before = desk.image
        self.assertEqual(desk.under(PAID + HUGE), ["refused checkpoint Pending"])
        self.assertEqual(desk.image, before)
        self.assertEqual(desk.under(PAID + BIG, FIRE), ['fire "big" #1'])

    def test_an_edited_rule_is_a_new_one(self) -> None:
        desk = Desk(PAID + BIG, paid(1500), FIRE)
        self.assertEqual(desk.under(PAID + BIG.replace("100", "101"), FIRE, paid(102), FIRE),
                         ['rule "big" new', 'rule "big" gone', "new #2 Paid", 'fire "big" #2'])
        self.assertEqual(Desk(PAID + BIG, paid(1500)).under(PAID + BIG.replace("100", "101")),
                         ["refused checkpoint Pending"])

    def test_a_type_with_one_field_more(self) -> None:
        desk = Desk(PAID + BIG, paid(1500), FIRE)
        self.assertEqual(desk.under(PAID.replace("cents", "shop : long cents") + BIG),
                         ["refused checkpoint OtherTypes"])

    def test_a_new_not_over_events_that_are_forgotten(self) -> None:
        self.assertEqual(Desk(BRIEF + ASKED).under(BRIEF + ASKED + UNPAID), ["refused checkpoint Forgotten Paid"])

    def test_a_new_rule_that_needs_events_for_longer(self) -> None:
        self.assertEqual(Desk(BRIEF + ASKED).under(BRIEF + ASKED + WITHIN_AN_HOUR), ["refused checkpoint Longer Paid"])

    def test_a_not_that_waits_has_its_alarm(self) -> None:
        desk = Desk(BRIEF + UNPAID, insert("Ask"), at(9_000))
        rules = BRIEF + 'rule "other" when Ask() then end\n' + UNPAID
        self.assertEqual(desk.under(rules, FIRE, at(10_000), FIRE, at(10_001), FIRE),
                         ['rule "other" new', 'rule "unpaid" stays', 'fire "unpaid" #1'])


class WhatStays(unittest.TestCase):
    def test_other_variables_comments_and_places(self) -> None:
        old = PAID + 'rule "two" when $p : Paid( $c : cents ) Paid( cents > $c, this after[0s,5s] $p ) then end\n' + BIG
        new = BIG + 'rule "two" when $a : Paid( $b : cents ) Paid( cents > $b, this after[0s,5s] $a ) then end\n' + PAID
        desk = Desk(old, paid(1), paid(200), FIRE, paid(300))
        self.assertEqual(desk.under("// other comments\n" + old), [])
        self.assertEqual(desk.under(new, FIRE), [
            'rule "big" stays', 'rule "two" stays', 'fire "big" #3', 'fire "two" #2 #3', 'fire "two" #1 #3'])

    def test_what_makes_a_rule_another_one(self) -> None:
        told = Desk(PAID + "declare Told cents : long end\n" + BIG + "declare entry-point late end\n")
        image = told.image
        rules = PAID + "declare Told cents : long end declare entry-point late end\n"
        for other in ('rule "large" when Paid( cents > 100 ) then end',
                      'rule "big" salience 1 when Paid( cents > 100 ) then end',
                      'rule "big" when Paid( cents > 100 ) then insert( new Told( 1 ) ); end',
                      'rule "big" when Paid( cents > 100 ) from entry-point late then end',
                      'rule "big" when Paid( cents > 100 ) over window:time( 1h ) then end',
                      'rule "big" when Paid( cents > 100, cents > 0 ) then end'):
            told.image = image
            name = other.split('"')[1]
            self.assertEqual(told.under(rules + other), [f'rule "{name}" new', 'rule "big" gone'], other)

    def test_actions(self) -> None:
        old = PAID + "declare Told cents : long n : long end\n"
        rule = "rule r when $p : Paid( $c : cents ) then insert( new Told( {}, {} ) ); end\n"
        desk = Desk(old + rule.format("$c", "$c + 1"))
        image = desk.image
        for first, second, stays in (("$p.cents", "$c + 1", True), ("$c", "1 + $c", False), ("$c", "$c + 2", False),
                                     ("$c", "-$c", False)):
            desk.image = image
            self.assertEqual(desk.under(old + rule.format(first, second))[0],
                             f'rule "r" {"stays" if stays else "new"}', (first, second))

    def test_ways_of_a_rule(self) -> None:
        """A new type below another is one way more; the ways that were there stay, and are told once."""
        old = "declare Animal end declare Dog extends Animal end rule seen when $a : Animal() then end\n"
        new = "declare Animal end declare Cat extends Animal end declare Dog extends Animal end\n"
        new += "rule seen when $a : Animal() then end\n"
        desk = Desk(old, insert("Dog"), insert("Animal"))
        self.assertEqual(desk.under(new, insert("Cat"), FIRE), [
            'rule "seen" stays', 'rule "seen" new', "new #3 Cat", 'fire "seen" #3', 'fire "seen" #2', 'fire "seen" #1'])

    def test_rules_that_are_the_same_twice(self) -> None:
        """Each of two equal ways keeps its own marks."""
        twice = PAID + "rule seen when ( Paid( cents > 1 ) or Paid( cents > 1 ) ) then end\n"
        desk = Desk(twice, paid(5), {"do": "fire", "max": 1})
        self.assertEqual(desk.under(twice + HUGE, FIRE), ['rule "seen" stays', 'rule "huge" new', 'fire "seen" #1'])

    def test_types_and_entry_points_come(self) -> None:
        desk = Desk(PAID + BIG, paid(1500), FIRE)
        new = 'declare Sent @role( event ) cents : long end declare entry-point "shop" @lateness( 5s ) end\n' + PAID
        new += BIG + ('rule "sent" when Sent( $c : cents ) from entry-point "shop" not( Paid( cents == $c ) ) '
                      "not( Sent( cents > $c ) ) then end\n")
        self.assertEqual(desk.under(new, FIRE, {**insert("Sent", cents=9), "entry": "shop"}, FIRE),
                         ['rule "big" stays', 'rule "sent" new', "new #2 Sent", 'fire "sent" #2'])
        self.assertEqual(desk.under(PAID + BIG), ["refused checkpoint OtherTypes"])

    def test_a_result_of_other_value_comes_anew(self) -> None:
        count = 'rule "many" when Number( longValue > 1 ) from accumulate( $p : Paid(), count( $p ) ) then end\n'
        desk = Desk(PAID + BIG, paid(1), paid(2))
        self.assertEqual(desk.under(PAID + BIG + count, FIRE, paid(3), FIRE)[2:], ["new #3 Paid", 'fire "many" =3'])

    def test_rules_in_another_order_fire_in_that_order(self) -> None:
        """Where an action ends what another rule has pending, their order is seen."""
        item = "declare Item n : long end\n"
        rules = [f'rule "{name}" when $i : Item() then retract( $i ); end\n' for name in "ab"]
        desk = Desk(item + rules[0] + rules[1], insert("Item", n=1))
        image = desk.image
        self.assertEqual(desk.under(item + rules[0] + rules[1], FIRE), ['fire "a" #1'])
        desk.image = image
        self.assertEqual(desk.under(item + rules[1] + rules[0], FIRE), [
            'rule "b" stays', 'rule "a" stays', 'fire "b" #1'])


class WhatIsRefused(unittest.TestCase):
    def test_the_first_in_order(self) -> None:
        """Of a file in which much is wrong, which is mended bit by bit."""
        door = 'declare entry-point "shop" @lateness( 5s ) end\n'
        old, many = BRIEF + door + ASKED, WITHIN_AN_HOUR + UNPAID
        desk = Desk(old, insert("Ask"), insert("Paid"))
        other_door = door.replace("5s", "6s")
        other_type = BRIEF.replace("Ask @role( event )", "Ask @role( event ) n : long")
        for rules, code in ((other_type + other_door + many, "OtherTypes"), (BRIEF + other_door + many, "OtherEntries"),
                            (BRIEF + door + many, "Pending")):
            self.assertEqual(desk.under(rules), [f"refused checkpoint {code}"])
        self.assertEqual(desk.under(old, FIRE), ['fire "asked" #1 #2'])
        for rules, code in ((many, "Longer Paid"), (UNPAID, "Forgotten Paid")):
            self.assertEqual(desk.under(BRIEF + door + rules), [f"refused checkpoint {code}"])
        self.assertEqual(desk.under(BRIEF + door + 'rule "any" when Paid() then end'), [
            'rule "any" new', 'rule "asked" gone'])

    def test_the_first_type_of_the_new_file(self) -> None:
        both = 'rule "late" when $a : Ask() Ask( this after[0s,1h] $a ) then end\n' + WITHIN_AN_HOUR
        others = "declare Paid @role( event ) end declare Ask @role( event ) end\n"
        for types, named in ((BRIEF, "Ask"), (others, "Paid")):
            self.assertEqual(Desk(BRIEF + ASKED).under(types + ASKED + both), [f"refused checkpoint Longer {named}"])

    def test_an_order_of_fields(self) -> None:
        two = "declare Two a : long b : long end rule r when Two( a == 1 ) then end\n"
        self.assertEqual(Desk(two).under(two.replace("a : long b : long", "b : long a : long")),
                         ["refused checkpoint OtherTypes"])

    def test_a_life_for_ever(self) -> None:
        """What has no upper bound needs all events; a type whose events are all kept is counted anew."""
        open_end = 'rule "ever" when $p : Paid() Paid( this after[0s] $p ) then end\n'
        self.assertEqual(Desk(BRIEF + ASKED).under(BRIEF + ASKED + open_end), ["refused checkpoint Longer Paid"])
        desk = Desk(BRIEF + ASKED + open_end, insert("Paid"), at(50_000), insert("Ask"), FIRE)
        self.assertEqual(desk.under(BRIEF + ASKED + open_end + UNPAID, at(60_001), FIRE)[2:],
                         ['rule "unpaid" new', 'fire "unpaid" #2'])

    def test_with_expiries_alone_no_life_refuses(self) -> None:
        kept = "declare Ask @role( event ) @expires( 1m ) end declare Paid @role( event ) @expires( 1m ) end\n"
        desk = Desk(kept + ASKED, insert("Ask"), insert("Paid"), FIRE)
        self.assertEqual(desk.under(kept + ASKED + UNPAID + WITHIN_AN_HOUR, FIRE),
                         ['rule "asked" stays', 'rule "unpaid" new', 'rule "twice" new'])

    def test_a_new_not_over_a_new_type(self) -> None:
        new = BRIEF + "declare Sent @role( event ) end\n" + ASKED
        new += 'rule "unsent" when $a : Ask() not( Sent( this after[0s,1s] $a ) ) then end\n'
        self.assertEqual(Desk(BRIEF + ASKED, insert("Ask")).under(new, at(1_001), FIRE, insert("Sent")), [
            'rule "asked" stays', 'rule "unsent" new', 'fire "unsent" #1', "new #2 Sent"])

    def test_an_image_of_rules_that_are_none(self) -> None:
        image = decode(Desk(PAID + BIG).image or b"")
        desk = Desk(PAID + BIG)
        changes: list[dict[str, Any]] = [{"rules": b"rule"}, {"rules": b"\xff"}, {"lines": 2**62}]
        for change in changes:
            desk.image = encode(replace(image, run=replace(image.run, **change)))
            self.assertEqual(desk.under(PAID + HUGE), ["refused checkpoint Unfit"])


class Lives(unittest.TestCase):
    """The lives of before go on with the world, and its image says them."""

    def changed(self) -> Desk:
        desk = Desk(BRIEF + ASKED, insert("Ask"))
        self.assertEqual((desk.image or b"")[:4], b"FXC1")
        self.assertEqual(desk.under(SENT), ['rule "sent" new', 'rule "asked" gone'])
        return desk

    def test_bytes(self) -> None:
        """In front of the image without them those of Ask, Paid, Sent, Note and Kept."""
        image = self.changed().image or b""
        lives = b"".join([(5).to_bytes(8, "big"), b"\2" + (10_000).to_bytes(8, "big"), b"\2" + bytes(8),
                          b"\2" + (3_000).to_bytes(8, "big"), b"\0", b"\1" + (3_600_000).to_bytes(8, "big")])
        without = encode(replace(decode(image), lives=None))
        self.assertEqual(image, b"FXC2" + lives + without)
        self.assertEqual(without[:4], b"FXC1")
        self.assertEqual(decode(image).lives, (
            ImageLife(FINITE, 10_000), ImageLife(FINITE, 0), ImageLife(FINITE, 3_000), ImageLife(PLAIN),
            ImageLife(EXPLICIT, 3_600_000)))
        self.assertEqual(encode(decode(image)), image)
        for other in (image[:-1], image + b"\0", b"FXC3" + image[4:], b"FXC1" + image[4:], b"FXC2" + without,
                      b"FXC2" + without[4:], b"FXC2" + lives + without[4:], b"FXC2" + bytes(8) + without[4:],
                      b"FXC2" + lives + image, image[:12] + b"\4" + image[13:], b"FXC2" + b"\xff" * 8 + without,
                      b"FXC2"):
            self.assertRaises(BadImage, decode, other)
        self.assertEqual(head_in(BytesIO(image)), head_in(BytesIO(without)))
        self.assertEqual(head_in(BytesIO(image)).lines, 1)
        for end in range(0, len(image) - len(without) + 4):
            self.assertRaises(BadImage, head_in, BytesIO(image[:end]))

    def test_they_go_on(self) -> None:
        """An ask is kept for 10 s, though no rule needs it."""
        desk = self.changed()
        held: Line = {"do": "held"}
        self.assertEqual(desk.under(SENT, at(10_000), held)[0], "held Ask 1")
        self.assertEqual(desk.under(SENT, at(10_001), held)[0], "held Ask 0")
        self.assertEqual((desk.image or b"")[:4], b"FXC2")
        again = SENT + 'rule "back" when $a : Ask() Paid( this after[0s,{}s] $a ) then end\n'
        self.assertEqual(desk.under(again.format(11)), ["refused checkpoint Longer Ask"])
        self.assertEqual(desk.under(again.format(10)), ['rule "sent" stays', 'rule "back" new'])

    def test_a_recorder_knows_none(self) -> None:
        desk = self.changed()
        for rules in (SENT, BRIEF + ASKED):
            self.assertRaisesRegex(Refused, "BadImage", resumed, desk.image, program_of(rules), 100)

    def test_they_are_told_where_they_are_others(self) -> None:
        """An image whose lives are those of its rules says none, whatever the one before it said."""
        desk = self.changed()
        self.assertEqual(desk.under(SENT + ASKED), ['rule "sent" stays', 'rule "asked" new'])
        self.assertEqual((desk.image or b"")[:4], b"FXC1")
        self.assertEqual(Desk(PAID + BIG).under(PAID + BIG + HUGE), ['rule "big" stays', 'rule "huge" new'])
        same = encode(replace(decode(desk.image or b""), lives=(
            ImageLife(FINITE, 10_000), ImageLife(FINITE, 0), ImageLife(FINITE, 3_000), ImageLife(PLAIN),
            ImageLife(EXPLICIT, 3_600_000))))
        told, desk.image = desk.image, same
        self.assertEqual(desk.under(SENT + ASKED), [])
        self.assertEqual(desk.image, told)

    def test_lives_that_are_not_safe(self) -> None:
        desk = Desk(BRIEF + ASKED, insert("Ask"))
        image = decode(desk.image or b"")
        right = (ImageLife(FINITE, 10_000), ImageLife(FINITE, 0))
        for lives, fits in ((right, True), ((ImageLife(ENDLESS), right[1]), True),
                            ((ImageLife(FINITE, 9_999), right[1]), False), ((ImageLife(FINITE, 2**62), right[1]), True),
                            ((ImageLife(FINITE, 2**62 + 1), right[1]), False), (right[:1], False),
                            ((ImageLife(PLAIN), right[1]), False), ((ImageLife(EXPLICIT, 10_000), right[1]), False),
                            ((ImageLife(FINITE, 10_000), ImageLife(FINITE, -1)), False)):
            desk.image = encode(replace(image, lives=lives))
            self.assertEqual(desk.under(BRIEF + ASKED, FIRE), [] if fits else ["refused checkpoint Unfit"], lives)

    def test_rows_that_count_forgotten_events(self) -> None:
        """They stand under the rule that begins so and is left, wherever that stands."""
        types = BRIEF + "declare Sent @role( event ) end\n"
        long = 'rule "long" when $a : Ask() Sent( this after[0s,1h] $a ) then end\n'
        missing = UNPAID.replace("then", "Sent( this after[0s,1h] $a ) then")
        other = missing.replace('"unpaid"', '"other"')
        desk = Desk(types + UNPAID + other + long, insert("Ask"), insert("Paid"), at(20_000))
        self.assertEqual([e.rule for e in decode(desk.image or b"").extras], [0])
        self.assertEqual(desk.under(types + long + other, insert("Sent"), FIRE),
                         ['rule "long" stays', 'rule "other" stays', 'rule "unpaid" gone', "new #3 Sent",
                          'fire "long" #1 #3'])
        self.assertEqual([e.rule for e in decode(desk.image or b"").extras], [1])


class Keep(unittest.TestCase):
    """Events are kept for rules that are to come."""
    HELD: Line = {"do": "held"}

    def test_a_change_that_was_prepared(self) -> None:
        """Those of Paid for an hour, and then a rule that needs them so is taken."""
        later = BRIEF + ASKED + WITHIN_AN_HOUR
        desk = Desk(BRIEF + ASKED, insert("Ask"), insert("Paid"), FIRE, at(20_000), self.HELD, keep=later)
        self.assertEqual(desk.first[3:], ["held Ask 0", "held Paid 1"])
        self.assertEqual(decode(desk.image or b"").lives, (ImageLife(FINITE, 10_000), ImageLife(FINITE, 3_600_000)))
        self.assertEqual(desk.under(BRIEF + ASKED, self.HELD, keep=later), ["held Ask 0", "held Paid 1"])
        self.assertEqual(desk.under(later, insert("Paid"), FIRE), [
            'rule "asked" stays', 'rule "twice" new', "new #3 Paid", 'fire "twice" #3 #3', 'fire "twice" #2 #3'])

    def test_it_changes_what_is_kept_alone(self) -> None:
        lines = (insert("Ask"), at(9_000), insert("Paid"), FIRE, at(50_000), insert("Paid"), FIRE)
        first = Desk(BRIEF + ASKED, *lines).first
        self.assertEqual(Desk(BRIEF + ASKED, *lines, keep=BRIEF + ASKED + WITHIN_AN_HOUR).first, first)
        self.assertEqual(first, ["new #1 Ask", "new #2 Paid", 'fire "asked" #1 #2', "new #3 Paid"])

    def test_the_greater_of_both(self) -> None:
        """By name, and of events whose lives the rules give."""
        types = ("declare Ask @role( event ) end declare Paid @role( event ) @expires( 1h ) end "
                 "declare Sent n : long end\n")
        keep = ("declare Sent @role( event ) end declare Ask @role( event ) end declare Paid @role( event ) end "
                "declare More @role( event ) end rule r when $a : Ask() Sent( this after[0s,5s] $a ) "
                "Paid( this after[0s,1d] $a ) More( this after[0s,1s] $a ) then end\n")
        for own, life in ((1, 86_400), (86_401, 86_401)):
            rule = f"rule s when $a : Ask() Ask( this after[0s,{own}s] $a ) then end\n"
            lives = decode(Desk(types + rule, keep=keep).image or b"").lives
            wanted = (ImageLife(FINITE, life * 1000), ImageLife(EXPLICIT, 3_600_000), ImageLife(PLAIN))
            self.assertEqual(lives, wanted if life > own else None)
        ever = BRIEF + "rule r when $a : Ask() Ask( this after[0s] $a ) then end\n"
        self.assertEqual(decode(Desk(BRIEF + ASKED, keep=ever).image or b"").lives,
                         (ImageLife(ENDLESS), ImageLife(FINITE, 0)))
        self.assertIsNone(decode(Desk(ever, keep=BRIEF + ASKED).image or b"").lives)

    def test_behind_an_image_events_were_forgotten(self) -> None:
        later = BRIEF + ASKED + WITHIN_AN_HOUR
        desk = Desk(BRIEF + ASKED)
        before = desk.image
        self.assertEqual(desk.under(BRIEF + ASKED, keep=later), ["refused checkpoint Longer Paid"])
        self.assertEqual(desk.under(BRIEF + ASKED + 'rule "any" when Paid() then end', keep=later),
                         ["refused checkpoint Longer Paid"])
        self.assertEqual(desk.image, before)
        others = "declare Paid @role( event ) end declare Ask @role( event ) end declare More @role( event ) end\n"
        both = ('rule "more" when $m : More() More( this after[0s,1h] $m ) then end\n'
                'rule "late" when $a : Ask() Ask( this after[0s,1h] $a ) then end\n' + WITHIN_AN_HOUR)
        self.assertEqual(desk.under(BRIEF + ASKED, keep=others + both), ["refused checkpoint Longer Paid"])
        self.assertEqual(desk.under(BRIEF + ASKED, keep=others + both.split("\n")[0]), [])

    def test_what_the_rules_themselves_are_refused_for_comes_first(self) -> None:
        desk = Desk(BRIEF + ASKED, insert("Ask"), insert("Paid"))
        self.assertEqual(desk.under(BRIEF + WITHIN_AN_HOUR.replace("1h", "0s"), keep=BRIEF + WITHIN_AN_HOUR),
                         ["refused checkpoint Pending"])

    def test_a_new_type_has_the_life_of_its_rules(self) -> None:
        new = BRIEF + "declare Sent @role( event ) end\n" + ASKED
        keep = new + 'rule "sent" when $s : Sent() Sent( this after[0s,1s] $s ) then end\n'
        self.assertEqual(Desk(BRIEF + ASKED).under(new, keep=keep), ["refused checkpoint Longer Sent"])


class Printed(unittest.TestCase):
    """What the evaluator prints as a program, and what it leaves in the file."""

    def setUp(self) -> None:
        folder = tempfile.TemporaryDirectory()
        self.addCleanup(folder.cleanup)
        self.folder = Path(folder.name)

    def ran(self, rules: str, *lines: Line, words: tuple[str, ...] = ("--image", "image"),
            tool: str = "reference.desk") -> tuple[str, int]:
        (self.folder / "rules.drl").write_text(rules, encoding="utf-8")
        done = subprocess.run([*command_of(tool), *words, "rules.drl"], cwd=self.folder, stdout=subprocess.PIPE,
                              input="".join(json.dumps(line) + "\n" for line in lines).encode(), check=False)
        return done.stdout.decode(), done.returncode

    @property
    def image(self) -> bytes:
        return (self.folder / "image").read_bytes()

    def test_objects_and_lines(self) -> None:
        self.ran(PAID + BIG + HUGE, paid(1500), FIRE)
        before = self.image
        other = PAID + BIG + 'rule "a \\"b\\"" when Paid() then end\n'
        told = ['{"change":"stays","rule":"big"}', '{"change":"new","rule":"a \\"b\\""}',
                '{"change":"gone","rule":"huge"}']
        self.assertEqual(self.ran(other), ("".join(line + "\n" for line in told), 0))
        (self.folder / "image").write_bytes(before)
        self.assertEqual(self.ran(other, words=("--text", "--image", "image")),
                         ('rule "big" stays\nrule "a \\"b\\"" new\nrule "huge" gone\n', 0))
        self.assertEqual(self.ran(other, FIRE), ('{"done":3,"fired":0,"pending":false}\n', 0))

    def test_a_refusal_leaves_the_file(self) -> None:
        self.ran(PAID + BIG, paid(1500))
        before = self.image
        self.assertEqual(self.ran(PAID + HUGE, FIRE), ("refused checkpoint Pending\n", 9))
        self.assertEqual(self.image, before)
        self.assertEqual(self.ran(PAID + BIG + HUGE, words=("--resume", "image"), tool="reference.replay"),
                         ("refused checkpoint OtherRules\n", 9))

    def test_until_it_saves_the_file_is_of_the_old_rules(self) -> None:
        """One that is killed begins again with the same change."""
        self.ran(PAID + BIG, paid(1500), FIRE)
        before = self.image
        (self.folder / "rules.drl").write_text(PAID + BIG + HUGE, encoding="utf-8")
        with subprocess.Popen([*command_of("reference.desk"), "--image", "image", "rules.drl"], cwd=self.folder,
                              stdin=subprocess.PIPE, stdout=subprocess.PIPE, bufsize=0) as process:
            assert process.stdin and process.stdout
            process.stdin.write(json.dumps(paid(2000)).encode() + b"\n")
            told = b""
            while b"done" not in told:
                told += process.stdout.read(1 << 16)
            process.kill()
        self.assertEqual(self.image, before)
        self.assertEqual(self.ran(PAID + BIG + HUGE, paid(2000))[0].encode(), told)

    def test_a_client_goes_on(self) -> None:
        self.ran(PAID + BIG, paid(1500), FIRE)
        rules, image = self.folder / "rules.drl", self.folder / "image"
        rules.write_text(PAID + BIG + HUGE, encoding="utf-8")
        with Session(rules, command_of("reference.desk"), live=True, image=image) as session:
            session.insert("Paid", {"cents": 2000})
            self.assertEqual([firing.rule for firing in session.fire().firings], ["big", "huge"])
            self.assertEqual([fact.id for fact in session.kept()], [1, 2])
        self.assertEqual(self.image[:4], b"FXC1")

    def test_words(self) -> None:
        """The rules for which events are kept are read behind the rules, before the image."""
        (self.folder / "image").write_bytes(b"no image")
        (self.folder / "wrong.drl").write_text("rule when then", encoding="utf-8")
        keep = ("--image", "image", "--keep")
        self.assertEqual(self.ran("declare", words=(*keep, "wrong.drl"))[1], 3)
        self.assertEqual(self.ran(PAID, words=(*keep, "none.drl")), ("refused item 0 line 0 Missing\n", 3))
        self.assertEqual(self.ran(PAID, words=(*keep, "wrong.drl")), ("refused item 1 line 1 Syntax\n", 3))
        self.assertEqual(self.ran(PAID, words=(*keep, "rules.drl")), ("refused checkpoint BadImage\n", 9))
        self.assertEqual(self.ran(PAID + BIG, paid(101), FIRE, words=("--text", "--keep", "rules.drl")),
                         ('new #1 Paid\ndone 1\nfire "big" #1\ndone 2\n', 0))
        for words in (("--keep", "rules.drl", "--keep", "rules.drl"), ("--keep",)):
            self.assertEqual(self.ran(PAID, words=words)[1], 2)


class Comparer(unittest.TestCase):
    def first(self, end: int) -> Optional[str]:
        found = (comparer.first_difference(parts_of(seed), seed % 2 == 0, Counter()) for seed in range(end))
        return next((said for said in found if said), None)

    def test_the_evaluator_is_as_the_definition(self) -> None:
        self.assertIsNone(self.first(20))

    def test_wrong_definitions(self) -> None:
        """What goes on from images by one of these is told."""
        def marked_by_place(w: Any, new: Program) -> Any:
            other = changes.changed(w, new)
            return other.with_fired(w.fired & {m.key for m in other.matches})

        def without_marks(w: Any, new: Program) -> Any:
            other, added = changes.changed(w, new), changes.new_rules(w.program, new)
            return other.with_fired(frozenset(key for key in other.fired if key[0] not in added))

        def without_extras(w: Any, new: Program) -> Any:
            return replace(changes.changed(w, new), extras={})

        def by_other_lives(w: Any, new: Program) -> Any:
            other = changes.changed(w, new)
            return replace(other, program=replace(other.program, lives=None))

        wrong: list[tuple[str, Callable]] = [("changed", marked_by_place), ("changed", without_marks),
                                             ("changed", without_extras), ("changed", by_other_lives),
                                             ("kept_for", lambda program, keep: program),
                                             ("longer_types", lambda lives, keep: [])]
        for name, other in wrong:
            with mock.patch.object(resume, name, other):
                self.assertIsNotNone(self.first(60), (name, other.__name__))


if __name__ == "__main__":
    unittest.main()
