"""Other rules over a desk by replay: what is carried over, what is told, and that nothing is told twice or lost, by the
second evaluator, and by the built `desk` or that of DESK_PROGRAM."""

from __future__ import annotations

import json
import os
import subprocess
import tempfile
import unittest
from pathlib import Path
from random import Random
from typing import Any, Iterable, Optional

from support import DESK_PROGRAM, evaluator

from sozhipen_tools import deploy
from sozhipen_tools.places import command_of
from sozhipen_tools.reference.desk import desk_at_start
from sozhipen_tools.reference.images.image import Image, decode, encode
from sozhipen_tools.reference.images.resume import Refused, saved
from sozhipen_tools.reference.meaning.program import Program
from sozhipen_tools.reference.meaning.run import program_or_refusal

Line = dict[str, Any]
FIRE: Line = {"do": "fire"}

DRAW = """
declare Draw @role( event ) @timestamp( at ) @duration( len ) at : long len : long card : String cents : long end
declare Account card : String limit : long end
declare Town @reference town : String end
declare entry-point "ATM" @lateness( 2s ) end
"""
SILENT = """
rule "silent" when
  $a : Draw( $c : card, cents > 50 ) from entry-point "ATM"
  not( Draw( card == $c, this after[1ms,3s] $a ) from entry-point "ATM" )
then end
"""
TWO = """
rule "two" when
  $a : Draw( $c : card ) from entry-point "ATM"
  Draw( card == $c, cents > 60, this after[1ms,2s] $a ) from entry-point "ATM"
then end
"""
ABOVE = """
rule "above" when
  Draw( $c : card, $x : cents ) over window:time( 4s ) from entry-point "ATM"
  Account( card == $c, limit < $x )
  Town( town == "harbour" )
then end
"""
SUM = """
rule "sum" when
  Draw( $c : card ) over window:time( 1ms ) from entry-point "ATM"
  accumulate( Draw( card == $c, $x : cents ) over window:time( {}s ) from entry-point "ATM"; $s : sum( $x ); $s > 200 )
then end
"""
TOLD = """
declare Told @role( event ) @expires( 5s ) card : String end
rule "tell" when
  $a : Draw( $c : card, cents > {} ) over window:time( 4s ) from entry-point "ATM"
  not( Told( card == $c ) )
then insert( new Told( $c ) ); end
"""
ALL = DRAW + SILENT + TWO + ABOVE + SUM.format(5)


def insert(name: str, entry: Optional[str] = None, **fields: Any) -> Line:
    return {"do": "insert", "type": name, "fields": fields, **({} if entry is None else {"entry": entry})}


def at(ms: int) -> Line:
    return {"do": "at", "ms": ms}


def draw(card: str, cents: int, ms: int = 100_000) -> Line:
    return insert("Draw", "ATM", at=ms, len=0, card=card, cents=cents)


def account(card: str, limit: int) -> Line:
    return insert("Account", card=card, limit=limit)


def random_script(seed: int, many: int) -> list[Line]:
    """Accounts that come, change and go, and draws in the order of their starts, up to the lateness behind the
    clock."""
    random, clock, start = Random(seed), 100_000, 0
    lines: list[Line] = [insert("Town", town="harbour"), {"do": "begin"}]
    accounts, number = dict[str, int](), 1
    for _ in range(many):
        clock += random.choice((0, 300, 900, 2_000))
        start = max(start, clock - random.choice((0, 0, 500, 1_500, 2_000)))
        card = f"c{random.randrange(3)}"
        lines.append({"do": "at", "ms": clock})
        lines.append(insert("Draw", "ATM", at=start, len=random.choice((0, 200, 1_000)), card=card,
                            cents=random.randrange(100)))
        number += 1
        if card not in accounts:
            lines.append(insert("Account", card=card, limit=random.randrange(60)))
            number += 1
            accounts[card] = number
        elif random.random() < 0.2:
            lines.append({"do": "modify", "type": "Account", "id": accounts[card],
                          "fields": {"limit": random.randrange(60)}})
        elif random.random() < 0.1:
            lines.append({"do": "retract", "type": "Account", "id": accounts.pop(card)})
        lines += [FIRE] * random.randrange(2) + [{"do": "held"}] * (random.random() < 0.05)
        lines += [insert("Draw", "ATM", at=0, len=0, card=card, cents=0)] * (random.random() < 0.05)
    return lines + [FIRE]


def text_of(lines: list[Line]) -> bytes:
    return b"".join(json.dumps(line).encode() + b"\n" for line in lines)


class Evaluators(deploy.Desks):
    """The second evaluator, in this process."""

    def ran(self, rules: bytes, lines: Iterable[bytes], image: Optional[Image], limit: str, output: Any) -> Image:
        state = desk_at_start(program_of(rules), int(limit), False, None if image is None else encode(image),
                              lambda run: None)
        for line in lines:
            state.number += 1
            state.line(state.number, line.rstrip(b"\n"))
        if output is not subprocess.DEVNULL:
            output.write("".join(line + "\n" for line in state.lines).encode())
        return decode(saved(state))


def program_of(rules: bytes) -> Program:
    program = program_or_refusal(rules)
    assert not isinstance(program, str), program
    return program


def fired(answers: list[Line], *but: str) -> list[Line]:
    return [it for it in answers if "fire" in it and it["fire"] not in but]


class Deploying(unittest.TestCase):
    def setUp(self) -> None:
        folder = tempfile.TemporaryDirectory()
        self.addCleanup(folder.cleanup)
        self.folder = Path(folder.name)
        self.desks = Evaluators([], "100000", self.folder)

    def ran(self, rules: str, lines: list[Line], image: Optional[Image] = None) -> tuple[Image, list[Line]]:
        """The image that a desk leaves, and its answers."""
        return self.desks.answered(rules.encode(), [json.dumps(line).encode() + b"\n" for line in lines], image)

    def deployed(self, old: Image, lines: list[Line], rules: str, before: Optional[Image] = None) -> tuple[
            Image, list[str]]:
        """The image under other rules, and what is told of it."""
        for name, data in (("old", encode(old)), ("log", text_of(lines)), ("new.drl", rules.encode())):
            (self.folder / name).write_bytes(data)
        if before is not None:
            (self.folder / "before").write_bytes(encode(before))
        return deploy.deployed(self.asked(before is not None), self.desks)

    def asked(self, has_before: bool = False, log: str = "log") -> deploy.Asked:
        place = self.folder
        return deploy.Asked(place / "old", place / log, place / "new.drl", place / "new",
                            place / "before" if has_before else None, [], "100000")

    # ---- what goes on

    def test_the_same_rules_go_on_as_if_nothing_were(self) -> None:
        """Byte for byte, whatever is left of the first half."""
        for seed in range(2):
            lines = random_script(seed, 24)
            cut = len(lines) // 2 + seed
            old, _ = self.ran(ALL, lines[:cut])
            made, told = self.deployed(old, lines[:cut], ALL)
            self.assertRegex(told[0],
                             r"^lookback: \d+ lines, from line \d+ on, \d+ ms; the new rules look back 6001 ms$")
            self.assertGreater(int(told[0].split()[5]), 3)
            self.assertFalse([line for line in told if "not carried" in line or "nobody" in line])
            rest = self.ran(ALL, lines[cut:], old)
            self.assertEqual(self.ran(ALL, lines[cut:], made)[1], rest[1])
            self.assertTrue(fired(rest[1]))

    def test_rules_that_stay_tell_each_once(self) -> None:
        """Where a change is refused, since a sum looks back for longer."""
        longer, lines = DRAW + SILENT + TWO + ABOVE + SUM.format(20), random_script(5, 24)
        cut = len(lines) // 2
        old, _ = self.ran(ALL, lines[:cut])
        with self.assertRaisesRegex(Refused, "Longer Draw"):
            desk_at_start(program_of(longer.encode()), 1, False, encode(old), None)
        made, told = self.deployed(old, lines[:cut], longer)
        self.assertIn("the new rules look back 21001 ms", told[0])
        news, olds = self.ran(longer, lines[cut:], made)[1], self.ran(ALL, lines[cut:], old)[1]
        whole = self.ran(longer, lines)[1]
        self.assertEqual(fired(news, "sum"), fired(olds, "sum"))
        self.assertEqual(fired(news), [it for it in fired(whole) if it["line"] > cut])
        self.assertTrue(fired(olds, "sum"))

    def test_from_an_earlier_image(self) -> None:
        """Of a log that begins behind it, or before it."""
        lines = random_script(7, 20)
        some, cut = len(lines) // 4, len(lines) // 2
        before, _ = self.ran(ALL, lines[:some])
        old, _ = self.ran(ALL, lines[some:cut], before)
        whole = self.deployed(old, lines[:cut], ALL)
        self.assertEqual(self.deployed(old, lines[some:cut], ALL, before), whole)
        self.assertEqual(self.deployed(old, lines[some - 3:cut], ALL, before), whole)
        self.assertRaisesRegex(deploy.NotDeployed, f"begins with line {some + 1}: --before", self.deployed, old,
                               lines[some:cut], ALL)
        self.assertRaisesRegex(deploy.NotDeployed, f"is behind line {some}, and the log has lines {some + 2} to {cut}",
                               self.deployed, old, lines[some + 1:cut], ALL, before)
        self.assertRaisesRegex(deploy.NotDeployed, "does not lead to", self.deployed, old,
                               lines[:cut - 2] + lines[:2], ALL)
        other, _ = self.ran(ALL + TOLD.format(90), lines[:some])
        self.assertRaisesRegex(deploy.NotDeployed, "is of other rules", self.deployed, old, lines[some:cut], ALL, other)

    def test_a_log_that_begins_too_late(self) -> None:
        lines = [at(100_000), draw("a", 70), FIRE, at(101_000), draw("a", 80, 101_000), FIRE, at(106_000), FIRE]
        before, _ = self.ran(ALL, lines[:4])
        old, _ = self.ran(ALL, lines[4:], before)
        _, told = self.deployed(old, lines[4:], ALL, before)
        self.assertIn("not carried over: the events of 1 ms more, for which there is no earlier image", told)
        _, told = self.deployed(old, lines, ALL)
        self.assertFalse([line for line in told if "not carried" in line])

    def test_of_a_keeper(self) -> None:
        """Its log has the lines that save, and its images are found."""
        save = {"do": "save"}
        lines = [it for k, line in enumerate(random_script(3, 24)) for it in ([line, save] if k % 8 == 7 else [line])]
        cut = len(lines) * 2 // 3
        (self.folder / "log").mkdir()
        (self.folder / "image").mkdir()
        image, first = None, 0
        for k in range(1, cut + 1):
            if lines[k - 1] == save:
                (self.folder / "log" / f"{first:012}.{first:012}").write_bytes(text_of(lines[first:k]))
                image, first = self.ran(ALL, lines[first:k], image)[0], k
                (self.folder / "image" / f"{k:012}").write_bytes(encode(image))
        assert image is not None
        (self.folder / "log" / f"{first:012}.{first:012}").write_bytes(text_of(lines[first:cut]))
        (self.folder / "old").write_bytes(encode(image))
        (self.folder / "new.drl").write_text(ALL, encoding="utf-8")
        whole = deploy.deployed(self.asked(), self.desks)
        self.assertFalse([line for line in whole[1] if "not carried" in line])
        self.assertEqual(self.ran(ALL, lines[first:], whole[0])[1], self.ran(ALL, lines[first:], image)[1])
        for path in [*sorted((self.folder / "log").iterdir())[:2], *sorted((self.folder / "image").iterdir())[:1]]:
            path.unlink()
        self.assertEqual(deploy.deployed(self.asked(), self.desks), whole)

    # ---- what does not

    def test_rules_make_other_facts(self) -> None:
        """The facts of lines keep their numbers, also where lines of the lookback name them: 2, 4, 5 and 6."""
        rules, others = DRAW + ABOVE + TOLD.format(60), DRAW + ABOVE + TOLD.format(30)
        lines = [insert("Town", town="harbour"), at(100_000), draw("a", 70), FIRE, account("a", 10), draw("b", 40),
                 FIRE, account("b", 5), {"do": "modify", "type": "Account", "id": 4, "fields": {"limit": 60}},
                 {"do": "retract", "type": "Account", "id": 6}, at(101_000), draw("a", 65, 101_000), FIRE]
        old, answers = self.ran(rules, lines)
        self.assertFalse([it for it in answers if "fault" in it])
        made, told = self.deployed(old, lines, others)
        self.assertIn('marked: 2 firings of "tell", which nobody has told', told)
        self.assertIn("not carried over: the numbers of facts that rules made in the lookback", told)
        kept = [{it["fact"]: it["fields"] for it in self.ran(text, [{"do": "facts"}], image)[1] if "fact" in it}
                for text, image in ((rules, old), (others, made))]
        self.assertEqual(kept[0][4], {"card": "a", "limit": 60})
        self.assertNotIn(6, kept[0])
        self.assertEqual([number for number in kept[0] if number not in kept[1]], [3])
        self.assertTrue(all(kept[1][number] == kept[0][number] for number in kept[0] if number != 3))
        self.assertEqual([kept[1][number] for number in sorted(kept[1]) if number not in kept[0]],
                         [{"card": "a"}, {"card": "b"}])
        self.assertGreaterEqual(made.next_id, old.next_id)

    def test_what_is_left_out(self) -> None:
        once = "declare Once code : {} end\n"
        rules = DRAW + TWO + once.format("long") + "rule gone when Once() then end\n"
        others = DRAW + TWO + once.format("String")
        lines = [insert("Once", code=1), FIRE, at(100_000), draw("a", 70), at(150_000), draw("a", 80, 150_000),
                 insert("Once", code=2), at(150_001)]
        old, _ = self.ran(rules, lines)
        made, told = self.deployed(old, lines, others)
        self.assertEqual(told[1:], [
            "not carried over: 1 plain fact of Once, which is another type under the new rules",
            "not carried over: 1 line of the lookback, or actions there, with the fault BadValue",
            'not carried over: 1 pending match of "gone": end the old desk behind a fire line'])
        _, answers = self.ran(others, [at(150_500), draw("a", 90, 150_500), FIRE], made)
        self.assertEqual([it["fire"] for it in fired(answers)], ["two"])

    def test_events_that_matter_for_ever(self) -> None:
        """The lookback is all that there is."""
        ever = ALL + 'rule "ever" when $a : Draw() from entry-point "ATM" Account() then end\n'
        lines = [at(100_000), draw("a", 70), FIRE, at(150_000), draw("a", 80, 150_000), FIRE]
        old, _ = self.ran(ever, lines)
        made, told = self.deployed(old, lines, ever)
        self.assertEqual(told, ["lookback: 6 lines, from line 1 on, 150000 ms; the new rules look back for ever",
                                'marked: 1 firing of "silent", which the old desk has told'])
        self.assertEqual(made, old)
        before, _ = self.ran(ever, lines[:3])
        _, told = self.deployed(old, lines, ever, before)
        self.assertEqual(told, ["lookback: 3 lines, from line 4 on, 50000 ms; the new rules look back for ever",
                                "not carried over: 1 event of Draw from before the lookback; the new rules may need "
                                "them for ever"])

    def test_the_command(self) -> None:
        lines = [at(100_000), draw("a", 70), FIRE, at(101_000), draw("a", 80, 101_000), FIRE]
        old, _ = self.ran(ALL, lines)
        for name, data in (("old", encode(old)), ("log", text_of(lines)), ("new.drl", ALL.encode()),
                           ("wrong.drl", b"rule"), ("none", b"FXC1")):
            (self.folder / name).write_bytes(data)
        desk = DESK_PROGRAM if os.access(DESK_PROGRAM, os.X_OK) else str(evaluator(self.folder, "reference.desk"))

        def ran(*words: str) -> tuple[str, str, int]:
            done = subprocess.run([*command_of("deploy"), *words, "--desk", desk], cwd=self.folder, capture_output=True,
                                  text=True, check=False)
            return done.stdout, done.stderr, done.returncode

        self.assertEqual(ran("old", "log", "new.drl"), (
            "lookback: 6 lines, from line 1 on, 101000 ms; the new rules look back 5001 ms\n"
            'marked: 1 firing of "two", which the old desk has told\n'
            "image: old.new, behind line 6\n", "", 0))
        self.assertEqual((self.folder / "old.new").read_bytes(), (self.folder / "old").read_bytes())
        self.assertEqual(ran("old", "log", "wrong.drl"), (
            "", "deploy: wrong.drl: refused item 1 line 1 Syntax\n", 3))
        self.assertEqual(ran("none", "log", "new.drl"), ("", "deploy: none: these bytes are no image\n", 2))


if __name__ == "__main__":
    unittest.main()
