"""What docs/LIVE.md says of partitions, of a lookback and of turns behind a broker, tried on random scripts.

Partitions and a lookback are tried by the built program, or by that of REPLAY_PROGRAM; without one these tests are
skipped. Turns are tried by the second evaluator of `desk`, and by the built `desk`, or that of DESK_PROGRAM.
"""

from __future__ import annotations

import json
import os
import shutil
import subprocess
import tempfile
import unittest
from pathlib import Path
from random import Random
from typing import Any, Optional
from zlib import crc32

from support import DESK_PROGRAM, PROGRAM

from sozhipen_tools.places import command_of

DURATION = 1_000
EVENTS = 400
PARTS = 3

RULES = """
declare Draw @role( event ) @timestamp( at ) @duration( len ) at : long len : long card : String cents : long end
declare entry-point "ATM" @lateness( 2s ) end
rule "silent" when
  $a : Draw( $c : card, cents > 50 ) from entry-point "ATM"
  not( Draw( card == $c, this after[1ms,3s] $a ) from entry-point "ATM" )
then end
rule "two" when
  $a : Draw( $c : card ) from entry-point "ATM"
  Draw( card == $c, cents > 80, this after[1ms,2s] $a ) from entry-point "ATM"
then end
rule "within" when
  $a : Draw( $c : card ) from entry-point "ATM"
  Draw( card == $c, this during $a ) from entry-point "ATM"
then end
rule "sum" when
  Draw( $c : card ) over window:time( 1ms ) from entry-point "ATM"
  accumulate( Draw( card == $c, $x : cents ) over window:time( 5s ) from entry-point "ATM"; $s : sum( $x ); $s > 300 )
then end
"""

Line = dict[str, Any]
# The number of the `fire` line, the rule, and the facts and results that it found.
Firing = tuple[int, str, tuple[str, ...]]


def random_script(seed: int) -> list[Line]:
    """Draws in the order of their starts, up to the lateness behind the clock."""
    random = Random(seed)
    clock, start = 100_000, 0
    lines: list[Line] = []
    for _ in range(EVENTS):
        clock += random.choice((0, 10, 300, 900))
        start = max(start, clock - random.choice((0, 0, 500, 1_500, 2_000)))
        fields = {"at": start, "len": random.choice((0, 200, DURATION)), "card": f"c{random.randrange(12)}",
                  "cents": random.randrange(100)}
        lines += [{"do": "at", "ms": clock}, {"do": "insert", "type": "Draw", "entry": "ATM", "fields": fields}]
        lines += [{"do": "fire"}] * random.randrange(2)
    return lines + [{"do": "at", "ms": clock + 10_000}, {"do": "fire"}]


def text_of(lines: list[Line], marked: bool = False) -> str:
    """The script; a line that is no JSON may end the answers of each `fire`."""
    return "".join(json.dumps(line) + "\n" + ("x\n" if marked and line["do"] == "fire" else "") for line in lines)


def inserts(lines: list[Line]) -> list[Line]:
    return [line for line in lines if line["do"] == "insert"]


@unittest.skipUnless(os.access(PROGRAM, os.X_OK), f"there is no program {PROGRAM}")
class Claims(unittest.TestCase):
    def setUp(self) -> None:
        folder = tempfile.TemporaryDirectory()
        self.addCleanup(folder.cleanup)
        self.rules, self.image = Path(folder.name, "rules.drl"), Path(folder.name, "image")
        self.rules.write_text(RULES, encoding="utf-8")

    def replay(self, *words: str, script: str = "") -> bytes:
        command = [PROGRAM, *words, str(self.rules)]
        return subprocess.run(command, input=script.encode(), capture_output=True, check=False).stdout

    def firings(self, output: bytes, inserted: list[Line]) -> list[Firing]:
        """The firings of an output, by what the facts hold, in one order for all that fire at one line."""
        facts, fired, found = {}, 0, []
        for number, line in enumerate(inserted, 1):
            facts[f"#{number}"] = json.dumps(line["fields"], sort_keys=True)
        for text in output.decode().splitlines():
            if text.startswith("fire "):
                _, rule, cells = text.split('"')
                found.append((fired, rule, tuple(facts.get(cell, cell) for cell in cells.split())))
            fired += text.endswith(" BadJson")
        return sorted(found)

    def run_of(self, lines: list[Line]) -> list[Firing]:
        return self.firings(self.replay(script=text_of(lines, True)), inserts(lines))

    def parted(self, lines: list[Line], promises: bool) -> list[Firing]:
        """What the processes of a split by the card fire together."""
        parts: list[list[Line]] = [[] for _ in range(PARTS)]
        latest: Optional[int] = None
        for line in lines:
            if line["do"] == "insert":
                latest = line["fields"]["at"]
                parts[crc32(line["fields"]["card"].encode()) % PARTS].append(line)
                continue
            promise = [{"do": "promise", "entry": "ATM", "from": latest}] if promises and line["do"] == "fire" else []
            for part in parts:
                part += promise if latest is not None else []
                part.append(line)
        return sorted(firing for part in parts for firing in self.run_of(part))

    def test_a_partition_fires_later_without_promises(self) -> None:
        for seed in range(10):
            lines = random_script(seed)
            whole = self.run_of(lines)
            self.assertEqual(self.parted(lines, promises=True), whole)
            later = self.parted(lines, promises=False)
            self.assertNotEqual(later, whole)
            self.assertEqual(sorted(firing[1:] for firing in later), sorted(firing[1:] for firing in whole))

    def test_a_lookback(self) -> None:
        lives = self.replay("--mode", "lives").split()
        self.assertEqual(lives[:2], [b"life", b"Draw"])
        for seed in range(10):
            lines = random_script(seed)
            cut = next(k for k in range(2 * EVENTS, len(lines)) if lines[k]["do"] == "at")
            switched = max(line["ms"] for line in lines[:cut] if line["do"] == "at")
            begin = switched - int(lives[2]) - DURATION
            first = next(k for k, line in enumerate(lines) if line.get("ms", 0) >= begin)
            self.image.write_bytes(self.replay("--mode", "save", script=text_of(lines[first:cut])))
            rest = self.replay("--resume", str(self.image), script=text_of(lines[cut:], True))
            before = self.replay(script=text_of(lines[:cut], True))
            whole = self.replay(script=text_of(lines, True))
            fired = self.firings(rest, inserts(lines[first:]))
            self.assertEqual(fired, self.firings(whole[len(before):], inserts(lines)))


class Crash(Exception):
    """A turn breaks off here."""


class Turns(unittest.TestCase):
    """Behind a broker, whose messages are lines here, and whose receiver takes each number once."""
    program = command_of("reference.desk")
    MESSAGES = 40

    def setUp(self) -> None:
        folder = tempfile.TemporaryDirectory()
        self.addCleanup(folder.cleanup)
        self.folder, self.rules = Path(folder.name), Path(folder.name, "rules.drl")
        self.rules.write_text(RULES, encoding="utf-8")
        self.received: list[str] = []

    def publish(self, number: int, answer: str) -> None:
        """The receiver takes the answer of this number where it has none yet; it never comes to another one."""
        if number == len(self.received):
            self.received.append(answer)
        self.assertEqual(self.received[number], answer)

    def state(self) -> tuple[int, int]:
        """How many messages the last image has taken, and how many answers they have; both are 0 without one."""
        names = (path.name.split(",") for path in self.folder.glob("image,*"))
        return max(((int(taken), int(told)) for _, taken, told in names), default=(0, 0))

    def turn(self, lines: list[str], random: Random) -> bool:
        """Takes some messages on from the last image, and may crash at each step; whether there are more."""
        def step() -> None:
            if not random.randrange(4):
                raise Crash

        taken, told = self.state()
        messages, copy = lines[taken:taken + self.MESSAGES], self.folder / "copy"
        copy.unlink(missing_ok=True)
        if taken:
            shutil.copyfile(self.folder / f"image,{taken},{told}", copy)
        step()
        done = subprocess.run([*self.program, "--image", str(copy), "--text", str(self.rules)],
                              input="".join(messages).encode(), capture_output=True, check=True)
        answers = [text for text in done.stdout.decode().splitlines() if not text.startswith("done ")]
        for number, answer in enumerate(answers, told):
            self.publish(number, answer)
            if number == told:
                step()
        step()
        taken += len(messages)
        os.replace(copy, self.folder / f"image,{taken},{told + len(answers)}")
        return taken < len(lines)

    def test_turns_that_crash(self) -> None:
        random, crashes, goes_on = Random(1), 0, True
        lines = text_of(random_script(1)[:400]).splitlines(keepends=True)
        while goes_on:
            try:
                goes_on = self.turn(lines, random)
            except Crash:
                crashes += 1
        whole = subprocess.run([*command_of("reference.replay"), str(self.rules)], input="".join(lines).encode(),
                               capture_output=True, check=True).stdout.decode()
        self.assertEqual(self.received, whole.splitlines())
        self.assertIn('fire "silent"', whole)
        self.assertGreater(crashes, 5)


@unittest.skipUnless(os.access(DESK_PROGRAM, os.X_OK), f"there is no program {DESK_PROGRAM}")
class TurnsOfTheBuiltDesk(Turns):
    program = [DESK_PROGRAM]


if __name__ == "__main__":
    unittest.main()
