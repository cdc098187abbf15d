"""Kills a desk at random moments of a week in which its rules are changed four times, and checks that each alarm comes
once.

    tools/run fault_injection.killed_changes [--desk PROGRAM] [--weeks N] [--kills N] [--from SEED]

PROGRAM is a `desk`; without one the second evaluator answers. A week is the script of a shop: payments, parcels, and
the clock, with a line that saves now and then. It begins with five rules. At four lines the script of the desk ends,
and it is begun again with other rules: one more, one edited, one gone, one that comes back, types more. At random
moments the desk is killed, also while it ends. Then its caller begins it again, under the rules of the line behind
which its image is, and sends all lines behind that one again; of the answers it takes those to lines that were not
closed yet.

In the end each rule has to have fired for what it would have fired for alone, over the whole week, while it was among
the rules; and what was answered again has to be what was answered before. What is wanted is said by the second
evaluator. The status is 0 where all was so, and 1 where it was not.
"""

from __future__ import annotations

import json
import os
import subprocess
import sys
import tempfile
import time
from collections import Counter
from dataclasses import dataclass, field
from pathlib import Path
from random import Random
from typing import Any, Iterator, Optional

from ..pipes import pipe
from ..places import command_of
from ..reference.comparers.desk import answered
from ..reference.desk import desk_at_start
from ..reference.images.image import head_in
from ..reference.meaning.program import Program
from ..reference.meaning.run import program_or_refusal
from ..words import Parser

MINUTE, HOUR, DAY = 60_000, 3_600_000, 86_400_000
WEEK = 7 * DAY
SAVE_EACH = 40
# The most lines before a kill.
MOST_LINES = 120
# The time that the lines of a turn may take.
SECONDS = 600
# Between two payments, of which many come together.
GAPS = (MINUTE, MINUTE, 3 * MINUTE, 8 * MINUTE, 30 * MINUTE, 4 * HOUR)

TYPES = """
declare Paid @role( event ) @timestamp( at ) @expires( 2h ) at : long n : long card : String cents : long end
declare Sent @role( event ) @timestamp( at ) @expires( 2h ) at : long n : long card : String end
declare Told @role( event ) @expires( 6h ) card : String end
"""
LATER_TYPES = "declare Back @role( event ) @timestamp( at ) @expires( 2h ) at : long n : long card : String end\n"
RULES = {
    "big": 'rule "big" when Paid( cents > 900 ) then end\n',
    "large": 'rule "big" when Paid( cents > 800 ) then end\n',
    "twice": 'rule "twice" when $p : Paid( $c : card ) Paid( card == $c, this after[1ms,10m] $p ) then end\n',
    "unsent": ('rule "unsent" when $p : Paid( $c : card, cents > 300 ) '
               "not( Sent( card == $c, this after[0s,1h] $p ) ) then end\n"),
    "busy": ('rule "busy" when $p : Paid() over window:time( 1ms ) '
             "accumulate( $q : Paid() over window:time( 30m ); $n : count( $q ); $n > 4 ) then end\n"),
    "tell": ('rule "tell" when $p : Paid( $c : card, cents > 700 ) over window:time( 1h ) not( Told( card == $c ) ) '
             "then insert( new Told( $c ) ); end\n"),
    "small": 'rule "small" when Paid( cents < 50 ) then end\n',
    "back": 'rule "back" when $b : Back( $c : card ) Paid( card == $c, this before[0s,1h] $b ) then end\n'}
# The rules of the five parts of a week, by their names above.
PARTS = [["big", "twice", "unsent", "busy", "tell"], ["big", "twice", "unsent", "small", "busy", "tell"],
         ["tell", "large", "twice", "busy", "unsent", "small"], ["tell", "back", "large", "busy", "unsent", "small"],
         ["twice", "tell", "back", "large", "busy", "unsent"]]

# What a rule fired for: the line, its name as above, the numbers of the events and the results.
Alarm = tuple[int, str, tuple[int, ...]]


class Wrong(Exception):
    """What is not as it has to be."""


def file_of(part: int) -> str:
    """The rule file of a part, each with a comment of its own."""
    types = TYPES + (LATER_TYPES if part >= 3 else "")
    return f"// part {part}\n{types}{''.join(RULES[name] for name in PARTS[part])}"


def program_of(rules: str) -> Program:
    program = program_or_refusal(rules.encode())
    assert isinstance(program, Program), program
    return program


# ---- the week


@dataclass(frozen=True)
class Week:
    """The lines of a script, and behind which of them the rules are changed."""
    lines: list[bytes]
    changes: list[int]

    def part(self, line: int) -> int:
        """Under which rules the line behind this one is run."""
        return sum(change <= line for change in self.changes)


def line_of(**members: Any) -> bytes:
    return json.dumps(members).encode() + b"\n"


def week_of(random: Random, days: float = 7) -> Week:
    """Payments in groups; most are sent, some are sent back, and at each change all has fired."""
    lines: list[bytes] = []
    changes, clock, number, due = [int(days * DAY * k / 5) for k in range(1, 5)], DAY, 0, DAY
    placed: list[int] = []
    while clock < DAY + days * DAY:
        clock += random.choice(GAPS) + random.randrange(1000)
        card, number = f"c{random.randrange(5)}", number + 1
        kind = random.choice(["Paid"] * 5 + ["Sent"] * 3 + ["Back"] * (len(placed) >= 3))
        fields: dict[str, Any] = {"at": clock, "n": number, "card": card}
        fields.update({"cents": random.randrange(1000)} if kind == "Paid" else {})
        lines += [line_of(do="at", ms=clock), line_of(do="insert", type=kind, fields=fields), line_of(do="fire")]
        if clock >= due:
            lines += [line_of(do="at", ms=clock + MINUTE), line_of(do="fire")]
            clock, due = clock + MINUTE, clock + 12 * HOUR
        if number % (SAVE_EACH // 3) == 0:
            lines.append(line_of(do="save"))
        if len(placed) < 4 and clock >= DAY + changes[len(placed)]:
            placed.append(len(lines))
    return Week(lines + [line_of(do="at", ms=clock + DAY), line_of(do="fire")], placed)


# ---- what is wanted


def alarm_of(answer: dict[str, Any], part: int) -> Alarm:
    name = answer["fire"]
    name = "large" if name == "big" and "large" in PARTS[part] else name
    cells = [fact["fields"]["n"] for fact in answer["facts"]] + [result["value"] for result in answer["results"]]
    return answer["line"], name, tuple(cells)


def alone(week: Week, name: str) -> Iterator[Alarm]:
    """What a rule fires for from the beginning to the end, in lines in which it is among the rules."""
    state = desk_at_start(program_of(TYPES + LATER_TYPES + RULES[name]), 100_000, False, None, lambda run: None)
    for number, line in enumerate(week.lines, 1):
        state.lines.clear()
        state.line(number, line.rstrip(b"\n"))
        part = week.part(number - 1)
        if name in PARTS[part]:
            yield from (alarm_of(answer, part) for answer in map(json.loads, state.lines) if "fire" in answer)


def wanted(week: Week) -> list[Alarm]:
    return sorted(alarm for name in RULES for alarm in alone(week, name))


# ---- the caller


@dataclass
class Caller:
    """Begins a desk over and over, until its script is done; what it has taken of each line that is closed."""
    command: list[str]
    folder: Path
    week: Week
    random: Random
    kills: int
    taken: dict[int, list[bytes]] = field(default_factory=dict)
    counts: Counter[str] = field(default_factory=Counter)
    parts: set[int] = field(default_factory=set)

    @property
    def image(self) -> Path:
        return self.folder / "image"

    def image_lines(self) -> int:
        """How many lines the image is behind."""
        if not self.image.exists():
            return 0
        with open(self.image, "rb") as file:
            return head_in(file).lines

    def run(self) -> list[Alarm]:
        """The alarms, once the script is done."""
        while (begin := self.image_lines()) < len(self.week.lines) or not self.taken.get(len(self.week.lines)):
            self.turn(begin)
        return sorted(alarm_of(answer, self.week.part(number - 1)) for number, lines in self.taken.items()
                      for answer in map(json.loads, lines) if "fire" in answer)

    def turn(self, begin: int) -> None:
        """Begins the desk under the rules of the line behind its image, sends lines up to the next change, and ends the
        script there, unless the desk is killed before."""
        part = self.week.part(begin)
        end = [*self.week.changes, len(self.week.lines)][part]
        rules = self.folder / f"rules{part}.drl"
        rules.write_text(file_of(part), encoding="utf-8")
        words = [*self.command, "--image", str(self.image), str(rules)]
        dies = self.kills > 0 and self.random.random() < 0.9
        dies_at = self.random.randint(begin, min(end, begin + MOST_LINES)) if dies else None
        with subprocess.Popen(words, stdin=subprocess.PIPE, stdout=subprocess.PIPE, bufsize=0) as process:
            if dies_at is None:
                output = process.communicate(b"".join(self.week.lines[begin:end]))[0]
            else:
                output = self.killed(process, self.week.lines[begin:dies_at], dies_at == end)
        self.take(output)
        if dies_at is None and process.returncode not in (0, 1):
            raise Wrong(f"behind line {begin} the desk ends with status {process.returncode}: {output[-200:]!r}")
        self.parts.add(part)

    def killed(self, process: subprocess.Popen[bytes], lines: list[bytes], ends: bool) -> bytes:
        """Sends these lines, the last ones without a look at what the others answer, and perhaps the end of the script,
        and kills the desk at a random moment; what it wrote."""
        self.kills -= 1
        self.counts["kills"] += 1
        last = max(0, len(lines) - self.random.randrange(4))
        output = answered(process, b"".join(lines[:last]), SECONDS)
        pipe(process.stdin).write(b"".join(lines[last:]))
        if ends:
            pipe(process.stdin).close()
        time.sleep(self.random.random() * self.random.choice((0.001, 0.02, 0.3)))
        process.kill()
        return output + pipe(process.stdout).read()

    def take(self, output: bytes) -> None:
        """Takes what closes a line, once; what comes again has to be the same."""
        answers: list[bytes] = []
        for line in output.split(b"\n")[:-1]:
            answers.append(line)
            if not line.startswith(b'{"done":'):
                continue
            number = json.loads(line)["done"]
            told = [it for it in answers if not it.startswith(b'{"change":')]
            self.counts["lines answered again"] += number in self.taken
            if self.taken.setdefault(number, told) != told:
                raise Wrong(f"line {number} is answered otherwise again: {told!r}")
            answers = []


def first_difference(command: list[str], seed: int, kills: int, days: float, counts: Counter[str]) -> Optional[str]:
    """What is wrong with the alarms of a week, nothing where each has come once."""
    random = Random(f"week/{seed}")
    week = week_of(random, days)
    with tempfile.TemporaryDirectory(prefix="killed-") as folder:
        caller = Caller(command, Path(folder), week, random, kills)
        try:
            got = caller.run()
        except Wrong as wrong:
            return str(wrong)
        counts.update(caller.counts, changes=len(caller.parts) - 1)
    counts["alarms"] += len(got)
    there = wanted(week)
    if got == there:
        return None
    return (f"missing {sorted((Counter(there) - Counter(got)).elements())[:3]}, too many "
            f"{sorted((Counter(got) - Counter(there)).elements())[:3]}")


def main() -> int:
    parser = Parser(description="Kills a desk whose rules are changed, and checks that each alarm comes once.")
    parser.add_argument("--desk", metavar="PROGRAM", help="the program; without it the second evaluator")
    parser.add_argument("--weeks", type=int, default=3, metavar="N", help="how many weeks; 3")
    parser.add_argument("--kills", type=int, default=20, metavar="N", help="kills in a week; 20")
    parser.add_argument("--from", dest="seed", type=int, default=0, metavar="SEED", help="the seed of the first one")
    asked = parser.parse_args()
    command = command_of("reference.desk") if asked.desk is None else [os.path.abspath(asked.desk)]
    counts = Counter[str]()
    for seed in range(asked.seed, asked.seed + asked.weeks):
        if said := first_difference(command, seed, asked.kills, 7, counts):
            print(f"week {seed}: {said}")
            return 1
    print(", ".join(f"{number} {what}" for what, number in sorted(counts.items())) + ": each alarm came once")
    return 0


if __name__ == "__main__":
    sys.exit(main())
