"""Random rule files and scripts by a seed, and the text of the program's own large run.

    tools/run reference.generators.generate SEED [--folder FOLDER]

writes `rules.drl` and `script.jsonl` of that seed to the folder. Two of three seeds give a file that is accepted, with
a script; every third gives a file with a planted refusal.
"""

from __future__ import annotations

import os
from dataclasses import dataclass
from random import Random
from typing import Callable, Optional

from ...words import Parser
from ..meaning.checks import check
from ..meaning.reader import Refused, read_file
from .plants import planted
from .random_alternatives import with_choices
from .random_lives import lives_case
from .random_rules import FileMaker
from .random_script import ScriptMaker
from .random_shared import shared_case
from .writer import Writer

BUDGET = 150
# With a seed it names a case: in another series each seed is another one.
SERIES = 20


@dataclass(frozen=True)
class Case:
    """A rule file with a script; `limit` is that of the words, None where they give none."""
    rules: bytes
    script: bytes
    limit: Optional[int]


def accepted_case(rng: Random) -> Case:
    """A file that is accepted, with a script that fires."""
    while True:
        maker = FileMaker(rng)
        writer = Writer(rng)
        bodies = with_choices(rng, maker.bodies())
        rules = writer.text_of([writer.item(b) for b in bodies]).encode("utf-8")
        try:
            program = check(read_file(rules))
        except Refused as refused:
            # A network that never matches, or a modification that happens to set a field twice: a file of the other
            # sort. A rule with alternatives may happen to be too large when it is written out.
            if refused.code in ("Syntax", "UnknownType"):
                raise
            continue
        script = ScriptMaker(rng, program, maker.bounded, BUDGET).script(rng.choice([10, 25, 40, 60]))
        limit = rng.choice([None] * 6 + [1, 5, 30])
        return Case(rules, script, limit)


def case_of(seed: int) -> Case:
    """The case of a seed."""
    rng = Random(f"{SERIES}/{seed}")
    if seed % 3 == 2:
        return Case(planted(rng), b"{\"do\":\"fire\"}\n", None)
    return accepted_case(rng)


def lives_case_of(seed: int) -> Case:
    """The case of a seed among those of finite lives."""
    return Case(*lives_case(Random(f"lives/{SERIES}/{seed}")), 200)


def shared_case_of(seed: int) -> Case:
    """The case of a seed among those whose rules share conditions."""
    rng = Random(f"shared/{SERIES}/{seed}")
    return Case(*shared_case(rng), rng.choice([None] * 6 + [5, 30]))


def chosen_cases(lives: bool, share: bool) -> Callable[[int], Case]:
    """The cases of these sorts: where neither is asked for, those of all sorts."""
    return shared_case_of if share else lives_case_of if lives else case_of


# ---- the large run of `--gen N`

LARGE_RULES = b"""declare Card @role( event ) acct : long amount : long end
declare Ping @role( event ) acct : long end
rule "pair" when $a : Card() Card( acct == $a.acct, this after[1ms,30s] $a ) then end
rule "silent" when $a : Card( amount > 900 ) not( Ping( acct == $a.acct, this after[0s,10s] $a ) ) then end
rule "busy" when Number( longValue > 40 ) from accumulate( Card( $m : amount ) over window:time( 20s ),
  count( $m ) ) then end
"""
TURNS = 20_000


def large_run(n: int) -> tuple[bytes, bytes]:
    """The rule file and the script of the program's own large run: numbers x' = (x * 1103515245 + 12345) mod 2^31 from
    x = n; a draw below m takes the next one and gives (x / 65536) mod m."""
    x = n
    lines = []

    def draw(m: int) -> int:
        nonlocal x
        x = (x * 1103515245 + 12345) % 2**31
        return x // 65536 % m

    for _ in range(TURNS):
        d, a, k = draw(1000), draw(50), draw(4)
        lines.append('{"do":"advance","by":%d}' % d)
        if k < 3:
            lines.append('{"do":"insert","type":"Card","fields":{"acct":%d,"amount":%d}}' % (a, draw(1000)))
        else:
            lines.append('{"do":"insert","type":"Ping","fields":{"acct":%d}}' % a)
        lines.append('{"do":"fire"}')
    return LARGE_RULES, ("\n".join(lines) + "\n").encode()


def write_case(case: Case, folder: str) -> None:
    os.makedirs(folder, exist_ok=True)
    for name, data in (("rules.drl", case.rules), ("script.jsonl", case.script)):
        with open(os.path.join(folder, name), "wb") as f:
            f.write(data)


def main() -> None:
    parser = Parser(description="Writes the rule file and the script of a seed.")
    parser.add_argument("seed", type=int)
    parser.add_argument("--folder", default="case")
    asked = parser.parse_args()
    write_case(case_of(asked.seed), asked.folder)


if __name__ == "__main__":
    main()
