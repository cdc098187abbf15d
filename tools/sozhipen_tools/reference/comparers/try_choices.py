"""Holds rules that are written out (meaning.expand) against rules that are taken as they stand.

    tools/run reference.comparers.try_choices --seeds A B

Behind each line of a seed's script the matches of the rules that a rule is written out to are compared with its rows as
it stands: at an alternative each row goes on through each choice, a pattern on a type with subtypes takes facts of all
of them, and a `not` on one goes on where none of them passes and all have waited long enough.
"""

from __future__ import annotations

import sys
from collections import Counter
from dataclasses import replace
from typing import Iterable

from ...words import Parser
from ..generators.generate import case_of
from ..images.laden import longer_with
from ..meaning.expand import Types, on_kind
from ..meaning.program import Program, rules_of
from ..meaning.run import Run, program_or_refusal
from ..meaning.script import lines_of
from ..meaning.trees import Alternatives, Condition, Negated, Plain, WrittenCondition
from ..meaning.worlds import Row, World, candidates, is_mature, passes


def through(c: WrittenCondition, rows: list[Row], w: World, types: Types) -> list[Row]:
    """The rows that a condition as it stands makes of rows."""
    if isinstance(c, Alternatives):
        return [row for choice in c.choices for row in through_all(choice, rows, w, types)]
    if isinstance(c, Plain):
        return [longer for row in rows for name in types.kinds(c.source.type)
                for longer in made(on_kind(c, name), row, w)]
    if isinstance(c, Negated):
        return [row for row in rows if all(made(on_kind(c, name), row, w) for name in types.kinds(c.source.type))]
    return [longer for row in rows for longer in made(c, row, w)]


def made(c: Condition, row: Row, w: World) -> list[Row]:
    passing = [f for f in candidates(c.source, w) if passes(c.source, f, row)]
    longer = longer_with(c, passing, row, None)
    return longer if not longer or not isinstance(c, Negated) or is_mature(c.source, row, w) else []


def through_all(conditions: Iterable[WrittenCondition], rows: list[Row], w: World, types: Types) -> list[Row]:
    for c in conditions:
        rows = through(c, rows, w, types)
    return rows


def cells(rows: Iterable[Row]) -> list[str]:
    return sorted(str([getattr(cell, "tag", f"={cell}") for cell in row.cells]) for row in rows)


def difference(program: Program, w: World) -> str:
    types = Types(list(program.written))
    for rule in rules_of(list(program.written)):
        # Each world has an index by sources, so conditions that are made here get none of it.
        bare = replace(w, program=program, memory=type(w.memory)())
        as_it_stands = cells(through_all(rule.conditions, [Row((), {})], bare, types))
        written_out = cells(m.row for m in w.matches if program.title(m.rule) == rule.name)
        if as_it_stands != written_out:
            return f"rule {rule.name!r}: as it stands {as_it_stands}, written out {written_out}"
    return ""


def main() -> int:
    parser = Parser(description="Holds rules that are written out against rules as they stand.")
    parser.add_argument("--seeds", type=int, nargs=2, default=(0, 300), metavar=("A", "B"), help="from A up to B - 1")
    asked = parser.parse_args()
    counts: Counter = Counter()
    for seed in range(*asked.seeds):
        case = case_of(seed)
        program = program_or_refusal(case.rules)
        if isinstance(program, str):
            continue
        state = Run(World(program), 200, 200, [])
        counts["files"] += 1
        counts["written out"] += len(program.rules) > len(rules_of(list(program.written)))
        for number, line in enumerate(lines_of(case.script), start=1):
            state.line(number, line)
            counts["worlds"] += 1
            counts["matches"] += len(state.world.matches)
            if said := difference(program, state.world):
                counts["wrong"] += 1
                print(f"seed {seed}, line {number}: {said}", flush=True)
                break
            if state.ended:
                break
    print(f"{counts['worlds'] - counts['wrong']} of {counts['worlds']} worlds of {counts['files']} files agreed, "
          f"{counts['written out']} files with rules that are written out to several; {counts['matches']} matches")
    return 0 if not counts["wrong"] else 1


if __name__ == "__main__":
    sys.exit(main())
