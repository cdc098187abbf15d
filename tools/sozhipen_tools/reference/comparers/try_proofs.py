"""Holds the checker of certificates (certificates.confirm) against those of certificates.certify, good and spoilt.

    tools/run reference.comparers.try_proofs --seeds A B

A seed gives a program: small networks as searches.brute_lives has them, or the file of generators.generate. Its
certificates are confirmed, as trees and as the text that is printed. Then one edge, one sum or tail of the text, the
place of a part or one life is made wrong, and each of these is to be refused. A life that is made greater is still a
bound, so it is none of these.
"""

from __future__ import annotations

import sys
from collections import Counter
from dataclasses import replace
from random import Random
from typing import Iterator, Optional

from ...words import Parser
from ..certificates.certify import certify, proof_lines, table_of
from ..certificates.confirm import Life, Part, Table, confirm, confirm_lines, edges_of_part
from ..generators.generate import case_of, lives_case_of
from ..meaning.program import Program
from ..meaning.run import program_or_refusal
from ..meaning.trees import TimeWindow
from ..searches.brute_lives import random_program


def program_of_seed(seed: int) -> Optional[Program]:
    if seed % 3 == 0:
        return random_program(seed)
    case = case_of(seed) if seed % 3 == 1 else lives_case_of(seed)
    found = program_or_refusal(case.rules)
    return None if isinstance(found, str) else found


def with_edges(parts: list[Part], k: int, edges: tuple) -> list[Part]:
    return parts[:k] + [replace(parts[k], edges=edges)] + parts[k + 1:]


def spoilt_edges(program: Program, parts: list[Part], rng: Random) -> Iterator[tuple[str, list[Part]]]:
    """One edge has another bound or another point, is left out, or stands twice."""
    k = rng.randrange(len(parts))
    edges, network = parts[k].edges, set(edges_of_part(program, parts[k]))
    n = rng.randrange(len(edges))
    x, y, bound = edges[n]
    for other in ((x, y, bound - 1), (x, y, bound + 1), (x, y, -(10**9)), (y, x, bound),
                  (x, (y[0], "e" if y[1] == "s" else "s"), bound), (x, (y[0] + 1, y[1]), bound)):
        if other not in network:
            yield "edge", with_edges(parts, k, edges[:n] + (other,) + edges[n + 1:])
    yield "edge left out", with_edges(parts, k, edges[:n] + edges[n + 1:])
    if x != y:
        yield "edge twice", with_edges(parts, k, edges[:n] + (edges[n],) + edges[n:])


def spoilt_parts(parts: list[Part], rng: Random) -> Iterator[tuple[str, list[Part]]]:
    """One part is left out, stands twice, stands elsewhere, or is of the other sort."""
    k = rng.randrange(len(parts))
    yield "part left out", parts[:k] + parts[k + 1:]
    yield "part twice", parts[:k] + [parts[k]] + parts[k:]
    yield "part of the other sort", parts[:k] + [replace(parts[k], cycle=not parts[k].cycle)] + parts[k + 1:]
    yield "part of another condition", parts[:k] + [replace(parts[k], j=parts[k].j + 1)] + parts[k + 1:]
    if len(parts) > 1:
        yield "parts out of order", parts[k:] + parts[:k] if k else parts[1:] + parts[:1]


def spoilt_tables(program: Program, table: Table) -> Iterator[tuple[str, Table]]:
    """One life is too short, or of another sort. A type that stands in no rule may be called infinite: nothing rests on
    it."""
    used = {c.source.type for rule in program.rules for c in rule.conditions
            if not isinstance(c.source.window, TimeWindow)}
    for name, life in table.items():
        others = ([Life.plain(), Life.explicit(life.value + 1)] if life.kind != "plain"
                  else [Life.infinite(), Life.explicit(5), Life.finite(0)])
        others += [Life.finite(life.value - 1)] if life.kind == "finite" else []
        others += [Life.infinite()] if life.kind == "finite" and name in used or life.kind == "explicit" else []
        for other in others:
            yield f"life {life.kind} as {other.kind}", {**table, name: other}


def spoilt_lines(lines: list[str], rng: Random) -> Iterator[tuple[str, list[str]]]:
    """One sum, tail or name of the text is another, or the last line is missing."""
    yield "last line", lines[:-1]
    if len(lines) < 2:
        return
    k = rng.randrange(len(lines) - 1)
    words = lines[k].split(" ")
    for word in ("sum", "tail"):
        if word in words:
            at = len(words) - 1 - words[::-1].index(word) + 1
            yield (f"{word} in the text",
                   lines[:k] + [" ".join(words[:at] + [str(int(words[at]) + rng.choice([-1, 1]))] + words[at + 1:])]
                   + lines[k + 1:])
    yield "blank in the text", lines[:k] + [lines[k] + " "] + lines[k + 1:]


def wrongly_judged(program: Program, rng: Random, counts: Counter) -> list[str]:
    """What the checker says wrongly of a program's certificates."""
    parts, table, lines = certify(program), table_of(program), proof_lines(program)
    counts["parts"] += len(parts)
    counts["cycles"] += sum(p.cycle for p in parts)
    said = ([] if confirm(program, table, parts) and confirm_lines(program, table, lines)
            else ["good certificates are refused"])
    spoilt = [(what, confirm(program, other, parts)) for what, other in spoilt_tables(program, table)]
    spoilt += [(what, confirm_lines(program, table, other)) for what, other in spoilt_lines(lines, rng)]
    if parts:
        spoilt += [(what, confirm(program, table, other)) for what, other in spoilt_edges(program, parts, rng)]
        spoilt += [(what, confirm(program, table, other)) for what, other in spoilt_parts(parts, rng)]
    counts.update("refused" for _, good in spoilt if not good)
    return said + [f"{what} is confirmed" for what, good in spoilt if good]


def main() -> int:
    parser = Parser(description="Holds the checker of certificates against good and spoilt ones.")
    parser.add_argument("--seeds", type=int, nargs=2, default=(0, 1000), metavar=("A", "B"), help="from A up to B - 1")
    asked = parser.parse_args()
    counts: Counter = Counter()
    wrong = 0
    for seed in range(*asked.seeds):
        program = program_of_seed(seed)
        if program is None:
            continue
        counts["programs"] += 1
        for said in wrongly_judged(program, Random(f"proofs/{seed}"), counts):
            wrong += 1
            print(f"seed {seed}: {said}", flush=True)
    print(f"{counts['programs']} programs: {counts['parts']} parts confirmed, {counts['cycles']} of them cycles; "
          f"{counts['refused']} spoilt ones refused; wrongly judged {wrong}")
    return 0 if not wrong else 1


if __name__ == "__main__":
    sys.exit(main())
