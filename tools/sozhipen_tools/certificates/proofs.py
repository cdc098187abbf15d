"""What a page of certificates shows: of each certificate its network, with the test that each edge comes from, its sum,
tail and life, in words."""

from __future__ import annotations

import re
from dataclasses import dataclass
from typing import Optional

from ..reference.certificates.certify import certify, table_of
from ..reference.certificates.confirm import (Part, Table, asked, confirm, edges_of_part, is_good_part, part_line,
                                              part_of_line, tail_of_part)
from ..reference.meaning import temporal
from ..reference.meaning.answers import quoted
from ..reference.meaning.lives import place_of_variable
from ..reference.meaning.program import DEFAULT, Program
from ..reference.meaning.run import program_or_refusal
from ..reference.meaning.temporal import A_END, A_START, B_END, B_START, Edge
from ..reference.meaning.trees import Condition, Existing, Negated, Plain, Rule, Temporal, TimeWindow
from ..rulefile.kept import span
from ..rulefile.tolerant import read_tolerantly

Point = tuple[int, str]
NAMES = {"s": "start", "e": "end"}
# One at which no line is broken.
SPACE = "\u00a0"


class Unfit(Exception):
    """The rule file is refused, or the certificates are none of it."""


# ---- in words


def words(milliseconds: int) -> str:
    """A time as one reads it, `1 h 30 min`, in one line."""
    if milliseconds == 0:
        return "0"
    parts = re.findall("([0-9]+)([a-z]+)", span(abs(milliseconds)))
    return ("−" if milliseconds < 0 else "") + SPACE.join(f"{count}{SPACE}{'min' if unit == 'm' else unit}"
                                                          for count, unit in parts)


def condition_words(condition: Condition) -> str:
    """The form of a condition, its variable and its type."""
    source = condition.source
    fact = (f"${source.variable} : " if source.variable else "") + source.type
    if isinstance(condition, Plain):
        return fact
    word = "not" if isinstance(condition, Negated) else "exists" if isinstance(condition, Existing) else "accumulate"
    return f"{word}( {fact} )"


def point_words(point: Point) -> str:
    return f"the {NAMES[point[1]]} of{SPACE}{point[0] + 1}"


def edge_words(edge: Edge) -> str:
    """What an edge says: its first point less its second one is at most its bound."""
    x, y, bound = edge
    if bound > 0:
        return f"{point_words(x)} is at most {words(bound)} behind {point_words(y)}"
    if bound == 0:
        return f"{point_words(x)} is not behind {point_words(y)}"
    return f"{point_words(x)} is at least {words(-bound)} before {point_words(y)}"


def test_words(test: Temporal) -> str:
    parameters = ",".join(("-" if p < 0 else "") + span(abs(p)) for p in test.parameters)
    return f"this {test.operator}{f'[{parameters}]' if parameters else ''} ${test.other}"


def origins(program: Program, part: Part) -> dict[Edge, str]:
    """What each edge of a part's network comes from: a temporal test, or what starts and ends are."""
    rule = program.rules[part.rule]
    found: dict[Edge, str] = {}
    network = edges_of_part(program, part)
    for k in sorted({point[0] for edge in network for point in edge[:2]}):
        source = rule.conditions[k].source
        lasts = program.types[source.type].duration is not None
        for edge in temporal.event_edges((k, "s"), (k, "e"), not lasts):
            found.setdefault(edge,
                             f"an event of {source.type} "
                             f"{'does not end before it starts' if lasts else 'ends where it starts'}")
        for test in source.temporal_tests:
            other = place_of_variable(rule, test.other)
            names = {A_START: (k, "s"), A_END: (k, "e"), B_START: (other, "s"), B_END: (other, "e")}
            for x, y, bound in temporal.edges(test.operator, test.parameters):
                found.setdefault((names[x], names[y], bound), f"{k + 1}: {test_words(test)}")
    return {edge: found[edge] for edge in network}


def tail_words(program: Program, part: Part) -> str:
    """What holds an event of j back, or keeps it, for as long as the tail."""
    source, tail = program.rules[part.rule].conditions[part.j].source, tail_of_part(program, part)
    if not tail:
        return "it comes in at once"
    if tail == program.types[source.type].expires:
        return f"the @expires of {source.type}"
    return ("its window of time" if isinstance(source.window, TimeWindow) and source.window.length == tail
            else f"the @lateness of {quoted(source.entry or DEFAULT)}")


# ---- certificates


@dataclass(frozen=True)
class Sheet:
    """An accepted rule file with its lives and good certificates, and the text of each rule by its name."""
    program: Program
    table: Table
    parts: list[Part]
    texts: dict[str, str]

    def rule(self, part: Part) -> Rule:
        return self.program.rules[part.rule]

    def condition(self, part: Part, place: int) -> Condition:
        return self.rule(part).conditions[place]

    def life(self, part: Part) -> int:
        return self.table[self.condition(part, part.i).source.type].value

    def needs(self, part: Part) -> Optional[int]:
        """The sum with the tail, None round a cycle."""
        return None if part.cycle else part.total + (tail_of_part(self.program, part) or 0)

    def bounds(self, part: Part) -> bool:
        """Whether the life of the type is no greater than what this part needs."""
        return self.needs(part) == self.life(part)

    def line(self, part: Part) -> str:
        return part_line(self.program, part)


def texts_of(data: bytes) -> dict[str, str]:
    """The text of each rule, by its name."""
    return {item.body.name: data[item.tokens[0].at:item.tokens[-1].at].decode("utf-8") + "end"
            for item in read_tolerantly(data)[0] if isinstance(item.body, Rule)}


def parts_of_output(program: Program, table: Table, output: bytes) -> list[Part]:
    """The certificates that the mode proof printed, where they are good ones of this program."""
    lines, places = output.decode("utf-8", "replace").splitlines(), asked(program, table)
    if lines[-1:] != ["confirmed"] or len(lines) != len(places) + 1:
        raise Unfit(f"the output has {len(lines)} lines, where {len(places)} certificates and `confirmed` are asked "
                    "for")
    parts = []
    for number, (line, place) in enumerate(zip(lines, places), start=1):
        part = part_of_line(program, line, place)
        if part is None:
            k, i, j = place
            raise Unfit(f'line {number} of the output is none for the conditions {i + 1} and {j + 1} of '
                        f'"{program.title(k)}": {line}')
        if not is_good_part(program, table, part):
            raise Unfit(f"line {number} of the output is no good certificate: {line}")
        parts.append(part)
    return parts


def sheet_of(rules: bytes, output: Optional[bytes] = None) -> Sheet:
    """The certificates of a rule file: those of an output of the mode proof, or such as the second evaluator makes."""
    program = program_or_refusal(rules)
    if isinstance(program, str):
        raise Unfit(f"the rule file is not accepted: {program}")
    table = table_of(program)
    parts = certify(program) if output is None else parts_of_output(program, table, output)
    if not confirm(program, table, parts):
        raise Unfit("the certificates are not confirmed")
    return Sheet(program, table, parts, texts_of(rules))
