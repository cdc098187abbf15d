"""What the partitions of a stream should answer, by one run of a desk over the lines of each, and what is there."""

from __future__ import annotations

import re
from collections import Counter, defaultdict
from typing import Iterable, Iterator, NamedTuple

from .broker import NOTHING, Broker, Entry, MemoryBroker, answers_of
from .engine import Engine, answers_of_lines
from .entries import Numbered, data_of, lines_in
from .routes import Routes

ALL = 1 << 30
FIRING = re.compile(rb'fire ("(?:[^"\\]|\\.)*")(.*)')


class Answered(NamedTuple):
    """A line of a partition, under its number in the script, with what it answers."""
    number: int
    line: bytes
    answers: list[bytes]


def lines_of_partitions(script: Iterable[bytes], routes: Routes) -> list[list[Numbered]]:
    """What each partition gets of a script."""
    parts: list[list[Numbered]] = [[] for _ in range(routes.partitions)]
    for routed in map(routes.route, script):
        for partition in routed.partitions:
            parts[partition] += [Numbered(routed.number, line) for line in routed.lines]
    return parts


def one_run(engine: Engine, lines: list[Numbered]) -> list[Answered]:
    """What one run answers to these lines."""
    told, _ = engine.run(NOTHING.image, b"".join(line.line + b"\n" for line in lines))
    return [Answered(*line, answers) for line, answers in zip(lines, answers_of_lines(told))]


def answers_there(broker: Broker, partition: int) -> list[Numbered]:
    """All that a partition answered."""
    entries = broker.read(answers_of(partition), 0, ALL)
    return [line for entry in entries for line in lines_in(entry.data)]


def by_number(lines: Iterable[Numbered]) -> dict[int, list[bytes]]:
    found: dict[int, list[bytes]] = defaultdict(list)
    for line in lines:
        found[line.number].append(line.line)
    return found


def differences(wanted: list[Numbered], there: list[Numbered]) -> Iterator[str]:
    """In what the answers that are there differ from those of one run."""
    if wanted == there:
        return
    wanted_by, there_by = by_number(wanted), by_number(there)
    for number in sorted({*wanted_by, *there_by}):
        one, found = wanted_by.get(number, []), there_by.get(number, [])
        if found != one:
            yield f"line {number} " + ("is not answered" if not found else "is answered twice" if found == one * 2
                                       else "is answered otherwise")
    if wanted_by == there_by:
        yield "the answers are in another order"


def differences_of_all(broker: Broker, runs: list[list[Answered]]) -> list[str]:
    """In what the answers of all partitions differ from those of one run over the lines of each."""
    found = []
    for partition, run in enumerate(runs):
        wanted = [Numbered(line.number, answer) for line in run for answer in line.answers]
        found += [f"partition {partition}: {what}" for what in differences(wanted, answers_there(broker, partition))]
    return found


def firings(run: Iterable[Answered]) -> Counter[tuple[int, bytes, tuple[bytes, ...]]]:
    """The firings of a run: the line of the script, the rule, and for the numbers of facts the lines that inserted
    them, as numbers differ between partitions and one run over all."""
    facts: dict[bytes, bytes] = {}
    found: Counter[tuple[int, bytes, tuple[bytes, ...]]] = Counter()
    for number, line, answers in run:
        for answer in answers:
            if fired := FIRING.match(answer):
                found[number, fired[1], tuple(facts.get(word, word) for word in fired[2].split())] += 1
            elif answer.startswith(b"new "):
                facts[answer.split()[1]] = line if b'"insert"' in line else answer.split()[2]
    return found


def planted(broker: Broker, partition: int, what: str) -> MemoryBroker:
    """The answers of a partition with a `double` or a `lost` one among them."""
    entries = broker.read(answers_of(partition), 0, ALL)
    place = len(entries) // 2
    entry = entries[place]
    first = by_number(lines_in(entry.data))[entry.number]
    twice = [Numbered(entry.number, line) for line in first]
    doubled = [Entry(entry.number, entry.data + data_of(twice))]
    changed = MemoryBroker()
    changed.append(answers_of(partition), 0,
                   entries[:place] + (doubled if what == "double" else []) + entries[place + 1:])
    return changed
