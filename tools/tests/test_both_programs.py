"""What the client over `desk` tells is what it tells over `replay`, on random rule files and scripts, where both know
it: both over the second evaluator.

    PYTHONPATH=tools python3 tools/tests/test_both_programs.py [FILES]
"""

from __future__ import annotations

import sys
import tempfile
import unittest
from collections import Counter
from itertools import count, islice
from pathlib import Path
from typing import Iterator, Optional

import support  # noqa: F401

from sozhipen import Answer, Fact, Firing, Session
from sozhipen_tools.places import command_of
from sozhipen_tools.reference.generators.generate import Case, case_of, lives_case_of, shared_case_of
from sozhipen_tools.reference.meaning.run import program_or_refusal

REPLAY, DESK = command_of("reference.live"), command_of("reference.desk")
# How many files the tests take.
FEW = 20
MOST_FIRINGS = 1_000_000
# The sorts of rule files in turn; those of the first have the most actions.
SORTS = (case_of, lives_case_of, case_of, shared_case_of, case_of)
FIRST_SEED = 13


def cases(many: int) -> Iterator[tuple[int, Case]]:
    """So many cases with rule files that are accepted, each with its seed."""
    found = ((seed, SORTS[seed % len(SORTS)](seed)) for seed in count(FIRST_SEED))
    return islice((it for it in found if not isinstance(program_or_refusal(it[1].rules), str)), many)


def same_fact(replay: Fact, desk: Fact) -> bool:
    """A fact is the same one, with the values that the shadow has."""
    return desk.values is not None and (replay.id, replay.type, replay.entry, replay.rule) == (
        desk.id, desk.type, desk.entry, desk.rule) and replay.values in (None, desk.values)


def same_facts(replay: list[Fact], desk: list[Fact]) -> bool:
    return len(replay) == len(desk) and all(map(same_fact, replay, desk))


class Comparer:
    """Compares what two sessions told of a script, and counts what it saw."""

    def __init__(self, replay: Session, desk: Session, seen: Counter[str]):
        self.replay, self.desk, self.seen = replay, desk, seen

    def difference(self, lines: list[str]) -> Optional[str]:
        pairs = [(self.replay.send_line(line), self.desk.send_line(line)) for line in lines]
        statuses = self.replay.close(), self.desk.close()
        for replay, desk in pairs:
            if said := self.answers_differ(replay, desk):
                return f"line {replay.line}, {replay.text}: {said}"
        return None if statuses[0] == statuses[1] else f"the statuses are {statuses}"

    def answers_differ(self, replay: Answer, desk: Answer) -> Optional[str]:
        self.seen["answers"] += 1
        told = [(it.line, it.clock, it.told_fact, it.told_fault, it.told_held, len(it.told_firings))
                for it in (replay, desk)]
        if told[0] != told[1]:
            return f"{told[0]} over replay, {told[1]} over desk"
        if replay.told_pending is not None and replay.told_pending != desk.told_pending:
            return f"pending: {replay.told_pending} over replay, {desk.told_pending} over desk"
        return next((f"{a} over replay, {b} over desk" for a, b in zip(replay.told_firings, desk.told_firings)
                     if not self.same_firing(a, b)), None)

    def same_firing(self, replay: Firing, desk: Firing) -> bool:
        known = self.is_known(replay)
        self.seen["firings that the shadow knows" if known else "other firings"] += 1
        self.seen.update(made=len(desk.made), modified=len(desk.modified), retracted=len(desk.retracted),
                         faults=len(desk.faults), results=len(desk.results))
        return self.same_sight(replay, desk) and self.same_actions(replay, desk, known)

    def is_known(self, replay: Firing) -> bool:
        """Whether the shadow knows all that the actions did: the values of the facts, and one thing to do in whichever
        way the rule came."""
        if self.replay.rules is None or any(fact.values is None for fact in replay.facts):
            return False
        steps = [steps for _, steps in self.replay.rules.ways(replay.rule, replay.facts, replay.results)]
        return bool(steps) and all(other == steps[0] for other in steps)

    def same_sight(self, replay: Firing, desk: Firing) -> bool:
        facts = [desk_fact if fact.type == "?" else fact for fact, desk_fact in zip(replay.facts, desk.facts)]
        return (same_facts(facts, desk.facts)
                and (replay.rule, replay.line, replay.clock, replay.results) == (
                    desk.rule, desk.line, desk.clock, desk.results)
                and all(self.same_value(value, desk.names[name]) for name, value in replay.names.items()))

    @staticmethod
    def same_value(replay: object, desk: object) -> bool:
        return same_fact(replay, desk) if isinstance(replay, Fact) and isinstance(desk, Fact) else replay == desk

    @staticmethod
    def same_actions(replay: Firing, desk: Firing, known: bool) -> bool:
        told = replay.faults == desk.faults and same_facts(replay.made, desk.made)
        return told and (not known or same_facts(replay.modified, desk.modified)
                         and same_facts(replay.retracted, desk.retracted))


def difference(case: Case, seen: Counter[str]) -> Optional[str]:
    """The first difference of what the client tells over the two programs."""
    with tempfile.TemporaryDirectory() as folder:
        rules = Path(folder, "rules.drl")
        rules.write_bytes(case.rules)
        lines = [line.decode("utf-8", "surrogateescape") for line in case.script.split(b"\n")]
        sessions = Session(rules, REPLAY, MOST_FIRINGS), Session(rules, DESK, MOST_FIRINGS, live=True)
        return Comparer(*sessions, seen).difference(lines)


class BothPrograms(unittest.TestCase):
    def test_random_files(self) -> None:
        seen: Counter[str] = Counter()
        for seed, case in cases(FEW):
            self.assertIsNone(difference(case, seen), f"seed {seed}")
        for sight in ("firings that the shadow knows", "made", "modified", "retracted", "faults", "results"):
            self.assertGreater(seen[sight], 0, sight)


def main(words: list[str]) -> int:
    seen: Counter[str] = Counter()
    for seed, case in cases(int(words[0]) if words else FEW):
        said = difference(case, seen)
        seen["files that differ" if said else "files that agree"] += 1
        if said:
            print(f"seed {seed}: {said}", flush=True)
    print(", ".join(f"{name} {many}" for name, many in sorted(seen.items())), flush=True)
    return 1 if seen["files that differ"] else 0


if __name__ == "__main__":
    sys.exit(main(sys.argv[1:]))
