"""Rows that are looked up and taken over from before against rows of every pair, world by world."""

import unittest

from sozhipen_tools.reference.generators.generate import case_of, lives_case_of, shared_case_of
from sozhipen_tools.reference.meaning import worlds
from sozhipen_tools.reference.meaning.program import Program
from sozhipen_tools.reference.meaning.run import Run, program_or_refusal
from sozhipen_tools.reference.meaning.script import lines_of
from sozhipen_tools.reference.meaning.trees import Negated, Rule
from sozhipen_tools.reference.meaning.worlds import Row, World, candidates, is_mature, longer_rows, passes


def rows_of_every_pair(rule: Rule, w: World) -> list[Row]:
    """The rows as the meaning says them: each candidate is tested with each row, and nothing is taken over."""
    fresh = World(w.program, w.facts, w.clock, w.last_starts, w.promises)
    found = [Row((), {})]
    for condition in rule.conditions:
        among, longer = candidates(condition.source, fresh), []
        for row in found:
            grown = longer_rows(condition, [f for f in among if passes(condition.source, f, row)], row)
            longer += grown if not isinstance(condition, Negated) or is_mature(condition.source, row, w) else []
        found = longer
    return found


class Lookups(unittest.TestCase):
    def agree(self, rules: bytes, script: bytes) -> int:
        """Runs the script, comparing the rows of each rule behind each line; how many rows were seen."""
        program = program_or_refusal(rules)
        if isinstance(program, str):
            return 0
        state, seen = Run(World(program), 200, 200, []), 0
        for number, line in enumerate(lines_of(script), start=1):
            state.line(number, line)
            for rule in program.rules:
                wanted = [row.cells for row in rows_of_every_pair(rule, state.world)]
                self.assertEqual(wanted, [row.cells for row in worlds.rows(rule, state.world)])
                seen += len(wanted)
        return seen

    def test_random_files(self) -> None:
        seen = sum(self.agree(case.rules, case.script) for case in (case_of(seed) for seed in range(50)))
        self.assertGreater(seen, 1000)

    def test_files_of_finite_lives(self) -> None:
        seen = sum(self.agree(case.rules, case.script) for case in map(lives_case_of, range(60)))
        self.assertGreater(seen, 200)

    def test_files_whose_rules_share_conditions(self) -> None:
        seen = sum(self.agree(case.rules, case.script) for case in map(shared_case_of, range(20)))
        self.assertGreater(seen, 1000)

    def test_another_fact_of_the_same_number(self) -> None:
        """From one world two ways: the facts that they insert have the same tag, and are two."""
        program = program_or_refusal(b"declare A x : long end rule r when A( $x : x ) A( x == $x ) then end")
        assert isinstance(program, Program)
        state = Run(World(program), 9, 9, [])
        state.line(1, b'{"do":"insert","type":"A","fields":{"x":1}}')
        before, found = state.world, []
        for value in (b"1", b"2"):
            state.world = before
            state.line(2, b'{"do":"insert","type":"A","fields":{"x":' + value + b"}}")
            found.append([tuple(f.values["x"] for f in row.facts)
                          for row in worlds.rows(program.rules[0], state.world)])
        self.assertEqual(found, [[(1, 1)] * 4, [(1, 1), (2, 2)]])


if __name__ == "__main__":
    unittest.main()
