"""Scripts that are cut: the evaluator goes on as without a break, and a run that forgets what rows count is told."""

import unittest
from collections import Counter
from dataclasses import replace
from random import Random
from typing import Optional

from sozhipen_tools.reference.comparers.cuts import (Answers, Asked, Script, by_reference, first_difference, scripts,
                                                     shared_scripts)
from sozhipen_tools.reference.comparers.modes import Answer
from sozhipen_tools.reference.images.image import decode, encode


def forgetful(answers: Answers) -> Answers:
    """Goes on from an image without what its rows count of forgotten events."""
    def answer(asked: Asked) -> Answer:
        image = None if asked.image is None else encode(replace(decode(asked.image), extras=()))
        return answers(replace(asked, image=image))
    return answer


class Cuts(unittest.TestCase):
    def said(self, script: Script, answers: Answers) -> Optional[str]:
        return first_difference(script.program, script.case, script.whole, answers, Counter(), Random(script.seed))

    def test_the_evaluator_goes_on(self) -> None:
        for script in scripts(4, 0):
            self.assertIsNone(self.said(script, by_reference(script.program, script.limit)))

    def test_files_whose_rules_share_conditions(self) -> None:
        for script in shared_scripts(4, 0):
            self.assertGreater(len(script.program.rules), 2)
            self.assertIsNone(self.said(script, by_reference(script.program, script.limit)))

    def test_forgotten_events_are_missed(self) -> None:
        blocked = [script for script in scripts(4, 0) if script.counts["telling images"]]
        self.assertEqual(len(blocked), 2)
        for script in blocked:
            self.assertIsNotNone(self.said(script, forgetful(by_reference(script.program, script.limit))))


if __name__ == "__main__":
    unittest.main()
