"""The programs that a session speaks to: `replay`, which answers in text, and `desk`, which answers in objects."""

from __future__ import annotations

import os
import sys
from pathlib import Path
from typing import Optional, Union

from sozhipen_tools.places import BUILT, BUILT_DESK, command_of

Program = Union[None, str, Path, list[str]]

EVALUATOR, DESK_EVALUATOR = "reference.live", "reference.desk"
DESK_NAMES = ("desk", BUILT_DESK.name)


def program_words(program: Program = None, live: bool = False) -> list[str]:
    """The words that start a program: the one that is named, or the built one, with `live` the built `desk`; where that
    is not there, the evaluator."""
    if isinstance(program, list):
        return program
    built, evaluator = (BUILT_DESK, DESK_EVALUATOR) if live else (BUILT, EVALUATOR)
    if program is None and not os.access(built, os.X_OK):
        return command_of(evaluator)
    name = str(program or built)
    return [sys.executable, name] if name.endswith(".py") else [name]


def is_desk(words: list[str]) -> bool:
    """Whether the words that start a program have the name of `desk`, or of the evaluator that behaves as it. A word
    `desk` behind the first may be a folder or a file, and says nothing."""
    return Path(words[0]).name in DESK_NAMES or words[-1] == DESK_EVALUATOR


def option_words(live: bool, limit: Optional[int], image: Union[None, str, Path]) -> list[str]:
    """The options of a run with a limit of firings and an image, of `desk` where it is live."""
    options = [("--limit", limit), ("--image" if live else "--resume", image)]
    return [f"{name}={value}" for name, value in options if value is not None]
