"""Draws a run of the program `replay` as one HTML page, of its rule file, its script and its output.

    tools/run timeline RULES SCRIPT OUTPUT > page.html
"""

from __future__ import annotations

import sys
from pathlib import Path

from ..words import Parser
from .marks import picture_of
from .page import page, title_of
from .recording import Unfit, recording_of


def main() -> int:
    parser = Parser(prog="timeline", description="Draws a run as one HTML page.")
    for name, what in (("rules", "the rule file"), ("script", "the script"), ("output", "what the program printed")):
        parser.add_argument(name, type=Path, help=what)
    asked = parser.parse_args()
    try:
        recording = recording_of(asked.rules.read_bytes(), asked.script.read_bytes(), asked.output.read_bytes())
    except (OSError, UnicodeDecodeError, Unfit) as error:
        print(f"timeline: {error}", file=sys.stderr)
        return 1
    sys.stdout.buffer.write(page(title_of(asked.rules), recording, picture_of(recording)).encode("utf-8"))
    return 0


if __name__ == "__main__":
    sys.exit(main())
