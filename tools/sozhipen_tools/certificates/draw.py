"""Draws the certificates of a rule file's lives as one HTML page: of each the network of its rule, and in it the path
that bounds a life.

    tools/run certificates.draw RULES [OUTPUT] > page.html

OUTPUT is what the program printed in its mode `proof`; without it the certificates are those that the second evaluator
makes.
"""

from __future__ import annotations

import sys
from pathlib import Path

from ..words import Parser
from .page import page
from .proofs import Unfit, sheet_of


def title_of(rules: Path) -> str:
    return rules.resolve().parent.name if rules.stem == "rules" else rules.stem


def main() -> int:
    parser = Parser(description="Draws the certificates of a rule file's lives as one HTML page.")
    parser.add_argument("rules", metavar="RULES", type=Path, help="the rule file")
    parser.add_argument("output", metavar="OUTPUT", type=Path, nargs="?",
                        help="what the program printed in its mode `proof`")
    asked = parser.parse_args()
    try:
        sheet = sheet_of(asked.rules.read_bytes(), asked.output and asked.output.read_bytes())
    except (OSError, Unfit) as error:
        print(f"draw.py: {error}", file=sys.stderr)
        return 1
    sys.stdout.buffer.write(page(title_of(asked.rules), sheet).encode("utf-8"))
    return 0


if __name__ == "__main__":
    sys.exit(main())
