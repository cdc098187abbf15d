"""Makes the table of crates in docs/MAP.md, from the first comment of each crate.

    tools/run documents.map          writes the table between its two marks
    tools/run documents.map --look   says whether it is as it would be written

The crates stand in the order of crates.txt, with a row for each house before its own. A row has the first sentence of
the comment, up to a colon. Where other words say it better, heads.txt beside this file has them.
"""

from __future__ import annotations

import re
import sys
from pathlib import Path

from ..words import Parser
from .houses import houses, purposes
from .pages import sentences_of
from .tree import Tree

PAGE = "docs/MAP.md"
FROM, TO = "<!-- made by tools/run documents.map -->", "<!-- made up to here -->"
HEADS = Path(__file__).resolve().parent / "heads.txt"


def own_words(text: str) -> dict[str, str]:
    """The words of heads.txt, by crate."""
    lines = (line.split(":", 1) for line in text.splitlines() if ":" in line and not line.startswith("#"))
    return {name.strip(): words.strip() for name, words in lines}


def brief(head: str) -> str:
    """The first sentence of a comment up to a colon, with a small letter at its front and no stop at its end."""
    spans: list[str] = re.findall(r"`[^`]+`", head)
    first = (sentences_of(head) or [""])[0].rstrip(".").split(": ")[0]
    for span in spans[: first.count("Code")]:
        first = first.replace("Code", span, 1)
    return first[:1].lower() + first[1:] if first[1:2].islower() or first[1:2] == " " else first


def table(tree: Tree, words: dict[str, str]) -> str:
    text = tree.text("crates.txt")
    home, purpose = houses(text), purposes(text)
    rows, house = ["| crate | what it is |", "|---|---|"], ""
    for name in tree.cites:
        if home.get(name, "") != house:
            house = home.get(name, "")
            rows.append(f"| **{house}** | {purpose.get(house) or words.get(house, '')} |")
        if name in tree.crates:
            rows.append(f"| `{name}` | {words.get(name) or brief(tree.crates[name].head)} |")
    return "\n".join(rows)


def made(text: str, rows: str) -> str:
    """The page with the table between its marks."""
    before, mark, rest = text.partition(FROM)
    _, end, behind = rest.partition(TO)
    if not (mark and end):
        raise ValueError(f"{PAGE} has not both marks of the table")
    return f"{before}{FROM}\n\n{rows}\n\n{TO}{behind}"


def map_faults(tree: Tree, heads: str) -> list[str]:
    words = own_words(heads)
    known = {*tree.crates, *houses(tree.text("crates.txt")).values()}
    faults = [f"heads.txt: there is no crate {name}" for name in words if name not in known]
    text = tree.text(PAGE)
    try:
        differs = made(text, table(tree, words)) != text
    except ValueError as fault:
        return [*faults, str(fault)]
    return faults + ([f"{PAGE}: the table of crates is not as map.py makes it"] if differs else [])


def main() -> int:
    parser = Parser(description="Makes the table of crates in docs/MAP.md, from the first comment of each crate.")
    parser.add_argument("--look", action="store_true", help="say whether it is as it would be written")
    look = parser.parse_args().look
    tree, heads = Tree(), HEADS.read_text(encoding="utf-8")
    if look:
        faults = map_faults(tree, heads)
        print("\n".join(faults) or "the table of crates is as it is made")
        return 1 if faults else 0
    (tree.top / PAGE).write_text(made(tree.text(PAGE), table(tree, own_words(heads))), encoding="utf-8")
    return 0


if __name__ == "__main__":
    sys.exit(main())
