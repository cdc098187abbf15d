"""Figures and tables of documents against what they count."""

from __future__ import annotations

import re
from typing import Iterator

from .pages import Page
from .tree import Tree

Faults = Iterator[tuple[int, str]]
WORDS = ("zero one two three four five six seven eight nine ten eleven twelve thirteen fourteen fifteen sixteen "
         "seventeen eighteen nineteen twenty").split()
NUMBER = r"\b(\d[\d,]*|" + "|".join(WORDS) + r")"
EDIT_ROW = re.compile(r"^\|[^|]+\|\s*`(\w+)`: ((?:`\w+`(?:, )?)+)\s*\|\s*$", re.M)
# Rule files beside a script whose output is not recorded: it is too long.
UNRECORDED = {"examples/endless.drl"}


def number_of(text: str) -> int:
    return WORDS.index(text) if text in WORDS else int(text.replace(",", ""))


def calls_of_cases(tree: Tree) -> int:
    """How many runs the cases make in which one call of the outside fails."""
    return sum(map(int, re.findall(r"^=== each \w+: (\d+) calls", tree.text("crates/cases/stdout"), re.M)))


def figures(tree: Tree) -> dict[str, int]:
    """What is counted, by the words behind a number in a document."""
    tested = sum("#[test]" in crate.code for crate in tree.crates.values())
    return {
        r"must-fail edits": tree.count("crates/*/must-fail/*.edit"),
        r"edits in the gate": tree.count("crates/*/must-fail/*.edit"),
        r"edits behind the gate": tree.count("wrong-bodies/*/*.edit"),
        r"crates in all": len(tree.crates),
        r"proofs of crates and of tests": len(tree.crates) + tested,
        r"crates(?=, by the network)": tree.chain(),
        r"cases in the gate": len(re.findall(r"^=== \d+ ", tree.text("crates/cases/stdin"), re.M)),
        r"failing calls of `cases`": calls_of_cases(tree),
    }


def figure_faults(page: Page, counted: dict[str, int]) -> Faults:
    for block in page.blocks:
        text = " ".join(block.text.split())
        for words, count in counted.items():
            for match in re.finditer(NUMBER + r" " + words, text):
                if number_of(match[1]) != count:
                    yield block.line, f"{match[0]}: there are {count:,}"


def edit_faults(tree: Tree, page: Page) -> Faults:
    """The table of wrong bodies: each edit that it names is in the gate, and it names each that is."""
    rows = EDIT_ROW.findall(page.passage("Wrong bodies"))
    named = {f"{crate}/{edit}" for crate, edits in rows for edit in re.findall(r"\w+", edits)}
    there = {f"{path.parent.parent.name}/{path.stem}" for path in tree.top.glob("crates/*/must-fail/*.edit")}
    yield from ((0, f"wrong body {name}: it is not in the gate") for name in sorted(named - there))
    yield from ((0, f"wrong body {name}: the table has it not") for name in sorted(there - named))


def clause_faults(tree: Tree, page: Page) -> Faults:
    """Clauses of the program's one call that the page of promises has not."""
    named = {name for block in page.blocks for span in block.spans for name in re.findall(r"\w+", span)}
    promised = tree.crates["sozhipen"].clauses.get("run", set()) if "sozhipen" in tree.crates else set()
    yield from ((0, f"`sozhipen::run: {clause}`: no row has this clause") for clause in sorted(promised - named))


def example_faults(tree: Tree) -> Iterator[str]:
    """Examples without what they print: scripts beside rule files, and cases."""
    for script in sorted((tree.top / "examples").rglob("*.jsonl")):
        rules = str(script.with_suffix(".drl").relative_to(tree.top))
        if script.with_suffix(".drl").exists() and rules not in UNRECORDED and not script.with_suffix(".out").exists():
            yield f"{rules}: what it prints is not recorded (.out)"
    for words in sorted((tree.top / "examples" / "cases").glob("*.args")):
        if not words.with_suffix("").exists() or not words.with_suffix(".stdout").exists():
            yield f"examples/cases/{words.stem}: the script or what it prints is missing"
