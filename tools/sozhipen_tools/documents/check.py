"""Says which figures, names, links and limits of README and docs do not hold.

    tools/run documents.check              all findings, and the words of each page
    tools/run documents.check PAGE..       those of these pages alone (MAP, docs/MAP.md)
    tools/run documents.check --sentences  besides, each sentence of more than 40 words

The status is 0 where all holds, and 1 otherwise. Long sentences are told and are no failure.
"""

from __future__ import annotations

import argparse
import sys
from pathlib import Path
from typing import Iterator

from ..words import Parser
from .figures import clause_faults, edit_faults, example_faults, figure_faults, figures
from .graph import graph_faults
from .links import Links
from .map import HEADS, map_faults
from .names import Names
from .pages import Page, pages_of
from .tree import Tree

# The greatest number of words, by page, and of all together; programs and what they print are not counted.
LIMITS = {"README": 775, "RULES": 5300, "LIVES": 2250, "SCRIPT": 2690, "LIVE": 3810, "OPERATING": 1400,
          "EXAMPLES": 2500, "COMING-FROM": 2840, "TOOLS": 1530, "RECIPES": 700, "PROVED": 6145, "MAP": 4445,
          "DECISIONS": 3420, "PERFORMANCE": 2700, "CHANGING": 2760, "PROOF-NOTES": 3400, "DESK": 1160,
          "SCALING": 1660, "EMBEDDING": 1330, "CHANGING-RULES": 1400}
ALL_WORDS = 51_900
LONG = 40
# Pages that speak of the code alone: a name of code that stands nowhere is a fault there.
OF_CODE = {"PROVED", "MAP", "DECISIONS", "CHANGING", "PROOF-NOTES"}

Found = Iterator[tuple[str, int, str]]


def name_of(page: Page) -> str:
    return Path(page.path).stem


def found_in(page: Page, tree: Tree, names: Names, links: Links, counted: dict[str, int]) -> Iterator[tuple[int, str]]:
    """What does not hold on one page, with the lines."""
    yield from names.faults(page)
    yield from names.unknown(page) if name_of(page) in OF_CODE else ()
    yield from links.faults(page)
    yield from figure_faults(page, counted)
    if name_of(page) == "CHANGING":
        yield from edit_faults(tree, page)
    if name_of(page) == "PROVED":
        yield from clause_faults(tree, page)
    if name_of(page) == "MAP":
        yield from ((0, fault) for fault in graph_faults(tree, page))
        yield from ((0, fault) for fault in map_faults(tree, HEADS.read_text(encoding="utf-8")))
    limit = LIMITS.get(name_of(page))
    if limit is None:
        yield 0, "a page without a limit of its words (LIMITS in tools/sozhipen_tools/documents/check.py)"
    elif page.words > limit:
        yield 0, f"{page.words:,} words, where {limit:,} are the limit"


def found_beside(pages: list[Page], tree: Tree, links: Links) -> Found:
    """What does not hold beside the pages: examples, what sources point to, the words of all."""
    yield from (("examples", 0, fault) for fault in example_faults(tree))
    yield from links.faults_of_sources()
    words = sum(page.words for page in pages)
    if words > ALL_WORDS:
        yield "all pages", 0, f"{words:,} words, where {ALL_WORDS:,} are the limit"


def all_found(pages: list[Page], wanted: list[Page], tree: Tree) -> Found:
    names, links, counted = Names(tree), Links(tree), figures(tree)
    for page in wanted:
        yield from ((page.path, line, fault) for line, fault in found_in(page, tree, names, links, counted))
    if len(wanted) == len(pages):
        yield from found_beside(pages, tree, links)


def long_sentences(pages: list[Page]) -> Found:
    for page in pages:
        for block in page.blocks:
            for sentence in block.sentences:
                count = len(sentence.split())
                if count > LONG:
                    yield page.path, block.line, f"{count} words: {sentence[:100]}.."


def shown(found: list[tuple[str, int, str]]) -> str:
    return "\n".join(f"{path}:{line}: {fault}" if line else f"{path}: {fault}" for path, line, fault in found)


def main() -> int:
    parser = Parser(description=__doc__, formatter_class=argparse.RawDescriptionHelpFormatter)
    parser.add_argument("page", nargs="*")
    parser.add_argument("--sentences", action="store_true")
    words = parser.parse_args()
    tree = Tree()
    pages = pages_of(tree.top)
    wanted = [page for page in pages if not words.page or name_of(page) in {Path(name).stem for name in words.page}]
    faults = list(dict.fromkeys(all_found(pages, wanted, tree)))
    lengthy = list(long_sentences(wanted))
    print(shown(faults + lengthy if words.sentences else faults))
    print("words: " + ", ".join(f"{name_of(page)} {page.words:,}" for page in wanted))
    print(f"faults: {len(faults)}; sentences of more than {LONG} words: {len(lengthy)}; words in all: "
          f"{sum(page.words for page in wanted):,}")
    return 1 if faults else 0


if __name__ == "__main__":
    sys.exit(main())
