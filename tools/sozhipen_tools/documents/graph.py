"""The graph of crates that a page draws, against what the crates cite."""

from __future__ import annotations

import re
from typing import Iterator

from .pages import Page
from .tree import Tree

MEMBER = re.compile(r"\w+")
# The house at the front of its first line.
HOUSE = re.compile(r"^\w* {4,}")
# A statement that names no crates on its left.
LOOSE = re.compile(r"^lower crates\b")


def statements(page: Page) -> list[str]:
    """The statements of the graph, of which a line has one or more."""
    match = re.search(r"^## The graph$.*?^```\n(.*?)^```", page.text, re.S | re.M)
    lines = [HOUSE.sub("", line) for line in match[1].splitlines()] if match else []
    return [part for line in lines for part in line.split("; ") if part.strip()]


def edges_of(statement: str) -> Iterator[tuple[str, str]]:
    """The pairs of a crate and one that stands on it: `A, B <- C (+ D) <- E`."""
    groups = [re.findall(r"(\w+)(?: \(\+ ([^)]*)\))?", group) for group in statement.split("<-")]
    for group in groups:
        yield from ((more, name) for name, others in group for more in MEMBER.findall(others))
    for lower, upper in zip(groups, groups[1:]):
        yield from ((below, above) for below, _ in lower for above, _ in upper)


def graph_faults(tree: Tree, page: Page) -> Iterator[str]:
    """Edges that crates.txt has not, and citations that follow from no edges."""
    drawn = [statement for statement in statements(page) if not LOOSE.search(statement)]
    loose = {name for statement in statements(page) if LOOSE.search(statement) for name in MEMBER.findall(statement)}
    edges = {edge for statement in drawn for edge in edges_of(statement)}
    parents: dict[str, set[str]] = {name: set() for name in tree.cites}
    for below, above in sorted(edges):
        if below in tree.cites and above in tree.cites:
            parents[above].add(below)
            if below not in tree.cites[above]:
                yield f"graph: {above} does not cite {below}"
    for name in sorted(tree.cites.keys() - loose):
        reached = reach(name, parents)
        yield from (f"graph: {name} cites {cited}, which follows from no edge" for cited in tree.cites[name]
                    if cited not in reached)


def reach(name: str, parents: dict[str, set[str]]) -> set[str]:
    """What a crate stands on by the edges."""
    found: set[str] = set()
    todo = [name]
    while todo:
        new = parents[todo.pop()] - found
        found |= new
        todo.extend(new)
    return found
