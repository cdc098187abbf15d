"""Which house of crates cites which, and what a change of a crate costs.

    tools/run documents.houses                what goes the wrong way, or that nothing does
    tools/run documents.houses --above CRATE  the crates that stand on a crate, with their lines of proofs

The status is 0 where all holds, and 1 otherwise.
"""

from __future__ import annotations

import re
import sys
from typing import Iterator

from ..imports import imported
from ..words import Parser
from .tree import Tree

# What each house may cite, besides itself.
MAY_CITE = {
    "ground": set[str](),
    "outside": {"ground"},
    "meaning": {"ground", "outside"},
    "lives": {"ground", "meaning"},
    "network": {"ground", "meaning"},
    "session": {"ground", "outside", "meaning", "lives", "network"},
    "language": {"ground", "meaning", "lives"},
    "program": {"ground", "outside", "meaning", "lives", "network", "session", "language"},
    "tests and laws": {"ground", "outside", "meaning", "lives", "network", "session", "language", "program"},
}
# Laws that a house above cites, though they stand among the tests.
LAWS = {"load_laws"}
PART = re.compile(r"# --- ([a-z ]+?)(?:: (.*))?$")
NAMED = re.compile(r"\bRattle\.(\w+)\.|\b(\w+)::")


def houses(text: str) -> dict[str, str]:
    """The house of each crate, by the parts of crates.txt; crates in front of the first part have none."""
    found: dict[str, str] = {}
    house = ""
    for line in text.splitlines():
        part = PART.match(line)
        if part:
            house = part[1]
        elif ":" in line and not line.startswith("#"):
            found[line.split(":")[0].split()[0]] = house
    return found


def purposes(text: str) -> dict[str, str]:
    """What each house is for, in the words of crates.txt."""
    return {part[1]: part[2] or "" for part in map(PART.match, text.splitlines()) if part}


def libraries(text: str) -> dict[str, list[str]]:
    """All that each crate lists, libraries of the kit too."""
    lines = (line.split(":", 1) for line in text.splitlines() if ":" in line and not line.startswith("#"))
    return {name.split()[0]: rest.split() for name, rest in lines}


def house_faults(tree: Tree) -> Iterator[str]:
    """Crates in no house, citations that go the wrong way, and libraries that no file of their crate names."""
    text = tree.text("crates.txt")
    home, listed = houses(text), libraries(text)
    for name, house in home.items():
        if house not in MAY_CITE:
            yield f"crates.txt: {name} stands in no house" if not house else f"crates.txt: there is no house {house}"
    for name, cited in tree.cites.items():
        for other in cited:
            here, there = home.get(name, ""), home.get(other, "")
            if here in MAY_CITE and here != there and there not in MAY_CITE[here] and other not in LAWS:
                yield f"crates.txt: {name} ({here}) cites {other} ({there}), which no crate of its house may"
    for name, crate in tree.crates.items():
        words = {word for file in crate.files.values() for pair in NAMED.findall(file) for word in pair if word}
        words.update(name.module[1] for file in crate.files.values() for name in imported(file) if name.module[1:])
        yield from (f"crates.txt: no file of {name} names {library}" for library in listed.get(name, ())
                    if library not in words)


def above(tree: Tree, name: str) -> list[str]:
    """The crates that stand on a crate, the lowest first."""
    found: list[str] = []
    for other, cited in tree.cites.items():
        if name in cited or any(lower in found for lower in cited):
            found.append(other)
    return found


def proof_lines(tree: Tree, name: str) -> int:
    """The lines of a crate's proofs."""
    crate = tree.crates.get(name)
    files = crate.files.items() if crate else ()
    return sum(text.count("\n") for path, text in files if path.startswith("proofs/"))


def main(words: list[str] | None = None) -> int:
    parser = Parser(prog="documents.houses", description=__doc__.split("\n")[0])
    parser.add_argument("--above", metavar="CRATE", help="the crates that stand on this one, and their lines of proofs")
    asked, tree = parser.parse_args(words), Tree()
    if asked.above:
        if asked.above not in tree.crates:
            parser.error(f"there is no crate {asked.above}")
        upper = above(tree, asked.above)
        lines = sum(proof_lines(tree, name) for name in (asked.above, *upper))
        print(f"{len(upper)} crates stand on {asked.above}, with it {lines:,} lines of proofs: {' '.join(upper)}")
        return 0
    faults = list(house_faults(tree))
    print("\n".join(faults) or "each citation goes to a house that stands lower; the longest chain has "
          f"{tree.chain()} crates")
    return 1 if faults else 0


if __name__ == "__main__":
    sys.exit(main())
