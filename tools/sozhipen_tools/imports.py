"""Lays out the imports of proofs and specs.

    tools/run imports [--one] [--look] [CRATE ..]

What stands together is cited in one nested list for each crate, in the order in which the crates and names came, on as
many lines of at most 160 columns as it takes. With --one a line of a proof may name several crates; in specs the prover
looks for names of the library in lines of their own. With --look nothing is written, and the status is 1 where a file
is laid out otherwise. Names, and so proofs, stay what they are; but the files are others, and each crate above is
proved again.
"""

from __future__ import annotations

import re
import sys
from dataclasses import dataclass, field
from pathlib import Path
from typing import Iterator, Optional

from .places import clone
from .words import Parser

COLUMNS = 160
LIST = re.compile(r"(?P<word>(?:pub )?use) (?P<path>[^\s{}]+)\.\{(?P<items>.*)\}")
NESTED = re.compile(r"(?P<path>[^\s{}]+)\.\{(?P<items>.*)\}")


@dataclass(frozen=True)
class Name:
    """A name that is imported, and the module that has it."""
    module: tuple[str, ...]
    name: str


@dataclass
class Module:
    """What of a module and of those in it stands on a line."""
    names: list[str] = field(default_factory=list)
    inner: dict[str, "Module"] = field(default_factory=dict)

    def add(self, name: Name) -> None:
        module = self
        for part in name.module:
            module = module.inner.setdefault(part, Module())
        module.names.append(name.name)

    def text(self, path: str) -> str:
        """The list of the module that has this path; paths of one way are written in one."""
        if not self.names and len(self.inner) == 1:
            (part, module), = self.inner.items()
            return module.text(f"{path}.{part}" if path else part)
        parts = self.names + [module.text(part) for part, module in self.inner.items()]
        return f"{path}.{{{', '.join(parts)}}}"


def parts_of(items: str) -> Iterator[str]:
    """The members of a list, of which each may be a list."""
    depth = start = 0
    for place, sign in enumerate(items):
        depth += (sign == "{") - (sign == "}")
        if sign == "," and depth == 0:
            yield items[start:place].strip()
            start = place + 1
    if items[start:].strip():
        yield items[start:].strip()


def names_of(module: tuple[str, ...], items: str) -> Iterator[Name]:
    for part in parts_of(items):
        nested = NESTED.fullmatch(part)
        if nested:
            yield from names_of(module + tuple(nested["path"].split(".")), nested["items"])
        else:
            yield Name(module, part)


def imported(text: str) -> Iterator[Name]:
    """The names that the imports of a file bring in."""
    for found in filter(None, map(LIST.fullmatch, text.split("\n"))):
        yield from names_of(tuple(found["path"].split(".")), found["items"])


def line_of(word: str, names: list[Name]) -> str:
    top = Module()
    for name in names:
        top.add(name)
    return f"{word} {top.text('')}"


def lines_of(word: str, names: list[Name]) -> Iterator[str]:
    """The names on as few lines as they take in their order."""
    line: list[Name] = []
    for name in names:
        if line and len(line_of(word, line + [name])) > COLUMNS:
            yield line_of(word, line)
            line = []
        line.append(name)
    if line:
        yield line_of(word, line)


def block_lines(block: list[tuple[str, Name]], one: bool) -> Iterator[str]:
    """What stands together, crate by crate, and of a crate module by module."""
    crates: dict[tuple[str, ...], dict[tuple[str, ...], list[Name]]] = {}
    for word, name in block:
        crate = (word, *name.module[:1 if one else 2])
        crates.setdefault(crate, {}).setdefault(name.module, []).append(name)
    for crate, modules in crates.items():
        yield from lines_of(crate[0], [name for names in modules.values() for name in names])


def laid_out(text: str, one: bool = False) -> str:
    """The text of a file with its imports laid out."""
    lines: list[str] = []
    block: list[tuple[str, Name]] = []
    for line in text.split("\n"):
        found = LIST.fullmatch(line)
        if found:
            block += [(found["word"], name) for name in names_of(tuple(found["path"].split(".")), found["items"])]
        else:
            lines += [*block_lines(block, one), line]
            block = []
    return "\n".join([*lines, *block_lines(block, one)])


def files(crates: Optional[list[str]]) -> Iterator[Path]:
    top = clone() / "crates"
    for crate in crates or sorted(path.name for path in top.iterdir()):
        yield from sorted((top / crate).rglob("*.antt"))


def main() -> int:
    parser = Parser(prog="imports", description=__doc__)
    parser.add_argument("--one", action="store_true", help="lines of proofs may name several crates")
    parser.add_argument("--look", action="store_true", help="write nothing")
    parser.add_argument("crates", nargs="*", metavar="CRATE", help="the crates; all, where none is named")
    words = parser.parse_args()
    changed = 0
    for path in files(words.crates):
        text = path.read_text(encoding="utf-8")
        wanted = laid_out(text, words.one and "proofs" in path.parts)
        changed += wanted != text
        if wanted != text and not words.look:
            path.write_text(wanted, encoding="utf-8")
    print(f"files that {'are' if words.look else 'were'} laid out otherwise: {changed}")
    return 1 if words.look and changed else 0


if __name__ == "__main__":
    sys.exit(main())
