"""Paths that look behind the doors of crates: two private fields in a row, both of structs of other crates.

    tools/run documents.doors [CRATE ..]  the paths, each with its file and line, or that there are none

What a struct is made of is named in other crates by the words of its own crate's specs. One private field of another
crate may be named where that crate has no word for it; what is inside of that field may not. Fields are followed by
their types, from the type of the name in front where the file tells it: a binder, a constructor in a pattern, or
`self`. Where it does not, a path counts only if it cannot be read in another way.
The status is 0 where all holds, and 1 otherwise.
"""

from __future__ import annotations

import re
import sys
from dataclasses import dataclass
from functools import cached_property
from typing import Iterator, Optional

from ..words import Parser
from .tree import Tree

PATH = re.compile(r"(?<![\w.'])([A-Za-z][\w'-]*)((?:\.[a-z_]\w*)+)")
STRUCT = re.compile(r"^(?:pub(?:\([a-z]+\))? )?struct (\w+)[^{;(]*\{(.*?)^\}", re.S | re.M)
ENUM = re.compile(r"^(?:pub(?:\([a-z]+\))? )?enum (\w+)[^{;]*\{(.*?)^\}", re.S | re.M)
CASE = re.compile(r"^\s*(\w+)\(((?:[^()]|\([^()]*\))*)\)", re.M)
MEMBER = re.compile(r"^\s*(pub(?:\([^)]*\))? )?(?:ghost )?(\w+): *(.*?),?$", re.M)
MODEL = re.compile(r"^impl[^\n]* Model for (\w+).*?ghost Value = \{ ?(.*?) ?\};", re.S | re.M)
RECORD = re.compile(r"^ *(?:pub )?record (\w+).*? where\n((?: *(?:pub )?\w+ : .*\n?| *--.*\n)*)", re.M)
PART = re.compile(r"^ *(?:pub )?(\w+) : (.*)$", re.M)
# How a name gets its type: among parameters, as what a constructor holds; or none that is told.
BINDER = re.compile(r"[({]((?:[a-z]\w* )+): ((?:[^(){}]|\([^()]*\))*)[)}]")
HELD = re.compile(r"(?:\w+\.)?\b([A-Z]\w*) ([a-z]\w*)(?![\w.'-])")
PARAMETER = re.compile(r"[(,]\s*([a-z]\w*): ([^(),{}]+)")
LOOSE = re.compile(r"λ ((?:[a-z_]\w* ?)+)\.")
OWNER = re.compile(r"^impl(?:<[^>]*>)? (?:[\w<>', ]+ for )?(\w+)", re.M)
# What stands between a value and its fields in a contract, and in front of a type.
TIMES = {"now", "old", "new", "entry"}
THIN = re.compile(r"^(?:&(?:'\w+ )?(?:mut )?|Bor |Box<)")
USE = ("use ", "ghost use ", "pub use ")


@dataclass
class Shape:
    """A struct, or a record of definitions: its crate, the types of its fields, and which are private."""

    crate: str
    name: str
    fields: dict[str, str]
    private: set[str]


@dataclass
class Finding:
    """A path, where it stands, and which two fields are too deep."""

    place: str
    path: str
    inside: str

    def __str__(self) -> str:
        return f"{self.place}: {self.path} looks into {self.inside}"


def head_type(text: str) -> str:
    """The name of a type without what it is given: of `&'a join_memory::Memories<T>` it is `Memories`."""
    text = text.strip()
    while THIN.match(text):
        text = THIN.sub("", text).strip()
    match = re.match(r"(?:\w+(?:::|\.))*(\w+)", text)
    return match[1] if match else ""


class Shapes:
    """The structs and records of all crates, and which crates stand below which."""

    def __init__(self, tree: Tree):
        self.tree = tree
        self.named: dict[str, list[Shape]] = {}
        self.having: dict[str, list[Shape]] = {}
        self.cases: dict[str, list[tuple[str, str]]] = {}
        self.seen_as: dict[str, list[tuple[str, str]]] = {}
        for name, crate in tree.crates.items():
            for path, text in crate.files.items():
                if path.endswith(".rt"):
                    self.read_code(name, re.sub(r"//[^\n]*", "", text))
                else:
                    self.read_records(name, text)

    def put(self, shape: Shape) -> None:
        self.named.setdefault(shape.name, []).append(shape)
        for name in shape.fields:
            self.having.setdefault(name, []).append(shape)

    def read_code(self, crate: str, text: str) -> None:
        for match in STRUCT.finditer(text):
            members = list(MEMBER.finditer(match[2]))
            private = {member[2] for member in members if (member[1] or "").strip() != "pub"}
            self.put(Shape(crate, match[1], {member[2]: member[3] for member in members}, private))
        for match in ENUM.finditer(text):
            for case in CASE.finditer(match[2]):
                self.cases.setdefault(case[1], []).append((crate, case[2]))
        for match in MODEL.finditer(text):
            self.seen_as.setdefault(match[1], []).append((crate, match[2]))

    def read_records(self, crate: str, text: str) -> None:
        for match in RECORD.finditer(text):
            self.put(Shape(crate, match[1], {part[1]: part[2] for part in PART.finditer(match[2])}, set()))

    @cached_property
    def below(self) -> dict[str, set[str]]:
        """Each crate with all that it stands on."""
        found: dict[str, set[str]] = {}

        def reach(name: str) -> set[str]:
            if name not in found:
                found[name] = {name}.union(*(reach(cited) for cited in self.tree.cites.get(name, ())))
            return found[name]

        for name in self.tree.crates:
            reach(name)
        return found

    def called(self, name: str, crate: str) -> list[Shape]:
        """What a name of a type can mean in a crate: its own, or else those that it stands on."""
        found = [shape for shape in self.named.get(name, ()) if shape.crate in self.below[crate]]
        return [shape for shape in found if shape.crate == crate] or found

    def behind(self, shape: Shape, name: str) -> str:
        """The type of a field, as contracts see it."""
        kind = head_type(shape.fields[name])
        models = [value for crate, value in self.seen_as.get(kind, ()) if crate in self.below[shape.crate]]
        return head_type(models[0]) if models else kind

    def held(self, case: str, crate: str) -> Optional[str]:
        """The type of what a case holds, where the crate sees one of this name."""
        found = {head_type(kind) for owner, kind in self.cases.get(case, ()) if owner in self.below[crate]}
        return found.pop() if len(found) == 1 else None


class Reader:
    """One file of a crate: the types of the names in it, and its paths."""

    def __init__(self, shapes: Shapes, crate: str, path: str, text: str):
        self.shapes, self.crate, self.path = shapes, crate, path
        self.is_code = path.endswith(".rt")
        self.text = re.sub(r"//[^\n]*" if self.is_code else r"--[^\n]*", "", text)

    @cached_property
    def binders(self) -> dict[str, list[tuple[int, Optional[str]]]]:
        """For each name where it is bound, and with what type; `None` where that is not told."""
        found: list[tuple[int, str, Optional[str]]] = []
        for match in BINDER.finditer(self.text):
            found += ((match.start(), name, head_type(match[2])) for name in match[1].split())
        for match in PARAMETER.finditer(self.text) if self.is_code else ():
            found.append((match.start(), match[1], head_type(match[2])))
        for match in LOOSE.finditer(self.text):
            found += ((match.start(), name, None) for name in match[1].split())
        for match in HELD.finditer(self.text):
            kind = self.shapes.held(match[1], self.crate)
            found += [(match.start(), match[2], kind)] if kind else []
        places: dict[str, list[tuple[int, Optional[str]]]] = {}
        for start, name, kind in sorted(found, key=lambda place: place[0]):
            places.setdefault(name, []).append((start, kind))
        return places

    def type_of(self, name: str, at: int) -> Optional[str]:
        """The type of a name in a place: what the last binder in front of it says."""
        if self.is_code and name == "self":
            owners = [match[1] for match in OWNER.finditer(self.text) if match.start() < at]
            return owners[-1] if owners else None
        kinds = [kind for start, kind in self.binders.get(name, ()) if start < at]
        return kinds[-1] if kinds else None

    def steps(self, kind: Optional[str], fields: list[str]) -> list[Optional[Shape]]:
        """For each field of a path the struct or record that has it, as far as types tell it."""
        found: list[Optional[Shape]] = []
        for name in fields:
            shapes = [shape for shape in self.shapes.called(kind or "", self.crate) if name in shape.fields]
            if shapes:
                kind = self.shapes.behind(shapes[0], name)
            elif name not in TIMES or any(found):
                kind = None
            found.append(shapes[0] if shapes else None)
        return found

    def is_inside(self, shape: Shape, name: str) -> bool:
        """Whether a field is a private one of a struct of another crate."""
        return shape.crate != self.crate and name in shape.private

    def is_always_inside(self, first: str, second: str) -> bool:
        """Whether two fields in a row, of whatever they are, are private ones of structs of other crates."""
        ways = [(shape, other) for shape in self.shapes.having.get(first, ())
                if shape.crate in self.shapes.below[self.crate]
                for other in self.shapes.called(self.shapes.behind(shape, first), self.crate) if second in other.fields]
        return bool(ways) and all(self.is_inside(shape, first) and self.is_inside(other, second)
                                  for shape, other in ways)

    def too_deep(self, name: str, fields: list[str], at: int) -> Optional[str]:
        """The first two fields in a row that look into other crates."""
        steps = self.steps(self.type_of(name, at + 1), fields)
        for first, second, here, there in zip(fields, fields[1:], steps, steps[1:]):
            if here and there:
                if self.is_inside(here, first) and self.is_inside(there, second):
                    return f"{first} of {here.crate}::{here.name} and {second} of {there.crate}::{there.name}"
            elif not here and not there and self.is_always_inside(first, second):
                return f"{first} and {second}, private fields of other crates"
        return None

    def findings(self) -> Iterator[Finding]:
        start = 0
        for number, line in enumerate(self.text.splitlines(keepends=True), 1):
            for match in () if line.lstrip().startswith(USE) else PATH.finditer(line):
                inside = self.too_deep(match[1], match[2][1:].split("."), start + match.start())
                if inside:
                    yield Finding(f"{self.path}:{number}", match[0], inside)
            start += len(line)


def door_faults(tree: Tree, crates: Optional[list[str]] = None) -> Iterator[Finding]:
    """The paths that look behind doors, in these crates or in all."""
    shapes = Shapes(tree)
    for name in crates or tree.crates:
        for path, text in tree.crates[name].files.items():
            yield from Reader(shapes, name, f"crates/{name}/{path}", text).findings()


def main(words: list[str] | None = None) -> int:
    parser = Parser(prog="documents.doors", description=__doc__.split("\n")[0])
    parser.add_argument("crates", nargs="*", metavar="CRATE", help="the crates to look at; without any all")
    asked, tree = parser.parse_args(words), Tree()
    unknown = [name for name in asked.crates if name not in tree.crates]
    if unknown:
        parser.error(f"there is no crate {unknown[0]}")
    faults = list(door_faults(tree, asked.crates))
    print("\n".join(map(str, faults)) or "no path goes through two private fields of other crates")
    return 1 if faults else 0


if __name__ == "__main__":
    sys.exit(main())
