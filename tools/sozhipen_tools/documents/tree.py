"""What documents speak of: the crates with what they cite, their files and the names in them."""

from __future__ import annotations

import os
import re
from dataclasses import dataclass
from fnmatch import fnmatch
from functools import cached_property
from pathlib import Path
from typing import Optional

from ..places import clone

ROOMS = ("src", "specs", "proofs")
SOURCES = (".rt", ".antt")
WORD = re.compile(r"\w+")
HIDDEN = {".git", "out", "build", "__pycache__", ".mypy_cache"}


@dataclass
class Crate:
    folder: Path

    @property
    def name(self) -> str:
        return self.folder.name

    @cached_property
    def files(self) -> dict[str, str]:
        """The sources by their paths below the crate, with their texts."""
        paths = [path for room in ROOMS for path in sorted((self.folder / room).rglob("*")) if path.suffix in SOURCES]
        return {str(path.relative_to(self.folder)): path.read_text(encoding="utf-8") for path in paths}

    @cached_property
    def code(self) -> str:
        return "\n".join(text for path, text in self.files.items() if path.startswith("src/"))

    @cached_property
    def words(self) -> set[str]:
        names = {Path(path).stem for path in self.files}
        return names.union(*(WORD.findall(text) for text in self.files.values()))

    @cached_property
    def head(self) -> str:
        """The first comment of the crate: the lines that begin with `//!`."""
        for name in ("src/lib.rt", "src/main.rt"):
            if name in self.files:
                lines = self.files[name].splitlines()
                end = next((k for k, line in enumerate(lines) if not line.startswith("//!")), len(lines))
                return " ".join(line[3:].strip() for line in lines[:end])
        return ""

    @cached_property
    def declared(self) -> set[str]:
        """What the code has by name, public or private: modules, items, cases of enums and fields."""
        modules = {Path(path).stem for path in self.files if path.startswith("src/")}
        items = re.findall(r"\b(?:fn|struct|enum|trait|type|const|static|mod) (\w+)", self.code)
        fields = re.findall(r"^\s+(?:pub )?([a-z]\w*):", self.code, re.M)
        cases = re.findall(r"^\s+([A-Z]\w*)(?: *[,({]|$)", self.code, re.M)
        return modules.union(items, fields, cases)

    @cached_property
    def clauses(self) -> dict[str, set[str]]:
        """The names of the clauses of the functions of each name."""
        found: dict[str, set[str]] = {}
        for part in re.split(r"\bfn (?=\w)", self.code)[1:]:
            name = re.match(r"\w+", part)
            found.setdefault(name[0] if name else "", set()).update(re.findall(r"\bensures (\w+)", part))
        return found


class Tree:
    def __init__(self, top: Optional[Path] = None):
        self.top = top or clone()

    @cached_property
    def crates(self) -> dict[str, Crate]:
        folders = sorted(path for path in (self.top / "crates").iterdir() if (path / "src").is_dir())
        return {folder.name: Crate(folder) for folder in folders}

    @cached_property
    def cites(self) -> dict[str, list[str]]:
        """What each crate cites among the crates, as crates.txt lists it, the lowest first."""
        lines = (self.top / "crates.txt").read_text(encoding="utf-8").splitlines()
        rows = (line.split(":", 1) for line in lines if ":" in line and not line.startswith("#"))
        lists = {head.split()[0]: rest for head, rest in rows}
        return {name: [cited for cited in rest.split() if cited in lists] for name, rest in lists.items()}

    @cached_property
    def words(self) -> set[str]:
        """Each word of the crates' sources and of the tools, and the names of crates and edits."""
        tools = [path for path in self.files if path.startswith("tools/") and path.endswith(".py")]
        edits = {Path(path).stem for path in self.files if path.endswith(".edit")}
        return edits.union(self.crates, *(crate.words for crate in self.crates.values()),
                           *(WORD.findall(self.text(path)) for path in tools))

    @cached_property
    def files(self) -> list[str]:
        """All files below the top, but for what git and builds keep."""
        found = []
        for folder, folders, names in os.walk(self.top):
            folders[:] = sorted(name for name in folders if name not in HIDDEN)
            found += [os.path.relpath(os.path.join(folder, name), self.top) for name in sorted(names)]
        return found

    @cached_property
    def places(self) -> set[str]:
        """All files, and the folders that have some."""
        return set(self.files).union(*({str(parent) for parent in Path(path).parents} for path in self.files))

    def has_tool(self, name: str) -> bool:
        """Whether `tools/run` runs a tool of this name."""
        path = "tools/" + ("sozhipen" if name == "sozhipen" else f"sozhipen_tools/{name.replace('.', '/')}")
        return not self.places.isdisjoint({f"{path}.py", f"{path}/__main__.py"})

    def chain(self) -> int:
        """How many crates the longest chain has."""
        lengths: dict[str, int] = {}

        def length(name: str) -> int:
            if name not in lengths:
                lengths[name] = 1 + max((length(cited) for cited in self.cites[name]), default=0)
            return lengths[name]

        return max(map(length, self.cites), default=0)

    def count(self, pattern: str) -> int:
        return sum(1 for path in self.files if fnmatch(path, pattern))

    def text(self, path: str) -> str:
        file = self.top / path
        return file.read_text(encoding="utf-8") if file.is_file() else ""
