"""Whether what a document names in backticks is there: files, crates, functions, clauses, and names that it says a file
has."""

from __future__ import annotations

import re
from fnmatch import fnmatch
from functools import cached_property
from pathlib import Path
from typing import Iterator

from .pages import SPAN, Block, Page
from .tree import SOURCES, Tree

FILE = re.compile(r"[\w-]+\.(?:antt|rt|py|md|edit|drl|jsonl|stdin|stdout)")
PATH = re.compile(r"(?!-)[\w.*-]+(?:/[\w.*-]+)+/?")
CALL = re.compile(r"(\w+(?:::\w+)*)(?:: ([\w, ]+))?")
NAMES_IN_FILE = re.compile(r"((?:`\w+`(?:,| and|, and)? )+)(?:in|of) `([\w/.-]+\.(?:antt|rt))`")
FILE_WITH_NAMES = re.compile(r"`([\w/.-]+\.(?:antt|rt))` \(((?:`\w+`(?:, | and )?)+)\)")
PLACEHOLDER = re.compile(r"(?:^|[/:])(?:CRATE|NAME|X|FILE|RULES|SCRIPT|PROGRAM)(?:$|[/.:])|^function: "
                         r"clause$|^crate(?:::|/)")
# Places that a build makes.
BUILT = re.compile(r"(?:^|/)out(?:/|$)")
LIBRARIES = {"std", "alloc", "core", "Self", "Rattle"}

Faults = Iterator[tuple[int, str]]


class Names:
    def __init__(self, tree: Tree):
        self.tree = tree

    # ---- files

    def place(self, path: str, block: Block) -> list[str]:
        """The files and folders that a path names: below the top, `crates`, `docs`, or a crate that the block names."""
        path = path.rstrip("/")
        below = ["", "crates/", "docs/", *(f"crates/{name}/" for name in self.crates_of(block))]
        if "*" in path:
            return [found for found in self.tree.files if any(fnmatch(found, folder + path) for folder in below)]
        return [folder + path for folder in below if folder + path in self.tree.places]

    def crates_of(self, block: Block) -> list[str]:
        """The crates that a block names, by themselves, in a path or in a call."""
        words = [re.split(r"[/:]+", span)[0] for span in block.spans]
        return [word for word in words if word in self.tree.crates]

    def files_named(self, name: str, block: Block) -> list[str]:
        """The files of a name without its folder: sources in the crates that the block names, or anywhere where it
        names none."""
        crates = self.crates_of(block) if name.endswith(SOURCES) else []
        folders = tuple(f"crates/{crate}/" for crate in crates) or ("",)
        return [path for path in self.by_name.get(name, []) if path.startswith(folders)]

    @cached_property
    def by_name(self) -> dict[str, list[str]]:
        found: dict[str, list[str]] = {}
        for path in self.tree.files:
            found.setdefault(Path(path).name, []).append(path)
        return found

    def texts(self, path: str, block: Block) -> list[str]:
        """The texts of the files that a path, or a name without its folder, names."""
        places = self.place(path, block) if "/" in path else self.files_named(path, block)
        return [self.tree.text(found) for found in places]

    # ---- calls and clauses

    def owners(self, names: list[str]) -> list[str]:
        """The crates whose code declares all of these names."""
        return [name for name, crate in self.tree.crates.items() if crate.declared.issuperset(names)]

    def call_fault(self, call: str, clauses: list[str]) -> str:
        """What is wrong with `crate::name`, `Type::name` or `name`, each with clauses behind it where some are
        named."""
        first, *rest = call.split("::")
        if first in self.tree.crates:
            owners = [first]
            missing = [name for name in rest if name not in self.tree.crates[first].declared]
            if missing:
                return f"the crate {first} has no {missing[0]}"
        else:
            owners = self.owners([first, *rest])
            if not owners:
                return "no crate has it"
        name = (rest or [first])[-1]
        found = set().union(*(self.tree.crates[owner].clauses.get(name, set()) for owner in owners))
        missing = [clause for clause in clauses if clause not in found]
        return f"it has no clause {missing[0]}" if missing else ""

    def span_fault(self, span: str, block: Block) -> str:
        span = span.removeprefix("./")
        if PLACEHOLDER.search(span) or BUILT.search(span):
            return ""
        if FILE.fullmatch(span):
            return "" if self.files_named(span, block) else "no such file in the crates that are named beside it"
        if PATH.fullmatch(span):
            return "" if self.place(span, block) else "no such file or folder"
        match = CALL.fullmatch(span)
        if match and ("::" in match[1] or match[2]) and match[1].split("::")[0] not in LIBRARIES:
            return self.call_fault(match[1], re.split(r", *", match[2]) if match[2] else [])
        return ""

    def faults(self, page: Page) -> Faults:
        """What a page names that is not there, with the line of the block."""
        for block in page.blocks:
            for span in block.spans:
                fault = self.span_fault(span, block)
                if fault:
                    yield block.line, f"`{span}`: {fault}"
            yield from self.faults_in_files(block)

    def faults_in_files(self, block: Block) -> Faults:
        """Names of which the block says in which file they stand, and which do not stand there."""
        text = " ".join(block.text.split())
        pairs = [(match[2], match[1]) for match in NAMES_IN_FILE.finditer(text)]
        pairs += [(match[1], match[2]) for match in FILE_WITH_NAMES.finditer(text)]
        for path, names in pairs:
            texts = self.texts(path, block)
            for name in SPAN.findall(names):
                if texts and not any(re.search(rf"\b{re.escape(name)}\b", text) for text in texts):
                    yield block.line, f"`{name}`: it is not in `{path}`"

    # ---- names that only have to stand somewhere

    def unknown(self, page: Page) -> Faults:
        """Names of code (with `_` or a capital inside) that stand in no crate and in no tool."""
        for block in page.blocks:
            for span in block.spans:
                if (re.fullmatch(r"[A-Za-z]\w*", span) and re.search(r"_|[a-z][A-Z]", span)
                    and span not in self.tree.words):
                    yield block.line, f"`{span}`: no crate and no tool has this name"
