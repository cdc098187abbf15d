"""Whether links, anchors, sections and files that texts point to are there."""

from __future__ import annotations

import re
from pathlib import Path
from typing import Iterator

from .pages import SPAN, Page, page_of
from .tree import Tree

SECTIONS = re.compile(r"\b((?:docs/)?[A-Z][A-Z-]*\.md)(?:,| \() ?((?:\*[^*\n]+\*(?:, | and )?)+)")
PAGE = re.compile(r"\bdocs/[\w-]+\.md\b")
PLAIN = re.compile(r"(?<![\w/.`])(?:docs|tools|examples|crates|wrong-bodies)/[\w./-]*\w")
TOOL = re.compile(r"(?<![\w/.])tools/run ([a-z][\w.]*)")
SUFFIXES = {".md", ".py", ".rt", ".antt", ".drl", ".jsonl", ".js", ".html", ".css", ".sh", ""}
ROOMS = ("crates/", "tools/", "examples/")

Faults = Iterator[tuple[int, str]]


def command_alone(span: re.Match[str]) -> str:
    """A code span that is a command with its words, and nothing of another one."""
    return span[1] if " " in span[1] else ""


def line_of(text: str, place: int) -> int:
    return text.count("\n", 0, place) + 1


class Links:
    def __init__(self, tree: Tree):
        self.tree = tree
        self.pages: dict[str, Page] = {}

    def page(self, path: str) -> Page | None:
        if path not in self.pages and (self.tree.top / path).is_file():
            self.pages[path] = page_of(self.tree.top, path)
        return self.pages.get(path)

    def section_faults(self, text: str) -> Faults:
        """Pages and sections that a text names, as `docs/PAGE.md, *Section*`, and that are not there."""
        joined = re.sub(r"\n(?:\s*(?://[/!]|#))? *", " ", text)
        for match in PAGE.finditer(text):
            if not (self.tree.top / match[0]).is_file():
                yield line_of(text, match.start()), f"{match[0]}: no such page"
        for match in SECTIONS.finditer(joined):
            page = self.page(match[1]) or self.page("docs/" + match[1])
            for title in re.findall(r"\*([^*]+)\*", match[2]):
                if page and title not in page.headings and title not in leads(page):
                    yield line_of(text, max(text.find(f"*{title}*"), 0)), f"{match[1]}: it has no section *{title}*"

    def link_faults(self, page: Page) -> Faults:
        """Links whose file or anchor is not there."""
        folder = Path(page.path).parent
        for line, target in page.links:
            if re.match(r"[a-z]+:", target):
                continue
            path, _, anchor = target.partition("#")
            file = folder / path if path else Path(page.path)
            if not (self.tree.top / file).exists():
                yield line, f"link {target}: no such file"
            elif anchor and file.suffix == ".md" and anchor not in self.anchors(file):
                yield line, f"link {target}: no such anchor"

    def anchors(self, file: Path) -> set[str]:
        return page_of(self.tree.top, str(file)).anchors

    def path_faults(self, page: Page) -> Faults:
        """Paths and tools in sentences and in commands, which stand in fenced blocks or in backticks with blanks."""
        texts = [(block.line, SPAN.sub(command_alone, block.text)) for block in page.blocks] + page.fenced
        for line, text in texts:
            for match in PLAIN.finditer(text):
                if "/out/" not in match[0] and match[0].rstrip("/") not in self.tree.places:
                    yield line, f"{match[0]}: no such file or folder"
            for match in TOOL.finditer(text):
                if not self.tree.has_tool(match[1]):
                    yield line, f"tools/run {match[1]}: no such tool"

    def faults(self, page: Page) -> Faults:
        yield from self.section_faults(page.text)
        yield from self.link_faults(page)
        yield from self.path_faults(page)

    def faults_of_sources(self) -> Iterator[tuple[str, int, str]]:
        """Pages and sections that code, tools and examples name, and that are not there."""
        for path in self.tree.files:
            if (path.startswith(ROOMS)
                and not path.startswith(("tools/sozhipen_tools/documents/", "tools/tests/test_documents.py"))
                and Path(path).suffix in SUFFIXES):
                text = (self.tree.top / path).read_text(encoding="utf-8", errors="replace")
                for line, fault in self.section_faults(text) if ".md" in text else ():
                    yield path, line, fault


def leads(page: Page) -> set[str]:
    """The bold words at the front of paragraphs and items, to which texts point as to sections."""
    return {match.rstrip(".:") for match in re.findall(r"^(?:[-*] |\d+\. )?\*\*([^*]+)\*\*", page.text, re.M)}
