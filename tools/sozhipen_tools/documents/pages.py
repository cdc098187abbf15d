"""A document in Markdown: its blocks, sentences, code spans, headings and links."""

from __future__ import annotations

import re
from dataclasses import dataclass
from functools import cached_property
from pathlib import Path

TABLE_RULE = re.compile(r":?-+:?")
FENCE = re.compile(r"^ *```")
HEADING = re.compile(r"^(#+) +(.*?)\s*$")
ITEM = re.compile(r"^\s*(?:[-*]|\d+\.) +")
SPAN = re.compile(r"`([^`]+)`")
LINK = re.compile(r"!?\[([^\]]*)\]\(([^)\s]+)\)")
COMMENT = re.compile(r"<!--.*?-->", re.S)
SENTENCE_END = re.compile(r"(?<=[.!?])[*)\"]* +(?=[*(\"]*[A-Z0-9])")
CELL = re.compile(r"(?<!\\)\|")


@dataclass
class Block:
    """A paragraph, an item of a list or a row of a table, with the number of its first line."""
    line: int
    text: str
    is_row: bool = False

    @property
    def spans(self) -> list[str]:
        return [" ".join(span.split()) for span in SPAN.findall(self.text)]

    @property
    def sentences(self) -> list[str]:
        parts = CELL.split(self.text) if self.is_row else [self.text]
        return [sentence for part in parts for sentence in sentences_of(part)]


@dataclass
class Page:
    """A document: its path below the top, and its text."""
    path: str
    text: str

    @cached_property
    def words(self) -> int:
        """The words outside of fences; the bars and rules of tables are none."""
        return sum(not TABLE_RULE.fullmatch(word) for line in self.parted[0] for word in line.replace("|", " ").split())

    @cached_property
    def parted(self) -> tuple[list[str], list[tuple[int, str]]]:
        """The lines with those inside of fences blank, and these with their numbers."""
        inside, lines, fenced = False, [], []
        for number, line in enumerate(COMMENT.sub(blank, self.text).split("\n"), 1):
            is_fence = bool(FENCE.match(line))
            if inside and not is_fence:
                fenced.append((number, line))
            lines.append("" if inside or is_fence else line)
            inside ^= is_fence
        return lines, fenced

    @property
    def lines(self) -> list[str]:
        return self.parted[0]

    @property
    def fenced(self) -> list[tuple[int, str]]:
        return self.parted[1]

    @cached_property
    def headings(self) -> list[str]:
        return [match[2] for line in self.lines if (match := HEADING.match(line))]

    @cached_property
    def anchors(self) -> set[str]:
        anchors: set[str] = set()
        for heading in self.headings:
            anchor, again = anchor_of(heading), 0
            while f"{anchor}-{again}" in anchors if again else anchor in anchors:
                again += 1
            anchors.add(f"{anchor}-{again}" if again else anchor)
        return anchors

    @cached_property
    def links(self) -> list[tuple[int, str]]:
        return [(block.line, target) for block in self.blocks for _, target in LINK.findall(SPAN.sub("", block.text))]

    @cached_property
    def blocks(self) -> list[Block]:
        blocks: list[Block] = []
        open_block = False
        for number, line in enumerate(self.lines, 1):
            if not line.strip() or HEADING.match(line):
                open_block = False
            elif line.lstrip().startswith("|"):
                open_block = False
                if not re.fullmatch(r"[\s|:-]+", line):
                    blocks.append(Block(number, line, True))
            elif open_block and not ITEM.match(line):
                blocks[-1].text += "\n" + line
            else:
                blocks.append(Block(number, line))
                open_block = True
        return blocks

    def passage(self, title: str) -> str:
        """The text under the heading of a title, up to the next heading."""
        match = re.search(rf"^#+ +{re.escape(title)}\s*$\n(.*?)(?=^#+ |\Z)", self.text, re.S | re.M)
        return match[1] if match else ""


def blank(match: re.Match[str]) -> str:
    """A comment as blank lines, so that the numbers of lines stay."""
    return "\n" * match[0].count("\n")


def anchor_of(heading: str) -> str:
    """The anchor that a heading has on the usual hosts."""
    plain = re.sub(r"[^\w\- ]", "", heading.replace("`", "").replace("*", "").lower())
    return plain.replace(" ", "-")


def sentences_of(text: str) -> list[str]:
    """The sentences of a block: a code span counts as one word, a link as its words."""
    plain = LINK.sub(r"\1", SPAN.sub("Code", ITEM.sub("", text))).replace("**", "")
    return [sentence for sentence in SENTENCE_END.split(" ".join(plain.split())) if sentence]


def page_of(top: Path, path: str) -> Page:
    return Page(path, (top / path).read_text(encoding="utf-8"))


def pages_of(top: Path) -> list[Page]:
    """README and the documents."""
    paths = [top / "README.md", *sorted((top / "docs").glob("*.md"))]
    return [page_of(top, str(path.relative_to(top))) for path in paths if path.is_file()]
