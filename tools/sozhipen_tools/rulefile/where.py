"""Tells of a rule file where and why it is refused: all that is wrong in it, at once.

    tools/run rulefile.where RULES

prints for each mistake `file:line:column: code: what stands where what is expected`, the line with a caret under the
place, and what to write instead where that is known. The status is 0 where the file is accepted, 3 where it is not, as
that of the program.
"""

from __future__ import annotations

import sys
from pathlib import Path
from typing import Optional

from ..reference.meaning.checks import check
from ..reference.meaning.reader import FILE_END, Refused, items_of_tokens, read_file
from ..reference.meaning.tokens import LexicalFault, line_of, tokens_of
from ..words import Parser
from .complaints import complaints_of
from .tolerant import Complaint, read_tolerantly

SHOWN = 160


def refusal_of(data: bytes) -> Optional[Refused]:
    """Why the checks refuse the file, None where they accept it."""
    try:
        check(read_file(data))
    except Refused as refused:
        return refused
    return None


def range_of_item(data: bytes, number: int) -> tuple[int, int]:
    """From which offset to which the item of this number lies."""
    parts = items_of_tokens(tokens_of(data))
    return parts[number - 1][0].at, parts[number][0].at if number < len(parts) else len(data)


def is_told(data: bytes, refused: Refused, complaints: list[Complaint]) -> bool:
    """Whether one of the complaints is the refusal."""
    try:
        first, end = range_of_item(data, refused.item) if refused.item else (0, len(data))
    except LexicalFault:
        first, end = 0, len(data)
    return any(c.code == refused.code and first <= c.at < end for c in complaints)


def all_complaints(data: bytes, size: Optional[int] = None) -> list[Complaint]:
    """All that is wrong in a file, by its place; what the checks refuse is always there. `size` is that of the file,
    where not all of it was read."""
    if len(data) > FILE_END:
        return [Complaint(0, "TooLong", f"the file has {size or len(data)} bytes, and at most {FILE_END} are read")]
    refused = refusal_of(data)
    if refused is None:
        return []
    items, complaints = read_tolerantly(data)
    complaints += complaints_of(items)
    if not is_told(data, refused, complaints):
        at = range_of_item(data, refused.item)[0] if refused.item else 0
        complaints.append(Complaint(at, refused.code, "this item is refused (docs/LIVES.md, Refusals)"))
    return sorted(set(complaints))


def shown(name: str, data: bytes, complaint: Complaint) -> str:
    """The complaint as editors jump to it, with its line of the file, and a caret below the place."""
    start = data.rfind(b"\n", 0, complaint.at) + 1
    before = data[start:complaint.at].decode("utf-8", "replace")
    line = data[start:].split(b"\n", 1)[0].decode("utf-8", "replace").rstrip("\r")
    cut = max(0, len(before) - SHOWN // 2)
    margin = "".join(c if c == "\t" else " " for c in before[cut:])
    told = f"{name}:{line_of(data, complaint.at)}:{len(before) + 1}: {complaint.code}: {complaint.what}"
    instead = f"\n    instead: {complaint.instead}" if complaint.instead else ""
    return f"{told}\n    {line[cut:cut + SHOWN]}\n    {margin}^{instead}\n"


def report(name: str, data: bytes, size: Optional[int] = None) -> str:
    """All complaints of a file, one below the other; nothing where it is accepted."""
    return "".join(shown(name, data, complaint) for complaint in all_complaints(data, size))


def main() -> int:
    parser = Parser(description="Tells of a rule file where and why it is refused.")
    parser.add_argument("rules", metavar="RULES", help="the rule file")
    name = parser.parse_args().rules
    try:
        data = Path(name).read_bytes()
    except OSError as error:
        print(f"where.py: {name}: {error.strerror}", file=sys.stderr)
        return 3 if isinstance(error, FileNotFoundError) else 5
    text = report(name, data)
    sys.stdout.write(text)
    return 3 if text else 0


if __name__ == "__main__":
    sys.exit(main())
