"""What an entry of a partition's logs has in it: lines, each behind the number of the line of the script that it comes
from. A `promise` of the router stands before a `fire` line under its number."""

from __future__ import annotations

from typing import Iterable, Iterator, NamedTuple, Sequence

from .broker import Entry


class Numbered(NamedTuple):
    """A line without its newline, under the number of a line of the script."""
    number: int
    line: bytes


def data_of(lines: Iterable[Numbered]) -> bytes:
    """These lines as the bytes of an entry."""
    return b"".join(b"%d %s\n" % line for line in lines)


def lines_in(data: bytes) -> Iterator[Numbered]:
    """The lines of an entry."""
    for whole in data.split(b"\n")[:-1]:
        number, _, line = whole.partition(b" ")
        yield Numbered(int(number), line)


def lines_behind(number: int, entries: Sequence[Entry]) -> list[Entry]:
    """What entries have behind a line. Where a broker lost lines that were answered, and they were put again, that may
    be amid an entry."""
    found = [entry for entry in entries if entry.number > number]
    if found:
        first = found[0]
        found[0] = Entry(first.number, data_of(line for line in lines_in(first.data) if line.number > number))
    return found
