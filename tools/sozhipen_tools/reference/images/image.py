"""The image of a run: what is kept of it, and its bytes, exactly one spelling of each image.

The bytes are `FXC1` and the fields in their order. Numbers of 8, 16 or 64 bits stand with the highest byte first, those
with a sign in two's complement; a truth value is a byte 0 or 1; a list is its length, of 64 bits, and its members; a
text is the list of its bytes, in UTF-8; a value is a byte 0, 1 or 2 for a whole number, a truth value or a text, and
its content. Nothing follows.

Where an image says by which lives its run forgets, `FXC2` and the list of the lives of all types, in the order of the
rule file, stand in front of these bytes: a byte 0 for a plain type; a byte 1 and the milliseconds of its `@expires`,
with a sign; a byte 2 and the milliseconds of a finite life, with a sign; a byte 3 for a life for ever. The run of an
image without lives forgets by those of its rules.
"""

from __future__ import annotations

import builtins
import os
from dataclasses import dataclass
from typing import BinaryIO, Callable, Optional, TypeVar

from ..meaning.trees import Value

HEAD = b"FXC1"
HEAD_WITH_LIVES = b"FXC2"

T = TypeVar("T")


@dataclass(frozen=True)
class RunPart:
    """The text of the rule file, the lines of the script and the firings so far, and whether a line was faulty."""
    rules: bytes
    lines: int
    firings: int
    faulty: bool


@dataclass(frozen=True)
class Head:
    """What stands before the facts of an image, without the text of its rules: the lines and the firings so far,
    whether a line was faulty, and the clock."""
    lines: int
    firings: int
    faulty: bool
    clock: int


@dataclass(frozen=True)
class Named:
    id: int
    tag: int


@dataclass(frozen=True)
class ImageRow:
    facts: tuple[Named, ...]
    values: tuple[int, ...]

    @property
    def tags(self) -> tuple[int, ...]:
        return tuple(n.tag for n in self.facts)


@dataclass(frozen=True)
class ImageFact:
    """A fact with the numbers of its type and its entry point, and the values of its fields in the order of
    declaration."""
    id: int
    type: int
    entry: int
    fields: tuple[Value, ...]
    tag: int
    start: int
    end: int


@dataclass(frozen=True)
class FiredMatch:
    rule: int
    row: ImageRow


@dataclass(frozen=True)
class Extra:
    """What a condition of a rule counts for a row beyond the facts of the image: so many facts, and the values that an
    accumulate takes of them."""
    rule: int
    condition: int
    row: ImageRow
    count: int
    values: tuple[int, ...]


PLAIN, EXPLICIT, FINITE, ENDLESS = range(4)


@dataclass(frozen=True)
class ImageLife:
    """How long events of a type are kept: its sort, and the milliseconds of an explicit or a finite life."""
    sort: int
    ms: int = 0


@dataclass(frozen=True)
class Image:
    """`lives` are those of all types, None where they are those of the rules."""
    run: RunPart
    clock: int
    begun: bool
    last_starts: tuple[int, ...]
    promises: tuple[int, ...]
    next_id: int
    next_tag: int
    facts: tuple[ImageFact, ...]
    fired: tuple[FiredMatch, ...]
    extras: tuple[Extra, ...]
    lives: Optional[tuple[ImageLife, ...]] = None


# ---- bytes of an image


def unsigned(n: int, size: int = 8) -> bytes:
    return n.to_bytes(size, "big")


def signed(n: int) -> bytes:
    return n.to_bytes(8, "big", signed=True)


def flag(b: bool) -> bytes:
    return unsigned(int(b), 1)


def listed(write: Callable[[T], bytes], parts: tuple[T, ...]) -> bytes:
    return unsigned(len(parts)) + b"".join(map(write, parts))


def string(data: bytes) -> bytes:
    return unsigned(len(data)) + data


def value_bytes(value: Value) -> bytes:
    if isinstance(value, bool):
        return b"\x01" + flag(value)
    return b"\x00" + signed(value) if isinstance(value, int) else b"\x02" + string(value.encode("utf-8"))


def row_bytes(row: ImageRow) -> bytes:
    return listed(lambda n: unsigned(n.id) + unsigned(n.tag), row.facts) + listed(signed, row.values)


def fact_bytes(f: ImageFact) -> bytes:
    return (unsigned(f.id) + unsigned(f.type, 2) + unsigned(f.entry, 2) + listed(value_bytes, f.fields)
            + unsigned(f.tag) + signed(f.start) + signed(f.end))


def extra_bytes(e: Extra) -> bytes:
    return (unsigned(e.rule, 2) + unsigned(e.condition, 1) + row_bytes(e.row) + unsigned(e.count)
            + listed(signed, e.values))


def life_bytes(life: ImageLife) -> bytes:
    return unsigned(life.sort, 1) + (signed(life.ms) if life.sort in (EXPLICIT, FINITE) else b"")


def encode(image: Image) -> bytes:
    front = b"" if image.lives is None else HEAD_WITH_LIVES + listed(life_bytes, image.lives)
    return front + encoded_fields(image)


def encoded_fields(image: Image) -> bytes:
    run = image.run
    return (HEAD + string(run.rules) + unsigned(run.lines) + unsigned(run.firings) + flag(run.faulty)
            + signed(image.clock) + flag(image.begun) + listed(signed, image.last_starts)
            + listed(signed, image.promises) + unsigned(image.next_id) + unsigned(image.next_tag)
            + listed(fact_bytes, image.facts) + listed(lambda m: unsigned(m.rule, 2) + row_bytes(m.row), image.fired)
            + listed(extra_bytes, image.extras))


# ---- an image of bytes


class BadImage(Exception):
    """The bytes are no image's."""


class ImageReader:
    """Takes values from the front of bytes."""

    def __init__(self, data: bytes):
        self.data, self.place = data, 0

    @property
    def left(self) -> int:
        """How many bytes are left."""
        return len(self.data) - self.place

    def bytes(self, count: int) -> bytes:
        if count > self.left:
            raise BadImage
        self.place += count
        return self.data[self.place - count:self.place]

    def unsigned(self, size: int = 8) -> int:
        return int.from_bytes(self.bytes(size), "big")

    def signed(self) -> int:
        return int.from_bytes(self.bytes(8), "big", signed=True)

    def flag(self) -> bool:
        byte = self.unsigned(1)
        if byte > 1:
            raise BadImage
        return byte == 1

    def listed(self, read: Callable[[], T]) -> tuple[T, ...]:
        """Each member has a byte at least, so a length beyond the bytes that are left is none."""
        count = self.unsigned()
        if count > self.left:
            raise BadImage
        return tuple(read() for _ in range(count))

    def string(self) -> builtins.bytes:
        return self.bytes(self.unsigned())

    def value(self) -> Value:
        kind = self.unsigned(1)
        if kind == 0:
            return self.signed()
        if kind == 1:
            return self.flag()
        if kind != 2:
            raise BadImage
        try:
            return self.string().decode("utf-8")
        except UnicodeDecodeError:
            raise BadImage from None

    def row(self) -> ImageRow:
        return ImageRow(self.listed(lambda: Named(self.unsigned(), self.unsigned())), self.listed(self.signed))

    def fact(self) -> ImageFact:
        return ImageFact(self.unsigned(), self.unsigned(2), self.unsigned(2), self.listed(self.value), self.unsigned(),
                         self.signed(), self.signed())

    def fired(self) -> FiredMatch:
        return FiredMatch(self.unsigned(2), self.row())

    def extra(self) -> Extra:
        return Extra(self.unsigned(2), self.unsigned(1), self.row(), self.unsigned(), self.listed(self.signed))

    def run(self) -> RunPart:
        return RunPart(self.string(), self.unsigned(), self.unsigned(), self.flag())

    def life(self) -> ImageLife:
        sort = self.unsigned(1)
        if sort > ENDLESS:
            raise BadImage
        return ImageLife(sort, self.signed() if sort in (EXPLICIT, FINITE) else 0)

    def front(self) -> Optional[tuple[ImageLife, ...]]:
        """The lives in front of the fields, where there are some, and the head of the fields."""
        lives, head = None, self.bytes(len(HEAD))
        if head == HEAD_WITH_LIVES:
            lives, head = self.listed(self.life), self.bytes(len(HEAD))
        if head != HEAD:
            raise BadImage
        return lives

    def image(self) -> Image:
        lives = self.front()
        found = Image(self.run(), self.signed(), self.flag(), self.listed(self.signed), self.listed(self.signed),
                      self.unsigned(), self.unsigned(), self.listed(self.fact), self.listed(self.fired),
                      self.listed(self.extra), lives)
        if self.left:
            raise BadImage
        return found


class ImageFileReader(ImageReader):
    """Takes values from the front of a file, of which it has nothing else in memory."""

    def __init__(self, file: BinaryIO):
        super().__init__(b"")
        self.file = file
        self.size = file.seek(0, os.SEEK_END)
        file.seek(0)

    @property
    def left(self) -> int:
        return self.size - self.place

    def bytes(self, count: int) -> bytes:
        self.skip(count)
        return self.file.read(count)

    def skip_string(self) -> None:
        count = self.unsigned()
        self.skip(count)
        self.file.seek(count, os.SEEK_CUR)

    def skip(self, count: int) -> None:
        if count > self.left:
            raise BadImage
        self.place += count


def decode(data: bytes) -> Image:
    """The image that has these bytes, or BadImage."""
    return ImageReader(data).image()


def head_in(file: BinaryIO) -> Head:
    """The head of the image in a file, without a look at the rest; or BadImage."""
    reader = ImageFileReader(file)
    reader.front()
    reader.skip_string()
    return Head(reader.unsigned(), reader.unsigned(), reader.flag(), reader.signed())


def rules_in(file: BinaryIO) -> bytes:
    """The text of the rules of the image in a file, without a look at the rest; or BadImage."""
    reader = ImageFileReader(file)
    reader.front()
    return reader.string()
