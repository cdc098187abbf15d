"""Script lines: which command a line asks for.

JSON is read here by a small reader of its own, as `serde_json` reads it: 127 levels of arrays and objects have a
reading; of a member that stands twice the last counts; `-0`, numbers with a dot or an exponent and those outside 64
bits are no whole numbers; a number beyond what a 64-bit float can hold has no reading; a text holds no half of a
surrogate pair.
"""

from __future__ import annotations

import re
from dataclasses import dataclass
from typing import Any, Optional, Union

INT_LOW, INT_HIGH = -(2**63), 2**63 - 1
TIME_END = 2**53
LINE_END = 65_536
LEVELS = 127


class BadJson(Exception):
    """The line has no reading."""


class BadCommand(Exception):
    """The line's reading is none of the forms."""


@dataclass(frozen=True)
class Other:
    """A reading that is neither a whole number of 64 bits nor a truth value, a text, an array or an object; how it is
    written."""
    written: str


NUMBER = re.compile(r"(-?)(0|[1-9][0-9]*)(\.[0-9]+)?([eE][+-]?[0-9]+)?")
PLAIN_TEXT = re.compile(r'[^"\\\x00-\x1f]*')
HEX4 = re.compile(r"[0-9a-fA-F]{4}")
SIMPLE_ESCAPES = {'"': '"', "\\": "\\", "/": "/", "b": "\b", "f": "\f", "n": "\n", "r": "\r", "t": "\t"}
WORDS = {"true": True, "false": False, "null": Other("null")}


class JsonReader:
    """Reads one JSON value from a text."""

    def __init__(self, text: str):
        self.text, self.place = text, 0

    def blanks(self) -> None:
        while self.place < len(self.text) and self.text[self.place] in " \t\n\r":
            self.place += 1

    def peek(self) -> str:
        return self.text[self.place] if self.place < len(self.text) else ""

    def mark(self, c: str) -> None:
        if self.peek() != c:
            raise BadJson
        self.place += 1

    def whole(self) -> Any:
        """The value that the whole text is."""
        value = self.value(LEVELS)
        self.blanks()
        if self.place < len(self.text):
            raise BadJson
        return value

    def value(self, levels: int) -> Any:
        self.blanks()
        c = self.peek()
        if c == "{":
            return self.object(levels)
        if c == "[":
            return self.array(levels)
        if c == '"':
            return self.string()
        for word, meant in WORDS.items():
            if self.text.startswith(word, self.place):
                self.place += len(word)
                return meant
        return self.number()

    def object(self, levels: int) -> dict:
        if levels == 0:
            raise BadJson
        self.mark("{")
        members: dict = {}
        self.blanks()
        if self.peek() == "}":
            self.place += 1
            return members
        while True:
            self.blanks()
            name = self.string()
            self.blanks()
            self.mark(":")
            members[name] = self.value(levels - 1)
            self.blanks()
            if self.peek() == "}":
                self.place += 1
                return members
            self.mark(",")

    def array(self, levels: int) -> list:
        if levels == 0:
            raise BadJson
        self.mark("[")
        elements: list = []
        self.blanks()
        if self.peek() == "]":
            self.place += 1
            return elements
        while True:
            elements.append(self.value(levels - 1))
            self.blanks()
            if self.peek() == "]":
                self.place += 1
                return elements
            self.mark(",")

    def number(self) -> Any:
        found = NUMBER.match(self.text, self.place)
        if not found:
            raise BadJson
        self.place = found.end()
        minus, digits, fraction, exponent = found.groups()
        if float(found.group()) in (float("inf"), float("-inf")):
            raise BadJson
        if fraction or exponent or (minus and digits == "0") or len(digits) > 19:
            return Other(found.group())
        n = int(minus + digits)
        return n if INT_LOW <= n <= INT_HIGH else Other(found.group())

    def string(self) -> str:
        self.mark('"')
        parts = []
        while True:
            plain = PLAIN_TEXT.match(self.text, self.place)
            assert plain is not None, "it matches the empty text, too"
            parts.append(plain.group())
            self.place = plain.end()
            if self.peek() == '"':
                self.place += 1
                return "".join(parts)
            self.mark("\\")
            parts.append(self.escape())

    def escape(self) -> str:
        c = self.peek()
        self.place += 1
        if c in SIMPLE_ESCAPES and c:
            return SIMPLE_ESCAPES[c]
        if c != "u":
            raise BadJson
        unit = self.hex4()
        if 0xDC00 <= unit <= 0xDFFF:
            raise BadJson
        if 0xD800 <= unit <= 0xDBFF:
            self.mark("\\")
            self.mark("u")
            low = self.hex4()
            if not 0xDC00 <= low <= 0xDFFF:
                raise BadJson
            return chr(0x10000 + ((unit - 0xD800) << 10) + (low - 0xDC00))
        return chr(unit)

    def hex4(self) -> int:
        found = HEX4.match(self.text, self.place)
        if not found:
            raise BadJson
        self.place = found.end()
        return int(found.group(), 16)


def json_of(line: bytes) -> Any:
    """The reading of a line, or BadJson."""
    try:
        return JsonReader(line.decode("utf-8")).whole()
    except UnicodeDecodeError:
        raise BadJson from None


# ---- commands


@dataclass(frozen=True)
class InsertLine:
    """`entry` is None where the member is missing."""
    type: str
    entry: Optional[str]
    fields: dict


@dataclass(frozen=True)
class ModifyLine:
    type: str
    id: int
    fields: dict


@dataclass(frozen=True)
class RetractLine:
    type: str
    id: int


@dataclass(frozen=True)
class AdvanceLine:
    by: int


@dataclass(frozen=True)
class AtLine:
    ms: int


@dataclass(frozen=True)
class PromiseLine:
    entry: Optional[str]
    start: int


@dataclass(frozen=True)
class BeginLine:
    pass


@dataclass(frozen=True)
class FireLine:
    most: Optional[int]


@dataclass(frozen=True)
class HeldLine:
    pass


Command = Union[InsertLine, ModifyLine, RetractLine, AdvanceLine, AtLine, PromiseLine, BeginLine, FireLine, HeldLine]


@dataclass(frozen=True)
class SaveLine:
    pass


@dataclass(frozen=True)
class FactsLine:
    """`type` is None where the member is missing: then of all types."""
    type: Optional[str]


@dataclass(frozen=True)
class CountsLine:
    pass


DeskCommand = Union[Command, SaveLine, FactsLine, CountsLine]


def is_whole(value: Any, low: int, high: int) -> bool:
    """A whole number within these bounds (a truth value is none)."""
    return type(value) is int and low <= value <= high


MEMBERS = {"type": lambda v: isinstance(v, str), "entry": lambda v: isinstance(v, str),
           "fields": lambda v: isinstance(v, dict), "id": lambda v: is_whole(v, 1, INT_HIGH),
           "by": lambda v: is_whole(v, INT_LOW, INT_HIGH), "ms": lambda v: is_whole(v, INT_LOW, INT_HIGH),
           "max": lambda v: is_whole(v, 0, TIME_END), "from": lambda v: is_whole(v, INT_LOW, INT_HIGH)}

# By the word behind `do` the members that must stand, and those that may.
Forms = dict[str, tuple[set[str], set[str]]]
FORMS: Forms = {"insert": ({"type", "fields"}, {"entry"}), "modify": ({"type", "id", "fields"}, set()),
                "retract": ({"type", "id"}, set()), "advance": ({"by"}, set()), "at": ({"ms"}, set()),
                "fire": (set(), {"max"}), "held": (set(), set()), "promise": ({"from"}, {"entry"}),
                "begin": (set(), set())}

# Those that only a desk knows.
DESK_FORMS: Forms = {"save": (set(), set()), "facts": (set(), {"type"}), "counts": (set(), set())}


def form_of(reading: Any, forms: Forms) -> tuple[str, dict[str, Any]]:
    """The word behind `do` and the other members of a line with this reading, BadCommand where it is none of these
    forms."""
    if not isinstance(reading, dict):
        raise BadCommand
    members = dict(reading)
    word = members.pop("do", None)
    if not isinstance(word, str) or word not in forms:
        raise BadCommand
    needed, allowed = forms[word]
    names = set(members)
    if not needed <= names <= needed | allowed:
        raise BadCommand
    if not all(MEMBERS[name](value) for name, value in members.items()):
        raise BadCommand
    return word, members


def command_of(line: bytes) -> Command:
    """The command that a line asks for, BadJson, or BadCommand where its reading is none of the forms."""
    return command_with(*form_of(json_of(line), FORMS))


def command_with(word: str, members: dict[str, Any]) -> Command:
    """The command of a form."""
    if word == "insert":
        return InsertLine(members["type"], members.get("entry"), members["fields"])
    if word == "modify":
        return ModifyLine(members["type"], members["id"], members["fields"])
    if word == "retract":
        return RetractLine(members["type"], members["id"])
    if word == "advance":
        return AdvanceLine(members["by"])
    if word == "at":
        return AtLine(members["ms"])
    if word == "promise":
        return PromiseLine(members.get("entry"), members["from"])
    if word == "begin":
        return BeginLine()
    return FireLine(members.get("max")) if word == "fire" else HeldLine()


def desk_command_of(line: bytes) -> DeskCommand:
    """The same of a line to a desk."""
    return desk_command_read(json_of(line))


def desk_command_read(reading: Any) -> DeskCommand:
    """The same of a line with this reading."""
    word, members = form_of(reading, {**FORMS, **DESK_FORMS})
    if word == "save":
        return SaveLine()
    if word == "facts":
        return FactsLine(members.get("type"))
    return CountsLine() if word == "counts" else command_with(word, members)


def lines_of(script: bytes) -> list[bytes]:
    """The pieces between newlines; an empty last piece is no line."""
    lines = script.split(b"\n")
    return lines if lines[-1] else lines[:-1]


def is_blank(line: bytes) -> bool:
    return not line.strip(b" \t\r")
