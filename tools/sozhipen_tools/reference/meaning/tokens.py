"""The tokens of a rule file, each as long as possible, or the refusal that stands first."""

from __future__ import annotations

import re
from dataclasses import dataclass
from typing import Optional, Union

INT_END = 2**63 - 1
TIME_END = 2**53

UNITS = {"d": 86_400_000, "h": 3_600_000, "m": 60_000, "s": 1_000, "ms": 1}
UNIT_ORDER = list(UNITS)

MARKS = [b"==", b"!=", b"<=", b">=", b"||", b"&&"] + [bytes([c]) for c in b"(){}[],;:.@+-*=<>"]

ESCAPES = {ord('"'): b'"', ord("'"): b"'", ord("\\"): b"\\", ord("n"): b"\n", ord("t"): b"\t", ord("r"): b"\r"}

BLANKS = re.compile(rb"[ \t\r\n]+")
LINE_COMMENT = re.compile(rb"(//|#)[^\n]*")
WORD = re.compile(rb"[A-Za-z_][A-Za-z0-9_]*")
VARIABLE = re.compile(rb"\$[A-Za-z0-9_]+")
RUN = re.compile(rb"[0-9][A-Za-z0-9_$]*")
DIGITS = re.compile(rb"[0-9]+")
TIME_PART = re.compile(r"([0-9]+)([A-Za-z]*)")


class LexicalFault(Exception):
    """BadChar, OpenText, OpenComment or NumberLarge, at an offset."""

    def __init__(self, code: str, at: int):
        super().__init__(code, at)
        self.code, self.at = code, at


@dataclass(frozen=True)
class Token:
    """`kind` is word, var, number, time, text or mark; `at` is the offset of its first byte."""
    kind: str
    value: Union[str, int]
    at: int


def whole(digits: str) -> int:
    """The number of these digits; anything far beyond 2^63 is one number beyond it."""
    digits = digits.lstrip("0")
    return 2**70 if len(digits) > 20 else int(digits or "0")


def time_of(run: str) -> Optional[int]:
    """The milliseconds of a run like `3m30s` or `1s500`, None where it is no time."""
    if TIME_PART.sub("", run) != "":
        return None
    parts = TIME_PART.findall(run)
    units = [unit for _, unit in parts]
    if units[-1] == "" and len(units) > 1:
        units[-1] = "ms"
    if any(unit not in UNITS for unit in units):
        return None
    places = [UNIT_ORDER.index(unit) for unit in units]
    if any(a >= b for a, b in zip(places, places[1:])):
        return None
    return sum(whole(digits) * UNITS[unit] for (digits, _), unit in zip(parts, units))


def number_or_time(run: bytes, at: int) -> Token:
    """The token of a run that begins with a digit."""
    if DIGITS.fullmatch(run):
        value = whole(run.decode())
        if value > INT_END:
            raise LexicalFault("NumberLarge", at)
        return Token("number", value, at)
    time = time_of(run.decode())
    if time is None:
        raise LexicalFault("BadChar", at)
    if time > TIME_END:
        raise LexicalFault("NumberLarge", at)
    return Token("time", time, at)


def text_at(data: bytes, at: int) -> tuple[Token, int]:
    """The text whose opening quote stands at `at`, and the offset behind its closing quote.

    Faults inside are met from left to right; that the bytes are UTF-8 is asked last.
    """
    quote = data[at]
    content = bytearray()
    i = at + 1
    while True:
        if i >= len(data) or data[i] == 0x0A:
            raise LexicalFault("OpenText", at)
        if data[i] == quote:
            break
        if data[i] == ord("\\"):
            if i + 1 >= len(data) or data[i + 1] not in ESCAPES:
                raise LexicalFault("BadChar", i)
            content += ESCAPES[data[i + 1]]
            i += 2
        else:
            content.append(data[i])
            i += 1
    try:
        return Token("text", content.decode("utf-8"), at), i + 1
    except UnicodeDecodeError:
        raise LexicalFault("BadChar", at) from None


def skipped(data: bytes, i: int) -> int:
    """The offset behind the blanks and comments at `i`."""
    while True:
        found = BLANKS.match(data, i) or LINE_COMMENT.match(data, i)
        if found:
            i = found.end()
        elif data.startswith(b"/*", i):
            close = data.find(b"*/", i + 2)
            if close < 0:
                raise LexicalFault("OpenComment", i)
            i = close + 2
        else:
            return i


def tokens_of(data: bytes) -> list[Token]:
    """All tokens of the file, or the first LexicalFault."""
    tokens: list[Token] = []
    i = skipped(data, 0)
    while i < len(data):
        if found := WORD.match(data, i):
            tokens.append(Token("word", found.group().decode(), i))
            end = found.end()
        elif found := VARIABLE.match(data, i):
            tokens.append(Token("var", found.group()[1:].decode(), i))
            end = found.end()
        elif found := RUN.match(data, i):
            tokens.append(number_or_time(found.group(), i))
            end = found.end()
        elif data[i] in b"\"'":
            token, end = text_at(data, i)
            tokens.append(token)
        else:
            mark = next((m for m in MARKS if data.startswith(m, i)), None)
            if mark is None:
                raise LexicalFault("BadChar", i)
            tokens.append(Token("mark", mark.decode(), i))
            end = i + len(mark)
        i = skipped(data, end)
    return tokens


def line_of(data: bytes, at: int) -> int:
    """The number of the line in which an offset stands, counted from 1."""
    return data.count(b"\n", 0, at) + 1
