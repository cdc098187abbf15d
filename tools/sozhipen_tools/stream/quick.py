"""Reads script lines as the second evaluator does, by the standard library's reader, which is several times as fast.

Where that reads otherwise, or may, the second evaluator's own reads.
"""

from __future__ import annotations

import json
from typing import Any

from ..reference.meaning.script import LEVELS, BadJson, JsonReader, json_of

# Numbers with fewer characters are whole numbers of 64 bits.
SHORT = 19
# Texts may have half of a surrogate pair, and `null` is no value of Python's there.
OTHERWISE = (b"\\u", b"null")


def number_of(text: str) -> Any:
    return int(text) if len(text) < SHORT and text != "-0" else JsonReader(text).number()


def other_number_of(text: str) -> Any:
    return JsonReader(text).number()


def no_number(_: str) -> Any:
    raise BadJson


DECODER = json.JSONDecoder(parse_int=number_of, parse_float=other_number_of, parse_constant=no_number)


def quick_json_of(line: bytes) -> Any:
    """The reading of a line, or BadJson."""
    if line.count(b"{") + line.count(b"[") > LEVELS or any(word in line for word in OTHERWISE):
        return json_of(line)
    try:
        return DECODER.decode(line.decode("utf-8"))
    except ValueError:
        raise BadJson from None
