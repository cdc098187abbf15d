"""The lines of a script as methods, and a script that is written to a file."""

from __future__ import annotations

import json
from typing import Any, Callable, Generic, Optional, TextIO, TypeVar

Sent = TypeVar("Sent")


def encoder() -> Callable[[dict[str, Any]], str]:
    """What makes the text of a command. An encoder of the json module that is made once takes half the time of one that
    `json.dumps` makes for each text."""
    plain = json.JSONEncoder(ensure_ascii=False, separators=(",", ":"))
    make: Any = getattr(json.encoder, "c_make_encoder", None)
    if make is None:
        return plain.encode
    text: Any = getattr(json.encoder, "encode_basestring")
    pieces = make(None, plain.default, text, None, ":", ",", False, False, True)
    return lambda command: "".join(pieces(command, 0))


line_of = encoder()


class Lines(Generic[Sent]):
    """Each method makes one line of a script (docs/SCRIPT.md), and returns what becomes of it."""

    def send(self, command: dict[str, Any]) -> Sent:
        raise NotImplementedError

    def send_known(self, command: dict[str, Any]) -> Sent:
        """A line that not every program knows."""
        return self.send(command)

    def insert(self, type_name: str, fields: dict[str, Any], entry: Optional[str] = None) -> Sent:
        if entry is None:
            return self.send({"do": "insert", "type": type_name, "fields": fields})
        return self.send({"do": "insert", "type": type_name, "entry": entry, "fields": fields})

    def modify(self, type_name: str, number: int, fields: dict[str, Any]) -> Sent:
        return self.send({"do": "modify", "type": type_name, "id": number, "fields": fields})

    def retract(self, type_name: str, number: int) -> Sent:
        return self.send({"do": "retract", "type": type_name, "id": number})

    def at(self, moment: int) -> Sent:
        return self.send({"do": "at", "ms": moment})

    def advance(self, by: int) -> Sent:
        return self.send({"do": "advance", "by": by})

    def fire(self, most: Optional[int] = None) -> Sent:
        return self.send({"do": "fire"} if most is None else {"do": "fire", "max": most})

    def held(self) -> Sent:
        return self.send({"do": "held"})

    def promise(self, start: int, entry: Optional[str] = None) -> Sent:
        """No event that starts earlier comes in by this entry point any more."""
        where = {} if entry is None else {"entry": entry}
        return self.send_known({"do": "promise", **where, "from": start})

    def begin(self) -> Sent:
        """The tables are in: no fact of a reference type comes any more."""
        return self.send_known({"do": "begin"})


class Script(Lines[None]):
    """A script that is written line by line."""

    def __init__(self, out: TextIO):
        self.out = out

    def send(self, command: dict[str, Any]) -> None:
        self.out.write(line_of(command) + "\n")
