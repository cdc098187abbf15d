"""The engine in this process by the proved calls of crates/desk_c (faces/desk_c/szp.h), through ctypes.

It has what `library.Engine` has, but for a bound of memory and a file for the image: a line `save` is a bad command.
"""

from __future__ import annotations

import ctypes
from ctypes import POINTER, byref, c_char_p, c_int64, c_size_t, c_uint32, c_uint64, c_void_p
from pathlib import Path
from typing import Optional, Union

from .library import GOES

DONE, FAULTY, NO_MEMORY, ENDED = 0, 1, 7, 12
ROOM = 1 << 16
TEXT = 1
MOST_FIRINGS = 100_000


class Handle(ctypes.Structure):
    _fields_ = [("at", c_void_p)]


class Told(ctypes.Structure):
    """What is told of a run: `clock` in milliseconds, and the numbers of pending matches, lines and firings."""
    _fields_ = [("clock", c_int64), ("pending", c_uint64), ("lines", c_uint64), ("firings", c_uint64),
                ("faulted", c_uint32)]


Bytes, Length = [c_char_p, c_size_t], POINTER(c_size_t)
CALLS = {"szp_open": [POINTER(Handle), *Bytes, *Bytes, c_uint64, c_uint32], "szp_feed": [POINTER(Handle), *Bytes],
         "szp_output": [POINTER(Handle), *Bytes, Length], "szp_save": [POINTER(Handle), Length],
         "szp_image": [POINTER(Handle), *Bytes, Length], "szp_counts": [POINTER(Handle), POINTER(Told)],
         "szp_close": [POINTER(Handle)], "szp_version": [*Bytes, Length]}


def calls_of(path: Union[str, Path]) -> ctypes.CDLL:
    """The calls of the shared library in this file."""
    library = ctypes.CDLL(str(Path(path).resolve()))
    for name, arguments in CALLS.items():
        call = getattr(library, name)
        call.argtypes, call.restype = arguments, c_uint32
    return library


class HandleEngine:
    """A run of the engine: bytes of a script in, answers out. `status` is GOES, or the status with which it ended."""

    def __init__(self, calls: ctypes.CDLL, rules: bytes, limit: int = 0, image: Optional[bytes] = None,
                 as_text: bool = False):
        self.calls, self.handle, self.front = calls, Handle(), False
        self.here = byref(self.handle)
        begun = image or b""
        self.status = self.goes(calls.szp_open(self.here, rules, len(rules), begun, len(begun), limit or MOST_FIRINGS,
                                               TEXT if as_text else 0))
        if self.status == NO_MEMORY:
            raise MemoryError("no memory for the engine")

    @staticmethod
    def goes(answer: int) -> int:
        return GOES if answer == DONE else answer

    def feed(self, script: bytes) -> int:
        """Takes bytes of the script, and answers the status."""
        if self.status == GOES:
            self.front = not script.endswith(b"\n") if script else self.front
            self.status = self.goes(self.calls.szp_feed(self.here, script, len(script)))
        return self.status

    def taken(self, call: str) -> bytes:
        """All that a call puts out, piece by piece."""
        found, room, length = b"", ctypes.create_string_buffer(ROOM), c_size_t()
        while getattr(self.calls, call)(self.here, room, ROOM, byref(length)) == DONE and length.value:
            found += room.raw[:length.value]
        return found

    def output(self) -> bytes:
        """What was put out since it was last asked."""
        return self.taken("szp_output")

    def save(self) -> bytes:
        """The image of the run between the lines that were fed and the next."""
        size = c_size_t()
        answer = self.calls.szp_save(self.here, byref(size))
        if answer != DONE:
            raise MemoryError("no memory for the image") if answer == NO_MEMORY else ValueError(f"no image: {answer}")
        return self.taken("szp_image")

    def told(self) -> Told:
        """What is told of the run."""
        told = Told()
        if self.calls.szp_counts(self.here, byref(told)) != DONE:
            raise ValueError("the run has ended")
        return told

    def end(self) -> int:
        """Ends the script, with a line that has no newline yet, and answers the status."""
        if self.status == GOES and self.front:
            self.feed(b"\n")
        if self.status == GOES:
            self.status = int(self.told().faulted)
        return self.status

    def close(self) -> int:
        """Gives all back. ENDED where the run had ended before."""
        return int(self.calls.szp_close(self.here))
