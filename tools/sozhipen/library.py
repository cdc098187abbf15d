"""The engine in this process: the C library of faces/c (szp.h) by ctypes."""

from __future__ import annotations

import ctypes
import os
from ctypes import POINTER, byref, c_char_p, c_int, c_size_t, c_uint64, c_void_p, string_at
from pathlib import Path
from typing import Optional

from sozhipen_tools.places import TOP

from .answers import ClientError, NoProgram

NAME = "libsozhipen.so"
# What a call answers: that the run waits for more, or why nothing was done. All others are statuses of the program.
GOES, NO_MEMORY, BUSY, BAD_CALL, WITHIN_LINE = -1, -2, -3, -4, -5
SAID = {BUSY: "another thread is in a call of this engine", BAD_CALL: "the call cannot be, or the engine is closed",
        WITHIN_LINE: "the last line has no newline yet"}


class Handle(ctypes.Structure):
    _fields_ = [("run", c_void_p)]


class Options(ctypes.Structure):
    _fields_ = [("limit", c_uint64), ("memory", c_uint64), ("image", c_char_p), ("image_len", c_size_t),
                ("form", c_int)]


Place, Length = POINTER(c_void_p), POINTER(c_size_t)
CALLS = {"szp_open": [POINTER(Handle), c_char_p, c_size_t, POINTER(Options)],
         "szp_feed": [POINTER(Handle), c_char_p, c_size_t], "szp_output": [POINTER(Handle), Place, Length],
         "szp_save": [POINTER(Handle), Place, Length], "szp_end": [POINTER(Handle)], "szp_close": [POINTER(Handle)]}


def places() -> list[Path]:
    """Where the library may be: where SOZHIPEN_LIBRARY says, beside this package, in the release of the clone."""
    named = os.environ.get("SOZHIPEN_LIBRARY")
    return [Path(named)] if named else [Path(__file__).with_name(NAME), TOP / "release" / NAME]


def loaded() -> ctypes.CDLL:
    """The library; NoProgram where there is none. While it works other threads of Python go on."""
    for place in places():
        if place.is_file():
            library = ctypes.CDLL(str(place.resolve()))
            # (this one only hands over what is there: no other thread is to take its turn)
            setattr(library, "szp_output", ctypes.PyDLL(str(place.resolve())).szp_output)
            for name, arguments in CALLS.items():
                getattr(library, name).argtypes = arguments
            library.szp_memory.restype, library.szp_memory.argtypes = c_uint64, [POINTER(Handle), POINTER(c_uint64)]
            return library
    raise NoProgram(f"the library is in none of {', '.join(map(str, places()))}: docs/EMBEDDING.md tells how to get it")


class Engine:
    """A run of the engine: bytes of a script in, answers out. It is for one thread at a time. `status` is GOES, or the
    status with which the run has ended."""

    library: Optional[ctypes.CDLL] = None

    def __init__(self, rules: bytes, limit: int = 0, memory: int = 0, image: Optional[bytes] = None,
                 as_text: bool = False):
        Engine.library = self.calls = Engine.library or loaded()
        self.handle, self.at, self.len = Handle(), c_void_p(), c_size_t()
        self.here, self.told = byref(self.handle), (byref(self.at), byref(self.len))
        self.feeds, self.puts_out = self.calls.szp_feed, self.calls.szp_output
        options = Options(limit, memory, image, len(image or b""), int(as_text))
        self.status = self.judged(self.calls.szp_open(self.here, rules, len(rules), byref(options)))

    def judged(self, answer: int) -> int:
        """What a call answers, where that is no fault of the call."""
        if answer == NO_MEMORY:
            raise MemoryError("no memory for the engine")
        if answer < GOES:
            raise ClientError(SAID[answer])
        return answer

    def feed(self, script: bytes) -> int:
        """Takes bytes of the script, and answers the status."""
        status: int = self.feeds(self.here, script, len(script))
        self.status = status if status >= GOES else self.judged(status)
        return self.status

    def output(self) -> bytes:
        """What was put out since it was last asked."""
        answer = self.puts_out(self.here, *self.told)
        if answer < GOES:
            self.judged(answer)
        return string_at(self.at, self.len.value) if self.len.value else b""

    def save(self) -> Optional[bytes]:
        """The image of the run as it is, by a line `save`; behind the end that of the end. None where there is none."""
        self.status = self.judged(self.calls.szp_save(self.here, *self.told))
        return string_at(self.at, self.len.value) if self.at.value else None

    def memory(self) -> int:
        """How many bytes the engine holds."""
        return int(self.calls.szp_memory(self.here, None))

    def end(self) -> int:
        """Ends the script, and answers the status."""
        self.status = self.judged(self.calls.szp_end(self.here))
        return self.status

    def close(self) -> None:
        """Gives all back."""
        self.judged(self.calls.szp_close(self.here))

    def __del__(self) -> None:
        if getattr(self, "handle", None) and self.handle.run:
            self.calls.szp_close(self.here)
