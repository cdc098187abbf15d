"""The pipes of a process that was started with them."""

from __future__ import annotations

from typing import IO, Optional


def pipe(stream: Optional[IO[bytes]]) -> IO[bytes]:
    """A pipe that the process was started with."""
    assert stream is not None, "the process was started with this pipe"
    return stream
