"""Where the server of a broker is."""

from __future__ import annotations

from typing import NamedTuple


class Address(NamedTuple):
    """A machine, and a port on it."""
    host: str
    port: int


def address_of(text: str) -> Address:
    """The address that is written as PORT, on this machine, or as HOST:PORT."""
    host, _, port = text.rpartition(":")
    return Address(host or "127.0.0.1", int(port))
