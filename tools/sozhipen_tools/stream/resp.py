"""Sends commands to a Redis server, and reads its replies (RESP 2), with the standard library alone."""

from __future__ import annotations

import socket
from typing import Any, Sequence, Union

from .broker import RefusedByServer

Word = Union[bytes, str, int]


def written(words: Sequence[Word]) -> bytes:
    """The bytes of a command."""
    parts = [word if isinstance(word, bytes) else str(word).encode() for word in words]
    return b"*%d\r\n" % len(parts) + b"".join(b"$%d\r\n%s\r\n" % (len(part), part) for part in parts)


class Connection:
    """A connection to a server. OSError where it does not answer: then no command may follow."""

    def __init__(self, host: str, port: int, seconds: float) -> None:
        self.socket = socket.create_connection((host, port), seconds)
        self.socket.setsockopt(socket.IPPROTO_TCP, socket.TCP_NODELAY, 1)
        self.file = self.socket.makefile("rb")

    def close(self) -> None:
        self.file.close()
        self.socket.close()

    def ask_each(self, commands: Sequence[Sequence[Word]]) -> list[Any]:
        """The replies to these commands, which are sent at once: an int, bytes, None, or a list of such;
        RefusedByServer where one is an error."""
        self.socket.sendall(b"".join(map(written, commands)))
        replies = [self.reply() for _ in commands]
        for reply in replies:
            if isinstance(reply, RefusedByServer):
                raise reply
        return replies

    def reply(self) -> Any:
        line = self.file.readline()
        if not line.endswith(b"\r\n"):
            raise ConnectionError("the server ended the connection")
        sign, rest = line[:1], line[1:-2]
        if sign == b"-":
            return RefusedByServer(rest.decode(errors="replace"))
        if sign == b"+":
            return rest
        size = int(rest)
        if sign == b":":
            return size
        if size < 0:
            return None
        return [self.reply() for _ in range(size)] if sign == b"*" else self.bulk(size)

    def bulk(self, size: int) -> bytes:
        data = self.file.read(size + 2)
        if len(data) < size + 2:
            raise ConnectionError("the server ended the connection")
        return data[:size]
