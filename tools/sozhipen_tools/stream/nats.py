"""Sends requests to a NATS server, and reads their replies, with the standard library alone."""

from __future__ import annotations

import os
import socket
from typing import NamedTuple, Optional, Sequence

HELLO = b'CONNECT {"verbose":false,"pedantic":false,"headers":true,"no_responders":true}\r\n'
NOBODY = b"NATS/1.0 503"


class Request(NamedTuple):
    """A message that asks for a reply; headers are whole lines."""
    subject: str
    data: bytes = b""
    headers: bytes = b""


class Connection:
    """A connection to a server. OSError where it does not answer: then no request may follow."""

    def __init__(self, host: str, port: int, seconds: float) -> None:
        self.socket = socket.create_connection((host, port), seconds)
        self.socket.setsockopt(socket.IPPROTO_TCP, socket.TCP_NODELAY, 1)
        self.file = self.socket.makefile("rb")
        self.asked = 0
        self.inbox = f"_INBOX.{os.urandom(12).hex()}"
        if not self.line().startswith(b"INFO "):
            raise ConnectionError("this is no NATS server")
        self.socket.sendall(HELLO + b"SUB %s.* 1\r\n" % self.inbox.encode())

    def close(self) -> None:
        self.file.close()
        self.socket.close()

    def ask(self, requests: Sequence[Request]) -> list[Optional[bytes]]:
        """The replies to these requests, which are sent at once, in their order; None where nobody is asked."""
        first = self.asked + 1
        self.socket.sendall(b"".join(self.written(request) for request in requests))
        replies: dict[int, Optional[bytes]] = {}
        while len(replies) < len(requests):
            number, reply = self.reply()
            replies[number] = reply
        return [replies[first + place] for place in range(len(requests))]

    def written(self, request: Request) -> bytes:
        """The bytes of a request, whose reply comes under the next number."""
        self.asked += 1
        to, data = f"{request.subject} {self.inbox}.{self.asked}".encode(), request.data
        if not request.headers:
            return b"PUB %s %d\r\n%s\r\n" % (to, len(data), data)
        head = b"NATS/1.0\r\n" + request.headers + b"\r\n"
        return b"HPUB %s %d %d\r\n%s%s\r\n" % (to, len(head), len(head) + len(data), head, data)

    def reply(self) -> tuple[int, Optional[bytes]]:
        """The next reply that comes, with the number of its request."""
        while True:
            line = self.line()
            word, *words = line.split()
            if word == b"PING":
                self.socket.sendall(b"PONG\r\n")
            elif word == b"-ERR":
                raise ConnectionError(line.decode(errors="replace"))
            elif word in (b"MSG", b"HMSG"):
                data, number = self.read(int(words[-1]) + 2)[:-2], int(words[0].rpartition(b".")[2])
                if word == b"MSG":
                    return number, data
                return number, None if data.startswith(NOBODY) else data[int(words[-2]):]

    def line(self) -> bytes:
        line = self.file.readline()
        if not line.endswith(b"\r\n"):
            raise ConnectionError("the server ended the connection")
        return line[:-2]

    def read(self, size: int) -> bytes:
        data = self.file.read(size)
        if len(data) < size:
            raise ConnectionError("the server ended the connection")
        return data
