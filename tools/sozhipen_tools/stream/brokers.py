"""The brokers that the tools know: by which words one is chosen, and how its server is started for a trial."""

from __future__ import annotations

import argparse
import os
import shutil
from typing import Callable, NamedTuple, Optional, Union

from .address import Address, address_of
from .jetstream_broker import JetStreamBroker
from .redis_broker import RedisBroker

ServerBroker = Union[RedisBroker, JetStreamBroker]


class Kind(NamedTuple):
    """A kind of broker, the program of its server, and the words of that for an address and a folder."""
    broker: Callable[[Address], ServerBroker]
    program: str
    words: Callable[[Address, str], list[str]]

    def server(self) -> Optional[str]:
        """Where the program of the server is; Debian has one beside what all users find."""
        return shutil.which(self.program, path=f"{os.environ.get('PATH', '')}:/usr/sbin")


def redis_server(at: Address, folder: str) -> list[str]:
    return ["--port", str(at.port), "--bind", at.host, "--dir", folder, "--save", "", "--appendonly", "yes",
            "--appendfsync", "always"]


def nats_server(at: Address, folder: str) -> list[str]:
    return ["-js", "-sd", folder, "-p", str(at.port), "-a", at.host]


KINDS = {"redis": Kind(RedisBroker, "redis-server", redis_server),
         "jetstream": Kind(JetStreamBroker, "nats-server", nats_server)}


def broker_words(parser: argparse.ArgumentParser) -> None:
    """The words by which a tool takes the server of a broker."""
    servers = parser.add_mutually_exclusive_group()
    servers.add_argument("--redis", metavar="SERVER", type=address_of, default=address_of("6379"),
                         help="a Redis server: PORT, on 127.0.0.1, or HOST:PORT; otherwise 6379")
    servers.add_argument("--jetstream", metavar="SERVER", type=address_of, help="a NATS server with JetStream")


def broker_of(words: argparse.Namespace) -> ServerBroker:
    """The broker that the words of a tool name."""
    return RedisBroker(words.redis) if words.jetstream is None else JetStreamBroker(words.jetstream)
