"""A broker that is a Redis server, 6.2 or later: logs are streams whose ids are the numbers of the entries, each with the
number of the one before; a value and its offset are a hash, leases are keys that expire.

The server has to write each command to its disk before it replies (`--appendonly yes --appendfsync always`); otherwise
a crash of it takes back what it has acknowledged.
"""

from __future__ import annotations

from typing import Any, Optional, Sequence

from .address import Address
from .broker import NOTHING, Append, Broker, Entry, Linked, RefusedByServer, State, Unreachable, linked, unbroken
from .resp import Connection, Word

APPEND = """
local top = redis.call('XREVRANGE', KEYS[1], '+', '-', 'COUNT', 1)
if (top[1] and top[1][1] or '0-0') ~= ARGV[1] then return 0 end
for k = 2, #ARGV, 3 do redis.call('XADD', KEYS[1], ARGV[k], 'b', ARGV[k + 1], 'd', ARGV[k + 2]) end
return 1
"""
KEEP = """
local old = redis.call('HGET', KEYS[1], 'offset')
if old and tonumber(old) >= tonumber(ARGV[1]) then return 0 end
redis.call('HSET', KEYS[1], 'offset', ARGV[1], 'image', ARGV[2])
return 1
"""
LEASE = """
local holder = redis.call('GET', KEYS[1])
if holder and holder ~= ARGV[1] then return 0 end
redis.call('SET', KEYS[1], ARGV[1], 'PX', ARGV[2])
return 1
"""
RELEASE = "if redis.call('GET', KEYS[1]) == ARGV[1] then return redis.call('DEL', KEYS[1]) end return 0"
# What a server says that is loading what it has on its disk, busy, or out of memory or disk: it may pass.
MAY_PASS = ("LOADING", "BUSY", "OOM", "MISCONF")
SECONDS = 5.0


def number_of(name: bytes) -> int:
    """The number of an entry, from its id in the stream."""
    return int(name.partition(b"-")[0])


def append_words(append: Append) -> list[Word]:
    """The command of an append."""
    words: list[Word] = ["EVAL", APPEND, 1, append.log, f"{append.behind}-0"]
    for before, entry in linked(append.behind, append.entries):
        words += [f"{entry.number}-0", before, entry.data]
    return words


class RedisBroker(Broker):
    """A server; after Unreachable the next operation connects anew."""

    def __init__(self, address: Address) -> None:
        self.address = address
        self.connection: Optional[Connection] = None

    def ask(self, *words: Word) -> Any:
        return self.ask_each([words])[0]

    def ask_each(self, commands: Sequence[Sequence[Word]]) -> list[Any]:
        try:
            if self.connection is None:
                self.connection = Connection(*self.address, SECONDS)
            return self.connection.ask_each(commands)
        except RefusedByServer as refused:
            if not str(refused).startswith(MAY_PASS):
                raise
            raise Unreachable(str(refused)) from None
        except OSError as error:
            self.close()
            raise Unreachable(str(error)) from None

    def close(self) -> None:
        """Ends the connection."""
        if self.connection is not None:
            self.connection.close()
        self.connection = None

    def append(self, log: str, behind: int, entries: Sequence[Entry]) -> bool:
        return self.append_each([Append(log, behind, entries)])[0]

    def append_each(self, appends: Sequence[Append]) -> list[bool]:
        """The server writes to its disk once for all of them."""
        return list(map(bool, self.ask_each(list(map(append_words, appends)))))

    def last(self, log: str) -> int:
        top = self.ask("XREVRANGE", log, "+", "-", "COUNT", 1)
        return number_of(top[0][0]) if top else 0

    def read(self, log: str, behind: int, most: int) -> list[Entry]:
        found = self.ask("XRANGE", log, f"{behind + 1}-0", "+", "COUNT", most)
        return unbroken(log, behind, (Linked(int(fields[1]), Entry(number_of(name), fields[3])) for name, fields in found))

    def trim(self, log: str, number: int) -> None:
        if least := min(number, self.last(log)):
            self.ask("XTRIM", log, "MINID", f"{least}-0")

    def state(self, name: str) -> State:
        offset, image = self.ask("HMGET", name, "offset", "image")
        return NOTHING if offset is None else State(int(offset), image)

    def offset(self, name: str) -> int:
        return int(self.ask("HGET", name, "offset") or 0)

    def keep(self, name: str, state: State) -> bool:
        return bool(self.ask("EVAL", KEEP, 1, name, state.offset, state.image))

    def lease(self, name: str, holder: str, milliseconds: int) -> bool:
        return bool(self.ask("EVAL", LEASE, 1, name, holder, milliseconds))

    def release(self, name: str, holder: str) -> None:
        self.ask("EVAL", RELEASE, 1, name, holder)
