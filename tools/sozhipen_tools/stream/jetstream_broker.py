"""A broker that is a NATS server with JetStream, 2.9 or later.

A log, a value or a lease is a stream of its name, with that one subject. An append is one message or several, each of
which goes in only behind the one expected (`Nats-Expected-Last-Sequence`), so those of two writers do not mix. The
first line of a message is `NUMBER PLACE END`: the number of the last entry that is whole with it, its place in its
append, and whether it ends that. Messages of an append without its end are those of a writer that was killed: nobody
reads them. A long append ends with a message without bytes, so the number of the last entry costs little.

Of a value the last append counts, and what is before it goes. A lease ends where a client has seen its last message
unchanged for as long as it says: clocks of machines are not compared.
"""

from __future__ import annotations

import base64
import json
import time
from typing import Any, Iterable, Iterator, NamedTuple, Optional, Sequence

from .address import Address
from .broker import Broker, Entry, Linked, RefusedByServer, State, Unreachable, linked, unbroken
from .nats import Connection, Request

SECONDS = 5.0
SHORT = 1 << 14
PIECE = 1 << 19
AT_ONCE = 32
NO_MESSAGE, NO_STREAM, ANOTHER_IS_LAST = 10037, 10059, 10071
# Of the answers of a server, those from here on may pass: it starts, or has no room.
MAY_PASS = 500


class Message(NamedTuple):
    """A message of a stream, by its number there."""
    sequence: int
    number: int
    place: int
    is_end: bool
    data: bytes


BEFORE_ALL = Message(0, 0, 0, True, b"")


def api(what: str, stream: str, **words: object) -> Request:
    """A request about a stream."""
    return Request(f"$JS.API.STREAM.{what}.{stream}", json.dumps(words).encode())


def message_of(said: dict[str, Any]) -> Optional[Message]:
    """The message that a server tells, where there is one."""
    if "message" not in said:
        return None
    head, _, data = base64.b64decode(said["message"].get("data", "")).partition(b"\n")
    number, place, is_end = map(int, head.split())
    return Message(said["message"]["seq"], number, place, is_end == 1, data)


def pieces_of(data: bytes, most: int) -> list[bytes]:
    """The bytes of the messages of one append."""
    if len(data) <= SHORT:
        return [data]
    return [data[start:start + most] for start in range(0, len(data), most)] + [b""]


def packed(behind: int, entries: Iterable[Entry]) -> bytes:
    """Entries that are put behind this number as the bytes of one append."""
    return b"".join(b"%d %d %d\n%s" % (before, entry.number, len(entry.data), entry.data)
                    for before, entry in linked(behind, entries))


def entries_in(data: bytes) -> Iterator[Linked]:
    """The entries of an append."""
    at = 0
    while at < len(data):
        begin = data.index(b"\n", at) + 1
        before, number, size = map(int, data[at:begin].split())
        at = begin + size
        yield Linked(before, Entry(number, data[begin:at]))


class JetStreamBroker(Broker):
    """A server; after Unreachable the next operation connects anew."""

    def __init__(self, address: Address) -> None:
        self.address = address
        self.connection: Optional[Connection] = None
        # By log: where it was read last up to the end of an append, and the number that is whole there.
        self.places: dict[str, tuple[int, int]] = {}
        # By lease: the last message of another holder, and when it was seen first.
        self.seen: dict[str, tuple[int, float]] = {}
        # The streams that have had a message: none of them is ever without one again.
        self.begun: set[str] = set()

    def close(self) -> None:
        """Ends the connection. A server that comes back may have lost messages: what was seen is not gone by again."""
        if self.connection is not None:
            self.connection.close()
        self.connection = None
        self.places, self.seen, self.begun = {}, {}, set()

    def connected(self) -> Connection:
        if self.connection is None:
            self.connection = Connection(*self.address, SECONDS)
        return self.connection

    def replies(self, *requests: Request) -> list[Optional[bytes]]:
        try:
            return self.connected().ask(requests)
        except OSError as error:
            self.close()
            raise Unreachable(str(error)) from None

    def told(self, reply: Optional[bytes], *known: int) -> dict[str, Any]:
        """What a server says: all but faults, and of these the known ones."""
        if reply is None:
            raise Unreachable("the server has no JetStream, or is about to begin it")
        said: dict[str, Any] = json.loads(reply)
        fault = said.get("error")
        if fault is not None and fault["err_code"] not in known:
            if fault["code"] >= MAY_PASS:
                raise Unreachable(fault["description"])
            raise RefusedByServer(fault["description"])
        return said

    def ask(self, request: Request, *known: int) -> dict[str, Any]:
        return self.told(self.replies(request)[0], *known)

    # ---- streams

    def top(self, stream: str) -> Message:
        """The last message of a stream; where there is none, the place before the first. A server of 2.9 ends where it
        is asked by subject in a stream without messages, and one that was killed may not find by subject what is there:
        then the message is asked for by its number."""
        if stream in self.begun:
            last = message_of(self.ask(api("MSG.GET", stream, last_by_subj=stream), NO_MESSAGE, NO_STREAM))
            if last is not None:
                return last
        seen = -1
        while "error" not in (said := self.ask(api("INFO", stream), NO_STREAM)):
            sequence, is_empty = said["state"]["last_seq"], said["state"]["messages"] == 0
            found = {} if is_empty else self.messages(stream, [sequence])
            if found or is_empty or sequence == seen:
                self.begun.update([stream] if found else [])
                return found.get(sequence, BEFORE_ALL._replace(sequence=sequence))
            seen = sequence
        return BEFORE_ALL

    def messages(self, stream: str, sequences: Iterable[int]) -> dict[int, Message]:
        """Of the messages with these numbers those that are there."""
        asked = [api("MSG.GET", stream, seq=sequence) for sequence in sequences]
        found = [message_of(self.told(reply, NO_MESSAGE)) for reply in self.replies(*asked)] if asked else []
        return {message.sequence: message for message in found if message is not None}

    def whole(self, stream: str, end: Message, known: dict[int, Message]) -> Optional[bytes]:
        """The bytes of the append that a message ends; None where another message of it is gone."""
        sequences = range(end.sequence - end.place + 1, end.sequence)
        pieces = {**known, **self.messages(stream, (number for number in sequences if number not in known))}
        if any(number not in pieces for number in sequences):
            return None
        return b"".join(pieces[number].data for number in sequences) + end.data

    def end_of(self, stream: str, message: Optional[Message]) -> Optional[Message]:
        """The end of the last append that is whole with a message; None where it is gone."""
        while message is not None and not message.is_end:
            before = message.sequence - message.place
            message = self.messages(stream, [before]).get(before) if before else BEFORE_ALL
        return message

    def put(self, stream: str, top: Message, number: int, data: bytes) -> bool:
        """Puts an append behind a message, where that is still the last one."""
        pieces = pieces_of(data, PIECE)
        for place, piece in enumerate(pieces, 1):
            is_end = place == len(pieces)
            head = b"%d %d %d\n" % (number if is_end else top.number, place, is_end)
            if not self.publish(stream, top.sequence + place - 1, head + piece):
                return False
        return True

    def publish(self, stream: str, behind: int, data: bytes) -> bool:
        """Puts a message behind another, where that is the last one; a stream without any begins with it."""
        request = Request(stream, data, b"Nats-Expected-Last-Sequence: %d\r\n" % behind)
        reply = self.replies(request)[0]
        if reply is None and behind == 0:
            self.ask(api("CREATE", stream, name=stream, subjects=[stream], storage="file"))
            reply = self.replies(request)[0]
        return "error" not in self.told(reply, ANOTHER_IS_LAST)

    def forget(self, stream: str, sequence: int) -> None:
        """Takes away all messages before one. For the first one the server would take away all."""
        if sequence > 1:
            self.ask(api("PURGE", stream, seq=sequence))

    def above(self, log: str, behind: int, top: int) -> int:
        """The first message of a log, up to this one, with which an entry with a number above is whole."""
        low, number = self.places.get(log, (1, -1))
        if number == behind:
            return low
        if number > behind or number < 0:
            low = self.ask(api("INFO", log))["state"]["first_seq"]
        high, step = top, 1
        while low < high:
            probe = min(low + step - 1, (low + high) // 2)
            message = self.messages(log, [probe]).get(probe)
            if message is not None and message.number > behind:
                high = probe
            else:
                low, step = probe + 1, step * 2
        return low

    # ---- what a broker does

    def append(self, log: str, behind: int, entries: Sequence[Entry]) -> bool:
        while (top := self.top(log)).number == behind:
            if self.put(log, top, entries[-1].number, packed(behind, entries)):
                return True
        return False

    def last(self, log: str) -> int:
        return self.top(log).number

    def read(self, log: str, behind: int, most: int) -> list[Entry]:
        found: list[Linked] = []
        top = self.top(log)
        if top.number <= behind:
            return []
        at = self.above(log, behind, top.sequence)
        while len(found) < most and at <= top.sequence:
            there = self.messages(log, range(at, min(at + AT_ONCE, top.sequence + 1)))
            for end in filter(lambda message: message.is_end, there.values()):
                found += [one for one in entries_in(self.whole(log, end, there) or b"") if one.entry.number > behind]
                if len(found) <= most:
                    self.places[log] = end.sequence + 1, end.number
            at += AT_ONCE
        return unbroken(log, behind, found[:most])

    def trim(self, log: str, number: int) -> None:
        top = self.top(log)
        if top.number:
            end = self.above(log, min(number, top.number) - 1, top.sequence)
            for message in self.messages(log, [end]).values():
                self.forget(log, message.sequence - message.place + 1)

    def state(self, name: str) -> State:
        seen = -1
        while (top := self.top(name)).sequence != seen:
            seen, end = top.sequence, self.end_of(name, top)
            data = None if end is None else self.whole(name, end, {})
            if end is not None and data is not None:
                return State(end.number, data)
        raise RefusedByServer(f"{name} is damaged")

    def offset(self, name: str) -> int:
        return self.top(name).number

    def keep(self, name: str, state: State) -> bool:
        while (top := self.top(name)).number < state.offset:
            if self.put(name, top, state.offset, state.image):
                self.forget(name, top.sequence + 1)
                return True
        return False

    def lease(self, name: str, holder: str, milliseconds: int) -> bool:
        top = self.top(name)
        length, _, other = top.data.partition(b" ")
        if other not in (b"", holder.encode()) and not self.is_over(name, top.sequence, int(length)):
            return False
        return self.claim(name, top, b"%d %s" % (milliseconds, holder.encode()))

    def is_over(self, name: str, sequence: int, milliseconds: int) -> bool:
        """Whether the lease of another has been there, unchanged, for so long."""
        now = time.monotonic()
        if self.seen.get(name, (0, 0.0))[0] != sequence:
            self.seen[name] = sequence, now
        return now - self.seen[name][1] >= milliseconds / 1000

    def claim(self, name: str, top: Message, data: bytes) -> bool:
        """Puts who has a lease, in the place of who had it."""
        if not self.put(name, top, top.number + 1, data):
            return False
        self.forget(name, top.sequence + 1)
        return True

    def release(self, name: str, holder: str) -> None:
        top = self.top(name)
        if top.data.partition(b" ")[2] == holder.encode():
            self.claim(name, top, b"0 ")
