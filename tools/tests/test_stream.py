"""A stream by key over a broker: what the brokers promise, where lines go, and that no kill loses or doubles an
answer."""

from __future__ import annotations

import os
import random
import subprocess
import tempfile
import time
import unittest
from collections import Counter
from contextlib import redirect_stderr
from dataclasses import dataclass
from io import BytesIO, StringIO
from pathlib import Path
from typing import Callable, Optional, Sequence
from unittest import mock

from support import DESK_PROGRAM

from sozhipen_tools.places import command_of
from sozhipen_tools.reference.desk import desk_at_start
from sozhipen_tools.reference.images.resume import saved
from sozhipen_tools.reference.meaning.program import Program
from sozhipen_tools.reference.meaning.run import program_or_refusal
from sozhipen_tools.reference.meaning.script import BadJson, json_of
from sozhipen_tools.stream import load
from sozhipen_tools.stream.address import address_of
from sozhipen_tools.stream.answered import Answered, differences_of_all, firings, lines_of_partitions, one_run, planted
from sozhipen_tools.stream.broker import (NOTHING, Broker, Entry, Lost, MemoryBroker, State, Unreachable, answers_of,
                                          script_of, state_of, until_reached)
from sozhipen_tools.stream.brokers import KINDS
from sozhipen_tools.stream.collect import collected, last_of_all
from sozhipen_tools.stream.engine import Engine, Interrupted, Stopped
from sozhipen_tools.stream.entries import Numbered, data_of, lines_in
from sozhipen_tools.stream.jetstream_broker import NO_STREAM, PIECE, JetStreamBroker, api
from sozhipen_tools.stream.look import found_in
from sozhipen_tools.stream.processes import Server
from sozhipen_tools.stream.quick import quick_json_of
from sozhipen_tools.stream.redis_broker import RedisBroker
from sozhipen_tools.stream.router import Router, TooShort, lines_as_they_come, routed_all
from sozhipen_tools.stream.routes import ROUTES, Mixed, Routes, partitions_of
from sozhipen_tools.stream.trim import trim
from sozhipen_tools.stream.worker import Worker, work

PARTITIONS = 3
HAS = {name: kind.server() is not None for name, kind in KINDS.items()}


def program_of(rules: str) -> Program:
    program = program_or_refusal(rules.encode())
    assert isinstance(program, Program), program
    return program


PROGRAM = program_of(load.RULES)


class Evaluator(Engine):
    """The second evaluator within this process."""

    def run(self, image: bytes, script: bytes) -> tuple[bytes, bytes]:
        desk = desk_at_start(PROGRAM, self.limit, True, image or None, None)
        for line in script.split(b"\n")[:-1]:
            desk.number += 1
            desk.line(desk.number, line)
        return b"".join(line.encode() + b"\n" for line in desk.lines), saved(desk)


EVALUATOR = Evaluator((), "")


class Killed(Exception):
    """The process was killed."""


@dataclass
class Killing(MemoryBroker):
    """A broker at whose operation of a number who asks is killed, or does not reach it: before it is done or behind."""
    at: int
    error: type[Exception]
    is_behind: bool

    def __post_init__(self) -> None:
        super().__init__()
        self.count = 0

    def count_then(self, ask: Callable[[], object]) -> object:
        self.count += 1
        if self.count == self.at and not self.is_behind:
            raise self.error
        found = ask()
        if self.count == self.at:
            raise self.error
        return found

    def append(self, log: str, behind: int, entries: Sequence[Entry]) -> bool:
        return bool(self.count_then(lambda: MemoryBroker.append(self, log, behind, entries)))

    def keep(self, name: str, state: State) -> bool:
        return bool(self.count_then(lambda: MemoryBroker.keep(self, name, state)))

    def release(self, name: str, holder: str) -> None:
        self.count_then(lambda: MemoryBroker.release(self, name, holder))


class Meanwhile(MemoryBroker):
    """A broker over which something is done once, while one who has read a value is not yet further."""

    def __init__(self) -> None:
        super().__init__()
        self.then: Optional[Callable[[], object]] = None

    def state(self, name: str) -> State:
        found, then, self.then = MemoryBroker.state(self, name), self.then, None
        if then is not None:
            then()
        return found


def route_all(broker: Broker, script: list[bytes], goes_on: bool = False, most: int = 7) -> None:
    """Routes a script as a router that was begun again does: from its first line, or behind the lines taken."""
    routes = Routes(PROGRAM, "card", PARTITIONS)
    routes.begin(broker, goes_on)
    router = Router(broker, routes, most)
    for number, line in enumerate(script[routes.number:]):
        router.take(line)
        if number % 10 == 0:
            router.flush()
        if number % 30 == 0:
            router.save()
    router.save()


def lose(broker: Broker, name: str) -> None:
    """Takes a value away, as no tool does."""
    if isinstance(broker, MemoryBroker):
        broker.states.pop(name, None)
    elif isinstance(broker, RedisBroker):
        broker.ask("DEL", name)
    elif isinstance(broker, JetStreamBroker):
        broker.ask(api("DELETE", name), NO_STREAM)
        broker.close()


def answer_all(broker: Broker, engine: Engine, holder: str, most: int = 15) -> None:
    worker = Worker(broker, engine, holder, lease=1, most=most)
    while not worker.is_done(PARTITIONS):
        worker.round(PARTITIONS)


def again(work: Callable[[], None]) -> None:
    """Does work again where it was killed, or did not reach the broker."""
    while True:
        try:
            return work()
        except (Killed, Unreachable):
            time.sleep(0.002)


class Brokers(unittest.TestCase):
    def check(self, broker: Broker) -> None:
        first, second, third = Entry(3, b"a\n\0\r\n"), Entry(5, b""), Entry(9, b"c")
        self.assertEqual((broker.last("log"), broker.read("log", 0, 9)), (0, []))
        self.assertFalse(broker.append("log", 1, [first]))
        self.assertTrue(broker.append("log", 0, [first, second]))
        self.assertFalse(broker.append("log", 0, [first]))
        self.assertFalse(broker.append("log", 3, [third]))
        self.assertTrue(broker.append("log", 5, [third]))
        self.assertEqual((broker.last("log"), broker.read("log", 3, 9)), (9, [second, third]))
        self.assertEqual(broker.read("log", 0, 1), [first])
        self.assertEqual(broker.state("state"), NOTHING)
        self.assertTrue(broker.keep("state", State(10, b"\xff\n")))
        self.assertFalse(broker.keep("state", State(9, b"old")))
        self.assertFalse(broker.keep("state", State(10, b"same")))
        self.assertEqual(broker.state("state"), State(10, b"\xff\n"))
        self.assertEqual(broker.offset("state"), 10)
        self.assertTrue(broker.lease("lease", "a", 50) and broker.lease("lease", "a", 600_000))
        self.assertFalse(broker.lease("lease", "b", 50))
        broker.release("lease", "b")
        self.assertFalse(broker.lease("lease", "b", 50))
        broker.release("lease", "a")
        self.assertTrue(broker.lease("lease", "b", 50))
        while not broker.lease("lease", "a", 600_000):
            time.sleep(0.01)
        self.assertFalse(broker.lease("lease", "b", 50))
        self.check_lost_images(broker)

    def check_lost_images(self, broker: Broker) -> None:
        """A worker answers nothing where an image was lost, or an older one is there, and lines behind that are gone."""
        script, worker = load.script(200, 3), Worker(broker, EVALUATOR, "a", most=8)
        route_all(broker, script)
        worker.answer(0)
        older = broker.state(state_of(0))
        for _ in range(5):
            worker.answer(0)
        newest, answered = broker.state(state_of(0)), broker.last(answers_of(0))
        trim(broker, 0, 0)
        for there in (NOTHING, older):
            lose(broker, state_of(0))
            if there != NOTHING:
                broker.keep(state_of(0), there)
            with self.assertRaisesRegex(Lost, rf"image of partition 0.* behind {there.offset} up to \d+ are no longer"):
                worker.turn(0)
            self.assertEqual((broker.last(answers_of(0)), broker.offset(state_of(0))), (answered, there.offset))
            self.assertTrue(broker.lease("lease{0}", "other", 1))
            broker.release("lease{0}", "other")
        broker.keep(state_of(0), newest)
        answer_all(broker, EVALUATOR, "a")
        runs = [one_run(EVALUATOR, part) for part in lines_of_partitions(script, Routes(PROGRAM, "card", PARTITIONS))]
        self.assertEqual(differences_of_all(broker, runs), [])

    def test_memory(self) -> None:
        self.check(MemoryBroker())

    def test_away(self) -> None:
        """A broker that does not answer for long is told, once each time."""
        asked = iter([Unreachable("gone")] * 4 + [1])

        def ask() -> int:
            found = next(asked)
            if isinstance(found, Unreachable):
                raise found
            return found

        with mock.patch.multiple("sozhipen_tools.stream.broker", LONG_SECONDS=0.1), redirect_stderr(StringIO()) as told:
            self.assertEqual(until_reached(ask), 1)
        self.assertEqual(told.getvalue(), "waiting for the broker: gone\n")

    def test_addresses(self) -> None:
        self.assertEqual(address_of("6380"), ("127.0.0.1", 6380))
        self.assertEqual(address_of("log.example:6380"), ("log.example", 6380))

    @mock.patch.multiple("sozhipen_tools.stream.redis_broker", SECONDS=60.0)
    @mock.patch.multiple("sozhipen_tools.stream.jetstream_broker", SECONDS=60.0)
    def check_server(self, kind: str) -> None:
        if not HAS[kind]:
            self.skipTest(f"there is no {KINDS[kind].program}")
        with tempfile.TemporaryDirectory() as folder:
            server = Server(kind, Path(folder))
            broker = server.broker()
            try:
                until_reached(lambda: broker.last("log"))
                self.check(broker)
                self.check_long(broker)
                server.kill()
                with self.assertRaises(Unreachable):
                    broker.last("log")
                self.assertEqual(until_reached(lambda: broker.last("log")), 9)
                self.assertEqual(broker.state("state"), State(10, b"\xff\n"))
                if isinstance(broker, JetStreamBroker):
                    self.check_pieces(broker)
            finally:
                broker.close()
                server.end()

    def check_long(self, broker: Broker) -> None:
        """Entries and values of megabytes, and many entries, which are read from anywhere."""
        entries = [Entry(number, b"%d " % number * (1 << 17)) for number in range(5, 50, 5)]
        self.assertTrue(broker.append("long", 0, entries[:3]))
        for entry in entries[3:]:
            self.assertTrue(broker.append("long", entry.number - 5, [entry]))
        for behind in (0, 17, 3, 15, 39, 40, 44, 45):
            self.assertEqual(broker.read("long", behind, 2), [e for e in entries if e.number > behind][:2])
        self.assertEqual((broker.last("long"), broker.read("long", 0, 99)), (45, entries))
        for number, kept in ((0, entries), (20, entries[3:]), (21, entries[4:]), (99, entries[-1:])):
            broker.trim("long", number)
            self.assertLessEqual({*kept}, {*broker.read("long", kept[0].number - 1, 99)})
        self.assertEqual(broker.last("long"), 45)
        for behind, most in ((0, 1), (4, 99), (39, 1)):
            with self.assertRaisesRegex(Lost, f"long: lines behind {behind} up to 40 are no longer there"):
                broker.read("long", behind, most)
        self.assertEqual(broker.read("long", 40, 9), entries[-1:])
        for offset in (7, 8):
            self.assertTrue(broker.keep("image", State(offset, bytes([offset]) * 2_000_000)))
            self.assertEqual(broker.state("image"), State(offset, bytes([offset]) * 2_000_000))

    def check_pieces(self, broker: JetStreamBroker) -> None:
        """What writers leave that are killed amid an append is not seen."""
        def leave(stream: str, pieces: int) -> None:
            top = broker.top(stream)
            for place in range(1, pieces + 1):
                self.assertTrue(broker.publish(stream, top.sequence + place - 1, b"%d %d 0\nx" % (top.number, place)))

        def another_puts(stream: str, behind: int, data: bytes) -> bool:
            if len(data) > PIECE:
                once.stop()
                leave(stream, 1)
            return publish(stream, behind, data)

        publish, once = broker.publish, mock.patch.object(broker, "publish", another_puts)
        for log in ("log", "new"):
            leave(log, 2)
            leave(log, 1)
        self.assertEqual((broker.last("log"), broker.last("new"), broker.read("new", 0, 9)), (9, 0, []))
        once.start()
        self.assertTrue(broker.append("log", 9, [Entry(12, b"y" * 3 * PIECE)]))
        self.assertEqual(broker.read("log", 9, 9), [Entry(12, b"y" * 3 * PIECE)])
        for value in ("state", "none"):
            before = broker.state(value)
            leave(value, 2)
            leave(value, 3)
            self.assertEqual(broker.state(value), before)
            self.assertTrue(broker.keep(value, State(11, b"z")))
            self.assertEqual(broker.state(value), State(11, b"z"))

    def test_redis(self) -> None:
        self.check_server("redis")

    def test_jetstream(self) -> None:
        self.check_server("jetstream")


class Routing(unittest.TestCase):
    def routed(self, *lines: bytes, rules: Optional[str] = None) -> list[tuple[list[bytes], list[int]]]:
        routes = Routes(PROGRAM if rules is None else program_of(rules), "card", PARTITIONS)
        return [routes.route(line)[1:] for line in lines]

    def test_by_key(self) -> None:
        event, table = load.withdrawal(random.Random(1), 0), b'{"do":"insert","type":"Most","fields":{}}'
        everybody = list(range(PARTITIONS))
        retract = b'{"do":"retract","type":"Most","id":1}'
        found = self.routed(table, retract, event, event, retract, b"", b"x", b'{"do":"held"}', b'{"do":"facts"}')
        self.assertEqual([partitions for _, partitions in found[:2]], [everybody] * 2)
        self.assertEqual(found[2], found[3])
        self.assertEqual(len(found[2][1]), 1)
        self.assertEqual([partitions for _, partitions in found[4:]], [[], [0], [0], everybody, everybody])

    def test_readings(self) -> None:
        """The quick reader reads as the second evaluator's does."""
        def read(reader: Callable[[bytes], object], line: bytes) -> str:
            try:
                return repr(reader(line))
            except BadJson:
                return "no reading"

        draw = random.Random(1)
        pieces = [b"{", b"}", b"[", b"]", b",", b":", b'"', b'"do"', b'"a"', b"0", b"-0", b"12", b"-7", b"01", b"1.5",
                  b"1e400", b"9" * 19, b"9" * 400, b"-9223372036854775808", b"null", b"true", b"NaN", b"-Infinity",
                  b"\\u00e9", b"\\ud800", b"\\n", b"\t", b"\0", b" ", b"\xc3\xa9", b"\xff", b"\xef\xbb\xbf"]
        lines = [b"[" * many + b"]" * many for many in (126, 127, 128, 2000)]
        pairs = [b'{"a":%s,"a":["",%s]}' % (one, other) for one in pieces for other in pieces]
        for line in load.script(200, 1) + pairs:
            at = draw.randrange(len(line) + 1)
            lines += [line, line[:at], line[:at] + draw.choice(pieces) + line[at:], line[:at] + line[at + 1:]]
        for line in lines:
            self.assertEqual(read(quick_json_of, line), read(json_of, line), line)

    def event(self, at: int, entry: str = "ATM", cents: object = 5) -> bytes:
        fields = {"at": at, "card": "c1", "place": "harbour", "cents": cents}
        return load.line_of("insert", type="Withdrawal", entry=entry, fields=fields)

    def test_promises(self) -> None:
        fire, promise = b'{"do":"fire"}', '{"do":"promise","entry":"ATM","from":%d}'
        script = [load.line_of("at", ms=10_000), fire, self.event(7000), self.event(6000), self.event(10_001),
                  self.event(9000, "DEFAULT"), self.event(9500, cents="5"), fire, fire, self.event(8000), fire]
        lines = [lines for lines, _ in self.routed(*script)]
        self.assertEqual([lines[k] for k in (1, 7, 8, 10)],
                         [[fire], [(promise % 7000).encode(), fire], [fire], [(promise % 8000).encode(), fire]])

    def test_promises_of_the_script(self) -> None:
        fire, promise = b'{"do":"fire"}', '{"do":"promise","entry":"ATM","from":%d}'
        script = [load.line_of("at", ms=10_000), self.event(7000), fire, (promise % 6000).encode(),
                  (promise % 5000).encode(), (promise % 9000).encode(), fire, self.event(9000), fire]
        lines = [lines for lines, _ in self.routed(*script)]
        self.assertEqual(lines[3:6], [[(promise % at).encode()] for at in (7000, 5000, 9000)])
        self.assertEqual(lines[6:], [[fire], [self.event(9000)], [fire]])

    def test_two_routers_do_not_mix(self) -> None:
        broker = MemoryBroker()
        routers = [Router(broker, Routes(PROGRAM, "card", 1), 10) for _ in range(2)]
        for many, router in enumerate(routers, 1):
            for _ in range(many):
                router.take(b'{"do":"held"}')
        routers[0].flush()
        with self.assertRaises(Mixed):
            routers[1].flush()

    def test_one_split(self) -> None:
        broker = MemoryBroker()
        self.assertEqual(partitions_of(broker), 0)
        route_all(broker, load.script(30, 1))
        self.assertEqual(partitions_of(broker), PARTITIONS)
        for key, partitions in (("place", PARTITIONS), ("card", PARTITIONS + 1)):
            with self.assertRaises(Mixed):
                Routes(PROGRAM, key, partitions).begin(broker, False)

    def test_behind_the_lines_taken(self) -> None:
        """All that a router knows goes over to the next one, at each line."""
        script = [*load.script(60, 3), b'{"do":"promise","entry":"ATM","from":1}',
                  b'{"do":"retract","type":"Most","id":1}']
        broker, routes = MemoryBroker(), Routes(PROGRAM, "card", PARTITIONS)
        routes.begin(broker, True)
        whole = Routes(PROGRAM, "card", PARTITIONS)
        for line in script:
            router = Router(broker, routes, 100)
            self.assertEqual(router.take(line), whole.route(line))
            router.save()
            routes = Routes(PROGRAM, "card", PARTITIONS)
            routes.begin(broker, True)
        self.assertEqual([broker.last(script_of(partition)) for partition in range(PARTITIONS)], [len(script) - 1] * 3)

    def test_lines_that_the_broker_lost(self) -> None:
        """A router does not go on behind lines that are gone; with the whole script it puts them again."""
        broker, script = MemoryBroker(), load.script(60, 3)
        route_all(broker, script)
        whole = broker.read(script_of(1), 0, 1000)
        del broker.logs[script_of(1)][-2:]
        with self.assertRaises(Lost):
            route_all(broker, script, goes_on=True)
        route_all(broker, script)
        self.assertEqual([line for entry in broker.read(script_of(1), 0, 1000) for line in lines_in(entry.data)],
                         [line for entry in whole for line in lines_in(entry.data)])

    def test_lines_in_an_image_that_the_broker_lost(self) -> None:
        """They are put again, in other entries; a worker tells that they lack, and answers none twice."""
        broker, script = MemoryBroker(), load.script(120, 3)
        worker = Worker(broker, EVALUATOR, "a")
        for most, cut in ((7, 3), (11, 2), (3, 5), (7, 0)):
            many = len(script) * (25 - cut) // 25
            route_all(broker, script[:many], most=most)
            answer_all(broker, EVALUATOR, "a", most=20)
            if cut:
                for partition in range(PARTITIONS):
                    del broker.logs[script_of(partition)][-cut:]
                lose(broker, state_of(1))
                with redirect_stderr(StringIO()) as told:
                    self.assertEqual(worker.waiting(PARTITIONS), [])
                self.assertEqual(told.getvalue().count("worker: partition"), PARTITIONS if most == 7 else 0)
        runs = [one_run(EVALUATOR, part) for part in lines_of_partitions(script, Routes(PROGRAM, "card", PARTITIONS))]
        self.assertEqual(differences_of_all(broker, runs), [])

    def test_a_script_that_is_too_short(self) -> None:
        """A router tells it, and keeps nothing that it took from there."""
        def route(lines: list[bytes], goes_on: bool = False) -> None:
            routes = Routes(PROGRAM, "card", PARTITIONS)
            routes.begin(broker, goes_on)
            routed_all(BytesIO(b"".join(line + b"\n" for line in lines)), Router(broker, routes, 7), goes_on)

        broker, script = MemoryBroker(), load.script(60, 3)
        route(script[:20])
        kept = broker.state(ROUTES)
        with mock.patch.object(broker, "keep"):
            route(script)
        for lines, goes_on in ((script[:30], False), ([], False), (script[20:30], True)):
            with self.assertRaisesRegex(TooShort, f"ends with line .*, and the logs have lines up to {len(script)}"):
                route(lines, goes_on)
            self.assertEqual(broker.state(ROUTES), kept)
        for other in (script[:30] + [b""] * len(script), script[:-1] + [b"", b""]):
            with self.assertRaises(Mixed):
                route(other)
        route([], True)
        route(script[20:], True)
        self.assertEqual(broker.offset(ROUTES), len(script) + 1)

    def test_a_last_line_without_its_newline(self) -> None:
        def lines_in_file(data: bytes) -> list[bytes]:
            return [line for lines in lines_as_they_come(BytesIO(data)) for line in lines]

        self.assertEqual(lines_in_file(b'x\n{"do":"fire"}'), [b"x", b'{"do":"fire"}'])
        self.assertEqual(lines_in_file(b"x\n"), [b"x"])
        with redirect_stderr(StringIO()) as told:
            self.assertEqual(lines_in_file(b'x\n{"do":"fire"'), [b"x"])
        self.assertIn("is not routed", told.getvalue())

    def test_another_script(self) -> None:
        broker, script = MemoryBroker(), load.script(30, 1)
        route_all(broker, script)
        route_all(broker, [*script, b'{"do":"held"}'])
        self.assertEqual(broker.last(script_of(0)), len(script) + 1)
        for other in ([*script, b'{"do":"fire"}'], [*script, script[-3], script[-1]]):
            with self.assertRaises(Mixed):
                route_all(broker, other)


class Engines(unittest.TestCase):
    @staticmethod
    def engine(command: str) -> Engine:
        """A desk that takes its input and does this; `$3` is the file of its image."""
        return Engine(("sh", "-c", f"cat > /dev/null; {command}"), "")

    def test_statuses(self) -> None:
        for command, error in (("exit 3", Stopped), ("exit 9", Stopped), ("exit 6", Interrupted),
                               ("exit 7", Interrupted), ("kill -9 $$", Interrupted)):
            with self.subTest(command), self.assertRaises(error):
                self.engine(command).run(b"", b"x\n")

    def test_a_turn(self) -> None:
        entries = [Entry(4, data_of([Numbered(3, b"a"), Numbered(4, b"b")])), Entry(6, data_of([Numbered(6, b"c")]))]
        said = "fire \\\"done 3\\\" #1\\ndone 1\\ndone 2\\nnew #2 A\\n"
        command = f'printf next >> "$3"; printf "{said}done 3\\n"'
        answers, state = self.engine(command).turn(State(2, b"old "), entries)
        self.assertEqual(answers, [Entry(4, b'3 fire "done 3" #1\n3 done 1\n4 done 2\n'),
                                   Entry(6, b"6 new #2 A\n6 done 3\n")])
        self.assertEqual(state, State(6, b"old next"))
        with self.assertRaises(Stopped):
            self.engine(f'printf next >> "$3"; printf "{said}"').turn(NOTHING, entries)

    def test_answers_that_the_broker_lost(self) -> None:
        broker = MemoryBroker()
        broker.append(script_of(0), 0, [Entry(1, b"1 x\n"), Entry(2, b"2 x\n")])
        broker.keep(state_of(0), EVALUATOR.turn(NOTHING, broker.read(script_of(0), 0, 1))[1])
        with self.assertRaises(Lost):
            Worker(broker, EVALUATOR, "a").turn(0)

    def test_the_entries_of_a_turn(self) -> None:
        broker, entries = MemoryBroker(), [Entry(number, b"%d x\n" % number * 3) for number in range(1, 200)]
        broker.append(script_of(0), 0, entries)
        for most, end in ((1, 6), (3, 6), (4, 7), (450, 155), (5000, 199)):
            self.assertEqual(Worker(broker, EVALUATOR, "a", most=most).entries(0, 5), entries[5:end])

    def test_which_partition_comes_next(self) -> None:
        """The one furthest behind; but one whose desk was interrupted comes last, once."""
        broker = MemoryBroker()
        worker = Worker(broker, self.engine("exit 7"), "a")
        for partition, answered in ((0, 5), (1, 7), (2, 3), (3, 9)):
            broker.append(script_of(partition), 0, [Entry(9, b"9 x\n")])
            broker.append(answers_of(partition), 0, [Entry(answered, b"")])
        self.assertEqual(worker.waiting(4), [2, 0, 1])
        with self.assertRaises(Interrupted):
            worker.turn(2)
        self.assertEqual([worker.waiting(4) for _ in range(2)], [[0, 1, 2], [2, 0, 1]])

    def test_an_end(self) -> None:
        """A worker that is to end gives its lease back, and begins no further turn."""
        broker = MemoryBroker()
        route_all(broker, load.script(60, 3))
        worker = Worker(broker, EVALUATOR, "a", most=1)
        with mock.patch.object(worker, "answer", worker.end):
            work(worker, False)
        self.assertEqual(broker.leases, {})

    def test_a_turn_that_is_longer_than_its_lease(self) -> None:
        """The lease is renewed while a desk works, also where the broker is away meanwhile."""
        broker, seen = MemoryBroker(), []
        route_all(broker, load.script(60, 3))
        worker = Worker(broker, self.engine("sleep 1; exit 3"), "slow", lease=300)

        def renew(partition: int) -> None:
            Worker.renew(worker, partition)
            seen.append(broker.lease("lease{0}", "other", 300))

        with mock.patch.object(worker, "renew", renew), self.assertRaises(Stopped):
            worker.turn(0)
        self.assertGreater(len(seen), 3)
        self.assertFalse(any(seen))
        with mock.patch.object(broker, "lease", side_effect=Unreachable):
            worker.renew(0)

    def test_lines_that_were_taken_away(self) -> None:
        """A worker that is behind the image of another one does nothing, and what is in an image may go."""
        broker, script = Meanwhile(), load.script(60, 3)
        route_all(broker, script)
        behind, fast = Worker(broker, EVALUATOR, "behind", most=8), Worker(broker, EVALUATOR, "fast", most=15)
        fast.answer(0)
        offset = broker.offset(state_of(0))

        def further() -> None:
            fast.answer(0)
            trim(broker, 0, 0)

        broker.then = further
        behind.answer(0)
        self.assertGreater(broker.offset(state_of(0)), offset)
        self.assertEqual(broker.logs[script_of(0)][0].entry.number, broker.offset(state_of(0)))
        self.assertEqual(broker.last(answers_of(0)), broker.offset(state_of(0)))
        answer_all(broker, EVALUATOR, "a")
        run = one_run(EVALUATOR, lines_of_partitions(script, Routes(PROGRAM, "card", PARTITIONS))[0])
        self.assertEqual(list(differences_of_all(broker, [run])), [])


class Kills(unittest.TestCase):
    """The stream in one process, where the one who asks is killed at every fifth operation."""

    @classmethod
    def setUpClass(cls) -> None:
        cls.script = load.script(60, 3)
        parts = lines_of_partitions(cls.script, Routes(PROGRAM, "card", PARTITIONS))
        cls.runs = [one_run(EVALUATOR, part) for part in parts]

    script: list[bytes]
    runs: list[list[Answered]]

    def stream(self, broker: Broker, goes_on: bool = False) -> None:
        again(lambda: route_all(broker, self.script, goes_on))
        again(lambda: answer_all(broker, EVALUATOR, "a"))

    def test_without_kills(self) -> None:
        broker = MemoryBroker()
        self.stream(broker)
        self.assertEqual(differences_of_all(broker, self.runs), [])
        whole = one_run(EVALUATOR, [Numbered(*line) for line in enumerate(self.script, 1)])
        self.assertEqual(sum(map(firings, self.runs), Counter()), firings(whole))
        self.assertGreater(sum(firings(whole).values()), 10)

    def test_operations(self) -> None:
        counted = Killing(0, Killed, False)
        self.stream(counted)
        for at in range(1, counted.count + 1, 5):
            for error, is_behind in ((Killed, False), (Killed, True), (Unreachable, at % 2 == 0)):
                with self.subTest(at=at, error=error, is_behind=is_behind):
                    broker = Killing(at, error, is_behind)
                    self.stream(broker, goes_on=is_behind)
                    self.assertEqual(differences_of_all(broker, self.runs), [])

    def test_two_workers_on_one_lease(self) -> None:
        broker = MemoryBroker()
        route_all(broker, self.script)
        slow, fast = Worker(broker, EVALUATOR, "slow", most=8), Worker(broker, EVALUATOR, "fast", most=15)
        while not slow.is_done(PARTITIONS):
            for partition in range(PARTITIONS):
                slow.answer(partition)
                fast.answer(partition)
        self.assertEqual(differences_of_all(broker, self.runs), [])
        self.assertEqual([broker.state(state_of(p)).offset for p in range(PARTITIONS)],
                         [broker.last(script_of(p)) for p in range(PARTITIONS)])

    def test_what_is_planted_is_found(self) -> None:
        broker = MemoryBroker()
        self.stream(broker)
        for what, said in (("double", "is answered twice"), ("lost", "is not answered")):
            found = differences_of_all(planted(broker, 1, what), [[], self.runs[1]])
            self.assertRegex("\n".join(found), rf"\Apartition 1: line \d+ {said}")

    def test_collect(self) -> None:
        broker = MemoryBroker()
        self.stream(broker)
        everything = list(collected(broker, PARTITIONS, 0, 1 << 30))
        self.assertEqual([answer.place for answer in everything], sorted(answer.place for answer in everything))
        self.assertEqual(len(everything), sum(len(line.answers) for run in self.runs for line in run))
        end = last_of_all(broker, PARTITIONS)
        self.assertEqual(end, min(broker.last(answers_of(p)) for p in range(PARTITIONS)))
        self.assertEqual(list(collected(broker, PARTITIONS, 0, 50)) + list(collected(broker, PARTITIONS, 50, 1 << 30)),
                         everything)

    def test_entries(self) -> None:
        lines = [Numbered(1, b"a b"), Numbered(1, b""), Numbered(12, b" c ")]
        self.assertEqual(list(lines_in(data_of(lines))), lines)


LOOKED_AT = """
declare Most @reference place : String cents : long end
declare Scan @role( event ) @timestamp( at ) at : long card : String peer : String place : String cents : long end
declare Told @role( event ) @expires( 1m ) card : String end
declare Alarm place : String end
rule "good" when
  $a : Scan( $c : card, $p : place ) Most( place == $p ) $b : Scan( card == $a.card ) not( Told( card == $c ) )
  accumulate( Scan( card == $b.card, $x : cents ); $n : sum( $x ); $n > 4 )
then insert( new Told( $c ) ); end
rule "peers" when $a : Scan( $c : card, $p : peer ) Scan( card == $p )
then insert( new Told( $p ) ); insert( new Alarm( "x" ) ); end
rule "all" when Scan( $c : card ) not( Told() ) accumulate( Scan( $x : cents ); $n : sum( $x ); $n > 4 ) then end
rule "table" when Most( cents > 5 ) then end
rule "alarm" when Scan( $p : place ) $l : Alarm( place == $p ) then retract( $l ); end
rule "last" when Scan() over window:length( 5 ) then end
rule "constant" when Scan( card == "c1" ) over window:length( 5 ) exists( Told( card == "c1" ) ) then end
rule "or" when Scan( $c : card ) ( Told( card == $c ) or Told( card != $c ) or Told( card == $c || card == "b" ) )
then end
"""


class Looking(unittest.TestCase):
    def names(self, rules: str) -> Counter[tuple[str, str]]:
        return Counter((found.code, found.what.split('"')[1]) for found in found_in(rules.encode(), "card"))

    def test_within_the_key(self) -> None:
        self.assertEqual(self.names(load.RULES), Counter())

    def test_not_within_the_key(self) -> None:
        self.assertEqual(self.names(LOOKED_AT), Counter({
            ("other-key", "peers"): 2, ("other-key", "all"): 2, ("no-key", "table"): 1, ("made", "alarm"): 1,
            ("shared", "alarm"): 1, ("length", "last"): 1, ("other-key", "or"): 2}))

    def test_an_event_that_moves_a_floor(self) -> None:
        late = LOOKED_AT + 'declare entry-point "DEFAULT" @lateness( 1s ) end'
        self.assertEqual(self.names(late) - self.names(LOOKED_AT),
                         Counter({("late", "good"): 1, ("late", "peers"): 1}))


@unittest.skipUnless(HAS["redis"], f"there is no {KINDS['redis'].program}")
@unittest.skipUnless(os.access(DESK_PROGRAM, os.X_OK), f"there is no program {DESK_PROGRAM}")
class OverRedis(unittest.TestCase):
    def test_kills(self) -> None:
        command = [*command_of("stream.trial"), "--kills", "20", "--between", "0.4", "--desk", DESK_PROGRAM]
        done = subprocess.run(command, capture_output=True, text=True, check=False, timeout=120)
        self.assertEqual(done.returncode, 0, done.stdout + done.stderr)
        self.assertIn("same: all answers, each once", done.stdout)


if __name__ == "__main__":
    unittest.main()
