"""Random scripts for an accepted rule file, aimed by the world that the reference has reached.

Most lines are accepted: inserts at the edges of what an entry point takes, modifications and retractions of facts that
are there, moves of the clock, fire commands. The others are faults of every code, made on purpose or by spoiling an
accepted line.
"""

from __future__ import annotations

from random import Random
from typing import Any, Callable, Optional

from ..meaning.program import Program, TypeInfo
from ..meaning.run import Run
from ..meaning.script import LINE_END, BadCommand, BadJson, FireLine, command_of
from ..meaning.worlds import Fact, World, first_pending, floor_of, present
from .random_rules import SPANS, small_value

# The reference takes every rule anew after each step, so worlds stay small.
MOST_MATCHES = 150
MOST_FACTS = 20

# ---- JSON in many dresses


class Raw(str):
    """JSON that is written as it stands."""


def json_text(rng: Random, s: str) -> str:
    if rng.random() < 0.1 and s and s.isascii():
        k = rng.randrange(len(s))
        return json_text(rng, s[:k])[:-1] + "\\u%04x" % ord(s[k]) + json_text(rng, s[k + 1:])[1:]
    escapes = {'"': '\\"', "\\": "\\\\", "\n": "\\n", "\t": "\\t", "\r": "\\r"}
    return '"' + "".join(escapes.get(c, c) for c in s) + '"'


def json_of_value(rng: Random, value: Any) -> str:
    blank = rng.choice([""] * 8 + [" ", "\t", "  "])
    if isinstance(value, Raw):
        return value
    if isinstance(value, bool):
        return "true" if value else "false"
    if isinstance(value, int):
        return str(value)
    if isinstance(value, str):
        return json_text(rng, value)
    if isinstance(value, list):
        members = list(value)
        return ("{" + ("," + blank).join(f"{json_text(rng, k)}{blank}:{json_of_value(rng, v)}" for k, v in members)
                + blank + "}")
    raise TypeError(value)


ODD_VALUES = [Raw("null"), Raw("[]"), Raw("{}"), Raw("-0"), Raw("1.0"), Raw("1e3"), Raw("1.5"), Raw("-1"), Raw("0"),
              Raw("true"), Raw('""'), Raw('"x"'), Raw("9223372036854775807"), Raw("9223372036854775808"),
              Raw("-9223372036854775808"), Raw("-9223372036854775809"), Raw("9007199254740992"),
              Raw("9007199254740993"), Raw("18446744073709551616"), Raw("1e300"), Raw("[[1],{\"a\":null}]"),
              Raw("123456789012345678901234567890")]

BAD_JSON = [b"{", b"{\"do\":\"fire\"} x", b"{\"do\":\"fire\",}", b"{'do':'fire'}", b"{\"do\":\"fire\"",
            b"{\"do\" \"fire\"}", b"{\"do\":\"fi\xffre\"}", b"\xef\xbb\xbf{\"do\":\"fire\"}", b"NaN", b"{\"do\":1e309}",
            b"{\"do\":-1e999}", b"01", b"1.", b".5", b"+1", b"-", b"\"\\x\"", b"\"\\ud800\"", b"\"\\udc00\\ud800\"",
            b"\"\\ud800\\u0041\"", b"\"a\tb\"", b"\"abc", b"tru", b"nul", b"[1,]", b"[,1]", b"[1 2]", b"{1:2}",
            b"{\"a\":1 \"b\":2}", b"]", b"\x0c{\"do\":\"fire\"}", b"{\"do\":\"fire\"}\x00",
            b"[" * 128 + b"]" * 128, b"{\"a\":" * 128 + b"1" + b"}" * 128, b"\"\\u00g0\"", b"1e", b"1e+", b"--1",
            b"/**/{}", b"Infinity", b"{\"do\":\"held\"}{}", b"truefalse"]

BAD_COMMANDS = [b"[]", b"1", b"\"fire\"", b"null", b"true", b"{}", b"{\"do\":\"fly\"}", b"{\"do\":1}", b"{\"do\":null}",
                b"{\"DO\":\"fire\"}", b"{\"do\":\"Fire\"}", b"{\"do\":\"fire\",\"now\":1}",
                b"{\"do\":\"fire\",\"max\":-1}", b"{\"do\":\"fire\",\"max\":null}",
                b"{\"do\":\"fire\",\"max\":9007199254740993}", b"{\"do\":\"fire\",\"max\":2.0}",
                b"{\"do\":\"fire\",\"max\":\"2\"}", b"{\"do\":\"advance\"}", b"{\"do\":\"advance\",\"ms\":1}",
                b"{\"do\":\"at\",\"by\":1}", b"{\"do\":\"at\",\"ms\":1,\"by\":2}", b"{\"do\":\"at\",\"ms\":1e3}",
                b"{\"do\":\"at\",\"ms\":-0}", b"{\"do\":\"advance\",\"by\":9223372036854775808}",
                b"[" * 127 + b"]" * 127, b"{\"a\":" * 127 + b"1" + b"}" * 127, b"{\"do\":\"held\",\"x\":1}",
                b"{\"do\":\"\\ud83d\\ude00\"}", b"{\"do\":\"insert\",\"do\":\"fly\"}",
                b"{\"do\":\"modify\",\"type\":\"T0\",\"id\":0,\"fields\":{\"n\":1}}",
                b"{\"do\":\"retract\",\"type\":\"T0\",\"id\":1,\"fields\":{}}", b"\"\\u0000\"", b"-0", b"1e-400",
                b"0e999"]

ALSO_GOOD = [b"{\"do\":\"fly\",\"do\":\"fire\",\"max\":1}", b"  {\"do\" : \"fire\" , \"max\" : 2 }\r",
             b"{\"max\":0,\"do\":\"fire\"}", b"{\"do\":\"f\\u0069re\",\"max\":1}", b"{\"do\":\"advance\",\"by\":0}"]

BLANKS = [b"", b" ", b"\t \r", b"\r"]


class ScriptMaker:
    """Makes a script line by line, each for the world that the lines before it lead to."""

    def __init__(self, rng: Random, program: Program, plain_fires: bool, budget: int):
        self.rng, self.program, self.plain_fires = rng, program, plain_fires
        self.run = Run(World(program), 1, 1, [])
        self.budget = budget
        self.types = list(program.types.values())
        self.entries = list(program.latenesses)

    @property
    def world(self) -> World:
        return self.run.world

    def chance(self, p: float) -> bool:
        return self.rng.random() < p

    # ---- members of accepted lines

    def start(self, entry: str) -> int:
        """Mostly a start that the entry point takes, at an edge or between."""
        low, high = floor_of(self.world, entry), self.world.clock
        if low > high:
            return high
        return self.rng.choice([low, high, high, self.rng.randint(low, high), min(high, low + 1)])

    def values(self, info: TypeInfo, entry: str) -> list[tuple[str, object]]:
        found: list[tuple[str, object]] = []
        for name, kind in info.fields.items():
            value: object = small_value(self.rng, kind)
            if name == info.duration:
                value = self.rng.choice([0, 1, 2, 3, 5, 8])
            if name == info.timestamp:
                value = self.start(entry)
            found.append((name, value))
        return found

    def fact(self, plain: bool) -> Optional[Fact]:
        """A fact that is there; mostly a plain one where such a one is wanted, and then often one that took part in a
        firing."""
        facts = [f for f in present(self.world) if plain != self.program.types[f.type].event]
        if self.program.has_references and self.chance(0.8):
            facts = [f for f in facts if not self.program.types[f.type].reference]
        fired = {tag for _, tags, _ in self.world.fired for tag in tags}
        marked = [f for f in facts if f.tag in fired]
        if marked and self.chance(0.6):
            return self.rng.choice(marked)
        return self.rng.choice(facts) if facts else None

    def entry_members(self, entry: str) -> list[tuple[str, object]]:
        return [] if entry == "DEFAULT" and self.chance(0.8) else [("entry", entry)]

    def type_to_insert(self) -> TypeInfo:
        """Mostly one of reference facts while these are taken, and then mostly another one."""
        wanted = [t for t in self.types if t.reference != self.world.begun]
        return self.rng.choice(wanted if self.program.has_references and wanted and self.chance(0.8) else self.types)

    def insert_line(self) -> list[tuple[str, object]]:
        info, entry = self.type_to_insert(), self.rng.choice(self.entries + ["DEFAULT"] * 2)
        return ([("do", "insert"), ("type", info.name)] + self.entry_members(entry)
                + [("fields", self.values(info, entry))])

    def modify_line(self) -> Optional[list[tuple[str, object]]]:
        f = self.fact(True)
        if f is None:
            return None
        info = self.program.types[f.type]
        fields = [pair for pair in self.values(info, "DEFAULT") if self.chance(0.6)] or self.values(info, "DEFAULT")[:1]
        return [("do", "modify"), ("type", f.type), ("id", f.id), ("fields", fields)]

    def retract_line(self) -> Optional[list[tuple[str, object]]]:
        f = self.fact(self.chance(0.6))
        return None if f is None else [("do", "retract"), ("type", f.type), ("id", f.id)]

    def clock_line(self) -> list[tuple[str, object]]:
        by = self.rng.choice([0, 1, 1, 2, 3, 5, 8, 20])
        return [("do", "advance"), ("by", by)] if self.chance(0.6) else [("do", "at"), ("ms", self.world.clock + by)]

    def fire_line(self) -> list[tuple[str, object]]:
        most = [] if self.plain_fires and self.chance(0.75) else [("max", self.rng.choice([0, 1, 2, 3, 5, 8]))]
        return [("do", "fire"), *most]

    def promise_line(self) -> list[tuple[str, object]]:
        """Mostly where something changes: at the floor, the clock, or the last start for which a negative pattern may
        wait."""
        rng, entry, w = self.rng, self.rng.choice(self.entries), self.world
        times = [t for f in present(w) if w.program.types[f.type].event for t in (f.start, f.end)] or [w.clock]
        start = rng.choice([floor_of(w, entry), w.clock, w.clock + rng.choice(SPANS),
                            rng.choice(times) + rng.choice([0, 1] + SPANS), rng.choice(times) + rng.choice(SPANS) + 1])
        return ([("do", "promise")] + self.entry_members(entry)
                + [("from", min(max(start, w.promises.get(entry, 0)), w.clock + 20))])

    def good_line(self) -> list[tuple[str, object]]:
        sorts = [self.insert_line] * 11 + [self.modify_line] * 3 + [self.retract_line] * 2 + [self.clock_line] * 3
        sorts += [self.fire_line] * 5
        sorts += [lambda: [("do", "held")]] * 2
        sorts += [self.promise_line] * 2
        sorts += [lambda: [("do", "begin")]]
        return self.rng.choice(sorts)() or self.insert_line()

    # ---- faulty lines

    def event_types(self) -> list[TypeInfo]:
        return [t for t in self.types if t.event]

    def insert_with(self, t: TypeInfo, entry: str, changes: dict) -> list[tuple[str, object]]:
        """An insert with some fields changed."""
        fields = [(k, changes.get(k, v)) for k, v in self.values(t, entry)]
        return [("do", "insert"), ("type", t.name), *self.entry_members(entry), ("fields", fields)]

    def time_fault(self, entry: str, field: str, wanted: list) -> Optional[list[tuple[str, object]]]:
        """An insert whose timestamp or duration is one of these."""
        types = [t for t in self.event_types() if getattr(t, field) is not None]
        if not types:
            return None
        t = self.rng.choice(types)
        return self.insert_with(t, entry, {getattr(t, field): self.rng.choice(wanted)})

    def faults_of_names(self, entry: str) -> list[Callable[[], Any]]:
        """Of what a line names, and of the values that it gives."""
        rng, plain = self.rng, [t for t in self.types if not t.event]

        def insert_with(changes: Callable[[], dict]) -> list[tuple[str, object]]:
            return self.insert_with(rng.choice(self.types), entry, changes())

        return [
            lambda: [("do", rng.choice(["insert"])), ("type", rng.choice(["Nope", "t0", ""])), ("fields", [])],
            lambda: [("do", "retract"), ("type", "Nope"), ("id", 1)],
            lambda: [("do", "insert"), ("type", rng.choice(self.types).name),
                     ("entry", rng.choice(["", "nowhere", "default"])), ("fields", [])],
            lambda: [("do", "modify"), ("type", rng.choice(self.event_types()).name), ("id", 1),
                     ("fields", [("n", 1)])] if self.event_types() else None,
            lambda: [("do", "retract"), ("type", rng.choice(self.types).name), ("id", self.world.next_id)],
            lambda: [("do", "modify"), ("type", rng.choice(plain).name),
                     ("id", rng.choice([self.world.next_id, 2**63 - 1])), ("fields", [("n", 1)])] if plain else None,
            lambda: insert_with(lambda: {"n": rng.choice(ODD_VALUES)}),
            lambda: insert_with(lambda: {"k": rng.choice(ODD_VALUES), "m": rng.choice(ODD_VALUES)}),
            lambda: insert_with(lambda: {"s": "x" * rng.choice([4096, 4097])}),
            lambda: insert_with(lambda: {"s": "\u00e9" * rng.choice([2048, 2049])})]

    def faults_of_times(self, entry: str) -> list[Callable[[], Any]]:
        """Of times of events, of the clock and of promises."""
        w, rng, floor = self.world, self.rng, floor_of(self.world, entry)
        promise: list[tuple[str, object]] = [("do", "promise")]
        return [
            lambda: self.time_fault(entry, "duration", [-1, 2**53 + 1, 2**53, 2**63 - 1]),
            lambda: self.time_fault(entry, "timestamp", [floor - 1, -1, floor, -(2**63) + 1]),
            lambda: self.time_fault(entry, "timestamp", [floor - 1, floor - 1]),
            lambda: self.time_fault(entry, "timestamp", [w.clock + 1, w.clock + 1, 2**63 - 1]),
            lambda: [("do", "advance"), ("by", rng.choice([-1, -5, -(2**63)]))],
            lambda: [("do", "at"), ("ms", rng.choice([w.clock - 1, -1, 0]))],
            lambda: [("do", "at"), ("ms", rng.choice([2**53 + 1, 2**63 - 1]))],
            lambda: [("do", "advance"), ("by", rng.choice([2**53 + 1 - w.clock, 2**63 - 1]))],
            lambda: promise + self.entry_members(entry)
            + [("from", rng.choice([-1, w.promises.get(entry, 0) - 1, -(2**63)]))],
            lambda: promise + self.entry_members(entry) + [("from", rng.choice([2**53 + 1, 2**63 - 1]))],
            lambda: promise + [("entry", rng.choice(["", "nowhere"])), ("from", rng.choice([1, -1]))]]

    def fault_line(self) -> Optional[list[tuple[str, object]]]:
        """A line that is meant to have one of the faults of what it names and gives."""
        entry = self.rng.choice(self.entries)
        return self.rng.choice(self.faults_of_names(entry) + self.faults_of_times(entry))() or None

    def spoilt(self, members: list[tuple[str, object]]) -> list[tuple[str, object]]:
        """An accepted line with something wrong in it, maybe in several places."""
        rng, members = self.rng, list(members)
        for _ in range(rng.choice([1, 1, 2])):
            k = rng.randrange(len(members))
            name, value = members[k]
            what = rng.randrange(6)
            if what == 0 and len(members) > 1:
                members.pop(k)
            elif what == 1:
                members[k] = (name, rng.choice(ODD_VALUES))
            elif what == 2:
                members.append((rng.choice(["do", "type", "id", "fields", "by", "ms", "max", "x", "entry", "from"]),
                                rng.choice(ODD_VALUES)))
            elif what == 3:
                members = [(n, [(m, v) for m, v in pairs if self.chance(0.6)] if isinstance(pairs, list) else pairs)
                           for n, pairs in members]
            elif what == 4:
                members = [(n, pairs + [(rng.choice(["zz", "n", "N"]), rng.choice(ODD_VALUES))]
                            if isinstance(pairs, list) else pairs)
                           for n, pairs in members]
            elif isinstance(value, list) and value:
                j = rng.randrange(len(value))
                members[k] = (name, value[:j] + [(value[j][0], rng.choice(ODD_VALUES))] + value[j + 1:])
        return members

    def long_line(self) -> bytes:
        """Around the longest line."""
        line = self.rng.choice([b"{\"do\":\"fire\",\"max\":1}", b""])
        return line + b" " * (LINE_END + self.rng.choice([0, 1, 1, 2, 70_000]) - len(line))

    # ---- the script

    def written(self, members: list[tuple[str, object]]) -> bytes:
        members = list(members)
        if self.chance(0.3):
            self.rng.shuffle(members)
        return json_of_value(self.rng, members).encode("utf-8")

    def line(self) -> bytes:
        rng = self.rng
        draw = rng.random()
        if len(self.world.facts) > MOST_FACTS and self.chance(0.5):
            return self.written(self.retract_line() or self.clock_line())
        if draw < 0.72:
            return self.written(self.good_line())
        if draw < 0.86:
            return self.written(self.fault_line() or self.insert_line())
        if draw < 0.91:
            return self.written(self.spoilt(self.good_line()))
        if draw < 0.98:
            return rng.choice(rng.choice([BAD_JSON, BAD_COMMANDS, ALSO_GOOD, BLANKS]))
        return self.long_line() if self.chance(0.1) else rng.choice(BLANKS)

    def script(self, count: int) -> bytes:
        """So many lines, and a fire command as the last; the last line may lack its end."""
        lines: list[bytes] = []
        last = b"{\"do\":\"fire\"}" if self.plain_fires else b"{\"do\":\"fire\",\"max\":10}"
        for number in range(1, count + 1):
            lines.append(self.taken(number, self.line() if number < count else last))
        if self.chance(0.3):
            lines.append(b"{\"do\":\"at\",\"ms\":9007199254740992}")
            lines.append(self.taken(count + 2, b"{\"do\":\"fire\",\"max\":20}"))
        return b"\n".join(lines) + (b"\n" if self.chance(0.8) else b"")

    def taken(self, number: int, line: bytes) -> bytes:
        """Does the line in the world that is kept, and answers it; a line that would make the world too large is
        another one."""
        line = line.replace(b"\n", b" ")
        if len(line) > LINE_END:
            return line
        try:
            command = command_of(line)
        except (BadJson, BadCommand):
            return line
        if isinstance(command, FireLine):
            return self.fired(number, line, command)
        before = self.world
        self.run.line(number, line)
        if len(self.world.matches) > MOST_MATCHES:
            self.run.world = before
            return b""
        return line

    def fired(self, number: int, line: bytes, command: FireLine) -> bytes:
        """Fires one by one; where it fires too often or too much matches, the line asks for the firings so far."""
        done = 0
        while first_pending(self.world) is not None and (command.most is None or done < command.most):
            if done == self.budget or len(self.world.matches) > MOST_MATCHES:
                return b"{\"do\":\"fire\",\"max\":%d}" % done
            self.run.left = 1
            self.run.fire(number, 1)
            done += 1
        return line
