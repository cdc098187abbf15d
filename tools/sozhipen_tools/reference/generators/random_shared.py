"""Random rule files whose rules share conditions: several ask for one type by the same constants, keys, window and
range of time, each behind a first pattern of its own, and as a pattern, a `not`, an `exists` or an accumulate.

In half of the files all lives are finite by what the rules say, and one type mostly lives longer than the others, so
that its facts outlive what they have met; in the others events expire, or stay, and plain facts and windows of length
stand among them. The first patterns differ mostly by narrow ranges, so that a fact concerns few of the rules that look
for it.
"""

from __future__ import annotations

import json
from dataclasses import dataclass
from random import Random

FIELDS = "kmn"
FUNCTIONS = ("count", "sum", "min", "max", "average")
KINDS = ("join", "join", "join", "not", "not", "exists", "fold", "fold")
EVENTS = "AB"
PLAIN = "P"
# An event that ends long lives.
LAST = "Z"
# What rules insert and ask for by `not` and `exists` alone, so that their firings come to an end; and a table, which
# takes its place where a plain fact that may still come would keep events for ever.
TOLD, TABLE = "Told", "R"


@dataclass(frozen=True)
class Shared:
    """What several rules ask for alike: a type, tests of a fact alone, fields that are to be as those of the first
    pattern's fact, a range of time from it, a window, an entry point."""
    type: str
    alone: tuple[str, ...]
    keys: tuple[str, ...]
    time: str
    window: str
    entry: str

    @property
    def is_event(self) -> bool:
        return self.type in EVENTS

    def text(self, first: str, *more: str) -> str:
        """The pattern behind a first one of this type, with more parts."""
        tests = [*self.alone, *(f"{field} == ${field}" for field in self.keys)]
        tests += [self.time] if self.time and self.is_event and first in EVENTS else []
        return f"{self.type}( {', '.join([*tests, *more])} ){self.window}{self.entry}"


class SharingMaker:
    """Makes one rule file, which may be refused, and a script."""

    def __init__(self, rng: Random):
        self.rng = rng
        self.is_finite = rng.random() < 0.5
        self.has_entry = rng.random() < 0.3
        # In files of finite lives the type that lives long, and mostly stands first.
        self.long, self.short = rng.sample(EVENTS, 2)
        self.shared = [self.made() for _ in range(rng.randrange(2, 5))]
        self.firsts = [self.first() for _ in range(2)]

    def chance(self, p: float) -> bool:
        return self.rng.random() < p

    # ---- what is shared

    def made(self) -> Shared:
        rng = self.rng
        name = rng.choice(self.long + self.short * 3 if self.is_finite else EVENTS + EVENTS + PLAIN)
        keys = rng.choice([("k",), ("k",), ("k",), ("k", "m"), ("m",), ()])
        time = self.time() if self.is_finite or self.chance(0.6) else ""
        return Shared(name, self.alone(), keys, time, self.window(name), self.entry(name))

    def alone(self) -> tuple[str, ...]:
        rng = self.rng
        return rng.choice([(), (), (f"n > {rng.randrange(2)}",), (f"n >= {rng.randrange(2)}", "n < 2"), ("m == 1",)])

    def time(self) -> str:
        """Mostly a range from the first pattern's fact on: behind it a `not` waits."""
        rng = self.rng
        word, low = rng.choice(["after", "after", "after", "before"]), rng.choice([0, 0, 0, 1])
        return f"this {word}[{low}ms,{low + rng.choice([2, 5, 8, 8])}ms] $a"

    def window(self, name: str) -> str:
        if name not in EVENTS or self.chance(0.85 if self.is_finite else 0.6):
            return ""
        if self.is_finite or self.chance(0.6):
            return f" over window:time( {self.rng.choice([3, 8, 13])}ms )"
        return f" over window:length( {self.rng.randrange(1, 4)} )"

    def entry(self, name: str) -> str:
        return ' from entry-point "late"' if self.has_entry and name in EVENTS and self.chance(0.3) else ""

    # ---- rules

    def first(self) -> tuple[str, str]:
        """The type and the text of a first pattern."""
        rng = self.rng
        name = rng.choice(self.long * 3 + self.short if self.is_finite else EVENTS + PLAIN)
        least = rng.randrange(3)
        narrow = rng.choice(["", f"n >= {least}, n <= {least + rng.randrange(2)}, ", f"n == {least}, ", "n > 0, "])
        return name, f"$a : {name}( {narrow}$k : k, $m : m ){self.window(name)}{self.entry(name)}"

    def condition(self, first: str, place: int) -> str:
        """A condition over what is shared, mostly; sometimes over what was told, or over a table."""
        rng, kind = self.rng, self.rng.choice(KINDS)
        if self.chance(0.15):
            return rng.choice(["not", "not", "exists"]) + f"( {TABLE if self.is_finite else TOLD}( k == $k ) )"
        shared = rng.choice(self.shared)
        if kind == "join":
            return f"$x{place} : {shared.text(first)}"
        if kind != "fold":
            return f"{kind}( {shared.text(first)} )"
        variable, function = f"$v{place}", rng.choice(FUNCTIONS)
        source = shared.text(first, f"{variable} : {rng.choice(FIELDS)}")
        return f"Number( longValue >= {rng.randrange(3)} ) from accumulate( {source}, {function}( {variable} ) )"

    def rule(self, k: int) -> str:
        rng = self.rng
        name, first = rng.choice(self.firsts) if self.chance(0.3) else self.first()
        conditions = [first, *(self.condition(name, place) for place in range(rng.choice([1, 1, 2, 2, 3])))]
        actions = f"insert( new {TOLD}( $k ) );" if self.chance(0.2) else ""
        salience = f"salience {rng.randrange(-1, 2)} " if self.chance(0.2) else ""
        return f'rule "r{k}" {salience}when {" ".join(conditions)} then {actions} end\n'

    def long_rule(self) -> str:
        if not self.is_finite or self.chance(0.2):
            return ""
        return f'rule "long" when $a : {self.long}() {LAST}( this after[0ms,60ms] $a ) then end\n'

    def rules(self) -> str:
        """The text of a file, which declares what its rules name."""
        rng = self.rng
        rules = "".join(self.rule(k) for k in range(rng.randrange(3, 13))) + self.long_rule()
        fields = " ".join(f"{field} : long" for field in FIELDS)
        expires = "" if self.is_finite or self.chance(0.4) else f"@expires( {rng.choice([8, 13, 20])}ms ) "
        declared = {**{name: f"@role( event ) {expires}{fields}" for name in EVENTS}, PLAIN: fields, TOLD: "k : long",
                    TABLE: "@reference k : long", LAST: "@role( event ) k : long"}
        text = "".join(f"declare {name} {what} end\n" for name, what in declared.items() if f" {name}(" in rules)
        return text + ('declare entry-point "late" @lateness( 5ms ) end\n' if self.has_entry else "") + rules

    # ---- the script

    def insert_line(self, name: str) -> dict:
        rng = self.rng
        fields = {"k": rng.choice([0, 0, 1, 2]), **({} if name in (TOLD, TABLE, LAST) else
                                                    {"m": rng.randrange(2), "n": rng.randrange(3)})}
        entry = {"entry": "late"} if self.has_entry and name in EVENTS and self.chance(0.3) else {}
        return {"do": "insert", "type": name, "fields": fields, **entry}

    def change_line(self, plain: list[int]) -> dict:
        """Modifies or retracts a plain fact."""
        number = self.rng.choice(plain)
        if self.chance(0.5):
            return {"do": "retract", "type": PLAIN, "id": number}
        return {"do": "modify", "type": PLAIN, "id": number, "fields": {"n": self.rng.randrange(3)}}

    def lines(self, rules: str) -> list[dict]:
        """Mostly inserts of events, between short moves of the clock. The numbers of plain facts are right as long as
        no rule has inserted any."""
        rng, plain = self.rng, list[int]()
        lines = [self.insert_line(TABLE) for _ in range(rng.randrange(3) if f" {TABLE}(" in rules else 0)]
        inserted = len(lines)
        types = [name for name in EVENTS * 4 + PLAIN * 3 + LAST if f" {name}(" in rules]
        for _ in range(rng.choice([30, 50, 70])):
            x = rng.random()
            if x < 0.5:
                name = rng.choice(types)
                inserted += 1
                plain += [inserted] if name == PLAIN else []
                lines.append(self.insert_line(name))
            elif x < 0.75:
                lines.append({"do": "advance", "by": rng.choice([0, 1, 1, 2, 3, 5, 8, 21])})
            elif x < 0.85 or not plain:
                lines.append({"do": "fire", **({"max": rng.randrange(4)} if self.chance(0.3) else {})})
            else:
                lines.append(self.change_line(plain) if self.chance(0.8) else {"do": "held"})
        return lines + [{"do": "held"}, {"do": "fire"}, {"do": "advance", "by": 100}, {"do": "held"}, {"do": "fire"}]


def shared_case(rng: Random) -> tuple[bytes, bytes]:
    """A rule file, which may be refused, and a script."""
    maker = SharingMaker(rng)
    rules = maker.rules()
    lines = maker.lines(rules)
    return rules.encode(), "".join(json.dumps(m, separators=(",", ":")) + "\n" for m in lines).encode()
