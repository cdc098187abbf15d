"""Random rule files over events alone, whose types have finite lives, with scripts in which these end.

Each rule binds one or two events by a temporal operator with both bounds, and may ask for the absence, the presence or
a count of others; entry points may have a lateness. Keys are few, so that events meet. The script moves the clock by up
to some lives, fires, retracts and asks what is held, and promises that an entry point gets no earlier start any more.
Reference facts stand before all events. Some types live long, so that they outlive what blocks them, and most files
have few types and short moves of the clock, so that much meets.
"""

from __future__ import annotations

import json
from dataclasses import dataclass
from random import Random

OPERATORS = ("after[{0}ms,{1}ms]", "before[{0}ms,{1}ms]", "coincides[{1}ms]", "meets[{1}ms]", "metby[{1}ms]", "during",
             "includes", "overlaps[{1}ms]", "starts[{1}ms]", "finishes[{1}ms]")


@dataclass(frozen=True)
class Sizes:
    """The types of events, those of a rule's first pattern and of its others, those that live long; the values that
    join events, the operators and their least distances, the moves of the clock, the functions of accumulates, how
    often a second entry point is named and a second pattern stands, how many other conditions, and whether windows of
    time stand in rules."""
    types: str = "ABCD"
    first: str = "ABCD"
    others: str = "ABCD"
    long: str = ""
    keys: tuple[int, ...] = (0, 1)
    moves: tuple[int, ...] = (0, 1, 1, 10, 20, 50, 99, 150, 500, 2000)
    functions: tuple[str, ...] = ("count",)
    operators: tuple[str, ...] = OPERATORS[:2] * 4 + OPERATORS
    lows: tuple[int, ...] = (0, 0, 1, 10, 50)
    far: float = 0.5
    second: float = 0.6
    more: tuple[int, ...] = (0, 1, 2)
    windows: bool = True


DENSE = Sizes("ABC", "AAAB", "BBBCCA", "A", (0, 0, 0, 1), (0, 1, 1, 2, 5, 10, 21, 30, 100),
              ("count", "count", "sum", "max", "average"), OPERATORS[:1] * 20 + OPERATORS, (0, 0, 0, 1), 0.1, 0.2,
              (1, 2, 2, 3), False)


def operator(rng: Random, sizes: Sizes, other: str) -> str:
    low = rng.choice(sizes.lows)
    return "this " + rng.choice(sizes.operators).format(low, low + rng.choice([1, 20, 100, 400])) + " " + other


class LivesMaker:
    """Makes one rule file, which may be refused, and a script."""

    def __init__(self, rng: Random):
        self.rng = rng
        self.sizes = DENSE if rng.random() < 0.7 else Sizes()
        self.entries = {"DEFAULT": 0} | ({"late": rng.choice([5, 60])} if rng.random() < 0.4 else {})

    def entry(self) -> str:
        return "late" if "late" in self.entries and self.rng.random() < self.sizes.far else "DEFAULT"

    # ---- the rule file

    def source(self, other: str, extra: str = "") -> str:
        tests = ([operator(self.rng, self.sizes, other)] + (["k == $k"] if self.rng.random() < 0.7 else [])
                 + ([extra] if extra else []))
        entry = self.entry()
        return (f"{self.rng.choice(self.sizes.others)}( {', '.join(tests)} )"
                + ("" if entry == "DEFAULT" else f' from entry-point "{entry}"'))

    def folded(self, other: str, variable: str) -> str:
        function = self.rng.choice(self.sizes.functions)
        return (f"Number( longValue >= {self.rng.randrange(3)} ) from accumulate( "
                f"{self.source(other, f'{variable} : k')}, "
                f"{function}( {variable} ) )")

    def rule(self, k: int) -> str:
        rng = self.rng
        conditions = [f"$a : {rng.choice(self.sizes.first)}( $k : k )"]
        if rng.random() < 0.3:
            conditions.append(rng.choice(["R( k == $k )", "not( R( k == $k ) )", "exists( R( k >= $k ) )"]))
        if rng.random() < self.sizes.second:
            conditions.append("$b : " + self.source("$a"))
        last = "$b" if conditions[-1].startswith("$b") else "$a"
        for _ in range(rng.choice(self.sizes.more)):
            other = rng.choice(["$a", last])
            sorts = [lambda: f"not( {self.source(other)} )", lambda: f"not( {self.source(other)} )",
                     lambda: f"exists( {self.source(other)} )", lambda: self.folded(other, f"$x{len(conditions)}")]
            windowed = (lambda: f"{rng.choice(self.sizes.others)}( k == $k ) over window:time( "
                        f"{rng.choice([30, 200])}ms )")
            conditions.append(rng.choice(sorts + [windowed] * self.sizes.windows)())
        actions = (rng.choice(["", "", "", f"insert( new {rng.choice(self.sizes.types)}( $k ) );"])
                   if rng.random() < 0.4
                   else "")
        return f'rule "r{k}" salience {rng.randrange(-2, 3)} when {" ".join(conditions)} then {actions} end\n'

    def long_rules(self) -> str:
        """Rules that give some types a long life, so that what their rows have met is forgotten before they are."""
        return "declare Z @role( event ) k : long end\n" + "".join(
            f'rule "long {t}" when $a : {t}() Z( this after[0ms,{self.rng.choice([1000, 5000])}ms] $a ) then end\n'
            for t in self.sizes.types if t in self.sizes.long or self.rng.random() < 0.1)

    def rules(self) -> str:
        rng = self.rng
        text = "".join(f"declare {t} @role( event ){' @expires( 120ms )' if rng.random() < 0.1 else ''} k : long end\n"
                       for t in self.sizes.types)
        text += "declare R @reference k : long end\n"
        text += "".join(f'declare entry-point "{e}" @lateness( {ms}ms ) end\n' for e, ms in self.entries.items()
                        if e != "DEFAULT")
        text += "".join(self.rule(k) for k in range(rng.randrange(1, 4)))
        return text + self.long_rules()

    # ---- the script

    def entry_member(self) -> dict:
        entry = self.entry()
        return {} if entry == "DEFAULT" else {"entry": entry}

    def insert_line(self, name: str) -> dict:
        return {"do": "insert", "type": name, "fields": {"k": self.rng.choice(self.sizes.keys)}}

    def fire_line(self, is_bounded: bool) -> dict:
        most = self.rng.randrange(1, 3) if self.rng.random() < 0.3 else None if is_bounded else 6
        return {"do": "fire"} | ({} if most is None else {"max": most})

    def lines(self, is_bounded: bool) -> list[dict]:
        rng, clock = self.rng, 0
        inserted = ["R"] * rng.randrange(3)
        lines = [self.insert_line(name) for name in inserted]
        lines += [{"do": "begin"}] if rng.random() < 0.2 else []
        for _ in range(rng.randrange(8, 30 if self.sizes.windows else 50)):
            x = rng.random()
            if rng.random() < 0.06:
                lines.append({"do": "promise", "from": clock + rng.choice([-20, 0, 0, 1, 1, 21, 101])}
                             | self.entry_member())
            elif x < 0.5:
                inserted.append(rng.choice(self.sizes.types))
                lines.append(self.insert_line(inserted[-1]) | self.entry_member())
            elif x < 0.78:
                by = rng.choice(self.sizes.moves)
                clock += by
                lines.append({"do": "advance", "by": by})
            elif x < 0.88:
                lines.append(self.fire_line(is_bounded))
            elif x < 0.94 and inserted:
                k = rng.randrange(len(inserted))
                lines.append({"do": "retract", "type": inserted[k], "id": k + 1})
            else:
                lines.append({"do": "held"})
        return lines + [{"do": "advance", "by": rng.choice([1, 100, 700])}, {"do": "held"}, {"do": "fire", "max": 20},
                        {"do": "held"}]


def lives_case(rng: Random) -> tuple[bytes, bytes]:
    """A rule file, which may be refused, and a script."""
    maker = LivesMaker(rng)
    text = maker.rules()
    lines = maker.lines("insert" not in text)
    return text.encode(), "".join(json.dumps(m, separators=(",", ":")) + "\n" for m in lines).encode()
