"""The loads by which growth is told feature by feature: fields and types, temporal operators, windows, folds, updates,
tables, subtypes, texts.

They join those of bench.loads and bench.desks.
"""

from __future__ import annotations

from random import Random
from typing import Callable, Iterable, Iterator

from .desks import LOADS
from .loads import (FIRE, Load, advance, fired_at_ends, insert, line, load, many, modify, retract, rule, stream,
                    templates, twin, types)

__all__ = ["LOADS"]


def made_by(make: Callable[..., Load], given: dict[object, tuple[str, str]]) -> None:
    """A load for each parameter, by its name and its doc."""
    def made(parameter: object, name: str, doc: str) -> None:
        def of(n: int, rng: Random) -> Load:
            return make(parameter, n, rng)
        of.__name__, of.__doc__ = name, doc
        load(of)
    for parameter, (name, doc) in given.items():
        made(parameter, name, doc)


# ---- fields and types


def fields_of(number: int, n: int, rng: Random) -> Load:
    names = ["f%02d" % i for i in range(number)]
    slots = dict(F=" ".join(Random(number).sample(names, number)))

    def script() -> Iterator[str]:
        for _ in range(n - 1):
            yield insert("F", **{name: rng.randrange(1000) for name in names})
        yield FIRE
    return Load(types(**slots) + rule("x", "F( f00 > 990, f01 > 990 )"), script(),
                templates(**slots) + twin("x", "?f <- (F (f00 ?a&:(> ?a 990)) (f01 ?b&:(> ?b 990)))", "?f"))


made_by(fields_of, {number: (f"fields{number}", f"One pattern on two of {number} whole numbers, declared in another "
                             "order than lines give them: what a field more costs.")
                    for number in (2, 8, 16, 32)})


@load
def types128(n: int, rng: Random) -> Load:
    """Facts of 128 types, and one rule on the first: what a declared type more costs."""
    slots = {f"T{i}": "k" for i in range(128)}

    def script() -> Iterator[str]:
        yield from (insert(f"T{rng.randrange(128)}", k=rng.randrange(1000)) for _ in range(n - 1))
        yield FIRE
    return Load(types(**slots) + rule("x", "T0( k >= 0 )"), script(),
                templates(**slots) + twin("x", "?t <- (T0 (k ?k&:(>= ?k 0)))", "?t"))


def subtypes_of(number: int, n: int, rng: Random) -> Load:
    chains = many(number,
                  lambda i: f"declare M{i} extends U m{i} : long end\ndeclare L{i} extends M{i} l{i} : long end\n")
    rules = types(K="k", U="k") + chains + rule("x", "K( $k : k ) U( k == $k )")

    def script() -> Iterator[str]:
        keys = max(1, n // 10)
        yield from (insert("K", k=i) for i in range(keys))
        for _ in range(n - keys - 1):
            leaf = rng.randrange(number)
            yield insert(f"L{leaf}", k=rng.randrange(1000), **{f"m{leaf}": 1, f"l{leaf}": 1})
        yield FIRE
    return Load(rules, script())


made_by(subtypes_of, {number: (f"subtypes_{number}",
                               f"A rule on a type, and facts of {number} types two steps below it.")
                      for number in (8, 32)})


@load
def subtypes_deep(n: int, rng: Random) -> Load:
    """A rule on a type, and facts of eight types four steps below it: what a step more costs, beside `subtypes_8`."""
    number, steps = 8, range(4)

    def chain(i: int) -> str:
        return "".join(f"declare S{i}{step} extends {f'S{i}{step - 1}' if step else 'U'} f{step} : long end\n"
                       for step in steps)
    rules = types(K="k", U="k") + many(number, chain) + rule("x", "K( $k : k ) U( k == $k )")

    def script() -> Iterator[str]:
        keys = max(1, n // 10)
        yield from (insert("K", k=i) for i in range(keys))
        for _ in range(n - keys - 1):
            yield insert(f"S{rng.randrange(number)}3", k=rng.randrange(1000), **{f"f{step}": 1 for step in steps})
        yield FIRE
    return Load(rules, script())


@load
def one_of(n: int, rng: Random) -> Load:
    """One pattern with `in` of eight values."""
    def script() -> Iterator[str]:
        yield from (insert("E", k=rng.randrange(1000)) for _ in range(n - 1))
        yield FIRE
    return Load(types(E="k") + rule("x", f"E( k in ( {', '.join(str(100 * i) for i in range(8))} ) )"), script())


@load
def long_texts(n: int, rng: Random) -> Load:
    """One pattern over facts of one text of some 200 bytes."""
    def script() -> Iterator[str]:
        yield from (insert("E", s="a" * 190 + str(i)) for i in range(n))
    return Load("declare E s : String end\n" + rule("x", 'E( s == "x" )'), script())


@load
def joined_texts(n: int, rng: Random) -> Load:
    """Two patterns joined by a text of 21 bytes of n values."""
    def script() -> Iterator[str]:
        yield from (insert(rng.choice("AB"), s="customer-%012d" % rng.randrange(n)) for _ in range(n - 1))
        yield FIRE
    return Load("declare A s : String end\ndeclare B s : String end\n" + rule("x", "A( $s : s ) B( s == $s )"),
                script())


# ---- joins of plain facts


def chain_of(length: int, n: int, rng: Random) -> Load:
    slots = {f"T{i}": "a b" for i in range(length)}
    joined = "".join(f" T{i}( a == $v{i - 1}, $v{i} : b )" for i in range(1, length))
    span = max(1, n // length)

    def script() -> Iterator[str]:
        for _ in range(n - 1):
            yield insert(f"T{rng.randrange(length)}", a=rng.randrange(span), b=rng.randrange(span))
        yield FIRE
    return Load(types(**slots) + rule("x", "T0( $v0 : b )" + joined), script())


made_by(chain_of, {length: (f"chain_{length}", f"{length} patterns in a chain of keys: what a pattern more costs.")
                   for length in (2, 8)})


def joins_of(rules: int, number: int, n: int, rng: Random) -> Load:
    def joined(i: int) -> str:
        return rule(f"r{i}", f"T{i % number}( $a : a, b > {900 + i % 100} ) "
                             f"T{(i + 1) % number}( a == $a, b > {900 + i * 7 % 100} )")

    def script() -> Iterator[str]:
        for _ in range(n - 1):
            yield insert(f"T{rng.randrange(number)}", a=rng.randrange(max(1, n // 10)), b=rng.randrange(1000))
        yield FIRE
    return Load(types(**{f"T{i}": "a b" for i in range(number)}) + many(rules, joined), script())


def joins_over_64(rules: int, n: int, rng: Random) -> Load:
    return joins_of(rules, 64, n, rng)


def joins_over_one(rules: int, n: int, rng: Random) -> Load:
    return joins_of(rules, 1, n, rng)


made_by(joins_over_64, {rules: (f"joins_{rules}", f"{rules} joins over 64 types: what a rule more costs.")
                        for rules in (64, 256)})
made_by(joins_over_one, {rules: (f"joins_of_one_{rules}", f"{rules} joins of one type with itself, all of which fire.")
                         for rules in (32, 64)})


@load
def exists_by_key(n: int, rng: Random) -> Load:
    """A pattern and an `exists` by a key, one fire at the end."""
    def script() -> Iterator[str]:
        yield from (insert("K", k=i) for i in range(n // 2))
        yield from (insert("M", k=rng.randrange(n // 2), v=rng.randrange(1000)) for _ in range(n - n // 2 - 1))
        yield FIRE
    return Load(types(K="k", M="k v") + rule("x", "K( $k : k ) exists( M( k == $k, v > 900 ) )"), script())


@load
def not_of_one_key(n: int, rng: Random) -> Load:
    """A `not` by a key of 100 values, and a fact that breaks a hundredth of all rows, put in and taken out."""
    def script() -> Iterator[str]:
        yield from (insert("K", k=i % 100) for i in range(n - 2))
        yield from (insert("M", k=1), retract("M", n - 1))
    return Load(types(K="k", M="k") + rule("x", "K( $k : k ) not( M( k == $k ) )"), script())


def alternatives_of(number: int, n: int, rng: Random) -> Load:
    ways = " or ".join(f"B( k == $k, w == {i} )" for i in range(number))

    def script() -> Iterator[str]:
        keys = max(1, n // 2)
        for _ in range(n - 1):
            key = rng.randrange(keys)
            yield insert("A", k=key) if rng.randrange(2) else insert("B", k=key, w=rng.randrange(number))
        yield FIRE
    return Load(types(A="k", B="k w") + rule("x", f"A( $k : k ) ( {ways} )"), script())


made_by(alternatives_of, {number: (f"alternatives_{number}", f"A rule with {number} alternatives after one pattern.")
                          for number in (4, 64)})


@load
def fires_10(n: int, rng: Random) -> Load:
    """Ten rules that each fact passes, a fire after each: what a firing costs, beside `fires_1`."""
    return fires_of(10, n)


@load
def fires_1(n: int, rng: Random) -> Load:
    """The first rule of `fires_10` alone."""
    return fires_of(1, n)


def fires_of(rules: int, n: int) -> Load:
    def script() -> Iterator[str]:
        for i in range(n // 2):
            yield from (insert("E", k=i), FIRE)
    return Load(types(E="k") + many(rules, lambda i: rule(f"r{i}", "E( k >= 0 )")), script())


# ---- plain facts that change


def updated(test: str, n: int, rng: Random) -> Load:
    """Facts under a condition by key, of which one changes with each line, a fire after each 50 of them."""
    keys, facts = max(1, n // 100), max(1, n // 20)

    def script() -> Iterator[str]:
        yield from (insert("K", k=i) for i in range(keys))
        yield from (insert("M", k=rng.randrange(keys), v=0) for _ in range(facts))
        yield from stream(n - keys - facts, lambda: (modify("M", keys + 1 + rng.randrange(facts),
                                                            v=rng.randrange(1000)),), 50)
    return Load(types(K="k", M="k v") + rule("x", "K( $k : k ) " + test), script())


made_by(updated, {"M( k == $k, v > 900 )": ("updates", "Few facts under a join by a key, each modified again and "
                                            "again."),
                  "not( M( k == $k, v > 900 ) )": ("updates_under_not", "The same under a `not` by a key.")})


@load
def updates_of_all(n: int, rng: Random) -> Load:
    """n/2 facts under a join by a key, as many modified at random, one fire at the end."""
    keys, facts = max(1, n // 100), max(1, n // 2 - n // 100)

    def script() -> Iterator[str]:
        yield from (insert("K", k=i) for i in range(keys))
        yield from (insert("M", k=rng.randrange(keys), v=rng.randrange(1000)) for _ in range(facts))
        yield from (modify("M", keys + 1 + rng.randrange(facts), v=rng.randrange(1000))
                    for _ in range(n - keys - facts - 1))
        yield FIRE
    return Load(types(K="k", M="k v") + rule("x", "K( $k : k ) M( k == $k, v > 900 )"), script())


@load
def counters(n: int, rng: Random) -> Load:
    """Facts that a rule modifies ten times each: what a firing with an action costs."""
    def script() -> Iterator[str]:
        yield from stream(n, lambda: (insert("C", n=0),), 1)
    counted = 'rule "x" when $c : C( $n : n, n < 10 ) then modify( $c ) { n = $n + 1 } end\n'
    return Load(types(C="n") + counted, script())


@load
def retracts_mixed(n: int, rng: Random) -> Load:
    """Facts under a join by a key, inserted and retracted at random; a tenth of n stay at most."""
    keys = max(1, n // 100)

    def script() -> Iterator[str]:
        yield from (insert("K", k=i) for i in range(keys))
        alive: list[int] = []
        number = keys + 1

        def turn() -> Iterable[str]:
            nonlocal number
            if alive and (len(alive) > n // 10 or rng.random() < 0.45):
                place = rng.randrange(len(alive))
                alive[place], alive[-1] = alive[-1], alive[place]
                return (retract("M", alive.pop()),)
            alive.append(number)
            number += 1
            return (insert("M", k=rng.randrange(keys)),)
        yield from stream(n - keys, turn, 50)
    return Load(types(K="k", M="k") + rule("x", "K( $k : k ) M( k == $k )"), script())


# ---- folds over plain facts


def fold_of(function: str, n: int, rng: Random) -> Load:
    def script() -> Iterator[str]:
        yield from (insert("R", v=rng.randrange(1_000_000)) for _ in range(n - 1))
        yield FIRE
    folded = f"$t : Number( longValue >= 0 ) from accumulate( R( $x : v ), {function}( $x ) )"
    return Load(types(R="v") + rule("x", folded), script())


made_by(fold_of, {function: (f"plain_{function}", f"The {function} of all facts of a type, one fire at the end.")
                  for function in ("sum", "min")})


@load
def groups(n: int, rng: Random) -> Load:
    """The sum of each of n/20 groups of plain facts, one fire at the end."""
    number = max(1, n // 20)

    def script() -> Iterator[str]:
        yield from (insert("G", id=i) for i in range(number))
        yield from (insert("R", g=rng.randrange(number), v=rng.randrange(1000)) for _ in range(n - number - 1))
        yield FIRE
    summed = "G( $g : id ) $t : Number( longValue > 12000 ) from accumulate( R( g == $g, $x : v ), sum( $x ) )"
    return Load(types(G="id", R="g v") + rule("x", summed), script())


# ---- events: operators


OPERATORS = {"after": "after[0s,2s]", "before": "before[0s,2s]",
             **{name: name for name in ("coincides", "during", "finishes", "finishedby", "includes", "meets", "metby",
                                        "overlaps", "overlappedby", "starts", "startedby")}}


def operator_with(key: str, operator: str, n: int, rng: Random) -> Load:
    """Events of two types of at most a second, joined by an operator, 25 ms between lines, a fire after each 50."""
    typed = "@role( event ) @timestamp( at ) @duration( d ) at : long d : long k : long end\n"
    declared = f"declare entry-point DEFAULT @lateness( 1s ) end\ndeclare A {typed}declare B {typed}"
    moment = 0

    def turn() -> Iterator[str]:
        nonlocal moment
        moment += rng.randrange(100)
        yield line(do="at", ms=moment)
        yield insert(rng.choice("AB"), at=moment - moment % 10, d=rng.choice([0, 10, 200, 500, 1000]),
                     k=rng.randrange(5))
    return Load(declared + rule("x", f"$a : A( $k : k ) B( {key}this {OPERATORS[operator]} $a )"),
                stream(n, turn, 50))


def operator_by_key(operator: str, n: int, rng: Random) -> Load:
    return operator_with("k == $k, ", operator, n, rng)


def operator_alone(operator: str, n: int, rng: Random) -> Load:
    return operator_with("", operator, n, rng)


def operator_pending(operator: str, n: int, rng: Random) -> Load:
    made = operator_alone(operator, n, rng)
    return made._replace(script=fired_at_ends(made.script))


made_by(operator_by_key, {name: (f"{name}_by_key", f"Events joined by `{name}` and a key.") for name in OPERATORS})
made_by(operator_alone, {name: (f"{name}_alone", f"Events joined by `{name}` alone.") for name in OPERATORS})
made_by(operator_pending, {name: (f"{name}_pending", f"`{name}_alone`, with one fire near the beginning and one at the "
                                  "end.")
                           for name in ("after", "during", "overlaps")})


@load
def pending_events(n: int, rng: Random) -> Load:
    """Events of pending matches by a key, the clock moves by 10 ms, one fire at the end."""
    def script() -> Iterator[str]:
        yield from stream(n, lambda: (insert("A", k=rng.randrange(50)), advance(10)), n)
    return Load("declare A @role( event ) k : long end\n"
                + rule("x", "$a : A( $k : k ) A( k == $k, this after[1ms,1s] $a )"), script())


@load
def promises(n: int, rng: Random) -> Load:
    """A fire and no sprinkler within 10 s, where a promise follows each fire: beside `alarms`."""
    kind = "@role( event ) @timestamp( at ) @expires( 1h ) at : long room : long end\n"
    rules = f"declare entry-point DEFAULT @lateness( 60s ) end\ndeclare F {kind}declare S {kind}"
    moment = room = 0

    def turn() -> Iterator[str]:
        nonlocal moment, room
        moment, room = moment + rng.randrange(1000), room + 1
        yield line(do="at", ms=moment)
        yield insert("F", at=moment, room=room)
        if rng.randrange(10):
            yield insert("S", at=moment, room=max(0, room - rng.randrange(8)))
        yield line(do="promise", **{"from": moment})
    return Load(rules + rule("x", "$f : F( $r : room ) not( S( room == $r, this after[0s,10s] $f ) )"),
                stream(n - 2, turn, 10))


# ---- events: windows


WINDOWED = "$t : Number( longValue < 0 ) from accumulate( R( $x : v ) over window:{}, {}( $x ) )"


def readings(window: str, function: str, n: int, rng: Random, step: int) -> Load:
    def turn() -> Iterable[str]:
        return (insert("R", v=rng.randrange(1_000_000)), *([advance(step)] if step else []))
    return Load("declare R @role( event ) v : long end\n" + rule("x", WINDOWED.format(window, function)),
                stream(n, turn, n))


def hour_of(function: str, n: int, rng: Random) -> Load:
    return readings("time( 1h )", function, n, rng, 36)


def length_of(length: int, n: int, rng: Random) -> Load:
    return readings(f"length( {length} )", "sum", n, rng, 0)


made_by(hour_of, {function: (f"hour_{function}", f"The {function} over a window of an hour, 100,000 readings inside.")
                  for function in ("count", "sum", "min", "max", "average")})
made_by(length_of, {length: (f"length_{length}", f"The sum of the last {length} readings, which stay when they have "
                             "left the window.")
                    for length in (10, 10_000)})


@load
def length_min(n: int, rng: Random) -> Load:
    """The least of the last 10,000 readings: beside `length_10000`, what the order of values costs."""
    return readings("length( 10000 )", "min", n, rng, 0)


# ---- tables


def table_with(conditions: str, n: int, rng: Random) -> Load:
    rows = max(1, n // 2)

    def script() -> Iterator[str]:
        yield from (insert("T", k=i, v=rng.randrange(100)) for i in range(rows))
        yield from stream(n - rows, lambda: (insert("E", k=rng.randrange(rows)), advance(10)), 50)
    return Load("declare T @reference k : long v : long end\ndeclare E @role( event ) k : long end\n"
                + rule("x", conditions), script())


made_by(table_with, {"$e : E( $k : k ) T( k == $k, v > 90 )": ("table", "A table of n/2 rows that events look into by "
                                                               "a key."),
                     "T( $k : k, v > 90 ) $e : E( k == $k )": ("table_first", "The same with the table's pattern "
                                                               "first.")})
