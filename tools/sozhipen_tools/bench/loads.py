"""The loads by which the program's speed is told: for each a rule file, a script of about n lines, and a twin for CLIPS
where it can say the same.

A script is drawn from the random numbers that a load is given, so the same seed gives the same lines. The first line of
a load's doc is what `bench.measure --list` prints.
"""

from __future__ import annotations

import json
from itertools import count
from random import Random
from typing import Callable, Iterable, Iterator, NamedTuple, Optional


class Load(NamedTuple):
    """A rule file, the lines of a script, and constructs of CLIPS that fire as often over the inserted facts."""
    rules: str
    script: Iterable[str]
    clips: Optional[str] = None


LOADS: dict[str, Callable[[int, Random], Load]] = {}


def load(make: Callable[[int, Random], Load]) -> Callable[[int, Random], Load]:
    LOADS[make.__name__] = make
    return make


# ---- lines of a script

FIRE = '{"do":"fire"}'


def line(**members: object) -> str:
    return json.dumps(members, separators=(",", ":"))


def insert(kind: str, entry: Optional[str] = None, /, **fields: object) -> str:
    return line(do="insert", type=kind, **({"entry": entry} if entry else {}), fields=fields)


def modify(kind: str, number: int, /, **fields: object) -> str:
    return line(do="modify", type=kind, id=number, fields=fields)


def retract(kind: str, number: int) -> str:
    return line(do="retract", type=kind, id=number)


def advance(milliseconds: int) -> str:
    return line(do="advance", by=milliseconds)


def fired_at_end(lines: Iterable[str]) -> Iterator[str]:
    """The lines without their fires, and one fire at the end."""
    yield from (text for text in lines if text != FIRE)
    yield FIRE


def fired_at_ends(lines: Iterable[str]) -> Iterator[str]:
    """The lines without their fires, with one after 50 lines and one at the end."""
    for place, text in enumerate(text for text in lines if text != FIRE):
        if place == 50:
            yield FIRE
        yield text
    yield FIRE


def stream(n: int, turn: Callable[[], Iterable[str]], each: int, last: int = 0) -> Iterator[str]:
    """Turns of lines up to about n, with a fire after so many turns, and at the end, before which the clock moves so
    far."""
    lines = turns = 0
    while lines < n - 3:
        for text in turn():
            yield text
            lines += 1
        turns += 1
        if turns % each == 0:
            yield FIRE
            lines += 1
    if last:
        yield advance(last)
    yield FIRE


# ---- types and rules


def types(**fields: str) -> str:
    """Declarations of plain types whose fields are whole numbers: `A="k l"`."""
    return "".join(f"declare {name} {' '.join(f'{field} : long' for field in names.split())} end\n"
                   for name, names in fields.items())


def templates(**fields: str) -> str:
    """The same for CLIPS."""
    slots = {name: " ".join(f"(slot {field} (type INTEGER))" for field in names.split())
             for name, names in fields.items()}
    return "".join(f"(deftemplate {name} {slot})\n" for name, slot in slots.items())


def rule(name: str, conditions: str) -> str:
    return f'rule "{name}" when {conditions} then end\n'


def twin(name: str, conditions: str, *facts: str) -> str:
    """A rule of CLIPS that prints `fire`, and the numbers of the facts that are bound to these variables."""
    numbers = "".join(f' " " (fact-index {fact})' for fact in facts)
    return f'(defrule {name} {conditions} => (printout t "fire"{numbers} crlf))\n'


def many(number: int, made: Callable[[int], str]) -> str:
    return "".join(map(made, range(number)))


# ---- one rule over plain facts


@load
def bare(n: int, rng: Random) -> Load:
    """One pattern with two tests, facts that pass none, no fire."""
    slots = dict(Item="price stock")
    rules = types(**slots) + rule("dear", "Item( price > 10, stock > 0 )")
    clips = templates(**slots) + twin("dear", "?i <- (Item (price ?p&:(> ?p 10)) (stock ?s&:(> ?s 0)))", "?i")
    return Load(rules, (insert("Item", price=i % 10, stock=0) for i in range(n)), clips)


def inserted_items(n: int, rng: Random) -> Iterator[str]:
    yield from (insert("Item", price=rng.randrange(1000)) for _ in range(n - 1))
    yield FIRE


@load
def inserts(n: int, rng: Random) -> Load:
    """One pattern, of ten facts one passes, one fire at the end."""
    slots = dict(Item="price")
    rules = types(**slots) + rule("dear", "Item( price > 900 )")
    return Load(rules, inserted_items(n, rng),
                templates(**slots) + twin("dear", "?i <- (Item (price ?p&:(> ?p 900)))", "?i"))


@load
def refire(n: int, rng: Random) -> Load:
    """One pattern that each fact passes, one fire of all at the end."""
    slots = dict(Item="price")
    rules = types(**slots) + rule("all", "Item( price > -1 )")
    return Load(rules, inserted_items(n, rng),
                templates(**slots) + twin("all", "?i <- (Item (price ?p&:(> ?p -1)))", "?i"))


@load
def texts(n: int, rng: Random) -> Load:
    """One pattern over facts of four fields, two of them texts."""
    def script() -> Iterator[str]:
        for i in range(n - 1):
            yield insert("Tx", id=i, amount=rng.randrange(10000), card="4%015d" % rng.randrange(10**9),
                         country=rng.choice(["DE", "FR", "US", "XX"]))
        yield FIRE
    rules = ("declare Tx id : long amount : long card : String country : String end\n"
             + rule("big", 'Tx( amount > 9990, country == "XX" )'))
    clips = ("(deftemplate Tx (slot id (type INTEGER)) (slot amount (type INTEGER)) (slot card (type STRING)) (slot "
             "country (type STRING)))\n"
             + twin("big", '?t <- (Tx (amount ?a&:(> ?a 9990)) (country "XX"))', "?t"))
    return Load(rules, script(), clips)


@load
def fields(n: int, rng: Random) -> Load:
    """One pattern over facts of 24 whole numbers."""
    names = ["f%02d" % i for i in range(24)]

    def script() -> Iterator[str]:
        for _ in range(n - 1):
            yield insert("F", **{name: rng.randrange(1000) for name in names})
        yield FIRE
    slots = dict(F=" ".join(names))
    rules = types(**slots) + rule("x", "F( f00 > 990, f01 > 990 )")
    return Load(rules, script(), templates(**slots) + twin("x", "?f <- (F (f00 ?a&:(> ?a 990)) (f01 ?b&:(> ?b 990)))",
                                                           "?f"))


@load
def blank(n: int, rng: Random) -> Load:
    """Lines of 60 spaces."""
    return Load(types(Item="price") + rule("dear", "Item( price > 10 )"), (" " * 60 for _ in range(n)))


@load
def clocks(n: int, rng: Random) -> Load:
    """Moves of the clock alone."""
    return Load(types(Item="price") + rule("dear", "Item( price > 10 )"), (advance(1) for _ in range(n)))


@load
def join(n: int, rng: Random) -> Load:
    """Two patterns joined by a key of n/100 values, one fire at the end."""
    keys = max(1, n // 100)

    def script() -> Iterator[str]:
        yield from (insert("Account", id=i) for i in range(keys))
        yield from (insert("Withdrawal", acct=rng.randrange(keys), amount=rng.randrange(1000))
                    for _ in range(n - keys - 1))
        yield FIRE
    slots = dict(Account="id", Withdrawal="acct amount")
    rules = types(**slots) + rule("large", "$a : Account( $n : id ) Withdrawal( acct == $n, amount > 900 )")
    clips = templates(**slots) + twin("large",
                                      "?a <- (Account (id ?n)) ?w <- (Withdrawal (acct ?n) (amount ?m&:(> ?m 900)))",
                                      "?a", "?w")
    return Load(rules, script(), clips)


@load
def chain(n: int, rng: Random) -> Load:
    """Four patterns in a chain of keys, facts in mixed order, one fire at the end."""
    span = max(1, n // 4)

    def script() -> Iterator[str]:
        for _ in range(n - 1):
            a, b = rng.randrange(span), rng.randrange(span)
            yield rng.choice([insert("A", k=a), insert("B", k=a, l=b), insert("C", l=a, m=b), insert("D", m=a)])
        yield FIRE
    slots = dict(A="k", B="k l", C="l m", D="m")
    rules = types(**slots) + rule("abcd", "A( $k : k ) B( k == $k, $l : l ) C( l == $l, $m : m ) D( m == $m )")
    return Load(rules, script(),
                templates(**slots) + twin("abcd", "(A (k ?k)) (B (k ?k) (l ?l)) (C (l ?l) (m ?m)) (D (m ?m))"))


@load
def missing(n: int, rng: Random) -> Load:
    """A pattern and a `not` by a key, one fire at the end."""
    def script() -> Iterator[str]:
        for i in range((n - 1) // 2):
            yield insert("Order", id=i)
            yield insert("Payment", order=rng.randrange(max(1, n // 2)))
        yield FIRE
    slots = dict(Order="id", Payment="order")
    rules = types(**slots) + rule("unpaid", "$o : Order( $n : id ) not( Payment( order == $n ) )")
    return Load(rules, script(), templates(**slots) + twin("unpaid", "?o <- (Order (id ?n)) (not (Payment (order ?n)))",
                                                           "?o"))


@load
def skewed(n: int, rng: Random) -> Load:
    """A join whose key has one value: n/2 facts on either side, whose second test never passes."""
    def script() -> Iterator[str]:
        yield from (insert("A", k=1, v=i) for i in range(n // 2))
        yield from (insert("B", k=1, v=-rng.randrange(1, 100)) for _ in range(n - n // 2 - 1))
        yield FIRE
    slots = dict(A="k v", B="k v")
    rules = types(**slots) + rule("ab", "A( $k : k, $v : v ) B( k == $k, v == $v )")
    return Load(rules, script(), templates(**slots) + twin("ab", "(A (k ?k) (v ?v)) (B (k ?k) (v ?v))"))


@load
def less(n: int, rng: Random) -> Load:
    """A join by two orders and no key: numbers in one of 200 bands."""
    def script() -> Iterator[str]:
        bands = min(200, n // 2)
        yield from (insert("Limit", lo=i * 10, hi=i * 10 + 2) for i in range(bands))
        yield from (insert("R", v=rng.randrange(2000)) for _ in range(n - bands - 1))
        yield FIRE
    slots = dict(Limit="lo hi", R="v")
    rules = types(**slots) + rule("within", "Limit( $l : lo, $h : hi ) R( v > $l, v < $h )")
    return Load(rules, script(), templates(**slots) + twin("within",
                                                           "(Limit (lo ?l) (hi ?h)) (R (v ?v&:(> ?v ?l)&:(< ?v ?h)))"))


# ---- facts that go again


@load
def churn(n: int, rng: Random) -> Load:
    """Facts under a join by a key, each modified and then retracted; 1,000 stay at most."""
    def script() -> Iterator[str]:
        yield from (insert("K", k=i) for i in range(100))
        lines, alive, number = 100, [], 101
        while lines < n - 4:
            yield insert("M", k=rng.randrange(100), v=rng.randrange(1000))
            alive.append(number)
            number += 1
            yield modify("M", rng.choice(alive[-50:]), v=rng.randrange(1000))
            lines += 2
            if len(alive) > 1000:
                yield retract("M", alive.pop(0))
                lines += 1
            if number % 50 == 0:
                yield FIRE
                lines += 1
        yield FIRE
    return Load(types(K="k", M="k v") + rule("j", "K( $k : k ) M( k == $k, v > 990 )"), script())


@load
def pile(n: int, rng: Random) -> Load:
    """n/2 facts under a join by a key, then each retracted, the oldest first."""
    keys = min(100, n // 4)

    def script() -> Iterator[str]:
        yield from (insert("K", k=i) for i in range(keys))
        yield from (insert("M", k=rng.randrange(keys)) for _ in range(n // 2 - keys))
        yield from (retract("M", keys + 1 + i) for i in range(n // 2 - keys))
        yield FIRE
    return Load(types(K="k", M="k") + rule("j", "K( $k : k ) M( k == $k )"), script())


@load
def cascade(n: int, rng: Random) -> Load:
    """One fact that stands in n/2 rows of three, retracted, inserted again, modified and modified back, and
    retracted."""
    rows = (n - 6) // 2

    def script() -> Iterator[str]:
        yield insert("H", k=1)
        yield from (insert("M", k=1, l=i) for i in range(rows))
        yield from (insert("L", l=i) for i in range(rows))
        yield from (retract("H", 1), insert("H", k=1))
        again = 2 * rows + 2
        yield from (modify("H", again, k=2), modify("H", again, k=1), retract("H", again))
    return Load(types(H="k", M="k l", L="l") + rule("x", "H( $k : k ) M( k == $k, $l : l ) L( l == $l )"), script())


@load
def modified(n: int, rng: Random) -> Load:
    """n/2 facts, each modified once; one of ten passes then. One fire at the end."""
    def script() -> Iterator[str]:
        yield from (insert("Item", price=0) for _ in range(n // 2))
        yield from (modify("Item", i + 1, price=rng.randrange(1000)) for i in range(n // 2 - 1))
        yield FIRE
    return Load(types(Item="price") + rule("dear", "Item( price > 900 )"), script())


@load
def retracted(n: int, rng: Random) -> Load:
    """n/2 facts, of ten one passes, each retracted once, the oldest first."""
    def script() -> Iterator[str]:
        yield from (insert("Item", price=rng.randrange(1000)) for _ in range(n // 2))
        yield from (retract("Item", i + 1) for i in range(n // 2))
    return Load(types(Item="price") + rule("dear", "Item( price > 900 )"), script())


# ---- many rules


def wide_of(number: int, n: int, rng: Random) -> Load:
    def script() -> Iterator[str]:
        yield from (insert("E", kind=rng.randrange(256), v=rng.randrange(1000)) for _ in range(n - 1))
        yield FIRE
    slots = dict(E="kind v")
    rules = types(**slots) + many(number, lambda i: rule(f"r{i}", f"E( kind == {i}, v > 990 )"))
    return Load(rules, script(),
                templates(**slots) + many(number, lambda i: twin(f"r{i}", f"(E (kind {i}) (v ?v&:(> ?v 990)))")))


@load
def wide(n: int, rng: Random) -> Load:
    """256 rules of one pattern over one type, told apart by a constant."""
    return wide_of(256, n, rng)


@load
def wide_one(n: int, rng: Random) -> Load:
    """The first rule of `wide` alone."""
    return wide_of(1, n, rng)


def strangers_of(number: int, second: str, second_twin: str, n: int, rng: Random) -> Load:
    """Rules of two conditions over 64 types, the second as it is given, and facts of a type that none names."""
    def script() -> Iterator[str]:
        yield from (insert("Z", a=rng.randrange(1000)) for _ in range(n - 1))
        yield FIRE
    slots = {"Z": "a", **{f"T{i}": "k" for i in range(64)}}

    def types_of(i: int) -> tuple[int, int]:
        return i % 64, (i + 1 + i // 64) % 64
    rules = many(number, lambda i: rule(f"r{i}", ("T%d( $k : k ) " + second) % types_of(i)))
    clips = many(number, lambda i: twin(f"r{i}", ("(T%d (k ?k)) " + second_twin) % types_of(i)))
    return Load(types(**slots) + rules, script(), templates(**slots) + clips)


@load
def strangers(n: int, rng: Random) -> Load:
    """256 rules that join two of 64 types, and facts of a type that none names."""
    return strangers_of(256, "T%d( k == $k )", "(T%d (k ?k))", n, rng)


@load
def strangers_one(n: int, rng: Random) -> Load:
    """The first rule of `strangers` alone."""
    return strangers_of(1, "T%d( k == $k )", "(T%d (k ?k))", n, rng)


@load
def many_nots(n: int, rng: Random) -> Load:
    """128 rules that end in a `not` over 64 types, and facts of a type that none names."""
    return strangers_of(128, "not( T%d( k == $k ) )", "(not (T%d (k ?k)))", n, rng)


@load
def many_nots_one(n: int, rng: Random) -> Load:
    """The first rule of `many_nots` alone."""
    return strangers_of(1, "not( T%d( k == $k ) )", "(not (T%d (k ?k)))", n, rng)


def three_joined(ends: int, n: int, rng: Random) -> Iterator[str]:
    """Facts of a chain of two keys, in mixed order, the last of a chain with a number below `ends`; one fire at the
    end."""
    span = max(1, n // 3)
    for _ in range(n - 1):
        a, b = rng.randrange(span), rng.randrange(span)
        yield rng.choice([insert("A", k=a), insert("B", k=a, v=b), insert("C", v=a, w=rng.randrange(ends))])
    yield FIRE


THREE = dict(A="k", B="k v", C="v w")


def shared_of(ends: int, n: int, rng: Random) -> Load:
    """Rules that begin with the same two patterns, joined, and end in a test of their own."""
    rules = many(ends, lambda i: rule(f"r{i}", f"A( $k : k ) B( k == $k, $v : v ) C( v == $v, w == {i} )"))
    clips = many(ends, lambda i: twin(f"r{i}", f"(A (k ?k)) (B (k ?k) (v ?v)) (C (v ?v) (w {i}))"))
    return Load(types(**THREE) + rules, three_joined(ends, n, rng), templates(**THREE) + clips)


@load
def shared(n: int, rng: Random) -> Load:
    """200 rules that begin with the same two patterns, joined, and end in a test of their own."""
    return shared_of(200, n, rng)


@load
def alternatives(n: int, rng: Random) -> Load:
    """A rule with 16 alternatives after two patterns, joined."""
    rules = rule("any",
                 f"A( $k : k ) B( k == $k, $v : v ) ( {' or '.join(f'C( v == $v, w == {i} )' for i in range(16))} )")
    clips = twin("any", f"(A (k ?k)) (B (k ?k) (v ?v)) (or {many(16, lambda i: f' (C (v ?v) (w {i}))')})")
    return Load(types(**THREE) + rules, three_joined(16, n, rng), templates(**THREE) + clips)


@load
def alternatives_by_hand(n: int, rng: Random) -> Load:
    """The same as 16 rules that are written by hand."""
    return shared_of(16, n, rng)


# ---- events


def account_pairs(n: int, rng: Random, key: bool, move: int) -> Load:
    """Events of two entry points, one within 10 s after the other."""
    named, same = ("( $n : acct )", "acct == $n, ") if key else ("()", "")
    conditions = f'$a : W{named} from entry-point "ATM" W( {same}this after[0s,10s] $a ) from entry-point "Web"'
    script = stream(n, lambda: (insert("W", rng.choice(["ATM", "Web"]), acct=rng.randrange(200)),
                                advance(rng.randrange(move))), 50)
    return Load("declare W @role( event ) acct : long end\n" + rule("two", conditions), script)


@load
def pairs(n: int, rng: Random) -> Load:
    """Events of two entry points within 10 s by a key, the clock moves by 50 ms, a fire after each 50 of them."""
    return account_pairs(n, rng, True, 100)


@load
def pairs_pending(n: int, rng: Random) -> Load:
    """`pairs`, fired at the end alone."""
    made = pairs(n, rng)
    return made._replace(script=fired_at_end(made.script))


@load
def nokey(n: int, rng: Random) -> Load:
    """Events of two entry points within 10 s without a key, the clock moves by 1 s, a fire after each 50 of them."""
    return account_pairs(n, rng, False, 2000)


@load
def nokey_pending(n: int, rng: Random) -> Load:
    """`nokey`, with one fire near the beginning and one at the end."""
    made = nokey(n, rng)
    return made._replace(script=fired_at_ends(made.script))


@load
def alarms(n: int, rng: Random) -> Load:
    """A fire and no sprinkler within 10 s, the clock moves by 0.5 s with each fire."""
    rooms = count(1)

    def turn() -> Iterator[str]:
        room = next(rooms)
        yield insert("Fire", room=room)
        yield advance(rng.randrange(1000))
        if rng.randrange(10):
            yield insert("Sprinkler", room=max(1, room - rng.randrange(8)))
    rules = ("declare Fire @role( event ) room : long end\ndeclare Sprinkler @role( event ) room : long end\n"
             + rule("alarm", "$f : Fire( $r : room ) not( Sprinkler( room == $r, this after[0s,10s] $f ) )"))
    return Load(rules, stream(n, turn, 50, last=20000))


@load
def sums(n: int, rng: Random) -> Load:
    """A sum over the last 60 s for each of 100 meters."""
    def script() -> Iterator[str]:
        yield from (insert("Meter", id=i) for i in range(100))
        yield from stream(n - 100, lambda: (insert("Reading", meter=rng.randrange(100), value=rng.randrange(1000)),
                                            advance(rng.randrange(100))), 50)
    readings = "accumulate( Reading( meter == $m, $x : value ) over window:time( 60s ), sum( $x ) )"
    rules = ("declare Meter id : long end\ndeclare Reading @role( event ) meter : long value : long end\n"
             + rule("much", f"Meter( $m : id ) $t : Number( longValue > 12000 ) from {readings}"))
    return Load(rules, script())


@load
def lengths(n: int, rng: Random) -> Load:
    """The average of the last 100 readings, a fire after each 10."""
    rules = ("declare Reading @role( event ) value : long end\n"
             + rule("hot",
                    "$t : Number( longValue > 520 ) from accumulate( Reading( $x : value ) over window:length( 100 ), "
                    "average( $x ) )"))
    return Load(rules, stream(n, lambda: (insert("Reading", value=rng.randrange(1000)),), 10))


@load
def expiries(n: int, rng: Random) -> Load:
    """100 hosts, and a `not` over events that live 5 s by their type, joined by a key."""
    def script() -> Iterator[str]:
        yield from (insert("Host", id=i) for i in range(100))
        yield from stream(n - 100, lambda: (insert("Beat", host=rng.randrange(90)), advance(rng.randrange(100))), 50)
    rules = ("declare Host id : long end\ndeclare Beat @role( event ) @expires( 5s ) host : long end\n"
             + rule("dead", "Host( $h : id ) not( Beat( host == $h ) )"))
    return Load(rules, script())


ENDLESS = "$a : A( $k : k ) $b : B( k == $k, this after[0s,5s] $a ) not( C( k == $k, this after[0s,5s] $b ) )"


def endless_types() -> str:
    return "".join(f"declare {kind} @role( event ) k : long end\n" for kind in "ABC")


def endless_script(n: int, rng: Random) -> Iterator[str]:
    return stream(n, lambda: (insert(rng.choice("ABC"), k=rng.randrange(50)), advance(rng.randrange(200))), 25,
                  last=60000)


@load
def endless(n: int, rng: Random) -> Load:
    """Events of three types within 5 s by a key of 50 values, the clock moves by 0.1 s, a fire after each 25 of
    them."""
    return Load(endless_types() + rule("abc", ENDLESS), endless_script(n, rng))


@load
def endless_pending(n: int, rng: Random) -> Load:
    """`endless`, with one fire near the beginning and one at the end: what pending matches name is kept."""
    made = endless(n, rng)
    return made._replace(script=fired_at_ends(made.script))


def endless_behind_table(annotation: str, n: int, rng: Random) -> Load:
    def script() -> Iterator[str]:
        yield from (insert("Key", k=i) for i in range(50))
        yield from endless_script(n - 50, rng)
    joined = ENDLESS.replace("$k : k", "k == $t, $k : k")
    rules = f"declare Key {annotation}k : long end\n" + endless_types() + rule("abc", f"Key( $t : k ) {joined}")
    return Load(rules, script())


@load
def endless_table(n: int, rng: Random) -> Load:
    """`endless` after a table of 50 keys that the events are joined with: events are kept for ever."""
    return endless_behind_table("", n, rng)


@load
def endless_reference(n: int, rng: Random) -> Load:
    """The same, the table marked `@reference`: events are forgotten."""
    return endless_behind_table("@reference ", n, rng)


@load
def expiring(n: int, rng: Random) -> Load:
    """Events that expire after 1 s by their type, the clock moves by 1 ms with each."""
    rules = "declare Beat @role( event ) @expires( 1s ) host : long end\n" + rule("x", "Beat( host > 1000 )")
    return Load(rules, stream(n, lambda: (insert("Beat", host=rng.randrange(1000)), advance(1)), 1000))


@load
def expiring_pairs(n: int, rng: Random) -> Load:
    """Events of two types that expire after 1 s, within 1 s by a key of 50 values, the clock moves by 10 ms, a fire
    after each 50 of them."""
    rules = "".join(f"declare {kind} @role( event ) @expires( 1s ) k : long end\n" for kind in "AB")
    rules += rule("ab", "$a : A( $k : k ) B( k == $k, this after[0s,1s] $a )")
    return Load(rules, stream(n, lambda: (insert(rng.choice("AB"), k=rng.randrange(50)), advance(10)), 50))


@load
def burst(n: int, rng: Random) -> Load:
    """Events that expire at one moment by their type."""
    def script() -> Iterator[str]:
        yield insert("H", k=1)
        yield from (insert("E", k=rng.randrange(2, 1000)) for _ in range(n - 4))
        yield from (advance(9999), advance(1), FIRE)
    rules = "declare E @role( event ) @expires( 10s ) k : long end\ndeclare H k : long end\n"
    rules += rule("x", "H( $k : k ) E( k == $k )")
    return Load(rules, script())


@load
def burst_life(n: int, rng: Random) -> Load:
    """Events whose inferred lives end at one moment."""
    def script() -> Iterator[str]:
        yield from (insert("E", k=i) for i in range(n - 3))
        yield from (advance(10000), advance(1), FIRE)
    pairs = rule("x", "$a : E( $k : k ) E( k == $k, this after[1s,10s] $a )")
    return Load("declare E @role( event ) k : long end\n" + pairs, script())


LONG = ('$a : W( $n : acct, amount > 990 ) from entry-point "A" '
        'W( acct == $n, amount > 990, this after[0s,600s] $a ) from entry-point "B"')


def short_with(others: str, n: int, rng: Random) -> Load:
    """A join by time alone within 100 ms, and other rules over the same type."""
    short = rule("short",
                 '$a : W( amount > 900 ) from entry-point "A" W( this after[0s,100ms] $a ) from entry-point "B"')

    def turn() -> Iterable[str]:
        return (insert("W", rng.choice(["A", "B"]), acct=rng.randrange(200), amount=rng.randrange(1000)),
                advance(rng.randrange(100)))
    return Load("declare W @role( event ) acct : long amount : long end\n" + short + others, stream(n, turn, 50))


@load
def mixed_lives(n: int, rng: Random) -> Load:
    """A join by `after[0s,100ms]` without a key, beside a rule by which the type lives 600 s."""
    return short_with(rule("long", LONG), n, rng)


@load
def mixed_lives_one(n: int, rng: Random) -> Load:
    """The first rule of `mixed_lives` alone: the type lives 100 ms."""
    return short_with("", n, rng)


def forgetful_of(number: int, n: int, rng: Random) -> Load:
    rules = many(64, lambda i: f"declare T{i} @role( event ) k : long end\n")
    rules += many(number, lambda i: rule(
        f"r{i}", f"$a : T{i % 64}( $k : k ) T{(i + 1 + i // 64) % 64}( k == $k, this after[0s,1s] $a )"))
    return Load(rules, stream(n, lambda: (insert(f"T{rng.randrange(64)}", k=rng.randrange(1000)),
                                          advance(rng.randrange(20))), 50))


@load
def forgetful(n: int, rng: Random) -> Load:
    """256 rules of pairs within 1 s by a key over 64 types of events, which are forgotten one by one."""
    return forgetful_of(256, n, rng)


@load
def forgetful_one(n: int, rng: Random) -> Load:
    """The first rule of `forgetful` alone."""
    return forgetful_of(1, n, rng)


# ---- the fraud desk

FRAUD_TYPES = """declare Card id : long limit : long home : long end
declare Merchant id : long risk : long end
declare Tx @role( event ) @timestamp( at ) at : long card : long merchant : long amount : long country : long end
declare Login @role( event ) @timestamp( at ) at : long card : long ip : long ok : boolean end
declare Change @role( event ) @timestamp( at ) at : long card : long what : long end
"""


def spent(i: int) -> str:
    spending = "accumulate( Tx( card == $c, $a : amount ) over window:time( 60s ), sum( $a ) )"
    return rule(f"sum{i}",
                f"Card( $c : id, limit == {1000 * (i + 1)} ) $s : Number( longValue > {40000 + 5000 * i} ) from "
                f"{spending}")


def changed(i: int) -> str:
    return rule(f"changed{i}",
                f"$h : Change( $c : card, what == {i} ) $t : Tx( card == $c, amount > 8000, this after[0s,60s] $h ) "
                "not( Login( card == $c, ok == true, this after[0s,30s] $h ) )")


def twice(i: int) -> str:
    least = 9000 + 50 * i
    return rule(f"twice{i}",
                f"$a : Tx( $c : card, amount > {least} ) $b : Tx( card == $c, amount > {least}, this "
                f"after[1ms,{30 + i}s] $a )")


def fraud_rules() -> str:
    return "".join((
        many(10,
             lambda i: rule(f"over{i}",
                            f"Card( $c : id, limit == {1000 * (i + 1)} ) Tx( card == $c, amount > {990 * (i + 1)} )")),
        many(10,
             lambda i: rule(f"risky{i}",
                            f"Merchant( $m : id, risk == {i} ) Tx( merchant == $m, amount > {9900 - 10 * i} )")),
        many(10, twice),
        many(5, lambda i: rule(f"login{i}", f"$l : Login( $c : card, ok == false ) "
                               f"$t : Tx( card == $c, amount > {5000 + 500 * i}, this after[0s,{60 + i}s] $l )")),
        many(5, changed),
        many(5, spent),
        many(5,
             lambda i: rule(f"silent{i}",
                            f"$l : Login( $c : card, ip == {i} ) not( Tx( card == $c, this after[0s,20s] $l ) )")),
    ))


def fraud_script(n: int, rng: Random) -> Iterator[str]:
    cards = max(1, min(2000, n // 10))
    merchants = max(1, cards // 10)
    yield from (insert("Card", id=i, limit=(i % 10 + 1) * 1000, home=i % 30) for i in range(cards))
    yield from (insert("Merchant", id=i, risk=i % 40) for i in range(merchants))
    moment = 0

    def turn() -> Iterator[str]:
        nonlocal moment
        moment += rng.randrange(100)
        yield line(do="at", ms=moment)
        drawn = rng.random()
        if drawn < 0.8:
            yield insert("Tx", at=moment, card=rng.randrange(cards), merchant=rng.randrange(merchants),
                         amount=int(rng.expovariate(1 / 1500)) % 10000, country=rng.randrange(30))
        elif drawn < 0.95:
            yield insert("Login", at=moment, card=rng.randrange(cards), ip=rng.randrange(200), ok=rng.random() < 0.9)
        else:
            yield insert("Change", at=moment, card=rng.randrange(cards), what=rng.randrange(40))
    yield from stream(n - cards - merchants, turn, 20)


@load
def fraud(n: int, rng: Random) -> Load:
    """50 rules over 2,000 cards, 200 merchants and three types of events, 50 ms apart, a fire after each 20."""
    return Load(FRAUD_TYPES + fraud_rules(), fraud_script(n, rng))


@load
def fraud_reference(n: int, rng: Random) -> Load:
    """The same desk, whose cards and merchants are tables marked `@reference`: events are forgotten."""
    types = FRAUD_TYPES.replace("Card id", "Card @reference id").replace("Merchant id", "Merchant @reference id")
    return Load(types + fraud_rules(), fraud_script(n, rng))
