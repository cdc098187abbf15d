"""The loads by which docs/LIVE.md and docs/OPERATING.md say what a kept fact takes, and what rules on one stream cost.

They join those of bench.loads.
"""

from __future__ import annotations

from random import Random
from typing import Iterator

from .loads import FIRE, LOADS, Load, insert, line, load, many, rule

__all__ = ["LOADS"]

TWO = "k : long v : long"
SIX = "k : long v : long at : long card : String place : String country : String"
STEP = 300
CARDS = 500
COUNTRIES = 40


# ---- kept facts: no rule finds a match


def two_numbers(n: int) -> Iterator[str]:
    yield from (insert("A", k=k, v=7) for k in range(n))


def six_fields(n: int) -> Iterator[str]:
    yield from (insert("A", k=k, v=7, at=0, card=f"c{k}", place=f"p{k % 97}", country=f"l{k % 40}") for k in range(n))


def kept(n: int, annotations: str, conditions: str, is_six: bool) -> Load:
    rules = f"declare A {annotations}{SIX if is_six else TWO} end\n" + rule("r", conditions)
    return Load(rules, six_fields(n) if is_six else two_numbers(n))


EVENT = "@role( event ) @expires( 1h ) "
ONE = "A( v < 0 )"
JOIN = "$a : A( $k : k, $v : v ) A( k == $k, v > $v )"
NOT = "$a : A( $k : k ) not( A( k == $k ) )"
JOIN_BY_TIME = "$a : A( $k : k ) A( k == $k, this after[1ms,1h] $a )"
SUM = ("$a : A( $k : k, v > 5 ) over window:time( 10m ) "
       "accumulate( A( k == $k, $x : v ) over window:time( 1h ); $s : sum( $x ); $s > 99 )")


@load
def kept_two(n: int, rng: Random) -> Load:
    """Plain facts of two numbers, and a pattern that none passes."""
    return kept(n, "", ONE, False)


@load
def kept_six(n: int, rng: Random) -> Load:
    """The same with six fields, three of them short texts."""
    return kept(n, "", ONE, True)


@load
def kept_join_two(n: int, rng: Random) -> Load:
    """Plain facts of two numbers that are joined with themselves by a key, and none matches."""
    return kept(n, "", JOIN, False)


@load
def kept_join_six(n: int, rng: Random) -> Load:
    """The same with six fields."""
    return kept(n, "", JOIN, True)


@load
def kept_not_two(n: int, rng: Random) -> Load:
    """Plain facts of two numbers under a pattern and a `not` by a key, which each breaks for itself."""
    return kept(n, "", NOT, False)


@load
def kept_not_six(n: int, rng: Random) -> Load:
    """The same with six fields."""
    return kept(n, "", NOT, True)


@load
def kept_event_two(n: int, rng: Random) -> Load:
    """Events of two numbers that expire after an hour, and a pattern that none passes."""
    return kept(n, EVENT, ONE, False)


@load
def kept_event_six(n: int, rng: Random) -> Load:
    """The same with six fields, three of them short texts."""
    return kept(n, EVENT, ONE, True)


@load
def kept_event_join_six(n: int, rng: Random) -> Load:
    """Such events of six fields, joined with themselves by key and time."""
    return kept(n, EVENT, JOIN_BY_TIME, True)


@load
def kept_event_sum_six(n: int, rng: Random) -> Load:
    """Such events of six fields in a window of 10 minutes and in a sum of an hour by key."""
    return kept(n, EVENT, SUM, True)


@load
def joined_stream(n: int, rng: Random) -> Load:
    """Events of six fields joined by key and time, each with an `at` 1 ms later and a fire."""
    def script() -> Iterator[str]:
        for moment, text in enumerate(six_fields(n // 3), start=1):
            yield from (line(do="at", ms=moment), text, FIRE)
    return kept(0, "@role( event ) @expires( 1h ) ", JOIN_BY_TIME, True)._replace(script=script())


# ---- many rules on one stream


AUTH = ("declare Auth @role( event ) @timestamp( at ) @expires( 1h ) "
        "at : long card : String cents : long country : String end\n")
ALERT = "declare Alert @role( event ) @expires( 1h ) card : String kind : long end\n"
OVER = "accumulate( Auth( card == $c, $x : cents ) over window:time( 1h ); $s : sum( $x ); {} )"
KEEPS_SUM = ("declare Spent card : String cents : long end\n"
             'rule "first" salience 20 when Auth( $c : card ) over window:time( 1ms ) not( Spent( card == $c ) ) '
             "then insert( new Spent( $c, 0 ) ); end\n"
             f'rule "spent" salience 20 when $p : Spent( $c : card ) {OVER.format("$s != $p.cents")} '
             "then modify( $p ) { cents = $s } end\n")


def stream_rule(i: int, is_shared: bool) -> str:
    """A large payment of the last 10 minutes in a country, by a card that spent much in an hour; once an hour."""
    least = 200_000 + 1_000 * i
    spent = f"Spent( card == $c, cents > {least} )" if is_shared else OVER.format(f"$s > {least}")
    return (f'rule "r{i}" when Auth( $c : card, cents > 25000, country == "l{i % COUNTRIES}" ) over window:time( 10m ) '
            f"{spent} not( Alert( card == $c, kind == {i} ) ) then insert( new Alert( $c, {i} ) ); end\n")


def stream_of_rules(number: int, is_shared: bool, n: int, rng: Random) -> Load:
    def script() -> Iterator[str]:
        for moment in range(STEP, STEP * (n // 3) + 1, STEP):
            fields = {"card": f"c{rng.randrange(CARDS)}", "cents": rng.randrange(1_000, 60_000),
                      "country": f"l{rng.randrange(COUNTRIES)}"}
            yield from (line(do="at", ms=moment), insert("Auth", at=moment, **fields), FIRE)
    rules = AUTH + ALERT + (KEEPS_SUM if is_shared else "") + many(number, lambda i: stream_rule(i, is_shared))
    return Load(rules, script())


@load
def rules_1(n: int, rng: Random) -> Load:
    """One rule over a stream: a window of 10 minutes, a sum of an hour by card, a `not`; an `at` and a fire each."""
    return stream_of_rules(1, False, n, rng)


@load
def rules_10(n: int, rng: Random) -> Load:
    """10 such rules, which differ by a bound and a country."""
    return stream_of_rules(10, False, n, rng)


@load
def rules_50(n: int, rng: Random) -> Load:
    """50 such rules."""
    return stream_of_rules(50, False, n, rng)


@load
def rules_250(n: int, rng: Random) -> Load:
    """250 such rules."""
    return stream_of_rules(250, False, n, rng)


@load
def one_sum_50(n: int, rng: Random) -> Load:
    """`rules_50` over one sum for each card, which two more rules keep in a fact."""
    return stream_of_rules(50, True, n, rng)


@load
def one_sum_250(n: int, rng: Random) -> Load:
    """`rules_250` over one sum for each card, which two more rules keep in a fact."""
    return stream_of_rules(250, True, n, rng)


# ---- the recipe *Open and reopen*

HOSTS = 50


@load
def beats(n: int, rng: Random) -> Load:
    """Beats of 50 hosts under the rules of docs/RECIPES.md, *Open and reopen*; some hosts fall silent for a minute."""
    rules = ("declare Host name : String since : long down : boolean end\n"
             "declare Beat @role( event ) @timestamp( at ) @expires( 10m ) at : long host : String end\n"
             'rule "down" when $h : Host( $n : name, $s : since, down == false ) '
             "$b : Beat( host == $n, at > $s, $t : at ) not( Beat( host == $n, this after[1ms,30s] $b ) ) "
             "then modify( $h ) { since = $t, down = true } end\n"
             'rule "up" when $h : Host( $n : name, $s : since, down == true ) Beat( host == $n, at > $s ) '
             "then modify( $h ) { down = false } end\n")

    def script() -> Iterator[str]:
        yield from (insert("Host", name=f"h{host}", since=-1, down=False) for host in range(HOSTS))
        silent, moment, lines = [0] * HOSTS, 0, HOSTS
        while lines < n - 3:
            moment += 200
            host = moment // 200 % HOSTS
            if rng.random() < 0.02:
                silent[host] = moment + 60_000
            yield line(do="at", ms=moment)
            if silent[host] < moment:
                yield insert("Beat", at=moment, host=f"h{host}")
                lines += 1
            if moment % 2_000 == 0:
                yield FIRE
                lines += 1
            lines += 1
        yield FIRE
    return Load(rules, script())
