"""The loads by which it is told what many rules on one stream cost that look for the same facts: rules that differ by
narrow ranges, behind which stands the same condition.

They join those of bench.loads, bench.desks and bench.features.
"""

from __future__ import annotations

from random import Random
from typing import Callable, Iterator

from .features import LOADS
from .loads import FIRE, Load, insert, line, load, many, rule, templates, twin, types

__all__ = ["LOADS"]

RULES = 250
STEP = 50
EVENTS = "".join(f"declare {name} @role( event ) @timestamp( at ) @expires( 60s ) at : long card : long {field} : long "
                 "end\n" for name, field in (("Auth", "cents"), ("Login", "dev")))
PLAIN = dict(Auth="card cents", Login="card dev")


def bounds(i: int) -> tuple[int, int]:
    """The range of a rule: above the first number, up to the second one. One of 100 numbers below 10,000 is in it."""
    return 9_800 - i % 50, 9_801 + i % 60 + i // 50


def cents(i: int) -> str:
    low, high = bounds(i)
    return f"cents > {low}, cents <= {high}"


def cents_twin(i: int) -> str:
    low, high = bounds(i)
    return f"(cents ?x{i}&:(and (> ?x{i} {low}) (<= ?x{i} {high})))"


def cards_of(n: int, most: int) -> int:
    return max(1, min(most, n // 20))


def plain_script(n: int, rng: Random) -> Iterator[str]:
    """A Login and an Auth in turn, each of a random card; one fire at the end."""
    cards = cards_of(n, 1_000)
    for i in range(n - 1):
        card, number = rng.randrange(cards), rng.randrange(10_000)
        yield insert("Auth", card=card, cents=number) if i % 2 else insert("Login", card=card, dev=number)
    yield FIRE


def timed_script(n: int, rng: Random, most_cards: int) -> Iterator[str]:
    """The same as events 50 ms apart, with a fire after each ten of them."""
    cards = cards_of(n, most_cards)
    for i in range(n * 10 // 21):
        moment, card, number = STEP * (i + 1), rng.randrange(cards), rng.randrange(10_000)
        yield line(do="at", ms=moment)
        yield (insert("Auth", at=moment, card=card, cents=number) if i % 2
               else insert("Login", at=moment, card=card, dev=number))
        if i % 10 == 9:
            yield FIRE
    yield FIRE


def timed(conditions: Callable[[int], str], most_cards: int, n: int, rng: Random) -> Load:
    return Load(EVENTS + many(RULES, lambda i: rule(f"r{i}", conditions(i))), timed_script(n, rng, most_cards))


@load
def right_shared(n: int, rng: Random) -> Load:
    """250 rules, each of an Auth in a narrow range of its own and a Login by its card; one fire at the end."""
    rules = many(RULES, lambda i: rule(f"r{i}", f"Auth( $c : card, {cents(i)} ) Login( card == $c )"))
    clips = many(RULES, lambda i: twin(f"r{i}", f"(Auth (card ?c) {cents_twin(i)}) (Login (card ?c))"))
    return Load(types(**PLAIN) + rules, plain_script(n, rng), templates(**PLAIN) + clips)


@load
def right_timed(n: int, rng: Random) -> Load:
    """The same over events that expire after 60 s, the Login within 10 s of the Auth; a fire after each ten."""
    return timed(lambda i: f"$a : Auth( $c : card, {cents(i)} ) Login( card == $c, this after[0s,10s] $a )", 1_000, n,
                 rng)


@load
def right_tallies(n: int, rng: Random) -> Load:
    """250 rules on the same stream, each of a Login of the last 10 s in a range of its own and a sum of 60 s by its
    card."""
    over = "accumulate( Auth( card == $c, $x : cents ) over window:time( 60s ); $s : sum( $x ); $s > {} )"
    return timed(lambda i: f"Login( $c : card, dev > {9_000 + 3 * i} ) over window:time( 10s ) "
                 + over.format(40_000 + 100 * i), 200, n, rng)


@load
def ranges(n: int, rng: Random) -> Load:
    """250 rules of one pattern over one type, told apart by a narrow range; one fire at the end."""
    rules = many(RULES, lambda i: rule(f"r{i}", f"Auth( {cents(i)} )"))
    clips = many(RULES, lambda i: twin(f"r{i}", f"(Auth {cents_twin(i)})"))
    return Load(types(**PLAIN) + rules, plain_script(n, rng), templates(**PLAIN) + clips)
