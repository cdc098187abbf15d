"""The rules of trials and measurements of a stream, and scripts for them."""

from __future__ import annotations

import json
import random

RULES = """
declare Most @reference place : String cents : long end
declare Withdrawal @role( event ) @timestamp( at ) @expires( 1m )
  at : long card : String place : String cents : long
end
declare Told @role( event ) @expires( 1m ) card : String end
declare entry-point "ATM" @lateness( 2s ) end
rule "two places" salience 10 when
  $a : Withdrawal( $c : card, $p : place ) from entry-point "ATM"
  Withdrawal( card == $c, place != $p, this after[0s,5s] $a ) from entry-point "ATM"
  not( Told( card == $c ) )
then insert( new Told( $c ) ); end
rule "silent" when
  $a : Withdrawal( $c : card, cents >= 100000 ) from entry-point "ATM"
  not( Withdrawal( card == $c, this after[1ms,10s] $a ) from entry-point "ATM" )
then end
rule "much" when
  $a : Withdrawal( $c : card, $p : place ) from entry-point "ATM"
  Most( place == $p, $most : cents )
  accumulate( Withdrawal( card == $c, $x : cents, this before[0s,20s] $a ) from entry-point "ATM";
    $sum : sum( $x ); $sum > $most )
then end
"""
SUM = """
rule "sum {number}" when
  $a : Withdrawal( $c : card ) from entry-point "ATM"
  accumulate( Withdrawal( card == $c, $x : cents, this before[0s,{seconds}s] $a ) from entry-point "ATM";
    $sum : sum( $x ); $sum > {most} )
then end
"""
PLACES = {"harbour": 150_000, "station": 120_000, "market": 220_000}
CARDS = 400
LATENESS = 2000


def rules_with(sums: int) -> str:
    """The rules, and so many more that sum up and hardly ever fire: they give the engine work."""
    return RULES + "".join(SUM.format(number=number, seconds=20 + number % 30, most=2_000_000 + number)
                           for number in range(sums))


def line_of(do: str, **members: object) -> bytes:
    return json.dumps({"do": do, **members}, separators=(",", ":")).encode()


def withdrawal(draw: random.Random, at: int) -> bytes:
    fields = {"at": at, "card": f"c{draw.randrange(CARDS)}", "place": draw.choice(sorted(PLACES)),
              "cents": draw.choice([2000, 40_000, 120_000])}
    return line_of("insert", type="Withdrawal", entry="ATM", fields=fields)


def script(events: int, seed: int) -> list[bytes]:
    """A table, and withdrawals in the order of their starts, behind the clock by less than the lateness; each 20th is
    later than that."""
    draw, start = random.Random(seed), 1_000_000
    lines = [line_of("insert", type="Most", fields={"place": place, "cents": most}) for place, most in PLACES.items()]
    lines += [line_of("begin"), line_of("at", ms=start)]
    clock = start
    for number in range(events):
        start += draw.randrange(80)
        if number % 10 == 0:
            clock = max(clock, start + draw.randrange(LATENESS))
            lines.append(line_of("at", ms=clock))
        start = min(start, clock)
        lines.append(withdrawal(draw, clock - LATENESS - 1 - draw.randrange(3000) if number % 20 == 19 else
                                max(start, clock - LATENESS)))
        start = max(start, clock - LATENESS)
        if number % 25 == 24:
            lines.append(line_of("fire"))
    return [*lines, line_of("at", ms=clock + 15_000), line_of("fire")]
