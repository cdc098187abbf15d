#!/usr/bin/env python3
"""Watches withdrawals with a running `replay`, and prints alerts that a person can read:

    PYTHONPATH=tools python3 examples/live/caller.py PROGRAM RULES < withdrawals.csv

PYTHONPATH is for a clone; with the package `sozhipen` installed it is not needed.

Rows come in the order of their arrival. Each is held back for two seconds, the lateness of its entry point, so that
what starts first goes in first, and the clock is moved to the moments of arrival. In a real stream these are the
machine's clock, and a timer calls `until` each second, so that alerts of what did not happen come too. docs/LIVE.md
says how the client is used. The status is the program's, and 2 where there is no program, or it ends before its script
does.
"""

from __future__ import annotations

import argparse
import csv
import sys

from convert import WAIT, BadRow, withdrawal  # beside this file

from sozhipen import Answer, ClientError, Fact, Ordered, Session


def not_taken(what: object) -> None:
    """Somebody has to see what was not taken."""
    print(f"not taken: {what}", file=sys.stderr, flush=True)


def said(fact: Fact) -> str:
    """A withdrawal as a person reads it."""
    second, cents = int(fact["at"]) // 1000 % 86400, int(fact["cents"])
    clock = f"{second // 3600:02}:{second // 60 % 60:02}:{second % 60:02}"
    return f"card {fact['card']}, {cents // 100}.{cents % 100:02} at {fact['place']} {clock}"


def tell(answer: Answer) -> None:
    """Tells each firing, by the facts that it names, and each fact that a rule made."""
    if answer.fault:
        not_taken(f"{answer.fault} {answer.text}")
    for firing in answer.firings:
        print(f"{firing.rule}: {'; '.join(map(said, firing.facts))}", flush=True)
        for fact in firing.made:
            print(f"  the rule made {fact} {fact.values}", flush=True)
        for fault in firing.faults:
            not_taken(fault)


class Desk:
    """Drives the clock by the arrival of rows."""

    def __init__(self, session: Session):
        self.ordered = Ordered(session)

    def until(self, moment: int) -> None:
        """Sends what is due, moves the clock to this moment, and tells what fires."""
        for answer in self.ordered.until(moment):
            tell(answer)

    def take(self, row: dict[str, str], number: int) -> None:
        """A row has arrived."""
        try:
            arrived, fields = withdrawal(row, number)
        except BadRow as bad:
            not_taken(bad)
            return
        self.until(arrived)
        self.ordered.insert("Withdrawal", fields, "ATM")

    def rest(self) -> None:
        """The table has ended: what is held back goes in, and every `not` ends its waiting."""
        for answer in self.ordered.rest():
            tell(answer)
        self.until(self.ordered.clock + WAIT)


def main() -> int:
    about = "caller.py PROGRAM RULES < ROWS: watches withdrawals, and prints alerts."
    parser = argparse.ArgumentParser(usage=argparse.SUPPRESS, description=about)
    parser.add_argument("program", metavar="PROGRAM", help="the built program")
    parser.add_argument("rules", metavar="RULES", help="the rule file")
    asked = parser.parse_args()
    try:
        session = Session(asked.rules, asked.program)
        desk, table = Desk(session), csv.DictReader(sys.stdin)
        for row in table:
            desk.take(row, table.line_num)
        desk.rest()
        status = session.close()
    except ClientError as error:
        print(f"caller.py: {error}", file=sys.stderr)
        return 2
    print(f"the program's status: {status}", file=sys.stderr)
    return status


if __name__ == "__main__":
    sys.exit(main())
