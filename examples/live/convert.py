#!/usr/bin/env python3
"""Makes a script of a table of withdrawals:

    PYTHONPATH=tools python3 examples/live/convert.py < withdrawals.csv > withdrawals.jsonl

PYTHONPATH is for a clone; where the package `sozhipen` is installed it is not wanted.

The rows are sorted by the start of the event, since an entry point takes its events in that order. Before each insert
the clock is moved to its start, and behind it all that is pending is fired. The last move lets every `not` end its
waiting.
"""

from __future__ import annotations

import argparse
import csv
import decimal
import sys
from typing import Any

from sozhipen import Script, milliseconds

WAIT = 63_000  # milliseconds behind the last event: a minute of the rule, two seconds of lateness, and more
COLUMNS = ("arrived", "at", "card", "place", "amount")


class BadRow(Exception):
    """A row of the table is none of a withdrawal."""


def cents(text: str) -> int:
    """An amount as a whole number, since numbers of a script are whole."""
    try:
        found = decimal.Decimal(text) * 100
        if found == int(found):
            return int(found)
    except (ArithmeticError, ValueError):
        pass
    raise ValueError(f"no amount in cents: {text}")


def withdrawal(row: dict[str, str], number: int) -> tuple[int, dict[str, Any]]:
    """The moment of arrival and the fields of the event, or BadRow."""
    missing = [name for name in COLUMNS if row.get(name) is None]
    if missing:
        raise BadRow(f"line {number} of the table: no {', '.join(missing)}")
    try:
        fields = {"at": milliseconds(row["at"]), "card": row["card"], "place": row["place"],
                  "cents": cents(row["amount"])}
        return milliseconds(row["arrived"]), fields
    except ValueError as error:
        raise BadRow(f"line {number} of the table: {error}") from None


def main() -> None:
    about = "convert.py < ROWS > SCRIPT: makes a script of a table of withdrawals."
    argparse.ArgumentParser(usage=argparse.SUPPRESS, description=about).parse_args()
    table = csv.DictReader(sys.stdin)
    try:
        events = sorted((withdrawal(row, table.line_num)[1] for row in table), key=lambda fields: fields["at"])
    except BadRow as bad:
        sys.exit(f"convert.py: {bad}")
    script = Script(sys.stdout)
    for fields in events:
        script.at(fields["at"])
        script.insert("Withdrawal", fields, "ATM")
        script.fire()
    if events:
        script.at(events[-1]["at"] + WAIT)
        script.fire()


if __name__ == "__main__":
    main()
