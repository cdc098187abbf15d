"""Moments of a clock as a person reads them: those of a clock that counts from 1970 with their dates."""

from __future__ import annotations

from datetime import datetime, timedelta

# A moment from here on is taken for one since 1970: the 3rd of March 1973. Dates end with the year 9999.
FIRST_DATE = 10**11
LAST_DATE = 253_402_300_799_999
EPOCH = datetime(1970, 1, 1)


def moment(at: int) -> str:
    """The number, and behind it the date where it is one, in UTC."""
    if not FIRST_DATE <= at <= LAST_DATE:
        return str(at)
    date = (EPOCH + timedelta(milliseconds=at)).isoformat(" ", "milliseconds").removesuffix(".000")
    return f"{at} ({date})"
