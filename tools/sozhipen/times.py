"""Moments of a clock that counts milliseconds since 1970, and dates."""

from __future__ import annotations

from datetime import datetime, timedelta, timezone
from typing import Union

EPOCH = datetime(1970, 1, 1, tzinfo=timezone.utc)


def milliseconds(moment: Union[datetime, str]) -> int:
    """The moment of a date, or of its text as `2026-03-02 10:00:00.200`; one that names no zone is of UTC."""
    date = datetime.fromisoformat(moment) if isinstance(moment, str) else moment
    aware = date if date.tzinfo else date.replace(tzinfo=timezone.utc)
    return (aware - EPOCH) // timedelta(milliseconds=1)


def date_of(moment: int) -> datetime:
    """The date of a moment, in UTC."""
    return EPOCH + timedelta(milliseconds=moment)
