"""How moments of a run are read: as milliseconds, or as dates where the clock counts from 1970."""

from __future__ import annotations

from dataclasses import dataclass
from datetime import datetime, timedelta

from .recording import Recording

# A clock that is moved here at once, or later, is taken for one since 1970: the 3rd of March 1973.
FIRST_DATE = 10**11
LAST_DATE = 253_402_300_799_999
EPOCH = datetime(1970, 1, 1)


@dataclass(frozen=True)
class Clock:
    """`dates` says whether moments are dates. What stands at 0 came in before the clock was first moved."""
    dates: bool

    def text(self, moment: int) -> str:
        if not self.dates or moment == 0:
            return str(moment)
        return (EPOCH + timedelta(milliseconds=moment)).isoformat(" ", "milliseconds").removesuffix(".000")

    def unit(self) -> str:
        return "UTC" if self.dates else "ms"


def moments_of(recording: Recording) -> list[int]:
    lives = [moment for life in recording.lives.values() for moment in (life.start, life.told)]
    return lives + [firing.clock for firing in recording.firings] + [recording.end]


def clock_of(recording: Recording) -> Clock:
    """Dates where the clock counts, and no moment but 0 lies before it came to 1973."""
    moments = [moment for moment in moments_of(recording) if moment != 0]
    return Clock(bool(moments) and min(moments) >= FIRST_DATE and max(moments) <= LAST_DATE)
