"""The axis of a picture: from times to places, and the ticks with their labels.

Times of whole numbers stand at these numbers, and dates at their seconds since 1970,
so that the distance of two dates is that of the days between them.
"""

from __future__ import annotations

from dataclasses import dataclass
from datetime import datetime, timedelta, timezone
from typing import Iterable, List, Optional, Tuple

from .moments import Moment
from .wording import Wording

_EPOCH = datetime(1970, 1, 1, tzinfo=timezone.utc)
_HOUR = 3600
_STEPS = (1, 5, 10, 15, 30, 60, 300, 600, 900, 1800)
_HOUR_STEPS = tuple(_HOUR * hours for hours in (1, 3, 6, 12))
_DAY = 86_400
_DAY_STEPS = tuple(_DAY * days for days in (1, 2, 7, 14))
_MONTH_STEPS = (1, 3, 6, 12, 24, 60, 120, 240, 600, 1200, 2400, 6000, 12_000)


@dataclass(frozen=True)
class Axis:
    """From the place `low` to the place `high`, which are different.

    `shown` says how places are read: `number`, or seconds since 1970 shown down to the
    `second`, the `minute` or the `day`.
    """

    wording: Wording
    low: int
    high: int
    shown: str

    def place(self, moment: Moment) -> int:
        """Where a time stands on the axis."""
        return _place(self.wording, moment, self.shown)

    def fraction(self, place: int) -> float:
        """How far a place is from `low` to `high`, from 0 to 1 where it lies within."""
        return (place - self.low) / (self.high - self.low)

    def label(self, place: int) -> str:
        """A place as it is written at a tick."""
        if self.shown == "number":
            return str(place)
        instant = _EPOCH + timedelta(seconds=place)
        if self.shown == "day" or place % _DAY == 0:
            return instant.date().isoformat()
        part = "seconds" if place % 60 else "minutes"
        return instant.replace(tzinfo=None).isoformat(timespec=part) + "Z"

    def ticks(self, most: int) -> List[int]:
        """At most so many places at round times, in order."""
        if self.shown != "number":
            return self._date_ticks(most)
        step = 1
        while (self.high - self.low) // step >= most:
            lead = str(step)[0]
            step = step * 5 // 2 if lead == "2" else step * 2
        return list(range(-(-self.low // step) * step, self.high + 1, step))

    def _date_ticks(self, most: int) -> List[int]:
        for step in (*_STEPS, *_HOUR_STEPS, *_DAY_STEPS):
            if (self.high - self.low) // step < most:
                return list(range(-(-self.low // step) * step, self.high + 1, step))
        for months in _MONTH_STEPS:
            ticks = self._month_ticks(months)
            if len(ticks) <= most:
                return ticks
        return []

    def _month_ticks(self, months: int) -> List[int]:
        """The first days of each so many months within the axis."""
        first, last = (_EPOCH + timedelta(seconds=at) for at in (self.low, self.high))
        number = (first.year * 12 + first.month - 1) // months * months
        ticks = []
        while number <= last.year * 12 + last.month - 1:
            if number >= 12:
                year, month = divmod(number, 12)
                start = datetime(year, month + 1, 1, tzinfo=timezone.utc)
                seconds = (start - _EPOCH) // timedelta(seconds=1)
                if self.low <= seconds <= self.high:
                    ticks.append(seconds)
            number += months
        return ticks


def axis_of(
    wording: Wording,
    moments: Iterable[Moment],
    first: Optional[Moment] = None,
    last: Optional[Moment] = None,
) -> Axis:
    """An axis on which the times stand, or that from `first` to `last` where named.

    Room is left on both sides for what has no start or no end.
    """
    kept = list(moments) + [m for m in (first, last) if m is not None]
    shown = wording.finest()
    if shown != "number" and any(wording.instant(moment) is None for moment in kept):
        shown = "number"
    places = [_place(wording, moment, shown) for moment in kept] or [0]
    low, high = min(places), max(places)
    room = max((high - low) // 20, 1 if shown == "number" else 60)
    low, high = low - room, high + room
    if first is not None:
        low = _place(wording, first, shown)
    if last is not None:
        high = _place(wording, last, shown)
    if first is None:
        low = min(low, high - 1)
    return Axis(wording, low, max(high, low + 1), shown)


def _place(wording: Wording, moment: Moment, shown: str) -> int:
    if shown == "number":
        return wording.clock.rank(moment)
    instant = wording.instant(moment)
    assert instant is not None
    return (instant - _EPOCH) // timedelta(seconds=1)


def cut(axis: Axis, start: Optional[int], end: Optional[int]) -> Tuple[float, float]:
    """The fractions of a stretch's ends, cut off at the ends of the axis."""
    left = 0.0 if start is None else axis.fraction(start)
    right = 1.0 if end is None else axis.fraction(end)
    return min(max(left, 0.0), 1.0), min(max(right, 0.0), 1.0)
