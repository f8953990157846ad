"""The dates that whole numbers stand for, where a user says which unit they count.

The units are those of `ec-history import`: so many seconds, minutes, hours or days
since an origin, or a date written as one number (`date` 20240303, `minute-digits`
202403031200, `second-digits` 20240303120000). Dates are shown in UTC.
"""

from __future__ import annotations

import argparse
import re
from datetime import datetime, timedelta, timezone
from typing import Optional

from .errors import HistoryError, TermError

_COUNTS = {
    "second": timedelta(seconds=1),
    "minute": timedelta(minutes=1),
    "hour": timedelta(hours=1),
    "day": timedelta(days=1),
}
_DIGITS = {
    "date": "%Y%m%d",
    "minute-digits": "%Y%m%d%H%M",
    "second-digits": "%Y%m%d%H%M%S",
}
_WIDTHS = {"date": 8, "minute-digits": 12, "second-digits": 14}
UNITS = (*_COUNTS, *_DIGITS)
_DAYS = ("day", "date")
_SECONDS = ("second", "second-digits")
_UTC = timezone.utc
_EPOCH = datetime(1970, 1, 1, tzinfo=_UTC)
_DATE = re.compile(
    r"(\d{4})-(\d\d)-(\d\d)(?:T(\d\d):(\d\d)(?::(\d\d))?(?:Z|([+-])(\d\d):(\d\d)))?"
)


class Dates:
    """The dates of one unit."""

    def __init__(self, unit: str, origin: datetime = _EPOCH) -> None:
        self.unit = unit
        self.origin = origin

    @property
    def finest(self) -> str:
        """Down to what its dates are shown: `day`, `minute` or `second`."""
        if self.unit in _DAYS:
            return "day"
        return "second" if self.unit in _SECONDS else "minute"

    def instant(self, ticks: int) -> Optional[datetime]:
        """The date and time of day that a number stands for; None where it is none."""
        try:
            if self.unit in _COUNTS:
                return self.origin + ticks * _COUNTS[self.unit]
            digits = _DIGITS[self.unit]
            text = str(ticks).rjust(_WIDTHS[self.unit], "0")
            return datetime.strptime(text, digits).replace(tzinfo=_UTC)
        except (OverflowError, ValueError):
            return None

    def text(self, ticks: int) -> str:
        """The date that a number stands for; the number itself where it is none."""
        instant = self.instant(ticks)
        if instant is None:
            return str(ticks)
        return self.shown(instant)

    def shown(self, instant: datetime) -> str:
        """An instant down to the unit."""
        if self.finest == "day":
            return instant.date().isoformat()
        part = "seconds" if self.finest == "second" else "minutes"
        return instant.replace(tzinfo=None).isoformat(timespec=part) + "Z"

    def ticks(self, text: str) -> Optional[int]:
        """The number of a date `2024-03-03` or `2024-03-03T12:00Z`; None for others.

        Raises `TermError` for a date that is none, or is no whole number of the unit.
        """
        instant = self._instant_of(text)
        if instant is None:
            return None
        if self.unit in _COUNTS:
            count, rest = divmod(instant - self.origin, _COUNTS[self.unit])
            number: int = count
        else:
            number = int(instant.strftime(_DIGITS[self.unit]))
            rest = instant - (self.instant(number) or instant)
        if rest:
            reason = f"it is no whole number of the unit {self.unit}"
            raise TermError(text, 1, reason)
        return number

    def _instant_of(self, text: str) -> Optional[datetime]:
        found = _DATE.fullmatch(text)
        if found is None:
            return None
        *numbers, sign, hours, minutes = found.groups(default="0")
        try:
            year, month, day, hour, minute, second = map(int, numbers)
            local = datetime(year, month, day, hour, minute, second, tzinfo=_UTC)
            offset = timedelta(hours=int(hours), minutes=int(minutes))
            return local + offset if sign == "-" else local - offset
        except (OverflowError, ValueError) as fault:
            raise TermError(text, 1, f"no such date: {fault}") from None


def add_dates(parser: argparse.ArgumentParser) -> None:
    """Adds the options that say what whole numbers stand for."""
    parser.add_argument(
        "--unit",
        choices=UNITS,
        metavar="UNIT",
        help="what a whole number of time stands for: times are shown as dates in UTC, "
        "and may be asked as dates, 2024-03-03 or 2024-03-03T12:00Z; units are "
        + ", ".join(UNITS),
    )
    parser.add_argument(
        "--origin",
        metavar="DATE",
        help="where the count of units begins (else 1970-01-01)",
    )


def dates_of(args: argparse.Namespace) -> Optional[Dates]:
    """The dates that the options choose; None where they choose none."""
    if args.unit is None:
        if args.origin is not None:
            raise HistoryError("--origin needs --unit, which says what is counted")
        return None
    if args.origin is None:
        return Dates(args.unit)
    if args.unit in _DIGITS:
        raise HistoryError(f"the unit {args.unit} has no origin: leave --origin out")
    seconds = Dates("second").ticks(args.origin)
    if seconds is None:
        raise HistoryError(
            f"--origin {args.origin}: a date is expected, as 2024-03-03 or "
            "2024-03-03T12:00Z"
        )
    return Dates(args.unit, _EPOCH + timedelta(seconds=seconds))
