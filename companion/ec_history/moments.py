"""Times: whole numbers, or civil times as `datetime`.

A theory's time is counted in whole numbers of a unit of the user's (`tick`), or told by
dates and times of day in UTC (`civil`), as `2024-03-03T12:00:00Z`. A `Clock` reads and
writes the times of one of these. Its texts are those of `ec`'s lines and replies.
"""

from __future__ import annotations

import re
from datetime import datetime, timedelta, timezone
from typing import Union

from .errors import TermError
from .terms import number_value

Moment = Union[int, datetime]
"""A time: a whole number, or a civil time (a `datetime` with the zone UTC)."""

_CIVIL = re.compile(r"[0-9]{4}-[0-9]{2}-[0-9]{2}T[0-9]{2}:[0-9]{2}:[0-9]{2}Z")
_EPOCH = datetime(1970, 1, 1, tzinfo=timezone.utc)


class Clock:
    """Reads and writes the times of a theory: `TICK` or `CIVIL`."""

    unit: str

    def read(self, text: str) -> Moment:
        """The time that a word spells. Raises `TermError` where it spells none."""
        raise NotImplementedError

    def write(self, moment: Moment) -> str:
        """The time as `ec` writes it; raises `TermError` for one of another clock."""
        raise NotImplementedError

    def rank(self, moment: Moment) -> int:
        """A whole number for each time, in the order of times: ticks, or seconds."""
        raise NotImplementedError

    def moment(self, rank: int) -> Moment:
        """The time that has a rank."""
        raise NotImplementedError


class _Tick(Clock):
    unit = "tick"

    def read(self, text: str) -> int:
        value = number_value(text)
        if value is None:
            raise TermError(text, 1, "a time is expected: a whole number of 64 bits")
        return value

    def write(self, moment: Moment) -> str:
        if type(moment) is not int:  # True is no time, though it is an int
            raise TermError(str(moment), 1, "times of this theory are whole numbers")
        return str(moment)

    def rank(self, moment: Moment) -> int:
        assert isinstance(moment, int)
        return moment

    def moment(self, rank: int) -> int:
        return rank


class _Civil(Clock):
    unit = "civil"

    def read(self, text: str) -> datetime:
        if _CIVIL.fullmatch(text) is None:
            reason = "a time in UTC is expected, as 2024-03-03T12:00:00Z"
            raise TermError(text, 1, reason)
        try:
            return datetime.strptime(text, "%Y-%m-%dT%H:%M:%SZ").replace(
                tzinfo=timezone.utc
            )
        except ValueError as fault:
            raise TermError(text, 1, f"no such time: {fault}") from None

    def write(self, moment: Moment) -> str:
        if not isinstance(moment, datetime) or moment.tzinfo is None:
            reason = "times of this theory are datetimes with a zone"
            raise TermError(str(moment), 1, reason)
        if moment.microsecond:
            raise TermError(str(moment), 1, "times are whole seconds")
        moment = moment.astimezone(timezone.utc)
        return moment.replace(tzinfo=None).isoformat(timespec="seconds") + "Z"

    def rank(self, moment: Moment) -> int:
        assert isinstance(moment, datetime)
        since = moment - _EPOCH
        return since.days * 86_400 + since.seconds

    def moment(self, rank: int) -> datetime:
        return _EPOCH + timedelta(seconds=rank)


TICK: Clock = _Tick()
CIVIL: Clock = _Civil()


def clock_of(unit: str) -> Clock:
    """The clock of the unit that a theory names, `tick` or `civil`."""
    return {"tick": TICK, "civil": CIVIL}[unit]
