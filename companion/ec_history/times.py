"""The times of records: from a text with a format and a zone to a time of `ec`.

A time of `ec` is a whole number of a unit, or a civil time `YYYY-MM-DDThh:mm:ssZ` where
the theory says `time civil.` An hour that a zone has twice, or not at all, is a fault:
nothing is guessed.
"""

from __future__ import annotations

import re
import zoneinfo
from dataclasses import dataclass
from datetime import datetime, timedelta, timezone, tzinfo
from difflib import get_close_matches
from fractions import Fraction
from typing import Dict, Optional, Tuple

from .errors import HistoryError
from .terms import number_value

UNITS = {
    "second": timedelta(seconds=1),
    "minute": timedelta(minutes=1),
    "hour": timedelta(hours=1),
    "day": timedelta(days=1),
}
DIGITS = ("date", "minute-digits", "second-digits")
ALL_UNITS = ("civil", "number", *UNITS, *DIGITS)
OFFSET = re.compile(r"(?:UTC|GMT)?([+-])(\d\d):?(\d\d)(?::?(\d\d))?")


class TimeFault(HistoryError, ValueError):
    """A text that is no time, or not one time; the message says why."""


@dataclass(frozen=True)
class TimeForm:
    """How the times of a file are written, and what they become.

    `formats` are those of `datetime.strptime`, or `iso`, `unix` (seconds since 1970) or
    `unix-ms`. `unit` is one of `ALL_UNITS`; a count of units begins at `origin`.
    """

    formats: Tuple[str, ...] = ("iso",)
    zone: Optional[str] = None
    unit: str = "civil"
    origin: datetime = datetime(1970, 1, 1, tzinfo=timezone.utc)
    round_down: bool = False
    drop_zeros: bool = False


def find_zone(name: str) -> tzinfo:
    """The zone of a name or of an offset (`Europe/Berlin`, `UTC`, `+02:00`).

    Raises TimeFault where the machine has no data for it, and says so.
    """
    if name in ("Z", "UTC", "GMT"):
        return timezone.utc
    found = OFFSET.fullmatch(name)
    if found:
        sign, hours, minutes, seconds = found.groups()
        offset = timedelta(
            hours=int(hours), minutes=int(minutes), seconds=int(seconds or 0)
        )
        if offset >= timedelta(days=1):
            raise TimeFault(f"{name} is no offset of a zone")
        return timezone(-offset if sign == "-" else offset)
    try:
        return zoneinfo.ZoneInfo(name)
    except (zoneinfo.ZoneInfoNotFoundError, ValueError, OSError):
        raise TimeFault(_no_zone(name)) from None


def _no_zone(name: str) -> str:
    known = zoneinfo.available_timezones()
    if not known:
        return (
            f"this machine has no data of zones, so {name} can't be read: install them "
            "(`apt install tzdata`, or `pip install tzdata`)"
        )
    near = get_close_matches(name, known, 3)
    hint = f"; did you mean {' or '.join(near)}?" if near else ""
    return f"no zone {name} in the zone data of this machine{hint}"


class TimeReader:
    """Reads times of one form; zones are looked up once."""

    def __init__(self, form: TimeForm) -> None:
        self.form = form
        self._zones: Dict[str, tzinfo] = {}
        if form.zone is not None:
            self.zone(form.zone)

    def zone(self, name: str) -> tzinfo:
        if name not in self._zones:
            self._zones[name] = find_zone(name)
        return self._zones[name]

    def read(self, text: str, which: str = "") -> str:
        """The time of `ec` for a text.

        `which` is what the record says of its zone: an offset, a zone, or the zone's
        own name for its summer or winter time. Raises TimeFault.
        """
        text = text.strip()
        if not text:
            raise TimeFault("the time is empty")
        if self.form.unit == "number":
            return self._number(text)
        local, which = self._local(text, which.strip())
        if self.form.unit in ("day", "date"):
            return self._day(local.replace(tzinfo=None))
        return self._units(self._instant(local, text, which))

    def _number(self, text: str) -> str:
        number = number_value(text)
        if number is None:
            raise TimeFault(f"{text!r} is no whole number of 64 bits")
        if str(number) != text and not self.form.drop_zeros:
            raise TimeFault(
                f"{text} has leading zeros, which ec drops: {number}; say "
                '`zeros = "drop"` under [time] if that is meant'
            )
        return str(number)

    def _local(self, text: str, which: str) -> Tuple[datetime, str]:
        """The time as it is written, and what is said of its zone."""
        for form in self.form.formats:
            rest, zone = text, which
            if form.endswith("%Z"):
                form, (rest, _, zone) = form[:-2].rstrip(), text.rpartition(" ")
            try:
                return _parse(rest.rstrip(), form), zone
            except ValueError:
                continue
        wanted = " or ".join(self.form.formats)
        raise TimeFault(f"{text!r} is no time of the form {wanted}")

    def _instant(self, local: datetime, text: str, which: str) -> datetime:
        """The one instant that a time on the wall is."""
        if local.tzinfo is not None:
            return local.astimezone(timezone.utc)
        zone, name = None, self.form.zone
        if which and (name is None or _is_zone(which)):
            zone, name, which = self.zone(which), which, ""
        elif name is not None:
            zone = self.zone(name)
        if zone is None:
            raise TimeFault(
                f"{text!r} has no offset: say the zone under [time], as "
                '`zone = "Europe/Berlin"` or `zone = "UTC"`'
            )
        both = [local.replace(tzinfo=zone, fold=fold) for fold in (0, 1)]
        if which:
            both = [time for time in both if time.tzname() == which]
            if not both:
                raise TimeFault(f"{text!r} in {name} is not in {which}")
        instants = {time.astimezone(timezone.utc) for time in both}
        kept = [time for time in instants if _wall(time, zone) == local]
        if not kept:
            raise TimeFault(f"{text!r} is in an hour that {name} leaves out that day")
        if len(kept) > 1:
            first, second = (time.tzname() for time in both)
            raise TimeFault(
                f"{text!r} comes twice in {name}, in {first} and in {second}: say "
                "which by a column with the offset, named by `zone_column` under [time]"
            )
        return kept[0]

    def _day(self, local: datetime) -> str:
        """A unit of calendar days: no zone matters."""
        if local.time() != datetime.min.time() and not self.form.round_down:
            raise TimeFault(
                f'{local} is no whole day; say `round = "down"` under [time] to count '
                "it as that day, or take a finer unit"
            )
        if self.form.unit == "date":
            return _digits(local, "date")
        return str((local.date() - self.form.origin.date()).days)

    def _units(self, instant: datetime) -> str:
        if self.form.unit in UNITS:
            since = instant - self.form.origin
            count, rest = divmod(since, UNITS[self.form.unit])
            self._whole(rest, instant)
            return str(count)
        unit = "minute" if self.form.unit == "minute-digits" else "second"
        rest = (instant - datetime(1, 1, 1, tzinfo=timezone.utc)) % UNITS[unit]
        self._whole(rest, instant)
        if self.form.unit == "civil":
            return civil_text(instant - rest)
        return _digits(instant - rest, self.form.unit)

    def _whole(self, rest: timedelta, instant: datetime) -> None:
        if rest and not self.form.round_down:
            raise TimeFault(
                f"{instant.isoformat()} is no whole number of the unit "
                f'{self.form.unit}; say `round = "down"` under [time], or take a finer '
                "unit"
            )


def civil_text(instant: datetime) -> str:
    """The 20 bytes of a civil time; the instant has a zone and whole seconds."""
    time = instant.astimezone(timezone.utc)
    return time.replace(microsecond=0, tzinfo=None).isoformat() + "Z"


def _digits(time: datetime, unit: str) -> str:
    """A time as one number, down to its day, its minute or its second."""
    digits = f"{time.year:04}{time.month:02}{time.day:02}"
    if unit != "date":
        digits += f"{time.hour:02}{time.minute:02}"
    if unit == "second-digits":
        digits += f"{time.second:02}"
    return str(int(digits))


def _is_zone(text: str) -> bool:
    """Whether a text names a zone by itself, and is no word of the map's own zone."""
    return text in ("Z", "UTC", "GMT") or "/" in text or bool(OFFSET.fullmatch(text))


def _wall(instant: datetime, zone: tzinfo) -> datetime:
    return instant.astimezone(zone).replace(tzinfo=None, fold=0)


def _parse(text: str, form: str) -> datetime:
    """A time of one form, with a zone where the text says an offset."""
    if form in ("unix", "unix-ms"):
        return _unix(text, 1 if form == "unix" else 1000)
    if form == "iso":
        return _iso(text)
    return datetime.strptime(text, form)


def _unix(text: str, parts: int) -> datetime:
    if not re.fullmatch(r"-?[0-9]+(?:\.[0-9]+)?", text):
        raise ValueError(text)
    micros = Fraction(text) * 1_000_000 / parts
    if micros.denominator != 1:
        raise ValueError(text)
    try:
        since = timedelta(microseconds=int(micros))
        return datetime(1970, 1, 1, tzinfo=timezone.utc) + since
    except OverflowError:
        raise ValueError(text) from None


_ISO = re.compile(
    r"(\d{4})-(\d\d)-(\d\d)(?:[T ](\d\d):(\d\d)(?::(\d\d)(?:[.,](\d{1,9}))?)?"
    r"\s?(Z|[+-]\d\d(?::?\d\d)?)?)?"
)


def _iso(text: str) -> datetime:
    """ISO 8601, as in XES: a date, or a date and a time of day, with or without offset.

    (`datetime.fromisoformat` reads all of these from Python 3.11 on.)
    """
    found = _ISO.fullmatch(text)
    if found is None:
        raise ValueError(text)
    year, month, day, hour, minute, second, part, offset = found.groups()
    nanos = (part or "").ljust(9, "0")
    if int(nanos or 0) % 1000:
        raise ValueError(f"{text}: finer than a microsecond")
    time = datetime(
        *(int(year), int(month), int(day)),
        *(int(hour or 0), int(minute or 0), int(second or 0)),
        int(nanos or 0) // 1000,
    )
    if offset is None:
        return time
    if len(offset) == 3:
        offset += ":00"
    return time.replace(tzinfo=find_zone(offset))
