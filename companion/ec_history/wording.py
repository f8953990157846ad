"""How terms, identities, times and reasons are shown to people.

With a names file the texts are shown that the names stand for, and with a unit the
dates that whole numbers stand for. Without them all is shown as `ec` writes it.
"""

from __future__ import annotations

import argparse
import os
import re
from datetime import datetime
from difflib import get_close_matches
from typing import NamedTuple, Optional, Union

from .dates import UNITS, Dates, add_dates, dates_of
from .errors import HistoryError
from .mapping import read_map
from .moments import Clock, Moment
from .names import Names
from .replies import BrokenStart, Cause, Interval, Reason
from .terms import Argument, Term
from .theory import Theory

_QUOTED = re.compile('"([^"]*)"')


class Wording:
    """Shows what `ec` speaks of in the words of its user."""

    def __init__(
        self,
        theory: Theory,
        names: Optional[Names] = None,
        dates: Optional[Dates] = None,
    ) -> None:
        self.theory = theory
        self.clock: Clock = theory.clock
        self.names = names
        self.dates = dates

    def argument(self, argument: Argument) -> str:
        """An argument of a term: the text that a name stands for, where it is known."""
        if self.names is not None and isinstance(argument, str):
            return self.names.text_of(argument) or argument
        return str(argument)

    def term(self, term: Term) -> str:
        """A term with its arguments shown."""
        if self.names is None or not term.arguments:
            return str(term)
        return f"{term.name}({', '.join(map(self.argument, term.arguments))})"

    def identity(self, identity: str) -> str:
        """The identity of an event, and what it was made of where that is not in it."""
        text = self.names.text_of(identity, "event") if self.names else None
        if text is None or text in identity:
            return identity
        return f"{identity} ({text})"

    def moment(self, moment: Moment) -> str:
        """A time, as a date where a unit was named."""
        if self.dates is not None and isinstance(moment, int):
            return self.dates.text(moment)
        return self.clock.write(moment)

    def read_moment(self, text: str) -> Moment:
        """The time that a word of a question spells: as `ec` writes it, or as a date.

        Raises `TermError` where it spells none.
        """
        if self.dates is not None:
            ticks = self.dates.ticks(text)
            if ticks is not None:
                return ticks
        return self.clock.read(text)

    def instant(self, moment: Moment) -> Optional[datetime]:
        """The date and time of day of a time; None where it is a number without one."""
        if isinstance(moment, datetime):
            return moment
        return None if self.dates is None else self.dates.instant(moment)

    def finest(self) -> str:
        """Down to what times are shown: `day`, `minute`, `second`, or as a `number`."""
        if self.dates is not None:
            return self.dates.finest
        return "second" if self.clock.unit == "civil" else "number"

    def cell(self, moment: Optional[Moment]) -> Union[str, int, None]:
        """A time as a cell of a table: a number, unless it is shown as a date."""
        if isinstance(moment, int) and self.dates is None:
            return moment
        return None if moment is None else self.moment(moment)

    def stretch(self, interval: Interval) -> str:
        """An interval, in words."""
        start = "from before all events"
        if interval.start is not None:
            start = f"after {self.moment(interval.start)}"
        if interval.end is not None:
            return f"{start} up to {self.moment(interval.end)}"
        return f"{start}, without an end"

    def broken_stretch(self, broken: BrokenStart) -> str:
        """A broken start, in words."""
        since, end = self.since(broken.start), self.moment(broken.broken)
        return f"{since}; broken at {end}, ended nobody knows when"

    def since(self, start: Optional[Moment]) -> str:
        """When something started, in words."""
        if start is None:
            return "there from before all events"
        return f"started at {self.moment(start)}"

    def cause(self, cause: Cause) -> str:
        """An event and a rule."""
        return f"{self.identity(cause.event)} (rule {cause.rule})"

    def reason(self, reason: Reason) -> str:
        """Why a property holds at an instant, or why it does not, in words."""
        if reason.kind == "never":
            return "does not hold: nothing had started it before"
        start = self.since(reason.start)
        if reason.kind == "yes":
            by = f" by {self.cause(reason.by)}" if reason.by else ""
            if reason.end is None or reason.until is None:
                return f"holds: {start}{by}, and nothing ends it"
            end = self.moment(reason.end)
            return f"holds: {start}{by}, ends at {end} by {self.cause(reason.until)}"
        assert reason.end is not None and reason.until is not None
        end, until = self.moment(reason.end), self.cause(reason.until)
        if reason.kind == "ended":
            return f"does not hold: {start}, ended at {end} by {until}"
        return (
            f"does not hold: {start}, broken at {end} by {until}, "
            "so nobody knows when it ended"
        )


def add_wording(parser: argparse.ArgumentParser) -> None:
    """Adds the options that choose names and dates."""
    parser.add_argument(
        "--map",
        metavar="MAP",
        help="the map of the import that made the lines: its names are shown as their "
        "texts, and its times as dates",
    )
    parser.add_argument(
        "--names",
        metavar="FILE",
        help="the names of an import (names.tsv), where they are not the map's",
    )
    add_dates(parser)


class Shown(NamedTuple):
    """What the options choose: the names of an import, and what numbers stand for."""

    names: Optional[Names]
    dates: Optional[Dates]

    def wording(self, theory: Theory) -> Wording:
        """The wording for a theory."""
        return Wording(theory, self.names, self.dates)

    def unquoted(self, text: str) -> str:
        """A question or a pattern with the name of each text that stands in quotes.

        Raises `HistoryError` for a text that no name stands for, or several.
        """
        return _QUOTED.sub(lambda found: self._name(found.group(1)), text)

    def _name(self, text: str) -> str:
        if self.names is None:
            raise HistoryError(
                f'"{text}" is a text, and without --map or --names no name is known '
                "for it"
            )
        names = self.names.names_for(text)
        if len(names) == 1:
            return names[0]
        if names:
            several = ", ".join(names)
            raise HistoryError(f'"{text}" may be {several}: ask for one of these names')
        near = get_close_matches(text, self.names.texts(), 1)
        hint = f'; did you mean "{near[0]}"?' if near else ""
        raise HistoryError(f'no name stands for "{text}"{hint}')


def shown_by(args: argparse.Namespace) -> Shown:
    """What the options choose."""
    map_of = read_map(args.map) if args.map else None
    path, dates = args.names, dates_of(args)
    if path is not None and not os.path.exists(path):
        raise HistoryError(f"{path} can't be read: there is no such file")
    if map_of is not None:
        form = map_of.times.form
        path = path or map_of.names
        if dates is None and form.unit in UNITS:
            dates = Dates(form.unit, form.origin)
    return Shown(Names.read(path) if path else None, dates)
