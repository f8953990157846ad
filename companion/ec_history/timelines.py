"""The timelines of properties: their stretches, and why at each instant.

All comes from `ec`: the stretches from `intervals` and `broken`, and the words for
them from `why`, asked within each stretch and behind it.
"""

from __future__ import annotations

from dataclasses import dataclass, field
from typing import Dict, Iterable, Iterator, List, NamedTuple, Optional, Sequence
from typing import Tuple

from .history import History
from .moments import Moment
from .replies import Event, Reason, read_broken, read_intervals, read_reason
from .terms import GREATEST_NUMBER, Pattern, Term
from .wording import Wording

CLOSED, UNENDED, BROKEN = "closed", "unended", "broken"


class Stretch(NamedTuple):
    """From a start up to an end. `start` is None from before all events, and `end` is
    None where there is none. `kind` is `closed`, `unended` or `broken`.
    """

    kind: str
    start: Optional[Moment]
    end: Optional[Moment]


class Spell(NamedTuple):
    """Instants after `after` (None: all before) up to and with `until`, at which the
    reason is the same: what holds, and why.
    """

    after: Optional[Moment]
    until: Optional[Moment]
    holds: bool
    words: str


@dataclass
class Timeline:
    """A property with its stretches, in order, and the spells of its reasons."""

    property: Term
    label: str
    stretches: List[Stretch]
    spells: List[Spell] = field(default_factory=list)

    def words_of(self, stretch: Stretch) -> str:
        """Why it is as it is within a stretch, in words."""
        spells = (spell for spell in self.spells if spell.after == stretch.start)
        return next((spell.words for spell in spells), "")

    def moments(self) -> Iterator[Moment]:
        """The starts and ends of its stretches."""
        for stretch in self.stretches:
            yield from (m for m in (stretch.start, stretch.end) if m is not None)


class Asked(NamedTuple):
    """Why a property is as it is from one instant up to another, as `ec` says it.

    `events` are those that the reason names.
    """

    after: Optional[Moment]
    until: Optional[Moment]
    reason: Reason
    events: Tuple[Event, ...]


class Course(NamedTuple):
    """The stretches of a property, and the reasons for them; without words."""

    property: Term
    stretches: List[Stretch]
    reasons: List[Asked]


class Courses(NamedTuple):
    """The first courses of a history, each with the place of the pattern that it fits,
    and how many there are in all.
    """

    courses: List[Tuple[int, Course]]
    total: int


def courses_of(
    history: History, patterns: Sequence[Optional[Pattern]], most: int
) -> Iterator[Courses]:
    """The courses of properties that fit one of the patterns and ever started."""
    places: Dict[Term, int] = {}
    for place, pattern in enumerate(patterns):
        for term in history.candidates(pattern):
            if history.owns_property(term):
                places.setdefault(term, place)
    courses, count = CourseReader(history).read(list(places), most)
    yield Courses([(places[c.property], c) for c in courses], count)


def merged(found: Iterable[Courses], most: int) -> Tuple[List[Course], int]:
    """The first so many courses of several histories, and how many there are in all."""
    all_of_them = list(found)
    courses = sorted(
        (placed for each in all_of_them for placed in each.courses),
        key=lambda placed: (placed[0], placed[1].property.sort_key()),
    )
    count = sum(each.total for each in all_of_them)
    return [course for _, course in courses[:most]], count


def timeline_of(course: Course, wording: Wording) -> Timeline:
    """A course in words."""
    label = wording.term(course.property)
    timeline = Timeline(course.property, label, course.stretches)
    for after, until, reason, events in course.reasons:
        words = wording.reason(reason)
        if events:
            words += f" [{'; '.join(_event_words(e, wording) for e in events)}]"
        timeline.spells.append(Spell(after, until, reason.holds, words))
    return timeline


def _event_words(event: Event, wording: Wording) -> str:
    return f"{wording.identity(event.identity)}: {wording.term(event.term)}"


class Timelines:
    """Reads the timelines of properties from a history."""

    def __init__(self, history: History, wording: Wording) -> None:
        self.history = history
        self.wording = wording

    def read(self, properties: List[Term]) -> List[Timeline]:
        """The timelines of those properties that ever started, in their order."""
        courses, _ = CourseReader(self.history).read(properties, len(properties))
        return [timeline_of(course, self.wording) for course in courses]


class CourseReader:
    """Reads the courses of properties from a history."""

    def __init__(self, history: History) -> None:
        self.history = history
        self.clock = history.clock

    def read(self, properties: List[Term], most: int) -> Tuple[List[Course], int]:
        """The first so many courses, and how many there are in all."""
        commands = (
            f"{command} {term}"
            for term in properties
            for command in ("intervals", "broken")
        )
        replies = self.history.ask_all(commands, "timelines read")
        courses: List[Course] = []
        count = 0
        for intervals, broken, term in zip(replies, replies, properties):
            if intervals == broken == "0":
                continue
            count += 1
            if count <= most:
                stretches = self._stretches(intervals, broken)
                courses.append(Course(term, stretches, []))
        self._add_reasons(courses)
        return courses, count

    def _stretches(self, intervals: str, broken: str) -> List[Stretch]:
        rank = self.clock.rank
        stretches = [
            Stretch(UNENDED if end is None else CLOSED, start, end)
            for start, end in read_intervals(intervals, self.clock)
        ]
        for start, end in read_broken(broken, self.clock):
            stretches.append(Stretch(BROKEN, start, end))
        first = [s for s in stretches if s.start is None]
        later = [s for s in stretches if s.start is not None]
        return first + sorted(later, key=lambda stretch: rank(stretch.start or 0))

    def _add_reasons(self, courses: List[Course]) -> None:
        """Asks for the reasons, all at once."""
        asked: List[Tuple[Course, Optional[Moment], Optional[Moment], Moment]] = []
        for course in courses:
            for after, until in self._borders(course.stretches):
                instant = self._within(after, until)
                if instant is not None:
                    asked.append((course, after, until, instant))
        write = self.clock.write
        commands = (f"why {course.property} {write(at)}" for course, _, _, at in asked)
        replies = self.history.ask_all(commands, "reasons read")
        for reply, (course, after, until, at) in zip(replies, asked):
            reason = read_reason(reply, at, self.clock)
            causes = (cause for cause in (reason.by, reason.until) if cause)
            events = tuple(self.history.event(cause.event) for cause in causes)
            course.reasons.append(Asked(after, until, reason, events))

    def _borders(
        self, stretches: List[Stretch]
    ) -> Iterator[Tuple[Optional[Moment], Optional[Moment]]]:
        """Where the reason changes: from one instant (not counted) up to another."""
        first = stretches[0]
        if first.start is not None:
            yield None, first.start
        following: Iterable[Optional[Stretch]] = [*stretches[1:], None]
        for stretch, following_one in zip(stretches, following):
            next_start = following_one.start if following_one else None
            if stretch.kind != CLOSED:
                yield stretch.start, next_start
                continue
            yield stretch.start, stretch.end
            if stretch.end != next_start:
                yield stretch.end, next_start

    def _within(
        self, after: Optional[Moment], until: Optional[Moment]
    ) -> Optional[Moment]:
        """An instant after one and up to another; None where there is none."""
        if until is not None:
            return until
        if after is None:
            return self.clock.moment(0)
        rank = self.clock.rank(after)
        return None if rank == GREATEST_NUMBER else self.clock.moment(rank + 1)
