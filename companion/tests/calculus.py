"""What a history means, worked out afresh from the definitions, without `ec`.

A plain walk over the instants: what is current before an instant decides which rules
do their part there, and these decide what is current behind it.
"""

from __future__ import annotations

from collections import defaultdict
from typing import Dict, Iterable, List, NamedTuple, Optional, Set, Tuple

from ec_history.moments import Moment
from ec_history.replies import Event
from ec_history.terms import Term
from ec_history.theory import Theory


Span = Tuple[Optional[Moment], Optional[Moment]]
"""A start and an end, of which either may be missing."""


class Mark(NamedTuple):
    """What happened to a property at an instant."""

    time: Moment
    starts: bool
    is_terminated: bool
    has_break: bool


class Calculus:
    """The currency, the intervals and the broken starts of a history."""

    def __init__(self, theory: Theory, events: Iterable[Event]) -> None:
        self.theory = theory
        self.initial = set(theory.initial_properties())
        self.marks: Dict[Term, List[Mark]] = defaultdict(list)
        self.current_before: Dict[Moment, Set[Term]] = {}
        by_time: Dict[Moment, List[Event]] = defaultdict(list)
        for event in events:
            by_time[event.time].append(event)
        self.current = set(self.initial)
        for time in sorted(by_time):
            self._step(time, by_time[time])

    def _step(self, time: Moment, events: List[Event]) -> None:
        before = set(self.current)
        self.current_before[time] = before
        effects: Dict[bool, Set[Term]] = {True: set(), False: set()}
        for event in events:
            for rule, binding in self.theory.rules_met(event.term):
                if all(
                    (literal.property.fill(binding) in before) == literal.positive
                    for literal in rule.literals
                ):
                    effects[rule.initiates].add(rule.head.fill(binding))
        started, ended = effects[True], effects[False]
        for term in before | started | ended:
            has_break = term in ended or self._is_broken(term, started)
            starts = term in started and (has_break or term not in before)
            if starts or has_break:
                self.marks[term].append(Mark(time, starts, term in ended, has_break))
            if has_break:
                self.current.discard(term)
            if term in started:
                self.current.add(term)

    def _is_broken(self, term: Term, started: Set[Term]) -> bool:
        if term in started and self.theory.is_strong(term):
            return True
        return any(self.theory.are_exclusive(term, other) for other in started)

    def is_current(self, term: Term, time: Moment) -> bool:
        """Whether a property is current at a time, by the strict past."""
        current = term in self.initial
        for mark in self.marks[term]:
            if mark.time >= time:
                break
            current = mark.starts or (current and not mark.has_break)
        return current

    def spans(self, term: Term) -> Tuple[List[Span], List[Span]]:
        """The intervals and the broken starts of a property."""
        intervals: List[Span] = []
        broken: List[Span] = []
        is_open, begin = term in self.initial, None
        for mark in self.marks[term]:
            if is_open and mark.has_break:
                if mark.is_terminated:
                    intervals.append((begin, mark.time))
                else:
                    broken.append((begin, mark.time))
                is_open = False
            if mark.starts:
                is_open, begin = True, mark.time
        if is_open:
            intervals.append((begin, None))
        return intervals, broken

    def holds(self, term: Term, time: Moment) -> bool:
        """Whether a property holds at a time."""
        return any(
            (start is None or start < time) and (end is None or time <= end)
            for start, end in self.spans(term)[0]
        )

    def at(self, time: Moment) -> List[Term]:
        """All that holds at a time."""
        known = set(self.marks) | self.initial
        return sorted(term for term in known if self.holds(term, time))
