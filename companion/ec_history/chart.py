"""Timelines as text, for a terminal."""

from __future__ import annotations

from typing import Iterator, List, Optional, Sequence

from .axis import Axis, cut
from .moments import Moment
from .timelines import BROKEN, UNENDED, Stretch, Timeline

LEGEND = "= holds   > holds without an end   < from before all events   ~ broken"
LEAST_BAR = 20


def chart_of(lines: Sequence[Timeline], axis: Axis, width: int) -> Iterator[str]:
    """The lines of a text of so many columns, or more where the labels need them."""
    label_width = max((len(line.label) for line in lines), default=0)
    cells = max(width - label_width - 2, LEAST_BAR)
    for line in lines:
        yield f"{line.label.ljust(label_width)}  {_bar(line, axis, cells)}".rstrip()
    yield from _scale(axis, label_width + 2, cells)
    yield LEGEND


def _bar(line: Timeline, axis: Axis, cells: int) -> str:
    bar = ["."] * cells
    for stretch in line.stretches:
        start, end = _place(axis, stretch.start), _place(axis, stretch.end)
        if (end is not None and end < axis.low) or (
            start is not None and start > axis.high
        ):
            continue
        left, right = cut(axis, start, end)
        first = min(int(left * cells), cells - 1)
        last = max(min(int(right * cells), cells) - 1, first)
        for place in range(first, last + 1):
            bar[place] = _mark(stretch, place == first, place == last)
    return "".join(bar)


def _mark(stretch: Stretch, is_first: bool, is_last: bool) -> str:
    if stretch.kind == BROKEN:
        return "~"
    if stretch.kind == UNENDED and is_last:
        return ">"
    return "<" if stretch.start is None and is_first else "="


def _place(axis: Axis, moment: Optional[Moment]) -> Optional[int]:
    return None if moment is None else axis.place(moment)


def _scale(axis: Axis, indent: int, cells: int) -> Iterator[str]:
    """The ticks, and below them those labels for which there is room."""
    widest = max(len(axis.label(axis.low)), len(axis.label(axis.high)))
    marks: List[str] = [" "] * cells
    labels = ""
    for place in axis.ticks(max(2, cells // (widest + 2))):
        column = min(int(axis.fraction(place) * cells), cells - 1)
        label = axis.label(place)
        marks[column] = "|"
        start = max(column - len(label) // 2, 0)
        if not labels or start > len(labels):
            labels = labels.ljust(start) + label
    yield " " * indent + "".join(marks).rstrip()
    yield " " * indent + labels
