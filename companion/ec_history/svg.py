"""Timelines as a picture in SVG."""

from __future__ import annotations

from dataclasses import dataclass
from typing import Iterator, List, Optional, Sequence, Tuple
from xml.sax.saxutils import escape, quoteattr

from .axis import Axis, cut
from .moments import Moment
from .timelines import BROKEN, CLOSED, Stretch, Timeline

ROW = 24
BAR = 12
TOP = 64
BOTTOM = 40
LETTER = 7.3
"""Points that a letter of a label takes."""
MOST_LABEL = 60

STYLE = """\
svg { background: #fff; font: 12px ui-monospace, monospace; fill: #222 }
.title { font-size: 15px; font-weight: bold }
.grid { stroke: #ddd } .row { fill: #f6f7f9 } .tick { fill: #666 }
.closed rect { fill: #2f6db3 } .unended path { fill: #3a9a5b }
.broken rect { fill: url(#hatch); stroke: #c4622d; stroke-dasharray: 4 3 }
.start, .end { stroke: #173a61; stroke-width: 2 }
.unended .start { stroke: #1c5430 }
.stretch:hover { opacity: 0.75 }
"""
HATCH = """\
<pattern id="hatch" width="6" height="6" patternUnits="userSpaceOnUse"
 patternTransform="rotate(45)"><rect width="6" height="6" fill="#fdf1ea"/>
<rect width="2" height="6" fill="#e2a07c"/></pattern>
"""
LEGEND = (
    (CLOSED, "holds: after its start, up to and with its end"),
    ("unended", "holds without an end"),
    (BROKEN, "broken: it started, and nobody knows when it ended"),
)


@dataclass(frozen=True)
class Layout:
    """Where things stand in the picture, in points."""

    left: float
    width: float
    rows: int

    @property
    def right(self) -> float:
        """Where the axis ends."""
        return self.left + self.width

    @property
    def bottom(self) -> float:
        """Where the rows end."""
        return TOP + self.rows * ROW

    def x(self, fraction: float) -> float:
        """The place of a fraction of the axis."""
        return self.left + fraction * self.width


def layout_of(lines: Sequence[Timeline], width: int) -> Layout:
    """A layout for so many timelines, with an axis of so many points."""
    longest = max((len(short(line.label)) for line in lines), default=0)
    return Layout(round(longest * LETTER) + 24.0, float(width), len(lines))


def short(label: str) -> str:
    """A label that is not too long for the picture; the whole one shows when it is
    pointed at."""
    return label if len(label) <= MOST_LABEL else label[: MOST_LABEL - 2] + ".."


def svg_of(
    lines: Sequence[Timeline], axis: Axis, title: str, layout: Layout, more: str = ""
) -> str:
    """The picture. `more` stands within it behind all else."""
    parts = [
        '<svg xmlns="http://www.w3.org/2000/svg" '
        f'width="{layout.right + 24:g}" height="{layout.bottom + BOTTOM + 24:g}">',
        f"<style>{STYLE}</style><defs>{HATCH}</defs>",
        f"<title>{escape(title)}</title>",
        f'<text class="title" x="12" y="24">{escape(title)}</text>',
        *_stripes(layout),
        *_grid(axis, layout),
    ]
    for number, line in enumerate(lines):
        parts += _row(line, number, axis, layout)
    parts += _legend(layout)
    return "\n".join([*parts, more, "</svg>"]) + "\n"


def _stripes(layout: Layout) -> Iterator[str]:
    """A ground for every second row."""
    for number in range(0, layout.rows, 2):
        yield (
            f'<rect class="row" x="0" y="{TOP + number * ROW}" '
            f'width="{layout.right + 24:g}" height="{ROW}"/>'
        )


def _grid(axis: Axis, layout: Layout) -> Iterator[str]:
    """The ticks of the axis, with their labels above the rows."""
    longest = max(len(axis.label(axis.low)), len(axis.label(axis.high)), 4)
    most = max(2, int(layout.width / (longest * LETTER + 24)))
    for place in axis.ticks(most):
        x = layout.x(axis.fraction(place))
        yield (
            f'<line class="grid" x1="{x:.1f}" x2="{x:.1f}" y1="{TOP - 6}" '
            f'y2="{layout.bottom:g}"/>'
        )
        label = escape(axis.label(place))
        yield (
            f'<text class="tick" x="{x:.1f}" y="{TOP - 12}" '
            f'text-anchor="middle">{label}</text>'
        )


def _row(line: Timeline, number: int, axis: Axis, layout: Layout) -> Iterator[str]:
    """A timeline: its label, and its stretches."""
    top = TOP + number * ROW
    yield f'<g class="line" data-row="{number}">'
    label = escape(short(line.label))
    yield (
        f'<text x="{layout.left - 12:g}" y="{top + 16}" text-anchor="end">{label}'
        f"<title>{escape(line.label)}</title></text>"
    )
    for stretch in line.stretches:
        yield from _stretch(line, stretch, top + (ROW - BAR) // 2, axis, layout)
    yield "</g>"


def _stretch(
    line: Timeline, stretch: Stretch, y: int, axis: Axis, layout: Layout
) -> Iterator[str]:
    """A stretch, unless it lies outside the axis."""
    start, end = _places(stretch, axis)
    if (end is not None and end < axis.low) or (
        start is not None and start > axis.high
    ):
        return
    left, right = (layout.x(fraction) for fraction in cut(axis, start, end))
    told = escape(f"{line.label}\n{line.words_of(stretch)}")
    name = quoteattr(f"stretch {stretch.kind}")
    yield f"<g class={name}><title>{told}</title>"
    yield _body(stretch, left, max(right, left + 1.5), y)
    if start is not None and start >= axis.low:
        yield _edge("start", left, y)
    if stretch.kind == CLOSED and end is not None and end <= axis.high:
        yield _edge("end", right, y)
    yield "</g>"


def _body(stretch: Stretch, left: float, right: float, y: int) -> str:
    if stretch.kind in (CLOSED, BROKEN):
        return (
            f'<rect x="{left:.1f}" y="{y}" width="{right - left:.1f}" height="{BAR}"/>'
        )
    tip = min(8.0, right - left)
    middle, low = y + BAR / 2, y + BAR
    return (
        f'<path d="M{left:.1f} {y} H{right - tip:.1f} L{right:.1f} {middle:g} '
        f'L{right - tip:.1f} {low:g} H{left:.1f} Z"/>'
    )


def _edge(name: str, x: float, y: int) -> str:
    top, low = y - 2, y + BAR + 2
    return f'<line class="{name}" x1="{x:.1f}" x2="{x:.1f}" y1="{top}" y2="{low}"/>'


def _places(stretch: Stretch, axis: Axis) -> Tuple[Optional[int], Optional[int]]:
    def place(moment: Optional[Moment]) -> Optional[int]:
        return None if moment is None else axis.place(moment)

    return place(stretch.start), place(stretch.end)


def _legend(layout: Layout) -> List[str]:
    """What the three kinds of stretches look like."""
    parts, x, y = [], 12.0, int(layout.bottom) + 24
    for kind, words in LEGEND:
        if x > 12.0 and x + 48 + len(words) * LETTER > layout.right + 24:
            x, y = 12.0, y + 20
        body = _body(Stretch(kind, None, None), x, x + 30, y)
        parts.append(f'<g class="stretch {kind}">{body}</g>')
        parts.append(f'<text x="{x + 38:g}" y="{y + 10}">{escape(words)}</text>')
        x += 38 + len(words) * LETTER + 24
    return parts
