"""`ec-history draw`: timelines as a picture, a page, or text."""

from __future__ import annotations

import argparse
import os
import shutil
import stat
import sys
from itertools import chain
from typing import List, Optional, Sequence, Tuple

from .axis import axis_of
from .chart import chart_of
from .common import SubParsers, add_history, add_workers, read_pattern, tell_doubt
from .errors import HistoryError, TermError
from .keys import PROPERTY
from .moments import Moment
from .page import page_of
from .sources import Source, source_of
from .svg import layout_of, svg_of
from .timelines import Course, courses_of, merged, timeline_of
from .wording import Wording, add_wording, shown_by

DESCRIPTION = """\
Draws a timeline for each property that fits one of the patterns and ever started: where
it holds, where it holds without an end, and where its start is broken, so that nobody
knows when it ended. In a picture (.svg) what is pointed at tells its stretch and why;
in a page (.html) each instant of each property does."""
EXAMPLE = """\
example:
  ec-history draw beds.ec beds.lines 'in(_,_)' > beds.svg
  ec-history draw beds.ec beds.lines 'in(_,_)' --output beds.html
"""

FORMATS = ("text", "svg", "html")
MOST_ROWS = 500


def add_parser(subparsers: SubParsers) -> None:
    """Adds the command `draw`."""
    parser = subparsers.add_parser(
        "draw",
        help="timelines as a picture, a page, or text",
        description=DESCRIPTION,
        epilog=EXAMPLE,
        formatter_class=argparse.RawDescriptionHelpFormatter,
    )
    add_history(parser)
    parser.add_argument(
        "patterns", metavar="PATTERN", nargs="+", help="as in(bed7,_); _ fits all"
    )
    parser.add_argument(
        "--output", metavar="FILE", help="where to write (else standard output)"
    )
    parser.add_argument(
        "--format",
        choices=FORMATS,
        help="else by the name of the file; text where no file is asked for",
    )
    parser.add_argument("--from", dest="first", metavar="T", help="where to begin")
    parser.add_argument("--to", dest="last", metavar="T", help="where to end")
    parser.add_argument(
        "--rows", type=int, default=MOST_ROWS, help=f"the most to draw ({MOST_ROWS})"
    )
    parser.add_argument(
        "--width", type=int, metavar="N", help="points of the axis, columns of a text"
    )
    parser.add_argument("--title", help="(the file and the patterns)")
    add_wording(parser)
    add_workers(parser)
    parser.set_defaults(run=run)


def run(args: argparse.Namespace) -> int:
    """Writes the picture."""
    form = args.format or form_of(args.output or name_of_output())
    shown = shown_by(args)
    patterns = [shown.unquoted(pattern) for pattern in args.patterns]
    for pattern in patterns:
        read_pattern(pattern)  # what is no pattern is told before the lines are read
    with source_of(args) as source:
        wording = shown.wording(source.theory)
        text = draw(source, wording, patterns, args, form)
    if args.output is None:
        sys.stdout.write(text)
        return 0
    try:
        with open(args.output, "w", encoding="utf-8") as file:
            file.write(text)
    except OSError as fault:
        raise HistoryError(
            f"{args.output} can't be written: {fault.strerror}"
        ) from None
    return 0


def form_of(name: Optional[str]) -> str:
    """The format for a file of a name; text where there is no file."""
    if name is None:
        return "text"
    ending = os.path.splitext(name)[1].lower()
    return {".html": "html", ".htm": "html", ".txt": "text"}.get(ending, "svg")


def name_of_output() -> Optional[str]:
    """The name of the file that standard output goes to; None where it is none.

    So `> beds.html` is a page. Where the name of a file can't be known it is empty.
    """
    try:
        number = sys.stdout.fileno()
        if not stat.S_ISREG(os.fstat(number).st_mode):
            return None
    except (OSError, ValueError):
        return None
    try:
        return os.readlink(f"/proc/self/fd/{number}")
    except OSError:
        return ""


def draw(
    source: Source,
    wording: Wording,
    patterns: Sequence[str],
    args: argparse.Namespace,
    form: str,
) -> str:
    """The picture, the page or the text, as the words of the command ask for it."""
    courses, count = _courses(source, patterns, args.rows)
    lines = [timeline_of(course, wording) for course in courses]
    if count > len(lines):
        print(
            f"ec-history: {count} properties fit, and {len(lines)} are drawn: name "
            f"fewer by the pattern, or take --rows {count}",
            file=sys.stderr,
        )
    first, last = (_moment(wording, text) for text in (args.first, args.last))
    if first is not None and last is not None:
        if source.clock.rank(first) >= source.clock.rank(last):
            raise HistoryError("--from is not before --to; exchange the two times")
    moments = [moment for line in lines for moment in line.moments()]
    axis = axis_of(wording, moments, first, last)
    asked = ", ".join(p for p in args.patterns if p != "_") or "all properties"
    title = args.title or f"{os.path.basename(args.lines)}: {asked}"
    if form == "text":
        width = args.width or shutil.get_terminal_size((100, 24)).columns
        return "".join(line + "\n" for line in chart_of(lines, axis, width))
    layout = layout_of(lines, args.width or 900)
    if form == "html":
        return page_of(lines, axis, title, layout)
    return svg_of(lines, axis, title, layout)


def _courses(
    source: Source, texts: Sequence[str], most: int
) -> Tuple[List[Course], int]:
    """The courses that fit the patterns, in their order; and how many there are."""
    patterns = [read_pattern(text) for text in texts]
    for pattern in patterns:
        tell_doubt(source.theory, pattern)
    asked = patterns[0] if len(patterns) == 1 else None
    found = source.rows(PROPERTY, asked, courses_of, patterns, most)
    return merged(chain.from_iterable(found), most)


def _moment(wording: Wording, text: Optional[str]) -> Optional[Moment]:
    try:
        return None if text is None else wording.read_moment(text)
    except TermError as fault:
        raise HistoryError(str(fault)) from None
