"""`ec-history why`: the whole reason why a property holds, or why it does not."""

from __future__ import annotations

import argparse
import json
import sys
from typing import Dict, Iterator, Optional

from .common import SubParsers, add_history, add_workers, read_pattern
from .errors import HistoryError, TermError
from .history import History
from .keys import PROPERTY
from .moments import Moment
from .reasons import Explainer, Key, Node
from .sources import source_of
from .telling import Teller, json_of
from .terms import Pattern, Term
from .wording import add_wording, shown_by

DESCRIPTION = """\
Tells why a property holds at a time, or why it does not: the event and the rule that
started it, what ended or broke it, and the conditions that were read, each with its own
reason, down to events without conditions. Of a property that does not hold it tells
each event that could have started it, with the condition that failed.

A condition asks whether a property is current: started before, and neither ended nor
broken since. What is current holds, unless a later event shows that nobody knows when
it ended; the tree says so where it is the case."""
EXAMPLE = """\
example:
  ec-history why audit.ec audit.lines 'signed(r17)' 30
"""


def add_parser(subparsers: SubParsers) -> None:
    """Adds the command `why`."""
    parser = subparsers.add_parser(
        "why",
        help="why a property holds or does not, down to the first events",
        description=DESCRIPTION,
        epilog=EXAMPLE,
        formatter_class=argparse.RawDescriptionHelpFormatter,
    )
    add_history(parser)
    parser.add_argument("property", metavar="PROPERTY", help="as signed(r17)")
    parser.add_argument("time", metavar="T", help="the time that is asked about")
    parser.add_argument(
        "--depth", type=int, metavar="N", help="tell N levels of conditions, not all"
    )
    parser.add_argument(
        "--format", choices=("text", "json"), default="text", help="(text)"
    )
    add_wording(parser)
    add_workers(parser)
    parser.set_defaults(run=run)


def _property(text: str) -> Term:
    pattern = read_pattern(text)
    if pattern is None or not pattern.is_ground():
        raise HistoryError(
            f"{text} is a pattern, and one property is told at a time. "
            f"`ec-history ask THEORY LINES 'why {text} T'` asks about all that fit it"
        )
    return pattern.fill({})


def _nodes(
    history: History, property: Term, instant: Moment, depth: Optional[int]
) -> Iterator[Dict[Key, Node]]:
    """The whole reason, found in the history that has all that it rests on."""
    yield Explainer(history).explain(property, instant, depth)


def run(args: argparse.Namespace) -> int:
    """Writes the tree to standard output."""
    shown = shown_by(args)
    property = _property(shown.unquoted(args.property))
    depth: Optional[int] = args.depth
    with source_of(args) as source:
        wording = shown.wording(source.theory)
        try:
            instant = wording.read_moment(args.time)
        except TermError as fault:
            raise HistoryError(str(fault)) from None
        pattern = Pattern(property.name, property.arguments)
        (found,) = source.rows(PROPERTY, pattern, _nodes, property, instant, depth)
        (nodes,) = found
        if args.format == "json":
            json.dump(json_of(nodes, wording), sys.stdout, ensure_ascii=False, indent=1)
            print()
        else:
            Teller(nodes, wording, sys.stdout).tell()
    return 0
