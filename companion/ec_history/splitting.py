"""`ec-history split`: by which arguments a theory falls apart, or why it does not."""

from __future__ import annotations

import argparse
import sys
from typing import Iterator, List, Set, Tuple

from .common import SubParsers, accepted_theory
from .errors import HistoryError
from .keys import EVENT, PROPERTY, Form, Keys, Obstacle, Split
from .program import add_program
from .theory import Clause, Exclusive, Rule, Theory

DESCRIPTION = """\
Finds by which arguments a theory falls apart into parts that nothing reads across, as
the copies of a library: each event, and each property, has the key of its part at one
place, or goes to all parts. `ec-history import --into` then writes a file of lines for
each part. Where a theory does not fall apart, the rules are told that stand in the way;
the status is then 1."""
EXAMPLE = """\
example:
  ec-history split examples/loans.ec
"""
MOST_TOLD = 8
"""Obstacles that are told of events that are linked with each other."""


def add_parser(subparsers: SubParsers) -> None:
    """Adds the command `split`."""
    parser = subparsers.add_parser(
        "split",
        help="find the argument by which a theory falls apart into parts",
        description=DESCRIPTION,
        epilog=EXAMPLE,
        formatter_class=argparse.RawDescriptionHelpFormatter,
    )
    parser.add_argument("theory", metavar="THEORY", help="the theory's file")
    add_program(parser)
    parser.set_defaults(run=run)


def run(args: argparse.Namespace) -> int:
    """Writes the places of the key; 1 where the theory does not fall apart."""
    theory = accepted_theory(args.theory, args.program)
    split = Keys(theory).split()
    if split.falls_apart:
        print(f"{args.theory} falls apart by the argument KEY:")
        for line in places_told(split):
            print(f"  {line}")
    else:
        print(f"{args.theory} does not fall apart:")
    for line in obstacles_told(theory, split):
        print(f"  {line}")
    return 0 if split.falls_apart else 1


def required(theory: Theory, path: str) -> Split:
    """The places of the key, of a theory that falls apart; raises HistoryError."""
    split = Keys(theory).split()
    if not split.falls_apart:
        for line in obstacles_told(theory, split):
            print(f"{path}: {line}", file=sys.stderr)
        raise HistoryError(
            f"{path} does not fall apart, so its events are one part: leave --into out"
        )
    return split


def places_told(split: Split) -> Iterator[str]:
    """The events and properties of a theory, each with its key."""
    words = {
        (EVENT, True): "event, to one part",
        (PROPERTY, True): "property, in one part",
        (EVENT, False): "event, to all parts",
        (PROPERTY, False): "property, in all parts",
    }
    for (kind, has_key), what in words.items():
        for form, place in split.places.items():
            if form.kind == kind and (place is not None) == has_key:
                yield f"{what:<24}{form.shown(place)}"


def obstacles_told(theory: Theory, split: Split) -> Iterator[str]:
    """Why events have no key, in words: for each argument what stands in the way."""
    keys = Keys(theory)
    for group in keys.groups():
        if all(split.places[f] is None for f in group if f.kind == EVENT):
            yield from _group_told(keys, group)


def _group_told(keys: Keys, group: List[Form]) -> Iterator[str]:
    """What stands in the way of a key in forms that are linked with each other."""
    told: Set[Tuple[str, str]] = set()
    for form in group:
        if form.kind == PROPERTY:
            for place in range(form.arity):
                words = obstacle_words(keys, form, place)
                if (form.name, words) not in told and len(told) < MOST_TOLD:
                    told.add((form.name, words))
                    yield f"not by {form.shown(place)}: {words}"
    if not told:
        names = ", ".join(form.shown(None) for form in group if form.kind == EVENT)
        yield f"no property that {names} starts or ends has an argument"


def obstacle_words(keys: Keys, form: Form, place: int) -> str:
    """Why a property can't have its key at a place, in words."""
    if form in keys.initial:
        return _initial_words(keys, form)
    obstacle = keys.obstacle(form, place)
    if obstacle is None:
        return "no places of the other events and properties fit it"
    link = obstacle.link
    for other in (link.left_form, link.right_form):
        if other in keys.initial:
            return f"{_where(link.clause)}, and {_initial_words(keys, other)}"
    return f"{_where(link.clause)}: {_reason(obstacle)}"


def _initial_words(keys: Keys, form: Form) -> str:
    clause = keys.initial[form]
    return (
        f"{form.shown(None)} is there initially (line {clause.line}), in all parts, so "
        "it has no key"
    )


def _where(clause: Clause) -> str:
    name = f"rule {clause.number}" if isinstance(clause, Rule) else "the declaration"
    return f"{name} (line {clause.line}), `{' '.join(clause.text.split())}`"


def _reason(obstacle: Obstacle) -> str:
    """Why the two patterns of a link can't have the same key."""
    link, lefts, rights = obstacle
    if isinstance(link.clause, Exclusive):
        return f"{link.left} and {link.right} have not the same key"
    what = "condition" if link.is_condition else "event"
    if lefts == (None,):
        return f"the {what} {link.right} has a key, and {link.left} could have none"
    if not any(place in link.right.places for place in link.left.places):
        return f"the {what} {link.right} does not name the key of {link.left}"
    if rights == (None,):
        return f"{link.left} has a key, and the {what} {link.right} could have none"
    return (
        f"the {what} {link.right} has another argument as its key, by other rules, "
        f"than {link.left}"
    )
