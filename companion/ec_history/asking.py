"""`ec-history ask`: questions with patterns, over many properties."""

from __future__ import annotations

import argparse
import heapq
import sys
from collections import Counter
from functools import partial
from itertools import groupby
from typing import Any, Callable, Dict, Iterable, Iterator, List, NamedTuple, Optional
from typing import Tuple

from .common import SubParsers, add_history, add_workers, read_pattern, tell_doubt
from .errors import HistoryError, TermError
from .history import History
from .keys import EVENT, PROPERTY
from .moments import Moment
from .replies import (
    Cause,
    Event,
    read_broken,
    read_intervals,
    read_reason,
    read_terms,
    read_yes,
)
from .sources import Source, source_of
from .tables import FORMATS, Cell, Table
from .terms import Argument, Pattern, Term, is_name, number_value
from .wording import Wording, add_wording, shown_by

DESCRIPTION = """\
Asks about the properties that fit a pattern, where _ stands for anything. The question
is one word of the shell, in quotes. With --map or --names a text in double quotes
stands for its name, as in("B3 West 12",_).

questions:
  at T [PATTERN]         the properties that hold at the time T
  holds PATTERN T        of each property, whether it holds at T
  through PATTERN S E    of each property, whether it holds at each time from S to E
  intervals PATTERN      the stretches in which they hold: after START, up to END
  broken PATTERN         starts that were broken, so that nobody knows their end
  why PATTERN T          of each property, why it holds at T or why it does not
  properties [PATTERN]   all that ever started: how many intervals, and broken starts
  mentions X             the events that name X: an argument, an event or its identity
  events [PATTERN]       the events
  clashes                the instants at which two start that exclude each other
  count PATTERN T        how many hold at T, for each value of the pattern's variables:
                         `count in(_,Ward) 20` counts by ward
"""
EXAMPLE = """\
example:
  ec-history ask hospital.ec hospital.lines 'at 20 in(b3_west_12,_)'
"""

Rows = Iterator[List[Cell]]
Found = Any
"""What a history answers, before it is put into words; it can be sent to a process."""
_PROPERTY = ["property", "name", "arguments"]
_LISTS = ("name", "arguments")
_HIDDEN = {"text": _LISTS, "tsv": _LISTS}


def _told_by_words(*columns: str) -> Dict[str, Tuple[str, ...]]:
    """What is hidden where a column of words says in a text what these columns hold."""
    return {"text": (*_LISTS, *columns), "tsv": _LISTS}


class Query(NamedTuple):
    """A question in the words of `ec`: its pattern, its times, or the word it names.

    `moment` is the last of the times.
    """

    pattern: Optional[Pattern] = None
    times: Tuple[str, ...] = ()
    moment: Moment = 0
    word: str = ""


# What is asked of a history, of one file or of a part. All is found in an order of its
# own, so that what several parts have found can be merged.


def _find_at(history: History, query: Query) -> Iterator[Term]:
    for term in read_terms(history.session.ask(f"at {query.times[0]}")):
        if query.pattern is None or query.pattern.match(term) is not None:
            if history.owns_property(term):
                yield term


def _find_replies(
    history: History, query: Query, *commands: str
) -> Iterator[Tuple[Term, List[str]]]:
    """The replies to these queries about each property."""
    terms = history.candidates(query.pattern)
    behind = "".join(f" {time}" for time in query.times)
    replies = history.ask_all(
        (f"{command} {term}{behind}" for term in terms for command in commands),
        "queries answered",
    )
    for term in terms:
        yield term, [next(replies) for _ in commands]


def _find_events(history: History, query: Query) -> Iterator[Event]:
    for event in history.own_events():
        if query.pattern is None or query.pattern.match(event.term) is not None:
            yield event


def _find_mentions(history: History, query: Query) -> Iterator[Event]:
    word, number = query.word, number_value(query.word)
    for event in history.own_events():
        term = event.term
        if number is not None:
            named = number in term.arguments
        else:
            named = word in (event.identity, term.name) or word in term.arguments
        if named:
            yield event


def _find_clashes(history: History, _query: Query) -> Iterator[Moment]:
    return iter(history.session.clashes())


def _find_counts(
    history: History, query: Query
) -> Iterator[Tuple[Tuple[Argument, ...], int]]:
    assert query.pattern is not None
    variables = query.pattern.variables()
    counts: Dict[Tuple[Argument, ...], int] = Counter()
    for term in _find_at(history, query):
        binding = query.pattern.match(term)
        assert binding is not None
        counts[tuple(binding[name] for name in variables)] += 1
    return iter(counts.items())


# How what was found is put into words.


class Telling(NamedTuple):
    """A query and the words to answer it with."""

    query: Query
    wording: Wording

    def cells(self, term: Term) -> List[Cell]:
        """The cells that name a property: its text, its name and its arguments."""
        arguments: List[Argument] = []
        for argument in term.arguments:
            is_number = isinstance(argument, int)
            arguments.append(argument if is_number else self.wording.argument(argument))
        return [self.wording.term(term), term.name, list(arguments)]

    def row(
        self, term: Term, ends: Iterable[Optional[Moment]], words: str
    ) -> List[Cell]:
        """The cells of a property and a stretch."""
        return [*self.cells(term), *map(self.wording.cell, ends), words]

    def cause(self, cause: Optional[Cause]) -> List[Cell]:
        """The cells of an event and a rule."""
        if cause is None:
            return [None, None]
        return [self.wording.identity(cause.event), cause.rule]


def _tell_terms(telling: Telling, found: Iterable[Term]) -> Table:
    return Table(_PROPERTY, map(telling.cells, found), _HIDDEN)


def _tell_yes(telling: Telling, found: Iterable[Found]) -> Table:
    rows = ([*telling.cells(term), read_yes(reply)] for term, (reply,) in found)
    return Table([*_PROPERTY, "holds"], rows, _HIDDEN)


def _tell_intervals(telling: Telling, found: Iterable[Found]) -> Table:
    wording = telling.wording

    def rows() -> Rows:
        for term, (reply,) in found:
            for interval in read_intervals(reply, wording.clock):
                yield telling.row(term, interval, wording.stretch(interval))

    columns = [*_PROPERTY, "start", "end", "words"]
    return Table(columns, rows(), _told_by_words("start", "end"))


def _tell_broken(telling: Telling, found: Iterable[Found]) -> Table:
    wording = telling.wording

    def rows() -> Rows:
        for term, (reply,) in found:
            for broken in read_broken(reply, wording.clock):
                yield telling.row(term, broken, wording.broken_stretch(broken))

    columns = [*_PROPERTY, "start", "broken", "words"]
    return Table(columns, rows(), _told_by_words("start", "broken"))


def _tell_why(telling: Telling, found: Iterable[Found]) -> Table:
    wording = telling.wording

    def rows() -> Rows:
        for term, (reply,) in found:
            reason = read_reason(reply, telling.query.moment, wording.clock)
            ends = map(wording.cell, (reason.start, reason.end))
            causes = [*telling.cause(reason.by), *telling.cause(reason.until)]
            words = wording.reason(reason)
            yield [*telling.cells(term), reason.kind, *ends, *causes, words]

    told = ["reason", "start", "end", "by", "by_rule", "until", "until_rule"]
    return Table([*_PROPERTY, *told, "words"], rows(), _told_by_words(*told))


def _tell_properties(telling: Telling, found: Iterable[Found]) -> Table:
    def rows() -> Rows:
        for term, replies in found:
            held, broke = (int(reply.split(" ", 1)[0]) for reply in replies)
            if held or broke:
                words = f"{held:,} interval" + "s" * (held != 1)
                if broke:
                    words += f", {broke:,} broken start" + "s" * (broke != 1)
                yield [*telling.cells(term), held, broke, words]

    told = ["intervals", "broken"]
    return Table([*_PROPERTY, *told, "words"], rows(), _told_by_words(*told))


def _tell_events(telling: Telling, found: Iterable[Event]) -> Table:
    wording = telling.wording

    def rows() -> Rows:
        for identity, time, term in found:
            shown = wording.identity(identity)
            yield [shown, wording.cell(time), *telling.cells(term)]

    columns = ["event", "time", "what", "name", "arguments"]
    return Table(columns, rows(), _HIDDEN)


def _tell_clashes(telling: Telling, found: Iterable[Moment]) -> Table:
    instants = (instant for instant, _ in groupby(found))  # parts may share an instant
    return Table(["time"], ([telling.wording.cell(instant)] for instant in instants))


def _tell_counts(telling: Telling, found: Iterable[Found]) -> Table:
    assert telling.query.pattern is not None
    variables = telling.query.pattern.variables()
    counts: Dict[Tuple[Argument, ...], int] = Counter()
    for values, count in found:
        counts[values] += count
    if not variables:
        counts[()] += 0  # a count of none is told too
    order = sorted(counts, key=lambda values: Term("x", values).sort_key())

    def rows() -> Rows:
        for values in order:
            shown: List[Cell] = [telling.wording.argument(value) for value in values]
            yield [*shown, counts[values]]

    return Table([*variables, "count"], rows())


def _by_term(found: Found) -> object:
    return (found if isinstance(found, Term) else found[0]).sort_key()


def _by_time(event: Event) -> object:
    return event.time, event.identity


def _by_itself(found: Found) -> object:
    return found


def _unordered(_found: Found) -> object:
    return 0


class Question(NamedTuple):
    """A question: what finds its answer, the order of that, and what tells it.

    In `form` stands how it is asked; its last words in brackets may be left out. `kind`
    is that of its pattern.
    """

    form: str
    find: Callable[..., Iterator[Found]]
    order: Callable[[Found], Any]
    tell: Callable[[Telling, Iterable[Found]], Table]
    kind: str = PROPERTY

    def words(self) -> Tuple[int, int]:
        """How many words may stand behind its name, at least and at most."""
        most = self.form.count(" ")
        return most - self.form.count("["), most


def _replies(*commands: str) -> Callable[..., Iterator[Found]]:
    return partial(_find_replies_to, commands)


def _find_replies_to(
    commands: Tuple[str, ...], history: History, query: Query
) -> Iterator[Found]:
    return _find_replies(history, query, *commands)


QUESTIONS = {
    question.form.split(" ")[0]: question
    for question in (
        Question("at T [PATTERN]", _find_at, _by_term, _tell_terms),
        Question("holds PATTERN T", _replies("holds"), _by_term, _tell_yes),
        Question("through PATTERN S E", _replies("through"), _by_term, _tell_yes),
        Question("intervals PATTERN", _replies("intervals"), _by_term, _tell_intervals),
        Question("broken PATTERN", _replies("broken"), _by_term, _tell_broken),
        Question("why PATTERN T", _replies("why"), _by_term, _tell_why),
        Question(
            "properties [PATTERN]",
            _replies("intervals", "broken"),
            _by_term,
            _tell_properties,
        ),
        Question("mentions X", _find_mentions, _by_time, _tell_events, EVENT),
        Question("events [PATTERN]", _find_events, _by_time, _tell_events, EVENT),
        Question("clashes", _find_clashes, _by_itself, _tell_clashes),
        Question("count PATTERN T", _find_counts, _unordered, _tell_counts),
    )
}


def question_of(text: str) -> Tuple[Question, List[str]]:
    """The question that a text asks, and its words. Raises `HistoryError` for none."""
    name, *words = text.split() or [""]
    question = QUESTIONS.get(name)
    if question is None:
        raise HistoryError(
            f"{name!r} is no question; there are {', '.join(QUESTIONS)} "
            "(`ec-history ask --help` says what they mean)"
        )
    least, most = question.words()
    if not least <= len(words) <= most:
        raise HistoryError(f"the question {text!r} is asked as `{question.form}`")
    return question, words


def query_of(question: Question, words: List[str], wording: Wording) -> Query:
    """What a question asks, its words read by their places in its form."""
    query = Query()
    for place, word in zip(question.form.split(" ")[1:], words):
        place = place.strip("[]")
        if place == "PATTERN":
            query = query._replace(pattern=read_pattern(word))
        elif place == "X":
            if number_value(word) is None and not is_name(word):
                raise HistoryError(
                    f"{word!r} is no name and no number, so no event names it. Ask for "
                    "one argument, as `mentions ann`"
                )
            query = query._replace(word=word)
        else:
            try:
                moment = wording.read_moment(word)
            except TermError as fault:
                raise HistoryError(str(fault)) from None
            times = (*query.times, wording.clock.write(moment))
            query = query._replace(times=times, moment=moment)
    if question.find is _find_counts and query.pattern is None:
        raise HistoryError("a pattern is expected behind `count`, as in(_,Ward)")
    return query


def answer(source: Source, wording: Wording, text: str) -> Table:
    """The rows that answer a question."""
    question, words = question_of(text)
    query = query_of(question, words, wording)
    if question.kind == PROPERTY:
        tell_doubt(source.theory, query.pattern)
    found = source.rows(question.kind, query.pattern, question.find, query)
    merged = heapq.merge(*found, key=question.order)
    return question.tell(Telling(query, wording), merged)


def add_parser(subparsers: SubParsers) -> None:
    """Adds the command `ask`."""
    parser = subparsers.add_parser(
        "ask",
        help="questions with patterns, over many properties",
        description=DESCRIPTION,
        epilog=EXAMPLE,
        formatter_class=argparse.RawDescriptionHelpFormatter,
    )
    add_history(parser)
    parser.add_argument("question", metavar="QUESTION", help="one word, as above")
    parser.add_argument(
        "--format", choices=FORMATS, default="text", help="how to write the rows (text)"
    )
    add_wording(parser)
    add_workers(parser)
    parser.set_defaults(run=run)


def run(args: argparse.Namespace) -> int:
    """Writes the answer to standard output."""
    shown = shown_by(args)
    question = shown.unquoted(args.question)
    question_of(question)  # what is no question is told before the lines are read
    with source_of(args) as source:
        wording = shown.wording(source.theory)
        answer(source, wording, question).write(sys.stdout, args.format)
    return 0
