"""A theory and a file of lines, told to a running `ec`: what other commands ask about.

The events are those that `ec` says are present, so what it refused is not among them.
Which properties there are follows from the theory alone: the heads of the rules that
the events meet, and the initial properties. All else is asked of `ec`.
"""

from __future__ import annotations

import sys
from dataclasses import dataclass, field
from functools import cached_property
from typing import Callable, Dict, Iterable, Iterator, List, NamedTuple, Optional, Set
from typing import Tuple, TypeVar

from .client import Server
from .errors import HistoryError
from .lines import is_quit, shape_of
from .progress import Progress
from .refusals import refusal_words
from .replies import Event
from .terms import Binding, Pattern, Term
from .theory import Rule, Theory


Row = TypeVar("Row")


class Entry(NamedTuple):
    """A rule that an event meets, with the values of its variables."""

    event: Event
    rule: Rule
    binding: Binding

    @property
    def head(self) -> Term:
        """The property that the event starts or ends by this rule, if it is met."""
        return self.rule.head.fill(self.binding)


class Refusal(NamedTuple):
    """A line that was refused: its number, from 1, its text, and the reply."""

    number: int
    line: str
    reply: str


@dataclass
class Telling:
    """What became of the lines of a file."""

    path: str
    lines: int = 0
    refusals: List[Refusal] = field(default_factory=list)
    behind_quit: int = 0
    drafted: Dict[int, int] = field(default_factory=dict)

    def warnings(self) -> Iterator[str]:
        """What a reader of answers should know of the lines, in words."""
        if self.refusals:
            first = self.refusals[0]
            code, *detail = first.reply.partition("refused ")[2].split(" ")
            if code == "commit":
                code, *detail = detail[1:]
            reason = refusal_words(code, detail[0] if detail else None)
            count = len(self.refusals)
            many = "1 line was" if count == 1 else f"{count:,} lines were"
            yield (
                f"{self.path}: {many} refused and changed nothing. The first is line "
                f"{first.number}, {first.line!r}: {reason}"
            )
        for session, count in sorted(self.drafted.items()):
            updates = "1 update counts" if count == 1 else f"{count:,} updates count"
            yield (
                f"{self.path}: the draft of session {session} was not committed, so "
                f"its {updates} for nothing. Add `commit`"
            )
        if self.behind_quit:
            count = self.behind_quit
            lines = "1 line stands" if count == 1 else f"{count:,} lines stand"
            were = "was" if count == 1 else "were"
            yield f"{self.path}: {lines} behind `quit` and {were} not read. Take it out"


class History:
    """The events of a file under a theory, and the server that answers about them."""

    def __init__(self, server: Server) -> None:
        self.server = server
        self.session = server.main
        self.theory: Theory = server.theory
        self.clock = server.clock

    @cached_property
    def events(self) -> List[Event]:
        """The events that are present, by time and then by identity."""
        return self.session.events()

    @cached_property
    def _by_identity(self) -> Dict[str, Event]:
        return {event.identity: event for event in self.events}

    def event(self, identity: str) -> Event:
        """The event of an identity, which is present."""
        return self._by_identity[identity]

    def owns_property(self, term: Term) -> bool:
        """Whether this history answers about a property: all do, of a whole one."""
        return True

    def own_events(self) -> Iterable[Event]:
        """The events that this history tells: all, of a whole one."""
        return self.events

    def candidates(self, pattern: Optional[Pattern] = None) -> List[Term]:
        """The properties that may have started and fit a pattern, in `ec`'s order.

        A pattern without variables and `_` is a property, and is the one candidate.
        """
        if pattern is not None and pattern.is_ground():
            return [pattern.fill({})]
        return sorted(
            term
            for term in self._startable(pattern)
            if (pattern is None or pattern.match(term) is not None)
            and self.owns_property(term)
        )

    def _startable(self, pattern: Optional[Pattern]) -> Set[Term]:
        """The initial properties, and those that events start by rules that they meet.

        With a pattern, only rules for properties of its name are looked at.
        """
        found = set(self.theory.initial_properties())
        rules: Dict[Tuple[str, int], List[Rule]] = {}
        for rule in self.theory.rules:
            head = rule.head
            fits = pattern is None or (pattern.name, pattern.arity) == head.shape
            if rule.initiates and fits:
                rules.setdefault(rule.event.shape, []).append(rule)
        with Progress("events matched with rules") as progress:
            for event in self.events if rules else ():
                for rule in rules.get(event.term.shape, ()):
                    binding = rule.meets(event.term)
                    if binding is not None:
                        found.add(rule.head.fill(binding))
                progress.step()
        return found

    def rows(
        self,
        _kind: str,
        _pattern: Optional[Pattern],
        work: Callable[..., Iterable[Row]],
        *words: object,
    ) -> List[Iterable[Row]]:
        """What some work finds in this history; see `sources.Source`."""
        return [work(self, *words)]

    def ask_all(self, commands: Iterable[str], what: str) -> Iterator[str]:
        """The replies to many queries, with progress told as so many of `what`."""
        with Progress(what) as progress:
            for reply in self.session.ask_all(commands):
                progress.step()
                yield reply


def doubt(theory: Theory, pattern: Pattern) -> Optional[str]:
    """Why no property can fit a pattern, in words, where the theory tells."""
    shapes = {(r.head.name, r.head.arity) for r in theory.rules if r.initiates}
    shapes |= {(t.name, t.arity) for t in theory.initial_properties()}
    if (pattern.name, pattern.arity) in shapes:
        return None
    known = ", ".join(f"{name}/{arity}" for name, arity in sorted(shapes))
    count = "1 argument" if pattern.arity == 1 else f"{pattern.arity} arguments"
    return f"no rule starts {pattern.name} with {count}; the theory has {known}"


def tell(server: Server, path: str) -> Telling:
    """Tells the lines of a file (`-` is standard input) to a server, up to a `quit`."""
    telling = Telling(path)
    with Progress(f"{path}: lines told") as progress:
        for played in server.play(_lines_up_to_quit(path, telling)):
            progress.step()
            if played.reply is None:
                continue
            reply = played.reply.partition(" ")[2] if played.reply[0] == "@" else None
            reply = reply or played.reply
            if reply.startswith("refused"):
                line = played.line.decode("utf-8", "backslashreplace").rstrip("\r")
                telling.refusals.append(Refusal(played.number, line, reply))
            elif reply.startswith("drafted "):
                session = shape_of(played.line).session or 0
                telling.drafted[session] = int(reply.split(" ")[1])
            elif reply == "ok" and telling.drafted:
                shape = shape_of(played.line)
                if shape.command in (b"commit", b"abort"):
                    telling.drafted.pop(shape.session or 0, None)
    return telling


def _lines_up_to_quit(path: str, telling: Telling) -> Iterator[bytes]:
    """The lines of a file as `ec` cuts them, up to a `quit` and without it."""
    quitting = False
    for line in _lines(path):
        if quitting:
            telling.behind_quit += not shape_of(line).silent
        elif is_quit(line):
            quitting = True
        else:
            telling.lines += 1
            yield line


def _lines(path: str) -> Iterator[bytes]:
    """The lines of a file without their line feeds.

    A carriage return at the end of a last line without line feed is no part of a line
    end, so it gets another behind it, which is dropped in its place.
    """
    try:
        file = sys.stdin.buffer if path == "-" else open(path, "rb")
    except OSError as fault:
        raise HistoryError(f"{path} can't be read: {fault.strerror}") from None
    with file:
        for line in file:
            if line.endswith(b"\n"):
                yield line[:-1]
            elif line.endswith(b"\r"):
                yield line + b"\r"
            else:
                yield line
