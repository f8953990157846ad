"""The replies of `ec`, read into typed results.

Rows of lists are named tuples, so that `pandas.DataFrame(rows)` takes them as they are.
Times are `Moment`s of the theory's clock: whole numbers of its unit, or datetimes.
"""

from __future__ import annotations

from dataclasses import dataclass
from typing import List, NamedTuple, Optional

from .errors import HistoryError
from .moments import Clock, Moment
from .terms import Term


class UnexpectedReply(HistoryError):
    """A reply that is none of those that the line can have."""

    def __init__(self, reply: str) -> None:
        shown = reply if len(reply) <= 200 else reply[:200] + ".."
        super().__init__(
            f"a reply that was not expected: {shown!r}. Is the program that answers ec?"
        )


class Interval(NamedTuple):
    """A stretch in which a property holds: after `start`, up to and with `end`.

    `start` is None where it holds from before all events, and `end` where nothing
    ends it.
    """

    start: Optional[Moment]
    end: Optional[Moment]

    def text(self, clock: Clock) -> str:
        """As `ec` writes it: `(5,9]`, `(5,inf)`, `(-inf,9]`."""
        start = "-inf" if self.start is None else clock.write(self.start)
        if self.end is None:
            return f"({start},inf)"
        return f"({start},{clock.write(self.end)}]"


class BrokenStart(NamedTuple):
    """A start that was broken: nobody has told when between the two it ended.

    `start` is None where the property is there from before all events.
    """

    start: Optional[Moment]
    broken: Moment


class Event(NamedTuple):
    """An event: its identity, its time, and what happened."""

    identity: str
    time: Moment
    term: Term


class Cause(NamedTuple):
    """What did something: an event, by its identity, and a rule, by its number."""

    event: str
    rule: int


class Counts(NamedTuple):
    """What the last accepted update changed, as `last` tells.

    `seen`, `on` and `off` count rules of events: those with a condition that changed,
    those that are met now and were not, those that were and are not. `props` is how
    many properties have other intervals.
    """

    seen: int
    on: int
    off: int
    props: int


@dataclass(frozen=True)
class Reason:
    """Why a property holds at `instant`, or why it does not.

    `kind` is `yes`, or for a property that does not hold `never` (nothing started it
    before), `ended` or `broken`. `start` is the last start before the instant (None is
    from before all events, unless `never`), and `end` the instant that ended or broke
    it (None where nothing does). `by` started it (for `yes` alone), and `until` ended
    or broke it; `by` is None for what is there from before all events.
    """

    instant: Moment
    kind: str
    start: Optional[Moment] = None
    end: Optional[Moment] = None
    by: Optional[Cause] = None
    until: Optional[Cause] = None

    @property
    def holds(self) -> bool:
        """Whether the property holds at the instant."""
        return self.kind == "yes"

    def is_current(self, clock: Clock) -> bool:
        """Whether the property is current at the instant, which is what conditions ask.

        What holds is current. A broken start is current up to the instant that breaks
        it, although it never holds.
        """
        if self.kind == "broken":
            assert self.end is not None
            return clock.rank(self.instant) <= clock.rank(self.end)
        return self.kind == "yes"


def read_yes(reply: str) -> bool:
    """`yes` or `no`."""
    if reply not in ("yes", "no"):
        raise UnexpectedReply(reply)
    return reply == "yes"


def _members(reply: str, width: int = 1) -> List[str]:
    """The words behind the number of members, of which each has so many words."""
    count, *words = reply.split(" ")
    if not count.isdigit() or int(count) * width != len(words):
        raise UnexpectedReply(reply)
    return words


def _from(text: str, clock: Clock) -> Optional[Moment]:
    return None if text == "-inf" else clock.read(text)


def read_intervals(reply: str, clock: Clock) -> List[Interval]:
    """The intervals of `2 (7,10] (20,inf)`."""
    intervals = []
    for word in _members(reply):
        start, comma, end = word[1:-1].partition(",")
        if not comma or word[0] != "(" or word[-1] not in "])":
            raise UnexpectedReply(reply)
        until = None if end == "inf" else clock.read(end)
        intervals.append(Interval(_from(start, clock), until))
    return intervals


def read_broken(reply: str, clock: Clock) -> List[BrokenStart]:
    """The broken starts of `1 10 20`."""
    words = iter(_members(reply, 2))
    pairs = zip(words, words)
    return [BrokenStart(_from(s, clock), clock.read(end)) for s, end in pairs]


def read_terms(reply: str) -> List[Term]:
    """The properties of `2 has(ann,dune) out(dune)`."""
    return [Term.parse(word) for word in _members(reply)]


def read_instants(reply: str, clock: Clock) -> List[Moment]:
    """The instants of `1 20`."""
    return [clock.read(word) for word in _members(reply)]


def read_events(reply: str, clock: Clock) -> List[Event]:
    """The events of `1 l1 10 lend(dune,ann)`."""
    words = iter(_members(reply, 3))
    return [
        Event(identity, clock.read(time), Term.parse(term))
        for identity, time, term in zip(words, words, words)
    ]


def read_counts(reply: str) -> Counts:
    """The four numbers of `last seen 2 on 2 off 0 props 3`."""
    words = reply.split(" ")
    if words[:1] != ["last"] or words[1::2] != ["seen", "on", "off", "props"]:
        raise UnexpectedReply(reply)
    return Counts(*map(int, words[2::2]))


def read_reason(reply: str, instant: Moment, clock: Clock) -> Reason:
    """The reason of a reply to `why`, at the instant that was asked."""
    words = reply.split(" ")
    try:
        if words == ["no", "never"]:
            return Reason(instant, "never")
        if words[0] == "no" and words[1] in ("ended", "broken"):
            until, rest = _cause(words[4:], "by")
            if not rest:
                start = _from(words[2], clock)
                broken = clock.read(words[3])
                return Reason(instant, words[1], start, broken, None, until)
        elif words[0] == "yes":
            start = _from(words[1], clock)
            end = None if words[2] == "inf" else clock.read(words[2])
            by, rest = _cause(words[3:], "by")
            until, rest = _cause(rest, "until")
            if not rest and (by is None) == (start is None):
                return Reason(instant, "yes", start, end, by, until)
    except (IndexError, ValueError):
        pass
    raise UnexpectedReply(reply)


def _cause(words: List[str], behind: str) -> "tuple[Optional[Cause], List[str]]":
    """The cause at the front of some words, if there is one, and what follows."""
    if words[:1] == ["initially"]:
        return None, words[1:]
    if words[:1] == [behind] and words[2] == "rule":
        return Cause(words[1], int(words[3])), words[4:]
    return None, words
