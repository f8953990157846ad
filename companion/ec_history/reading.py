"""The reading of lines: which command a line is, or why it is none.

What `ec` refuses for its form is told here in words: which word is wrong, and what was
expected in its place. A test compares this reading with `ec`'s own on thousands of
random and broken lines.
"""

from __future__ import annotations

import re
import subprocess
from dataclasses import dataclass
from difflib import get_close_matches
from functools import lru_cache
from typing import Dict, FrozenSet, Iterator, List, Optional, Tuple, Union

from .errors import HistoryError, TermError
from .lines import LONGEST_LINE, MOST_SESSIONS, session_of
from .moments import CIVIL, Clock
from .terms import Term, is_name, name_fault

QUERIES: Dict[str, Tuple[str, ...]] = {
    "holds": ("property", "time"),
    "through": ("property", "time", "time"),
    "intervals": ("property",),
    "broken": ("property",),
    "at": ("time",),
    "why": ("property", "time"),
    "clashes": (),
    "events": (),
}
"""What stands behind the first word of each query that may stand behind `asof K`."""
COMMANDS: Dict[str, Tuple[str, ...]] = {
    "assert": ("identity", "time", "event"),
    "retract": ("identity",),
    "begin": (),
    "commit": (),
    "abort": (),
    **QUERIES,
    "last": (),
    "quit": (),
}
LATER_COMMANDS: Dict[str, Tuple[str, ...]] = {
    "asof": ("count", "query"),
    "pairs": ("property", "relation", "property"),
    "related": ("property", "time", "relation", "property"),
    "watch": ("property",),
    "unwatch": ("property",),
}
"""Commands that not every `ec` has."""
_EVERY_COMMAND = {**COMMANDS, **LATER_COMMANDS}
RELATIONS = (
    *("before", "meets", "overlaps", "starts", "during", "finishes", "equals"),
    *("after", "met_by", "overlapped_by", "started_by", "contains", "finished_by"),
)
_COUNT = re.compile("[0-9]{1,20}")


class LineFault(HistoryError):
    """A line that `ec` refuses for its form.

    `word` is the number of the word at fault, from 1 (0 for the whole line), `code` the
    refusal (`syntax` or `long-line`), and `reason` says what was expected.
    """

    def __init__(self, word: int, reason: str, code: str = "syntax") -> None:
        super().__init__(f"word {word}: {reason}" if word else reason)
        self.word = word
        self.code = code
        self.reason = reason


Value = Union[str, Term]


@dataclass(frozen=True)
class Command:
    """A line that is a command: its session (None without prefix), and its words.

    `values` has events and properties as terms, and all else as it stands. Of a line
    `asof K QUERY` it has those of the query, and `asof` is K.
    """

    session: Optional[int]
    name: str
    values: Tuple[Value, ...]
    asof: Optional[int] = None

    @property
    def terms(self) -> List[Term]:
        """The events and properties that it names."""
        return [value for value in self.values if isinstance(value, Term)]

    @property
    def times(self) -> List[str]:
        """The times that it names."""
        kinds = _EVERY_COMMAND[self.name]
        times = (value for kind, value in zip(kinds, self.values) if kind == "time")
        return [time for time in times if isinstance(time, str)]


@dataclass(frozen=True)
class Reader:
    """Reads lines of a theory whose times are the clock's, for an `ec` that has the
    commands `later` besides those that each has.
    """

    clock: Clock
    later: FrozenSet[str] = frozenset()

    def read(self, line: bytes) -> Optional[Command]:
        """The command of a line without its line end; None for a silent one.

        Raises LineFault where `ec` refuses the line for its form.
        """
        if len(line) > LONGEST_LINE:
            most = f"a line has at most {LONGEST_LINE:,}"
            reason = f"the line has {len(line):,} bytes; {most}"
            raise LineFault(0, reason, "long-line")
        words = [word.decode("latin-1") for word in re.split(b"[ \t]+", line) if word]
        if not words or words[0].startswith("%"):
            return None
        session, first = None, 0
        if words[0].startswith("@"):
            session, first = _session(words), 1
        return self._command(session, words, first)

    def _command(self, session: Optional[int], words: List[str], at: int) -> Command:
        name, known = words[at], _known(self.later)
        if name not in known:
            raise LineFault(at + 1, _no_command(name, known))
        if name == "asof":
            return self._asof(session, words, at)
        return Command(session, name, self._values(words, at, known[name]))

    def _asof(self, session: Optional[int], words: List[str], at: int) -> Command:
        if len(words) < at + 3:
            raise LineFault(len(words) + 1, "`asof` takes a number and a query")
        count = words[at + 1]
        if not _COUNT.fullmatch(count) or int(count) >= 2**64:
            raise LineFault(at + 2, f"{_shown(count)} is no number of updates")
        name = words[at + 2]
        if name not in QUERIES:
            reason = f"{_shown(name)} can't stand behind `asof`"
            raise LineFault(at + 3, f"{reason}: {', '.join(QUERIES)} can")
        values = self._values(words, at + 2, QUERIES[name])
        return Command(session, name, values, int(count))

    def _values(
        self, words: List[str], at: int, kinds: Tuple[str, ...]
    ) -> Tuple[Value, ...]:
        """The words behind a command's first, of the kinds that it takes."""
        values = []
        for place, kind in enumerate(kinds, at + 1):
            if place >= len(words):
                reason = f"the line ends, where {_WANTED[kind]} is expected"
                raise LineFault(place + 1, reason)
            values.append(self._value(words[place], kind, place + 1))
        end = at + 1 + len(kinds)
        if len(words) > end:
            wanted = ", ".join(kinds) or "nothing"
            reason = f"{_shown(words[end])} is too much: `{words[at]}` takes {wanted}"
            raise LineFault(end + 1, reason)
        return tuple(values)

    def _value(self, word: str, kind: str, number: int) -> Value:
        try:
            if kind == "identity":
                if not is_name(word):
                    raise TermError(word, 1, name_fault(word))
                return word
            if kind == "relation":
                if word not in RELATIONS:
                    raise TermError(word, 1, f"it is none of {', '.join(RELATIONS)}")
                return word
            if kind == "time":
                self._check_time(word)
                return word
            return Term.parse(word)
        except TermError as fault:
            column = f", byte {fault.column}" if fault.column > 1 else ""
            reason = f"{_shown(word)}{column}: {fault.reason}"
            hint = f"{_WANTED[kind]} is expected: "
            hint = "" if kind == "time" else hint
            raise LineFault(number, f"{hint}{reason}") from None

    def _check_time(self, word: str) -> None:
        if self.clock is CIVIL and word.startswith("0000"):
            word = f"2000{word[4:]}"  # a leap year too, which `datetime` has
        self.clock.read(word)


_WANTED = {
    "identity": "an event's name",
    "time": "a time",
    "event": "an event",
    "property": "a property",
    "relation": "a relation",
    "count": "a number of updates",
    "query": "a query",
}


@lru_cache
def _known(later: FrozenSet[str]) -> Dict[str, Tuple[str, ...]]:
    """The commands of an `ec` that has some of the later ones."""
    return {**COMMANDS, **{name: LATER_COMMANDS[name] for name in later}}


def _session(words: List[str]) -> int:
    session = session_of(words[0].encode("latin-1"))
    if session is None:
        raise LineFault(
            1,
            f"{_shown(words[0])} is no session: `@` and a number from 0 to "
            f"{MOST_SESSIONS - 1}, of one or two digits",
        )
    if len(words) == 1:
        raise LineFault(2, "the line ends, where a command is expected")
    return session


def _no_command(name: str, known: Dict[str, Tuple[str, ...]]) -> str:
    if name.startswith("\xef\xbb\xbf"):
        return "a byte order mark stands before it: save the file without one"
    if name in LATER_COMMANDS:
        return f"this ec has no command `{name}` yet"
    near = get_close_matches(name.lower(), known, 1)
    hint = f"; did you mean `{near[0]}`?" if near else ""
    return f"{_shown(name)} is no command{hint}"


def _shown(word: str) -> str:
    """A word for a message, with what can't be seen spelled out."""
    text = word if len(word) <= 60 else word[:57] + ".."
    return repr(text.encode("latin-1").decode("utf-8", "backslashreplace"))


@dataclass(frozen=True)
class Line:
    """A line of a file: its number, its bytes without line end, and how it ends."""

    number: int
    content: bytes
    ended: bool


def lines_in(data: bytes) -> Iterator[Line]:
    """The lines of a file, cut as `ec` cuts them.

    One CR directly before an LF is dropped; what stands behind the last LF is a line
    too, if it is not empty, and no CR is dropped of it.
    """
    pieces = data.split(b"\n")
    for number, piece in enumerate(pieces[:-1], 1):
        yield Line(number, piece[:-1] if piece.endswith(b"\r") else piece, True)
    if pieces[-1]:
        yield Line(len(pieces), pieces[-1], False)


def is_silent(content: bytes) -> bool:
    """Whether a line, without its line end, has no reply."""
    words = content.replace(b"\t", b" ").split(b" ")
    first = next((word for word in words if word), b"%")
    return len(content) <= LONGEST_LINE and first.startswith(b"%")


def as_sent(content: bytes) -> bytes:
    """What `ec` reads as this content once an LF stands behind it."""
    return content + b"\r" if content.endswith(b"\r") else content


_PROBES = {
    "asof": "asof 0 events",
    "pairs": "pairs a equals a",
    "related": "related a {time} equals a",
    "watch": "watch a",
    "unwatch": "unwatch a",
}


def later_commands(program: str, theory: str, clock: Clock) -> FrozenSet[str]:
    """Which of the later commands an `ec` has: those that it does not refuse.

    The theory is accepted by it.
    """
    time = "0" if clock is not CIVIL else "2000-01-01T00:00:00Z"
    lines = [line.format(time=time) for line in _PROBES.values()]
    asked = subprocess.run(
        [program, "serve", theory],
        input="".join(f"{line}\n" for line in lines).encode(),
        stdout=subprocess.PIPE,
        check=False,
    )
    replies = asked.stdout.decode("latin-1").split("\n")
    return frozenset(
        name for name, reply in zip(_PROBES, replies) if reply != "refused syntax"
    )
