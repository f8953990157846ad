"""The library: a running `ec`, its sessions, and typed results.

    with Server("loans.ec") as server:
        desk = server.session()
        desk.assert_event("l1", 10, "lend(dune,ann)")
        desk.holds("has(ann,dune)", 12)         # True
        desk.intervals("has(ann,dune)")         # [Interval(start=10, end=None)]

Properties and events are `Term`s, or texts that spell one; times are whole numbers of
the theory's unit, or datetimes with a zone where the theory says `time civil.`. A line
that `ec` refuses raises `Refused`, and each of its statuses an exception of its own.
"""

from __future__ import annotations

import os
from collections import deque
from pathlib import Path
from types import TracebackType
from typing import Deque, Iterable, Iterator, List, NamedTuple, Optional, Tuple, Type
from typing import Union

from .errors import HistoryError
from .lines import MOST_SESSIONS
from .moments import Clock, Moment
from .pipe import Ended, Pipe, Sent
from .program import NoProgram, find_program
from .refusals import refusal_words, status_words
from .replies import (
    BrokenStart,
    Cause,
    Counts,
    Event,
    Interval,
    Reason,
    UnexpectedReply,
    read_broken,
    read_counts,
    read_events,
    read_instants,
    read_intervals,
    read_reason,
    read_terms,
    read_yes,
)
from .terms import Term
from .theory import Theory
from .theory_faults import fault_finding
from .tokens import TheoryFault

__all__ = [
    "BrokenStart",
    "Cause",
    "Counts",
    "Draft",
    "Ended",
    "Event",
    "Interval",
    "NoSession",
    "Played",
    "Reason",
    "Refused",
    "Server",
    "Session",
    "TheoryRefused",
    "UnexpectedReply",
]

TermLike = Union[Term, str]
PathLike = Union[str, "os.PathLike[str]"]
LineLike = Union[str, bytes]

AHEAD = 8192
"""Lines that `Server.play` writes ahead of the replies that were taken from it."""
_PIECE = 512


class Refused(HistoryError):
    """A line that `ec` refused; it changed nothing.

    `line` is the line, `code` `ec`'s word for the refusal (`duplicate`), `detail` what
    stands behind it (`l1`), or None, and `place`, for an update of a draft, its place
    in the draft, from 1.
    """

    def __init__(self, line: str, reply: str) -> None:
        words = reply.split(" ")[1:]
        self.line = line
        self.reply = reply
        self.place: Optional[int] = None
        if words[:1] == ["commit"]:
            self.place = int(words[1])
            words = words[2:]
        self.code = words[0] if words else ""
        self.detail: Optional[str] = words[1] if len(words) > 1 else None
        self.reason = refusal_words(self.code, self.detail)
        place = f"update {self.place} of the draft, " if self.place else ""
        super().__init__(f"{place}{line!r} was refused: {self.reason}")


class TheoryRefused(HistoryError):
    """A theory that `ec` does not accept.

    `path` is its file, `line` the line of the fault (0 for the whole file), `reply`
    what `ec` says of it, and `reason` why, in words.
    """

    def __init__(self, path: str, reply: str) -> None:
        finding = fault_finding(path, reply)
        self.path = path
        self.reply = reply
        self.line = finding.line
        self.reason = finding.text
        place = f"{path}:{self.line}" if self.line else path
        super().__init__(f"{place}: the theory is not accepted: {self.reason}")


class NoSession(HistoryError):
    """All sessions are in use."""

    def __init__(self) -> None:
        super().__init__(
            f"all {MOST_SESSIONS - 1} sessions are in use; close one that is done"
        )


class Played(NamedTuple):
    """A line that was played: its number, from 1, its bytes, and its reply.

    `reply` is None for a line that has none. `notes` are the notes below it.
    """

    number: int
    line: bytes
    reply: Optional[str]
    notes: List[str]


class Server:
    """`ec serve THEORY`, started and ready.

    `theory` is the path of a theory file, and `program` that of `ec` (found as
    `program.find_program` says where it is None). Raises `TheoryRefused` where the
    theory is not accepted, `OSError` where its file can't be read, and `NoProgram`.
    Leaving `with` ends the program; lines that were sent are answered first.

    The attribute `theory` has the clauses of the file, `clock` reads and writes its
    times, and `main` is the session of lines without a number.
    """

    def __init__(self, theory: PathLike, program: Optional[str] = None) -> None:
        path = os.fspath(theory)
        Path(path).open("rb").close()
        self.path = path
        self.program = find_program(program)
        self._free: List[int] = list(range(MOST_SESSIONS - 1, 0, -1))
        try:
            self._pipe = Pipe([self.program, "serve", path])
        except OSError as fault:
            reason = f"{self.program} can't be run: {fault.strerror}"
            raise NoProgram(reason) from None
        try:
            self.theory = self._begin()
        except BaseException:
            self._pipe.kill()
            raise
        self.clock: Clock = self.theory.clock
        self.main = Session(self, 0)

    def _begin(self) -> Theory:
        """Waits until the theory is accepted, and answers its clauses."""
        try:
            reply = self._pipe.ask(b"last")
        except Ended as fault:
            raise Ended(f"{self.path}: {fault}", fault.status) from None
        if reply.startswith("theory "):
            raise TheoryRefused(self.path, reply)
        read_counts(reply)
        try:
            return Theory.read(self.path)
        except TheoryFault as fault:
            raise HistoryError(
                f"{self.path}: ec accepts the theory, and ec-history can't read it: "
                f"{fault}. Is ec-history older than ec?"
            ) from None

    def session(self) -> Session:
        """A session of its own, for one user. Raises `NoSession` where none is free.

        Sessions are numbered from 1. `main` is the session without a number, of which
        there is one.
        """
        if not self._free:
            raise NoSession()
        return Session(self, self._free.pop())

    def send(self, line: LineLike) -> Optional[Sent]:
        """Sends a line as it is, and does not wait; None if the line has no reply."""
        return self._pipe.send(line_bytes(line))

    def send_all(self, lines: Iterable[LineLike]) -> List[Optional[Sent]]:
        """Sends lines as they are, in one piece; for each what `send` answers."""
        return self._pipe.send_all(map(line_bytes, lines))

    def pour(self, content: bytes) -> bytes:
        """Sends whole lines as they are, and answers all their replies, in one piece.

        None of them may be `watch` or `quit`. Nothing is raised for a refusal.
        """
        return self._pipe.pour(content)

    def play(self, lines: Iterable[LineLike]) -> Iterator[Played]:
        """Sends lines as they are, and gives each with its reply, in their order.

        Lines are given without their line feeds, and are written far ahead of the
        replies that are taken. Nothing is raised for a refusal: it is a reply. Raises
        `Ended` where the program has ended.
        """
        waiting: Deque[Tuple[bytes, Optional[Sent]]] = deque()
        piece: List[bytes] = []
        number = 0
        for line in lines:
            piece.append(line_bytes(line))
            if len(piece) == _PIECE:
                waiting.extend(zip(piece, self._pipe.send_all(piece)))
                piece = []
            while len(waiting) > AHEAD:
                number += 1
                yield _played(number, *waiting.popleft())
        waiting.extend(zip(piece, self._pipe.send_all(piece)))
        while waiting:
            number += 1
            yield _played(number, *waiting.popleft())

    def close(self) -> None:
        """Ends the program. Raises `Ended` where its status is not 0."""
        status = self._pipe.close()
        if status:
            raise Ended(f"ec did not end as it should: {status_words(status)}", status)

    def kill(self) -> None:
        """Ends the program at once; what was sent and not answered is lost."""
        self._pipe.kill()

    def __enter__(self) -> Server:
        return self

    def __exit__(
        self,
        kind: Optional[Type[BaseException]],
        _fault: Optional[BaseException],
        _trace: Optional[TracebackType],
    ) -> None:
        if kind is None:
            self.close()
        else:
            self._pipe.kill()


def line_bytes(line: LineLike) -> bytes:
    """The bytes of a line."""
    return line if isinstance(line, bytes) else line.encode("utf-8", "surrogateescape")


def _played(number: int, line: bytes, sent: Optional[Sent]) -> Played:
    if sent is None:
        return Played(number, line, None, [])
    return Played(number, line, sent.wait(), sent.notes)


class Session:
    """One user's part of a server. Its methods send a line and wait for the reply.

    `number` is the session's, 0 for lines without one, and `clock` reads and writes the
    theory's times.

    All raise `Ended` where the program has ended, `Refused` where a line is refused,
    and `TermError` for a text or a time that is none.
    """

    def __init__(self, server: Server, number: int) -> None:
        self.server = server
        self.number = number
        self.clock: Clock = server.clock
        self._prefix = f"@{number} " if number else ""
        self._draft: Optional[Draft] = None
        self._is_closed = False

    def ask(self, command: str) -> str:
        """The reply to a command, without the session's prefix."""
        if self._is_closed:
            raise HistoryError("the session is closed; take a new one from the server")
        line = self._prefix + command
        return self._reply(line, self.server._pipe.ask(line_bytes(line)))

    def ask_all(self, commands: Iterable[str]) -> Iterator[str]:
        """The replies to commands, which are written far ahead of them."""
        for played in self.server.play(self._prefix + each for each in commands):
            line = played.line.decode("utf-8", "surrogateescape")
            yield self._reply(line, played.reply or "")

    def _reply(self, line: str, reply: str) -> str:
        """A reply to a line of this session without its prefix, unless it refuses."""
        if reply.startswith(self._prefix):
            reply = reply[len(self._prefix) :]
        elif reply != "refused long-line":
            raise UnexpectedReply(reply)
        if reply[:7] == "refused":
            raise Refused(line, reply)
        return reply

    def assert_event(self, identity: str, time: Moment, event: TermLike) -> None:
        """Says that an event happened. While a draft is open, it takes the updates."""
        self._update(_assert_line(identity, time, event, self.clock))

    def retract(self, identity: str) -> None:
        """Takes an event back. While a draft is open, it takes the updates."""
        self._update(f"retract {identity}")

    def _update(self, command: str) -> None:
        if self._draft is not None:
            reason = (
                "a draft of this session is open; tell the draft, or leave it first"
            )
            raise HistoryError(reason)
        self._expect("ok", command)

    def draft(self) -> Draft:
        """A draft, for `with`: its updates are made together when it is left.

        Where the block raises, the draft is dropped. Raises `Refused` on leaving where
        an update is refused; then none of them is made.
        """
        return Draft(self)

    def holds(self, property: TermLike, time: Moment) -> bool:
        """Whether a property holds at a time."""
        return read_yes(self.ask(f"holds {property} {self.clock.write(time)}"))

    def holds_through(self, property: TermLike, start: Moment, end: Moment) -> bool:
        """Whether a property holds at each time from `start` to `end`, both counted."""
        write = self.clock.write
        return read_yes(self.ask(f"through {property} {write(start)} {write(end)}"))

    def intervals(self, property: TermLike) -> List[Interval]:
        """The stretches in which a property holds, in order."""
        return read_intervals(self.ask(f"intervals {property}"), self.clock)

    def broken(self, property: TermLike) -> List[BrokenStart]:
        """The starts of a property that were broken, in order."""
        return read_broken(self.ask(f"broken {property}"), self.clock)

    def at(self, time: Moment) -> List[Term]:
        """The properties that hold at a time, in the order of terms."""
        return read_terms(self.ask(f"at {self.clock.write(time)}"))

    def why(self, property: TermLike, time: Moment) -> Reason:
        """Why a property holds at a time, or why it does not."""
        reply = self.ask(f"why {property} {self.clock.write(time)}")
        return read_reason(reply, time, self.clock)

    def clashes(self) -> List[Moment]:
        """The instants at which two properties start that exclude each other."""
        return read_instants(self.ask("clashes"), self.clock)

    def events(self) -> List[Event]:
        """All events, by time and then by identity."""
        return read_events(self.ask("events"), self.clock)

    def last(self) -> Counts:
        """What the last accepted update changed, whoever made it."""
        return read_counts(self.ask("last"))

    def close(self) -> None:
        """Gives the session's number back; a draft that is open is dropped."""
        if self._draft is not None:
            self._draft.abort()
        if self.number and not self._is_closed:
            self._is_closed = True
            self.server._free.append(self.number)

    def __enter__(self) -> Session:
        return self

    def __exit__(self, kind: Optional[Type[BaseException]], *_: object) -> None:
        if kind is None or not issubclass(kind, Ended):
            self.close()

    def _expect(self, wanted: str, command: str) -> None:
        reply = self.ask(command)
        if reply != wanted:
            raise UnexpectedReply(reply)


class Draft:
    """Updates that are made together, or not at all; see `Session.draft`."""

    def __init__(self, session: Session) -> None:
        self.session = session
        self.lines: List[str] = []

    def assert_event(self, identity: str, time: Moment, event: TermLike) -> None:
        """Adds that an event happened."""
        self._add(_assert_line(identity, time, event, self.session.clock))

    def retract(self, identity: str) -> None:
        """Adds that an event is taken back."""
        self._add(f"retract {identity}")

    def _add(self, line: str) -> None:
        reply = self.session.ask(line)
        if reply != f"drafted {len(self.lines) + 1}":
            raise UnexpectedReply(reply)
        self.lines.append(line)

    def commit(self) -> None:
        """Makes the updates. Where one is refused, none is made, and the draft is
        dropped; the `Refused` that is raised tells its place and its line.
        """
        self.session._draft = None
        try:
            self.session.ask("commit")
        except Refused as refusal:
            self.session.ask("abort")
            if refusal.place is None:
                raise
            raise Refused(self.lines[refusal.place - 1], refusal.reply) from None

    def abort(self) -> None:
        """Drops the updates."""
        self.session._draft = None
        self.session.ask("abort")

    def __enter__(self) -> Draft:
        self.session._expect("ok", "begin")
        self.session._draft = self
        return self

    def __exit__(self, kind: Optional[Type[BaseException]], *_: object) -> None:
        if self.session._draft is not self:
            return  # it was committed or dropped within the block
        if kind is None:
            self.commit()
        elif not issubclass(kind, Ended):
            self.abort()


def _assert_line(identity: str, time: Moment, event: TermLike, clock: Clock) -> str:
    return f"assert {identity} {clock.write(time)} {event}"
