"""A kept history at work: commands, each answered once its updates are kept.

`ec` answers the commands of a round, which may be of several sessions; the updates that
it accepted are written to the database in one transaction and synced; and only then are
the answers handed on. So nobody reads what could still be lost. `ec` holds nothing that
the database does not, but drafts and watches: where it ends, or the database refuses
what it has accepted, another `ec` is started from the database, and gets these back.
"""

from __future__ import annotations

import os
import re
import tempfile
from datetime import datetime, timezone
from typing import Callable, Dict, List, NamedTuple, Optional, Sequence, Set, Tuple
from typing import Union

from .cutting import words_of
from .database import Database, NotKept, Update, instant_text
from .engine import Engine, EngineEnded
from .errors import HistoryError, TermError
from .lines import LONGEST_LINE, MOST_SESSIONS, UPDATES
from .moments import CIVIL
from .progress import Progress

_INSTANT = re.compile(rb"[0-9]{4}-[0-9]{2}-[0-9]{2}T[0-9]{2}:[0-9]{2}:[0-9]{2}Z")
_REPLAYED = 4096
_LONGEST_COMMAND = LONGEST_LINE - len(b"@63 ")
"""A command without superfluous blanks is far shorter than that."""
_SINGLE = (b"assert", b"retract")
_PLAIN = re.compile(rb"(assert|retract)(?: [!-~]+)+").fullmatch
"""An update with one blank between its words, as most are."""
_SINGLE_UPDATE = "(?:assert|retract) [!-~ ]+"
_KEPT = re.compile(f"{_SINGLE_UPDATE}|begin\n(?:{_SINGLE_UPDATE}\n)*commit").fullmatch
_PREFIXES = [b"@%d " % session for session in range(MOST_SESSIONS)]
_ACCEPTED = [prefix + b"ok" for prefix in _PREFIXES]
Clock = Callable[[], datetime]


class Differs(HistoryError):
    """An update that is kept, and that this `ec` answers otherwise."""


class Request(NamedTuple):
    """A command of a session: its first word, and its words with a blank between each.

    Where there is an instant, the line is a query about the updates told by then.
    """

    session: int
    name: bytes
    line: bytes
    instant: Optional[datetime] = None

    @property
    def is_update(self) -> bool:
        """Whether it is an update, or part of one."""
        return self.name in UPDATES


class Answer(NamedTuple):
    """The reply without prefix, and notes, each with the session that watches."""

    reply: bytes
    notes: Sequence[Tuple[int, bytes]] = ()


OK = Answer(b"ok")
REFUSED_AS_OF = Answer(b"refused as-of")
REFUSED_SYNTAX = Answer(b"refused syntax")
REFUSED_LONG = Answer(b"refused long-line")
REFUSED_TORN = Answer(b"refused torn-line")
"""A last line without line feed: if it was cut off, it is another line."""


def _now() -> datetime:
    return datetime.now(timezone.utc)


class Round:
    """The answers to some commands, and the updates that `ec` accepted among them.

    `accepted` has the session, the lines and the reply of each.
    """

    def __init__(self) -> None:
        self.answers: List[Answer] = []
        self.accepted: List[Tuple[int, str, str]] = []


class Before(NamedTuple):
    """The drafts and watches of the sessions before a round.

    Held lines are only added to a draft, so how many there were is all that is noted.
    """

    drafts: Dict[int, Tuple[List[bytes], int]]
    watches: Dict[int, Set[bytes]]


class Keeper:
    """A database and the `ec` that answers about it."""

    def __init__(
        self,
        database: Database,
        program: str,
        most: Optional[int] = None,
        now: Clock = _now,
    ) -> None:
        """Plays the updates into a new `ec`, at most so many where `most` is given.

        With `most`, no update is taken. Raises Differs where `ec` answers an update
        otherwise than it is recorded, and EngineEnded.
        """
        self.database = database
        self.program = program
        self.most = most
        self.now = now
        self.drafts: Dict[int, List[bytes]] = {}
        self.watches: Dict[int, Set[bytes]] = {}
        self.failing = ""
        self._told: List[Request] = []
        self._sent = 0
        self._folder = tempfile.TemporaryDirectory(prefix="ec-history-")
        self._theory = os.path.join(self._folder.name, "theory.ec")
        with open(self._theory, "wb") as file:
            file.write(database.theory())
        self._engine = self._started()

    def close(self) -> None:
        """Ends `ec`."""
        self._engine.close()
        self._folder.cleanup()

    def _started(self) -> Engine:
        """An `ec` with all updates that are kept."""
        engine = Engine(self.program, self._theory)
        try:
            (first,) = engine.ask([b"last"]).texts
            if not first.startswith(b"last "):
                text = first.decode("ascii", "replace")
                raise Differs(f"this ec does not accept the kept theory: {text}")
            waiting: List[Update] = []
            with Progress("updates played") as progress:
                for number, update in enumerate(self.database.updates(self.most), 1):
                    if update.number != number:
                        raise Differs(
                            f"update {number} is missing: somebody has changed the "
                            "file; nothing was changed"
                        )
                    if not _is_accepted(update):
                        raise Differs(
                            f"update {number} is not what is kept of an update: "
                            "somebody has changed the file; nothing was changed"
                        )
                    waiting.append(update)
                    if len(waiting) == _REPLAYED:
                        play(engine, waiting)
                        progress.step(len(waiting))
                        waiting = []
                play(engine, waiting)
        except BaseException:
            engine.close()
            raise
        return engine

    def round(self, requests: Sequence[Request]) -> List[Answer]:
        """The answers to commands, in order, once their updates are kept."""
        self.tell(requests)
        return self.answers()

    def tell(self, requests: Sequence[Request]) -> None:
        """Hands commands to `ec`, which works on them until `answers` is called."""
        self._told += requests
        waiting = self._told[self._sent :]
        if not self.failing and all(request.instant is None for request in waiting):
            self._engine.tell([_PREFIXES[r.session] + r.line for r in waiting])
            self._sent += len(waiting)

    def answers(self) -> List[Answer]:
        """The answers to all that was told, in order, once its updates are kept.

        Where the database does not take the updates, all of them are refused, and the
        commands are answered as if these had not been told.
        """
        told, self._told = self._told, []
        sent, self._sent = self._sent, 0
        if not told:
            return []
        answers: List[Answer] = []
        group = told[:sent]
        for request in told[sent:]:
            if request.instant is not None:
                if not self._is_over(request.instant):
                    answers += self._round(group, sent)  # these count as well
                    group, sent = [], 0
                number = self.database.count_by(request.instant)
                line = b"asof %d %s" % (number, request.line)
                request = Request(request.session, request.name, line)
            group.append(request)
        return answers + self._round(group, sent)

    def _is_over(self, instant: datetime) -> bool:
        """Whether each update from now on is told later than that."""
        now = max(instant_text(self.now()), self.database.last_told)
        return instant_text(instant) < now

    def _round(self, requests: Sequence[Request], sent: int) -> List[Answer]:
        """The answers to commands, once their updates are kept.

        So many of them were handed to `ec` before.
        """
        if self.failing:
            self._try_again(requests)
        before = self._before()
        try:
            asked = self._asked(requests, sent)
        except EngineEnded:
            self._restart(before)
            asked = self._asked(requests)
        if asked.accepted:
            try:
                self.database.append(asked.accepted, self.now())
            except NotKept as fault:
                self.failing = fault.cause
                self._restart(before)
                asked = self._asked(requests)
        return asked.answers

    def leave(self, session: int) -> None:
        """Ends a session's draft and its watches."""
        lines = [b"abort"] if session in self.drafts else []
        lines += [b"unwatch " + term for term in sorted(self.watches.get(session, ()))]
        self.drafts.pop(session, None)
        self.watches.pop(session, None)
        if lines:
            try:
                self._engine.ask([_PREFIXES[session] + line for line in lines])
            except EngineEnded:
                self._restart(self._before())

    def _before(self) -> Before:
        """The drafts and watches as they are now."""
        drafts = {s: (held, len(held)) for s, held in self.drafts.items()}
        watches = {s: set(terms) for s, terms in self.watches.items() if terms}
        return Before(drafts, watches)

    def _try_again(self, requests: Sequence[Request]) -> None:
        """Finds out whether the database takes updates again."""
        size = sum(len(request.line) for request in requests if request.is_update)
        if size:
            try:
                self.database.probe(4 * size + 4096)
                self.failing = ""
            except NotKept as fault:
                self.failing = fault.cause

    def _restart(self, before: Before) -> None:
        """Starts `ec` anew from the database, with the drafts and watches of before."""
        self._engine.close()
        self._engine = self._started()
        self.drafts = {s: held[:count] for s, (held, count) in before.drafts.items()}
        self.watches = {s: set(terms) for s, terms in before.watches.items()}
        lines: List[bytes] = []
        for session, held in self.drafts.items():
            lines += [_PREFIXES[session] + line for line in [b"begin", *held]]
        for session, terms in self.watches.items():
            lines += [b"@%d watch %s" % (session, term) for term in sorted(terms)]
        self._engine.ask(lines)

    def _asked(self, requests: Sequence[Request], sent: int = 0) -> Round:
        """The answers to commands, and the updates among them that `ec` accepted."""
        if not self.failing:
            return self._asked_of_ec(requests, sent)
        back = self._kept_back(requests)
        asked = self._asked_of_ec(
            [r for r, is_back in zip(requests, back) if not is_back], 0
        )
        refused = Answer(b"refused not-kept " + self.failing.encode("utf-8", "replace"))
        answers = iter(asked.answers)
        asked.answers = [refused if is_back else next(answers) for is_back in back]
        return asked

    def _asked_of_ec(self, requests: Sequence[Request], sent: int) -> Round:
        """The answers of `ec` to commands, and the updates that it accepted.

        Most are single updates that are accepted, so these take the shortest way.
        """
        asked = Round()
        answers, accepted = asked.answers, asked.accepted
        self._engine.tell([_PREFIXES[r.session] + r.line for r in requests[sent:]])
        watched = any(self.watches.values())
        replies = self._engine.replies(
            with_notes=watched or any(r.name == b"watch" for r in requests)
        )
        for request, text in zip(requests, replies.texts):
            session, name, line, _ = request
            if text == _ACCEPTED[session] and name in _SINGLE:
                answers.append(OK)
                accepted.append((session, line.decode("ascii"), "ok"))
                continue
            reply = text.partition(b" ")[2]
            answers.append(Answer(reply))
            draft = self._follow(request, reply)
            if draft is not None:
                accepted.append((session, draft.decode("ascii"), "ok"))
        for place, notes in replies.notes.items():
            told = [(int(note.split(b" ", 2)[1]), note) for note in notes]
            answers[place] = Answer(answers[place].reply, told)
        return asked

    def _follow(self, request: Request, reply: bytes) -> Optional[bytes]:
        """Keeps up with a session; the lines of a draft that was accepted."""
        session, name, line, _ = request
        if reply == b"ok":
            if name == b"begin":
                self.drafts[session] = []
            elif name == b"abort":
                self.drafts.pop(session, None)
            elif name == b"commit":
                return b"\n".join([b"begin", *self.drafts.pop(session), b"commit"])
            elif name == b"unwatch":
                self.watches[session].discard(line[len(b"unwatch ") :])
        elif reply.startswith(b"drafted "):
            self.drafts[session].append(line)
        elif name == b"watch" and not reply.startswith(b"refused"):
            self.watches.setdefault(session, set()).add(line[len(b"watch ") :])
        return None

    def _kept_back(self, requests: Sequence[Request]) -> List[bool]:
        """Which commands are updates, while the database takes none."""
        drafted = set(self.drafts)
        found = []
        for request in requests:
            if request.line == b"begin":
                drafted.add(request.session)
            elif request.line == b"abort":
                drafted.discard(request.session)
            held = request.session in drafted and request.name != b"commit"
            found.append(request.is_update and not held)
        return found

    def request(self, session: int, line: bytes) -> Union[Request, Answer, None]:
        """What is asked of `ec` by a line without prefix; None by a silent one.

        Where the answer is known without `ec`, that.
        """
        if self.most is None and len(line) <= _LONGEST_COMMAND:
            plain = _PLAIN(line)
            if plain is not None:
                return Request(session, plain[1], line)
        if len(line) > LONGEST_LINE:
            return REFUSED_LONG
        words = words_of(line)
        if not words or words[0].startswith(b"%"):
            return None
        return self.command(session, words)

    def command(self, session: int, words: Sequence[bytes]) -> Union[Request, Answer]:
        """What is asked of `ec` by the words of a command; or the answer, if known."""
        name, line = words[0], b" ".join(words)
        if self.most is not None and (name in UPDATES or name == b"begin"):
            return REFUSED_AS_OF
        if len(line) > _LONGEST_COMMAND:
            return REFUSED_SYNTAX
        if line.endswith(b"\r"):
            return REFUSED_SYNTAX  # it would be dropped with the line's end
        if name == b"asof" and len(words) > 2 and _INSTANT.fullmatch(words[1]):
            try:
                instant = CIVIL.read(words[1].decode("ascii"))
            except TermError:
                return REFUSED_SYNTAX
            assert isinstance(instant, datetime)
            return Request(session, name, b" ".join(words[2:]), instant)
        return Request(session, name, line)


def _is_accepted(update: Update) -> bool:
    """Whether a row of the database has the form of an accepted update."""
    is_of_session = update.session in range(MOST_SESSIONS)
    is_ok = update.reply == "ok" and isinstance(update.lines, str)
    return is_ok and is_of_session and _KEPT(update.lines) is not None


def play(engine: Engine, updates: Sequence[Update]) -> None:
    """Plays kept updates into an `ec`; raises Differs at the first other reply."""
    lines: List[bytes] = []
    last_lines = []
    for update in updates:
        prefix = b"@%d " % update.session
        parts = update.lines.encode("ascii", "replace").split(b"\n")
        lines += [prefix + part for part in parts]
        last_lines.append(len(lines) - 1)
    replies = engine.ask(lines).texts
    for update, place in zip(updates, last_lines):
        prefix = b"@%d " % update.session
        text = replies[place][len(prefix) :].decode("ascii", "replace")
        if text != update.reply:
            raise Differs(
                f"update {update.number} (told {update.told}): ec answers {text!r}, "
                f"and {update.reply!r} is kept. Either this is another version of ec, "
                "or somebody has changed the file; nothing was changed"
            )
