"""`ec-history keep FILE --listen ADDRESS`: several clients at once over one history.

Each connection is one session of `ec`, without prefix. Lines that wait are answered in
rounds: a round takes some lines of each connection, and all its updates are one
transaction, so a sync is shared by all who wait for it. Who was answered often has the
next line ready at once, so the next round waits for these a little. No client can hold
others up: lines are taken in turn, replies are written as fast as their reader takes
them, and a connection that does not read, or sends more than is answered, is not read
from.

`asyncio` accepts connections, and says when one is ready. All that are ready are read
at once, and are written without its transports, which take their time for each line.
"""

from __future__ import annotations

import asyncio
import gc
import os
import selectors
import signal
import socket
import sys
from collections import deque
from typing import Any, Callable, Deque, Dict, List, Optional, Sequence, Set, Tuple
from typing import Union

from .addresses import opened
from .cutting import Cutter, words_of
from .errors import HistoryError
from .keeper import REFUSED_SYNTAX, REFUSED_TORN, Answer, Keeper, Request
from .lines import MOST_SESSIONS

MOST_WAITING = 1024
"""Lines of a connection that may wait; it is not read from while there are more."""
MOST_A_ROUND = 64
"""Lines of a connection that a round takes."""
LONG_A_ROUND = 4
"""Lines of all connections together whose reply may be long, that a round takes."""
LONGEST_WAIT = 0.005
"""Seconds for which a round waits at most for those who were just answered."""
MOST_UNREAD = 1 << 25
"""Bytes that a connection may leave unread before a note to it ends it."""
_SHORT = {b"assert", b"retract", b"begin", b"commit", b"abort", b"holds", b"through"}
_SHORT |= {b"why", b"last", b"unwatch"}
_FULL = b"refused full-sessions %d\n" % MOST_SESSIONS
_PIECE = 1 << 16
_TORN = b"\n"
"""Stands behind the lines of a connection for a last one without line feed."""
_BYE = Answer(b"bye")

Asked = Union[Request, Answer]


class Connection:
    """A client: its socket, the lines of it that wait, and what it did not read yet."""

    def __init__(self, hub: "Hub", link: socket.socket, session: int) -> None:
        self.hub = hub
        self.session = session
        self.waiting: Deque[bytes] = deque()
        self.at_end = False
        self.gone = False
        self._link = link
        self._cutter = Cutter()
        self._unsent = bytearray()
        self._is_read = False
        self._read_on()

    @property
    def blocked(self) -> bool:
        """Whether it has replies to read before it gets more of them."""
        return bool(self._unsent)

    def read(self) -> None:
        """Takes up what the client has sent."""
        try:
            piece = self._link.recv(_PIECE)
        except BlockingIOError:
            return
        except OSError:
            self.close()
            return
        if piece:
            self.waiting.extend(self._cutter.feed(piece))
            if len(self.waiting) > MOST_WAITING:
                self._stop_reading()
        else:
            self._end_input()
        self.hub.hear(self)

    def _end_input(self) -> None:
        rest = self._cutter.end()
        if rest is not None and words_of(rest):
            self.waiting.append(_TORN)
        self.end()

    def end(self) -> None:
        """Takes no more lines; the connection is closed once its replies are read."""
        self.at_end = True
        self._stop_reading()

    def _read_on(self) -> None:
        self._is_read = True
        self.hub.sockets.register(self._link, selectors.EVENT_READ, self)

    def _stop_reading(self) -> None:
        if self._is_read:
            self._is_read = False
            self.hub.sockets.unregister(self._link)

    def write(self, lines: Sequence[bytes]) -> None:
        """Writes whole lines, given without their ends, behind all that is unread."""
        if not lines or self.gone:
            return
        content = b"\n".join([*lines, b""])
        if self._unsent:
            self._unsent += content
            return
        sent = self._send(content)
        if sent < len(content) and not self.gone:
            self._unsent += content[sent:]
            self.hub.loop.add_writer(self._link.fileno(), self._write_on)

    def _send(self, content: Union[bytes, bytearray]) -> int:
        """Sends what goes now, and closes a connection that takes nothing any more."""
        try:
            return self._link.send(content)
        except BlockingIOError:
            return 0
        except OSError:
            self.close()
            return 0

    def _write_on(self) -> None:
        del self._unsent[: self._send(self._unsent)]
        if not self._unsent and not self.gone:
            self.hub.loop.remove_writer(self._link.fileno())
            self.hub.hear(self)

    def note(self, note: bytes) -> None:
        """Writes a note, or closes a connection that reads none."""
        if len(self._unsent) > MOST_UNREAD:
            self.close()
        else:
            self.write([note])

    def go_on(self) -> None:
        """Goes on behind a round: has more lines answered, reads on, or closes."""
        if self._unsent:
            return
        if self.waiting:
            self.hub.hear(self)
        elif self.at_end:
            self.close()
        if not (self._is_read or self.at_end):
            if len(self.waiting) <= MOST_WAITING // 2:
                self._read_on()

    def close(self) -> None:
        """Closes the connection, whatever is unread; its session ends."""
        if not self.gone:
            self.gone = self.at_end = True
            self._stop_reading()
            self.hub.loop.remove_writer(self._link.fileno())
            self._unsent.clear()
            self.waiting.clear()
            _part(self._link)
            self.hub.leave(self)


def _part(link: socket.socket) -> None:
    """Closes a socket; what it has sent arrives, though some input may be unread."""
    try:
        link.shutdown(socket.SHUT_WR)
        link.recv(_PIECE)
    except OSError:
        pass  # there is no more input, or no other end
    link.close()


class Taken:
    """What a round has taken: of each connection some lines, as what they ask.

    `long` are those among them whose reply may be long.
    """

    def __init__(self) -> None:
        self.parts: Dict[Connection, List[Asked]] = {}
        self.long = 0


class Hub:
    """All connections, and the rounds in which their lines are answered.

    `heard` has those with something to answer, in the order in which it came.
    `awaited` has those that were answered in the last round, and that may be about to
    tell more.
    """

    def __init__(self, keeper: Keeper) -> None:
        self.keeper = keeper
        self.connections: Dict[int, Connection] = {}
        self.loop = asyncio.get_running_loop()
        self.loop.set_exception_handler(self._fail)
        self.sockets = selectors.DefaultSelector()
        ready = self.sockets.fileno()  # type: ignore[attr-defined]
        self.loop.add_reader(ready, self._read)
        self.ended: "asyncio.Future[None]" = self.loop.create_future()
        self.heard: Dict[Connection, None] = {}
        self.awaited: Set[Connection] = set()
        self._awaited_until = 0.0
        self._waking: Optional[asyncio.TimerHandle] = None
        self._taken = Taken()
        self._free = list(range(MOST_SESSIONS - 1, -1, -1))
        self._leaving: List[int] = []
        self._scheduled = False

    def join(self, link: socket.socket) -> Optional[Connection]:
        """Gives a client its session; where none is free, tells it so."""
        link.setblocking(False)
        if link.family != socket.AF_UNIX:
            link.setsockopt(socket.IPPROTO_TCP, socket.TCP_NODELAY, 1)
        if not self._free:
            link.send(_FULL)
            _part(link)
            return None
        session = self._free.pop()
        self.connections[session] = Connection(self, link, session)
        return self.connections[session]

    def leave(self, connection: Connection) -> None:
        """Ends a connection's session with the next round."""
        self.connections.pop(connection.session, None)
        self.heard.pop(connection, None)
        self.awaited.discard(connection)
        self._leaving.append(connection.session)
        self._wake()

    def end(self) -> None:
        """Ends the server."""
        if not self.ended.done():
            self.ended.set_result(None)

    def _fail(self, _: asyncio.AbstractEventLoop, context: Dict[str, Any]) -> None:
        """Ends the server, which tells the fault."""
        if not self.ended.done():
            fault = context.get("exception") or HistoryError(context["message"])
            self.ended.set_exception(fault)

    def _read(self) -> None:
        """Reads each socket that has something."""
        for key, _ in self.sockets.select(0):
            key.data.read()

    def hear(self, connection: Connection) -> None:
        """Has lines of a connection, or its end, answered with the next round."""
        self.heard[connection] = None
        self.awaited.discard(connection)
        self._wake()

    def _wake(self) -> None:
        """Has a round made once what has come in by now is read."""
        if not self._scheduled:
            self._scheduled = True
            self.loop.call_soon(self._round)

    def _round(self) -> None:
        """Answers what waits, unless more of it may come in a moment."""
        self._scheduled = False
        if self.awaited and self.loop.time() < self._awaited_until:
            self._take()  # ec answers it meanwhile
            if self._waking is None:
                until = self._awaited_until
                self._waking = self.loop.call_at(until, self._answer)
            return
        self._answer()

    def _answer(self) -> None:
        """Answers what waits, and hands the replies on once all updates are kept."""
        if self._waking is not None:
            self._waking.cancel()
            self._waking = None
        if self.ended.done():
            return
        self.awaited.clear()
        self._take()
        taken, self._taken = self._taken, Taken()
        begun, count = self.loop.time(), self.keeper.database.count
        self._write(taken, self.keeper.answers())
        self._let_go()
        if self.keeper.database.count > count:
            self._await(taken, self.loop.time() - begun)
        for connection in taken.parts:
            connection.go_on()
        if self.heard:
            self._wake()

    def _let_go(self) -> None:
        """Ends the sessions whose connections are closed; they are free again."""
        for session in self._leaving:
            self.keeper.leave(session)
        self._free += self._leaving
        self._leaving = []

    def _await(self, taken: Taken, spent: float) -> None:
        """Has the next round wait for who was answered, half as long as this one took.

        So many share a sync. To begin at once would keep the lines of a few, while the
        others wait for that and for another sync.
        """
        self.awaited = {
            connection
            for connection in taken.parts
            if not (connection.waiting or connection.at_end)
        }
        self._awaited_until = self.loop.time() + min(spent / 2, LONGEST_WAIT)

    def _take(self) -> None:
        """Takes lines of each connection that was heard, once in a round.

        One whose turn has not come yet stays in front of those that are heard later.
        """
        parts = self._taken.parts
        requests: List[Request] = []
        for connection in [each for each in self.heard if each not in parts]:
            part = self._taken_of(connection, requests)
            if part or connection.blocked or not connection.waiting:
                del self.heard[connection]
                parts[connection] = part
        self.keeper.tell(requests)

    def _taken_of(self, connection: Connection, requests: List[Request]) -> List[Asked]:
        """Takes lines of a connection: many, or one whose reply may be long."""
        part: List[Asked] = []
        waiting = connection.waiting
        while waiting and not connection.blocked and len(part) < MOST_A_ROUND:
            what = self._asked(connection, waiting[0])
            is_long = isinstance(what, Request) and what.name not in _SHORT
            if is_long and self._taken.long >= LONG_A_ROUND:
                break
            waiting.popleft()
            if what is not None:
                part.append(what)
            if isinstance(what, Request):
                requests.append(what)
            if what is _BYE:
                waiting.clear()
                connection.end()
            if is_long:
                self._taken.long += 1
                break
        return part

    def _asked(self, connection: Connection, line: bytes) -> Optional[Asked]:
        """What a line of a connection asks; None for a silent one."""
        if line == _TORN:
            return REFUSED_TORN
        what = self.keeper.request(connection.session, line)
        if isinstance(what, Request):
            if what.name.startswith(b"@"):
                return REFUSED_SYNTAX
            if what.line == b"quit":
                return _BYE
        return what

    def _write(self, taken: Taken, answered: Sequence[Answer]) -> None:
        """Writes each reply to its connection, and each note to who watches."""
        answers = iter(answered)
        for connection, part in taken.parts.items():
            replies: List[bytes] = []
            for what in part:
                answer = next(answers) if isinstance(what, Request) else what
                replies.append(answer.reply)
                if answer.notes:
                    connection.write(replies)
                    replies = []
                    self._note(answer.notes)
            connection.write(replies)

    def _note(self, notes: Sequence[Tuple[int, bytes]]) -> None:
        for session, note in notes:
            if session in self.connections:
                self.connections[session].note(note)


def listen(keeper: Keeper, address: str, tell: Callable[[str], None]) -> None:
    """Serves clients at an address until a signal asks for the end.

    Raises HistoryError where the address can't be used.
    """
    # what a round is made of ends with it: to look for cycles there takes a tenth of
    # the time, and finds none
    gc.freeze()
    gc.set_threshold(200_000)
    asyncio.run(_listen(keeper, address, tell))


async def _listen(keeper: Keeper, address: str, tell: Callable[[str], None]) -> None:
    hub = Hub(keeper)
    listening, where = opened(address)
    listening.setblocking(False)
    tell(f", listening at {where}")
    print(f"ec-history: listening at {where}", file=sys.stderr, flush=True)
    for number in (signal.SIGINT, signal.SIGTERM):
        hub.loop.add_signal_handler(number, hub.end)
    accepting = hub.loop.create_task(_accept(hub, listening))
    try:
        await hub.ended
    finally:
        accepting.cancel()
        listening.close()
        for connection in list(hub.connections.values()):
            connection.close()
        if where.startswith("/"):
            os.unlink(where)


async def _accept(hub: Hub, listening: socket.socket) -> None:
    """Has each client that comes join."""
    while True:
        try:
            link, _ = await hub.loop.sock_accept(listening)
            hub.join(link)
        except OSError:
            await asyncio.sleep(LONGEST_WAIT)  # it has gone, or too many files are open
