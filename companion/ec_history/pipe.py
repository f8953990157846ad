"""A running `ec serve`, its lines and their replies.

A line that is sent ahead is a `Sent`, whose reply can be waited for. Such replies are
read by a thread of their own, so lines may be written as far ahead as memory goes, and
a reply may be of any length. While nothing was sent ahead that thread sleeps, and who
asks a line reads its reply: to hand it from one thread to another takes several times
as long as the program takes to answer.
"""

from __future__ import annotations

import _thread
import io
import os
import re
import subprocess
import threading
from collections import deque
from typing import Deque, Iterable, List, Optional, Sequence, cast

from .errors import HistoryError
from .lines import UPDATES, shape_of
from .refusals import status_words


_PLAIN = re.compile(rb"(?:@[0-9] |@[1-5][0-9] )?(?!watch|quit)[a-z][^\n]*\Z")
"""Lines that have one reply and change nothing of how further ones are read."""


class Ended(HistoryError):
    """The program has ended, so a line has no reply.

    `status` is the status that it ended with (None behind a `quit`), and `line` the
    line that has no reply.
    """

    def __init__(self, message: str, status: Optional[int], line: str = "") -> None:
        super().__init__(message)
        self.status = status
        self.line = line


class Sent:
    """A line that was sent. `wait` answers its reply.

    `notes` are the lines below an update's reply that begin with `note `; they are
    all there when `wait` returns.
    """

    __slots__ = ("line", "reply", "notes", "behind", "_arrived", "_fault")

    def __init__(self, line: bytes) -> None:
        self.line = line
        self.reply: Optional[str] = None
        self.notes: List[str] = []
        self.behind: Optional[Sent] = None
        self._fault: Optional[Ended] = None
        self._arrived = _thread.allocate_lock()
        self._arrived.acquire()

    def wait(self) -> str:
        """The reply, when it is there. Raises `Ended` where none will come."""
        with self._arrived:
            pass
        if self.reply is None:
            raise self._fault or Ended("the line has no reply", None)
        if self.behind is not None:
            self.behind.wait()
        return self.reply

    def arrive(self, reply: Optional[str], fault: Optional[Ended] = None) -> None:
        """Hands over the reply, or the fault for which there is none."""
        self.reply = reply
        self._fault = fault
        self._arrived.release()


class Pipe:
    """The process, and the two ends of it. Lines may be sent by several threads.

    `_sending` is held while lines are written, and for as long as an asker reads.
    `_turning` is held for a moment, never while anything is read or written: whoever
    writes may have to wait until the reader has made room.
    """

    def __init__(self, words: Sequence[str]) -> None:
        self._sent: Deque[Sent] = deque()
        self._sending = threading.Lock()
        self._turning = threading.Lock()
        self._wake = threading.Semaphore(0)
        self._is_idle = True
        self._is_closing = False
        self._has_quit = False
        self._watching = False
        self._fault: Optional[Ended] = None
        self.process = subprocess.Popen(
            words, stdin=subprocess.PIPE, stdout=subprocess.PIPE, bufsize=0
        )
        assert self.process.stdin is not None and self.process.stdout is not None
        self._input = self.process.stdin.fileno()
        output = cast(io.RawIOBase, self.process.stdout)
        self._replies = io.BufferedReader(output, 1 << 16)
        self._reader = threading.Thread(target=self._read, name="ec", daemon=True)
        self._reader.start()

    def ask(self, line: bytes) -> str:
        """Sends a line, given without its line feed, and waits for its reply.

        Raises `Ended` where none comes, and `ValueError` for a line feed within the
        line, or a line that has no reply.
        """
        if _PLAIN.match(line) and not self._watching:
            with self._sending:
                if self._is_idle and self._fault is None and not self._has_quit:
                    return self._exchange(line)
        sent = self.send(line)
        if sent is None:
            raise ValueError(f"the line {line!r} has no reply")
        return sent.wait()

    def _exchange(self, line: bytes) -> str:
        """Writes a line and reads its reply, while no other line is on its way."""
        try:
            self._write(line + b"\n")
            reply = self._replies.readline()
        except BaseException:
            self.process.kill()  # a reply that nobody reads would be the next line's
            raise
        if reply[-1:] == b"\n":
            return _text(reply)
        self._end()
        raise _without_reply(self._fault, line)

    def pour(self, content: bytes) -> bytes:
        """Sends whole lines, none of them `watch` or `quit`; answers all replies.

        Nothing else may be on its way. Raises `Ended` where a reply does not come.
        """
        with self._sending:
            if not self._is_idle or self._fault is not None or self._has_quit:
                raise self._fault or Ended("lines are on their way already", None)
            end = b"" if content.endswith(b"\n") or not content else b"\n"
            pieces = (content, end + b"last\n")
            writer = threading.Thread(target=lambda: [*map(self._write, pieces)])
            writer.start()
            replies = self._until_last()
            writer.join()
            return replies

    def _until_last(self) -> bytes:
        """The replies up to that to `last`, and without it."""
        replies: List[bytes] = []
        while True:
            reply = self._replies.readline()
            if reply.startswith(b"last "):
                return b"".join(replies)
            if reply[-1:] != b"\n":
                self._end()
                raise _without_reply(self._fault, b"last")
            replies.append(reply)

    def send(self, line: bytes) -> Optional[Sent]:
        """Sends a line, given without its line feed; None if it has no reply.

        Raises `Ended` where the program has ended or a `quit` was sent, and
        `ValueError` for a line feed within the line.
        """
        return self.send_all([line])[0]

    def send_all(self, lines: Iterable[bytes]) -> List[Optional[Sent]]:
        """Sends lines in one piece; for each what `send` answers."""
        pieces: List[bytes] = []
        with self._sending:
            if self._fault is not None or self._has_quit:
                raise self._fault or Ended("no line is answered behind `quit`", None)
            answers = [self._ready(line, pieces) for line in lines]
            with self._turning:
                for sent in answers:
                    if sent is not None:
                        self._sent.append(sent)
                        if sent.behind is not None:
                            self._sent.append(sent.behind)
                self._wake_reader(bool(self._sent))
            self._write(b"".join(pieces))
        return answers

    def _ready(self, line: bytes, pieces: List[bytes]) -> Optional[Sent]:
        """What waits for the line's reply; adds the bytes to write."""
        if b"\n" in line:
            raise ValueError(f"a line feed stands within the line {line!r}")
        pieces.append(line)
        pieces.append(b"\n")
        shape = shape_of(line)
        if shape.silent or self._has_quit:
            return None
        sent = Sent(line)
        if shape.command == b"watch":
            self._watching = True
        elif shape.command == b"quit":
            self._has_quit = not shape.more
        elif self._watching and shape.command in UPDATES:
            # notes may come below the reply; the reply to `last` comes behind them
            sent.behind = Sent(b"last")
            pieces.append(b"last\n")
        return sent

    def _wake_reader(self, needed: bool) -> None:
        if needed and self._is_idle:
            self._is_idle = False
            self._wake.release()

    def _write(self, piece: bytes) -> None:
        try:
            written = os.write(self._input, piece)
            while written < len(piece):
                written += os.write(self._input, memoryview(piece)[written:])
        except BrokenPipeError:
            pass  # who reads sees the end, and tells those who wait

    def _read(self) -> None:
        """Sleeps while nothing was sent ahead, and hands replies to their lines."""
        while True:
            self._wake.acquire()
            latest: Optional[Sent] = None
            while self._has_work():
                line = self._replies.readline()
                if line[-1:] != b"\n":
                    self._end()
                    return
                if latest is not None and line.startswith(b"note "):
                    latest.notes.append(_text(line))
                elif self._sent:
                    latest = self._sent.popleft()
                    latest.arrive(_text(line))
                else:
                    self._end(line)
                    return

    def _has_work(self) -> bool:
        """Whether replies are to come; if not, the reader is idle from now on."""
        with self._turning:
            self._is_idle = not self._sent and not self._is_closing
            return not self._is_idle

    def _end(self, extra: bytes = b"") -> None:
        """Tells all who wait that no reply will come."""
        if extra:
            self.process.kill()
        status = self.process.wait()
        why = status_words(status) if status else "it has ended"
        if extra:
            why = f"it wrote {extra!r}, which is the reply to no line"
        with self._turning:
            self._fault = Ended(f"ec answers no more lines: {why}", status)
            unanswered = list(self._sent)
            self._sent.clear()
        for sent in unanswered:
            sent.arrive(None, _without_reply(self._fault, sent.line))

    def close(self) -> int:
        """Ends the input, waits until all is answered, and answers the status."""
        assert self.process.stdin is not None
        with self._sending:
            self._has_quit = True
            self.process.stdin.close()
        with self._turning:
            self._is_closing = True
            self._wake_reader(True)
        self._reader.join()
        self._replies.close()
        return self.process.wait()

    def kill(self) -> None:
        """Ends the program at once; what was sent and not answered is lost."""
        self.process.kill()
        self.close()


def _text(line: bytes) -> str:
    """A reply without its line feed."""
    return line[:-1].decode("latin-1")


def _without_reply(fault: Optional[Ended], line: bytes) -> Ended:
    """The fault of a line that has no reply."""
    text = line.decode("utf-8", "backslashreplace")
    status = fault.status if fault else None
    return Ended(f"{fault}. The line {text!r} has no reply", status, text)
