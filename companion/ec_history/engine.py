"""A running `ec serve` that answers lines in rounds: many lines, then all replies.

(`pipe.Pipe` answers line by line, for programs that ask as they go.)
"""

from __future__ import annotations

import os
import re
import select
import subprocess
from typing import Dict, List, NamedTuple, Sequence

from .errors import HistoryError
from .refusals import status_words

_PIECE = 1 << 16
_is_note = re.compile(b"note ").match


class EngineEnded(HistoryError):
    """The program ended before it answered all lines of a round."""


class Replies(NamedTuple):
    """The replies to some lines, with their prefixes, and the notes below each of them.

    `notes` has them by the place of the reply, from 0.
    """

    texts: List[bytes]
    notes: Dict[int, List[bytes]]


class Engine:
    """The process, for one thread at a time."""

    def __init__(self, program: str, theory: str) -> None:
        self.process = subprocess.Popen(
            [program, "serve", theory],
            stdin=subprocess.PIPE,
            stdout=subprocess.PIPE,
            bufsize=0,
            start_new_session=True,
        )
        assert self.process.stdin is not None and self.process.stdout is not None
        self._input = self.process.stdin.fileno()
        self._output = self.process.stdout.fileno()
        os.set_blocking(self._input, False)
        self._left = memoryview(b"")
        self._told = 0

    def ask(self, lines: Sequence[bytes]) -> Replies:
        """The replies to lines, as by `tell` and `replies`."""
        self.tell(lines)
        return self.replies()

    def tell(self, lines: Sequence[bytes]) -> None:
        """Sends lines, none of which is silent or `quit`; it is not waited for them."""
        if not lines:
            return
        self._told += len(lines)
        self._left = memoryview(b"".join([self._left, b"\n".join([*lines, b""])]))
        self._write_on()

    def replies(self, with_notes: bool = True) -> Replies:
        """The replies to all lines that were told since it was called last.

        Where there may be notes, `last` goes behind the lines: its reply stands below
        the notes of the last update. Raises EngineEnded. The one reply of an `ec` that
        refuses its theory says so.
        """
        if with_notes:
            self.tell([b"last"])
        found = Replies([], {})
        rest: List[bytes] = []
        while len(found.texts) < self._told:
            if self._left:
                self._write_on()
                if self._left and not self._has_written():
                    continue
            piece = os.read(self._output, _PIECE)
            if not piece:
                raise EngineEnded(self._why())
            elif b"\n" not in piece:
                rest.append(piece)
            else:
                *whole, last = b"".join([*rest, piece]).split(b"\n")
                rest = [last]
                _add(whole, found)
        if with_notes:
            found.texts.pop()
        self._told = 0
        return found

    def _has_written(self) -> bool:
        """Waits until the program reads or has written; whether it has written."""
        return bool(select.select([self._output], [self._input], [])[0])

    def _write_on(self) -> None:
        """Writes as much as the program takes now."""
        try:
            written = os.write(self._input, self._left[:_PIECE])
        except BlockingIOError:
            return
        except OSError:
            written = len(self._left)  # who reads sees the end, and says why
        self._left = self._left[written:]

    def _why(self) -> str:
        status = self.process.wait()
        return f"ec has ended: {status_words(status) if status else 'by itself'}"

    def close(self) -> None:
        """Ends the program."""
        assert self.process.stdin is not None and self.process.stdout is not None
        for pipe in (self.process.stdin, self.process.stdout):
            try:
                pipe.close()
            except OSError:
                pass
        self.process.kill()
        self.process.wait()


def _add(lines: List[bytes], found: Replies) -> None:
    """Adds lines to the replies, and notes to those of the last of these."""
    if not any(map(_is_note, lines)):
        found.texts.extend(lines)
        return
    for line in lines:
        if _is_note(line) and found.texts:
            found.notes.setdefault(len(found.texts) - 1, []).append(line)
        else:
            found.texts.append(line)
