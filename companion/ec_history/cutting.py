"""Bytes that come in pieces, cut into lines as `ec` cuts them, in bounded memory."""

from __future__ import annotations

from typing import List, Optional

from .lines import LONGEST_LINE

_CUT_OFF = LONGEST_LINE + 2
"""So many bytes are a line that is too long, whether or not one CR is dropped."""


class Cutter:
    """Cuts pieces into lines. Of a line that is too long only a part is kept."""

    def __init__(self) -> None:
        self._rest = b""

    def feed(self, piece: bytes) -> List[bytes]:
        """The lines that end in a piece, without their ends.

        A line of over 4,096 bytes comes with over 4,096 of its bytes.
        """
        content = self._rest + piece
        *lines, rest = content.split(b"\n")
        self._rest = rest[:_CUT_OFF]
        if b"\r" in content:
            lines = [line[:-1] if line.endswith(b"\r") else line for line in lines]
        return lines

    def end(self) -> Optional[bytes]:
        """What stands behind the last line feed, where that is something."""
        rest, self._rest = self._rest, b""
        return rest or None


def words_of(line: bytes) -> List[bytes]:
    """The words of a line: its longest runs of bytes other than space and tab."""
    words = line.replace(b"\t", b" ").split(b" ")
    return [word for word in words if word] if b"" in words else words
