"""What a client must know of a line before it sends it: has it a reply, and which?"""

from __future__ import annotations

from typing import NamedTuple, Optional

LONGEST_LINE = 4096
"""Bytes of a line, without its line end."""
MOST_SESSIONS = 64
BLANKS = b" \t"
UPDATES = (b"assert", b"retract", b"commit")
"""The commands whose reply may have notes below it, where it is `ok`."""


class Shape(NamedTuple):
    """What is known of a line by its first words.

    `silent` lines have no reply: those without words, and comments. `session` is the
    number behind `@`, None without a prefix (or with one that is none). `command` is
    the first word of the command, empty where there is none, and `words` says whether
    more words stand behind it.
    """

    silent: bool
    session: Optional[int]
    command: bytes
    more: bool


_SILENT = Shape(True, None, b"", False)
_REFUSED = Shape(False, None, b"", False)


def shape_of(line: bytes) -> Shape:
    """The shape of a line, given without its line feed."""
    if line[-1:] == b"\r":
        line = line[:-1]
    if len(line) > LONGEST_LINE:
        return _REFUSED
    line = line.strip(BLANKS)
    if not line or line[:1] == b"%":
        return _SILENT
    line = line.replace(b"\t", b" ")
    word, _, rest = line.partition(b" ")
    if word[:1] != b"@":
        return Shape(False, None, word, bool(rest))
    session = session_of(word)
    word, _, rest = rest.lstrip(BLANKS).partition(b" ")
    return Shape(False, session, b"" if session is None else word, bool(rest))


def session_of(word: bytes) -> Optional[int]:
    """The session of a prefix `@7` or `@07`, or None where it is none from 0 to 63."""
    digits = word[1:]
    if not 1 <= len(digits) <= 2 or not digits.isdigit():
        return None
    number = int(digits)
    return number if number < MOST_SESSIONS else None


def is_quit(line: bytes) -> bool:
    """Whether a line is `quit`, behind which no line is answered."""
    shape = shape_of(line)
    return shape.command == b"quit" and not shape.more
