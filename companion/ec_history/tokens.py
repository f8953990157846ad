"""The tokens of theory files, each with its place.

A theory is read as bytes: lines and columns count from 1, and columns count bytes, as
`ec` counts them. Texts of tokens are ASCII; a comment may hold any bytes.
"""

from __future__ import annotations

import re
from dataclasses import dataclass
from typing import List

from .errors import HistoryError
from .terms import LONGEST_NAME, number_value

_PIECE = re.compile(
    r"(?P<blank>[ \t\r\n]+)|(?P<comment>%[^\n]*)|(?P<name>[a-z][A-Za-z0-9_]*)"
    r"|(?P<variable>[A-Z][A-Za-z0-9_]*)|(?P<number>-?[0-9]+)"
    r"|(?P<mark>!=|<=|[_(),./=<])"
)


class TheoryFault(HistoryError):
    """A theory that is none, with the place of its first fault.

    `line` and `column` count from 1; `kind` is `ec`'s word for the fault (`byte`,
    `long-name`, `number`, `syntax`), and `reason` says in words what was expected.
    """

    def __init__(self, line: int, column: int, kind: str, reason: str) -> None:
        super().__init__(f"line {line}, column {column}: {reason}")
        self.line = line
        self.column = column
        self.kind = kind
        self.reason = reason


@dataclass(frozen=True)
class Token:
    """A token and its place. Kinds: `name`, `variable`, `number`, `mark`, `end`."""

    kind: str
    text: str
    offset: int
    line: int
    column: int


def tokens_of(source: bytes) -> List[Token]:
    """The tokens of a theory, and one of the kind `end` just behind its last byte.

    Raises `TheoryFault` at the first byte that begins no token, and at the first name
    or number that is too long or too great.
    """
    text = source.decode("latin-1")
    tokens: List[Token] = []
    offset, line, line_start = 0, 1, 0
    while offset < len(text):
        piece = _PIECE.match(text, offset)
        column = offset - line_start + 1
        if piece is None:
            raise TheoryFault(line, column, "byte", _byte_reason(text, offset))
        kind, part = piece.lastgroup or "", piece.group()
        if kind in ("name", "variable") and len(part) > LONGEST_NAME:
            reason = f"the name has {len(part)} bytes, and may have {LONGEST_NAME}"
            raise TheoryFault(line, column, "long-name", reason)
        if kind == "number" and number_value(part) is None:
            reason = f"{part} has over 20 digits or needs over 64 bits"
            raise TheoryFault(line, column, "number", reason)
        if kind == "blank" and "\n" in part:
            line += part.count("\n")
            line_start = offset + part.rindex("\n") + 1
        elif kind not in ("blank", "comment"):
            tokens.append(Token(kind, part, offset, line, column))
        offset = piece.end()
    tokens.append(Token("end", "", offset, line, offset - line_start + 1))
    return tokens


def _byte_reason(text: str, offset: int) -> str:
    byte = text[offset]
    if byte == "-":
        return "a '-' needs a digit directly behind it"
    if byte == "!":
        return "a '!' needs a '=' directly behind it"
    if text.startswith("\xef\xbb\xbf", offset) and offset == 0:
        return "the file begins with a byte order mark; save it without one"
    shown = repr(byte) if byte.isascii() else f"the byte {ord(byte)}"
    return f"{shown} can't stand here; it begins no word and no mark of a theory"
