"""What can go wrong, each with a message in words that says what to do."""

from __future__ import annotations


class HistoryError(Exception):
    """A fault that is told to people. Its text is a whole sentence or two."""


class TermError(HistoryError, ValueError):
    """A text spells no term, pattern or time.

    `text` is what was read, and `column` the place in it, from 1, where it goes wrong.
    """

    def __init__(self, text: str, column: int, reason: str) -> None:
        super().__init__(f"{text!r}, column {column}: {reason}")
        self.text = text
        self.column = column
        self.reason = reason
