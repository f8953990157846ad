"""How far long work is, on standard error where that is a terminal."""

from __future__ import annotations

import sys
import time
from types import TracebackType
from typing import Optional, Type


class Progress:
    """Tells a count every half second, on one line that is wiped at the end.

    It says nothing where standard error is no terminal.
    """

    def __init__(self, what: str) -> None:
        self.what = what
        self.count = 0
        self._shown = sys.stderr.isatty()
        self._next = time.monotonic() + 0.5

    def step(self, by: int = 1) -> None:
        self.count += by
        if self._shown and time.monotonic() >= self._next:
            self._next = time.monotonic() + 0.5
            print(f"\r{self.what}: {self.count:,}", end="", file=sys.stderr, flush=True)

    def __enter__(self) -> "Progress":
        return self

    def __exit__(
        self,
        kind: Optional[Type[BaseException]],
        fault: Optional[BaseException],
        trace: Optional[TracebackType],
    ) -> None:
        if self._shown:
            print("\r\x1b[K", end="", file=sys.stderr, flush=True)
