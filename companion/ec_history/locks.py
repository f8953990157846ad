"""One process at a time: who holds a kept history, and since when."""

from __future__ import annotations

import fcntl
import os
import socket
from datetime import datetime, timezone

from .errors import HistoryError


class Held(HistoryError):
    """Another process holds the history."""


class Lock:
    """A lock beside a file, which ends with the process that holds it.

    The file `PATH-lock` says who holds it; it may stay there afterwards.
    """

    def __init__(self, path: str) -> None:
        self.path = f"{os.path.realpath(path)}-lock"
        try:
            flags = os.O_RDWR | os.O_CREAT | os.O_CLOEXEC
            self._file = os.open(self.path, flags, 0o644)
        except OSError as fault:
            raise HistoryError(
                f"{self.path}: can't be written: {fault.strerror}; a kept history "
                "needs a folder that can be written"
            ) from None
        try:
            fcntl.flock(self._file, fcntl.LOCK_EX | fcntl.LOCK_NB)
        except OSError:
            holder = os.read(self._file, 4096).decode("utf-8", "replace").strip()
            os.close(self._file)
            raise Held(
                f"{path} is held by {holder or 'another process'}; end that first"
            ) from None
        self.tell("")

    def tell(self, what: str) -> None:
        """Says in the lock's file who holds it, and what it does."""
        since = datetime.now(timezone.utc).strftime("%Y-%m-%dT%H:%M:%SZ")
        text = f"process {os.getpid()} on {socket.gethostname()} since {since}{what}\n"
        os.ftruncate(self._file, 0)
        os.pwrite(self._file, text.encode(), 0)

    def release(self) -> None:
        os.close(self._file)
