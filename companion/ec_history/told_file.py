"""What an import knows of its records, in a file, so that memory does not grow.

The file is an SQLite database that ends with the import; it is no part of what is made.
"""

from __future__ import annotations

import sqlite3
from typing import List, Optional, Sequence, Tuple

from .importing import Event, Key, Told

_BETWEEN = "\x1f"
_TABLES = """
CREATE TABLE records (key TEXT PRIMARY KEY, place TEXT, events TEXT, by TEXT)
WITHOUT ROWID;
CREATE TABLE identities (identity TEXT PRIMARY KEY) WITHOUT ROWID;
"""
_SETTINGS = ("journal_mode = OFF", "synchronous = OFF", "cache_size = -65536")


class ToldFile(Told):
    """As `Told`, in a file of that path, which is not there yet."""

    def __init__(self, path: str) -> None:
        super().__init__()
        self._file = sqlite3.connect(path, isolation_level=None)
        for setting in _SETTINGS:
            self._file.execute(f"PRAGMA {setting}")
        self._file.executescript(_TABLES)
        self._file.execute("BEGIN")

    def close(self) -> None:
        """Closes the file, which has no further use."""
        self._file.close()

    def place(self, key: Key) -> Optional[str]:
        return self._of("place", key)

    def events(self, key: Key) -> Optional[Sequence[Tuple[str, str]]]:
        text = self._of("events", key)
        if text is None:
            return None
        events: List[Tuple[str, str]] = []
        for pair in text.split(" ") if text else ():
            identity, _, term = pair.partition("=")
            events.append((identity, term))
        return events

    def corrected_by(self, key: Key) -> Optional[Key]:
        text = self._of("by", key)
        return None if text is None else tuple(text.split(_BETWEEN))

    def has_identity(self, identity: str) -> bool:
        found = self._file.execute(
            "SELECT 1 FROM identities WHERE identity = ?", (identity,)
        )
        return found.fetchone() is not None

    def tell(self, key: Key, place: str, events: Sequence[Event]) -> None:
        text = " ".join(f"{event.identity}={event.term}" for event in events)
        self._file.execute(
            "INSERT OR REPLACE INTO records VALUES (?, ?, ?, NULL)",
            (_BETWEEN.join(key), place, text),
        )
        self._file.executemany(
            "INSERT INTO identities VALUES (?)", ((e.identity,) for e in events)
        )

    def take_back(self, target: Key, key: Key) -> None:
        gone = self.events(target) or ()
        self._file.executemany(
            "DELETE FROM identities WHERE identity = ?", ((i,) for i, _ in gone)
        )
        by = None if target == key else _BETWEEN.join(key)
        self._file.execute(
            "UPDATE records SET events = NULL, by = ? WHERE key = ?",
            (by, _BETWEEN.join(target)),
        )

    def _of(self, column: str, key: Key) -> Optional[str]:
        found = self._file.execute(
            f"SELECT {column} FROM records WHERE key = ?", (_BETWEEN.join(key),)
        ).fetchone()
        return None if found is None else found[0]
