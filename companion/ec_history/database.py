"""The file of a kept history: an SQLite database of a theory and its updates.

SQLite's atomic commit is what makes an update lasting; there is no log, checksum or
recovery besides it. The tables can be read with any tool for SQLite:

    theory    the theory's bytes, and their SHA-256
    updates   each accepted update: its number from 1, when it was told (UTC), the
              session that told it, its line (of a commit all its lines), and the first
              line of its reply
"""

from __future__ import annotations

import hashlib
import os
import sqlite3
from datetime import datetime, timezone
from typing import Iterable, Iterator, List, NamedTuple, Optional, Tuple

from .errors import HistoryError

APPLICATION = 0x65634B70
"""`application_id` of a kept history: the bytes `ecKp`."""
VERSION = 1
"""`user_version`: the number of this form of the tables."""

_SETTINGS = ("synchronous = FULL", "fullfsync = ON")
_TABLES = """
CREATE TABLE theory (
    number INTEGER PRIMARY KEY CHECK (number = 1),
    content BLOB NOT NULL,
    sha256 TEXT NOT NULL
);
CREATE TABLE updates (
    number INTEGER PRIMARY KEY,
    told TEXT NOT NULL,
    session INTEGER NOT NULL,
    lines TEXT NOT NULL,
    reply TEXT NOT NULL
);
CREATE TABLE room (content BLOB);
"""


class NotKept(HistoryError):
    """The database took none of some updates; `cause` is why, in SQLite's words."""

    def __init__(self, cause: str) -> None:
        super().__init__(f"the database did not take the updates: {cause}")
        self.cause = cause


class DatabaseFault(HistoryError):
    """A file that is no kept history, or that can't be used; it says what to do."""


class Update(NamedTuple):
    """An accepted update, as it is kept."""

    number: int
    told: str
    session: int
    lines: str
    reply: str


def instant_text(instant: datetime) -> str:
    """An instant of telling: its text's order is that of time."""
    utc = instant.astimezone(timezone.utc).replace(tzinfo=None)
    return utc.isoformat(timespec="microseconds") + "Z"


class Database:
    """A kept history that is open. `append` is the only call that changes it."""

    def __init__(self, path: str, connection: sqlite3.Connection) -> None:
        self.path = path
        self._connection = connection
        self.count, self.last_told = 0, ""
        self._read_end()

    @classmethod
    def create(cls, path: str, theory: bytes) -> "Database":
        """A new file, with a theory and no update. It is there whole, or not at all."""
        if os.path.exists(path) and os.path.getsize(path):
            raise DatabaseFault(f"{path} is there already")
        draft = f"{path}-new"
        try:
            if os.path.exists(draft):
                os.unlink(draft)
            _make(draft, theory)
            os.replace(draft, path)
            folder = os.open(os.path.dirname(os.path.abspath(path)), os.O_RDONLY)
            os.fsync(folder)
            os.close(folder)
        except (sqlite3.Error, OSError) as fault:
            raise DatabaseFault(f"{path}: can't be written: {fault}") from None
        return cls.open(path, writing=True)

    @classmethod
    def open(cls, path: str, writing: bool = False) -> "Database":
        """A file that is there. Raises DatabaseFault where it keeps no history."""
        if not os.path.exists(path):
            raise DatabaseFault(
                f"{path} is not there; the first time, name the theory as well: "
                f"`ec-history keep {path} --theory THEORY`"
            )
        try:
            connection = _connect(path, "rw" if writing else "ro")
            _look(path, connection)
            if writing:
                connection.execute("PRAGMA journal_mode = WAL")
                connection.execute("BEGIN IMMEDIATE")
                connection.execute("ROLLBACK")
            return cls(path, connection)
        except sqlite3.Error as fault:
            raise DatabaseFault(f"{path}: can't be used: {fault}") from None

    def _read_end(self) -> None:
        row = self._connection.execute(
            "SELECT number, told FROM updates ORDER BY number DESC LIMIT 1"
        ).fetchone()
        self.count, self.last_told = row or (0, "")

    def close(self) -> None:
        self._connection.close()

    def theory(self) -> bytes:
        """The theory. Raises DatabaseFault where it is not the one that was put in."""
        content, digest = self._connection.execute(
            "SELECT content, sha256 FROM theory"
        ).fetchone()
        content = bytes(content)
        if hashlib.sha256(content).hexdigest() != digest:
            raise DatabaseFault(
                f"{self.path}: the theory that is kept was changed: its SHA-256 is "
                f"another than {digest}"
            )
        return content

    def append(self, updates: Iterable[Tuple[int, str, str]], now: datetime) -> None:
        """Adds updates (session, lines, reply), all or none, and syncs them.

        Raises NotKept where the database took none of them, and DatabaseFault where it
        can't be told whether it did.
        """
        told = max(instant_text(now), self.last_told)
        rows = [
            (number, told, session, lines, reply)
            for number, (session, lines, reply) in enumerate(updates, self.count + 1)
        ]
        written = 0
        try:
            self._connection.execute("BEGIN IMMEDIATE")
            self._connection.executemany(
                "INSERT INTO updates VALUES (?, ?, ?, ?, ?)", rows
            )
            written = len(rows)
            self._connection.execute("COMMIT")
        except sqlite3.Error as fault:
            self._look_again(written, str(fault))
        self.count += len(rows)
        self.last_told = told

    def _look_again(self, added: int, cause: str) -> None:
        """Finds out, after a failure, whether the updates are there; if not, raises."""
        before = self.count
        self._connection.close()
        try:
            self._connection = _connect(self.path, "rw")
            self._read_end()
            if self.count == before:
                raise NotKept(cause)
            if self.count == before + added:
                busy, _, _ = self._connection.execute(
                    "PRAGMA wal_checkpoint(TRUNCATE)"
                ).fetchone()
                if not busy:
                    self.count = before  # the caller counts them
                    return
        except sqlite3.Error as fault:
            cause = f"{cause}; then {fault}"
        raise DatabaseFault(
            f"{self.path}: it can't be told whether the last {added} updates are kept "
            f"({cause}). Start anew once the disk is well: what is kept is then told"
        )

    def probe(self, size: int) -> None:
        """Tries whether so many bytes can be written; raises NotKept where not."""
        try:
            self._connection.execute("BEGIN IMMEDIATE")
            self._connection.execute("INSERT INTO room VALUES (zeroblob(?))", (size,))
            self._connection.execute("COMMIT")
            self._connection.execute("DELETE FROM room")
        except sqlite3.Error as fault:
            if self._connection.in_transaction:
                self._connection.execute("ROLLBACK")
            raise NotKept(str(fault)) from None

    def updates(self, most: Optional[int] = None) -> Iterator[Update]:
        """The updates in order, at most so many."""
        rows = self._connection.execute(
            "SELECT number, told, session, lines, reply FROM updates "
            "WHERE number <= ? ORDER BY number",
            (self.count if most is None else most,),
        )
        return map(Update._make, rows)

    def count_by(self, instant: datetime) -> int:
        """How many updates were accepted by an instant."""
        wanted = instant_text(instant)
        least, most = 0, self.count
        while least < most:  # the first `least` were told by then
            middle = (least + most + 1) // 2
            (told,) = self._connection.execute(
                "SELECT told FROM updates WHERE number = ?", (middle,)
            ).fetchone()
            if told <= wanted:
                least = middle
            else:
                most = middle - 1
        return least

    def faults(self) -> List[str]:
        """What is wrong with the file, by SQLite's own check and by its numbers."""
        try:
            rows = self._connection.execute("PRAGMA integrity_check(10)").fetchall()
            found = [text for (text,) in rows if text != "ok"]
            if not found:
                self.theory()
                found += _order_faults(self.updates())
            return found
        except sqlite3.Error as fault:
            return [str(fault)]
        except DatabaseFault as fault:
            return [str(fault)]

    def back_up(self, path: str) -> None:
        """A copy of the file, taken while others write. Raises DatabaseFault."""
        if os.path.exists(path):
            raise DatabaseFault(f"{path} is there already; name a file that is not")
        draft = f"{path}.part"
        try:
            if os.path.exists(draft):
                os.unlink(draft)
            target = sqlite3.connect(draft, isolation_level=None)
            self._connection.backup(target)
            found = target.execute("PRAGMA integrity_check(1)").fetchone()[0]
            target.execute("PRAGMA journal_mode = DELETE")
            target.close()
            if found != "ok":
                raise DatabaseFault(f"{path}: the copy is at fault: {found}")
            with open(draft, "rb+") as file:
                os.fsync(file.fileno())
            os.replace(draft, path)
        except (sqlite3.Error, OSError) as fault:
            raise DatabaseFault(f"{path}: the copy was not made: {fault}") from None


def _make(path: str, theory: bytes) -> None:
    connection = _connect(path, "rwc")
    connection.execute("BEGIN IMMEDIATE")
    for statement in _TABLES.split(";"):
        connection.execute(statement)
    digest = hashlib.sha256(theory).hexdigest()
    connection.execute("INSERT INTO theory VALUES (1, ?, ?)", (theory, digest))
    connection.execute(f"PRAGMA application_id = {APPLICATION}")
    connection.execute(f"PRAGMA user_version = {VERSION}")
    connection.execute("COMMIT")
    connection.close()


def _connect(path: str, mode: str) -> sqlite3.Connection:
    place = os.path.abspath(path).replace("%", "%25").replace("?", "%3f")
    connection = sqlite3.connect(
        f"file:{place.replace('#', '%23')}?mode={mode}",
        uri=True,
        isolation_level=None,
        timeout=5,
    )
    for setting in _SETTINGS:
        connection.execute(f"PRAGMA {setting}")
    return connection


def _look(path: str, connection: sqlite3.Connection) -> None:
    """Raises DatabaseFault where a database keeps no history, or in another form."""
    (application,) = connection.execute("PRAGMA application_id").fetchone()
    (version,) = connection.execute("PRAGMA user_version").fetchone()
    if application != APPLICATION:
        raise DatabaseFault(f"{path} is a database, and keeps no history")
    if version != VERSION:
        raise DatabaseFault(
            f"{path} is of the form {version}, and this ec-history knows the form "
            f"{VERSION}: use the ec-history that made it, or a newer one"
        )


def _order_faults(updates: Iterable[Update]) -> Iterator[str]:
    """Numbers that are left out, and instants that go back."""
    told = ""
    for number, update in enumerate(updates, 1):
        if update.number != number:
            yield f"the update {number} is missing"
            return
        if update.told < told:
            yield f"the update {number} was told before the one in front of it"
        told = update.told
