"""The file of a kept history."""

from __future__ import annotations

import os
import sqlite3
import threading
from datetime import datetime, timedelta, timezone

from ec_history.database import Database, DatabaseFault, NotKept, instant_text
from tests.keep import Folder

START = datetime(2024, 3, 3, 12, tzinfo=timezone.utc)
THEORY = b"initiates a b."


class DatabaseTest(Folder):
    def made(self) -> Database:
        database = Database.create(self.file, THEORY)
        self.addCleanup(database.close)
        return database

    def changed(self, statement: str) -> None:
        with sqlite3.connect(self.file) as connection:
            connection.execute(statement)
        connection.close()

    def test_updates_are_there_when_it_is_opened_again(self) -> None:
        database = self.made()
        self.assertEqual(list(database.updates()), [])
        database.append([(0, "assert x 1 a", "ok"), (3, "retract x", "ok")], START)
        database.append([(0, "assert y 1 a", "ok")], START + timedelta(seconds=1))
        again = Database.open(self.file)
        self.addCleanup(again.close)
        self.assertEqual(again.theory(), THEORY)
        self.assertEqual(again.count, 3)
        self.assertEqual(
            [tuple(update) for update in again.updates()],
            [
                (1, "2024-03-03T12:00:00.000000Z", 0, "assert x 1 a", "ok"),
                (2, "2024-03-03T12:00:00.000000Z", 3, "retract x", "ok"),
                (3, "2024-03-03T12:00:01.000000Z", 0, "assert y 1 a", "ok"),
            ],
        )
        self.assertEqual(len(list(again.updates(2))), 2)

    def test_instants_of_telling_never_go_back(self) -> None:
        database = self.made()
        for seconds in (5, 3, 7, -100):
            row = (0, f"assert e{seconds + 100} 1 a", "ok")
            database.append([row], START + timedelta(seconds=seconds))
        told = [update.told for update in database.updates()]
        wanted = [instant_text(START + timedelta(seconds=s)) for s in (5, 5, 7, 7)]
        self.assertEqual(told, wanted)
        self.assertEqual(database.faults(), [])

    def test_instants_become_numbers_of_updates(self) -> None:
        database = self.made()
        for seconds in (0, 10, 10, 20):
            row = (0, "assert x 1 a", "ok")
            database.append([row], START + timedelta(seconds=seconds, microseconds=5))
        for seconds, number in [(-9, 0), (0, 0), (1, 1), (10, 1), (11, 3), (999, 4)]:
            instant = START + timedelta(seconds=seconds)
            self.assertEqual(database.count_by(instant), number)
        exactly = START + timedelta(seconds=10, microseconds=5)
        self.assertEqual(database.count_by(exactly), 3)

    def test_it_says_what_it_is(self) -> None:
        self.made()
        with open(self.file, "rb") as file:
            head = file.read(100)
        self.assertEqual(head[68:72], b"ecKp")
        connection = sqlite3.connect(self.file)
        self.assertEqual(connection.execute("PRAGMA user_version").fetchone(), (1,))
        mode = connection.execute("PRAGMA journal_mode").fetchone()
        connection.close()
        self.assertEqual(mode, ("wal",))

    def test_other_files_are_refused(self) -> None:
        with self.assertRaisesRegex(DatabaseFault, "the first time, name the theory"):
            Database.open(self.file)
        self.write("kept.db", b"no database at all " * 100)
        with self.assertRaisesRegex(DatabaseFault, "can't be used: file is not a data"):
            Database.open(self.file)
        with self.assertRaisesRegex(DatabaseFault, "is there already"):
            Database.create(self.file, THEORY)
        os.unlink(self.file)
        self.changed("CREATE TABLE x (y)")
        with self.assertRaisesRegex(DatabaseFault, "keeps no history"):
            Database.open(self.file)

    def test_a_newer_form_is_refused(self) -> None:
        self.made().close()
        self.changed("PRAGMA user_version = 2")
        with self.assertRaisesRegex(DatabaseFault, "form 2, .* knows the form 1"):
            Database.open(self.file, writing=True)

    def test_changes_by_hand_are_found(self) -> None:
        for change, said in [
            ("DELETE FROM updates WHERE number = 2", "update 2 is missing"),
            ("UPDATE updates SET told = '2023' WHERE number = 3", "3 was told before"),
            ("UPDATE theory SET content = x'41'", "theory that is kept was changed"),
        ]:
            with self.subTest(change):
                self.file = self.path(f"{len(change)}.db")
                database = self.made()
                rows = [(0, f"assert e{n} 1 a", "ok") for n in range(4)]
                database.append(rows, START)
                database.close()
                self.changed(change)
                again = Database.open(self.file)
                found = again.faults()
                again.close()
                self.assertEqual(len(found), 1)
                self.assertIn(said, found[0])

    def test_a_broken_page_is_found(self) -> None:
        database = self.made()
        rows = [(0, f"assert e{n} 1 a({n})", "ok") for n in range(2000)]
        database.append(rows, START)
        database.close()
        with open(self.file, "r+b") as file:
            file.seek(4096 * 5 + 100)
            file.write(os.urandom(3000))
        again = Database.open(self.file)
        self.assertTrue(again.faults())
        again.close()

    def test_what_the_database_refuses_is_not_there(self) -> None:
        database = self.made()
        database.append([(0, "assert x 1 a", "ok")], START)
        database._connection.execute("PRAGMA max_page_count = 12")
        rows = [(0, f"assert e{n} 1 a", "ok") for n in range(2000)]
        with self.assertRaises(NotKept) as raised:
            database.append(rows, START)
        self.assertEqual(raised.exception.cause, "database or disk is full")
        self.assertEqual(database.count, 1)
        database.append([(0, "assert y 1 a", "ok")], START)
        self.assertEqual([u.lines for u in database.updates()][1:], ["assert y 1 a"])

    def test_somebody_else_s_lock_is_told(self) -> None:
        database = self.made()
        database._connection.execute("PRAGMA busy_timeout = 50")
        other = sqlite3.connect(self.file, isolation_level=None)
        other.execute("BEGIN IMMEDIATE")
        with self.assertRaisesRegex(NotKept, "locked"):
            database.append([(0, "assert x 1 a", "ok")], START)
        other.execute("ROLLBACK")
        other.close()
        database.append([(0, "assert x 1 a", "ok")], START)

    def test_a_copy_is_taken_while_others_write(self) -> None:
        self.made()

        def write() -> None:
            database = Database.open(self.file, writing=True)
            for number in range(400):
                row = (0, f"assert e{number} 1 a", "ok")
                database.append([row, (1, f"retract e{number}", "ok")], START)
            database.close()

        writer = threading.Thread(target=write)
        writer.start()
        copies = 0
        while writer.is_alive():
            source = Database.open(self.file)
            source.back_up(self.path(f"copy{copies}.db"))
            source.close()
            copies += 1
        writer.join()
        counts = []
        for number in range(copies):
            copy = Database.open(self.path(f"copy{number}.db"))
            self.assertEqual(copy.faults(), [])
            counts.append(copy.count)
            copy.close()
        self.assertEqual(counts, sorted(counts))
        self.assertTrue(all(count % 2 == 0 for count in counts))
        self.assertGreater(copies, 0)

    def test_a_copy_overwrites_nothing(self) -> None:
        database = self.made()
        self.write("copy.db", "mine")
        with self.assertRaisesRegex(DatabaseFault, "is there already"):
            database.back_up(self.path("copy.db"))
        with self.assertRaisesRegex(DatabaseFault, "the copy was not made"):
            database.back_up(self.path("none/copy.db"))
