"""`ec-history keep` on standard input and output."""

from __future__ import annotations

import os
import shutil
import signal
import sqlite3
import subprocess
import unittest
from contextlib import closing
from datetime import datetime, timezone
from pathlib import Path
from typing import List
from unittest import mock

from ec_history.database import Database, NotKept
from ec_history.keeper import Keeper, Request
from ec_history.moments import TICK
from ec_history.reading import later_commands
from tests.keep import Folder, words
from tests.setting import EXAMPLES, TOP, example_names, lines_of, program, theory_of

LOANS = theory_of("loans")


def asked_by(session: int, line: str) -> Request:
    """What a session asks with a line."""
    return Request(session, line.encode().split(b" ")[0], line.encode())


class ConversationTest(Folder):
    def test_the_examples_are_answered_as_by_ec(self) -> None:
        for name in example_names():
            file = self.path(f"{name}.db")
            lines = Path(lines_of(name)).read_bytes()
            replies = (EXAMPLES / f"{name}.replies").read_text()
            status, out, _ = self.keep(file, "--theory", theory_of(name), lines=lines)
            self.assertEqual((status, out), (0, replies), name)

    def test_the_exported_lines_give_the_same_answers(self) -> None:
        for name in ("loans", "memberships", "lending_year"):
            file = self.path(f"{name}.db")
            lines = Path(lines_of(name)).read_bytes()
            self.keep(file, "--theory", theory_of(name), lines=lines)
            _, out, _ = self.keep(file, lines="events\nclashes\n")
            exported = self.keep(file, "--export")[1]
            asked = self.served(theory_of(name), exported + "events\nclashes\n")
            self.assertEqual(asked.splitlines()[-2:], out.splitlines())
            self.assertNotIn("refused", asked)
            events = self.keep(file, "--export", "--events")[1]
            self.assertTrue(all(e.startswith("assert ") for e in events.splitlines()))
            asked = self.served(theory_of(name), events + "events\nclashes\n")
            self.assertEqual(asked.splitlines()[-2:], out.splitlines())

    def test_the_exported_events_are_a_file_to_prove_from(self) -> None:
        lines = "assert l1 10 lend(dune,ann)\nassert l2 5 lend(emma,bob)\nretract l2\n"
        self.keep(self.file, "--theory", LOANS, lines=lines)
        events = self.write("events", self.keep(self.file, "--export", "--events")[1])
        self.assertEqual(Path(events).read_text(), "assert l1 10 lend(dune,ann)\n")
        for thing, wanted in (("dune", "certificate out(dune) 12"), ("emma", "none")):
            words = [program(), "prove", LOANS, events, f"out({thing})", "12"]
            ran = subprocess.run(words, capture_output=True, text=True, check=False)
            if ran.stdout.startswith("usage:"):
                self.skipTest("this ec has no prove yet")
            self.assertEqual(ran.stdout.splitlines()[0], wanted, ran.stderr)

    def served(self, theory: str, lines: str) -> str:
        serve = [program(), "serve", theory]
        return subprocess.run(
            serve, input=lines.encode(), stdout=subprocess.PIPE, check=True
        ).stdout.decode()

    def test_the_history_goes_on_where_it_ended(self) -> None:
        status, out, _ = self.keep(
            self.file, "--theory", LOANS, lines="assert l1 10 lend(dune,ann)\n"
        )
        self.assertEqual((status, out), (0, "ok\n"))
        lines = "at 12\nassert l1 5 lend(dune,bob)\nretract l1\nat 12\n"
        status, out, _ = self.keep(self.file, lines=lines)
        wanted = "2 has(ann,dune) out(dune)\nrefused duplicate l1\nok\n0\n"
        self.assertEqual((status, out), (0, wanted))
        self.assertEqual(self.keep(self.file, lines="at 12\n")[1], "0\n")
        exported = self.keep(self.file, "--export")[1]
        self.assertEqual(exported, "assert l1 10 lend(dune,ann)\nretract l1\n")

    def test_a_commit_is_one_update(self) -> None:
        lines = (
            "@3 begin\n@3 assert a 1 lend(b,c)\n@4 begin\n@4 assert z 1 lend(b,c)\n"
            "assert x 2 lend(b,d)\n@3 retract x\n@3 retract q\n@3 commit\n@3 abort\n"
            "@3 begin\n@3 assert a 1 lend(b,c)\n@3 retract  x\n@3 commit\n"
            "begin\ncommit\n"
        )
        status, out, _ = self.keep(self.file, "--theory", LOANS, lines=lines)
        self.assertEqual(status, 0)
        self.assertIn("@3 refused commit 3 unknown q\n", out)
        database = Database.open(self.file)
        found = [(u.session, u.lines, u.reply) for u in database.updates()]
        database.close()
        self.assertEqual(
            found,
            [
                (0, "assert x 2 lend(b,d)", "ok"),
                (3, "begin\nassert a 1 lend(b,c)\nretract x\ncommit", "ok"),
                (0, "begin\ncommit", "ok"),
            ],
        )
        exported = self.keep(self.file, "--export")[1].splitlines()
        self.assertEqual(exported[1:3], ["@3 begin", "@3 assert a 1 lend(b,c)"])
        out = self.keep(self.file, lines="@4 commit\n")[1]
        self.assertEqual(out, "@4 refused no-draft\n")

    def test_a_torn_line_is_refused(self) -> None:
        lines = "assert rec_12 1 lend(a,b)\nassert rec_1 1 lend(c,b)\nretract rec_1"
        out = self.keep(self.file, "--theory", LOANS, lines=lines)[1]
        self.assertEqual(out, "ok\nok\nrefused torn-line\n")
        self.assertEqual(self.keep(self.file, lines="at 2\n%x")[1][:2], "4 ")

    def test_quit_ends_it_and_is_not_kept(self) -> None:
        lines = "assert a 1 lend(b,c)\n@5 quit\nassert d 1 lend(e,f)\n"
        out = self.keep(self.file, "--theory", LOANS, lines=lines)[1]
        self.assertEqual(out, "ok\n@5 bye\n")
        exported = self.keep(self.file, "--export")[1]
        self.assertEqual(exported, "assert a 1 lend(b,c)\n")

    def test_form_is_refused_as_by_ec(self) -> None:
        lines = (
            b"@64 last\n@3\n@07  last \n% x\n\n \t\nholds A 3\nassert\xff a 1 b\n"
            + b"x" * 5000
            + b"\n@1 "
            + b" " * 4093
            + b"\n"
            + b"at 1".ljust(4096)
            + b"\nwatch\nquit quit\n\r\nat 1\r\nat 1\r\r\n@5 at\r1\r\n"
        )
        out = self.keep(self.file, "--theory", LOANS, lines=lines)[1]
        serve = [program(), "serve", LOANS]
        asked = subprocess.run(serve, input=lines, stdout=subprocess.PIPE, check=True)
        self.assertEqual(out, asked.stdout.decode())

    def test_notes_stand_below_their_update(self) -> None:
        if "watch" not in later_commands(program(), LOANS, TICK):
            self.skipTest("this ec has no watches yet")
        lines = "@2 watch out(b)\nassert a 1 lend(b,c)\nat 0\nretract a\n"
        out = self.keep(self.file, "--theory", LOANS, lines=lines)[1]
        asked = subprocess.run(
            [program(), "serve", LOANS],
            input=lines.encode(),
            stdout=subprocess.PIPE,
            check=True,
        )
        self.assertEqual(out, asked.stdout.decode())
        self.assertEqual(out.count("note 2 out(b)"), 2)


class FileTest(Folder):
    def test_the_theory_is_needed_once(self) -> None:
        status, _, err = self.keep(self.file)
        self.assertEqual(status, 2)
        self.assertIn("the first time, name the theory as well", err)
        self.assertFalse(os.path.exists(self.file))
        self.assertEqual(self.keep(self.file, "--theory", LOANS)[0], 0)
        self.assertEqual(self.keep(self.file, "--theory", LOANS)[0], 0)
        status, _, err = self.keep(self.file, "--theory", theory_of("plant"))
        self.assertEqual(status, 2)
        self.assertIn("keeps another theory than", err)

    def test_a_theory_at_fault_makes_no_file(self) -> None:
        theory = self.write("t.ec", "initiates a(X)\nb(Y).")
        status, _, err = self.keep(self.file, "--theory", theory)
        self.assertEqual(status, 2)
        self.assertIn("t.ec:2: clause 1: the variable Y", err)
        self.assertFalse(os.path.exists(self.file))

    def test_a_second_one_is_told_who_holds_the_file(self) -> None:
        keep = words(self.file, "--theory", LOANS)
        with subprocess.Popen(
            keep,
            stdin=subprocess.PIPE,
            stdout=subprocess.PIPE,
            cwd=TOP / "companion",
        ) as first:
            assert first.stdin is not None and first.stdout is not None
            first.stdin.write(b"assert a 1 lend(b,c)\n")
            first.stdin.flush()
            self.assertEqual(first.stdout.readline(), b"ok\n")
            status, out, err = self.keep(self.file, lines="at 1\n")
            self.assertEqual((status, out), (2, ""))
            self.assertIn(f"is held by process {first.pid} on ", err)
            status, out, _ = self.keep(self.file, "--check")
            self.assertEqual(status, 0, out)
            status, _, err = self.keep(self.file, "--backup", self.path("copy.db"))
            self.assertEqual(status, 0)
            self.assertIn("1 updates are in ", err)
            first.stdin.close()
        self.assertEqual(self.keep(self.file, lines="at 2\n")[0], 0)
        self.assertEqual(self.keep(self.path("copy.db"), lines="at 2\n")[1][:2], "2 ")

    def test_an_update_that_is_answered_otherwise_stops_the_start(self) -> None:
        lines = "".join(f"assert e{n} {n} lend(b{n},c)\n" for n in range(9))
        self.keep(self.file, "--theory", LOANS, lines=lines)
        with closing(sqlite3.connect(self.file)) as connection:
            statement = "UPDATE updates SET lines = 'retract e9' WHERE number = 5"
            connection.execute(statement)
            connection.commit()
        before = Path(self.file).read_bytes()
        for more in ((), ("--check",), ("--export", "--events")):
            status, out, err = self.keep(self.file, *more)
            self.assertIn(status, (1, 2))
            self.assertIn("update 5 (told 20", out + err)
            said = "ec answers 'refused unknown e9', and 'ok' is kept"
            self.assertIn(said, out + err)
        self.assertEqual(Path(self.file).read_bytes(), before)
        with closing(sqlite3.connect(self.file)) as connection:
            connection.execute("DELETE FROM updates WHERE number = 5")
            connection.commit()
        status, _, err = self.keep(self.file)
        self.assertEqual(status, 2)
        self.assertIn("update 5 is missing", err)

    def test_what_no_update_is_stops_the_start(self) -> None:
        changes = [
            ("lines", "'quit'"),
            ("lines", "'% e1 1 lend(b,c)'"),
            ("lines", "'begin'"),
            ("lines", "'assert a 1 lend(b,c)' || char(10) || 'quit'"),
            ("lines", "x'00ff'"),
            ("session", "64"),
            ("session", "'x'"),
            ("reply", "'drafted 1'"),
        ]
        for number, (column, value) in enumerate(changes):
            file = self.path(f"kept{number}.db")
            lines = "assert a 1 lend(b,c)\nassert d 1 lend(e,f)\n"
            self.keep(file, "--theory", LOANS, lines=lines)
            with closing(sqlite3.connect(file)) as connection:
                statement = f"UPDATE updates SET {column} = {value} WHERE number = 2"
                connection.execute(statement)
                connection.commit()
            status, out, err = self.keep(file)
            self.assertEqual((status, out), (2, ""))
            self.assertIn("update 2 is not what is kept of an update", err, value)

    def test_a_file_that_can_not_be_written_is_told(self) -> None:
        self.keep(self.file, "--theory", LOANS, lines="assert a 1 lend(b,c)\n")
        status, _, err = self.keep(self.path("none/kept.db"), "--theory", LOANS)
        self.assertEqual(status, 2)
        self.assertIn("can't be written: No such file or directory", err)
        self.write("other.db", b"x" * 5000)
        for name in ("other.db", "kept.db-lock"):
            status, _, err = self.keep(self.path(name))
            self.assertEqual(status, 2, err)

    def test_a_copy_as_it_was_at_an_instant(self) -> None:
        self.told_on_three_days()
        instants = [("2024-03-01T11:59:59Z", 0), ("2024-03-02T12:00:00Z", 2)]
        for instant, count in instants:
            lines = "events\nassert x 1 lend(y,z)\nbegin\nretract e1\nevents\n"
            status, out, err = self.keep(self.file, "--as-of", instant, lines=lines)
            self.assertEqual(status, 0)
            replies = out.splitlines()
            self.assertEqual(replies[0].split(" ")[0], str(count))
            self.assertEqual(replies[1:4], ["refused as-of"] * 3)
            self.assertEqual(replies[4], replies[0])
            self.assertIn(f"{count} of 3 updates were told by {instant}", err)
        self.assertEqual(self.keep(self.file, "--as-of", "yesterday")[0], 2)

    def told_on_three_days(self) -> None:
        """A kept history, of which an update was told on each of three days."""
        database = Database.create(self.file, Path(LOANS).read_bytes())
        with closing(database):
            for day in (1, 2, 3):
                row = (0, f"assert e{day} {day} lend(b{day},c)", "ok")
                told = datetime(2024, 3, day, 12, tzinfo=timezone.utc)
                database.append([row], told)

    def test_an_instant_becomes_the_number_of_updates_told_by_then(self) -> None:
        self.told_on_three_days()
        database = Database.open(self.file, writing=True)
        keeper = Keeper(database, program())
        self.addCleanup(database.close)
        self.addCleanup(keeper.close)
        lines = [
            b"asof 2024-03-01T11:59:59Z events",
            b"asof  2024-03-02T12:00:00Z holds out(b1) 5",
            b"assert x 1 lend(y,z)",
            b"asof 2024-03-03T12:00:00Z at 5",
            b"asof 2124-01-01T00:00:00Z at 5",  # not over, so x counts
            b"assert w 1 lend(y,v)",
            b"asof 2124-01-01T00:00:00Z at 5",
            b"asof 3 at 5",
        ]
        requests = [keeper.request(2, line) for line in lines]
        engine = keeper._engine
        with mock.patch.object(engine, "tell", wraps=engine.tell) as tell:
            answers = keeper.round([r for r in requests if isinstance(r, Request)])
        self.assertEqual(len(answers), len(lines))
        told = [line for call in tell.call_args_list for line in call.args[0]]
        wanted = [
            b"@2 asof 0 events",
            b"@2 asof 2 holds out(b1) 5",
            b"@2 assert x 1 lend(y,z)",
            b"@2 asof 3 at 5",
            b"@2 asof 4 at 5",
            b"@2 assert w 1 lend(y,v)",
            b"@2 asof 5 at 5",
            b"@2 asof 3 at 5",
        ]
        self.assertEqual([line for line in told if line != b"last"], wanted)
        self.assertEqual([update.number for update in database.updates()][-1], 5)

    def test_what_is_no_instant_is_refused(self) -> None:
        lines = (
            "asof 2024-02-30T00:00:00Z events\nasof 2024-03-01 events\n"
            "asof 2024-03-01T00:00:00Z\nasof 2024-03-01T00:00:00Z last\n"
            "asof 2024-03-01T00:00:00Z asof 0 events\nasof\n"
        )
        out = self.keep(self.file, "--theory", LOANS, lines=lines)[1]
        self.assertEqual(out, "refused syntax\n" * 6)

    def test_the_past_by_the_clock(self) -> None:
        if "asof" not in later_commands(program(), LOANS, TICK):
            self.skipTest("this ec has no asof yet")
        self.told_on_three_days()
        lines = (
            "asof 2024-03-01T11:59:59Z events\nasof 2024-03-01T12:00:00Z events\n"
            "@5 asof 2024-03-02T23:00:00Z holds out(b3) 5\nasof 2 holds out(b2) 5\n"
            "asof 2024-03-04T00:00:00Z holds out(b3) 5\nretract e1\n"
            "asof 2024-03-04T00:00:00Z holds out(b1) 5\n"
            "asof 2124-01-01T00:00:00Z holds out(b1) 5\nholds out(b1) 5\n"
        )
        wanted = "0\n1 e1 1 lend(b1,c)\n@5 no\nyes\nyes\nok\nyes\nno\nno\n"
        self.assertEqual(self.keep(self.file, lines=lines), (0, wanted, ""))
        line = "asof 2024-03-01T12:00:00Z events\n"
        past = self.keep(self.file, "--as-of", "2024-03-02T12:00:00Z", lines=line)
        self.assertEqual(past[:2], (0, "1 e1 1 lend(b1,c)\n"))
        with self.begin(self.file).client() as client:
            self.assertEqual(client.ask(line.strip()), "1 e1 1 lend(b1,c)")


class EndingTest(Folder):
    """What happens where `ec` ends, or the disk is full."""

    def keeper(self) -> Keeper:
        database = Database.create(self.file, Path(LOANS).read_bytes())
        keeper = Keeper(database, program())
        self.addCleanup(database.close)
        self.addCleanup(keeper.close)
        return keeper

    def ask(self, keeper: Keeper, *lines: str) -> List[str]:
        asked = [asked_by(1, line) for line in lines]
        return [answer.reply.decode() for answer in keeper.round(asked)]

    def test_ec_is_started_anew_where_it_ends(self) -> None:
        keeper = self.keeper()
        self.ask(keeper, "assert a 1 lend(b,c)", "begin", "assert d 2 lend(e,f)")
        keeper._engine.process.send_signal(signal.SIGKILL)
        keeper._engine.process.wait()
        replies = self.ask(keeper, "retract a", "commit", "events")
        self.assertEqual(replies, ["drafted 2", "ok", "1 d 2 lend(e,f)"])

    def test_a_full_database_refuses_and_loses_nothing(self) -> None:
        keeper = self.keeper()
        self.ask(keeper, "assert a 1 lend(b,c)", "begin", "assert d 2 lend(e,f)")
        keeper.database._connection.execute("PRAGMA max_page_count = 12")
        long = [f"assert e{n} 1 lend({'b' * 60}{n % 9},c)" for n in range(900)]
        replies = self.ask(keeper, "abort", *long, "events", "begin", "retract z")
        refused = "refused not-kept database or disk is full"
        self.assertEqual(replies[0], "ok")
        self.assertEqual(set(replies[1:901]), {refused})
        self.assertEqual(replies[901:], ["1 a 1 lend(b,c)", "ok", "drafted 1"])
        # a smaller one fits again; the draft is still there
        replies = self.ask(keeper, "abort", "assert x 1 lend(y,z)", "events")
        self.assertEqual(replies, ["ok", "ok", "2 a 1 lend(b,c) x 1 lend(y,z)"])
        kept = [update.lines for update in keeper.database.updates()]
        self.assertEqual(kept, ["assert a 1 lend(b,c)", "assert x 1 lend(y,z)"])

    def test_drafts_of_before_are_there_where_a_commit_was_refused(self) -> None:
        keeper = self.keeper()
        self.ask(keeper, "begin", "assert d 2 lend(e,f)")
        keeper.database._connection.execute("PRAGMA query_only = ON")
        replies = self.ask(keeper, "assert g 2 lend(h,f)", "commit", "events")
        refused = "refused not-kept attempt to write a readonly database"
        self.assertEqual(replies, ["drafted 2", refused, "0"])
        replies = self.ask(keeper, "commit", "commit")
        self.assertEqual(replies, ["ok", "refused no-draft"])
        self.assertEqual(self.ask(keeper, "events")[0][:1], "2")

    def test_what_was_told_behind_a_refused_update_is_answered_anew(self) -> None:
        keeper = self.keeper()
        self.ask(keeper, "assert a 1 lend(b,c)", "begin", "assert d 2 lend(e,f)")
        asked = [asked_by(2, "retract a"), asked_by(1, "commit")]
        lines = ["assert x 3 lend(y,z)", "events", "begin", "retract a"]
        asked += [asked_by(3, line) for line in lines]
        asked += [asked_by(1, "commit")]
        fails = mock.patch.object(
            keeper.database, "append", side_effect=NotKept("no room")
        )
        with fails as append:
            answers = keeper.round(asked)
        self.assertEqual([row[0] for row in append.call_args.args[0]], [2, 1, 3])
        refused = b"refused not-kept no room"
        wanted = [refused] * 3 + [b"1 a 1 lend(b,c)", b"ok", b"drafted 1", refused]
        self.assertEqual([answer.reply for answer in answers], wanted)
        keeper.leave(1)
        self.assertEqual(self.ask(keeper, "commit"), ["refused no-draft"])
        replies = keeper.round([asked_by(3, "commit"), asked_by(3, "events")])
        self.assertEqual([answer.reply for answer in replies], [b"ok", b"0"])
        kept = [update.lines for update in keeper.database.updates()]
        self.assertEqual(kept[1:], ["begin\nretract a\ncommit"])

    def test_ec_ends_between_two_rounds(self) -> None:
        keeper = self.keeper()
        keeper.round([asked_by(1, "assert a 1 lend(b,c)")])
        keeper.round([asked_by(2, "begin")])
        keeper._engine.process.kill()
        keeper._engine.process.wait()
        asked = [asked_by(2, "retract a"), asked_by(1, "events")]
        answers = [answer.reply for answer in keeper.round(asked)]
        self.assertEqual(answers, [b"drafted 1", b"1 a 1 lend(b,c)"])

    def test_a_disk_that_is_full(self) -> None:
        disk = self.path("disk")
        os.mkdir(disk)
        mount = ["mount", "-t", "tmpfs", "-o", "size=1m", "none", disk]
        mounted = subprocess.run(mount, stderr=subprocess.DEVNULL, check=False)
        if mounted.returncode:
            self.skipTest("no small file system can be mounted here")
        self.addCleanup(subprocess.run, ["umount", disk], check=True)
        file = os.path.join(disk, "kept.db")
        lines = "".join(f"assert e{n} {n} lend(b{n},c)\n" for n in range(20_000))
        status, out, _ = self.keep(file, "--theory", LOANS, lines=lines + "events\n")
        replies = out.splitlines()
        self.assertEqual((status, len(replies)), (0, 20_001))
        taken = replies.count("ok")
        self.assertGreater(taken, 100)
        self.assertIn("refused not-kept database or disk is full", replies)
        refused = [r for r in replies if r.startswith("refused not-kept ")]
        self.assertEqual(len(refused), 20_000 - taken)
        self.assertEqual(replies[-1].split(" ")[0], str(taken))
        copied = self.path("copied.db")
        for end in ("", "-wal", "-shm"):
            if os.path.exists(file + end):
                shutil.copy(file + end, copied + end)
        self.assertEqual(self.keep(copied, "--check")[0], 0)
        again = self.keep(copied, lines="events\nassert x 1 lend(y,z)\n")[1]
        self.assertEqual(again.splitlines(), [replies[-1], "ok"])

    def test_a_limit_of_the_file_s_size(self) -> None:
        limited = (
            "import resource, sys; from tests import keep; "
            "resource.setrlimit(resource.RLIMIT_FSIZE, (1_000_000, 1_000_000)); "
            "sys.exit(keep.main())"
        )
        start = words(self.file, "--theory", LOANS)
        start[1:3] = ["-c", limited]
        lines = "".join(f"assert e{n} {n} lend(b{n},c)\n" for n in range(20_000))
        ran = subprocess.run(
            start,
            input=lines.encode() + b"events\n",
            stdout=subprocess.PIPE,
            cwd=TOP / "companion",
            check=True,
        )
        replies = ran.stdout.decode().splitlines()
        taken = replies.count("ok")
        self.assertGreater(taken, 100)
        refused = [r for r in replies if r.startswith("refused not-kept ")]
        self.assertEqual(len(refused), 20_000 - taken)
        self.assertEqual(replies[-1].split(" ")[0], str(taken))
        status, out, _ = self.keep(self.file, "--check")
        self.assertEqual(status, 0, out)
        again = self.keep(self.file, lines="events\nassert x 1 lend(y,z)\n")[1]
        self.assertEqual(again.splitlines(), [replies[-1], "ok"])


if __name__ == "__main__":
    unittest.main()
