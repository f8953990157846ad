"""`ec-history keep --listen`: several clients over one history."""

from __future__ import annotations

import asyncio
import os
import socket
import subprocess
import threading
import time
import unittest
from pathlib import Path
from typing import Any, Callable, Dict, List
from unittest import mock

from ec_history.database import Database
from ec_history.keeper import Keeper
from ec_history.listening import Connection, Hub
from ec_history.moments import TICK
from ec_history.reading import later_commands
from tests.keep import Client, Folder, Running, words
from tests.setting import TOP, program, theory_of

LOANS = theory_of("loans")


class ListeningTest(Folder):
    def setUp(self) -> None:
        super().setUp()
        self.server = self.begin(self.file, "--theory", LOANS)
        self.clients: List[Client] = []
        self.addCleanup(lambda: [client.close() for client in self.clients])

    def client(self) -> Client:
        self.clients.append(self.server.client())
        return self.clients[-1]

    def test_clients_see_one_history_and_their_own_drafts(self) -> None:
        ann, bob = self.client(), self.client()
        self.assertEqual(ann.ask("assert a 1 lend(b,c)"), "ok")
        self.assertEqual(bob.ask("assert a 1 lend(b,c)"), "refused duplicate a")
        self.assertEqual(bob.ask("begin"), "ok")
        self.assertEqual(bob.ask("retract a"), "drafted 1")
        self.assertEqual(ann.ask("at 2"), "2 has(c,b) out(b)")
        self.assertEqual(ann.ask("commit"), "refused no-draft")
        self.assertEqual(bob.ask("commit"), "ok")
        self.assertEqual(ann.ask("at 2"), "0")

    def test_a_draft_ends_with_its_connection(self) -> None:
        for _ in range(70):
            with self.server.client() as client:
                self.assertEqual(client.ask("begin"), "ok")
                self.assertEqual(client.ask("assert a 1 lend(b,c)"), "drafted 1")
        self.assertEqual(self.client().ask("events"), "0")

    def test_a_connection_has_no_prefix(self) -> None:
        client = self.client()
        self.assertEqual(client.ask("@1 last"), "refused syntax")
        self.assertEqual(client.ask("@0 assert a 1 lend(b,c)"), "refused syntax")
        client.send("", "% nothing", "last")
        self.assertEqual(client.reply(), "last seen 0 on 0 off 0 props 0")

    def test_lines_of_any_form(self) -> None:
        client = self.client()
        self.assertEqual(client.ask(b"x" * 4096), "refused syntax")
        self.assertEqual(client.ask(b"x" * 4097), "refused long-line")
        self.assertEqual(client.ask(b"x" * 3_000_000), "refused long-line")
        self.assertEqual(client.ask(b"at 1".rjust(4096)), "0")
        self.assertEqual(client.ask(b"at \xff\x00"), "refused syntax")
        self.assertEqual(client.ask(b"at 1\r"), "0")

    def test_quit_and_a_torn_line_end_one_connection(self) -> None:
        ann, bob, cid = self.client(), self.client(), self.client()
        bob.send("last", "quit", "assert x 1 lend(b,c)")
        self.assertEqual(bob.reply(), "last seen 0 on 0 off 0 props 0")
        self.assertEqual(bob.reply(), "bye")
        self.assertIsNone(bob.reply())
        cid.send("assert rec_12 1 lend(a,b)", "assert rec_1 1 lend(c,b)")
        cid.socket.sendall(b"retract rec_1")
        cid.socket.shutdown(socket.SHUT_WR)
        replies = [cid.reply() for _ in range(4)]
        self.assertEqual(replies, ["ok", "ok", "refused torn-line", None])
        self.assertEqual(ann.ask("events"), "2 rec_1 1 lend(c,b) rec_12 1 lend(a,b)")

    def test_the_65th_connection_is_told(self) -> None:
        many = [self.client() for _ in range(64)]
        self.assertEqual(many[63].ask("at 1"), "0")
        more = self.client()
        self.assertEqual(more.reply(), "refused full-sessions 64")
        self.assertIsNone(more.reply())
        many[5].close()
        for _ in range(1000):  # until the server has seen it
            with self.server.client() as again:
                if again.ask("at 1") == "0":
                    return
            time.sleep(0.01)
        self.fail("the session of a closed connection was not free again")

    def test_a_client_that_reads_nothing_holds_nobody_up(self) -> None:
        slow, ann = self.client(), self.client()
        for number in range(300):
            ann.send(f"assert e{number} {number} lend(b{number},c)")
        self.assertEqual({ann.reply() for _ in range(300)}, {"ok"})
        slow.socket.setblocking(False)
        sent, piece = 0, b"events\n" * 1000
        try:
            while sent < 50_000_000:
                sent += slow.socket.send(piece)
        except BlockingIOError:
            pass
        self.assertLess(sent, 50_000_000)
        for number in range(20):
            self.assertEqual(ann.ask(f"retract e{number}"), "ok")
        self.assertLess(self.resident(), 300_000)

    def test_a_flood_holds_nobody_up(self) -> None:
        ann, bob = self.client(), self.client()
        done = threading.Event()

        def send() -> None:
            try:
                while not done.is_set():
                    bob.socket.sendall(b"at 5\n" * 5000)
            except OSError:
                pass

        def read() -> None:
            try:
                while bob.socket.recv(1 << 16):
                    pass
            except OSError:
                pass

        threads = [threading.Thread(target=work) for work in (send, read)]
        for thread in threads:
            thread.start()
        for number in range(50):
            self.assertEqual(ann.ask(f"assert e{number} 1 lend(b,c)"), "ok")
        self.assertLess(self.resident(), 300_000)
        done.set()
        bob.socket.shutdown(socket.SHUT_RDWR)
        for thread in threads:
            thread.join()

    def resident(self) -> int:
        """Kilobytes that the server holds."""
        path = f"/proc/{self.server.process.pid}/status"
        if not os.path.exists(path):
            return 0
        with open(path) as file:
            rows = [line.split() for line in file if line.startswith("VmRSS:")]
        return int(rows[0][1])

    def test_replies_go_to_who_asked_and_in_order(self) -> None:
        clients = [self.client() for _ in range(16)]
        for round_ in range(5):
            for number, client in enumerate(clients):
                for step in range(50):
                    name = f"e{number}_{round_}_{step}"
                    client.send(
                        f"assert {name} {step} lend(b{number},c{step})",
                        f"holds has(c{step},b{number}) {step}",
                        f"retract {name}",
                        f"retract none{number}_{step}",
                    )
            for number, client in enumerate(clients):
                for step in range(50):
                    found = [client.reply() for _ in range(4)]
                    wanted = ["ok", "no", "ok", f"refused unknown none{number}_{step}"]
                    self.assertEqual(found, wanted)
        database = Database.open(self.file)
        self.assertEqual(database.count, 16 * 5 * 50 * 2)
        self.assertEqual(database.faults(), [])
        told = {update.told for update in database.updates()}
        database.close()
        self.assertLess(len(told), 16 * 5 * 50)  # many share a transaction

    def test_notes_go_to_who_watches(self) -> None:
        if "watch" not in later_commands(program(), LOANS, TICK):
            self.skipTest("this ec has no watches yet")
        ann, bob, cid = self.client(), self.client(), self.client()
        self.assertEqual(ann.ask("watch out(b)"), "0")
        self.assertEqual(cid.ask("watch out(b)"), "0")
        self.assertEqual(bob.ask("assert a 1 lend(b,c)"), "ok")
        self.assertEqual(bob.ask("last"), "last seen 0 on 0 off 0 props 2")
        self.assertEqual((ann.reply() or "")[-19:], "lost 0 gained 1 (1,inf)"[-19:])
        self.assertRegex(
            cid.reply() or "", r"note \d+ out\(b\) lost 0 gained 1 \(1,inf\)"
        )
        self.assertEqual(ann.ask("unwatch out(b)"), "ok")
        cid.close()
        self.assertEqual(ann.ask("assert d 9 give_back(b,c)"), "ok")
        self.assertEqual(ann.ask("at 1"), "0")
        dan = self.client()  # takes over a session, and none of its watches
        self.assertEqual(dan.ask("watch out(b)"), "1 (1,9]")

    def test_the_end_by_a_signal_is_orderly(self) -> None:
        self.assertEqual(self.client().ask("assert a 1 lend(b,c)"), "ok")
        self.assertEqual(self.server.end(), "")
        self.assertEqual(self.server.process.returncode, 0)
        status, out, _ = self.keep(self.file, lines="at 2\n")
        self.assertEqual((status, out), (0, "2 has(c,b) out(b)\n"))

    def test_a_second_one_is_told_where_the_first_listens(self) -> None:
        other = Running(self.file)
        self.assertIn("is held by process", other.first)
        self.assertIn(
            f"listening at 127.0.0.1:{self.server.port}; end that", other.first
        )
        self.assertEqual(other.process.wait(), 2)
        other.end()


class HubTest(Folder):
    """The rounds of a hub, which are made by hand."""

    def setUp(self) -> None:
        super().setUp()
        self.database = Database.create(self.file, Path(LOANS).read_bytes())
        self.keeper = Keeper(self.database, program())
        self.addCleanup(self.database.close)
        self.addCleanup(self.keeper.close)
        self.ends: Dict[Connection, socket.socket] = {}
        self.received: Dict[Connection, bytes] = {}

    def play(self, work: Callable[[Hub], None]) -> None:
        """Does some work with a hub, whose connections end behind it."""

        async def playing() -> None:
            hub = Hub(self.keeper)
            work(hub)
            for connection in list(hub.connections.values()):
                connection.close()

        asyncio.run(playing())

    def joined(self, hub: Hub) -> Connection:
        ours, theirs = socket.socketpair()
        self.addCleanup(theirs.close)
        connection = hub.join(ours)
        assert connection is not None
        self.ends[connection], self.received[connection] = theirs, b""
        theirs.setblocking(False)
        return connection

    def tell(self, connection: Connection, lines: bytes) -> None:
        self.ends[connection].sendall(lines)
        connection.hub._read()

    def written(self, connection: Connection) -> bytes:
        """All that a client was sent so far."""
        try:
            self.received[connection] += self.ends[connection].recv(1 << 16)
        except BlockingIOError:
            pass
        return self.received[connection]

    def test_a_session_is_free_once_its_watches_have_ended(self) -> None:
        def work(hub: Hub) -> None:
            ann, bob = self.joined(hub), self.joined(hub)
            self.tell(ann, b"watch out(b)\nbegin\n")
            hub._round()
            self.tell(bob, b"assert a 1 lend(b,c)\n")
            ann.close()
            cid = self.joined(hub)
            self.assertNotEqual(cid.session, ann.session)
            hub._round()
            self.assertEqual(self.written(bob), b"ok\n")
            self.assertEqual(self.written(cid), b"")
            dan = self.joined(hub)
            self.assertEqual(dan.session, ann.session)
            self.tell(dan, b"commit\n")
            hub._answer()
            self.assertEqual(self.written(dan), b"refused no-draft\n")

        self.play(work)

    def test_nothing_is_written_before_it_is_kept(self) -> None:
        append = self.database.append

        def work(hub: Hub) -> None:
            ann, bob = self.joined(hub), self.joined(hub)

            def kept(*words: Any) -> None:
                self.assertEqual(self.written(ann) + self.written(bob), b"")
                append(*words)
                self.assertEqual(self.written(ann) + self.written(bob), b"")

            with mock.patch.object(self.database, "append", kept):
                self.tell(ann, b"assert a 1 lend(b,c)\n")
                self.tell(bob, b"at 2\n")
                hub._round()
            self.assertEqual(self.written(ann), b"ok\n")
            self.assertEqual(self.written(bob), b"2 has(c,b) out(b)\n")
            self.assertEqual(self.database.count, 1)

        self.play(work)

    def test_who_was_answered_shares_the_next_sync(self) -> None:
        def work(hub: Hub) -> None:
            ann, bob = self.joined(hub), self.joined(hub)
            for name, client in ((b"a", ann), (b"b", bob)):
                self.tell(client, b"assert %s 1 lend(b,c)\n" % name)
            hub._round()
            self.assertEqual(hub.awaited, {ann, bob})
            hub._awaited_until += 60
            self.tell(ann, b"retract a\n")
            hub._round()
            self.assertEqual(self.written(ann), b"ok\n")  # bob is waited for
            self.tell(bob, b"retract b\n")
            hub._round()
            self.assertEqual(self.written(ann) + self.written(bob), b"ok\n" * 4)
            hub._awaited_until = 0  # nobody is waited for any longer
            self.tell(ann, b"last\n")
            hub._round()
            self.assertEqual(self.written(ann).count(b"\n"), 3)

        self.play(work)

    def test_a_connection_gives_way_to_others(self) -> None:
        def work(hub: Hub) -> None:
            ann, bob = self.joined(hub), self.joined(hub)
            self.tell(ann, b"at 1\n" * 300)
            self.tell(bob, b"last\n" * 300)
            hub._round()
            self.assertEqual(len(ann.waiting), 299)  # its reply may be long
            self.assertEqual(len(bob.waiting), 300 - 64)
            ann.write([b"x" * 10_000_000])  # which she does not read
            self.assertTrue(ann.blocked)
            hub._round()
            self.assertEqual(len(ann.waiting), 299)
            self.assertEqual(len(bob.waiting), 300 - 128)

        self.play(work)

    def test_who_waits_for_long_replies_is_answered_in_turn(self) -> None:
        def work(hub: Hub) -> None:
            clients = [self.joined(hub) for _ in range(8)]
            for client in clients:
                self.tell(client, b"at 1\n" * 5)
            for wanted in ([1] * 4 + [0] * 4, [1] * 8, [2] * 4 + [1] * 4):
                hub._round()
                found = [self.written(client).count(b"\n") for client in clients]
                self.assertEqual(found, wanted)

        self.play(work)

    def test_what_is_not_read_at_once_comes_whole_and_in_order(self) -> None:
        def work(hub: Hub) -> None:
            ann = self.joined(hub)
            long = [b"%d" % number * 100_000 for number in range(9)]
            for line in long:
                ann.write([line])
            self.assertTrue(ann.blocked)
            wanted = b"".join(line + b"\n" for line in long)
            while len(self.written(ann)) < len(wanted):
                ann._write_on()
            self.assertEqual(self.written(ann), wanted)
            self.assertFalse(ann.blocked)

        self.play(work)

    def test_a_client_that_has_gone_ends_its_own_connection_alone(self) -> None:
        def work(hub: Hub) -> None:
            ann, bob = self.joined(hub), self.joined(hub)
            self.tell(ann, b"assert a 1 lend(b,c)\n")
            self.tell(bob, b"at 2\n")
            self.ends[ann].close()
            hub._round()
            self.assertEqual((ann.gone, bob.gone), (True, False))
            self.assertEqual(self.written(bob)[:2], b"2 ")
            hub._round()
            self.assertEqual(list(hub.connections.values()), [bob])

        self.play(work)


class AddressTest(Folder):
    def test_a_unix_socket(self) -> None:
        path = self.path("desk.sock")
        for _ in range(2):
            process = subprocess.Popen(
                words(self.file, "--theory", LOANS, "--listen", path),
                stderr=subprocess.PIPE,
                cwd=TOP / "companion",
            )
            assert process.stderr is not None
            self.assertIn(path.encode(), process.stderr.readline())
            self.assertEqual(os.stat(path).st_mode & 0o777, 0o600)
            with socket.socket(socket.AF_UNIX) as client:
                client.connect(path)
                client.sendall(b"at 1\n")
                self.assertEqual(client.recv(100), b"0\n")
            process.kill()  # leaves the socket behind
            process.wait()
            process.stderr.close()

    def test_other_addresses_are_refused(self) -> None:
        self.write("plain", "")
        for address, said in [
            ("0.0.0.0:7000", "a port of the loopback is served and no other"),
            ("example.org:7000", "a port of the loopback is served"),
            (self.path("plain"), "a file stands there"),
            (self.path("none/x.sock"), "can't listen at"),
            ("99999", "can't listen at 99999"),
        ]:
            status, _, err = self.keep(
                self.file, "--theory", LOANS, "--listen", address
            )
            self.assertEqual(status, 2)
            self.assertIn(said, err)


if __name__ == "__main__":
    unittest.main()
