"""The library: sessions, drafts, refusals, statuses, and lines written far ahead."""

import contextlib
import os
import tempfile
import threading
import unittest
from datetime import datetime, timedelta, timezone
from typing import Iterator, Optional

from ec_history.client import (
    BrokenStart,
    Cause,
    Counts,
    Ended,
    Event,
    Interval,
    NoSession,
    Reason,
    Refused,
    Server,
    TheoryRefused,
)
from ec_history.errors import HistoryError, TermError
from ec_history.program import NoProgram, find_program
from ec_history.terms import Term

from .setting import EXAMPLES, example_names, lines_of, program, theory_of

FAKE = os.path.join(os.path.dirname(os.path.abspath(__file__)), "fake_ec.py")
SHELVES = """\
initiates  put(Book, Shelf)  on(Book, Shelf).
terminates take(Book, Shelf) on(Book, Shelf).
exclusive  on(Book, Shelf)   on(Book, Other).
initially  on(atlas, desk).
"""


@contextlib.contextmanager
def file_of(text: str) -> Iterator[str]:
    with tempfile.TemporaryDirectory() as folder:
        path = os.path.join(folder, "written.ec")
        with open(path, "w", encoding="utf-8") as file:
            file.write(text)
        yield path


@contextlib.contextmanager
def serving(theory: str, named: Optional[str] = None) -> Iterator[Server]:
    with file_of(theory) as path, Server(path, named or program()) as server:
        yield server


class Sessions(unittest.TestCase):
    def test_typed_results(self) -> None:
        with serving(SHELVES) as server:
            desk = server.session()
            desk.assert_event("p1", 3, "put(dune,s1)")
            desk.assert_event("p2", 8, Term("put", ("dune", "s2")))
            desk.assert_event("p3", 9, "put(emma,s1)")
            desk.assert_event("t3", 12, "take(emma,s1)")
            emma = Term("on", ("emma", "s1"))
            self.assertTrue(desk.holds(emma, 12))
            self.assertFalse(desk.holds(emma, 13))
            self.assertTrue(desk.holds_through(emma, 10, 12))
            self.assertEqual(desk.intervals(emma), [Interval(9, 12)])
            self.assertEqual(desk.intervals("on(atlas,desk)"), [Interval(None, None)])
            self.assertEqual(desk.broken("on(dune,s1)"), [BrokenStart(3, 8)])
            held = ["on(atlas,desk)", "on(dune,s2)", "on(emma,s1)"]
            self.assertEqual(desk.at(12), [Term.parse(text) for text in held])
            first = Event("p1", 3, Term("put", ("dune", "s1")))
            self.assertEqual(desk.events()[0], first)
            self.assertEqual(desk.clashes(), [])
            self.assertEqual(desk.last(), Counts(0, 0, 0, 1))

    def test_reasons(self) -> None:
        with serving(SHELVES) as server:
            desk = server.main
            for identity, time, event in [
                ("p1", 3, "put(dune,s1)"),
                ("p2", 8, "put(dune,s2)"),
                ("p3", 9, "put(emma,s1)"),
                ("t3", 12, "take(emma,s1)"),
                ("t4", 20, "take(atlas,desk)"),
            ]:
                desk.assert_event(identity, time, event)
            for property, time, wanted, is_current in [
                ("on(emma,s1)", 9, Reason(9, "never"), False),
                (
                    "on(emma,s1)",
                    10,
                    Reason(10, "yes", 9, 12, Cause("p3", 1), Cause("t3", 2)),
                    True,
                ),
                (
                    "on(emma,s1)",
                    13,
                    Reason(13, "ended", 9, 12, None, Cause("t3", 2)),
                    False,
                ),
                (
                    "on(dune,s1)",
                    5,
                    Reason(5, "broken", 3, 8, None, Cause("p2", 1)),
                    True,
                ),
                (
                    "on(dune,s1)",
                    9,
                    Reason(9, "broken", 3, 8, None, Cause("p2", 1)),
                    False,
                ),
                (
                    "on(dune,s2)",
                    9,
                    Reason(9, "yes", 8, None, Cause("p2", 1), None),
                    True,
                ),
                (
                    "on(atlas,desk)",
                    1,
                    Reason(1, "yes", None, 20, None, Cause("t4", 2)),
                    True,
                ),
                (
                    "on(atlas,desk)",
                    21,
                    Reason(21, "ended", None, 20, None, Cause("t4", 2)),
                    False,
                ),
            ]:
                reason = desk.why(property, time)
                self.assertEqual(reason, wanted)
                self.assertEqual(reason.is_current(server.clock), is_current)
                self.assertEqual(reason.holds, desk.holds(property, time))

    def test_each_user_has_a_number(self) -> None:
        with serving(SHELVES) as server:
            sessions = [server.session() for _ in range(63)]
            self.assertEqual([s.number for s in sessions], list(range(1, 64)))
            with self.assertRaisesRegex(NoSession, "all 63 sessions are in use; close"):
                server.session()
            sessions[6].close()
            self.assertEqual(server.session().number, 7)

    def test_a_closed_session_is_of_no_use(self) -> None:
        with serving(SHELVES) as server:
            session = server.session()
            session.close()
            session.close()
            self.assertEqual([server.session().number for _ in range(2)], [1, 2])
            with self.assertRaisesRegex(HistoryError, "the session is closed"):
                session.last()

    def test_many_threads(self) -> None:
        faults = []

        def work(number: int) -> None:
            try:
                with server.session() as session:
                    for n in range(100):
                        session.assert_event(
                            f"p{number}_{n}", n, f"put(b{number},s{n})"
                        )
                        assert session.holds(f"on(b{number},s{n})", n + 1)
                        assert not session.holds(f"on(b{number},s{n + 1})", n + 2)
            except Exception as fault:
                faults.append(fault)

        with serving(SHELVES) as server:
            threads = [threading.Thread(target=work, args=(n,)) for n in range(8)]
            for thread in threads:
                thread.start()
            for thread in threads:
                thread.join()
            self.assertEqual(faults, [])
            self.assertEqual(len(server.main.events()), 800)


class Drafts(unittest.TestCase):
    def test_a_draft_is_committed_when_it_is_left(self) -> None:
        with serving(SHELVES) as server:
            one, other = server.session(), server.session()
            with one.draft() as draft:
                draft.assert_event("p1", 3, "put(dune,s1)")
                draft.assert_event("p2", 5, "put(emma,s1)")
                self.assertEqual(other.events(), [])
            self.assertEqual(len(other.events()), 2)

    def test_a_draft_is_dropped_where_the_block_raises(self) -> None:
        with serving(SHELVES) as server:
            session = server.session()
            with self.assertRaises(KeyError), session.draft() as draft:
                draft.assert_event("p1", 3, "put(dune,s1)")
                raise KeyError
            self.assertEqual(session.events(), [])
            session.assert_event("p1", 3, "put(dune,s1)")  # no draft is open

    def test_a_refused_update_is_named_and_the_draft_dropped(self) -> None:
        with serving(SHELVES) as server:
            session = server.session()
            with self.assertRaises(Refused) as caught, session.draft() as draft:
                draft.assert_event("p1", 3, "put(dune,s1)")
                draft.retract("p2")
            refusal = caught.exception
            self.assertEqual((refusal.place, refusal.code), (2, "unknown"))
            self.assertEqual((refusal.line, refusal.detail), ("retract p2", "p2"))
            self.assertEqual(
                str(refusal),
                "update 2 of the draft, 'retract p2' was refused: no event with the "
                "identity p2 is present",
            )
            self.assertEqual(session.events(), [])
            with session.draft() as draft:
                draft.assert_event("p1", 3, "put(dune,s1)")
            self.assertEqual(len(session.events()), 1)

    def test_a_session_that_is_closed_drops_its_draft(self) -> None:
        with serving(SHELVES) as server:
            session = server.session()
            session.draft().__enter__().assert_event("p1", 3, "put(dune,s1)")
            session.close()
            again = server.session()
            self.assertEqual(again.number, 1)
            again.assert_event("p1", 3, "put(dune,s1)")
            self.assertEqual(len(again.events()), 1)

    def test_updates_beside_an_open_draft(self) -> None:
        with serving(SHELVES) as server, server.main.draft() as draft:
            draft.assert_event("p1", 3, "put(dune,s1)")
            with self.assertRaisesRegex(HistoryError, "tell the draft, or leave it"):
                server.main.retract("p1")

    def test_a_draft_may_be_dropped_within_its_block(self) -> None:
        with serving(SHELVES) as server:
            with server.main.draft() as draft:
                draft.assert_event("p1", 3, "put(dune,s1)")
                draft.abort()
            self.assertEqual(server.main.events(), [])


class Refusals(unittest.TestCase):
    def test_a_refusal_names_its_line_and_why(self) -> None:
        with serving(SHELVES) as server:
            session = server.session()
            session.assert_event("p1", 3, "put(dune,s1)")
            with self.assertRaises(Refused) as caught:
                session.assert_event("p1", 4, "put(dune,s2)")
            self.assertEqual(caught.exception.line, "@1 assert p1 4 put(dune,s2)")
            self.assertIn("the identity p1 is present already", str(caught.exception))
            for command, code in [
                (lambda: session.retract("p9"), "unknown"),
                (lambda: session.holds("On(dune)", 3), "syntax"),
                (lambda: session.holds_through("on(dune,s1)", 5, 4), "order"),
                (lambda: session.ask("commit"), "no-draft"),
                (lambda: session.holds("on(" + "a" * 5000 + ")", 3), "long-line"),
            ]:
                with self.assertRaises(Refused) as caught:
                    command()
                self.assertEqual(caught.exception.code, code)
            self.assertTrue(session.holds("on(dune,s1)", 4))

    def test_a_time_of_another_clock_is_refused(self) -> None:
        with serving(SHELVES) as server, self.assertRaises(TermError):
            server.main.holds("on(a,b)", datetime(2024, 3, 3, tzinfo=timezone.utc))

    def test_a_line_feed_within_a_line(self) -> None:
        with serving(SHELVES) as server:
            with self.assertRaises(ValueError):
                server.main.holds("on(a,b)\nquit", 3)
            with self.assertRaises(ValueError):
                server.send("last\nquit")
            self.assertFalse(server.main.holds("on(a,b)", 3))

    def test_a_theory_that_is_not_accepted(self) -> None:
        for theory, place, words in [
            ("% x\ninitiates a b;\n", "written.ec:2: ", "column 14: ';' can't stand"),
            ("initiates a(\n L b.\n", "written.ec:2: ", "column 4: 'b' stands here"),
            (
                "initiates a b.\n\ninitiates a(X)\n  b(Y).\n",
                "written.ec:4",
                "clause 2: the variable Y of the property b(Y) does not stand in",
            ),
        ]:
            with file_of(theory) as path:
                with self.assertRaises(TheoryRefused) as caught:
                    Server(path, program())
            self.assertIn(place, str(caught.exception))
            self.assertIn(words, str(caught.exception))

    def test_a_theory_that_is_not_there(self) -> None:
        with self.assertRaises(OSError):
            Server("/no/such/file.ec", program())


class Playing(unittest.TestCase):
    def test_the_examples_are_answered_as_they_should_be(self) -> None:
        for name in example_names():
            with open(lines_of(name), "rb") as file:
                lines = file.read().split(b"\n")[:-1]
            with Server(theory_of(name), program()) as server:
                played = list(server.play(lines))
            replies = [p.reply for p in played if p.reply is not None]
            wanted = (EXAMPLES / f"{name}.replies").read_text().splitlines()
            self.assertEqual(replies, wanted)
            numbers = [p.number for p in played]
            self.assertEqual(numbers, list(range(1, len(lines) + 1)))
            self.assertEqual([p.line for p in played], lines)

    def test_silent_lines_have_no_reply(self) -> None:
        lines = [
            b"",
            b" \t",
            b"% x",
            b"\t% x",
            b"\r",
            b"last",
            b"x %",
            b"@3",
            b"@3 % x",
        ]
        lines += [b"%" + b"x" * 4096, b" " * 4097, b" " * 4096, b"@64 last", b"\x00"]
        with serving(SHELVES) as server:
            replies = [played.reply for played in server.play(lines)]
        self.assertEqual(replies[:5], [None] * 5)
        refused = ["refused syntax", "@3 refused syntax", "@3 refused syntax"]
        self.assertEqual(replies[6:9], refused)
        refused = ["refused long-line", "refused long-line", None]
        self.assertEqual(replies[9:12], refused)
        self.assertEqual(replies[12:], ["refused syntax", "refused syntax"])

    def test_a_silent_line_can_not_be_asked(self) -> None:
        with serving(SHELVES) as server:
            for line in ("", " ", "% x", "\t% x"):
                with self.assertRaisesRegex(ValueError, "has no reply"):
                    server.main.ask(line)
            server.main.last()

    def test_lines_are_written_far_ahead(self) -> None:
        count = 3000
        with serving(SHELVES) as server:
            told = [f"assert p{n} {n} put(b{n},s)" for n in range(count)]
            list(server.play(told))
            # the replies are far longer than what a pipe holds
            sent = server.send_all(["events"] * 40)
            replies = {one.wait() for one in sent if one is not None}
        self.assertEqual(len(replies), 1)
        self.assertEqual(len(replies.pop().split(" ")), 1 + 3 * count)

    def test_quit_ends_it(self) -> None:
        with serving(SHELVES) as server:
            sent = server.send("quit")
            assert sent is not None
            self.assertEqual(sent.wait(), "bye")
            with self.assertRaisesRegex(Ended, "no line is answered behind `quit`"):
                server.main.last()

    def test_a_quit_with_more_words_is_refused_and_ends_nothing(self) -> None:
        with serving(SHELVES) as server:
            with self.assertRaises(Refused):
                server.main.ask("quit now")
            sent = server.send("quit now")
            assert sent is not None
            self.assertEqual(sent.wait(), "refused syntax")
            server.main.last()


class OfAFake(unittest.TestCase):
    """What `ec` does seldom, or will do one day, done by a stand-in."""

    def test_a_reply_of_any_length(self) -> None:
        with serving("% long\tLONG 3000000", FAKE) as server:
            self.assertEqual(len(server.main.ask("long")), 3_000_000)
            sent = [server.send("long") for _ in range(5)]
            lengths = [len(one.wait()) for one in sent if one is not None]
        self.assertEqual(lengths, [3_000_000] * 5)

    def test_a_program_that_ends_is_told_with_its_status(self) -> None:
        for ask in (True, False):
            with serving("% x 2\tSTATUS 5", FAKE) as server:
                with self.assertRaises(Ended) as caught:
                    if ask:
                        for n in range(4):
                            server.main.ask(f"x {n}")
                    else:
                        for played in server.play([f"x {n}" for n in range(4)]):
                            self.assertEqual(played.reply, "ok")
                self.assertEqual(caught.exception.status, 5)
                self.assertEqual(caught.exception.line, "x 2")
                self.assertIn("it could not write its replies", str(caught.exception))
                with self.assertRaises(Ended):
                    server.main.ask("x 0")
                with self.assertRaises(Ended):
                    server.close()
                server._pipe.process.returncode = 0  # so that leaving is quiet

    def test_notes_belong_to_the_update_before_them(self) -> None:
        plan = (
            "% assert a.*\tok\\nnote 1 lit(a) lost 0 gained 1 (5,inf)\\n"
            "note 2 lit(a) lost 0 gained 1 (5,inf)\n% assert b.*\tok\n% watch .*\t0\n"
            "% assert c.*\tok\\nnote 1 lit(b) lost 0 gained 1 (7,inf)\n"
        )
        with serving(plan, FAKE) as server:
            lines = ["watch lit(a)", "assert a 5 x", "assert b 6 y", "assert c 7 z"]
            lines.append("last")
            played = list(server.play(lines))
            notes = [len(p.notes) for p in played]
            self.assertEqual(notes, [0, 2, 0, 1, 0])
            self.assertEqual([p.reply for p in played[:4]], ["0", "ok", "ok", "ok"])
            self.assertTrue(played[4].reply.startswith("last "))
            # an update that is asked by itself has its notes read before the next line
            server.main.assert_event("c", 7, "z")
            self.assertEqual(server.main.last(), Counts(0, 0, 0, 0))

    def test_civil_times_are_datetimes(self) -> None:
        plan = (
            "% intervals .*\t1 (2024-03-03T12:00:00Z,inf)\n"
            "% why a 2024-03-03T12:00:01Z\tyes 2024-03-03T12:00:00Z inf by x rule 1\n"
            "% assert x 2024-03-03T12:00:00Z b\tok\n% assert .*\trefused syntax\n"
        )
        noon = datetime(2024, 3, 3, 12, tzinfo=timezone.utc)
        with serving(plan + "time civil.\n", FAKE) as server:
            session = server.main
            paris = noon.astimezone(timezone(timedelta(hours=1)))
            session.assert_event("x", paris, "b")
            self.assertEqual(session.intervals("a"), [Interval(noon, None)])
            reason = session.why("a", noon + timedelta(seconds=1))
            self.assertEqual((reason.start, reason.by), (noon, Cause("x", 1)))
            with self.assertRaises(TermError):
                session.holds("a", 12)

    def test_a_watch_that_is_asked_by_itself(self) -> None:
        plan = (
            "% @1 watch .*\t@1 0\n"
            "% @1 assert .*\t@1 ok\\nnote 1 lit(a) lost 0 gained 1 (5,inf)\n"
            "% @1 holds .*\t@1 yes\n"
        )
        with serving(plan + "initially a.\n", FAKE) as server:
            session = server.session()
            self.assertEqual(session.ask("watch lit(a)"), "0")
            for number in range(3):
                session.assert_event(f"p{number}", 5, "plug(a)")
                self.assertTrue(session.holds("lit(a)", 6))

    def test_another_program_is_told(self) -> None:
        with file_of("x\n") as path:
            with self.assertRaisesRegex(Ended, "ec answers no more lines"):
                Server(path, "true")


class FindingTheProgram(unittest.TestCase):
    def test_a_named_program_that_is_none(self) -> None:
        with self.assertRaisesRegex(NoProgram, "--program names /no/such/ec"):
            find_program("/no/such/ec")

    def test_a_program_that_can_not_be_run(self) -> None:
        with file_of("initially a.\n") as path:
            os.chmod(path, 0o755)
            with self.assertRaisesRegex(NoProgram, "can't be run"):
                Server(path, path)

    def test_the_environment_comes_second(self) -> None:
        kept = os.environ.get("EC_PROGRAM")
        os.environ["EC_PROGRAM"] = FAKE
        try:
            self.assertEqual(find_program(), FAKE)
            self.assertEqual(os.path.basename(find_program("true")), "true")
        finally:
            del os.environ["EC_PROGRAM"]
            if kept is not None:
                os.environ["EC_PROGRAM"] = kept


if __name__ == "__main__":
    unittest.main()
