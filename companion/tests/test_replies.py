"""Replies: typed results, and what is no reply."""

import dataclasses
import unittest

from ec_history.moments import CIVIL, TICK
from ec_history.replies import (
    BrokenStart,
    Cause,
    Interval,
    Reason,
    UnexpectedReply,
    read_broken,
    read_counts,
    read_events,
    read_instants,
    read_intervals,
    read_reason,
    read_terms,
    read_yes,
)


class Reading(unittest.TestCase):
    def test_intervals(self) -> None:
        text = "4 (-inf,-3] (-3,9] (9,12] (20,inf)"
        intervals = read_intervals(text, TICK)
        self.assertEqual(intervals[0], Interval(None, -3))
        self.assertEqual(intervals[3], Interval(20, None))
        again = " ".join([str(len(intervals)), *(i.text(TICK) for i in intervals)])
        self.assertEqual(again, text)
        self.assertEqual(read_intervals("1 (-inf,inf)", TICK), [Interval(None, None)])
        self.assertEqual(read_intervals("0", TICK), [])

    def test_civil_times(self) -> None:
        start = CIVIL.read("2024-03-03T12:00:00Z")
        text = "1 (2024-03-03T12:00:00Z,2024-03-04T00:00:00Z]"
        (interval,) = read_intervals(text, CIVIL)
        self.assertEqual(interval.start, start)
        self.assertEqual(interval.text(CIVIL), text[2:])

    def test_reasons(self) -> None:
        by, until = Cause("l1", 1), Cause("g0", 2)
        for reply, wanted in [
            ("no never", Reason(5, "never")),
            ("yes 1 9 by l1 rule 1 until g0 rule 2", Reason(5, "yes", 1, 9, by, until)),
            ("yes 1 inf by l1 rule 1", Reason(5, "yes", 1, None, by)),
            (
                "yes -inf 9 initially until g0 rule 2",
                Reason(5, "yes", None, 9, None, until),
            ),
            ("yes -inf inf initially", Reason(5, "yes")),
            ("no ended 1 3 by g0 rule 2", Reason(5, "ended", 1, 3, None, until)),
            (
                "no broken -inf 9 by g0 rule 2",
                Reason(5, "broken", None, 9, None, until),
            ),
        ]:
            self.assertEqual(read_reason(reply, 5, TICK), wanted)

    def test_what_is_no_reply(self) -> None:
        for read, reply in [
            (read_yes, "maybe"),
            (read_terms, "2 a"),
            (read_terms, ""),
            (read_counts, "ok"),
            (lambda text: read_instants(text, TICK), "1"),
            (lambda text: read_events(text, TICK), "1 e 5"),
            (lambda text: read_broken(text, TICK), "1 5"),
            (lambda text: read_intervals(text, TICK), "1 [5,6]"),
            (lambda text: read_reason(text, 5, TICK), "yes 1"),
            (lambda text: read_reason(text, 5, TICK), "yes 1 inf initially"),
            (lambda text: read_reason(text, 5, TICK), "no ended 1 3 by g0 rule 2 x"),
            (lambda text: read_reason(text, 5, TICK), "no broken x"),
        ]:
            with self.assertRaises(UnexpectedReply, msg=reply):
                read(reply)

    def test_rows_are_named_tuples_that_are_taken_as_they_are(self) -> None:
        rows = read_events("2 l1 10 lend(dune,ann) l2 12 close", TICK)
        # a frame of pandas takes the names of the columns from the first row
        self.assertEqual(rows[0]._fields, ("identity", "time", "term"))
        self.assertEqual([len(row) for row in rows], [3, 3])
        self.assertEqual(read_broken("1 3 8", TICK)[0], BrokenStart(3, 8))
        self.assertEqual(Interval._fields, ("start", "end"))
        self.assertTrue(dataclasses.is_dataclass(Reason))


if __name__ == "__main__":
    unittest.main()
