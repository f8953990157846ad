"""How reasons, stretches, names and times are told."""

import os
import tempfile
import unittest
from argparse import Namespace
from datetime import datetime, timezone

from ec_history.dates import Dates
from ec_history.errors import HistoryError, TermError
from ec_history.names import Names
from ec_history.replies import BrokenStart, Cause, Interval, Reason
from ec_history.terms import Term
from ec_history.theory import Theory
from ec_history.wording import Shown, Wording, shown_by

TICKS = Theory.parse("initially a.")
CIVIL = Theory.parse("time civil. initially a.")
NAMES = """\
kind\tname\tform\ttext
name\tann\t{}\tAnn Müller
name\tp177\tp{}\t177
name\tn177\tn{}\t177
event\tr_ax_12\tr_{}\tÄX-12
event\tr7\tr{}\t7
"""


def names() -> Names:
    with tempfile.TemporaryDirectory() as folder:
        path = os.path.join(folder, "names.tsv")
        with open(path, "w", encoding="utf-8") as file:
            file.write(NAMES)
        return Names.read(path)


class Words(unittest.TestCase):
    def test_reasons(self) -> None:
        wording = Wording(TICKS)
        by, until = Cause("l1", 1), Cause("g0", 2)
        for reason, words in [
            (Reason(5, "never"), "does not hold: nothing had started it before"),
            (
                Reason(5, "yes", 1, 9, by, until),
                "holds: started at 1 by l1 (rule 1), ends at 9 by g0 (rule 2)",
            ),
            (
                Reason(5, "yes", 1, None, by),
                "holds: started at 1 by l1 (rule 1), and nothing ends it",
            ),
            (
                Reason(5, "yes"),
                "holds: there from before all events, and nothing ends it",
            ),
            (
                Reason(5, "ended", 1, 3, None, until),
                "does not hold: started at 1, ended at 3 by g0 (rule 2)",
            ),
            (
                Reason(5, "broken", None, 9, None, until),
                "does not hold: there from before all events, broken at 9 by g0 "
                "(rule 2), so nobody knows when it ended",
            ),
        ]:
            self.assertEqual(wording.reason(reason), words)

    def test_stretches(self) -> None:
        wording = Wording(TICKS)
        for interval, words in [
            (Interval(1, 9), "after 1 up to 9"),
            (Interval(1, None), "after 1, without an end"),
            (Interval(None, 9), "from before all events up to 9"),
            (Interval(None, None), "from before all events, without an end"),
        ]:
            self.assertEqual(wording.stretch(interval), words)
        words = wording.broken_stretch(BrokenStart(3, 8))
        self.assertEqual(words, "started at 3; broken at 8, ended nobody knows when")


class NamesAndTimes(unittest.TestCase):
    def test_names(self) -> None:
        wording = Wording(TICKS, names())
        term = Term("in", ("ann", "p177", "b3", 7))
        self.assertEqual(wording.term(term), "in(Ann Müller, 177, b3, 7)")
        self.assertEqual(wording.identity("r_ax_12"), "r_ax_12 (ÄX-12)")
        self.assertEqual(wording.identity("r7"), "r7")
        self.assertEqual(wording.identity("other"), "other")
        self.assertEqual(Wording(TICKS).term(term), "in(ann,p177,b3,7)")

    def test_times(self) -> None:
        days = Wording(TICKS, None, Dates("day"))
        self.assertEqual((days.moment(1), days.cell(1)), ("1970-01-02", "1970-01-02"))
        self.assertEqual(days.read_moment("1970-01-02"), 1)
        self.assertEqual(days.read_moment("7"), 7)
        ticks = Wording(TICKS)
        self.assertEqual((ticks.moment(1), ticks.cell(1)), ("1", 1))
        with self.assertRaises(TermError):
            ticks.read_moment("1970-01-02")
        civil, noon = Wording(CIVIL), datetime(2024, 3, 3, 12, tzinfo=timezone.utc)
        self.assertEqual(civil.moment(noon), "2024-03-03T12:00:00Z")
        self.assertEqual(civil.read_moment("2024-03-03T12:00:00Z"), noon)

    def test_texts_in_quotes_become_names(self) -> None:
        shown = Shown(names(), None)
        self.assertEqual(shown.unquoted('at 5 in("Ann Müller",_)'), "at 5 in(ann,_)")
        self.assertEqual(shown.unquoted("at 5 in(ann,_)"), "at 5 in(ann,_)")
        for text, words in [
            ('in("177")', '"177" may be n177, p177: ask for one of these names'),
            ('in("Anna Müller")', 'did you mean "Ann Müller"'),
            ('in("")', 'no name stands for ""'),
        ]:
            with self.assertRaisesRegex(HistoryError, words):
                shown.unquoted(text)


class Options(unittest.TestCase):
    def test_a_map_has_the_names_and_the_unit(self) -> None:
        source = (
            '{"key": "r{id}", "event": "e({who})", "names": "mine.tsv",'
            ' "time": {"column": "when", "unit": "day", "origin": "2024-01-01"}}'
        )
        with tempfile.TemporaryDirectory() as folder:
            path = os.path.join(folder, "map.json")
            with open(path, "w", encoding="utf-8") as file:
                file.write(source)
            with open(os.path.join(folder, "mine.tsv"), "w", encoding="utf-8") as file:
                file.write(NAMES)
            options = {"names": None, "unit": None, "origin": None}
            wording = shown_by(Namespace(map=path, **options)).wording(TICKS)
            options["unit"] = "hour"
            hours = shown_by(Namespace(map=path, **options)).wording(TICKS)
        self.assertEqual(wording.argument("ann"), "Ann Müller")
        self.assertEqual(wording.moment(1), "2024-01-02")
        self.assertEqual(hours.moment(1), "1970-01-01T01:00Z")


if __name__ == "__main__":
    unittest.main()
