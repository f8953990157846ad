"""Times of the two clocks."""

import unittest
from datetime import datetime, timedelta, timezone

from ec_history.errors import TermError
from ec_history.moments import CIVIL, TICK


class Ticks(unittest.TestCase):
    def test_whole_numbers(self) -> None:
        self.assertEqual(TICK.read("-012"), -12)
        self.assertEqual(TICK.write(-12), "-12")
        for text in ["", "1.5", "2024-03-03", "9223372036854775808"]:
            with self.assertRaises(TermError):
                TICK.read(text)
        with self.assertRaises(TermError):
            TICK.write(datetime(2024, 3, 3, tzinfo=timezone.utc))


class CivilTimes(unittest.TestCase):
    def test_the_text_is_read_and_written(self) -> None:
        for text in [
            "2024-03-03T12:00:00Z",
            "0001-01-01T00:00:00Z",
            "1969-12-31T23:59:59Z",
            "9999-12-31T23:59:59Z",
        ]:
            moment = CIVIL.read(text)
            self.assertEqual(CIVIL.write(moment), text)
            self.assertEqual(CIVIL.moment(CIVIL.rank(moment)), moment)

    def test_other_zones_are_written_in_utc(self) -> None:
        summer = timezone(timedelta(hours=2))
        moment = datetime(2024, 7, 1, 12, 0, 0, tzinfo=summer)
        self.assertEqual(CIVIL.write(moment), "2024-07-01T10:00:00Z")

    def test_what_is_no_civil_time_is_refused(self) -> None:
        for text in [
            "2024-03-03",
            "2024-03-03T12:00:00",
            "2024-02-30T12:00:00Z",
            "2024-03-03T24:00:00Z",
            "2024-03-03 12:00:00Z",
            "12",
        ]:
            with self.assertRaises(TermError, msg=text):
                CIVIL.read(text)
        for moment in [
            datetime(2024, 3, 3),
            datetime(2024, 3, 3, 0, 0, 0, 1, tzinfo=timezone.utc),
            12,
        ]:
            with self.assertRaises(TermError):
                CIVIL.write(moment)


if __name__ == "__main__":
    unittest.main()
