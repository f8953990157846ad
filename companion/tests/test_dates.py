"""The dates that whole numbers stand for."""

import unittest

from ec_history.dates import Dates, UNITS
from ec_history.errors import TermError


class BothWays(unittest.TestCase):
    def test_each_unit(self) -> None:
        for unit, ticks, text in [
            ("second", 1_709_467_205, "2024-03-03T12:00:05Z"),
            ("minute", 28_491_120, "2024-03-03T12:00Z"),
            ("hour", 474_852, "2024-03-03T12:00Z"),
            ("day", 19_785, "2024-03-03"),
            ("day", -1, "1969-12-31"),
            ("date", 20240303, "2024-03-03"),
            ("date", 9_991_231, "0999-12-31"),
            ("minute-digits", 202403031200, "2024-03-03T12:00Z"),
            ("second-digits", 20240303120005, "2024-03-03T12:00:05Z"),
        ]:
            dates = Dates(unit)
            self.assertEqual(dates.text(ticks), text)
            self.assertEqual(dates.ticks(text), ticks, (unit, text))

    def test_numbers_without_a_date_are_shown_as_they_are(self) -> None:
        for unit in UNITS:
            self.assertEqual(Dates(unit).text(2**62), str(2**62))
        self.assertEqual(Dates("date").text(20240231), "20240231")
        self.assertEqual(Dates("date").text(-5), "-5")

    def test_offsets(self) -> None:
        minutes = Dates("minute")
        self.assertEqual(
            minutes.ticks("2024-03-03T13:00+01:00"), minutes.ticks("2024-03-03T12:00Z")
        )

    def test_what_is_no_date(self) -> None:
        self.assertIsNone(Dates("day").ticks("12"))
        self.assertIsNone(Dates("day").ticks("noon"))
        for text in ("2024-02-30", "2024-03-03T12:00Z"):
            with self.assertRaises(TermError):
                Dates("day").ticks(text)


if __name__ == "__main__":
    unittest.main()
