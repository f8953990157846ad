"""Times of records: formats, zones, units."""

from __future__ import annotations

import unittest
import zoneinfo
from datetime import datetime, timezone
from unittest import mock

from ec_history.moments import CIVIL
from ec_history.times import TimeFault, TimeForm, TimeReader, find_zone

ORIGIN = datetime(2024, 1, 1, tzinfo=timezone.utc)


def read(text: str, which: str = "", **form: object) -> str:
    return TimeReader(TimeForm(**form)).read(text, which)  # type: ignore[arg-type]


class TimesTest(unittest.TestCase):
    def test_units(self) -> None:
        text = "2024-03-03T12:30:00+01:00"
        for unit, time in [
            ("civil", "2024-03-03T11:30:00Z"),
            ("second", "5398200"),
            ("minute", "89970"),
            ("minute-digits", "202403031130"),
            ("second-digits", "20240303113000"),
        ]:
            self.assertEqual(read(text, unit=unit, origin=ORIGIN), time)
        for unit, time in [("hour", "1499"), ("day", "62"), ("date", "20240303")]:
            with self.assertRaisesRegex(TimeFault, "no whole"):
                read(text, unit=unit, origin=ORIGIN)
            rounded = read(text, unit=unit, origin=ORIGIN, round_down=True)
            self.assertEqual(rounded, time)
        self.assertEqual(read("2024-03-03", unit="date"), "20240303")
        self.assertEqual(read("2024-03-03", unit="day", origin=ORIGIN), "62")
        before = read("2023-12-31T23:59:59Z", unit="second", origin=ORIGIN)
        self.assertEqual(before, "-1")

    def test_formats_are_tried_in_turn(self) -> None:
        formats = ("%d.%m.%Y %H:%M", "%d.%m.%Y")
        form = {"formats": formats, "zone": "UTC", "unit": "civil"}
        self.assertEqual(read("03.03.2024 08:05", **form), "2024-03-03T08:05:00Z")
        self.assertEqual(read("3.3.2024", **form), "2024-03-03T00:00:00Z")
        with self.assertRaisesRegex(TimeFault, "no time of the form %d.%m.%Y"):
            read("2024/03/03", **form)
        with self.assertRaises(TimeFault):
            read("30.02.2024", **form)

    def test_iso_and_unix(self) -> None:
        for text, time in [
            ("2024-03-03T12:30:00Z", "2024-03-03T12:30:00Z"),
            ("2024-03-03 12:30+0530", "2024-03-03T07:00:00Z"),
            ("2010-12-30T11:02:00.000+01:00", "2010-12-30T10:02:00Z"),
            ("2010-12-30T11:02:00-03", "2010-12-30T14:02:00Z"),
            ("0001-01-01T00:00:00Z", "0001-01-01T00:00:00Z"),
        ]:
            self.assertEqual(read(text), time)
            self.assertEqual(CIVIL.write(CIVIL.read(read(text))), time)
        self.assertEqual(read("1709469000", formats=("unix",)), "2024-03-03T12:30:00Z")
        millis = read("1709469000123", formats=("unix-ms",), round_down=True)
        self.assertEqual(millis, "2024-03-03T12:30:00Z")
        with self.assertRaisesRegex(TimeFault, "no whole number of the unit civil"):
            read("1709469000123", formats=("unix-ms",))
        for text in ("2024-13-03", "2024-03-03T25:00Z", "9" * 30, ""):
            with self.assertRaises(TimeFault):
                read(text, formats=("iso", "unix"))

    def test_an_hour_that_comes_twice_is_a_fault(self) -> None:
        form = {"zone": "Europe/Berlin"}
        with self.assertRaisesRegex(TimeFault, "twice in Europe/Berlin, in CEST and"):
            read("2024-10-27 02:30", **form)
        for which, time in [
            ("CEST", "2024-10-27T00:30:00Z"),
            ("CET", "2024-10-27T01:30:00Z"),
            ("+02:00", "2024-10-27T00:30:00Z"),
            ("+0100", "2024-10-27T01:30:00Z"),
            ("UTC", "2024-10-27T02:30:00Z"),
            ("America/New_York", "2024-10-27T06:30:00Z"),
        ]:
            self.assertEqual(read("2024-10-27 02:30", which, **form), time)
        named = ("%Y-%m-%d %H:%M %Z",)
        time = read("2024-10-27 02:30 CET", formats=named, **form)
        self.assertEqual(time, "2024-10-27T01:30:00Z")
        with self.assertRaisesRegex(TimeFault, "is not in CEST"):
            read("2024-12-27 02:30", "CEST", **form)
        self.assertEqual(read("2024-10-27 03:30", **form), "2024-10-27T02:30:00Z")

    def test_an_hour_that_never_comes_is_a_fault(self) -> None:
        with self.assertRaisesRegex(TimeFault, "leaves out that day"):
            read("2024-03-31 02:30", zone="Europe/Berlin")
        later = read("2024-03-31 03:30", zone="Europe/Berlin")
        self.assertEqual(later, "2024-03-31T01:30:00Z")

    def test_every_half_hour_of_two_years_goes_there_and_back(self) -> None:
        zone = zoneinfo.ZoneInfo("Europe/Berlin")
        reader = TimeReader(TimeForm(zone="Europe/Berlin", unit="second"))
        twice = 0
        for seconds in range(1704067200, 1704067200 + 731 * 86400, 1800):
            local = datetime.fromtimestamp(seconds, zone)
            text = local.strftime("%Y-%m-%d %H:%M")
            try:
                self.assertEqual(reader.read(text), str(seconds))
            except TimeFault:
                twice += 1
                self.assertEqual(reader.read(text, local.tzname()), str(seconds))
        self.assertEqual(twice, 2 * 2 * 2)

    def test_a_time_without_zone_is_a_fault(self) -> None:
        with self.assertRaisesRegex(TimeFault, "say the zone under"):
            read("2024-03-03 12:30")

    def test_zones_that_are_missing_are_told(self) -> None:
        with self.assertRaisesRegex(TimeFault, "did you mean Europe/Berlin"):
            find_zone("Europe/Berlni")
        missing = zoneinfo.ZoneInfoNotFoundError("none")
        with mock.patch("zoneinfo.ZoneInfo", side_effect=missing):
            with mock.patch("zoneinfo.available_timezones", return_value=set()):
                with self.assertRaisesRegex(TimeFault, "apt install tzdata"):
                    find_zone("Europe/Berlin")

    def test_numbers_are_taken_as_they_are(self) -> None:
        self.assertEqual(read("-17", unit="number"), "-17")
        with self.assertRaisesRegex(TimeFault, "leading zeros"):
            read("007", unit="number")
        self.assertEqual(read("007", unit="number", drop_zeros=True), "7")
        for text in ("1.5", "x", str(2**63)):
            with self.assertRaises(TimeFault):
                read(text, unit="number")


if __name__ == "__main__":
    unittest.main()
