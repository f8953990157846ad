"""Records to lines: maps, formats, corrections, faults by row."""

from __future__ import annotations

import gzip
import io
import json
import os
import sys
import tempfile
import unittest
from contextlib import redirect_stderr, redirect_stdout
from typing import Any, Dict, List, Tuple, Union

from ec_history.cli import main
from ec_history.importing import EXAMPLE, Imported, import_file
from ec_history.mapping import MapFault, read_map
from ec_history.names import Names
from ec_history.records import FileFault

WARD: Dict[str, Any] = {
    "key": "r{id}",
    "event": "admit(p{patient},{bed})",
    "corrects": "corrects",
    "time": {
        "column": "when",
        "format": "%d.%m.%Y %H:%M",
        "zone": "Europe/Berlin",
        "unit": "minute",
        "origin": "2024-01-01T00:00:00Z",
    },
}
HEAD = "id,when,patient,bed,corrects\n"
FIRST = HEAD + "1,03.03.2024 12:30,177,B3 West,\n"
TELLS_FIRST = "assert r1 89970 admit(p177,b3_west)"


class Folder(unittest.TestCase):
    """A test with a folder of its own."""

    def setUp(self) -> None:
        held = tempfile.TemporaryDirectory()
        self.addCleanup(held.cleanup)
        self.folder = held.name

    def path(self, name: str) -> str:
        return os.path.join(self.folder, name)

    def write(self, name: str, content: Union[str, bytes]) -> str:
        data = content.encode() if isinstance(content, str) else content
        with open(self.path(name), "wb") as file:
            file.write(data)
        return self.path(name)

    def run_main(self, *words: str) -> Tuple[int, str, str]:
        out, err = io.StringIO(), io.StringIO()
        with redirect_stdout(out), redirect_stderr(err):
            status = main(list(words))
        return status, out.getvalue(), err.getvalue()

    def imported(
        self, table: Dict[str, Any], content: Union[str, bytes], name: str = "data.csv"
    ) -> Imported:
        data = self.write(name, content)
        map_of = read_map(self.write("map.json", json.dumps(table)), data)
        return import_file(map_of, data, Names(map_of.keep_case))

    def lines(
        self, table: Dict[str, Any], content: Any, name: str = "x.csv"
    ) -> List[str]:
        result = self.imported(table, content, name)
        self.assertEqual(result.faults, [])
        return result.lines

    def fault(self, table: Dict[str, Any], content: Any, name: str = "x.csv") -> str:
        result = self.imported(table, content, name)
        self.assertEqual(len(result.faults), 1, result.faults)
        return result.faults[0]


class FormatsTest(Folder):
    def test_csv(self) -> None:
        self.assertEqual(self.lines(WARD, FIRST), [TELLS_FIRST])
        for data in (
            b"\xef\xbb\xbf" + FIRST.encode(),
            FIRST.replace("\n", "\r\n").encode(),
            FIRST.rstrip("\n").encode(),
            FIRST.replace("B3 West", '"B3 West"').encode(),
            gzip.compress(FIRST.encode()),
        ):
            self.assertEqual(self.lines(WARD, data), [TELLS_FIRST])

    def test_delimiters_and_quotes(self) -> None:
        table = {**WARD, "file": {"delimiter": ";", "quote": "'"}}
        data = FIRST.replace(",", ";").replace("B3 West", "'B3; West'")
        self.assertEqual(self.lines(table, data), [TELLS_FIRST])

    def test_tsv(self) -> None:
        data = FIRST.replace(",", "\t")
        self.assertEqual(self.lines(WARD, data, "data.tsv"), [TELLS_FIRST])

    def test_a_file_without_quotes(self) -> None:
        data = FIRST.replace("B3 West", '6" bed').replace(",", "\t")
        table = {**WARD, "file": {"quote": ""}}
        told = TELLS_FIRST.replace("b3_west", "n6_bed")
        self.assertEqual(self.lines(table, data, "data.tsv"), [told])

    def test_encodings(self) -> None:
        data = FIRST.replace("B3 West", "Süd").encode("cp1252")
        self.assertIn("column bed: the byte 0xfc is not utf-8", self.fault(WARD, data))
        table = {**WARD, "file": {"encoding": "cp1252"}}
        self.assertEqual(self.lines(table, data), ["assert r1 89970 admit(p177,sud)"])
        table = {**WARD, "file": {"encoding": "utf-16"}}
        self.assertEqual(self.lines(table, FIRST.encode("utf-16")), [TELLS_FIRST])
        with self.assertRaisesRegex(FileFault, "the file is not utf-16"):
            self.imported(table, FIRST.encode())
        table = {**WARD, "file": {"encoding": "cp12x"}}
        with self.assertRaisesRegex(MapFault, "no encoding cp12x"):
            self.imported(table, FIRST)

    def test_a_head_may_stand_in_the_map(self) -> None:
        columns = HEAD.strip().split(",")
        table = {**WARD, "file": {"columns": columns}}
        self.assertEqual(self.lines(table, FIRST[len(HEAD) :]), [TELLS_FIRST])

    def test_json_lines(self) -> None:
        rows = [
            {"id": 1, "when": "03.03.2024 12:30", "patient": {"id": 177}, "bed": "B3"},
            {"id": 2, "when": "03.03.2024 12:31", "patient": {"id": 178}, "bed": "B4"},
        ]
        table = {**WARD, "event": "admit(p{patient.id},{bed})"}
        data = "\n".join(map(json.dumps, rows)) + "\n\n[1]\n{\n"
        result = self.imported(table, data, "data.jsonl")
        self.assertEqual(
            result.lines,
            ["assert r1 89970 admit(p177,b3)", "assert r2 89971 admit(p178,b4)"],
        )
        self.assertEqual(len(result.faults), 2)
        self.assertIn("row 3 (line 4): it is no object", result.faults[0])
        self.assertIn("row 4 (line 5): it is no JSON", result.faults[1])

    def test_xes(self) -> None:
        log = """<?xml version="1.0" encoding="UTF-8"?>
            <log xmlns="http://www.xes-standard.org/">
            <trace><string key="concept:name" value="Case 1"/>
            <event><string key="concept:name" value="Register Request"/>
            <int key="id" value="7"/>
            <date key="time:timestamp" value="2010-12-30T11:02:00.000+01:00"/></event>
            </trace>
            <trace><string key="concept:name" value="Case 2"/>
            <event><string key="concept:name" value="Pay"/><int key="id" value="8"/>
            <date key="time:timestamp" value="2010-12-30T12:02:00.000+01:00"/></event>
            </trace></log>"""
        table = {
            "key": "e{id}",
            "event": "{concept:name}({case:concept:name})",
            "time": {"column": "time:timestamp", "unit": "civil"},
        }
        self.assertEqual(
            self.lines(table, log, "log.xes"),
            [
                "assert e7 2010-12-30T10:02:00Z register_request(case_1)",
                "assert e8 2010-12-30T11:02:00Z pay(case_2)",
            ],
        )
        for data, said in [("<log>", "no XML"), ("<html/>", "begins with <html>")]:
            with self.assertRaisesRegex(FileFault, said):
                self.imported(table, data, "log.xes")

    @unittest.skipIf(sys.version_info < (3, 11), "this python3 has no tomllib")
    def test_toml(self) -> None:
        toml = """
            key = "r{id}"
            event = "admit(p{patient},{bed})"
            corrects = "corrects"
            [time]
            column = "when"
            format = "%d.%m.%Y %H:%M"
            zone = "Europe/Berlin"
            unit = "minute"
            origin = "2024-01-01T00:00:00Z"
        """
        map_of = read_map(self.write("map.toml", toml))
        data = self.write("data.csv", FIRST)
        self.assertEqual(import_file(map_of, data, Names()).lines, [TELLS_FIRST])

    @unittest.skipIf(sys.version_info >= (3, 11), "this python3 has tomllib")
    def test_toml_is_missing(self) -> None:
        with self.assertRaisesRegex(MapFault, "write the map as JSON"):
            read_map(self.write("map.toml", 'key = "r{id}"'))


class EventsTest(Folder):
    def test_several_events_of_one_row(self) -> None:
        table = {
            "key": "r{id}",
            "time": {"unit": "number"},
            "events": [
                {"event": "admit({patient})", "time": "from"},
                {
                    "event": "discharge({patient})",
                    "time": "to",
                    "suffix": "_end",
                    "optional": True,
                },
            ],
        }
        data = "id,patient,from,to\n1,Ann,5,9\n2,Bob,7,\n"
        self.assertEqual(
            self.lines(table, data),
            [
                "assert r1 5 admit(ann)",
                "assert r1_end 9 discharge(ann)",
                "assert r2 7 admit(bob)",
            ],
        )
        del table["events"][1]["suffix"]
        said = self.imported(table, data).faults
        self.assertEqual(len(said), 1)
        self.assertIn("two events of the identity r1: give one of them a", said[0])

    def test_rows_choose_their_event(self) -> None:
        table: Dict[str, Any] = {
            "key": "r{id}",
            "time": {"column": "t", "unit": "number"},
            "events": [
                {"event": "enter({who})", "when": {"kind": ["in", "IN"]}},
                {"event": "exit({who})", "when": {"kind": "out"}},
            ],
        }
        data = "id,t,kind,who\n1,5,IN,Ann\n2,6,out,Ann\n3,7,lunch,Ann\n"
        result = self.imported(table, data)
        lines = ["assert r1 5 enter(ann)", "assert r2 6 exit(ann)"]
        self.assertEqual(result.lines, lines)
        self.assertIn("row 3 (line 4): no event of the map", result.faults[0])
        table["others"] = "skip"
        self.assertEqual(self.lines(table, data), lines)

    def test_numbers_are_numbers_where_the_map_says_so(self) -> None:
        table: Dict[str, Any] = {
            "key": "r{id}",
            "event": "read({pump},{degrees},90,low)",
            "time": {"column": "t", "unit": "number"},
            "columns": {"degrees": {"kind": "number"}},
        }
        data = "id,t,pump,degrees\n1,5,7,-3\n"
        self.assertEqual(self.lines(table, data), ["assert r1 5 read(n7,-3,90,low)"])
        said = self.fault(table, data.replace("-3", "007"))
        self.assertIn("column degrees: 007 has leading zeros, and ec would", said)
        self.assertIn("no whole number", self.fault(table, data.replace("-3", "3.5")))
        table["columns"]["degrees"]["zeros"] = "drop"
        told = self.lines(table, data.replace("-3", "007"))
        self.assertEqual(told, ["assert r1 5 read(n7,7,90,low)"])

    def test_blanks_at_the_ends_go_where_the_map_says_so(self) -> None:
        data = FIRST + "2,03.03.2024 12:31,177,B3 West ,\n"
        self.assertIn("would both be b3_west", self.fault(WARD, data))
        table = {**WARD, "file": {"strip": True}}
        self.assertEqual(len(self.lines(table, data)), 2)


class CorrectionsTest(Folder):
    def test_a_correction_is_a_draft(self) -> None:
        data = FIRST + "2,03.03.2024 12:31,177,B4,1\n"
        self.assertEqual(
            self.lines(WARD, data),
            [
                TELLS_FIRST,
                "begin",
                "retract r1",
                "assert r2 89971 admit(p177,b4)",
                "commit",
            ],
        )

    def test_a_record_may_correct_itself(self) -> None:
        data = FIRST + "1,03.03.2024 12:31,177,B4,\n"
        said = self.fault(WARD, data)
        self.assertIn("the key '1' stands in row 1 (line 2) already", said)
        table = {**WARD, "again": "corrects"}
        self.assertEqual(
            self.lines(table, data)[1:],
            ["begin", "retract r1", "assert r1 89971 admit(p177,b4)", "commit"],
        )

    def test_a_record_may_be_withdrawn(self) -> None:
        table = {**WARD, "withdrawn": {"bed": "void"}}
        data = FIRST + "2,,,void,1\n3,03.03.2024 12:31,177,B4,\n3,,,void,\n"
        self.assertEqual(
            self.lines(table, data)[1:],
            [
                *("begin", "retract r1", "commit"),
                "assert r3 89971 admit(p177,b4)",
                *("begin", "retract r3", "commit"),
            ],
        )

    def test_what_is_not_there_can_not_be_corrected(self) -> None:
        said = self.fault(WARD, FIRST + "2,03.03.2024 12:31,177,B4,9\n")
        self.assertIn("row 2 (line 3): it corrects '9', which no row before", said)
        twice = FIRST + "2,03.03.2024 12:31,177,B4,1\n3,03.03.2024 12:32,177,B5,1\n"
        said = self.fault(WARD, twice)
        self.assertIn("corrects '1', which '2' has corrected already: name '2'", said)
        table = {**WARD, "chain": True}
        self.assertEqual(self.lines(table, twice)[-3], "retract r2")

    def test_keys_of_several_columns(self) -> None:
        table = {**WARD, "key": "{ward}_{id}", "corrects": ["old_ward", "old_id"]}
        data = (
            "ward,id,when,patient,bed,old_ward,old_id\n"
            "A,1,03.03.2024 12:30,177,B3,,\n"
            "B,1,03.03.2024 12:30,178,B3,,\n"
            "B,2,03.03.2024 12:31,179,B4,B,1\n"
        )
        lines = self.lines(table, data)
        self.assertEqual(lines[0][:11], "assert a_1 ")
        self.assertEqual(lines[2:4], ["begin", "retract b_1"])
        with self.assertRaisesRegex(MapFault, "names one for each of the key's"):
            self.imported({**table, "corrects": "old_id"}, data)

    def test_a_correction_of_several_events(self) -> None:
        table = {
            "key": "r{id}",
            "corrects": "corrects",
            "time": {"unit": "number"},
            "events": [
                {"event": "admit({who})", "time": "from"},
                {"event": "leave({who})", "time": "to", "suffix": "_end"},
            ],
        }
        data = "id,corrects,who,from,to\n1,,Ann,5,9\n2,1,Ann,6,9\n"
        self.assertEqual(
            self.lines(table, data)[2:],
            [
                *("begin", "retract r1", "retract r1_end"),
                "assert r2 6 admit(ann)",
                *("assert r2_end 9 leave(ann)", "commit"),
            ],
        )


class FaultsTest(Folder):
    def test_each_fault_has_its_row(self) -> None:
        for row, said in [
            ("2,27.10.2024 02:30,177,B3 West,", "column when: .* comes twice in"),
            ("2,31.03.2024 02:30,177,B3 West,", "column when: .* leaves out that day"),
            ("2,31.03.2024 04:30,177,,", "column bed: it is empty"),
            ("2,31.03.2024 04:30,177,b3-west,", "column bed: .* both be b3_west"),
            ("2,31.03.2024 04:30,177", "it has 3 fields, and the head"),
            ("2,31.03.2024,177,B3 West,", "column when: .* no time of the form"),
            (",31.03.2024 04:30,177,B3 West,", "column id: it is empty"),
            ("2,31.03.2024 04:30,177," + "x" * 65 + ",", "column bed: .* 65 bytes"),
            ('2,31.03.2024 04:30,177,"B3" West,', "it is no csv"),
        ]:
            fault = self.fault(WARD, FIRST + row + "\n")
            self.assertRegex(fault, "row 2 .line 3.: " + said)

    def test_lines_are_counted_as_people_see_them(self) -> None:
        data = HEAD + '1,03.03.2024 12:30,177,"B3\nWest",\n\n2,x,178,B4,\n'
        self.assertIn("row 2 (line 5): column when: 'x'", self.fault(WARD, data))

    def test_columns_that_are_missing_are_told(self) -> None:
        with self.assertRaisesRegex(FileFault, "'bed'.*did you mean 'Bed'"):
            self.imported(WARD, FIRST.replace("bed", "Bed"))
        with self.assertRaisesRegex(FileFault, "two columns are called 'id'"):
            self.imported(WARD, "id,id\n1,2\n")
        with self.assertRaisesRegex(FileFault, "the file is empty"):
            self.imported(WARD, "")

    def test_faults_of_a_map_say_what_to_write(self) -> None:
        for change, said in [
            ({"colums": {}}, "no key `colums` is known: did you mean `columns`"),
            ({"key": "R{id}"}, "a name begins with a lower case letter"),
            ({"key": "r"}, "names no column in braces"),
            ({"key": 7}, "`key` is a text"),
            ({"event": "admit({p}"}, "is no event"),
            ({"event": "admit()"}, "is no event"),
            ({"event": "a(1,2,3,4,5,6,7,8,9)"}, "over 8 arguments"),
            ({"event": "a({x} y)"}, "may stand beside a field"),
            ({"event": "a(,b)"}, "no name of ec"),
            ({"time": {"column": "t"}}, r"\[time\]: `unit` is one of civil"),
            ({"time": {"unit": "minute"}}, "no `column` under"),
            ({"time": {"unit": "day", "column": "t", "zone": "Mars"}}, "no zone Mars"),
            ({"time": {"unit": "day", "column": "t", "origin": "x"}}, "`origin` is"),
            ({"columns": {"x": {"kind": "text"}}}, "`kind` is name or number"),
            ({"file": {"delimiter": "::"}}, "one character each"),
            ({"event": None}, "`event` is a text"),
        ]:
            table = {**WARD, **change}
            with self.assertRaisesRegex(MapFault, said):
                read_map(self.write("map.json", json.dumps(table)))
        for text, said in [("{", "map.json: "), ("[]", "an object of JSON")]:
            with self.assertRaisesRegex(MapFault, said):
                read_map(self.write("map.json", text))


class CommandTest(Folder):
    def test_the_example_of_the_help(self) -> None:
        table = {
            "key": "r{id}",
            "event": "admit(p{patient},{bed})",
            "time": {**WARD["time"], "origin": "1970-01-01T00:00:00Z"},
        }
        data = "id,when,patient,bed\n1,03.03.2024 12:30,177,B3\n"
        (line,) = self.lines(table, data)
        identity_and_time, event = line.rsplit(" ", 1)
        self.assertIn(identity_and_time, EXAMPLE)
        self.assertIn(event, EXAMPLE)
        for text in (*data.splitlines(), *table["time"]["format"].split()):
            self.assertIn(text, EXAMPLE)

    def test_the_command_is_the_same_in_each_run(self) -> None:
        map_path = self.write("map.json", json.dumps(WARD))
        data = self.write("data.csv", FIRST)
        first = self.run_main("import", map_path, data)
        self.assertEqual(first[:2], (0, TELLS_FIRST + "\n"))
        self.assertIn("1 records", first[2])
        with open(self.path("names.tsv")) as file:
            names = file.read()
        self.assertIn("name\tb3_west\t{}\tB3 West\n", names)
        self.assertEqual(self.run_main("import", map_path, data)[:2], first[:2])
        changed = names.replace("b3_west", "west_bed")
        self.write("names.tsv", changed)
        status, out, _ = self.run_main("import", map_path, data)
        told = TELLS_FIRST.replace("b3_west", "west_bed")
        self.assertEqual((status, out), (0, told + "\n"))

    def test_nothing_is_written_where_a_row_is_at_fault(self) -> None:
        map_path = self.write("map.json", json.dumps(WARD))
        data = self.write("data.csv", FIRST + "2,x,178,B4,\n")
        status, out, err = self.run_main("import", map_path, data)
        self.assertEqual((status, out), (1, ""))
        self.assertIn("data.csv: row 2 (line 3): column when", err)
        self.assertFalse(os.path.exists(self.path("names.tsv")))
        status, out, err = self.run_main("import", "--skip-faulty", map_path, data)
        self.assertEqual((status, out), (1, TELLS_FIRST + "\n"))

    def test_faults_of_files_have_status_2(self) -> None:
        map_path = self.write("map.json", json.dumps(WARD))
        missing = [map_path, self.path("none.csv")], [self.path("no.json"), "x.csv"]
        for words in missing:
            status, out, err = self.run_main("import", *words)
            self.assertEqual((status, out), (2, ""))
            self.assertIn("can't be read", err)


if __name__ == "__main__":
    unittest.main()
