"""5,000 records of a hospital: imported, told to `ec`, and asked at 300 instants."""

from __future__ import annotations

import json
import os
import random
import tempfile
import unittest
from typing import List

from ec_history.client import Server
from ec_history.importing import Imported, import_file
from ec_history.linting import lint_lines, lint_theory
from ec_history.mapping import read_map
from ec_history.names import Names
from ec_history.terms import Term
from tests import hospital
from tests.setting import program


class HospitalTest(unittest.TestCase):
    """Answers about imported records are those of what truly happened."""

    folder: str
    rows: List[hospital.Row]
    names: Names
    result: Imported

    @classmethod
    def setUpClass(cls) -> None:
        held = tempfile.TemporaryDirectory()
        cls.addClassCleanup(held.cleanup)
        cls.folder = held.name
        cls.rows = hospital.rows(5000, 20240229)
        cls.write("ward.ec", hospital.THEORY.encode())
        cls.write("ward.json", json.dumps(hospital.MAP).encode())
        cls.write("ward.csv", hospital.csv_of(cls.rows))
        cls.names = Names()
        cls.result = cls.imported(cls.names)
        lines = "".join(f"{line}\n" for line in cls.result.lines)
        cls.write("ward.lines", lines.encode())

    @classmethod
    def path(cls, name: str) -> str:
        return os.path.join(cls.folder, name)

    @classmethod
    def write(cls, name: str, data: bytes) -> None:
        with open(cls.path(name), "wb") as file:
            file.write(data)

    @classmethod
    def imported(cls, names: Names) -> Imported:
        map_of = read_map(cls.path("ward.json"), cls.path("ward.csv"))
        return import_file(map_of, cls.path("ward.csv"), names)

    def property(self, term: Term, names: Names) -> hospital.Property:
        """A property with the texts of the records in place of `ec`'s names."""
        texts = (names.text_of(str(argument)) or "?" for argument in term.arguments)
        return (term.name, *texts)

    def test_the_answers_are_those_of_the_truth(self) -> None:
        self.assertEqual(self.result.faults, [])
        self.assertEqual(self.result.records, 5000)
        self.assertGreater(self.result.corrections, 300)
        self.assertEqual(self.result.lines.count("begin"), self.result.corrections)
        self.names.write(self.path("names.tsv"))
        names = Names.read(self.path("names.tsv"))
        holding = hospital.Holding(hospital.truth(self.rows))
        draw = random.Random(3)
        held, kinds = 0, set()
        with Server(self.path("ward.ec"), program()) as server:
            for played in server.play(self.result.lines):
                self.assertNotIn("refused", played.reply or "", played.line)
            for _ in range(300):
                minute = draw.randrange(-2000, 366 * 1440 + 30_000)
                found = {self.property(p, names) for p in server.main.at(minute)}
                self.assertEqual(found, holding.at(minute), minute)
                held += len(found)
                kinds.update(what[0] for what in found)
        self.assertGreater(held, 10_000)
        self.assertEqual(kinds, {"in", "fever", "isolated", "false_alarm"})

    def test_the_lines_are_the_same_in_each_run(self) -> None:
        self.assertEqual(self.imported(self.names).lines, self.result.lines)
        self.assertEqual(self.imported(Names()).lines, self.result.lines)

    def test_no_line_is_refused(self) -> None:
        theory = self.path("ward.ec")
        self.assertEqual(lint_theory(program(), theory), (True, []))
        found = lint_lines(program(), theory, True, self.path("ward.lines"))
        for finding in found:
            self.assertRegex(finding.text, "where .* starts it|meets no rule")


if __name__ == "__main__":
    unittest.main()
