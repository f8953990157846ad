"""A folder of parts for the tests: loans of twenty books, some of them corrected."""

from __future__ import annotations

import json
import os
import random
import tempfile
import unittest
from pathlib import Path

from ec_history.dividing import Divider
from ec_history.keys import Keys
from ec_history.mapping import read_map
from ec_history.names import Names
from ec_history.parts import Parts
from ec_history.theory import Theory

from .setting import program, theory_of

LOANS = theory_of("loans")
MAP = {
    "key": "r{id}",
    "corrects": "corrects",
    "time": {"column": "time", "unit": "number"},
    "events": [
        {"event": f"{what}({{book}},{{who}})", "when": {"what": what}}
        for what in ("lend", "give_back", "reserve")
    ],
}


def loan_records(count: int, books: int = 20, seed: int = 5) -> str:
    """Records of loans, in any order; each tenth corrects one in front of it."""
    draw = random.Random(seed)
    rows = ["id,time,what,book,who,corrects\n"]
    times = draw.sample(range(1000), count)
    for number, time in enumerate(times, 1):
        what = draw.choice(("lend", "give_back", "reserve"))
        book, who = f"Book {draw.randrange(books)}", f"p{draw.randrange(9)}"
        corrects = number - 5 if number % 10 == 0 else ""
        rows.append(f"{number},{time},{what},{book},{who},{corrects}\n")
    return "".join(rows)


class Loans(unittest.TestCase):
    """A test with a folder, and in it `parts` and the files that they came of."""

    count = 4

    def setUp(self) -> None:
        held = tempfile.TemporaryDirectory()
        self.addCleanup(held.cleanup)
        self.folder = held.name
        self.map = self.path("loans.json")
        self.records = self.path("loans.csv")
        Path(self.map).write_text(json.dumps(MAP))
        Path(self.records).write_text(loan_records(300))
        self.parts = self.divided("parts", self.count)

    def path(self, name: str) -> str:
        return os.path.join(self.folder, name)

    def divided(self, name: str, count: int) -> Parts:
        """The records in so many parts."""
        split = Keys(Theory.read(LOANS)).split()
        divider = Divider(LOANS, split, self.path(name), program(), 1)
        map_of = read_map(self.map, self.records)
        made = divider.divide(map_of, self.records, Names(), count, False, lambda: None)
        assert made.parts is not None, made.imported.faults
        return made.parts
