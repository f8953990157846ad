"""`import --into`, and the commands over a folder of parts."""

from __future__ import annotations

import json
import os
import shutil
import unittest
from contextlib import redirect_stderr
from io import StringIO
from pathlib import Path
from unittest import mock

from ec_history import dividing
from ec_history.parts import open_parts, slot_of

from . import divided
from .commands import Ran, run
from .parted import LOANS, Loans, loan_records
from .setting import theory_of


class Dividing(Loans):
    def into(self, *words: str) -> Ran:
        """Imports the records into the folder `new`."""
        words = (*words, "--processes", "1")
        into = ("--into", self.path("new"), "--theory", LOANS)
        return run("import", self.map, self.records, *into, *words)

    def test_the_lines_of_the_parts_are_those_of_a_plain_import(self) -> None:
        told = run("import", self.map, self.records, "--names", self.path("n.tsv"))
        self.assertEqual(told.status, 0, told.errors)
        wanted = sorted(w for w in told.output.splitlines() if len(w) > len("commit"))
        lines = []
        for part in range(self.parts.count):
            text = self.parts.lines(part).decode()
            self.assertEqual(text.count("\n"), self.parts.held[part].lines)
            balance = text.count("assert ") - text.count("retract ")
            self.assertEqual(balance, self.parts.held[part].events)
            lines += [w for w in text.splitlines() if len(w) > len("commit")]
        self.assertEqual(sorted(lines), wanted)

    def test_a_key_has_the_same_part_everywhere(self) -> None:
        self.assertEqual(
            [slot_of(key) for key in ("dune", "7", "")], [24170, 45230, 45566]
        )

    def test_what_it_says_and_writes(self) -> None:
        told = self.into("--parts", "3")
        self.assertEqual((told.status, told.output), (0, ""))
        self.assertIn("300 records, 30 of them corrections: ", told.errors)
        self.assertIn(" lines in 3 parts, of which one has up to ", told.errors)
        files = [
            "manifest.json",
            *(f"part-{n:03}.lines" for n in range(3)),
            "theory.ec",
        ]
        self.assertEqual(sorted(os.listdir(self.path("new"))), files)
        self.assertEqual(open_parts(self.path("new"), LOANS).count, 3)
        table = json.loads(Path(self.path("new"), "manifest.json").read_text())
        self.assertEqual(table["keys"]["property"]["has/2"], 2)
        # the names of books and people are kept, and identities such as r17 are not
        names = Path(self.path("names.tsv")).read_text()
        self.assertIn("name\tbook_3\t{}\tBook 3\n", names)
        self.assertNotIn("\tr17\t", names)
        again = self.into("--parts", "3")
        self.assertEqual(again.status, 2)
        self.assertIn("new is there already", again.errors)

    def test_as_many_parts_as_are_needed(self) -> None:
        with mock.patch.object(dividing, "MOST_EVENTS", 100):
            told = self.into("--parts", "auto")
        self.assertEqual(told.status, 0, told.errors)
        held = open_parts(self.path("new")).held
        self.assertGreaterEqual(len(held), 3)
        self.assertTrue(all(each.events <= 100 for each in held))

    def test_a_part_that_is_too_large_is_told_and_nothing_is_written(self) -> None:
        read = ", ".join(f"q{n}(Book)" for n in range(16))
        rules = (
            f"initiates lend(Book, Who) p{n}(Book) if {read}.\n" for n in range(64)
        )
        heavy = self.path("heavy.ec")
        Path(heavy).write_text("".join(rules))
        rows = ["id,time,what,book,who,corrects\n"]
        rows += (f"{n},{n},lend,b{n % 70},p{n % 9},\n" for n in range(1000))
        Path(self.records).write_text("".join(rows))
        before = sorted(os.listdir(self.folder))
        into = ("--into", self.path("new"), "--theory", heavy)
        told = run("import", self.map, self.records, *into, "--parts", "1")
        self.assertEqual(told.status, 2, told.errors)
        self.assertRegex(told.errors, "of 1 parts, part 0 would not be accepted: its ")
        self.assertIn("there would be more than 1048576 mentions", told.errors)
        self.assertIn("take more parts, or `--parts auto`. Nothing was", told.errors)
        self.assertEqual(sorted(os.listdir(self.folder)), before)
        told = run("import", self.map, self.records, *into)
        self.assertEqual(told.status, 0, told.errors)
        self.assertEqual(open_parts(self.path("new")).count, 2)

    def test_faults_leave_nothing_unless_they_are_skipped(self) -> None:
        Path(self.records).write_text(loan_records(20) + "7,1,lend,b,p,\n")
        told = self.into("--parts", "2")
        self.assertEqual(told.status, 1)
        self.assertIn("row 21 (line 22): the key '7' stands in row 7", told.errors)
        self.assertIn("so nothing was written", told.errors)
        self.assertFalse(os.path.exists(self.path("new")))
        self.assertFalse(os.path.exists(self.path("names.tsv")))
        self.assertEqual(self.into("--parts", "2", "--skip-faulty").status, 1)
        self.assertEqual(open_parts(self.path("new")).count, 2)

    def test_words_that_do_not_go_together(self) -> None:
        cases = [
            (("--parts", "0"), "--parts 0: a number up to 512, or auto"),
            (("--theory", theory_of("stock")), "does not fall apart, so its events"),
        ]
        for words, wanted in cases:
            told = self.into(*words)
            self.assertEqual(told.status, 2)
            self.assertIn(wanted, told.errors)
        told = run("import", self.map, self.records, "--into", self.path("new"))
        self.assertIn("--into needs --theory", told.errors)
        told = run("import", self.map, self.records, "--parts", "3")
        self.assertIn("--theory and --parts go with --into", told.errors)


class Commands(Loans):
    def both(self, command: str, *words: str) -> "tuple[Ran, Ran]":
        """A command over one file of lines, and over the parts."""
        lines = self.path("all.lines")
        names = ("--names", self.path("names.tsv"))
        told = run("import", self.map, self.records, *names)
        Path(lines).write_text(told.output)
        shown = names if command != "lint" else ()
        return (
            run(command, LOANS, lines, *words, *shown),
            run(command, LOANS, self.parts.path, *words, *shown, "--processes", "2"),
        )

    def test_they_answer_as_over_one_file(self) -> None:
        cases = [
            ("ask", "at 500"),
            ("ask", 'intervals out("Book 3")', "--format", "json"),
            ("ask", "count has(_,_) 700"),
            ("ask", "events", "--format", "tsv"),
            ("draw", "out(_)", "has(p1,_)", "--format", "svg", "--title", "x"),
            ("why", 'out("Book 3")', "700"),
            ("why", "none(x)", "700", "--format", "json"),
        ]
        for command, *words in cases:
            whole, apart = self.both(command, *words)
            self.assertEqual(whole, apart, (command, words))
            self.assertEqual(whole.status, 0)
            self.assertTrue(whole.output)

    def test_lint_looks_through_all_parts(self) -> None:
        told = run("lint", LOANS, self.parts.path)
        self.assertEqual(told.status, 0, told.output)
        for part, line in ((1, "assert x 1 lendd(b,c)\n"), (2, "assert y 2\n")):
            with open(self.parts.lines_path(part), "a") as file:
                file.write(line)
        os.unlink(self.parts.lines_path(3))
        told = run("lint", LOANS, self.parts.path)
        self.assertEqual(told.status, 1)
        self.assertIn("part-001.lines has changed since it was written", told.output)
        self.assertIn("the event lendd(b,c) meets no rule; did you mean", told.output)
        self.assertRegex(told.output, r"part-002.lines:\d+: word 4: ")
        self.assertIn("part-003.lines can't be read", told.output)

    def test_a_folder_that_is_not_as_it_was_is_told(self) -> None:
        path = self.parts.path
        with open(self.parts.lines_path(1), "a") as file:
            file.write("retract r1\n")
        told = run("ask", LOANS, path, "at 500")
        self.assertEqual(told.status, 2)
        self.assertIn("part-001.lines has changed since it was written", told.errors)
        told = run("ask", theory_of("plant"), path, "at 500")
        self.assertIn("is not the theory that the parts of", told.errors)
        manifest = Path(path, "manifest.json")
        text = manifest.read_text()
        manifest.write_text(text.replace('"lend/2": 1', '"lend/2": 2'))
        told = run("ask", LOANS, path, "at 500")
        self.assertIn("does not fall apart by the keys", told.errors)
        manifest.write_text("[]")
        self.assertIn("not as it was", run("ask", LOANS, path, "at 500").errors)
        shutil.rmtree(path)
        os.mkdir(path)
        self.assertIn("no history in parts", run("ask", LOANS, path, "at 1").errors)

    def test_a_cluster_is_for_parts(self) -> None:
        told = run("ask", LOANS, os.devnull, "at 500", "--on", "127.0.0.1:1")
        self.assertIn("--on goes with a folder of parts", told.errors)


class DrawnTheories(unittest.TestCase):
    """`python3 -m tests.divided FROM TO` does the same for more of them."""

    def test_parts_answer_as_one_program_does(self) -> None:
        with redirect_stderr(StringIO()):
            apart = [divided.compare(seed) for seed in range(1000, 1030)]
        self.assertGreaterEqual(apart.count(True), 8)
        self.assertGreaterEqual(apart.count(False), 8)


if __name__ == "__main__":
    unittest.main()
