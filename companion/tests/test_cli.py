"""The command line: help with an example each, faults, and what is written where."""

import os
import subprocess
import sys
import tempfile
import unittest

from ec_history.cli import COMMANDS, parser_of_commands

from .commands import run
from .setting import TOP, lines_of, program, theory_of

COMPANION = TOP / "companion"
IN_PLACE = str(COMPANION / "ec-history")


class Help(unittest.TestCase):
    def test_each_command_has_an_example(self) -> None:
        names = [name for name in self.commands()]
        self.assertEqual(len(names), len(COMMANDS))
        for name in names:
            ran = run(name, "--help")
            self.assertEqual(ran.status, 0)
            self.assertIn(f"usage: ec-history {name}", ran.output)
            self.assertRegex(ran.output, rf"(?s)example.*ec-history {name} ")
            self.assertLessEqual(max(map(len, ran.output.splitlines())), 88, name)

    def commands(self) -> "list[str]":
        parser = parser_of_commands()
        (choices,) = (a.choices for a in parser._actions if a.choices is not None)
        return list(choices)

    def test_no_words(self) -> None:
        ran = run()
        self.assertEqual(ran.status, 2)
        self.assertIn("usage: ec-history", ran.errors)


class InPlace(unittest.TestCase):
    def test_the_script_and_the_module_are_the_same(self) -> None:
        words = ["ask", theory_of("stock"), lines_of("stock"), "at 4 _"]
        words += ["--program", program()]
        for command, folder in [
            ([IN_PLACE], "/"),
            ([sys.executable, "-m", "ec_history"], str(COMPANION)),
        ]:
            done = subprocess.run(
                [*command, *words], cwd=folder, stdout=subprocess.PIPE
            )
            self.assertEqual(done.returncode, 0)
            self.assertEqual(
                done.stdout,
                b"at(ladder,cellar)\nin_stock(flour)\nin_stock(sugar)\n",
            )

    def test_lines_of_standard_input(self) -> None:
        words = ["ask", theory_of("stock"), "-", "at 6 at(ladder,_)"]
        with open(lines_of("stock"), "rb") as file:
            done = subprocess.run(
                [IN_PLACE, *words, "--program", program()],
                stdin=file,
                stdout=subprocess.PIPE,
            )
        self.assertEqual((done.returncode, done.stdout), (0, b""))

    def test_a_reader_that_goes_away_is_no_fault(self) -> None:
        words = ["ask", theory_of("lending_year"), lines_of("lending_year")]
        words += ["why _ 100", "--program", program()]
        for _ in range(2):
            process = subprocess.Popen(
                [IN_PLACE, *words],
                stdout=subprocess.PIPE,
                stderr=subprocess.PIPE,
            )
            assert process.stdout is not None and process.stderr is not None
            process.stdout.close()
            errors = process.stderr.read()
            process.stderr.close()
            process.wait()
            self.assertNotIn(b"Traceback", errors)
            self.assertNotIn(b"BrokenPipe", errors)


class Encodings(unittest.TestCase):
    def test_files_are_in_utf_8_whatever_the_machine_writes(self) -> None:
        names = "name\tflour\t{}\tMehl für Öfen\n"
        with tempfile.TemporaryDirectory() as folder:
            path = os.path.join(folder, "names.tsv")
            with open(path, "w", encoding="utf-8") as file:
                file.write(names)
            words = ["ask", theory_of("stock"), lines_of("stock"), "at 4 in_stock(_)"]
            done = subprocess.run(
                [IN_PLACE, *words, "--names", path, "--program", program()],
                env={**os.environ, "PYTHONIOENCODING": "ascii"},
                stdout=subprocess.PIPE,
            )
        told = done.stdout.decode("utf-8")
        self.assertEqual(told, "in_stock(Mehl für Öfen)\nin_stock(sugar)\n")


class Faults(unittest.TestCase):
    def test_a_program_that_is_none(self) -> None:
        words = ["ask", theory_of("stock"), lines_of("stock"), "events"]
        done = subprocess.run(
            [IN_PLACE, *words, "--program", "/no/ec"], stderr=subprocess.PIPE
        )
        self.assertEqual(done.returncode, 2)
        self.assertIn(b"--program names /no/ec, which is no program", done.stderr)

    def test_names_that_are_not_there(self) -> None:
        words = ["ask", theory_of("stock"), lines_of("stock"), "events"]
        ran = run(*words, "--names", "/no/names.tsv")
        self.assertEqual(ran.status, 2)
        self.assertIn("/no/names.tsv can't be read", ran.errors)

    def test_a_theory_with_a_fault(self) -> None:
        with tempfile.TemporaryDirectory() as folder:
            path = os.path.join(folder, "x.ec")
            with open(path, "w", encoding="ascii") as file:
                file.write("initiates a b.\ninitiates a(X) b(Y).\n")
            ran = run("ask", path, lines_of("stock"), "events")
        self.assertEqual(ran.status, 2)
        self.assertIn("x.ec:2: the theory is not accepted: clause 2:", ran.errors)


class Dates(unittest.TestCase):
    def test_an_origin_needs_a_unit(self) -> None:
        words = ["ask", theory_of("stock"), lines_of("stock"), "events"]
        ran = run(*words, "--origin", "2024-01-01")
        self.assertIn("--origin needs --unit", ran.errors)
        ran = run(*words, "--unit", "date", "--origin", "2024-01-01")
        self.assertIn("the unit date has no origin: leave --origin out", ran.errors)
        ran = run(*words, "--unit", "day", "--origin", "May")
        self.assertIn("a date is expected, as 2024-03-03", ran.errors)


if __name__ == "__main__":
    unittest.main()
