"""The wheel that pip installs: it is built without a network, and runs."""

import csv
import io
import os
import subprocess
import sys
import tempfile
import unittest
import zipfile

from .setting import TOP, program, theory_of

COMPANION = TOP / "companion"
BUILD = "import plain_wheel, sys; print(plain_wheel.build_wheel(sys.argv[1]))"


class TheWheel(unittest.TestCase):
    def built(self, folder: str) -> str:
        done = subprocess.run(
            [sys.executable, "-c", BUILD, folder],
            env={**os.environ, "PYTHONPATH": str(COMPANION / "packaging")},
            stdout=subprocess.PIPE,
            check=True,
        )
        return os.path.join(folder, done.stdout.decode().strip())

    def test_all_modules_are_in_it(self) -> None:
        with tempfile.TemporaryDirectory() as folder:
            with zipfile.ZipFile(self.built(folder)) as wheel:
                names = set(wheel.namelist())
                (record,) = (name for name in names if name.endswith("/RECORD"))
                rows = list(csv.reader(io.StringIO(wheel.read(record).decode())))
                (about,) = (name for name in names if name.endswith("/METADATA"))
                self.assertIn("Name: ec_history\n", wheel.read(about).decode())
        modules = {
            f"ec_history/{p.name}" for p in (COMPANION / "ec_history").glob("*.py")
        }
        self.assertTrue(modules <= names)
        self.assertEqual({row[0] for row in rows}, names)
        self.assertTrue(all(len(row) == 3 for row in rows))

    def test_it_runs(self) -> None:
        with tempfile.TemporaryDirectory() as folder:
            wheel = self.built(folder)
            words = ["ask", theory_of("stock"), os.devnull, "at 4 in_stock(_)"]
            done = subprocess.run(
                [sys.executable, "-m", "ec_history", *words, "--program", program()],
                cwd=folder,
                env={**os.environ, "PYTHONPATH": wheel},
                stdout=subprocess.PIPE,
            )
        self.assertEqual(done.stdout, b"in_stock(flour)\nin_stock(sugar)\n")


if __name__ == "__main__":
    unittest.main()
