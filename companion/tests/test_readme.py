"""The README: its files are the example's, and its commands write what it says."""

import os
import re
import shutil
import subprocess
import sys
import tempfile
import unittest
from typing import List, Tuple

from .setting import TOP, program

COMPANION = TOP / "companion"
README = (COMPANION / "README.md").read_text(encoding="utf-8")
BLOCK = re.compile(r"^```(\w+) ?(\S*)\n(.*?)^```$", re.MULTILINE | re.DOTALL)


def commands() -> List[Tuple[str, str]]:
    """The commands of the README's consoles, each with what it writes."""
    found: List[Tuple[str, str]] = []
    for kind, _, text in BLOCK.findall(README):
        for line in text.splitlines() if kind == "console" else ():
            if line.startswith("$ "):
                found.append((line[2:], ""))
            else:
                found[-1] = (found[-1][0], f"{found[-1][1]}{line}\n")
    return found


class Readme(unittest.TestCase):
    def test_its_files_are_those_of_the_example(self) -> None:
        files = [(name, text) for _, name, text in BLOCK.findall(README) if name]
        self.assertEqual(
            [name for name, _ in files], ["beds.csv", "beds.ec", "beds.toml"]
        )
        for name, text in files:
            written = (COMPANION / "example" / name).read_text(encoding="utf-8")
            self.assertEqual(written, text, name)

    @unittest.skipIf(sys.version_info < (3, 11), "this python3 reads no TOML")
    def test_its_commands_write_what_it_says(self) -> None:
        environment = {**os.environ, "EC_PROGRAM": program(), "PYTHONUTF8": "1"}
        environment["PATH"] = f"{COMPANION}{os.pathsep}{environment['PATH']}"
        with tempfile.TemporaryDirectory() as folder:
            for name in ("beds.csv", "beds.ec", "beds.toml"):
                shutil.copy(COMPANION / "example" / name, folder)
            for command, wanted in commands():
                done = subprocess.run(
                    ["sh", "-c", command],
                    cwd=folder,
                    env=environment,
                    stdout=subprocess.PIPE,
                    stderr=subprocess.STDOUT,
                )
                self.assertEqual(done.stdout.decode("utf-8"), wanted, command)
                self.assertEqual(done.returncode, 0, command)
            with open(os.path.join(folder, "beds.svg"), encoding="utf-8") as file:
                drawn = file.read()
        kept = (COMPANION / "example" / "beds.svg").read_text(encoding="utf-8")
        self.assertEqual(drawn, kept, "draw the picture of the README anew")

    def test_its_python_prints_what_it_says(self) -> None:
        (text,) = [text for kind, _, text in BLOCK.findall(README) if kind == "python"]
        done = subprocess.run(
            [sys.executable, "-c", text],
            cwd=COMPANION,
            env={**os.environ, "EC_PROGRAM": program()},
            stdout=subprocess.PIPE,
        )
        told = done.stdout.decode("utf-8").splitlines()
        wanted = re.findall(r"print\(.*?# (.*)", text)
        for line, beginning in zip(told, wanted):
            self.assertTrue(line.startswith(beginning.rstrip(". ")), line)
        self.assertEqual((done.returncode, len(told)), (0, len(wanted)))


if __name__ == "__main__":
    unittest.main()
