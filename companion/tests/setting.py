"""What the tests share: where things stand, and which `ec` they run."""

from __future__ import annotations

import os
from pathlib import Path
from typing import List

from ec_history.program import NoProgram, find_program

TOP = Path(__file__).resolve().parents[2]
"""The folder of the whole project."""
EXAMPLES = TOP / "examples"


def program() -> str:
    """The program that the tests run. Without one they fail, and say what to do."""
    try:
        return find_program()
    except NoProgram as fault:
        raise AssertionError(f"the tests need the program ec: {fault}") from None


def example_names() -> List[str]:
    """The names of the examples, which have a theory, lines and replies each."""
    return sorted(path.stem for path in EXAMPLES.glob("*.lines"))


def theory_of(name: str) -> str:
    """The path of an example's theory."""
    return os.fspath(EXAMPLES / f"{name}.ec")


def lines_of(name: str) -> str:
    """The path of an example's lines."""
    return os.fspath(EXAMPLES / f"{name}.lines")
