"""Runs a command of ec-history as the tests do."""

from __future__ import annotations

import contextlib
import io
from typing import NamedTuple

from ec_history.cli import main

from .setting import program


class Ran(NamedTuple):
    """What a command answered and wrote."""

    status: int
    output: str
    errors: str


def run(*words: str) -> Ran:
    """Runs a command with these words, and with the program that the tests run."""
    output, errors = io.StringIO(), io.StringIO()
    with contextlib.redirect_stdout(output), contextlib.redirect_stderr(errors):
        try:
            status = main([*words, "--program", program()])
        except SystemExit as end:  # argparse ends so
            status = int(end.code or 0)
    return Ran(status, output.getvalue(), errors.getvalue())
