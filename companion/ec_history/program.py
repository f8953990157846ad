"""Finds the program `ec`."""

from __future__ import annotations

import argparse
import os
import shutil
from pathlib import Path
from typing import Optional

from .errors import HistoryError


class NoProgram(HistoryError):
    """The program `ec` was not found."""


def built_beside() -> Path:
    """Where the program stands that is built beside this package."""
    return Path(__file__).resolve().parents[2] / "crates" / "ec" / "out" / "ec"


def find_program(named: Optional[str] = None) -> str:
    """The path of `ec`: the named one, else EC_PROGRAM, else the one built beside this
    package, else `ec` on the PATH. Raises `NoProgram` where there is none.
    """
    for source, path in (("--program", named), ("EC_PROGRAM", _from_environment())):
        if path is not None:
            found = shutil.which(path)
            if found is None:
                raise NoProgram(
                    f"{source} names {path}, which is no program that can be run"
                )
            return os.path.abspath(found)
    beside = built_beside()
    if os.access(beside, os.X_OK) and beside.is_file():
        return str(beside)
    found = shutil.which("ec")
    if found is None:
        raise NoProgram(
            "the program ec was not found. Build it by `./ec check THEORY`, or name it "
            "by --program PATH or by EC_PROGRAM"
        )
    return os.path.abspath(found)


def _from_environment() -> Optional[str]:
    return os.environ.get("EC_PROGRAM") or None


def add_program(parser: argparse.ArgumentParser) -> None:
    """Adds `--program PATH`, which each command has."""
    parser.add_argument(
        "--program",
        metavar="PATH",
        help="the program ec (else EC_PROGRAM, the one built beside, or that on PATH)",
    )
