"""What the commands share that ask about a theory and a file of lines."""

from __future__ import annotations

import argparse
import os
import sys
from typing import TYPE_CHECKING, Optional

from .errors import HistoryError, TermError
from .history import doubt
from .program import add_program, find_program
from .terms import Pattern
from .theory import Theory
from .theory_faults import check, fault_finding

if TYPE_CHECKING:
    SubParsers = argparse._SubParsersAction[argparse.ArgumentParser]
    Arguments = argparse._ActionsContainer
else:
    Arguments = object
    SubParsers = argparse._SubParsersAction


def add_history(parser: argparse.ArgumentParser) -> None:
    """Adds the theory, the lines and the program."""
    parser.add_argument("theory", metavar="THEORY", help="the theory's file")
    parser.add_argument(
        "lines",
        metavar="LINES",
        help="the file of lines (- is standard input), or a folder of parts",
    )
    add_program(parser)


def add_processes(parser: Arguments) -> None:
    """Adds how many parts are answered side by side."""
    parser.add_argument(
        "--processes",
        type=_process_count,
        metavar="N",
        default=os.cpu_count() or 1,
        help="how many parts are played side by side (as many as there are processors)",
    )


def _process_count(text: str) -> int:
    if not text.isdigit() or int(text) < 1:
        raise argparse.ArgumentTypeError(f"{text}: a number from 1 is expected")
    return int(text)


def add_workers(parser: Arguments) -> None:
    """Adds who answers about a history in parts."""
    add_processes(parser)
    parser.add_argument(
        "--on",
        metavar="ADDRESS",
        help="have a cluster of Dask answer, whose scheduler is there; the folder must "
        "have the same path on all its machines",
    )


def accepted_theory(path: str, program: Optional[str]) -> Theory:
    """The theory of a file. Raises HistoryError where `ec` does not accept it."""
    try:
        refused = check(find_program(program), path)
    except OSError as fault:
        raise HistoryError(f"{path} can't be read: {fault.strerror}") from None
    if refused is not None:
        raise HistoryError(str(fault_finding(path, refused)))
    return Theory.read(path)


def tell_doubt(theory: Theory, pattern: Optional[Pattern]) -> None:
    """Says on standard error where no property can fit a pattern."""
    words = None if pattern is None else doubt(theory, pattern)
    if words is not None:
        print(f"ec-history: {words}", file=sys.stderr)


def read_pattern(text: str) -> Optional[Pattern]:
    """The pattern of a word of the command line; None for `_`, which fits all."""
    if text == "_":
        return None
    try:
        return Pattern.parse(text)
    except TermError as fault:
        raise HistoryError(
            f"{fault}. A property is asked as in(bed7,ann); _ stands for anything"
        ) from None
