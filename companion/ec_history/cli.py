"""The words of the command line, and which module carries out each of them."""

from __future__ import annotations

import argparse
import io
import os
import sys
from typing import List, Optional

from . import asking, drawing, explaining, importing, keeping, linting, splitting
from .errors import HistoryError

COMMANDS = (importing, linting, asking, drawing, explaining, keeping, splitting)
"""The modules of the commands; each has `add_parser(subparsers)` and `run(args)`."""

DESCRIPTION = """\
A companion to ec: it turns people's own data into lines, tells what is wrong with
lines and theories, and asks, draws and explains what they say. All answers are those
of the program ec, which it runs; it proves nothing itself."""


def parser_of_commands() -> argparse.ArgumentParser:
    """The parser of all commands. The chosen one stands under `run`."""
    parser = argparse.ArgumentParser(prog="ec-history", description=DESCRIPTION)
    subparsers = parser.add_subparsers(metavar="COMMAND", required=True)
    for command in COMMANDS:
        command.add_parser(subparsers)
    return parser


def main(words: Optional[List[str]] = None) -> int:
    """Carries out a command; answers the status that the process ends with.

    0 where all went well, 1 where a command has findings, 2 where the words, a file or
    `ec` is at fault (a message on standard error says what to do), 130 on Ctrl-C.
    """
    args = parser_of_commands().parse_args(words)
    _choose_encodings()
    try:
        status: int = args.run(args)
        sys.stdout.flush()
        return status
    except HistoryError as fault:
        print(f"ec-history: {fault}", file=sys.stderr)
        return 2
    except BrokenPipeError:
        # whoever read the output has gone; nothing is written any more
        os.dup2(os.open(os.devnull, os.O_WRONLY), sys.stdout.fileno())
        return 0
    except KeyboardInterrupt:
        return 130


def _choose_encodings() -> None:
    """Writes UTF-8 to files and pipes, and to a terminal what it can show."""
    for stream in (sys.stdout, sys.stderr):
        if isinstance(stream, io.TextIOWrapper):
            if stream.isatty():
                stream.reconfigure(errors="replace")
            else:
                stream.reconfigure(encoding="utf-8")
