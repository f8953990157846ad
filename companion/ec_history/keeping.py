"""`ec-history keep`: a history that outlives its process.

The line language on standard input and output, or for several clients at once, over an
SQLite database that has each accepted update before its `ok` is handed on.
"""

from __future__ import annotations

import argparse
import os
import sys
from datetime import datetime
from pathlib import Path
from typing import List, Optional, Tuple, Union

from .cutting import Cutter, words_of
from .database import Database, DatabaseFault
from .errors import HistoryError
from .keeper import REFUSED_LONG, REFUSED_SYNTAX, REFUSED_TORN, Answer, Keeper, Request
from .lines import LONGEST_LINE, session_of
from .locks import Lock
from .moments import CIVIL
from .program import add_program, find_program
from .theory_faults import check, fault_finding

EXAMPLE = """\
example:
  ec-history keep desk.db --theory examples/loans.ec < today.lines
  ec-history keep desk.db --listen /run/user/1000/desk.sock
  ec-history keep desk.db --export > all.lines

The first run names the theory, which the file then keeps. An update is on the disk
before its `ok` is written. A last line without a line feed is refused, since a line
that was cut off is another line.
"""
_PIECE = 1 << 16


def add_parser(subparsers: argparse._SubParsersAction) -> None:
    """Adds the words of the command."""
    parser = subparsers.add_parser(
        "keep",
        help="keep a history in an SQLite file, for one or several clients",
        description="Answers the lines of ec, and keeps each accepted update in FILE.",
        epilog=EXAMPLE,
        formatter_class=argparse.RawDescriptionHelpFormatter,
    )
    parser.add_argument("file", metavar="FILE", help="the SQLite database")
    parser.add_argument(
        "--theory", metavar="THEORY", help="the theory, needed the first time alone"
    )
    what = parser.add_mutually_exclusive_group()
    what.add_argument(
        "--listen",
        metavar="AT",
        help="serve clients at a Unix socket (a path) or a port of the loopback",
    )
    what.add_argument(
        "--as-of",
        metavar="TIME",
        help="answer from the updates told by then, as 2024-03-04T10:00:00Z (UTC), and "
        "take no updates",
    )
    what.add_argument(
        "--check", action="store_true", help="verify the file, and play its updates"
    )
    what.add_argument(
        "--export", action="store_true", help="write the updates as lines of ec"
    )
    what.add_argument("--backup", metavar="TO", help="copy the file, also while in use")
    parser.add_argument(
        "--events",
        action="store_true",
        help="with --export: the present events alone, an `assert` line each",
    )
    add_program(parser)
    parser.set_defaults(run=run)


def run(args: argparse.Namespace) -> int:
    """Carries out the command; 1 where --check finds a fault."""
    if args.events and not args.export:
        raise HistoryError("--events goes with --export")
    if args.backup is not None:
        return _back_up(args.file, args.backup)
    if args.check:
        return _check(args.file, find_program(args.program))
    if args.export and not args.events:
        return _export(args.file)
    if args.export:
        return _export_events(args.file, find_program(args.program))
    if args.as_of is not None:
        return _past(args.file, args.as_of, find_program(args.program))
    return _keep(args)


def _keep(args: argparse.Namespace) -> int:
    program = find_program(args.program)
    lock = Lock(args.file)
    try:
        database = _opened(args.file, args.theory, program)
        keeper = Keeper(database, program)
        try:
            if args.listen is None:
                serve(keeper, sys.stdin.fileno(), sys.stdout.fileno())
            else:
                from .listening import listen

                listen(keeper, args.listen, lock.tell)
        finally:
            keeper.close()
            database.close()
    finally:
        lock.release()
    return 0


def _opened(path: str, theory_path: Optional[str], program: str) -> Database:
    """The database of a path, made where it is not there and a theory is named."""
    theory = None
    if theory_path is not None:
        try:
            theory = Path(theory_path).read_bytes()
        except OSError as fault:
            text = f"{theory_path}: can't be read: {fault.strerror}"
            raise HistoryError(text) from None
    if theory is not None and not (os.path.exists(path) and os.path.getsize(path)):
        assert theory_path is not None
        refused = check(program, theory_path)
        if refused is not None:
            finding = fault_finding(theory_path, refused)
            raise HistoryError(f"{finding.path}:{finding.line}: {finding.text}")
        return Database.create(path, theory)
    database = Database.open(path, writing=True)
    if theory is not None and theory != database.theory():
        raise DatabaseFault(
            f"{path} keeps another theory than {theory_path}. A kept theory stays; for "
            "another one keep the exported lines in a new file"
        )
    database.theory()
    return database


class Conversation:
    """Bytes of lines with prefixes to bytes of replies, for one input and output."""

    def __init__(self, keeper: Keeper) -> None:
        self.keeper = keeper
        self.cutter = Cutter()
        self.ended = False

    def feed(self, piece: bytes) -> bytes:
        """The replies to the lines that end in a piece."""
        return self._answered(self.cutter.feed(piece))

    def end(self) -> bytes:
        """The reply to a last line that has no end."""
        rest = self.cutter.end()
        if rest is None or self.ended or not words_of(rest):
            return b""
        return REFUSED_TORN.reply + b"\n"

    def _answered(self, lines: List[bytes]) -> bytes:
        asked: List[Tuple[bytes, Union[Request, Answer]]] = []
        for line in lines:
            if self.ended:
                break
            found = self._request(line)
            if found is not None:
                asked.append(found)
        requests = [what for _, what in asked if isinstance(what, Request)]
        answers = iter(self.keeper.round(requests) if requests else ())
        pieces = []
        for prefix, what in asked:
            answer = next(answers) if isinstance(what, Request) else what
            pieces += [prefix, answer.reply, b"\n"]
            for _, note in answer.notes:
                pieces += [note, b"\n"]
        return b"".join(pieces)

    def _request(self, line: bytes) -> Optional[Tuple[bytes, Union[Request, Answer]]]:
        """What a line asks, with the prefix of its reply; None for a silent one."""
        if len(line) > LONGEST_LINE:
            return b"", REFUSED_LONG
        words = words_of(line)
        if not words or words[0].startswith(b"%"):
            return None
        session: Optional[int] = 0
        prefix = b""
        if words[0].startswith(b"@"):
            session = session_of(words[0])
            if session is None:
                return b"", REFUSED_SYNTAX
            prefix, words = b"@%d " % session, words[1:]
        if not words:
            return prefix, REFUSED_SYNTAX
        if words == [b"quit"]:
            self.ended = True
            return prefix, Answer(b"bye")
        assert session is not None
        return prefix, self.keeper.command(session, words)


def serve(keeper: Keeper, source: int, sink: int) -> None:
    """Answers the lines of a file descriptor up to its end or `quit`."""
    conversation = Conversation(keeper)
    while not conversation.ended:
        piece = os.read(source, _PIECE)
        _write(sink, conversation.feed(piece) if piece else conversation.end())
        if not piece:
            return


def _write(sink: int, content: bytes) -> None:
    view = memoryview(content)
    while view:
        view = view[os.write(sink, view) :]


def _back_up(path: str, to: str) -> int:
    database = Database.open(path)
    database.back_up(to)
    database.close()
    copy = Database.open(to)
    print(f"ec-history: {copy.count:,} updates are in {to}", file=sys.stderr)
    copy.close()
    return 0


def _check(path: str, program: str) -> int:
    """Verifies the file, and plays its updates; 1 where something is wrong."""
    try:
        database = Database.open(path)
        faults = database.faults()
        if not faults:
            Keeper(database, program).close()
    except HistoryError as fault:
        faults = [str(fault)]
    for text in faults:
        print(f"{path}: {text}")
    if not faults:
        told = f", the last told {database.last_told}" if database.count else ""
        print(f"{path}: {database.count:,} updates{told}: all is as it should be")
    return 1 if faults else 0


def _export(path: str) -> int:
    database = Database.open(path)
    for update in database.updates():
        prefix = f"@{update.session} " if update.session else ""
        for line in update.lines.split("\n"):
            sys.stdout.write(f"{prefix}{line}\n")
    database.close()
    return 0


def _export_events(path: str, program: str) -> int:
    """Writes the events that are present, by `ec`'s own list of them."""
    database = Database.open(path)
    keeper = Keeper(database, program)
    (answer,) = keeper.round([Request(0, b"events", b"events")])
    words = answer.reply.decode("ascii").split(" ")[1:]
    for row in zip(words[::3], words[1::3], words[2::3]):
        sys.stdout.write(f"assert {' '.join(row)}\n")
    keeper.close()
    database.close()
    return 0


def _past(path: str, text: str, program: str) -> int:
    """Answers lines from the updates told by an instant."""
    instant = CIVIL.read(text)
    assert isinstance(instant, datetime)
    database = Database.open(path)
    most = database.count_by(instant)
    print(
        f"ec-history: {most:,} of {database.count:,} updates were told by {text}",
        file=sys.stderr,
    )
    keeper = Keeper(database, program, most)
    try:
        serve(keeper, sys.stdin.fileno(), sys.stdout.fileno())
    finally:
        keeper.close()
        database.close()
    return 0
