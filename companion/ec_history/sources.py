"""What questions are asked of: a file of lines, or a folder of parts.

Either finds rows by some work, which is a function of a `History`. A file is one
history; of a folder each part is one, and is worked on by a process or a machine of its
own.
"""

from __future__ import annotations

import argparse
import contextlib
import sys
from typing import Any, Callable, Iterable, Iterator, List, Optional, Protocol

from .client import Server
from .errors import HistoryError
from .history import History, tell
from .moments import Clock
from .parts import Parts, is_parts, open_parts
from .progress import Progress
from .terms import Pattern
from .theory import Theory
from .workers import Processes, Workers

Work = Callable[..., Iterable[Any]]


class Source(Protocol):
    """A history that may be in parts."""

    theory: Theory
    clock: Clock

    def rows(
        self, kind: str, pattern: Optional[Pattern], work: Work, *words: object
    ) -> List[Iterable[Any]]:
        """What `work(history, *words)` gives, for each history that must be asked.

        The properties (or events, by `kind`) that are wanted fit the pattern.
        """


class InParts:
    """A folder of parts, and those who work on them."""

    def __init__(self, parts: Parts, workers: Workers) -> None:
        self.parts = parts
        self.workers = workers
        self.theory = parts.theory
        self.clock = parts.theory.clock

    def rows(
        self, kind: str, pattern: Optional[Pattern], work: Work, *words: object
    ) -> List[Iterable[Any]]:
        """As `Source.rows`, for the parts that have what fits the pattern."""
        numbers = self.parts.asked(kind, pattern)
        found: List[Iterable[Any]] = []
        with Progress("parts answered") as progress:
            for rows in self.workers.each(self.parts, numbers, work, *words):
                found.append(rows)
                progress.step()
        return found


@contextlib.contextmanager
def source_of(args: argparse.Namespace) -> Iterator[Source]:
    """The history of the theory and the lines that the words name.

    Warns on standard error of lines that were refused or not read.
    """
    if is_parts(args.lines):
        parts = open_parts(args.lines, args.theory)
        with workers_of(args) as workers:
            yield InParts(parts, workers)
        return
    if args.on is not None:
        raise HistoryError(f"--on goes with a folder of parts; {args.lines} is none")
    try:
        server = Server(args.theory, args.program)
    except OSError as fault:
        raise HistoryError(f"{args.theory} can't be read: {fault.strerror}") from None
    with server:
        for warning in tell(server, args.lines).warnings():
            print(f"ec-history: {warning}", file=sys.stderr)
        yield History(server)


@contextlib.contextmanager
def workers_of(args: argparse.Namespace) -> Iterator[Workers]:
    """Those whom the words choose to work on parts."""
    if args.on is None:
        with Processes(args.program, args.processes) as processes:
            yield processes
        return
    from .cluster import Cluster

    with Cluster(args.on, args.program) as cluster:
        yield cluster
