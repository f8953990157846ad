"""Work in several processes of this machine, side by side."""

from __future__ import annotations

from concurrent.futures import ProcessPoolExecutor
from concurrent.futures.process import BrokenProcessPool
from itertools import repeat
from typing import Callable, Generator, Sequence, TypeVar

from .errors import HistoryError

Item = TypeVar("Item")
Result = TypeVar("Result")


def in_processes(
    work: Callable[[Item], Result], items: Sequence[Item], count: int
) -> Generator[Result, None, None]:
    """The results of some work on each item, in order, by at most so many processes.

    Who takes no more results has the work that was not begun left out.
    """
    with ProcessPoolExecutor(min(count, len(items))) as pool:
        try:
            yield from pool.map(plainly, repeat(work), items)  # type: ignore[misc]
        except BrokenProcessPool:
            raise HistoryError(
                "a process was ended within its work, maybe because memory ran out: "
                "take fewer by --processes"
            ) from None
        finally:
            pool.shutdown(cancel_futures=True)


def plainly(work: Callable[..., Result], *words: object) -> Result:
    """Does some work for another process, which is told a fault by its words alone."""
    try:
        return work(*words)
    except HistoryError as fault:
        raise HistoryError(str(fault)) from None
