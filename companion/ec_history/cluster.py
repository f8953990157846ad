"""A cluster of Dask that works on the parts of a history.

Dask decides which worker has which part, sends each question to it, and when a worker
dies has its parts loaded by others and the question asked again. A part that is loaded
is a result on its worker like any other; to move it is to load it again. Its `ec` ends
once no question has come for a while, and is started again with the next.
"""

from __future__ import annotations

import threading
from typing import Any, Callable, Iterator, List, Optional, Sequence, Tuple

from .errors import HistoryError
from .parts import Parts
from .workers import LoadedPart, Work, Workers, worked

IDLE_SECONDS = 600.0
"""So long an `ec` is kept for the next question."""


class KeptPart:
    """A part on a worker, whose `ec` is kept while questions come."""

    def __init__(self, words: Tuple[Optional[str], str, str, int]) -> None:
        self._words = words
        self._part = LoadedPart(*words)
        self._asking = threading.Lock()
        self._end: Optional[threading.Timer] = None

    def __reduce__(self) -> Tuple[Callable[..., "KeptPart"], Tuple[object]]:
        return KeptPart, (self._words,)

    def ask(self, work: Work, words: Sequence[object]) -> List[Any]:
        """What some work finds in the part."""
        with self._asking:
            if self._end is not None:
                self._end.cancel()
            try:
                return worked(self._part, work, *words)
            except BaseException:
                self._part.close()
                raise
            finally:
                self._end = threading.Timer(IDLE_SECONDS, self._close)
                self._end.daemon = True
                self._end.start()

    def _close(self) -> None:
        with self._asking:
            self._part.close()

    def __del__(self) -> None:
        if self._end is not None:
            self._end.cancel()
        self._part.close()


def ask(part: KeptPart, work: Work, words: Sequence[object]) -> List[Any]:
    """What some work finds in a part that a worker has."""
    return part.ask(work, words)


class Cluster(Workers):
    """The workers of a Dask scheduler at an address."""

    def __init__(self, address: str, program: Optional[str] = None) -> None:
        try:
            import distributed
        except ImportError:
            raise HistoryError(
                "--on needs Dask: install python3-distributed, or `pip install "
                "ec_history[cluster]`"
            ) from None
        try:
            self._client = distributed.Client(address, timeout=10)
        except (OSError, ValueError) as fault:
            raise HistoryError(f"no scheduler answers at {address}: {fault}") from None
        self._distributed = distributed
        self.program = program

    def each(
        self, parts: Parts, numbers: Sequence[int], work: Work, *words: object
    ) -> Iterator[List[Any]]:
        futures = [
            self._client.submit(ask, part, work, words, pure=False)
            for part in self._kept(parts, numbers)
        ]
        try:
            for future in futures:
                yield future.result()
        except self._distributed.KilledWorker as fault:
            raise HistoryError(
                f"a part was given up, as each worker that had it died: {fault}"
            ) from None

    def _kept(self, parts: Parts, numbers: Sequence[int]) -> List[Any]:
        """The parts on their workers, which stay there when this process ends."""
        name = f"ec-history {parts.path} {parts.digest} {self.program or ''}"
        try:
            kept = self._client.get_dataset(name)
        except KeyError:
            described = [
                (self.program, parts.path, parts.digest, at)
                for at in range(parts.count)
            ]
            kept = self._client.map(KeptPart, described, pure=False)
            try:
                self._client.publish_dataset(kept, name=name)
            except KeyError:  # another has just done so
                kept = self._client.get_dataset(name)
        return [kept[at] for at in numbers]

    def __exit__(self, *_: object) -> None:
        self._client.close()
