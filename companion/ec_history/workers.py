"""Who works on the parts of a history: several processes of this machine.

(`cluster` has the machines of a cluster.) Each part is loaded into an `ec` of its own.
A worker has one part at a time, so memory does not grow with the whole history.
"""

from __future__ import annotations

from functools import partial
from typing import Any, Callable, Iterable, Iterator, List, Optional, Sequence

from .client import Server
from .errors import HistoryError
from .history import History
from .parts import Parts, open_parts
from .playing import play
from .processes import in_processes, plainly
from .program import find_program
from .replies import Event
from .terms import Term

Work = Callable[..., Iterable[Any]]


class PartHistory(History):
    """The history of a part, which answers for what is its own."""

    def __init__(self, server: Server, parts: Parts, number: int) -> None:
        super().__init__(server)
        self.parts = parts
        self.number = number

    def owns_property(self, term: Term) -> bool:
        return self.parts.owns_property(self.number, term)

    def own_events(self) -> Iterable[Event]:
        owns = self.parts.owns_event
        return (event for event in self.events if owns(self.number, event.term))


class LoadedPart:
    """A part, and the `ec` that it is loaded into once it is asked.

    `digest` is that of the folder, so that no other history answers in its place.
    """

    def __init__(
        self, program: Optional[str], path: str, digest: str, number: int
    ) -> None:
        self.program = program
        self.path = path
        self.digest = digest
        self.number = number
        self._history: Optional[PartHistory] = None

    def history(self) -> PartHistory:
        """The history of the part, whose `ec` runs until `close`."""
        if self._history is None:
            parts = open_parts(self.path)
            if parts.digest != self.digest:
                raise HistoryError(f"{self.path} holds another history here than asked")
            content = parts.lines(self.number)
            server = Server(parts.theory_path, find_program(self.program))
            refused = play(server, content)
            if refused is not None:
                server.kill()
                raise HistoryError(
                    f"{parts.lines_path(self.number)}: line {refused.line:,} was "
                    f"refused: {refused.words()}"
                )
            self._history = PartHistory(server, parts, self.number)
        return self._history

    def close(self) -> None:
        """Ends its `ec`, if it runs."""
        if self._history is not None:
            history, self._history = self._history, None
            history.server.kill()


def worked(part: LoadedPart, work: Work, *words: object) -> List[Any]:
    """What some work finds in a part. Faults are told by their words alone."""
    return plainly(lambda: list(work(part.history(), *words)))


def loaded_and_worked(
    program: Optional[str], parts: Parts, work: Work, words: Sequence[object], at: int
) -> List[Any]:
    """Loads a part, works on it, and lets it go."""
    part = LoadedPart(program, parts.path, parts.digest, at)
    try:
        return worked(part, work, *words)
    finally:
        part.close()


class Workers:
    """Those who work on parts."""

    def each(
        self, parts: Parts, numbers: Sequence[int], work: Work, *words: object
    ) -> Iterator[List[Any]]:
        """What `work(history, *words)` gives, for each of these parts, in order."""
        raise NotImplementedError

    def __enter__(self) -> "Workers":
        return self

    def __exit__(self, *_: object) -> None:
        pass


class Processes(Workers):
    """Several processes of this machine."""

    def __init__(self, program: Optional[str] = None, count: int = 1) -> None:
        self.program = program
        self.count = count

    def each(
        self, parts: Parts, numbers: Sequence[int], work: Work, *words: object
    ) -> Iterator[List[Any]]:
        job = partial(loaded_and_worked, self.program, parts, work, words)
        if len(numbers) == 1:
            yield job(numbers[0])
            return
        yield from in_processes(job, numbers, self.count)


class Here(Workers):
    """This process, which keeps each part loaded until it is closed."""

    def __init__(self, program: Optional[str] = None) -> None:
        self.program = program
        self._loaded: "dict[int, LoadedPart]" = {}

    def each(
        self, parts: Parts, numbers: Sequence[int], work: Work, *words: object
    ) -> Iterator[List[Any]]:
        for at in numbers:
            if at not in self._loaded:
                self._loaded[at] = LoadedPart(
                    self.program, parts.path, parts.digest, at
                )
            yield worked(self._loaded[at], work, *words)

    def __exit__(self, *_: object) -> None:
        for part in self._loaded.values():
            part.close()
        self._loaded.clear()
