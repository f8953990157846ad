"""A part's lines played into an `ec` of its own, all at once.

The lines were made by `ec-history import`, so that each has a reply, and no more than
whether one was refused is looked at: that takes little beside what `ec` takes.
"""

from __future__ import annotations

from typing import NamedTuple, Optional, Tuple

from .client import Server
from .refusals import refusal_words


class Refused(NamedTuple):
    """The first line that was refused, by its number from 1, and the reply to it."""

    line: int
    reply: str

    @property
    def is_full(self) -> bool:
        """Whether a limit was the cause."""
        return " full-" in self.reply

    def words(self) -> str:
        """Why it was refused."""
        code, *detail = self.reply.partition("refused ")[2].split(" ")
        if code == "commit":
            code, *detail = detail[1:]
        return refusal_words(code, detail[0] if detail else None)


def play(server: Server, content: bytes) -> Optional[Refused]:
    """Plays lines; answers what was refused of them."""
    replies = server.pour(content)
    if b"refused" not in replies:
        return None
    return next(
        Refused(number, reply.decode("latin-1"))
        for number, reply in enumerate(replies.split(b"\n"), 1)
        if reply.startswith(b"refused")
    )


def first_refused(job: Tuple[str, str, str]) -> Optional[Refused]:
    """Plays the lines of a file under a theory, by a program that then ends."""
    program, theory, lines = job
    with open(lines, "rb") as file, Server(theory, program) as server:
        return play(server, file.read())
