"""Histories for the tests: the examples, and drawn ones under a theory of all kinds."""

from __future__ import annotations

import contextlib
import os
import random
import tempfile
from typing import Iterator, List

from ec_history.client import Server
from ec_history.history import History, tell

from .setting import lines_of, program, theory_of

THEORY = """\
initially at(ann,home).
initially open(shop).
initiates  move(Who, Place)   at(Who, Place) if open(Place), not banned(Who, Place).
initiates  move(Who, Place)   seen(Who, Place) if Who != cat.
terminates leave(Who, Place)  at(Who, Place).
exclusive  at(Who, Place)     at(Who, Other).
initiates  unlock(Place)      open(Place).
terminates lock(Place)        open(Place) if open(Place).
initiates  ban(Who, Place)    banned(Who, Place) if at(Who, Place).
terminates pardon(Who, _)     banned(Who, shop).
initiates  pay(Who, Sum)      card(Who) if 10 <= Sum, not banned(Who, shop).
terminates expire(Who)        card(Who).
strong card/1.
initiates  call(Who)          reached(Who) if at(Who, home), card(Who).
terminates leave(Who, home)   reached(Who).
"""
PEOPLE = ("ann", "bob", "cat")
PLACES = ("home", "shop", "park")


def drawn_lines(seed: int, count: int, times: int) -> List[str]:
    """Lines with events in any order about so many times, some taken back."""
    draw = random.Random(seed)
    lines = []
    for number in range(count):
        who, place = draw.choice(PEOPLE), draw.choice(PLACES)
        event = draw.choice(
            [f"move({who},{place})", f"leave({who},{place})"] * 3
            + [f"unlock({place})"] * 3
            + [f"lock({place})", f"ban({who},{place})", f"pardon({who},{place})"]
            + [f"pay({who},{draw.choice((5, 10, 20))})"] * 2
            + [f"expire({who})", f"call({who})", f"call({who})"]
        )
        lines.append(f"assert e{number} {draw.randrange(times)} {event}")
        if draw.random() < 0.1:
            lines.append(f"retract e{draw.randrange(number + 1)}")
    return lines


@contextlib.contextmanager
def example(name: str) -> Iterator[History]:
    """An example, told to `ec`."""
    with Server(theory_of(name), program()) as server:
        tell(server, lines_of(name))
        yield History(server)


@contextlib.contextmanager
def drawn(seed: int, count: int = 60, times: int = 40) -> Iterator[History]:
    """A drawn history, told to `ec`."""
    with written(THEORY, drawn_lines(seed, count, times)) as (theory, lines):
        with Server(theory, program()) as server:
            tell(server, lines)
            yield History(server)


@contextlib.contextmanager
def written(theory: str, lines: List[str]) -> Iterator["tuple[str, str]"]:
    """The paths of a theory and of lines, for as long as the block runs."""
    with tempfile.TemporaryDirectory() as folder:
        paths = os.path.join(folder, "drawn.ec"), os.path.join(folder, "drawn.lines")
        for path, text in zip(paths, (theory, "".join(line + "\n" for line in lines))):
            with open(path, "w", encoding="utf-8") as file:
                file.write(text)
        yield paths
