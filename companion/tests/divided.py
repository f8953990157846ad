"""Drawn theories and records, told to one `ec` and in parts, and asked the same.

`compare(seed)` answers whether the theory of a seed falls apart; where it does, each
question is answered over its parts and by one program, and they must agree.
`python3 -m tests.divided FROM TO` does so for many seeds.
"""

from __future__ import annotations

import contextlib
import io
import json
import os
import random
import sys
import tempfile
from itertools import chain
from pathlib import Path
from typing import Iterator, List, Tuple

from ec_history.asking import answer
from ec_history.client import Server
from ec_history.dividing import Divider
from ec_history.drawing import _courses
from ec_history.explaining import _nodes
from ec_history.history import History, tell
from ec_history.importing import import_file
from ec_history.keys import PROPERTY, Keys
from ec_history.mapping import read_map
from ec_history.names import Names
from ec_history.sources import InParts, Source
from ec_history.terms import Pattern, Term
from ec_history.theory import Theory
from ec_history.workers import Here
from ec_history.wording import Wording
from tests.setting import program

NAMES = ("ann", "bob", "cid", "dan", "eve")
ARGUMENTS = ("a", "b", "c")
MAP = {
    "key": "r{id}",
    "corrects": "corrects",
    "chain": True,
    "withdrawn": {"state": "void"},
    "time": {"column": "time", "unit": "number"},
    "events": [{"event": "{what}", "when": {"arity": "0"}}]
    + [
        {
            "event": "{what}({%s})" % "},{".join(ARGUMENTS[:arity]),
            "when": {"arity": str(arity)},
        }
        for arity in (1, 2, 3)
    ],
}
HEAD = "id\ttime\tarity\twhat\ta\tb\tc\tcorrects\tstate\n"


class Drawing:
    """Draws a theory with its events; about half of them fall apart."""

    def __init__(self, seed: int) -> None:
        self.draw = random.Random(seed)
        count = self.draw.randint(2, 4)
        self.properties = [(f"p{n}", self.draw.randint(1, 2)) for n in range(count)]
        self.events = [(f"e{n}", self.draw.randint(2, 3)) for n in range(count + 1)]
        self.wild = self.draw.choice((0.0, 0.1, 0.3, 0.5))

    def theory(self) -> str:
        """Rules whose first argument is a key, but for some that are wild."""
        clauses = []
        for _ in range(self.draw.randint(4, 9)):
            event, arity = self.draw.choice(self.events)
            variables = [f"V{n}" for n in range(arity)]
            word = self.draw.choice(("initiates", "initiates", "terminates"))
            head = self.pattern(self.draw.choice(self.properties), variables)
            clause = f"{word} {event}({','.join(variables)}) {head}"
            clauses.append(clause + self.conditions(variables) + ".")
        for _ in range(self.draw.randint(0, 3)):
            name, arity = self.draw.choice(self.properties)
            left = ["K", "X"][:arity]
            right = ["L" if self.is_wild() else "K", "Y"][:arity]
            clauses.append(
                f"exclusive {name}({','.join(left)}) {name}({','.join(right)})."
            )
        if self.draw.random() < 0.3:
            name, arity = self.draw.choice(self.properties)
            clauses.append(f"strong {name}/{arity}.")
        if self.draw.random() < 0.4:
            clauses.append("initiates dawn day.\nterminates dusk day.")
        if self.is_wild():
            clauses.append("initially p0(ann).")
        return "\n".join(clauses) + "\n"

    def is_wild(self) -> bool:
        return self.draw.random() < self.wild

    def pattern(self, form: Tuple[str, int], variables: List[str]) -> str:
        name, arity = form
        first = self.draw.choice(variables) if self.is_wild() else variables[0]
        rest = [self.draw.choice((*variables, "ann")) for _ in range(arity - 1)]
        return f"{name}({','.join([first, *rest])})"

    def conditions(self, variables: List[str]) -> str:
        found = []
        for _ in range(self.draw.choice((0, 0, 1, 1, 2))):
            if self.draw.random() < 0.2:
                found.append(f"{variables[1]} != ann")
            elif self.draw.random() < 0.1:
                found.append("day")
            else:
                literal = self.pattern(self.draw.choice(self.properties), variables)
                found.append(self.draw.choice(("", "not ")) + literal)
        return " if " + ", ".join(found) if found else ""

    def records(self, count: int) -> str:
        """Events in any order; some are corrected, some void, some unknown."""
        rows = []
        for number in range(1, count + 1):
            name, arity = self.draw.choice((*self.events, ("dawn", 0), ("e9", 1)))
            if name == "dawn":
                name = self.draw.choice(("dawn", "dusk"))
            words = [self.draw.choice(NAMES) for _ in range(arity)]
            words += [""] * (3 - arity)
            corrects, state = "", ""
            if number > 3 and self.draw.random() < 0.2:
                corrects = str(self.draw.randrange(1, number))
                state = self.draw.choice(("", "", "void"))
            row = [
                number,
                self.draw.randrange(12),
                arity,
                name,
                *words,
                corrects,
                state,
            ]
            rows.append("\t".join(map(str, row)))
        return HEAD + "".join(f"{row}\n" for row in rows)

    def questions(self) -> Iterator[str]:
        """Questions of all kinds, with and without a key."""
        forms = [*self.properties, ("day", 0), ("none", 1)]
        patterns = ["_"]
        for name, arity in forms:
            for _ in range(2):
                words = [
                    self.draw.choice((*NAMES, "_", "_", "V")) for _ in range(arity)
                ]
                patterns.append(f"{name}({','.join(words)})" if words else name)
        for pattern in patterns:
            early, late = sorted((self.draw.randrange(14), self.draw.randrange(14)))
            yield from (f"at {early} {pattern}", f"holds {pattern} {late}")
            yield from (f"through {pattern} {early} {late}", f"why {pattern} {late}")
            yield from (f"intervals {pattern}", f"broken {pattern}")
            yield f"properties {pattern}"
            if pattern != "_":
                yield f"count {pattern} {late}"
        for name, arity in self.events:
            words = [self.draw.choice((*NAMES, "_", "_")) for _ in range(arity)]
            yield f"events {name}({','.join(words)})"
        yield from ("events", "clashes", "mentions ann", "mentions r3", "mentions e0")
        yield from (f"at {time}" for time in range(13))


def compare(seed: int) -> bool:
    """Whether the theory of a seed falls apart; AssertionError at a difference."""
    drawing = Drawing(seed)
    with tempfile.TemporaryDirectory() as folder, contextlib.ExitStack() as stack:
        paths = [
            os.path.join(folder, n) for n in ("t.ec", "m.json", "r.tsv", "l.lines")
        ]
        texts = drawing.theory(), json.dumps(MAP), drawing.records(30)
        for path, text in zip(paths, texts):
            Path(path).write_text(text)
        theory_path, map_path, records, lines = paths
        split = Keys(Theory.read(theory_path)).split()
        if not split.falls_apart:
            return False
        map_of = read_map(map_path, records)
        told = import_file(map_of, records, Names()).lines
        Path(lines).write_text("".join(f"{line}\n" for line in told))
        server = stack.enter_context(Server(theory_path, program()))
        assert not tell(server, lines).refusals
        whole = History(server)
        divider = Divider(
            theory_path, split, os.path.join(folder, "parts"), program(), 1
        )
        count = drawing.draw.randint(1, 5)
        parts = divider.divide(
            map_of, records, Names(), count, True, lambda: None
        ).parts
        assert parts is not None and parts.count == count
        apart = InParts(parts, stack.enter_context(Here(program())))
        try:
            compare_answers(drawing, whole, apart)
        except AssertionError as fault:
            raise AssertionError(f"seed {seed}: {fault}\n{texts[0]}") from None
    return True


def compare_answers(drawing: Drawing, whole: History, apart: InParts) -> None:
    """Asks both the same; raises AssertionError at a difference."""
    wording = Wording(whole.theory)
    for question in drawing.questions():
        wanted = answer(whole, wording, question)
        told = answer(apart, wording, question)
        assert list(wanted.columns) == list(told.columns)
        assert list(wanted.rows) == list(told.rows), question
    for pattern in ("_", "p0(_,_)", "p1(ann)", "p0(V)"):
        patterns = [pattern, "_"]
        assert _courses(whole, patterns, 5) == _courses(apart, patterns, 5), pattern
    for term in whole.candidates()[:5]:
        for instant in (3, 12):
            asked = term, instant
            assert reason(whole, *asked) == reason(apart, *asked), f"why {asked}"


def reason(source: Source, term: Term, instant: int) -> List[object]:
    """The whole reason of a property."""
    pattern = Pattern(term.name, term.arguments)
    found = source.rows(PROPERTY, pattern, _nodes, term, instant, None)
    return list(chain.from_iterable(found))


def main() -> int:
    """Compares many seeds, and says how many theories fell apart."""
    first, last = map(int, sys.argv[1:3])
    with contextlib.redirect_stderr(io.StringIO()):
        apart = sum(compare(seed) for seed in range(first, last))
    print(f"{last - first} theories: {apart} fall apart, and all answers agree")
    return 0


if __name__ == "__main__":
    sys.exit(main())
