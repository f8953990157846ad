#!/usr/bin/env python3
"""Imports many loans into parts, and asks about all of them.

    companion/measure/parts.py [--program PATH] [--records 10000000] [--folder FOLDER]

The records come in any order of time, and one of 17 corrects another. They are imported
into as many parts as are needed; then questions over all parts are answered with one
process and with four, by turns, and the shares of the time are told, and how large the
largest process was. Where the machine is at other work, the processor time says more:
what is spent within the parts can be shared out, and what merges and writes the answer
can't. What was answered about 300 books is compared with a calculation of its own. The
folder is kept where it is named, and what is there is not made again.
"""

from __future__ import annotations

import argparse
import contextlib
import csv
import json
import os
import random
import resource
import sys
import tempfile
import time
from typing import Dict, Iterator, List, NamedTuple, Set, Tuple

TOP = os.path.join(os.path.dirname(os.path.abspath(__file__)), "..")
sys.path.insert(0, TOP)

from ec_history.cli import main as main_of_commands  # noqa: E402  (path first)
from ec_history.program import add_program, find_program  # noqa: E402  (path first)
from ec_history.replies import Event  # noqa: E402
from ec_history.terms import Term  # noqa: E402
from ec_history.theory import Theory  # noqa: E402
from tests.calculus import Calculus  # noqa: E402

BLOCK = 17
BOOKS, PEOPLE, TIMES = 100_000, 20_000, 20_000_000
READERS = 3
"""People who lend the same book, so that most loans are given back."""
COMPARED = 300
MOST_SHARE = 0.35
QUESTIONS = ("count out(_) 10000000", "intervals out(_)")
THEORY = os.path.join(TOP, "..", "examples", "loans.ec")
MAP = {
    "key": "e{id}",
    "corrects": "corrects",
    "time": {"column": "time", "unit": "number"},
    "events": [
        {"event": f"{what}({{book}},{{who}})", "when": {"what": what}}
        for what in ("lend", "give_back", "reserve")
    ],
}


def records(count: int) -> Iterator[List[object]]:
    """Loans, returns and reservations; the last of a block corrects one far before."""
    draw = random.Random(7)
    yield ["id", "time", "what", "book", "who", "corrects"]
    for number in range(1, count + 1):
        what = draw.choices(("lend", "give_back", "reserve"), (5, 4, 1))[0]
        corrects: object = ""
        if number % BLOCK == 0 and number > 60 * BLOCK:
            corrects = number - 50 * BLOCK + draw.randrange(1, BLOCK)
        time_told, book = draw.randrange(TIMES), draw.randrange(BOOKS)
        who = (31 * book + draw.randrange(READERS)) % PEOPLE
        yield [number, time_told, what, f"b{book}", f"p{who}", corrects]


class Spent(NamedTuple):
    """Seconds of a command: by the clock, and of processors within parts and beside."""

    seconds: float
    within: float
    beside: float

    @property
    def share(self) -> float:
        """By processor time, what four processors need of the time of one."""
        return (self.beside + self.within / 4) / (self.beside + self.within)


def run(words: List[str], output: str) -> Spent:
    """Runs a command of ec-history here; answers what it took."""
    begun, before = time.monotonic(), os.times()
    with open(output, "w") as file, contextlib.redirect_stdout(file):
        assert main_of_commands(words) == 0
    after = os.times()
    within = sum(after[2:4]) - sum(before[2:4])
    return Spent(time.monotonic() - begun, within, sum(after[:2]) - sum(before[:2]))


def megabytes() -> float:
    """How large the largest process was so far."""
    ended = resource.getrusage(resource.RUSAGE_CHILDREN).ru_maxrss
    return max(ended, resource.getrusage(resource.RUSAGE_SELF).ru_maxrss) / 1024


def make(folder: str, count: int, program: str) -> None:
    """Writes the records and the parts, where they are not there."""
    path = {name: os.path.join(folder, name) for name in ("loans.csv", "loans.json")}
    if not os.path.exists(path["loans.csv"]):
        with open(path["loans.csv"], "w", newline="") as file:
            csv.writer(file, lineterminator="\n").writerows(records(count))
        with open(path["loans.json"], "w") as file:
            json.dump(MAP, file)
    into = os.path.join(folder, "parts")
    if not os.path.exists(into):
        words = ["import", path["loans.json"], path["loans.csv"], "--into", into]
        words += ["--theory", THEORY, "--program", program]
        seconds = run(words, os.devnull).seconds
        print(
            f"imported in {seconds:.0f} seconds; largest process {megabytes():.0f} MB",
            flush=True,
        )


def ask(folder: str, program: str, turns: int) -> bool:
    """Answers questions with one process and with four; whether four pay enough."""
    is_well = True
    into, output = (os.path.join(folder, name) for name in ("parts", "answer"))
    for question in QUESTIONS:
        spent: Dict[int, List[Spent]] = {1: [], 4: []}
        for _ in range(turns):
            for processes, runs in spent.items():
                words = ["ask", THEORY, into, question, "--format", "tsv"]
                words += ["--processes", str(processes), "--program", program]
                runs.append(run(words, output))
        one, four = min(spent[1]), min(spent[4])
        share = four.seconds / one.seconds
        print(
            f"`{question}`: {one.seconds:.1f} seconds with one process, "
            f"{four.seconds:.1f} with four: {share:.2f} of it. Processor time "
            f"{four.within:.1f} within the parts and {four.beside:.1f} beside: "
            f"{four.share:.2f}. Largest process {megabytes():.0f} MB",
            flush=True,
        )
        is_well = is_well and share <= MOST_SHARE
    return is_well


def events_of(path: str, books: Set[str]) -> Dict[str, List[Event]]:
    """The events of some books that no record has taken back."""
    taken_back: Set[str] = set()
    with open(path, newline="") as file:
        taken_back.update(row["corrects"] for row in csv.DictReader(file))
    events: Dict[str, List[Event]] = {book: [] for book in books}
    with open(path, newline="") as file:
        for row in csv.DictReader(file):
            if row["book"] in books and row["id"] not in taken_back:
                term = Term(row["what"], (row["book"], row["who"]))
                event = Event(f"e{row['id']}", int(row["time"]), term)
                events[row["book"]].append(event)
    return events


def compare(folder: str) -> int:
    """Compares the last answer at some books with a calculation of its own."""
    told: Dict[str, List[Tuple[str, str]]] = {}
    with open(os.path.join(folder, "answer")) as file:
        for row in csv.DictReader(file, delimiter="\t"):
            told.setdefault(row["property"], []).append((row["start"], row["end"]))
    draw = random.Random(11)
    books = {f"b{book}" for book in draw.sample(range(BOOKS), COMPARED)}
    theory = Theory.read(THEORY)
    intervals = 0
    events = events_of(os.path.join(folder, "loans.csv"), books)
    for book, own in events.items():
        term = Term("out", (book,))
        wanted = [
            (str(start), "" if end is None else str(end))
            for start, end in Calculus(theory, own).spans(term)[0]
        ]
        assert told.get(str(term), []) == wanted, f"another answer about {term}"
        intervals += len(wanted)
    return intervals


def main() -> int:
    parser = argparse.ArgumentParser(description=(__doc__ or "").splitlines()[0])
    parser.add_argument("--records", type=int, default=10_000_000)
    parser.add_argument("--folder", help="(one that is taken away at the end)")
    parser.add_argument("--turns", type=int, default=1, help="(1)")
    add_program(parser)
    args = parser.parse_args()
    program = find_program(args.program)
    with tempfile.TemporaryDirectory() as held:
        folder = args.folder or held
        os.makedirs(folder, exist_ok=True)
        make(folder, args.records, program)
        is_well = ask(folder, program, args.turns)
        intervals = compare(folder)
    print(f"{COMPARED} books, {intervals:,} intervals: as calculated")
    return 0 if is_well else 1


if __name__ == "__main__":
    sys.exit(main())
