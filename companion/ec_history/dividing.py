"""`ec-history import --into`: records become the lines of several parts.

The changes of all records are first written to one file, each with the slot of its key;
then it is known how many parts there must be, and each line goes to the file of its
part. All parts are played into `ec` before the folder gets its name: so it is there
whole, and each of its lines is accepted, or it is not there at all.
"""

from __future__ import annotations

import argparse
import os
import shutil
import sqlite3
import sys
import tempfile
from array import array
from contextlib import ExitStack
from typing import IO, Callable, Dict, Iterator, List, NamedTuple, Optional, Tuple

from .common import accepted_theory
from .errors import HistoryError
from .importing import Change, Imported, Importer, tell_faults, told_words, write_names
from .keys import Split
from .mapping import Map, read_map
from .names import Names, umask
from .parts import MOST_PARTS, SLOTS, THEORY, Held, Parts, sha256_of, slot_of_event
from .playing import Refused, first_refused
from .program import find_program
from .processes import in_processes
from .progress import Progress
from .records import read_records
from .splitting import required
from .terms import Term
from .theory import Theory
from .told_file import ToldFile

MOST_EVENTS = 262_144
MOST_MENTIONS = 1_048_576
"""What a part gets at most where the number of parts is chosen here.

An `ec` that takes less refuses a part; then there are twice as many.
"""
ALL_PARTS = "*"
_BEGIN, _COMMIT = "begin", "commit"


class Loads:
    """How much of a history each slot has: events, and what their rules mention."""

    def __init__(self, theory: Theory) -> None:
        self.theory = theory
        self.events = array("q", [0]) * SLOTS
        self.mentions = array("q", [0]) * SLOTS
        self.events_of_all = self.mentions_of_all = 0
        self._mentions_of: Dict[Tuple[str, int], int] = {}

    def add(self, slot: Optional[int], event: Term) -> None:
        """Counts an event, as if no other went."""
        mentions = self._mentions(event)
        if slot is None:
            self.events_of_all += 1
            self.mentions_of_all += mentions
        else:
            self.events[slot] += 1
            self.mentions[slot] += mentions

    def _mentions(self, event: Term) -> int:
        """What the rules of an event's name mention at most."""
        shape = event.name, event.arity
        if shape not in self._mentions_of:
            rules = self.theory.rules_for(event)
            count = sum(1 + len(rule.literals) for rule in rules)
            self._mentions_of[shape] = count
        return self._mentions_of[shape]

    def least_parts(self) -> int:
        """The least number of parts none of which goes over a limit.

        Raises HistoryError where there is none.
        """
        least = max(
            sum(self.events) // max(MOST_EVENTS - self.events_of_all, 1),
            sum(self.mentions) // max(MOST_MENTIONS - self.mentions_of_all, 1),
            1,
        )
        for count in range(least, MOST_PARTS + 1):
            if self._fit(count):
                return count
        raise HistoryError(
            f"no number of parts up to {MOST_PARTS} is enough: {self.events_of_all:,} "
            f"events go to all parts, and a part takes {MOST_EVENTS:,} events"
        )

    def _fit(self, count: int) -> bool:
        return all(
            sum(self.events[part::count]) + self.events_of_all <= MOST_EVENTS
            and sum(self.mentions[part::count]) + self.mentions_of_all <= MOST_MENTIONS
            for part in range(count)
        )


class Spool:
    """All changes in their order, in a file: a line each, behind its slot.

    What happens together stands between `begin` and `commit`.
    """

    def __init__(self, path: str, split: Split, loads: Loads) -> None:
        self.path = path
        self.split = split
        self.loads = loads
        self._file = open(path, "w", encoding="ascii")

    def add(self, change: Change) -> None:
        """Adds the change of a record."""
        rows = [
            f"{self._slot(Term.parse(term))}\tretract {identity}\n"
            for identity, term in change.gone
        ]
        for event in change.made:
            term = Term.parse(event.term)
            slot = slot_of_event(self.split, term)
            self.loads.add(slot, term)
            shown = ALL_PARTS if slot is None else slot
            rows.append(f"{shown}\t{event.line()}\n")
        if change.corrects and rows:
            rows = [f"{_BEGIN}\n", *rows, f"{_COMMIT}\n"]
        self._file.writelines(rows)

    def _slot(self, term: Term) -> str:
        slot = slot_of_event(self.split, term)
        return ALL_PARTS if slot is None else str(slot)

    def close(self) -> None:
        """Ends the writing."""
        self._file.close()

    def changes(self, count: int) -> Iterator[List[Tuple[Optional[int], str]]]:
        """The lines of each change, each with its part; None is all parts."""
        together: Optional[List[Tuple[Optional[int], str]]] = None
        with open(self.path, encoding="ascii") as file:
            for row in file:
                slot, _, line = row.partition("\t")
                if not line:
                    if together is None:
                        together = []
                    else:
                        yield together
                        together = None
                    continue
                part = None if slot == ALL_PARTS else int(slot) % count
                if together is None:
                    yield [(part, line)]
                else:
                    together.append((part, line))


class Divided(NamedTuple):
    """What an import into parts made; no parts where a record is at fault."""

    imported: Imported
    parts: Optional[Parts]


class Divider:
    """Makes a folder of parts of a file of records."""

    def __init__(
        self, theory_path: str, split: Split, folder: str, program: str, processes: int
    ) -> None:
        if os.path.exists(folder):
            raise HistoryError(f"{folder} is there already; name a folder that is not")
        self.theory_path = theory_path
        self.theory = Theory.read(theory_path)
        self.split = split
        self.folder = os.path.abspath(folder)
        self.program = program
        self.processes = processes

    def divide(
        self,
        map_of: Map,
        path: str,
        names: Names,
        count: Optional[int],
        skip_faulty: bool,
        before: Callable[[], None],
    ) -> Divided:
        """Makes so many parts, or as many as are needed where `count` is None.

        `before` is done once all is made, and before the folder has its name.
        """
        above = os.path.dirname(self.folder)
        with ExitStack() as stack:
            try:
                draft = tempfile.mkdtemp(prefix=".parts-", dir=above)
                stack.callback(shutil.rmtree, draft, ignore_errors=True)
                spool, imported = self._spool(draft, map_of, path, names)
                if imported.faults and not skip_faulty:
                    return Divided(imported, None)
                parts = self._fitting(draft, spool, count)
                os.unlink(spool.path)
                parts.write_manifest()
                before()
                os.chmod(draft, 0o777 & ~umask())
                os.rename(draft, self.folder)
            except (OSError, sqlite3.Error) as fault:
                raise HistoryError(f"{self.folder} can't be made: {fault}") from None
        return Divided(imported, parts.at(self.folder))

    def _spool(
        self, draft: str, map_of: Map, path: str, names: Names
    ) -> Tuple[Spool, Imported]:
        """Writes the changes of all records to one file."""
        told = ToldFile(os.path.join(draft, "told"))
        spool = Spool(os.path.join(draft, "spool"), self.split, Loads(self.theory))
        importer = Importer(map_of, names, told)
        with Progress("records") as progress:
            for record in read_records(path, map_of.file, map_of.fields):
                change = importer.add(record)
                if change is not None:
                    spool.add(change)
                progress.step()
        spool.close()
        told.close()
        os.unlink(os.path.join(draft, "told"))
        return spool, importer.result

    def _fitting(self, draft: str, spool: Spool, count: Optional[int]) -> Parts:
        """The parts, each of which `ec` accepts whole."""
        shutil.copyfile(self.theory_path, os.path.join(draft, THEORY))
        number = count or spool.loads.least_parts()
        while True:
            parts = self._written(draft, spool, number)
            refused = self._refused(parts)
            if refused is None:
                return parts
            part, first = refused
            if count or not first.is_full or 2 * number > MOST_PARTS:
                raise HistoryError(_words(parts, part, first))
            number *= 2

    def _written(self, draft: str, spool: Spool, count: int) -> Parts:
        """Writes each line to the file of its part."""
        held = [Held(0, 0, "")] * count
        sha256 = sha256_of(os.path.join(draft, THEORY))
        parts = Parts(draft, self.theory, sha256, self.split, held)
        with ExitStack() as stack, Progress("lines written") as progress:
            files = [
                stack.enter_context(open(parts.lines_path(n), "w", encoding="ascii"))
                for n in range(count)
            ]
            lines, events = [0] * count, [0] * count
            for change in spool.changes(count):
                for part in _parts_of(change, count):
                    own = [line for at, line in change if at is None or at == part]
                    if len(change) > 1:
                        own = [f"{_BEGIN}\n", *own, f"{_COMMIT}\n"]
                    files[part].writelines(own)
                    lines[part] += len(own)
                    events[part] += sum(
                        {"a": 1, "r": -1}.get(line[0], 0) for line in own
                    )
                progress.step(len(change))
        digests = [sha256_of(parts.lines_path(part)) for part in range(count)]
        held[:] = map(Held, lines, events, digests)
        return parts

    def _refused(self, parts: Parts) -> Optional[Tuple[int, Refused]]:
        """The first part of which `ec` refuses a line, and what it says."""
        jobs = [
            (self.program, parts.theory_path, parts.lines_path(part))
            for part in range(parts.count)
        ]
        found = in_processes(first_refused, jobs, self.processes)
        with Progress("parts checked") as shown:
            for part, refused in enumerate(found):
                shown.step()
                if refused is not None:
                    found.close()
                    return part, refused
        return None


def _parts_of(change: List[Tuple[Optional[int], str]], count: int) -> List[int]:
    """The parts to which lines of a change go."""
    parts = {part for part, _ in change}
    if None in parts:
        return list(range(count))
    return sorted(part for part in parts if part is not None)


def _words(parts: Parts, part: int, refused: Refused) -> str:
    """Which line of which part is refused, and why."""
    with open(parts.lines_path(part), encoding="ascii") as file:
        line = _line_at(file, refused.line)
    hint = "; take more parts, or `--parts auto`" if refused.is_full else ""
    return (
        f"of {parts.count} parts, part {part} would not be accepted: its line "
        f"{refused.line:,}, {line!r}: {refused.words()}{hint}. Nothing was written"
    )


def _line_at(file: IO[str], number: int) -> str:
    for at, line in enumerate(file, 1):
        if at == number:
            return line.rstrip("\n")
    return ""


def run_into(args: argparse.Namespace) -> int:
    """Writes the parts; 1 where a record is at fault."""
    if args.theory is None:
        raise HistoryError("--into needs --theory: by it the events have their keys")
    count = number_of_parts(args.parts)
    theory = accepted_theory(args.theory, args.program)
    split = required(theory, args.theory)
    map_of = read_map(args.map, args.file)
    path = args.names or map_of.names
    names = Names.read(path, map_of.keep_case)
    names.forgets_plain = True
    known = len(names)
    program = find_program(args.program)
    divider = Divider(args.theory, split, args.into, program, args.processes)

    def keep_names() -> None:
        if len(names) > known:
            write_names(names, path)

    made = divider.divide(map_of, args.file, names, count, args.skip_faulty, keep_names)
    tell_faults(made.imported, args.file, args.skip_faulty)
    if made.parts is None:
        return 1
    lines = sum(held.lines for held in made.parts.held)
    most = max(held.events for held in made.parts.held)
    print(
        f"{told_words(made.imported)}: {lines:,} lines in {made.parts.count} parts, of "
        f"which one has up to {most:,} events; {len(names) - known:,} new names in "
        f"{path}",
        file=sys.stderr,
    )
    return 1 if made.imported.faults else 0


def number_of_parts(text: str) -> Optional[int]:
    """How many parts a word asks for; None for `auto`."""
    if text == "auto":
        return None
    if text.isdigit() and 1 <= int(text) <= MOST_PARTS:
        return int(text)
    raise HistoryError(f"--parts {text}: a number up to {MOST_PARTS}, or auto")
