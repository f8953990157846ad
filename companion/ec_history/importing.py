"""`ec-history import`: the records of a file become `assert` lines.

Each record makes the events of its map, under identities that come of its key. A record
that corrects another becomes a draft: what the other told is taken back, and what this
one tells is asserted, both or none. Nothing is written where a record is at fault,
unless the faulty ones are to be skipped.
"""

from __future__ import annotations

import argparse
import os
import sys
from dataclasses import dataclass, field
from typing import Dict, List, Mapping, NamedTuple, Optional, Sequence, Set, Tuple

from .common import add_processes
from .errors import HistoryError
from .mapping import EventForm, Map, read_map
from .names import Names
from .program import add_program
from .progress import Progress
from .records import Record, read_records
from .templates import FieldFault
from .terms import LONGEST_NAME
from .times import TimeFault

EXAMPLE = """\
example:
  ec-history import ward.toml ward.csv > ward.lines

  where ward.csv is            and ward.toml is
    id,when,patient,bed          key = "r{id}"
    1,03.03.2024 12:30,177,B3    event = "admit(p{patient},{bed})"
                                 [time]
  then ward.lines is             column = "when"
    assert r1 28491090           format = "%d.%m.%Y %H:%M"
      admit(p177,b3)             zone = "Europe/Berlin"
  (on one line)                  unit = "minute"

companion/README.md has all that a map can say.
"""
MOST_FAULTS = 100
Key = Tuple[str, ...]
"""What tells a record: the texts of the columns of its key."""


class Event(NamedTuple):
    """An event that a record tells: its identity, its time, and what happened."""

    identity: str
    time: str
    term: str

    def line(self) -> str:
        """The line that asserts it."""
        return f"assert {self.identity} {self.time} {self.term}"


class Change(NamedTuple):
    """What a record changes: events that go, by identity and term, and that come.

    Where it `corrects` a record, both happen together.
    """

    gone: Sequence[Tuple[str, str]]
    made: Sequence[Event]
    corrects: bool

    def lines(self) -> List[str]:
        """The lines of the change."""
        lines = [f"retract {identity}" for identity, _ in self.gone]
        lines += [event.line() for event in self.made]
        return ["begin", *lines, "commit"] if self.corrects and lines else lines


@dataclass
class Imported:
    """What became of a file: its lines, its faults by row, and counts."""

    lines: List[str] = field(default_factory=list)
    faults: List[str] = field(default_factory=list)
    records: int = 0
    corrections: int = 0


class Told:
    """What is known of the records told so far, by their keys, in memory."""

    def __init__(self) -> None:
        self._events: Dict[Key, Sequence[Tuple[str, str]]] = {}
        self._places: Dict[Key, str] = {}
        self._corrected: Dict[Key, Key] = {}
        self._identities: Set[str] = set()

    def place(self, key: Key) -> Optional[str]:
        """Where a record stood; None where there was none."""
        return self._places.get(key)

    def events(self, key: Key) -> Optional[Sequence[Tuple[str, str]]]:
        """The identities and terms of the events that stand for a record now.

        None where there is no such record, or where it was corrected by another.
        """
        return self._events.get(key)

    def corrected_by(self, key: Key) -> Optional[Key]:
        """The key of the record that corrected this one, where another did."""
        return self._corrected.get(key)

    def has_identity(self, identity: str) -> bool:
        """Whether an event that stands for a record now has this identity."""
        return identity in self._identities

    def tell(self, key: Key, place: str, events: Sequence[Event]) -> None:
        """Keeps a record with its events."""
        self._events[key] = [(event.identity, event.term) for event in events]
        self._identities.update(event.identity for event in events)
        self._places[key] = place

    def take_back(self, target: Key, key: Key) -> None:
        """Notes that a record is corrected by that of another key, or by itself."""
        self._identities.difference_update(i for i, _ in self._events.pop(target))
        if target != key:
            self._corrected[target] = key


class Importer:
    """Makes changes of records, one after the other."""

    def __init__(self, map_of: Map, names: Names, told: Optional[Told] = None) -> None:
        self.map = map_of
        self.names = names
        self.told = told or Told()
        self.result = Imported()

    def add(self, record: Record) -> Optional[Change]:
        """What a record changes; None where it is at fault, which is noted."""
        self.result.records += 1
        try:
            if record.fault:
                raise FieldFault(record.fault)
            return self._change(record)
        except FieldFault as fault:
            self.result.faults.append(f"{record.place}: {fault}")
            return None

    def _change(self, record: Record) -> Change:
        fields = record.fields
        name, key = self.map.key.fill(fields, self.names), self.map.key.parts(fields)
        withdraws = bool(self.map.withdrawn) and _is(fields, self.map.withdrawn)
        made = [] if withdraws else self._events(name, fields)
        target = self._corrected(key, fields, withdraws)
        gone: Sequence[Tuple[str, str]] = ()
        if target is None:
            place = self.told.place(key)
            if place is not None:
                raise FieldFault(_twice(key, place))
        else:
            gone = self.told.events(target) or ()
        self._free([event.identity for event in made], [i for i, _ in gone])
        if target is not None:
            self.told.take_back(target, key)
            self.result.corrections += 1
        self.told.tell(key, record.place, made)
        return Change(gone, made, target is not None)

    def _free(self, made: Sequence[str], gone: Sequence[str]) -> None:
        """Makes sure that no identity stands for two events."""
        for identity in made:
            if self.told.has_identity(identity) and identity not in gone:
                raise FieldFault(f"the identity {identity} is another record's already")
            if made.count(identity) > 1:
                raise FieldFault(
                    f"the row makes two events of the identity {identity}: give one of "
                    "them a `suffix` in the map"
                )

    def _corrected(
        self, key: Key, fields: Mapping[str, str], withdraws: bool
    ) -> Optional[Key]:
        """The key of the record that this one corrects, where it corrects one."""
        target = tuple(fields[column] for column in self.map.corrects)
        if not target or not all(target):
            again = self.map.again and self.told.events(key) is not None
            if not again and not withdraws:
                return None
            target = key
        seen = {target}
        by = self.told.corrected_by(target)
        while self.map.chain and by is not None:
            target, by = by, self.told.corrected_by(by)
            if target in seen:
                break
            seen.add(target)
        if self.told.events(target) is not None:
            return target
        if by is not None:
            raise FieldFault(
                f"it corrects {_shown(target)}, which {_shown(by)} has corrected "
                f"already: name {_shown(by)}, or say `chain = true` in the map"
            )
        raise FieldFault(f"it corrects {_shown(target)}, which no row before has told")

    def _events(self, name: str, fields: Mapping[str, str]) -> List[Event]:
        """The events of a record."""
        made = []
        met = False
        for form in self.map.events:
            if not _is(fields, form.when):
                continue
            met = True
            columns = (form.time, *form.event.fields)
            if form.optional and not all(fields[column] for column in columns):
                continue
            made.append(self._event(name, form, fields))
        if not met and not self.map.skip_others:
            raise FieldFault(
                'no event of the map is for such a row; say `others = "skip"` in the '
                "map if rows like it tell nothing"
            )
        return made

    def _event(self, name: str, form: EventForm, fields: Mapping[str, str]) -> Event:
        identity = name + form.suffix
        if len(identity) > LONGEST_NAME:
            raise FieldFault(
                f"the identity {identity} has {len(identity)} bytes, and ec takes "
                f"{LONGEST_NAME}"
            )
        which = fields[form.zone] if form.zone else ""
        try:
            time = self.map.times.read(fields[form.time], which)
        except TimeFault as fault:
            raise FieldFault(f"column {form.time}: {fault}") from None
        return Event(identity, time, form.event.fill(fields, self.names))


def _twice(key: Key, place: str) -> str:
    return (
        f"the key {_shown(key)} stands in {place} already; if this row corrects that "
        'one, say so by `corrects` or by `again = "corrects"` in the map'
    )


def _shown(key: Key) -> str:
    return ", ".join(map(repr, key))


def _is(fields: Mapping[str, str], conditions: Mapping[str, Tuple[str, ...]]) -> bool:
    return all(fields[column] in texts for column, texts in conditions.items())


def import_file(map_of: Map, path: str, names: Names) -> Imported:
    """The lines and faults of a file of records. Names that are new are added."""
    importer = Importer(map_of, names)
    with Progress("records") as progress:
        for record in read_records(path, map_of.file, map_of.fields):
            change = importer.add(record)
            if change is not None:
                importer.result.lines += change.lines()
            progress.step()
    return importer.result


def add_parser(subparsers: argparse._SubParsersAction) -> None:
    """Adds the words of the command."""
    parser = subparsers.add_parser(
        "import",
        help="turn CSV, TSV, JSON lines or XES into lines of ec",
        description="Turns the records of FILE into lines of ec, as MAP says.",
        epilog=EXAMPLE,
        formatter_class=argparse.RawDescriptionHelpFormatter,
    )
    parser.add_argument("map", metavar="MAP", help="what columns mean: TOML or JSON")
    parser.add_argument("file", metavar="FILE", help="CSV, TSV, JSON lines or XES")
    parser.add_argument(
        "--names",
        metavar="FILE",
        help="the file of names (else the one that the map says, else names.tsv beside "
        "the map)",
    )
    parser.add_argument(
        "--skip-faulty",
        action="store_true",
        help="write the lines of the other records where some are at fault",
    )
    parts = parser.add_argument_group(
        "parts", "A history that is too large for one ec, see `ec-history split`."
    )
    parts.add_argument(
        "--into",
        metavar="FOLDER",
        help="write the lines of each part into a new folder",
    )
    parts.add_argument(
        "--parts", metavar="N", default="auto", help="how many (auto: as are needed)"
    )
    parts.add_argument(
        "--theory", metavar="THEORY", help="the theory; it must fall apart"
    )
    add_processes(parts)
    add_program(parser)
    parser.set_defaults(run=run)


def run(args: argparse.Namespace) -> int:
    """Writes the lines; 1 where a record is at fault."""
    if args.into is not None:
        from .dividing import run_into

        return run_into(args)
    if args.theory is not None or args.parts != "auto":
        raise HistoryError("--theory and --parts go with --into")
    map_of = read_map(args.map, args.file)
    path = args.names or map_of.names
    names = Names.read(path, map_of.keep_case)
    known = len(names)
    result = import_file(map_of, args.file, names)
    tell_faults(result, args.file, args.skip_faulty)
    if result.faults and not args.skip_faulty:
        return 1
    sys.stdout.write("".join(f"{line}\n" for line in result.lines))
    if len(names) > known:
        write_names(names, path)
    print(
        f"{told_words(result)}: {len(result.lines):,} lines; "
        f"{len(names) - known:,} new names in {path}",
        file=sys.stderr,
    )
    return 1 if result.faults else 0


def told_words(result: Imported) -> str:
    """How many records there were, in words."""
    return f"{result.records:,} records, {result.corrections:,} of them corrections"


def tell_faults(result: Imported, path: str, skip_faulty: bool) -> None:
    """Says on standard error which records are at fault."""
    for fault in result.faults[:MOST_FAULTS]:
        print(f"{path}: {fault}", file=sys.stderr)
    if len(result.faults) > MOST_FAULTS:
        more = len(result.faults) - MOST_FAULTS
        print(f"{path}: and {more:,} more faults", file=sys.stderr)
    if result.faults and not skip_faulty:
        print(
            f"ec-history: {len(result.faults):,} of {result.records:,} records are at "
            "fault, so nothing was written (--skip-faulty writes the others)",
            file=sys.stderr,
        )


def write_names(names: Names, path: str) -> None:
    """Writes the file of names; raises HistoryError where it can't."""
    try:
        names.write(path)
    except OSError as fault:
        raise HistoryError(
            f"the names can't be written: {os.fspath(path)}: {fault.strerror}"
        ) from None
