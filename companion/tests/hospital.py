"""Made hospital data: 5,000 records of a year, some late, some corrections.

The generator knows what truly happened when; the file has it as people write it: local
times of Berlin, names with blanks and accents, records in the order in which they were
told. `holding` works out what held at an instant from that truth alone, in the plainest
way; it shares nothing with ec_history.
"""

from __future__ import annotations

import csv
import io
import random
from dataclasses import dataclass, replace
from datetime import datetime, timedelta, timezone
from typing import Any, Dict, List, Optional, Set, Tuple
from zoneinfo import ZoneInfo

THEORY = """\
% who lies in which bed, who has a fever, and which bed is isolated for it
initiates  admission(Who, Bed)     in(Bed, Who).
terminates discharge(Who, Bed)     in(Bed, Who).
terminates discharge(Who, _)       fever(Who).
initiates  transfer(Who, Old, New) in(New, Who).
terminates transfer(Who, Old, New) in(Old, Who) if Old != New.
exclusive  in(Bed, Who)            in(Other, Who).
initiates  reading(Who, Tenths)    fever(Who)    if 380 < Tenths.
terminates reading(Who, Tenths)    fever(Who)    if Tenths <= 380.
initiates  isolation(Who, Bed)     isolated(Bed) if in(Bed, Who), fever(Who).
initiates  isolation(Who, Bed)     false_alarm(Who, Bed) if not fever(Who).
terminates cleaning(Bed)           isolated(Bed).
strong     false_alarm/2.
"""
MAP: Dict[str, Any] = {
    "key": "r{record}",
    "corrects": "corrects",
    "withdrawn": {"status": "void"},
    "file": {"delimiter": ";", "encoding": "cp1252", "format": "csv"},
    "time": {
        "column": "when",
        "zone_column": "offset",
        "format": "%d.%m.%Y %H:%M",
        "zone": "Europe/Berlin",
        "unit": "minute",
        "origin": "2024-01-01T00:00:00Z",
    },
    "columns": {"tenths": {"kind": "number"}},
    "events": [
        {
            "event": "admission({patient},{ward}_{bed})",
            "when": {"kind": "admission"},
        },
        {
            "event": "transfer({patient},{ward}_{bed},{to_ward}_{to_bed})",
            "when": {"kind": "transfer"},
        },
        {
            "event": "discharge({patient},{ward}_{bed})",
            "when": {"kind": "discharge"},
        },
        {"event": "reading({patient},{tenths})", "when": {"kind": "reading"}},
        {
            "event": "isolation({patient},{ward}_{bed})",
            "when": {"kind": "isolation"},
        },
        {"event": "cleaning({ward}_{bed})", "when": {"kind": "cleaning"}},
    ],
}
COLUMNS = ["record", "told", "kind", "when", "offset", "patient", "ward", "bed"]
COLUMNS += ["to_ward", "to_bed", "tenths", "corrects", "status"]
BERLIN = ZoneInfo("Europe/Berlin")
ORIGIN = datetime(2024, 1, 1, tzinfo=timezone.utc)
WARDS = ["B3 West", "B3 Ost", "Süd-Flügel", "Chirurgie 1"]
LETTERS = ["Ann", "Bob", "Cécile", "Dörte", "Eve", "Fay", "Göran", "Hal", "Ida", "Jan"]
Bed = Tuple[str, str]
Property = Tuple[str, ...]


@dataclass(frozen=True)
class Happening:
    """What a record tells: the minute since `ORIGIN`, and what happened."""

    minute: int
    kind: str
    patient: str = ""
    bed: Bed = ("", "")
    to: Bed = ("", "")
    tenths: int = 0


@dataclass(frozen=True)
class Row:
    """A record: when it was told, what it tells (None if void), what it corrects."""

    record: str
    told: int
    tells: Optional[Happening]
    corrects: str = ""


def rows(count: int, seed: int) -> List[Row]:
    """So many records, in the order in which they were told."""
    draw = random.Random(seed)
    stays = _happenings(draw, count)
    found = []
    for number, happening in enumerate(stays):
        late = draw.random() < 0.15
        delay = draw.randint(600, 20_000) if late else draw.randint(0, 30)
        found.append(Row(f"{number + 1:05}", happening.minute + delay, happening))
    corrections = []
    standing = list(found)
    for number in range(len(found), count):
        place = draw.randrange(len(standing))
        wrong = standing[place]
        told = wrong.told + draw.randint(1, 30_000)
        tells = None if draw.random() < 0.2 else _corrected(draw, wrong.tells)
        row = Row(f"{number + 1:05}", told, tells, wrong.record)
        corrections.append(row)
        if tells is None:
            del standing[place]
        else:
            standing[place] = row
    return sorted(found + corrections, key=lambda row: (row.told, row.record))


def _happenings(draw: random.Random, count: int) -> List[Happening]:
    """Stays of patients, with what happens in them, until about 92 of 100 are drawn."""
    wanted = count * 92 // 100
    found: List[Happening] = []
    patient = 0
    while len(found) < wanted:
        patient += 1
        name = f"{draw.choice(LETTERS)} {draw.choice(LETTERS)}, {patient:04}"
        found += _stay(draw, name)
    return found[:wanted]


def _stay(draw: random.Random, name: str) -> List[Happening]:
    bed = _bed(draw)
    minute = draw.randrange(366 * 1440)
    found = [Happening(minute, "admission", name, bed)]
    for _ in range(draw.randint(0, 12)):
        minute += draw.randint(0, 3000)
        kind = draw.choice(["transfer", "reading", "reading", "isolation", "cleaning"])
        if kind == "transfer":
            to = _bed(draw)
            found.append(Happening(minute, kind, name, bed, to))
            bed = to if draw.random() < 0.95 else bed
        elif kind == "reading":
            tenths = draw.randint(360, 400)
            found.append(Happening(minute, kind, name, tenths=tenths))
        elif kind == "isolation":
            found.append(Happening(minute, kind, name, bed))
        else:
            found.append(Happening(minute, kind, bed=bed))
    if draw.random() < 0.9:
        minute += draw.randint(0, 3000)
        found.append(Happening(minute, "discharge", name, bed))
    if draw.random() < 0.2:  # at the hour that comes twice
        twice = int((datetime(2024, 10, 27, tzinfo=timezone.utc) - ORIGIN).days) * 1440
        minute = twice + draw.randint(-60, 120)
        found.append(Happening(minute, "reading", name, tenths=390))
    return found


def _bed(draw: random.Random) -> Bed:
    return draw.choice(WARDS), str(draw.randint(1, 30))


def _corrected(draw: random.Random, tells: Optional[Happening]) -> Happening:
    assert tells is not None
    minute = tells.minute + draw.randint(-300, 300)
    if tells.kind != "reading" and draw.random() < 0.5:
        return replace(tells, bed=_bed(draw))
    return replace(tells, minute=minute)


def csv_of(found: List[Row]) -> bytes:
    """The file of the records, as its map says."""
    text = io.StringIO(newline="")
    writer = csv.DictWriter(text, COLUMNS, restval="", delimiter=";")
    writer.writeheader()
    for row in found:
        fields = {"record": row.record, "told": row.told, "corrects": row.corrects}
        if row.tells is None:
            fields["status"] = "void"
        else:
            fields.update(_fields(row.tells))
        writer.writerow(fields)
    return text.getvalue().encode("cp1252")


def _fields(tells: Happening) -> Dict[str, Any]:
    local = (ORIGIN + timedelta(minutes=tells.minute)).astimezone(BERLIN)
    twice = local.replace(fold=0).utcoffset() != local.replace(fold=1).utcoffset()
    return {
        "kind": tells.kind,
        "when": local.strftime("%d.%m.%Y %H:%M"),
        "offset": local.strftime("%z") if twice else "",
        "patient": tells.patient,
        "ward": tells.bed[0],
        "bed": tells.bed[1],
        "to_ward": tells.to[0],
        "to_bed": tells.to[1],
        "tenths": tells.tenths if tells.kind == "reading" else "",
    }


def truth(found: List[Row]) -> List[Happening]:
    """What is so by all records together."""
    standing: Dict[str, Optional[Happening]] = {}
    for row in found:
        if row.corrects:
            del standing[row.corrects]
        standing[row.record] = row.tells
    return [tells for tells in standing.values() if tells is not None]


class Holding:
    """What held when, worked out instant by instant from what happened."""

    def __init__(self, happenings: List[Happening]) -> None:
        self.stretches: List[Tuple[Property, int, Optional[int]]] = []
        self.begun: Dict[Property, int] = {}
        by_minute: Dict[int, List[Happening]] = {}
        for happening in happenings:
            by_minute.setdefault(happening.minute, []).append(happening)
        for minute in sorted(by_minute):
            self._instant(minute, by_minute[minute])
        for what, begin in self.begun.items():
            self.stretches.append((what, begin, None))

    def at(self, minute: int) -> Set[Property]:
        """All that held at a minute."""
        return {
            what
            for what, begin, end in self.stretches
            if begin < minute and (end is None or minute <= end)
        }

    def _instant(self, minute: int, happenings: List[Happening]) -> None:
        starts: Set[Property] = set()
        ends: Set[Property] = set()
        for happening in happenings:
            self._effects(happening, starts, ends)
        for what in list(self.begun):
            alone = what[0] == "in" or what[0] == "false_alarm"
            broken = alone and any(_excludes(other, what) for other in starts)
            if what in ends:
                self.stretches.append((what, self.begun.pop(what), minute))
            elif broken:
                del self.begun[what]
        for what in starts:
            self.begun.setdefault(what, minute)

    def _effects(
        self, event: Happening, starts: Set[Property], ends: Set[Property]
    ) -> None:
        who, bed = event.patient, "_".join(event.bed)
        if event.kind == "admission":
            starts.add(("in", bed, who))
        elif event.kind == "discharge":
            ends.update([("in", bed, who), ("fever", who)])
        elif event.kind == "transfer":
            starts.add(("in", "_".join(event.to), who))
            if event.to != event.bed:
                ends.add(("in", bed, who))
        elif event.kind == "reading":
            (starts if event.tenths > 380 else ends).add(("fever", who))
        elif event.kind == "isolation":
            if ("fever", who) not in self.begun:
                starts.add(("false_alarm", who, bed))
            elif ("in", bed, who) in self.begun:
                starts.add(("isolated", bed))
        else:
            ends.add(("isolated", bed))


def _excludes(one: Property, other: Property) -> bool:
    """Whether the start of one breaks the other."""
    if one[0] != other[0]:
        return False
    if one[0] == "in":
        return one[2] == other[2] and one != other
    return one == other
