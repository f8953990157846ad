"""The map of an import: what the columns of a file mean.

A map is a file of TOML where the interpreter has `tomllib` (from Python 3.11 on), or of
JSON. companion/README.md has the keys. A key that is not known is a fault, so that a
misspelt one is not passed over.
"""

from __future__ import annotations

import json
import os
from dataclasses import dataclass, field
from datetime import datetime, timezone
from difflib import get_close_matches
from typing import Any, Dict, List, Optional, Sequence, Tuple

from .errors import HistoryError
from .templates import EventTemplate, NameTemplate, TemplateFault
from .terms import is_name
from .times import ALL_UNITS, TimeFault, TimeForm, TimeReader, find_zone

FORMATS = ("csv", "tsv", "jsonl", "xes")
TOP = (
    *("key", "event", "events", "corrects", "withdrawn", "chain", "again", "names"),
    *("case", "others", "file", "time", "columns"),
)


class MapFault(HistoryError, ValueError):
    """A map that can't be used; the message says where and what to do."""


@dataclass(frozen=True)
class FileForm:
    """How a file of records is written."""

    format: str
    encoding: str = "utf-8"
    delimiter: str = ","
    quote: str = '"'
    columns: Tuple[str, ...] = ()
    strip: bool = False


@dataclass(frozen=True)
class EventForm:
    """An event that a record tells, where the record is as `when` says.

    `time` and `zone` are columns. An `optional` event is left out where its time or one
    of its columns is empty.
    """

    event: EventTemplate
    time: str
    zone: Optional[str] = None
    when: Dict[str, Tuple[str, ...]] = field(default_factory=dict)
    suffix: str = ""
    optional: bool = False


@dataclass(frozen=True)
class Map:
    """What the columns of a file mean."""

    path: str
    file: FileForm
    key: NameTemplate
    events: Tuple[EventForm, ...]
    times: TimeReader
    names: str
    keep_case: bool = False
    corrects: Tuple[str, ...] = ()
    withdrawn: Dict[str, Tuple[str, ...]] = field(default_factory=dict)
    chain: bool = False
    again: bool = False
    skip_others: bool = False

    @property
    def fields(self) -> List[str]:
        """The columns that the map takes, each once."""
        found = dict.fromkeys((*self.key.fields, *self.corrects))
        found.update(dict.fromkeys(self.withdrawn))
        for form in self.events:
            found.update(dict.fromkeys((form.time, *form.event.fields, *form.when)))
            if form.zone:
                found[form.zone] = None
        return list(found)


def read_map(path: str, data_path: str = "") -> Map:
    """The map of a file, for records of `data_path`; raises MapFault."""
    try:
        return _Table("", _load(path), path).map(data_path)
    except (TemplateFault, TimeFault) as fault:
        raise MapFault(f"{path}: {fault}") from None


def _load(path: str) -> Dict[str, Any]:
    try:
        with open(path, "rb") as file:
            text = file.read().decode("utf-8-sig")
    except (OSError, UnicodeDecodeError) as fault:
        raise MapFault(f"{path}: can't be read: {fault}") from None
    try:
        if path.endswith(".json") or text.lstrip().startswith("{"):
            table = json.loads(text)
        else:
            table = _load_toml(path, text)
    except MapFault:
        raise
    except ValueError as fault:
        raise MapFault(f"{path}: {fault}") from None
    if not isinstance(table, dict):
        raise MapFault(f"{path}: a map is an object of JSON")
    return table


def _load_toml(path: str, text: str) -> Dict[str, Any]:
    try:
        import tomllib  # type: ignore[import,unused-ignore]
    except ImportError:
        raise MapFault(
            f"{path}: this python3 reads no TOML (that is from 3.11 on): write the map "
            "as JSON, with the same keys"
        ) from None
    return tomllib.loads(text)


class _Table:
    """A table of the map, whose keys are taken one by one."""

    def __init__(self, name: str, table: Dict[str, Any], path: str) -> None:
        self.name, self.table, self.path = name, table, path

    def fault(self, text: str) -> MapFault:
        place = f"{self.path}: [{self.name}]" if self.name else self.path
        return MapFault(f"{place}: {text}")

    def known(self, keys: Sequence[str]) -> None:
        for key in self.table:
            if key not in keys:
                near = get_close_matches(key, keys, 1)
                hint = f"did you mean `{near[0]}`?" if near else ", ".join(keys)
                raise self.fault(f"no key `{key}` is known: {hint}")

    def take(self, key: str, kind: type, other: Any = None) -> Any:
        value = self.table.get(key, other)
        if key in self.table and not isinstance(value, kind):
            kinds = {str: "a text", bool: "true or false", dict: "a table"}
            raise self.fault(f"`{key}` is {kinds.get(kind, 'a list')}")
        return value

    def need(self, key: str, why: str) -> str:
        if key not in self.table:
            raise self.fault(f"`{key}` is missing: {why}")
        return self.take(key, str)

    def one_of(self, key: str, words: Sequence[str], other: str) -> str:
        value = self.take(key, str, other)
        if value not in words:
            raise self.fault(f"`{key}` is {', '.join(words[:-1])} or {words[-1]}")
        return value

    def texts(self, key: str, other: Sequence[str] = ()) -> Tuple[str, ...]:
        value = self.table.get(key, list(other))
        value = [value] if isinstance(value, str) else value
        if not isinstance(value, list) or not all(isinstance(v, str) for v in value):
            raise self.fault(f"`{key}` is a text or a list of texts")
        return tuple(value)

    def conditions(self, key: str) -> Dict[str, Tuple[str, ...]]:
        """Columns, each with the texts that it may have."""
        inner = _Table(key, self.take(key, dict, {}), self.path)
        return {column: inner.texts(column) for column in inner.table}

    def inner(self, key: str, keys: Sequence[str]) -> "_Table":
        name = f"{self.name}.{key}" if self.name else key
        table = _Table(name, self.take(key, dict, {}), self.path)
        table.known(keys)
        return table

    def map(self, data_path: str) -> Map:
        self.known(TOP)
        columns = self.take("columns", dict, {})
        numbers = _Table("columns", columns, self.path).numbers()
        time = self.inner(
            "time",
            ("column", "format", "zone", "zone_column", "unit", "origin")
            + ("round", "zeros"),
        )
        again = self.one_of("again", ("fault", "corrects"), "fault")
        names = self.take("names", str, "names.tsv")
        key = NameTemplate.read(self.need("key", 'as `key = "r{id}"`'), "event")
        if not key.fields:
            raise self.fault("`key` names no column in braces, as `r{id}`")
        return Map(
            path=self.path,
            file=self.file_form(data_path),
            key=key,
            events=self.events(time, numbers),
            times=time.times(),
            names=os.path.join(os.path.dirname(self.path), names),
            keep_case=self.one_of("case", ("lower", "keep"), "lower") == "keep",
            corrects=self.corrects(key),
            withdrawn=self.conditions("withdrawn"),
            chain=self.take("chain", bool, False),
            again=again == "corrects",
            skip_others=self.one_of("others", ("fault", "skip"), "fault") == "skip",
        )

    def corrects(self, key: NameTemplate) -> Tuple[str, ...]:
        """The columns that say which record is corrected, one for each of the key."""
        columns = self.texts("corrects")
        if columns and len(columns) != len(key.fields):
            raise self.fault(
                f"the key has {len(key.fields)} columns, and `corrects` "
                f"{len(columns)}: it names one for each of the key's"
            )
        return columns

    def numbers(self) -> Dict[str, bool]:
        """The columns that hold numbers, and whether leading zeros may go."""
        found = {}
        for column in self.table:
            inner = self.inner(column, ("kind", "zeros"))
            zeros = inner.one_of("zeros", ("fault", "drop"), "fault")
            if inner.one_of("kind", ("name", "number"), "name") == "number":
                found[column] = zeros == "drop"
        return found

    def file_form(self, data_path: str) -> FileForm:
        keys = ("format", "encoding", "delimiter", "quote", "columns", "strip")
        table = self.inner("file", keys)
        suffix = os.path.splitext(data_path[:-3] if _zipped(data_path) else data_path)
        guess = {".tsv": "tsv", ".tab": "tsv", ".xes": "xes", ".jsonl": "jsonl"}
        guess[".ndjson"] = "jsonl"
        form = table.one_of("format", FORMATS, guess.get(suffix[1].lower(), "csv"))
        delimiter = table.take("delimiter", str, "\t" if form == "tsv" else ",")
        quote = table.take("quote", str, '"')
        if len(delimiter) != 1 or len(quote) > 1:
            raise table.fault("`delimiter` and `quote` are one character each")
        encoding = table.take("encoding", str, "utf-8")
        try:
            "".encode(encoding)
        except LookupError:
            raise table.fault(f"python3 knows no encoding {encoding}") from None
        strip = table.take("strip", bool, False)
        columns = table.texts("columns")
        return FileForm(form, encoding, delimiter, quote, columns, strip)

    def events(self, time: "_Table", numbers: Dict[str, bool]) -> Tuple[EventForm, ...]:
        rows = self.table.get("events", [])
        if not isinstance(rows, list) or not all(isinstance(row, dict) for row in rows):
            raise self.fault("`events` is a list of tables, `[[events]]`")
        if "event" in self.table:
            rows = [{"event": self.take("event", str)}, *rows]
        if not rows:
            raise self.fault('`event` is missing, as `event = "admit({who},{bed})"`')
        return tuple(
            _Table(f"events {number}", row, self.path).event(time, numbers)
            for number, row in enumerate(rows, 1)
        )

    def event(self, time: "_Table", numbers: Dict[str, bool]) -> EventForm:
        self.known(("event", "when", "time", "zone_column", "suffix", "optional"))
        suffix = self.take("suffix", str, "")
        if suffix and not is_name("a" + suffix):
            raise self.fault("`suffix` has letters, digits and `_` alone")
        column = self.take("time", str, time.take("column", str))
        if column is None:
            raise self.fault("no `column` under [time], and no `time` here")
        return EventForm(
            event=EventTemplate.read(self.need("event", "the template"), numbers),
            time=column,
            zone=self.take("zone_column", str, time.take("zone_column", str)),
            when=self.conditions("when"),
            suffix=suffix,
            optional=self.take("optional", bool, False),
        )

    def times(self) -> TimeReader:
        unit = self.take("unit", str)
        if unit not in ALL_UNITS:
            raise self.fault(f"`unit` is one of {', '.join(ALL_UNITS)}")
        rounds = self.one_of("round", ("fault", "down"), "fault")
        zeros = self.one_of("zeros", ("fault", "drop"), "fault")
        try:
            origin = self._origin(self.take("origin", str, "1970-01-01T00:00:00Z"))
            form = TimeForm(
                formats=self.texts("format", ("iso",)),
                zone=self.take("zone", str),
                unit=unit,
                origin=origin,
                round_down=rounds == "down",
                drop_zeros=zeros == "drop",
            )
            return TimeReader(form)
        except TimeFault as fault:
            raise self.fault(str(fault)) from None

    def _origin(self, text: str) -> datetime:
        form = "%Y-%m-%dT%H:%M:%S"
        text = text if "T" in text else f"{text}T00:00:00"
        zone = find_zone(self.take("zone", str, "UTC")) if text[-1] != "Z" else None
        try:
            local = datetime.strptime(text.rstrip("Z"), form)
        except ValueError:
            raise self.fault("`origin` is a time as 2024-01-01T00:00:00Z") from None
        return local.replace(tzinfo=zone or timezone.utc)


def _zipped(path: str) -> bool:
    return path.lower().endswith(".gz")
