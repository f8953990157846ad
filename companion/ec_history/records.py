"""Records of CSV, TSV, JSON lines and XES: each a row number and its fields."""

from __future__ import annotations

import csv
import gzip
import io
import json
from dataclasses import dataclass, field
from difflib import get_close_matches
from typing import IO, Any, Dict, Iterator, List, Sequence, Tuple

from .errors import HistoryError
from .mapping import FileForm
from .xes import XesFault, read_events


class FileFault(HistoryError, ValueError):
    """A file of which no record can be read; the message says what to do."""


@dataclass
class Record:
    """A record, with the place where it stands, or what is wrong with it."""

    place: str
    fields: Dict[str, str] = field(default_factory=dict)
    fault: str = ""


def read_records(path: str, form: FileForm, wanted: Sequence[str]) -> Iterator[Record]:
    """The records of a file, whose columns include those that are wanted.

    Raises FileFault; what is wrong with one record is told in its `fault`.
    """
    try:
        with open(path, "rb") as file:
            yield from _records(_unzipped(file), form, wanted)
    except FileFault as fault:
        raise FileFault(f"{path}: {fault}") from None
    except (OSError, EOFError) as fault:
        raise FileFault(f"{path}: can't be read: {fault}") from None


def _unzipped(file: IO[bytes]) -> IO[bytes]:
    magic = file.read(2)
    file.seek(0)
    return gzip.open(file) if magic == b"\x1f\x8b" else file  # type: ignore


def _records(
    file: IO[bytes], form: FileForm, wanted: Sequence[str]
) -> Iterator[Record]:
    if form.format == "xes":
        yield from _xes_records(file, form, wanted)
        return
    name = form.encoding.lower().replace("_", "-")
    encoding = "utf-8-sig" if name in ("utf-8", "utf8") else form.encoding
    reader = _json_records if form.format == "jsonl" else _csv_records
    try:
        with io.TextIOWrapper(file, encoding, "surrogateescape", newline="") as text:
            for record in reader(text, form, wanted):
                yield _decoded(record, form)
    except UnicodeError as fault:
        raise FileFault(f"the file is not {form.encoding}: {fault}") from None


def _decoded(record: Record, form: FileForm) -> Record:
    """The record, at fault where a byte of it is none of the encoding."""
    for column, text in record.fields.items():
        if not text.isascii():
            for letter in text:
                if "\udc80" <= letter <= "\udcff":
                    record.fault = record.fault or (
                        f"column {column}: the byte {ord(letter) - 0xDC00:#x} is not "
                        f"{form.encoding}: name the file's encoding, as "
                        '`encoding = "cp1252"` under [file]'
                    )
        if form.strip:
            record.fields[column] = text.strip()
    return record


def _missing(columns: Sequence[str], wanted: Sequence[str]) -> None:
    for column in wanted:
        if column not in columns:
            near = get_close_matches(column, columns, 1)
            hint = f"did you mean {near[0]!r}?" if near else "there are"
            raise FileFault(
                f"the map names a column {column!r}, and the file has none: {hint}"
                + ("" if near else f" {', '.join(map(repr, columns))}")
            )


def _csv_records(
    text: IO[str], form: FileForm, wanted: Sequence[str]
) -> Iterator[Record]:
    csv.field_size_limit(2**31 - 1)
    quoting = csv.QUOTE_MINIMAL if form.quote else csv.QUOTE_NONE
    rows = csv.reader(
        text,
        delimiter=form.delimiter,
        quotechar=form.quote or None,
        quoting=quoting,
        strict=True,
    )
    columns: List[str] = list(form.columns)
    number = 0
    while True:
        first_line = rows.line_num + 1
        place = f"row {number + 1} (line {first_line})"
        try:
            row = next(rows)
        except StopIteration:
            break
        except csv.Error as fault:
            yield Record(place, fault=f"it is no {form.format}: {fault}")
            number += 1
            continue
        if not row:
            continue
        if not columns:
            columns = _header(row, form)
            continue
        if number == 0:
            _missing(columns, wanted)
        number += 1
        if len(row) != len(columns):
            why = f"it has {len(row)} fields, and the head of the file {len(columns)}"
            yield Record(place, fault=why)
        else:
            yield Record(place, dict(zip(columns, row)))
    if not columns:
        raise FileFault("the file is empty: it has not even a head with its columns")
    _missing(columns, wanted)


def _header(row: List[str], form: FileForm) -> List[str]:
    columns = [column.strip() for column in row]
    for column in columns:
        if columns.count(column) > 1:
            raise FileFault(f"two columns are called {column!r}")
    return columns


def _json_records(
    text: IO[str], form: FileForm, wanted: Sequence[str]
) -> Iterator[Record]:
    number = 0
    for line_number, line in enumerate(text, 1):
        if not line.strip():
            continue
        number += 1
        place = f"row {number} (line {line_number})"
        try:
            value = json.loads(line, parse_int=str, parse_float=str, parse_constant=str)
        except ValueError as fault:
            yield Record(place, fault=f"it is no JSON: {fault}")
            continue
        if not isinstance(value, dict):
            yield Record(place, fault='it is no object of JSON, as {"id": 17}')
            continue
        fields = dict(_flat(value, ""))
        yield Record(place, {**dict.fromkeys(wanted, ""), **fields})


def _flat(value: Any, name: str) -> Iterator[Tuple[str, str]]:
    """The texts of a value, each by its path: `patient.id`."""
    if isinstance(value, dict):
        for key, inner in value.items():
            yield from _flat(inner, f"{name}.{key}" if name else key)
    elif isinstance(value, list):
        for place, inner in enumerate(value):
            yield from _flat(inner, f"{name}.{place}")
    elif value is None:
        yield name, ""
    elif isinstance(value, bool):
        yield name, "true" if value else "false"
    else:
        yield name, value


def _xes_records(
    file: IO[bytes], form: FileForm, wanted: Sequence[str]
) -> Iterator[Record]:
    try:
        for number, (trace, fields) in enumerate(read_events(file), 1):
            place = f"row {number} (trace {trace})"
            if form.strip:
                fields = {key: text.strip() for key, text in fields.items()}
            yield Record(place, {**dict.fromkeys(wanted, ""), **fields})
    except XesFault as fault:
        raise FileFault(str(fault)) from None
