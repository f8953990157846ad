"""Rows with columns, written as text, TSV or JSON."""

from __future__ import annotations

import json
from dataclasses import dataclass, field
from typing import IO, Dict, Iterable, List, Mapping, Sequence, Union

Cell = Union[str, int, bool, None, List[Union[str, int]]]

FORMATS = ("text", "tsv", "json")

_ESCAPES = str.maketrans({"\\": "\\\\", "\t": "\\t", "\n": "\\n", "\r": "\\r"})


@dataclass
class Table:
    """Rows, each with a cell for each column. Cells hold what JSON has.

    Columns of `hidden` are left out of a format: `text` hides what `words` says again,
    and lists are for JSON alone. None is an empty cell.
    """

    columns: Sequence[str]
    rows: Iterable[Sequence[Cell]]
    hidden: Mapping[str, Sequence[str]] = field(default_factory=dict)

    def write(self, output: IO[str], form: str) -> None:
        """Writes the rows: `text` in columns, `tsv` with a header, `json` as a list.

        In TSV a tab, a line end and a backslash within a cell are written `\\t`, `\\n`
        and `\\\\`, and truth as `yes` and `no`.
        """
        {"text": self._text, "tsv": self._tsv, "json": self._json}[form](output)

    def _shown(self, form: str) -> List[int]:
        hidden = self.hidden.get(form, ())
        return [i for i, name in enumerate(self.columns) if name not in hidden]

    def _text(self, output: IO[str]) -> None:
        places = self._shown("text")
        rows = [[_cell(row[i]) for i in places] for row in self.rows]
        widths = [max(map(len, column)) for column in zip(*rows)]
        for row in rows:
            cells = [cell.ljust(width) for cell, width in zip(row, widths)]
            output.write("  ".join(cells).rstrip() + "\n")

    def _tsv(self, output: IO[str]) -> None:
        places = self._shown("tsv")
        output.write("\t".join(self.columns[i] for i in places) + "\n")
        for row in list(self.rows):
            cells = (_cell(row[i]).translate(_ESCAPES) for i in places)
            output.write("\t".join(cells) + "\n")

    def _json(self, output: IO[str]) -> None:
        between = "[\n"
        for row in list(self.rows):
            members: Dict[str, Cell] = dict(zip(self.columns, row))
            output.write(between + json.dumps(members, ensure_ascii=False))
            between = ",\n"
        output.write("[]\n" if between == "[\n" else "\n]\n")


def _cell(cell: Cell) -> str:
    if cell is None:
        return ""
    if isinstance(cell, bool):
        return "yes" if cell else "no"
    return str(cell)
