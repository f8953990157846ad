"""Names of `ec` for the texts of people's records, and the way back.

A name of `ec` is a lower case letter, then letters, digits and `_`, at most 64 bytes.
A text such as "B3 West" becomes `b3_west`: letters become lower case and lose their
accents, and what is neither a letter nor a digit becomes `_`. So several texts may want
one name. That is a fault and never a silent merge: who has the records says, by a row
of the names file, which other name one of them takes.

The names file (`names.tsv`) has a line for each name: what it names (`name` for an
argument of an event, `event` for the identity of one), the name, the form that made it
(`p{}` puts a `p` before the text), the text, and where the form has several fields,
each of their texts. It is read before each run and wins over what a text would become,
so a name stays what it was and can be changed by hand.
"""

from __future__ import annotations

import os
import re
import tempfile
import unicodedata
from dataclasses import dataclass
from typing import Dict, List, Optional, Sequence, Tuple

from .errors import HistoryError
from .terms import LONGEST_NAME, is_name

HEADER = ("kind", "name", "form", "text")

# Letters that have no decomposition into a letter of ASCII and an accent.
_SPELLED = {"ß": "ss", "æ": "ae", "œ": "oe", "ø": "o", "đ": "d", "ð": "d", "ł": "l"}
_SPELLED.update({"þ": "th", "ı": "i", "ħ": "h", "ŧ": "t", "ŋ": "ng"})

_ESCAPED = {"\\": "\\\\", "\t": "\\t", "\n": "\\n", "\r": "\\r"}
_UNESCAPED = {"\\\\": "\\", "\\t": "\t", "\\n": "\n", "\\r": "\r"}


class NameFault(HistoryError, ValueError):
    """A text that has no name of its own; the message says what to do."""


def spelled(text: str, keep_case: bool = False) -> str:
    """The letters, digits and `_` that stand for a text within a name.

    Letters of other scripts become `u` and their number in hexadecimal digits. What
    comes out is empty where the text has no letter and no digit.
    """
    pieces = []
    for letter in text if keep_case else text.lower():
        lower = letter.lower()
        if lower in _SPELLED:
            same = letter == lower
            pieces.append(_SPELLED[lower] if same else _SPELLED[lower].capitalize())
            continue
        for part in unicodedata.normalize("NFKD", letter):
            if part.isascii() and part.isalnum():
                pieces.append(part)
            elif unicodedata.combining(part):
                continue
            elif part.isalnum():
                pieces.append(f"_u{ord(part):x}_")
            else:
                pieces.append("_")
    return re.sub("_+", "_", "".join(pieces)).strip("_")


@dataclass(frozen=True)
class Form:
    """How a name is made: literal pieces around `{}`, once for each field."""

    kind: str
    text: str

    def fill(self, parts: Sequence[str]) -> str:
        pieces = self.text.split("{}")
        filled = [pieces[0]]
        for part, piece in zip(parts, pieces[1:]):
            filled += [part, piece]
        return "".join(filled)


@dataclass(frozen=True)
class Named:
    """What a name stands for: its form and the texts of its fields."""

    form: Form
    parts: Tuple[str, ...]

    @property
    def text(self) -> str:
        """The text that people know: the field, or the form with all its fields."""
        return self.parts[0] if len(self.parts) == 1 else self.form.fill(self.parts)


class Names:
    """All names given so far, each with the one thing that it names.

    Where `forgets_plain` is set, the identities of events in which the text stands as
    it is are not kept: there may be many, and nothing is lost by it.
    """

    def __init__(self, keep_case: bool = False) -> None:
        self.keep_case = keep_case
        self.forgets_plain = False
        self._names: Dict[Named, str] = {}
        self._named: Dict[Tuple[str, str], Named] = {}

    def __len__(self) -> int:
        return len(self._names)

    def name_of(self, form: Form, parts: Sequence[str]) -> str:
        """The name for the texts, which is the same from now on.

        Raises NameFault where the texts give no name, one of over 64 bytes, or one that
        stands for something else.
        """
        named = Named(form, tuple(parts))
        known = self._names.get(named)
        if known is not None:
            return known
        name = self._made(named)
        if self.forgets_plain and form.kind == "event" and name == form.fill(parts):
            return name
        other = self._named.get((form.kind, name))
        if other is not None:
            raise NameFault(
                f"{named.text!r} and {other.text!r} would both be {name}: give one of "
                f"them another name by the line {_example(named)} of the names file"
            )
        self._add(named, name)
        return name

    def text_of(self, name: str, kind: str = "name") -> Optional[str]:
        """The text that a name stands for; none where it is not known."""
        named = self._named.get((kind, name))
        return None if named is None else named.text

    def names_for(self, text: str, kind: str = "name") -> List[str]:
        """The names that stand for a text, in their order; maybe none."""
        return sorted(
            name
            for (known, name), named in self._named.items()
            if known == kind and named.text == text
        )

    def texts(self, kind: str = "name") -> List[str]:
        """All texts that names stand for."""
        return [
            named.text for (known, _), named in self._named.items() if known == kind
        ]

    def _made(self, named: Named) -> str:
        for part in named.parts:
            if not part:
                raise NameFault("an empty field has no name")
        pieces = [spelled(part, self.keep_case) for part in named.parts]
        for part, piece in zip(named.parts, pieces):
            if not piece:
                raise NameFault(
                    f"{part!r} has no letter and no digit to make a name of: give it "
                    f"one by the line {_example(named)} of the names file"
                )
        name = named.form.fill(pieces)
        if name[0].isupper():
            name = name[0].lower() + name[1:]
        if not name[0].islower():
            name = "n" + name
        if len(name) > LONGEST_NAME:
            raise NameFault(
                f"the name of {named.text!r} would have {len(name)} bytes, and ec "
                f"takes {LONGEST_NAME}: give it a shorter one by the line "
                f"{_example(named)} of the names file"
            )
        return name

    def _add(self, named: Named, name: str) -> None:
        self._names[named] = name
        self._named[(named.form.kind, name)] = named

    @classmethod
    def read(cls, path: str, keep_case: bool = False) -> "Names":
        """The names of a file; none where there is no such file.

        Raises NameFault, with the line, where the file is none of names.
        """
        names = cls(keep_case)
        if not os.path.exists(path):
            return names
        with open(path, encoding="utf-8-sig", newline="") as file:
            lines = file.read().split("\n")
        for number, line in enumerate(lines, 1):
            row = line.rstrip("\r").split("\t")
            if row == [""] or (number == 1 and tuple(row) == HEADER):
                continue
            names._read_row(f"{path}, line {number}", row)
        return names

    def _read_row(self, place: str, row: List[str]) -> None:
        if len(row) < 4 or row[0] not in ("name", "event"):
            raise NameFault(
                f"{place}: a line is `name` or `event`, the name, its form and its "
                "text, with tabs between them"
            )
        kind, name, form_text, *texts = (_unescape(part) for part in row)
        form = Form(kind, form_text)
        fields = form_text.count("{}")
        parts = texts if fields == 1 else texts[1:]
        if not fields or len(parts) != fields:
            raise NameFault(
                f"{place}: the form {form_text} has {fields} fields, and the line "
                f"{len(parts)} texts for them"
            )
        if not is_name(name):
            raise NameFault(
                f"{place}: {name} is no name of ec: a lower case letter, then letters, "
                f"digits and `_`, at most {LONGEST_NAME} bytes"
            )
        named = Named(form, tuple(parts))
        if named in self._names or (kind, name) in self._named:
            raise NameFault(f"{place}: the name or its text stands there twice")
        self._add(named, name)

    def write(self, path: str) -> None:
        """Writes the file anew, whole or not at all."""
        lines = ["\t".join(HEADER)]
        for (kind, name), named in sorted(self._named.items(), key=lambda row: row[0]):
            row = [kind, name, named.form.text, named.text]
            row += named.parts if len(named.parts) > 1 else ()
            lines.append("\t".join(_escape(part) for part in row))
        folder = os.path.dirname(os.path.abspath(path))
        handle, draft = tempfile.mkstemp(prefix=".names-", dir=folder)
        try:
            with open(handle, "w", encoding="utf-8", newline="") as file:
                file.write("\n".join(lines) + "\n")
            os.chmod(draft, 0o666 & ~umask())
            os.replace(draft, path)
        except BaseException:
            os.unlink(draft)
            raise


def umask() -> int:
    """The bits that the files of this process do without."""
    mask = os.umask(0)
    os.umask(mask)
    return mask


def _example(named: Named) -> str:
    """A line of the names file that gives the thing another name."""
    row = [named.form.kind, "NAME", named.form.text, named.text]
    row += named.parts if len(named.parts) > 1 else ()
    return "`" + "<tab>".join(_escape(part) for part in row) + "`"


def _escape(text: str) -> str:
    return re.sub(r"[\\\t\n\r]", lambda found: _ESCAPED[found.group()], text)


def _unescape(text: str) -> str:
    return re.sub(r"\\[\\tnr]", lambda found: _UNESCAPED[found.group()], text)
