"""A history in parts: a folder with the lines of each part, and what each one holds.

`ec-history import --into FOLDER` writes it:

    theory.ec        the theory, as it was when the parts were made
    part-000.lines   the lines of the first part, and so on
    manifest.json    the theory's SHA-256, the places of the key in events and
                     properties (from 1, null for none), and of each part how many lines
                     and events it has, and the SHA-256 of its lines

Which part has a key follows from the text of the key alone.
"""

from __future__ import annotations

import hashlib
import json
import os
from dataclasses import dataclass, replace
from typing import Any, Dict, List, NamedTuple, Optional

from .errors import HistoryError
from .keys import EVENT, PROPERTY, Form, Keys, Split
from .terms import Anything, Pattern, Term, Variable
from .theory import Theory

MANIFEST, THEORY = "manifest.json", "theory.ec"
MOST_PARTS = 512
"""All parts of a folder are written at the same time, each to a file."""
SLOTS = 1 << 16
"""Keys are counted by so many numbers, before it is known how many parts there are."""
_FORM = 1


class PartsFault(HistoryError):
    """A folder that is no history in parts, or was changed; it says what to do."""


class Held(NamedTuple):
    """What a part holds: lines, events that are present behind the last of them, and
    the SHA-256 of the lines.
    """

    lines: int
    events: int
    sha256: str


def slot_of(text: str) -> int:
    """The slot of a key, by its text: the same on each machine and in each run."""
    digest = hashlib.blake2b(text.encode(), digest_size=2).digest()
    return int.from_bytes(digest, "big")


def slot_of_event(split: Split, event: Term) -> Optional[int]:
    """The slot of an event; None where it goes to all parts.

    An event that no rule meets by its name has no key, and goes to one part.
    """
    if not split.is_known(EVENT, event):
        return slot_of(event.text)
    key = split.key(EVENT, event)
    return None if key is None else slot_of(str(key))


@dataclass(frozen=True)
class Parts:
    """A folder of parts. The parts are numbered from 0.

    `sha256` is that of the theory, and `digest` stands for all that the folder has.
    """

    path: str
    theory: Theory
    sha256: str
    split: Split
    held: List[Held]

    @property
    def digest(self) -> str:
        """The same for two folders that hold the same."""
        return hashlib.sha256(repr((self.sha256, self.held)).encode()).hexdigest()

    def at(self, path: str) -> "Parts":
        """The same parts, in a folder of another path."""
        return replace(self, path=path)

    @property
    def count(self) -> int:
        """How many parts there are."""
        return len(self.held)

    @property
    def theory_path(self) -> str:
        """The theory's file in the folder."""
        return os.path.join(self.path, THEORY)

    def lines_path(self, part: int) -> str:
        """The file of a part's lines."""
        return os.path.join(self.path, f"part-{part:03}.lines")

    def lines(self, part: int) -> bytes:
        """The lines of a part. Raises PartsFault where they are not as written."""
        path = self.lines_path(part)
        try:
            with open(path, "rb") as file:
                content = file.read()
        except OSError as fault:
            raise PartsFault(f"{path} can't be read: {fault.strerror}") from None
        if hashlib.sha256(content).hexdigest() != self.held[part].sha256:
            raise PartsFault(
                f"{path} has changed since it was written: its SHA-256 is another than "
                f"that in {MANIFEST}. Import the records again, into another folder"
            )
        return content

    def part_of_event(self, event: Term) -> Optional[int]:
        """The part that has an event; None where all have it."""
        slot = slot_of_event(self.split, event)
        return None if slot is None else slot % self.count

    def part_of_property(self, term: Term) -> Optional[int]:
        """The part that answers about a property; None where each does."""
        key = self.split.key(PROPERTY, term)
        return None if key is None else slot_of(str(key)) % self.count

    def asked(self, kind: str, pattern: Optional[Pattern]) -> List[int]:
        """The parts that have events or properties that fit a pattern (None is any)."""
        every = list(range(self.count))
        if pattern is None:
            return every
        form = Form(kind, pattern.name, pattern.arity)
        if form not in self.split.places:
            return every if kind == EVENT else [0]
        place = self.split.places[form]
        if place is None:
            return [0]
        key = pattern.places[place]
        if isinstance(key, (Variable, Anything)):
            return every
        return [slot_of(str(key)) % self.count]

    def owns_property(self, part: int, term: Term) -> bool:
        """Whether a part is the one whose answer about a property is taken."""
        return (self.part_of_property(term) or 0) == part

    def owns_event(self, part: int, event: Term) -> bool:
        """Whether a part is the one of which an event is taken."""
        return (self.part_of_event(event) or 0) == part

    def write_manifest(self) -> None:
        """Writes what the folder holds, the theory's file being there already."""
        table = {
            "form": _FORM,
            "theory": {"file": THEORY, "sha256": self.sha256},
            "keys": {
                kind: {
                    f"{form.name}/{form.arity}": None if place is None else place + 1
                    for form, place in self.split.places.items()
                    if form.kind == kind
                }
                for kind in (EVENT, PROPERTY)
            },
            "parts": [held._asdict() for held in self.held],
        }
        with open(os.path.join(self.path, MANIFEST), "w", encoding="utf-8") as file:
            json.dump(table, file, indent=1)
            file.write("\n")


def is_parts(path: str) -> bool:
    """Whether a path is that of a folder, and not of a file of lines."""
    return os.path.isdir(path)


def sha256_of(path: str) -> str:
    """The SHA-256 of a file, in hexadecimal digits."""
    with open(path, "rb") as file:
        return hashlib.sha256(file.read()).hexdigest()


def open_parts(path: str, theory_path: Optional[str] = None) -> Parts:
    """The parts of a folder, for the theory of that path, or for its own.

    Raises PartsFault where it is none, or was made for another theory.
    """
    manifest = os.path.join(path, MANIFEST)
    try:
        with open(manifest, encoding="utf-8") as file:
            table = json.load(file)
    except OSError as fault:
        raise PartsFault(
            f"{path} is no history in parts: {MANIFEST} can't be read: "
            f"{fault.strerror}. `ec-history import --into` makes one"
        ) from None
    except ValueError as fault:
        raise PartsFault(f"{manifest}: it is no JSON: {fault}") from None
    try:
        return _parts(path, table, theory_path)
    except (KeyError, TypeError, ValueError) as fault:
        raise PartsFault(f"{manifest} is not as it was written: {fault!r}") from None
    except OSError as fault:
        raise PartsFault(f"{fault.filename} can't be read: {fault.strerror}") from None


def _parts(path: str, table: Dict[str, Any], theory_path: Optional[str]) -> Parts:
    if table["form"] != _FORM:
        raise PartsFault(
            f"{path} has the form {table['form']}, and this ec-history knows {_FORM}: "
            "use the ec-history that made it, or a newer one"
        )
    sha256 = table["theory"]["sha256"]
    own = os.path.join(path, THEORY)
    for file in (own, theory_path or own):
        if sha256_of(file) != sha256:
            raise PartsFault(
                f"{file} is not the theory that the parts of {path} were made for: "
                "import the records again with it, into another folder"
            )
    theory = Theory.read(own)
    split = Split(_places(table))
    if not Keys(theory).agree(split):
        raise PartsFault(
            f"{path}: the theory does not fall apart by the keys that the manifest "
            "names: import the records again, into another folder"
        )
    return Parts(path, theory, sha256, split, [Held(**each) for each in table["parts"]])


def _places(table: Dict[str, Any]) -> Dict[Form, Optional[int]]:
    """The places of the key that a manifest names."""
    places: Dict[Form, Optional[int]] = {}
    for kind, members in table["keys"].items():
        for shape, place in members.items():
            name, _, arity = shape.partition("/")
            places[Form(kind, name, int(arity))] = None if place is None else place - 1
    return places
