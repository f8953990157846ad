"""Ground terms and patterns, as `ec` reads and writes them.

A *term* is what an event or a property is called: `lend(dune,ann)`. It has a name and
0 to 8 arguments, each a whole number of 64 bits or a name. A *pattern* has variables
(`Book`) and `_` among its arguments; rules are made of patterns, and questions too.
"""

from __future__ import annotations

import re
from dataclasses import dataclass
from functools import cached_property, total_ordering
from typing import Dict, Iterator, List, Mapping, Optional, Tuple, Union

from .errors import TermError

LONGEST_NAME = 64
"""Bytes of a name."""
MOST_ARGUMENTS = 8
LEAST_NUMBER = -(2**63)
GREATEST_NUMBER = 2**63 - 1
MOST_DIGITS = 20

Argument = Union[int, str]
"""A number, or a name."""
Binding = Mapping[str, Argument]
"""The value of each variable, by the variable's name."""

_NAME = re.compile(r"[a-z][A-Za-z0-9_]*")
_VARIABLE = re.compile(r"[A-Z][A-Za-z0-9_]*")
_NUMBER = re.compile(r"-?[0-9]+")


def is_name(text: str) -> bool:
    """Whether a text is a name: a lower case letter, then letters, digits and `_`."""
    return len(text) <= LONGEST_NAME and _NAME.fullmatch(text) is not None


def is_variable(text: str) -> bool:
    """Whether a text is a variable: an upper case letter, then as in a name."""
    return len(text) <= LONGEST_NAME and _VARIABLE.fullmatch(text) is not None


def number_value(text: str) -> Optional[int]:
    """The value of an optional `-` and 1 to 20 digits, or None where it is none.

    Leading zeros and `-0` are allowed; the value must fit 64 bits with a sign.
    """
    if _NUMBER.fullmatch(text) is None or len(text.lstrip("-")) > MOST_DIGITS:
        return None
    value = int(text)
    return value if LEAST_NUMBER <= value <= GREATEST_NUMBER else None


def _argument_key(argument: Argument) -> Tuple[int, int, str]:
    """Numbers come before names, numbers by value, and names by their bytes."""
    if isinstance(argument, int):
        return (0, argument, "")
    return (1, 0, argument)


@total_ordering
@dataclass(frozen=True)
class Term:
    """A ground term. `str()` writes it as `ec` does; the order is that of `ec`.

    `Term("lend", ("dune", "ann"))` is `lend(dune,ann)`. Arguments that spell no number
    or name raise `TermError`.
    """

    name: str
    arguments: Tuple[Argument, ...] = ()

    def __post_init__(self) -> None:
        if not is_name(self.name):
            raise TermError(self.name, 1, name_fault(self.name))
        if len(self.arguments) > MOST_ARGUMENTS:
            reason = f"a term has at most {MOST_ARGUMENTS} arguments"
            raise TermError(self.name, 1, reason)
        for argument in self.arguments:
            if isinstance(argument, int):
                if not LEAST_NUMBER <= argument <= GREATEST_NUMBER:
                    raise TermError(str(argument), 1, "the number needs over 64 bits")
            elif not is_name(argument):
                raise TermError(argument, 1, name_fault(argument))

    @staticmethod
    def parse(text: str) -> Term:
        """The term that a whole word spells, without blanks.

        Raises `TermError`, which says where the word goes wrong and what was expected.
        """
        name, places = _parse(text, patterns=False)
        return _known(name, tuple(_ground(place) for place in places))

    @property
    def arity(self) -> int:
        """How many arguments it has."""
        return len(self.arguments)

    @property
    def shape(self) -> Tuple[str, int]:
        """Its name, and how many arguments it has."""
        return self.name, len(self.arguments)

    def sort_key(self) -> Tuple[str, int, Tuple[Tuple[int, int, str], ...]]:
        """What the order goes by: name, number of arguments, arguments."""
        arguments = tuple(_argument_key(argument) for argument in self.arguments)
        return (self.name, len(self.arguments), arguments)

    def __lt__(self, other: Term) -> bool:
        if not isinstance(other, Term):
            return NotImplemented
        return self.sort_key() < other.sort_key()

    @cached_property
    def text(self) -> str:
        """The term as `ec` writes it, made once."""
        return _written(self.name, self.arguments)

    def __str__(self) -> str:
        return self.text


def _known(name: str, arguments: Tuple[Argument, ...]) -> Term:
    """A term whose parts are known to be as they must be; it is not checked again."""
    term = object.__new__(Term)
    object.__setattr__(term, "name", name)
    object.__setattr__(term, "arguments", arguments)
    return term


@dataclass(frozen=True)
class Variable:
    """A variable of a pattern. It stands for one argument, throughout the pattern."""

    name: str

    def __str__(self) -> str:
        return self.name


@dataclass(frozen=True)
class Anything:
    """The place `_` of a pattern, which fits any argument."""

    def __str__(self) -> str:
        return "_"


ANYTHING = Anything()
Place = Union[int, str, Variable, Anything]
"""What stands at a place of a pattern: a number, a name, a variable, or `_`."""


@dataclass(frozen=True)
class Pattern:
    """A term with variables and `_` among its arguments, which fits ground terms."""

    name: str
    places: Tuple[Place, ...] = ()

    @staticmethod
    def parse(text: str) -> Pattern:
        """The pattern that a whole word spells, as `in(_,ward)` or `in(Bed,Bed)`.

        Raises `TermError`, which says where the word goes wrong and what was expected.
        """
        name, places = _parse(text, patterns=True)
        return Pattern(name, tuple(places))

    @property
    def arity(self) -> int:
        """How many arguments the terms have that it fits."""
        return len(self.places)

    @property
    def shape(self) -> Tuple[str, int]:
        """Their name, and how many arguments they have."""
        return self.name, len(self.places)

    def variables(self) -> List[str]:
        """The names of its variables, each once, in the order in which they come."""
        named = (place.name for place in self.places if isinstance(place, Variable))
        return list(dict.fromkeys(named))

    def is_ground(self) -> bool:
        """Whether it has neither variables nor `_`."""
        return not any(isinstance(place, (Variable, Anything)) for place in self.places)

    def match(
        self, term: Term, binding: Optional[Binding] = None
    ) -> Optional[Dict[str, Argument]]:
        """The values of the variables with which it fits the term; None if it does not.

        With a `binding`, its values stand, and those of further variables come to them.
        """
        if term.name != self.name or len(term.arguments) != len(self.places):
            return None
        values: Dict[str, Argument] = dict(binding) if binding else {}
        for place, argument in zip(self.places, term.arguments):
            if isinstance(place, Variable):
                if values.setdefault(place.name, argument) != argument:
                    return None
            elif not isinstance(place, Anything) and place != argument:
                return None
        return values

    def fill(self, binding: Binding) -> Term:
        """The term with the value of each variable in its place.

        Raises `KeyError` for a variable without a value, and `ValueError` for `_`.
        """
        return _known(self.name, tuple(value_at(p, binding) for p in self.places))

    def __str__(self) -> str:
        return _written(self.name, self.places)


def value_at(place: Place, binding: Binding) -> Argument:
    """The value of a place of a pattern, or of a side of a comparison."""
    if isinstance(place, Variable):
        return binding[place.name]
    if isinstance(place, Anything):
        raise ValueError("_ has no value")
    return place


def comes_before(left: Argument, right: Argument) -> bool:
    """Whether one argument comes before another: numbers by value, then names."""
    return _argument_key(left) < _argument_key(right)


def _written(name: str, places: Tuple[Place, ...]) -> str:
    if not places:
        return name
    return f"{name}({','.join(map(str, places))})"


def _parse(text: str, patterns: bool) -> Tuple[str, List[Place]]:
    """The name and the places of a whole word."""
    opening = text.find("(")
    name = text if opening < 0 else text[:opening]
    if not is_name(name):
        raise TermError(text, 1, name_fault(name))
    if opening < 0:
        return name, []
    closing = text.find(")", opening)
    if closing < 0:
        raise TermError(text, len(text) + 1, "a ')' is expected behind the arguments")
    if closing + 1 < len(text):
        raise TermError(text, closing + 2, "nothing may stand behind the ')'")
    places: List[Place] = []
    for column, part in _parts(text, opening + 1, closing):
        place = _place(part, patterns)
        if place is None:
            raise TermError(text, column, place_fault(part, patterns))
        places.append(place)
    if len(places) > MOST_ARGUMENTS:
        reason = f"{len(places)} arguments; a term has at most {MOST_ARGUMENTS}"
        raise TermError(text, opening + 1, reason)
    return name, places


def _parts(text: str, start: int, end: int) -> Iterator[Tuple[int, str]]:
    """The texts between commas, each with its column, from 1."""
    for part in text[start:end].split(","):
        yield start + 1, part
        start += len(part) + 1


def _place(part: str, patterns: bool) -> Optional[Place]:
    if is_name(part):
        return part
    if patterns and part == "_":
        return ANYTHING
    if patterns and is_variable(part):
        return Variable(part)
    return number_value(part)


def _ground(place: Place) -> Argument:
    assert isinstance(place, (int, str))
    return place


def name_fault(text: str) -> str:
    """Why a text is no name, in words."""
    if not text:
        return "a name is expected: a lower case letter, then letters, digits and _"
    if len(text) > LONGEST_NAME and _NAME.fullmatch(text):
        return f"the name has {len(text)} bytes; a name has at most {LONGEST_NAME}"
    if not "a" <= text[0] <= "z":
        return f"a name begins with a lower case letter a to z, not with {text[0]!r}"
    wrong = next((c for c in text if re.fullmatch(r"[A-Za-z0-9_]", c) is None), "")
    return f"{wrong!r} can't stand in a name; it has letters a to z, digits and _"


def place_fault(part: str, patterns: bool = False) -> str:
    """Why a text is no argument, in words."""
    if not part:
        return "an argument is expected: a whole number or a name"
    if _NUMBER.fullmatch(part):
        if len(part.lstrip("-")) > MOST_DIGITS:
            return f"the number has over {MOST_DIGITS} digits"
        return f"{part} needs over 64 bits; numbers go from -2^63 to 2^63 - 1"
    if part == "_" or is_variable(part):
        return f"{part} stands for anything; here a number or a name is expected"
    if part[0].isdigit() or part[0] == "-":
        return f"{part!r} is no whole number, and a name begins with a letter a to z"
    if patterns and part[0].isascii() and part[0].isupper():
        return "a variable has letters a to z, digits and _, and at most 64 of them"
    return name_fault(part)
