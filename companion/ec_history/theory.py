"""A reader of theory files: their clauses, each with its line.

`Theory.read(path)` reads what `docs/theory-language.md` calls a theory, up to its
syntax. Whether a theory is accepted is for `ec` to say: clauses with too many arguments
or variables that nothing binds are read here as they stand.
"""

from __future__ import annotations

import os
from dataclasses import dataclass, field
from pathlib import Path
from typing import Callable, Dict, Iterator, List, Optional, Tuple, Type, TypeVar, Union

from .moments import Clock, clock_of
from .terms import (
    ANYTHING,
    Argument,
    Binding,
    Pattern,
    Place,
    Term,
    Variable,
    comes_before,
    value_at,
)
from .tokens import TheoryFault, Token, tokens_of

KEYWORDS = ("initiates", "terminates", "exclusive", "strong", "initially", "time")
OPERATORS = ("=", "!=", "<", "<=")


@dataclass(frozen=True)
class Literal:
    """A condition that a property is current, or (`positive` false) that it is not."""

    positive: bool
    property: Pattern

    def __str__(self) -> str:
        return str(self.property) if self.positive else f"not {self.property}"


@dataclass(frozen=True)
class Test:
    """A condition that compares two arguments."""

    left: Place
    operator: str
    right: Place

    def holds(self, binding: Binding) -> bool:
        """Whether the comparison is true with the values of its variables."""
        left, right = value_at(self.left, binding), value_at(self.right, binding)
        if self.operator == "=":
            return left == right
        if self.operator == "!=":
            return left != right
        if self.operator == "<":
            return comes_before(left, right)
        return left == right or comes_before(left, right)

    def filled(self, binding: Binding) -> str:
        """Its text with the values of its variables."""
        left, right = value_at(self.left, binding), value_at(self.right, binding)
        return f"{left} {self.operator} {right}"

    def __str__(self) -> str:
        return f"{self.left} {self.operator} {self.right}"


Condition = Union[Literal, Test]


@dataclass(frozen=True)
class Clause:
    """A clause: its number among all clauses, from 1; its first line; and its text."""

    clause: int
    line: int
    text: str


@dataclass(frozen=True)
class Rule(Clause):
    """A rule. `number` counts rules alone, from 1, as `why` does."""

    number: int
    initiates: bool
    event: Pattern
    head: Pattern
    conditions: Tuple[Condition, ...]

    @property
    def literals(self) -> List[Literal]:
        """The conditions that ask for a property, in their order."""
        return [c for c in self.conditions if isinstance(c, Literal)]

    @property
    def tests(self) -> List[Test]:
        """The conditions that compare, in their order."""
        return [c for c in self.conditions if isinstance(c, Test)]

    def meets(self, event: Term) -> Optional[Dict[str, Argument]]:
        """The binding under which the event fits the rule and all its tests hold.

        None where there is none. Where there is one, the rule does its part only if
        its literals agree with what is current at the event's time.
        """
        binding = self.event.match(event)
        if binding is None or not all(test.holds(binding) for test in self.tests):
            return None
        return binding


@dataclass(frozen=True)
class Exclusive(Clause):
    """Two different properties that fit the two patterns exclude each other."""

    left: Pattern
    right: Pattern

    def fits(self, one: Term, other: Term) -> bool:
        """Whether the patterns fit the two terms, in this order, under one binding."""
        binding = self.left.match(one)
        return binding is not None and self.right.match(other, binding) is not None


@dataclass(frozen=True)
class Strong(Clause):
    """Properties of this name and so many arguments start anew each time."""

    name: str
    arity: int


@dataclass(frozen=True)
class Initially(Clause):
    """A property that is there from before all events."""

    property: Pattern


@dataclass(frozen=True)
class Time(Clause):
    """The kind of the theory's times: `tick` or `civil`."""

    unit: str


AnyClause = Union[Rule, Exclusive, Strong, Initially, Time]
Made = Callable[[int, int, str], AnyClause]
"""What makes a clause of its number, its line and its text."""
ClauseType = TypeVar("ClauseType", bound=Clause)


@dataclass
class Theory:
    """The clauses of a theory, in their order."""

    clauses: List[AnyClause]
    path: Optional[str] = None
    _rules_by_event: Dict[Tuple[str, int], List[Rule]] = field(
        default_factory=dict, repr=False
    )

    def __post_init__(self) -> None:
        for rule in self.rules:
            key = (rule.event.name, rule.event.arity)
            self._rules_by_event.setdefault(key, []).append(rule)

    @staticmethod
    def read(path: Union[str, os.PathLike[str]]) -> Theory:
        """The theory in a file. Raises `OSError`, and `TheoryFault` with the place."""
        return Theory.parse(Path(path).read_bytes(), os.fspath(path))

    @staticmethod
    def parse(source: Union[bytes, str], path: Optional[str] = None) -> Theory:
        """The theory that a text is. Raises `TheoryFault` with the place."""
        if isinstance(source, str):
            source = source.encode()
        return Theory(list(_Reader(source).clauses()), path)

    def _of(self, kind: Type[ClauseType]) -> List[ClauseType]:
        return [clause for clause in self.clauses if isinstance(clause, kind)]

    @property
    def rules(self) -> List[Rule]:
        """The rules; that with number N stands at place N - 1."""
        return self._of(Rule)

    @property
    def exclusives(self) -> List[Exclusive]:
        """The `exclusive` declarations."""
        return self._of(Exclusive)

    @property
    def strongs(self) -> List[Strong]:
        """The `strong` declarations."""
        return self._of(Strong)

    @property
    def initials(self) -> List[Initially]:
        """The `initially` clauses."""
        return self._of(Initially)

    @property
    def time(self) -> str:
        """`tick` or `civil`: the first `time` clause, and `tick` without one."""
        times = self._of(Time)
        return times[0].unit if times else "tick"

    @property
    def clock(self) -> Clock:
        """What reads and writes the times of the theory."""
        return clock_of(self.time)

    def rule(self, number: int) -> Rule:
        """The rule that `why` names by this number, from 1."""
        return self.rules[number - 1]

    def rules_for(self, event: Term) -> List[Rule]:
        """The rules whose event has the term's name and number of arguments."""
        return self._rules_by_event.get((event.name, event.arity), [])

    def rules_met(self, event: Term) -> Iterator[Tuple[Rule, Dict[str, Argument]]]:
        """The rules that an event meets, in their order, each with the binding."""
        for rule in self.rules_for(event):
            binding = rule.meets(event)
            if binding is not None:
                yield rule, binding

    def initial_properties(self) -> List[Term]:
        """The properties that are there from before all events, each once, in order."""
        ground = [i.property for i in self.initials if i.property.is_ground()]
        return sorted({pattern.fill({}) for pattern in ground})

    def are_exclusive(self, one: Term, other: Term) -> bool:
        """Whether two properties exclude each other."""
        return one != other and any(
            clause.fits(one, other) or clause.fits(other, one)
            for clause in self.exclusives
        )

    def is_strong(self, term: Term) -> bool:
        """Whether a property starts anew each time that an event starts it."""
        shape = (term.name, term.arity)
        return any((strong.name, strong.arity) == shape for strong in self.strongs)


class _Reader:
    """Reads the tokens of a theory from the left, one clause after the other."""

    def __init__(self, source: bytes) -> None:
        self.source = source
        self.tokens = tokens_of(source)
        self.place = 0
        self.rules = 0

    @property
    def next(self) -> Token:
        return self.tokens[self.place]

    def fault(self, wanted: str) -> TheoryFault:
        token = self.next
        found = f"{token.text!r} stands here" if token.text else "the file ends"
        reason = f"{found}, where {wanted} is expected"
        return TheoryFault(token.line, token.column, "syntax", reason)

    def take(self, kind: str, wanted: str) -> Token:
        token = self.next
        if token.kind != kind:
            raise self.fault(wanted)
        self.place += 1
        return token

    def is_mark(self, *marks: str) -> bool:
        return self.next.kind == "mark" and self.next.text in marks

    def take_mark(self, *marks: str) -> Token:
        if not self.is_mark(*marks):
            raise self.fault(" or ".join(repr(mark) for mark in marks))
        return self.take("mark", "")

    def clauses(self) -> Iterator[AnyClause]:
        number = 0
        while self.next.kind != "end":
            number += 1
            yield self.clause(number)

    def clause(self, number: int) -> AnyClause:
        first = self.next
        if first.kind != "name" or first.text not in KEYWORDS:
            raise self.fault(f"a clause, which begins with {', '.join(KEYWORDS[:-1])}")
        self.place += 1
        body = {
            "initiates": self.rule,
            "terminates": self.rule,
            "exclusive": self.exclusive,
            "strong": self.strong,
            "initially": self.initially,
            "time": self.time,
        }[first.text]
        made = body(first.text)
        stop = self.take_mark(".")
        text = self.source[first.offset : stop.offset + 1].decode("latin-1")
        return made(number, first.line, text)

    def rule(self, keyword: str) -> Made:
        event = self.pattern("the rule's event")
        head = self.pattern("the rule's property")
        conditions: List[Condition] = []
        if self.next.kind == "name" and self.next.text == "if":
            self.place += 1
            conditions.append(self.condition())
            while self.is_mark(","):
                self.place += 1
                conditions.append(self.condition())
        elif not self.is_mark("."):
            raise self.fault("'if' or '.'")
        self.rules += 1
        parts = (self.rules, keyword == "initiates", event, head, tuple(conditions))
        return lambda clause, line, text: Rule(clause, line, text, *parts)

    def exclusive(self, _keyword: str) -> Made:
        left = self.pattern("the first property")
        right = self.pattern("the second property")
        return lambda clause, line, text: Exclusive(clause, line, text, left, right)

    def strong(self, _keyword: str) -> Made:
        name = self.term_name("the property's name")
        self.take_mark("/")
        arity = int(self.take("number", "a number of arguments").text)
        return lambda clause, line, text: Strong(clause, line, text, name, arity)

    def initially(self, _keyword: str) -> Made:
        property = self.pattern("a property")
        return lambda clause, line, text: Initially(clause, line, text, property)

    def time(self, _keyword: str) -> Made:
        if self.next.kind != "name" or self.next.text not in ("tick", "civil"):
            raise self.fault("'tick' or 'civil'")
        unit = self.take("name", "").text
        return lambda clause, line, text: Time(clause, line, text, unit)

    def term_name(self, wanted: str) -> str:
        if self.next.text in ("if", "not"):
            raise self.fault(wanted)
        return self.take("name", wanted).text

    def pattern(self, wanted: str) -> Pattern:
        return self.behind_name(self.term_name(wanted))

    def behind_name(self, name: str) -> Pattern:
        if not self.is_mark("("):
            return Pattern(name)
        self.place += 1
        places = [self.argument()]
        while self.take_mark(",", ")").text == ",":
            places.append(self.argument())
        return Pattern(name, tuple(places))

    def argument(self) -> Place:
        token = self.next
        if token.kind == "name" and token.text not in ("if", "not"):
            self.place += 1
            return token.text
        if token.kind == "number":
            self.place += 1
            return int(token.text)
        if token.kind == "variable":
            self.place += 1
            return Variable(token.text)
        if self.is_mark("_"):
            self.place += 1
            return ANYTHING
        raise self.fault("an argument (a name, a number, a variable or _)")

    def condition(self) -> Condition:
        if self.next.kind == "name" and self.next.text == "not":
            self.place += 1
            return Literal(False, self.pattern("a property"))
        behind = self.tokens[min(self.place + 1, len(self.tokens) - 1)]
        compares = behind.kind == "mark" and behind.text in OPERATORS
        if self.next.kind == "name" and not compares:
            return Literal(True, self.pattern("a condition"))
        left = self.argument()
        operator = self.take_mark(*OPERATORS).text
        return Test(left, operator, self.argument())
