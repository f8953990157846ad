"""What is wrong with a theory, in words: `ec`'s fault, and what can never be so.

`ec check` names a fault by a place, or by the number of a clause. Here the clause gets
its line, and the fault its variable or its pattern.
"""

from __future__ import annotations

import re
import subprocess
from dataclasses import dataclass
from difflib import get_close_matches
from typing import Iterator, List, Optional, Tuple

from .errors import HistoryError
from .refusals import fault_words, status_words
from .terms import MOST_ARGUMENTS, Anything, Pattern, Place, Variable
from .theory import AnyClause, Exclusive, Initially, Rule, Strong, Theory
from .tokens import TheoryFault


@dataclass(frozen=True)
class Finding:
    """What was found in a file: the line, from 1 (0 for the whole file), and why."""

    path: str
    line: int
    text: str

    def __str__(self) -> str:
        place = f"{self.path}:{self.line}" if self.line else self.path
        return f"{place}: {self.text}"


def check(program: str, path: str) -> Optional[str]:
    """The fault of a theory as `ec check` writes it; None where it is accepted."""
    open(path, "rb").close()
    words = [program, "check", path]
    asked = subprocess.run(words, stdout=subprocess.PIPE, check=False)
    reply = asked.stdout.decode("latin-1").strip()
    if asked.returncode == 3 and reply.startswith("theory "):
        return reply
    if asked.returncode:
        why = status_words(asked.returncode)
        raise HistoryError(f"{program} could not check {path}: {why}")
    return None


def fault_finding(path: str, reply: str) -> Finding:
    """The fault of a reply of `ec check`, in words."""
    *numbers, kind = reply.split(" ")[1:]
    places = [int(number) for number in numbers]
    try:
        theory = Theory.read(path)
    except TheoryFault as fault:
        if places == [fault.line, fault.column]:
            return Finding(path, fault.line, f"column {fault.column}: {fault.reason}")
        theory = Theory([])
    if len(places) == 2:
        text = f"column {places[1]}: {fault_words(kind)}"
        return Finding(path, places[0], text)
    if len(places) == 1 and places[0] <= len(theory.clauses):
        clause = theory.clauses[places[0] - 1]
        line, reason = _clause_fault(clause, kind)
        return Finding(path, line, f"clause {clause.clause}: {reason}")
    return Finding(path, 0, fault_words(kind))


def _clause_fault(clause: AnyClause, kind: str) -> Tuple[int, str]:
    """The line of a clause's fault, and what is wrong there."""
    if kind == "unbound":
        return _unbound(clause)
    for pattern, what in _patterns(clause):
        if kind == "arity" and pattern.arity > MOST_ARGUMENTS:
            count = f"{pattern.arity} arguments"
            reason = f"{what} {pattern} has {count}; at most {MOST_ARGUMENTS} may stand"
            return clause.line, reason
        if kind == "any" and what != "the event":
            if any(isinstance(place, Anything) for place in pattern.places):
                wanted = "a variable that the event has, or a name or number"
                if isinstance(clause, Initially):
                    wanted = "a name or a number"
                reason = f"`_` stands in {what} {pattern}, where {wanted} is expected"
                return _line_of(clause, "_"), reason
    if kind == "arity" and isinstance(clause, Strong):
        reason = f"{clause.name}/{clause.arity}: a property has 0 to {MOST_ARGUMENTS}"
        return clause.line, f"{reason} arguments"
    if kind == "any":
        return _line_of(clause, "_"), "`_` stands in a comparison: name a variable"
    return clause.line, fault_words(kind)


def _unbound(clause: AnyClause) -> Tuple[int, str]:
    """The first variable that nothing binds, with its line."""
    if isinstance(clause, Rule):
        bound = clause.event.variables()
        for place, what in _inner_places(clause):
            if isinstance(place, Variable) and place.name not in bound:
                reason = (
                    f"the variable {place.name} of {what} does not stand in the event "
                    f"{clause.event}; let the event name it"
                )
                return _line_of(clause, place.name), reason
    if isinstance(clause, Initially) and clause.property.variables():
        name = clause.property.variables()[0]
        reason = (
            f"the variable {name} stands in {clause.property}; `initially` names "
            "single things"
        )
        return _line_of(clause, name), reason
    return clause.line, fault_words("unbound")


def _inner_places(rule: Rule) -> Iterator[Tuple[Place, str]]:
    """The places of the property and the conditions of a rule."""
    for place in rule.head.places:
        yield place, f"the property {rule.head}"
    for literal in rule.literals:
        for place in literal.property.places:
            yield place, f"the condition {literal}"
    for test in rule.tests:
        yield test.left, f"the comparison {test}"
        yield test.right, f"the comparison {test}"


def _patterns(clause: AnyClause) -> Iterator[Tuple[Pattern, str]]:
    """The patterns of a clause, each with what it is."""
    if isinstance(clause, Rule):
        yield clause.event, "the event"
        yield clause.head, "the property"
        for literal in clause.literals:
            yield literal.property, "the condition"
    elif isinstance(clause, Exclusive):
        yield clause.left, "the property"
        yield clause.right, "the property"
    elif isinstance(clause, Initially):
        yield clause.property, "the property"


def _line_of(clause: AnyClause, word: str) -> int:
    """The line of the last place where a word stands in a clause."""
    text = re.sub("%[^\n]*", "", clause.text)
    places = list(re.finditer(rf"(?<![A-Za-z0-9_]){word}(?![A-Za-z0-9_])", text))
    before = text[: places[-1].start()] if places else ""
    return clause.line + before.count("\n")


def never_started(theory: Theory, path: str) -> Iterator[Finding]:
    """The properties that clauses name and that nothing starts."""
    started = startable(theory)
    for clause in theory.clauses:
        for pattern, what in _read_patterns(clause):
            if not any(may_meet(pattern, other) for other in started):
                text = f"{what} {pattern}: nothing starts it{_near(pattern, started)}"
                yield Finding(path, clause.line, text)
        if isinstance(clause, Strong):
            shape = (clause.name, clause.arity)
            if shape not in {(other.name, other.arity) for other in started}:
                text = f"`strong {clause.name}/{clause.arity}`: nothing starts such a"
                yield Finding(path, clause.line, f"{text} property")


def startable(theory: Theory) -> List[Pattern]:
    """What may be started: the properties of `initiates`, and the initial ones."""
    heads = [rule.head for rule in theory.rules if rule.initiates]
    return heads + [initially.property for initially in theory.initials]


def _read_patterns(clause: AnyClause) -> Iterator[Tuple[Pattern, str]]:
    """The properties that a clause takes as started elsewhere."""
    if isinstance(clause, Rule):
        if not clause.initiates:
            yield clause.head, "`terminates`"
        for literal in clause.literals:
            yield literal.property, "the condition"
    elif isinstance(clause, Exclusive):
        yield clause.left, "`exclusive`"
        if not may_meet(clause.left, clause.right):
            yield clause.right, "`exclusive`"


def may_meet(one: Pattern, other: Pattern) -> bool:
    """Whether two patterns may fit one term, each with variables of its own.

    A variable that stands twice in one pattern is taken for two.
    """
    if one.name != other.name or one.arity != other.arity:
        return False
    pairs = zip(one.places, other.places)
    return all(
        isinstance(left, (Variable, Anything))
        or isinstance(right, (Variable, Anything))
        or left == right
        for left, right in pairs
    )


def _near(pattern: Pattern, started: List[Pattern]) -> str:
    """A hint at what may have been meant."""
    shapes = {f"{other.name}/{other.arity}" for other in started}
    shape = f"{pattern.name}/{pattern.arity}"
    if shape in shapes:
        return ", with these arguments"
    near = get_close_matches(shape, sorted(shapes), 1)
    return f"; did you mean {near[0]}?" if near else ""
