"""By which arguments a theory falls apart: the places of a key.

A *key* is an argument by which nothing reads another: a copy of a book, a bed. Each
event and each property, by its name and its number of arguments, has the key at one of
its places, or has none. An event without a key goes to all parts; a property without
one is the same in all parts, so all that it rests on goes to all parts as well. Of a
property with a key, each rule that starts or ends it has the same variable, or the same
name, as the key of the property and of the event, and of each condition that has a key;
and both sides of an exclusive declaration have the same.

So the properties of one part are a closed set: with a property it has all that a rule
reads for it, and all that is exclusive to it.
"""

from __future__ import annotations

from dataclasses import dataclass
from typing import Dict, Iterator, List, NamedTuple, Optional, Set, Tuple

from .terms import Anything, Argument, Pattern, Term
from .theory import Clause, Exclusive, Initially, Rule, Theory

EVENT, PROPERTY = "event", "property"
MOST_STEPS = 20_000
"""Choices of places that are tried for things that are linked by rules."""
Places = Tuple[Optional[int], ...]


class Form(NamedTuple):
    """The events, or the properties, of a name and a number of arguments."""

    kind: str
    name: str
    arity: int

    def shown(self, place: Optional[int]) -> str:
        """As `lend(KEY,_)`."""
        if not self.arity:
            return self.name
        words = ["KEY" if at == place else "_" for at in range(self.arity)]
        return f"{self.name}({','.join(words)})"


@dataclass(frozen=True)
class Split:
    """For each event and property of a theory the place of its key, from 0, or None."""

    places: Dict[Form, Optional[int]]

    @property
    def falls_apart(self) -> bool:
        """Whether some event has a key."""
        return any(
            form.kind == EVENT and place is not None
            for form, place in self.places.items()
        )

    def is_known(self, kind: str, term: Term) -> bool:
        """Whether the theory speaks of such a term."""
        return Form(kind, term.name, term.arity) in self.places

    def key(self, kind: str, term: Term) -> Optional[Argument]:
        """The key of an event or a property; None where it has none."""
        place = self.places.get(Form(kind, term.name, term.arity))
        return None if place is None else term.arguments[place]


class Link(NamedTuple):
    """Two patterns of a clause whose places of the key depend on each other."""

    clause: Clause
    left: Pattern
    right: Pattern
    left_form: Form
    right_form: Form
    is_condition: bool = False

    def fits(self, left: Optional[int], right: Optional[int]) -> bool:
        """Whether the two may have the key at these places."""
        if left is None:
            return right is None
        if right is None:
            return self.is_condition
        place = self.left.places[left]
        return place == self.right.places[right] and not isinstance(place, Anything)


class Obstacle(NamedTuple):
    """A link that no places fit, of those that are left for its two patterns."""

    link: Link
    lefts: Places
    rights: Places


Domains = Dict[Form, Places]
"""For each form the places at which its key may stand."""


class Keys:
    """The forms of a theory, and the links between them."""

    def __init__(self, theory: Theory) -> None:
        self.links: List[Link] = []
        self.initial: Dict[Form, Initially] = {}
        self.domains: Domains = {}
        for clause in theory.clauses:
            if isinstance(clause, Rule):
                self._rule(clause)
            elif isinstance(clause, Exclusive):
                self._link(clause, clause.left, clause.right, PROPERTY)
            elif isinstance(clause, Initially):
                form = self._form(PROPERTY, clause.property)
                self.initial.setdefault(form, clause)
                self.domains[form] = (None,)
        self.touching: Dict[Form, List[Link]] = {form: [] for form in self.domains}
        for link in self.links:
            for form in {link.left_form, link.right_form}:
                self.touching[form].append(link)

    def _rule(self, rule: Rule) -> None:
        self._link(rule, rule.head, rule.event, EVENT)
        for literal in rule.literals:
            self._link(rule, rule.head, literal.property, PROPERTY, True)

    def _link(
        self,
        clause: Clause,
        left: Pattern,
        right: Pattern,
        kind: str,
        is_condition: bool = False,
    ) -> None:
        forms = self._form(PROPERTY, left), self._form(kind, right)
        self.links.append(Link(clause, left, right, *forms, is_condition))

    def _form(self, kind: str, pattern: Pattern) -> Form:
        form = Form(kind, pattern.name, pattern.arity)
        self.domains.setdefault(form, (*range(pattern.arity), None))
        return form

    def split(self) -> Split:
        """The places with which the most events have a key, of those that are tried."""
        places: Dict[Form, Optional[int]] = {}
        for group in self.groups():
            best = self._best({form: self.domains[form] for form in group})
            places.update((form, found[0]) for form, found in best.items())
        return Split({form: places[form] for form in self.domains})

    def agree(self, split: Split) -> bool:
        """Whether the theory falls apart by these places."""
        places = split.places
        return (
            set(places) == set(self.domains)
            and all(
                link.fits(places[link.left_form], places[link.right_form])
                for link in self.links
            )
            and all(place in self.domains[form] for form, place in places.items())
        )

    def groups(self) -> Iterator[List[Form]]:
        """The forms that are linked with each other, directly or by others."""
        seen: Set[Form] = set()
        for first in self.domains:
            group: List[Form] = []
            waiting = [first]
            while waiting:
                form = waiting.pop()
                if form not in seen:
                    seen.add(form)
                    group.append(form)
                    for link in self.touching[form]:
                        waiting += [link.left_form, link.right_form]
            if group:
                members = set(group)
                yield [form for form in self.domains if form in members]

    def _best(self, domains: Domains) -> Domains:
        """One place for each form. That none has a key is always a choice."""
        best: Domains = {form: (None,) for form in domains}
        most = 0
        narrowed = self.narrowed(domains, list(domains))
        waiting = [] if narrowed is None else [narrowed]
        for _ in range(MOST_STEPS):
            if not waiting:
                break
            current = waiting.pop()
            count = _with_key(current)
            if count <= most:
                continue
            form = next((f for f, places in current.items() if len(places) > 1), None)
            if form is None:
                best, most = current, count
                continue
            for place in reversed(current[form]):
                narrowed = self.narrowed({**current, form: (place,)}, [form])
                if narrowed is not None:
                    waiting.append(narrowed)
        return best

    def narrowed(self, domains: Domains, changed: List[Form]) -> Optional[Domains]:
        """The places that are left by the links; None where a form has none left."""
        while changed:
            for link in self.touching[changed.pop()]:
                for form, places in _left_over(link, domains):
                    if not places:
                        return None
                    if places != domains[form]:
                        domains[form] = places
                        changed.append(form)
        return domains

    def obstacle(self, form: Form, place: int) -> Optional[Obstacle]:
        """The first link that no places fit where a form has its key at a place."""
        domains: Domains = {**self.domains, form: (place,)}
        is_narrowed = True
        while is_narrowed:
            is_narrowed = False
            for link in self.links:
                ends = domains[link.left_form], domains[link.right_form]
                for other, places in _left_over(link, domains):
                    if not places:
                        return Obstacle(link, *ends)
                    is_narrowed = is_narrowed or places != domains[other]
                    domains[other] = places
        return None


def _left_over(link: Link, domains: Domains) -> Iterator[Tuple[Form, Places]]:
    """For both forms of a link the places that fit some place of the other one."""
    if link.left_form == link.right_form:
        places = domains[link.left_form]
        yield link.left_form, tuple(p for p in places if link.fits(p, p))
        return
    lefts, rights = domains[link.left_form], domains[link.right_form]
    left = tuple(p for p in lefts if any(link.fits(p, q) for q in rights))
    yield link.left_form, left
    right = tuple(q for q in rights if any(link.fits(p, q) for p in left))
    yield link.right_form, right


def _with_key(domains: Domains) -> int:
    """How many events may still have a key."""
    return sum(
        form.kind == EVENT and places[0] is not None for form, places in domains.items()
    )
