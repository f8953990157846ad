"""The whole reason why a property holds at an instant, or why it does not.

A *node* is a property at an instant, with `ec`'s own reason. Below it stand the *steps*
that bear on it: the event that started it, the one that ended or broke it, and where it
is not current each event that could have started it. A step read conditions at its
event's time, and these are nodes again, down to events whose rules have no conditions.

A condition asks whether a property is *current*, which looks at the strict past alone.
A property whose start is broken later is current up to there, although it never holds.
"""

from __future__ import annotations

from dataclasses import dataclass, field
from typing import Dict, Iterable, Iterator, List, NamedTuple, Optional, Tuple, Union

from .errors import HistoryError
from .history import Entry, History
from .moments import Moment
from .progress import Progress
from .replies import Cause, Reason, read_reason
from .terms import Term
from .theory import Literal, Test

STARTED, ENDED, BROKE, COULD = "started", "ended", "broke", "could have started"


class Key(NamedTuple):
    """A property at an instant."""

    property: Term
    instant: Moment


class Disagreement(HistoryError):
    """Replies of `ec` that do not fit together by the theory as it is read here."""

    def __init__(self, step: Step) -> None:
        super().__init__(
            f"by ec's replies {step.entry.event.identity} {step.role} "
            f"{step.entry.head} by rule {step.entry.rule.number}, and the conditions "
            "say otherwise. This is a fault of ec-history or of ec; please report it"
        )


@dataclass(frozen=True)
class Comparison:
    """A condition that compares two arguments, with their values."""

    test: Test
    text: str
    met: bool


@dataclass(frozen=True)
class Reading:
    """A condition on a property, read at the event's time.

    `current` is what it read, and `met` whether that is what it asks for. `holds` is
    whether the property holds then, which may differ.
    """

    literal: Literal
    key: Key
    current: bool
    holds: bool
    met: bool


Condition = Union[Comparison, Reading]


@dataclass
class Step:
    """An event and a rule that bear on a property; `role` says how."""

    role: str
    entry: Entry
    conditions: List[Condition]

    @property
    def told(self) -> List[Condition]:
        """The conditions that are told: all, or of what did not start it the failed."""
        if self.role == COULD:
            return [condition for condition in self.conditions if not condition.met]
        return self.conditions

    @property
    def is_met(self) -> bool:
        """Whether all its conditions are met."""
        return all(condition.met for condition in self.conditions)


@dataclass
class Node:
    """A property at an instant, why it is as it is, and the steps to that."""

    key: Key
    reason: Reason
    current: bool
    steps: List[Step] = field(default_factory=list)
    is_cut: bool = False

    def children(self) -> Iterator[Key]:
        """The properties that its steps' conditions read, in the order of telling."""
        for step in self.steps:
            for condition in step.told:
                if isinstance(condition, Reading):
                    yield condition.key


class Explainer:
    """Builds the nodes, asking `ec` for the reasons of many at once."""

    def __init__(self, history: History) -> None:
        self.history = history
        self.clock = history.clock
        self.rank = history.clock.rank
        self.reasons: Dict[Key, Reason] = {}
        self._entries: Optional[Dict[Term, List[Entry]]] = None

    def explain(
        self, property: Term, instant: Moment, depth: Optional[int] = None
    ) -> Dict[Key, Node]:
        """The nodes below a property at an instant; that itself is the first of them.

        With a `depth`, nodes that many levels below it have no steps.
        """
        root = Key(property, instant)
        self._learn([root])
        nodes: Dict[Key, Node] = {}
        level = [root]
        with Progress("reasons found") as progress:
            while level:
                planned = [(key, self._plan(key, not nodes)) for key in level]
                if depth is not None and depth <= 0:
                    nodes.update((key, self._cut(key, steps)) for key, steps in planned)
                    break
                self._learn(key for _, steps in planned for key in _keys(steps))
                for key, steps in planned:
                    nodes[key] = self._node(key, steps)
                    progress.step()
                below = dict.fromkeys(
                    child for key in level for child in nodes[key].children()
                )
                level = [key for key in below if key not in nodes]
                depth = None if depth is None else depth - 1
        return nodes

    def _learn(self, keys: Iterable[Key]) -> None:
        """Asks for the reasons that are not known yet."""
        wanted = [key for key in dict.fromkeys(keys) if key not in self.reasons]
        write = self.clock.write
        commands = (f"why {key.property} {write(key.instant)}" for key in wanted)
        replies = self.history.session.ask_all(commands)
        for reply, key in zip(replies, wanted):
            self.reasons[key] = read_reason(reply, key.instant, self.clock)

    def _plan(self, key: Key, is_root: bool) -> List[Tuple[str, Entry]]:
        """The entries that bear on a property at an instant, each with its role."""
        reason = self.reasons[key]
        steps: List[Tuple[str, Entry]] = []
        if reason.by is not None:
            steps.append((STARTED, self._entry(reason.by)))
        elif reason.kind == "broken" and reason.start is not None:
            starts = self._initiating(key.property, reason.start, reason.start)
            steps += [(STARTED, entry) for entry in starts]
        current = reason.is_current(self.clock)
        if reason.until is not None and (is_root or not current):
            role = BROKE if reason.kind == "broken" else ENDED
            steps.append((role, self._entry(reason.until)))
        if not current:
            last = self.rank(key.instant) - 1
            begin = None if reason.kind == "never" else reason.end
            for entry in self._initiating(key.property, begin, None):
                if self.rank(entry.event.time) > last:
                    break
                steps.append((COULD, entry))
        return steps

    def _entry(self, cause: Cause) -> Entry:
        """The entry of an event and a rule that a reason names."""
        event = self.history.event(cause.event)
        rule = self.history.theory.rule(cause.rule)
        binding = rule.event.match(event.term)
        if binding is None:
            raise HistoryError(
                f"ec names rule {cause.rule} as that of {cause.event}, which does not "
                "fit it. Has the theory's file changed since it was read?"
            )
        return Entry(event, rule, binding)

    def _initiating(
        self, property: Term, first: Optional[Moment], last: Optional[Moment]
    ) -> Iterator[Entry]:
        """The entries that would start a property, by time, from one time to another.

        Those whose comparisons fail are among them.
        """
        for entry in self._starts().get(property, []):
            rank = self.rank(entry.event.time)
            if last is not None and rank > self.rank(last):
                return
            if first is None or rank >= self.rank(first):
                yield entry

    def _starts(self) -> Dict[Term, List[Entry]]:
        """For each property the entries that would start it, by time and identity."""
        if self._entries is None:
            self._entries = {}
            with Progress("events matched with rules") as progress:
                for event in self.history.events:
                    for rule in self.history.theory.rules_for(event.term):
                        binding = rule.event.match(event.term)
                        if rule.initiates and binding is not None:
                            entry = Entry(event, rule, binding)
                            self._entries.setdefault(entry.head, []).append(entry)
                    progress.step()
        return self._entries

    def _cut(self, key: Key, planned: List[Tuple[str, Entry]]) -> Node:
        """A node whose steps, if it has any, are not told."""
        reason = self.reasons[key]
        return Node(key, reason, reason.is_current(self.clock), [], bool(planned))

    def _node(self, key: Key, planned: List[Tuple[str, Entry]]) -> Node:
        reason = self.reasons[key]
        node = Node(key, reason, reason.is_current(self.clock))
        for role, entry in planned:
            step = Step(role, entry, list(self._conditions(entry)))
            if role == STARTED and reason.by is None:
                # ec names what broke it alone; of several starters the first counts
                if step.is_met and not any(s.role == STARTED for s in node.steps):
                    node.steps.append(step)
                continue
            if step.is_met == (role == COULD):
                raise Disagreement(step)
            node.steps.append(step)
        return node

    def _conditions(self, entry: Entry) -> Iterator[Condition]:
        """The conditions of an entry, as they were read at its event's time."""
        for condition in entry.rule.conditions:
            if isinstance(condition, Test):
                met = condition.holds(entry.binding)
                yield Comparison(condition, condition.filled(entry.binding), met)
            else:
                key = Key(condition.property.fill(entry.binding), entry.event.time)
                reason = self.reasons[key]
                current = reason.is_current(self.clock)
                met = current == condition.positive
                yield Reading(condition, key, current, reason.holds, met)


def _keys(steps: List[Tuple[str, Entry]]) -> Iterator[Key]:
    """What the conditions of some entries read."""
    for _, entry in steps:
        for literal in entry.rule.literals:
            yield Key(literal.property.fill(entry.binding), entry.event.time)
