"""Whole reasons as text and as JSON."""

from __future__ import annotations

from collections import Counter
from typing import IO, Dict, Iterator, List, Tuple

from .reasons import BROKE, COULD, Comparison, Condition, Key, Node, Reading, Step
from .tables import Cell
from .wording import Wording

DEEPEST = 12
"""Levels of the tree that are told within one another; what is below comes later."""
INDENT = "  "


class Teller:
    """Tells nodes as text, each once; what is told elsewhere is named by a number."""

    def __init__(
        self, nodes: Dict[Key, Node], wording: Wording, output: IO[str]
    ) -> None:
        self.nodes = nodes
        self.wording = wording
        self.output = output
        self.uses = Counter(key for node in nodes.values() for key in node.children())
        self.numbers: Dict[Key, int] = {}
        self.later: List[Key] = []

    def tell(self) -> None:
        """Tells all, from the first node on."""
        root = next(iter(self.nodes))
        node = self.nodes[root]
        self.write(0, f"{self.at(root)} {self.wording.reason(node.reason)}")
        self._tell_below([self._steps(node, 1)])
        while self.later:
            key = self.later.pop(0)
            node = self.nodes[key]
            self.write(0, "")
            self.write(
                0, f"[{self.numbers[key]}] {self.at(key)} was {self.state(node)}"
            )
            self._tell_below([self._steps(node, 1)])

    def _tell_below(self, open_nodes: List[Iterator[Tuple[Key, int]]]) -> None:
        """Tells nodes within one another, without a call for each level."""
        while open_nodes:
            child = next(open_nodes[-1], None)
            if child is None:
                open_nodes.pop()
            else:
                key, level = child
                open_nodes.append(self._steps(self.nodes[key], level))

    def _steps(self, node: Node, level: int) -> Iterator[Tuple[Key, int]]:
        """Tells the steps of a node, and hands out what is to be told within them."""
        if node.is_cut:
            self.write(level, "..")
        for step in node.steps:
            self.write(level, self.step(step))
            for condition in step.told:
                if isinstance(condition, Comparison):
                    self.write(level + 1, self.comparison(condition))
                elif self._is_told_here(condition, level + 1):
                    yield condition.key, level + 2

    def _is_told_here(self, reading: Reading, level: int) -> bool:
        """Tells a condition on a property; whether its node is to be told below it."""
        key = reading.key
        node = self.nodes[key]
        line = f"{self.at(key)} was {self.state(node)}"
        if not reading.met:
            line = f"{line}; the condition is `{reading.literal}`"
        elif not reading.literal.positive:
            line = f"not {self.at(key)}: it was {self.state(node)}"
        if not node.steps and not node.is_cut:
            self.write(level, line)
            return False
        is_new = key not in self.numbers
        number = self.numbers.setdefault(key, len(self.numbers) + 1)
        if not is_new:
            self.write(level, f"{line} (told under [{number}])")
            return False
        if level > DEEPEST:
            self.later.append(key)
            self.write(level, f"{line} (told below, under [{number}])")
            return False
        self.write(level, f"[{number}] {line}" if self.uses[key] > 1 else line)
        return True

    def write(self, level: int, text: str) -> None:
        self.output.write(INDENT * level + text + "\n")

    def at(self, key: Key) -> str:
        """A property and an instant."""
        return (
            f"{self.wording.term(key.property)} at {self.wording.moment(key.instant)}"
        )

    def state(self, node: Node) -> str:
        """Whether a property was current, and why, for who reads a condition."""
        return state_words(node, self.wording)

    def comparison(self, condition: Comparison) -> str:
        """A comparison, with the values of its variables."""
        if condition.met:
            return f"{condition.text}, as `{condition.test}` asks"
        return f"{condition.text} is false; the condition is `{condition.test}`"

    def step(self, step: Step) -> str:
        """An event and a rule, and what they did."""
        return step_words(step, self.wording)


def state_words(node: Node, wording: Wording) -> str:
    """Whether a property was current at a node's instant, and why, in words."""
    reason = node.reason
    if reason.kind == "never":
        return "not current: nothing had started it"
    since = wording.since(reason.start)
    if reason.kind == "yes":
        by = f" by {wording.cause(reason.by)}" if reason.by else ""
        return f"current: {since}{by}"
    assert reason.end is not None and reason.until is not None
    end = f"at {wording.moment(reason.end)} by {wording.cause(reason.until)}"
    if reason.kind == "ended":
        return f"not current: ended {end}"
    if not node.current:
        return f"not current: broken {end}"
    return (
        f"current, though it does not hold: {since}, and only broken {end}. "
        "A condition reads what is current"
    )


def step_words(step: Step, wording: Wording) -> str:
    """An event and a rule, and what they did, in words."""
    event, rule = step.entry.event, step.entry.rule
    which = f"{wording.identity(event.identity)}: {wording.term(event.term)}"
    by = f"at {wording.moment(event.time)} by {which}, rule {rule.number}"
    line = f"(line {rule.line})"
    if step.role == COULD:
        return f"could have started {by} {line}, but"
    if step.role == BROKE:
        return f"broken {by} {line}, which started {wording.term(step.entry.head)}"
    return f"{step.role} {by} {line}"


def json_of(nodes: Dict[Key, Node], wording: Wording) -> List[Dict[str, object]]:
    """The nodes as what JSON has; the first is what was asked, others are its reasons.

    A condition names its node by the number `node`, from 0, the place in the list.
    """
    numbers = {key: number for number, key in enumerate(nodes)}

    def of_condition(condition: Condition) -> Dict[str, object]:
        if isinstance(condition, Comparison):
            text = str(condition.test)
            return {"condition": text, "read": condition.text, "met": condition.met}
        return {
            "condition": str(condition.literal),
            "read": wording.term(condition.key.property),
            "current": condition.current,
            "holds": condition.holds,
            "met": condition.met,
            "node": numbers.get(condition.key),
        }

    def of_step(step: Step) -> Dict[str, object]:
        event = step.entry.event
        return {
            "role": step.role,
            "event": wording.identity(event.identity),
            "time": wording.cell(event.time),
            "what": wording.term(event.term),
            "rule": step.entry.rule.number,
            "line": step.entry.rule.line,
            "conditions": [of_condition(condition) for condition in step.conditions],
        }

    def of_node(node: Node) -> Dict[str, object]:
        reason = node.reason
        members: Dict[str, object] = {
            "property": wording.term(node.key.property),
            "instant": wording.cell(node.key.instant),
            "holds": reason.holds,
            "current": node.current,
            "reason": reason.kind,
            "start": wording.cell(reason.start),
            "end": wording.cell(reason.end),
        }
        for name, cause in (("by", reason.by), ("until", reason.until)):
            identity: Cell = wording.identity(cause.event) if cause else None
            members[name] = identity
            members[f"{name}_rule"] = cause.rule if cause else None
        members["words"] = wording.reason(reason)
        members["steps"] = [of_step(step) for step in node.steps]
        return members

    return [of_node(node) for node in nodes.values()]
