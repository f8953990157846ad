"""`why`: each node beside `ec`'s own `why`, and beside an independent calculation."""

import io
import itertools
import json
import unittest
from typing import Dict, List

from ec_history.client import Server
from ec_history.history import History, tell
from ec_history.moments import Moment
from ec_history.reasons import COULD, Explainer, Key, Node, Reading
from ec_history.telling import Teller, json_of
from ec_history.terms import Term
from ec_history.wording import Wording

from .calculus import Calculus
from .commands import run
from .histories import drawn, example, written
from .setting import example_names, lines_of, program, theory_of

EXCLUSIVE = """\
initiates  move(Person, Place)  at(Person, Place).
terminates leave(Person, Place) at(Person, Place).
exclusive  at(Person, Place)    at(Person, Other).
initiates  call(Person)         reached(Person) if at(Person, home).
"""


def instants(history: History) -> List[Moment]:
    """Each time of an event, and those beside it."""
    clock = history.clock
    ranks = {clock.rank(event.time) for event in history.events}
    beside = sorted({rank + step for rank in ranks for step in (-1, 0, 1)})
    return [clock.moment(rank) for rank in beside]


def told(history: History, text: str, instant: Moment) -> str:
    """The tree as text."""
    nodes = Explainer(history).explain(Term.parse(text), instant)
    output = io.StringIO()
    Teller(nodes, Wording(history.theory), output).tell()
    return output.getvalue()


class BesideEc(unittest.TestCase):
    """Of each node of many trees."""

    def check(self, history: History, step: int = 1) -> int:
        calculus = Calculus(history.theory, history.events)
        explainer = Explainer(history)
        count = 0
        for term in history.candidates():
            for instant in instants(history)[::step]:
                nodes = explainer.explain(term, instant)
                self.check_nodes(history, calculus, nodes)
                count += len(nodes)
        return count

    def check_nodes(
        self, history: History, calculus: Calculus, nodes: Dict[Key, Node]
    ) -> None:
        session = history.session
        for key, node in nodes.items():
            self.assertEqual(node.reason, session.why(key.property, key.instant))
            is_current = calculus.is_current(key.property, key.instant)
            self.assertEqual(node.current, is_current, key)
            self.assertEqual(node.reason.holds, calculus.holds(*key), key)
            could = []
            for step in node.steps:
                for condition in step.conditions:
                    if isinstance(condition, Reading):
                        where = condition.key.property, condition.key.instant
                        self.assertEqual(condition.current, calculus.is_current(*where))
                        self.assertEqual(condition.holds, calculus.holds(*where))
                self.assertEqual(step.is_met, step.role != COULD)
                if step.role == COULD:
                    could.append((step.entry.event.identity, step.entry.rule.number))
            self.assertEqual(could, self.could_have_started(history, node))
            self.assertTrue(set(node.children()) <= set(nodes))

    def could_have_started(self, history: History, node: Node) -> list:
        """Each event that a rule would have had start the property, had it been met."""
        if node.current:
            return []
        first = node.reason.end
        return [
            (event.identity, rule.number)
            for event in history.events
            for rule in history.theory.rules
            if rule.initiates
            and event.time < node.key.instant
            and (first is None or event.time >= first)
            and (binding := rule.event.match(event.term)) is not None
            and rule.head.fill(binding) == node.key.property
        ]

    def test_examples(self) -> None:
        for name in example_names():
            with self.subTest(name), example(name) as history:
                step = 25 if name == "lending_year" else 1
                self.assertGreater(self.check(history, step), 20)

    def test_drawn_histories(self) -> None:
        for seed in range(4):
            with self.subTest(seed), drawn(seed) as history:
                self.assertGreater(self.check(history, 3), 100)


class Trees(unittest.TestCase):
    def test_the_conditions_have_their_reasons(self) -> None:
        with example("audit") as history:
            text = told(history, "signed(r17)", 50)
        self.assertEqual(
            text,
            "signed(r17) at 50 holds: "
            "started at 41 by s3 (rule 3), and nothing ends it\n"
            "  started at 41 by s3: sign(eve,r17), rule 3 (line 8)\n"
            "    may(eve,sign) at 41 was current: started at 10 by g1 (rule 1)\n"
            "      started at 10 by g1: grant(root,eve,sign), rule 1 (line 6)\n"
            "        may(root,grant) at 10 was current: there from before all events\n"
            "        root != eve, as `By != User` asks\n",
        )

    def test_what_could_have_started_it_is_told_with_the_failed_condition(self) -> None:
        with example("audit") as history:
            text = told(history, "signed(r17)", 30)
        self.assertIn("could have started at 20 by s1: sign(dan,r17), rule 3", text)
        self.assertIn(
            "may(dan,sign) at 20 was not current: ended at 15 by v1 (rule 2); "
            "the condition is `may(User,sign)`\n",
            text,
        )
        with example("plant") as history:
            text = told(history, "hot(p7)", 130)
        self.assertIn("90 < 85 is false; the condition is `90 < Degrees`\n", text)

    def test_what_is_current_and_does_not_hold_is_told(self) -> None:
        lines = ["assert m1 10 move(bob,home)", "assert m2 20 move(bob,work)"]
        with written(EXCLUSIVE, lines + ["assert c1 15 call(bob)"]) as paths:
            with Server(paths[0], program()) as server:
                tell(server, paths[1])
                text = told(History(server), "reached(bob)", 16)
        self.assertIn(
            "at(bob,home) at 15 was current, though it does not hold: started at 10, "
            "and only broken at 20 by m2 (rule 1). A condition reads what is current\n"
            "      started at 10 by m1: move(bob,home), rule 1 (line 1)\n",
            text,
        )

    def test_who_started_what_was_broken_later(self) -> None:
        theory = "initiates ask(X) p(X) if c.\ninitiates do(X) p(X) if not c.\n"
        lines = ["assert a1 10 ask(x)", "assert b1 10 do(x)", "assert b0 10 do(x)"]
        lines += ["assert b2 20 do(y)"]
        with written(theory + "exclusive p(X) p(Y).", lines) as paths:
            with Server(paths[0], program()) as server:
                tell(server, paths[1])
                text = told(History(server), "p(x)", 15)
        # ec names b2, which broke it; of those that started it b0 has the least name
        self.assertEqual(
            text,
            "p(x) at 15 does not hold: started at 10, broken at 20 by b2 (rule 2), "
            "so nobody knows when it ended\n"
            "  started at 10 by b0: do(x), rule 2 (line 2)\n"
            "    not c at 10: it was not current: nothing had started it\n"
            "  broken at 20 by b2: do(y), rule 2 (line 2), which started p(y)\n"
            "    not c at 20: it was not current: nothing had started it\n",
        )

    def test_a_node_is_told_once_and_deep_ones_below(self) -> None:
        theory = "initiates go(N, M) at(M) if at(N), at(N).\ninitially at(0).\n"
        lines = [f"assert e{n} {n} go({n - 1},{n})" for n in range(1, 41)]
        with written(theory, lines) as paths, Server(paths[0], program()) as server:
            tell(server, paths[1])
            text = told(History(server), "at(40)", 41)
        self.assertEqual(text.count("go(3,4), rule 1"), 1)
        self.assertIn("(told below, under [", text)
        self.assertLess(max(map(len, text.splitlines())), 120)

    def test_a_chain_of_thousands(self) -> None:
        theory = "initiates go(N, M) at(M) if at(N).\ninitially at(0).\n"
        lines = [f"assert e{n} {n} go({n - 1},{n})" for n in range(1, 3001)]
        with written(theory, lines) as paths, Server(paths[0], program()) as server:
            tell(server, paths[1])
            history = History(server)
            nodes = Explainer(history).explain(Term.parse("at(3000)"), 3001)
            self.assertEqual(len(nodes), 3001)
            output = io.StringIO()
            Teller(nodes, Wording(history.theory), output).tell()
        self.assertEqual(output.getvalue().count("rule 1 (line 1)"), 3000)

    def test_depth(self) -> None:
        with example("audit") as history:
            explainer = Explainer(history)
            signed = Term.parse("signed(r17)")
            sizes = [len(explainer.explain(signed, 50, depth)) for depth in range(4)]
            cut = explainer.explain(signed, 50, 1)
        self.assertEqual(sizes, [1, 2, 3, 3])
        self.assertEqual([node.is_cut for node in cut.values()], [False, True])


class Command(unittest.TestCase):
    def test_each_example_as_text_and_json(self) -> None:
        for name in example_names():
            with example(name) as history:
                terms = list(itertools.islice(history.candidates(), 3))
                instant = history.clock.write(instants(history)[-1])
            for term in terms:
                words = ["why", theory_of(name), lines_of(name), str(term), instant]
                status, text, _ = run(*words)
                self.assertEqual(status, 0)
                self.assertTrue(text.startswith(f"{term} at {instant} "), text)
                status, text, _ = run(*words, "--format", "json")
                nodes = json.loads(text)
                self.assertEqual(nodes[0]["property"], str(term))

    def test_json_names_the_nodes_of_conditions(self) -> None:
        with example("audit") as history:
            nodes = Explainer(history).explain(Term.parse("signed(r17)"), 50)
            told_nodes = json_of(nodes, Wording(history.theory))
        step = told_nodes[0]["steps"][0]
        self.assertEqual((step["role"], step["event"]), ("started", "s3"))
        condition = step["conditions"][0]
        self.assertEqual(condition["read"], "may(eve,sign)")
        child = told_nodes[condition["node"]]
        self.assertEqual((child["property"], child["by"]), ("may(eve,sign)", "g1"))

    def test_a_pattern_is_refused_with_what_to_do(self) -> None:
        status, _, errors = run(
            "why", theory_of("loans"), lines_of("loans"), "has(_,dune)", "12"
        )
        self.assertEqual(status, 2)
        self.assertIn("ask THEORY LINES 'why has(_,dune) T'", errors)

    def test_a_time_that_is_none_is_told(self) -> None:
        status, _, errors = run(
            "why", theory_of("loans"), lines_of("loans"), "out(dune)", "noon"
        )
        self.assertEqual(status, 2)
        self.assertIn("a time is expected: a whole number", errors)


if __name__ == "__main__":
    unittest.main()
