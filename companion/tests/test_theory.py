"""The reader of theories: clauses, their lines, and faults with their places."""

import unittest

from ec_history.terms import Pattern, Term
from ec_history.theory import Literal, Test, Theory
from ec_history.tokens import TheoryFault

from .setting import example_names, theory_of

SMALL = """\
% a lamp
initiates  push(Who, Lamp) lit(Lamp)
    if powered(Lamp), not lit(Lamp), Who != cat.
exclusive at(Who, Place) at(Who, Other).  strong card/1.
initially at(ann, home).
terminates push(_, Lamp) lit(Lamp) if lit(Lamp).
"""


class Reading(unittest.TestCase):
    def setUp(self) -> None:
        self.theory = Theory.parse(SMALL)

    def test_clauses_have_numbers_and_lines(self) -> None:
        places = [(clause.clause, clause.line) for clause in self.theory.clauses]
        self.assertEqual(places, [(1, 2), (2, 4), (3, 4), (4, 5), (5, 6)])
        self.assertEqual(self.theory.clauses[2].text, "strong card/1.")

    def test_rules_are_numbered_by_themselves(self) -> None:
        first, second = self.theory.rules
        self.assertEqual((first.number, first.initiates), (1, True))
        self.assertEqual((second.number, second.initiates), (2, False))
        self.assertEqual(str(first.event), "push(Who,Lamp)")
        self.assertEqual(str(second.event), "push(_,Lamp)")
        self.assertEqual(str(first.head), "lit(Lamp)")
        self.assertEqual(
            first.literals,
            [
                Literal(True, Pattern.parse("powered(Lamp)")),
                Literal(False, Pattern.parse("lit(Lamp)")),
            ],
        )
        self.assertEqual([str(test) for test in first.tests], ["Who != cat"])

    def test_the_rules_that_an_event_meets(self) -> None:
        def numbers(text: str) -> list:
            return [r.number for r, _ in self.theory.rules_met(Term.parse(text))]

        self.assertEqual(numbers("push(ann,desk)"), [1, 2])
        self.assertEqual(numbers("push(cat,desk)"), [2])
        self.assertEqual(numbers("push(ann)"), [])

    def test_what_excludes_what(self) -> None:
        home, work = Term.parse("at(ann,home)"), Term.parse("at(ann,work)")
        self.assertTrue(self.theory.are_exclusive(home, work))
        self.assertFalse(self.theory.are_exclusive(home, home))
        self.assertFalse(self.theory.are_exclusive(home, Term.parse("at(bob,work)")))
        self.assertTrue(self.theory.is_strong(Term.parse("card(ann)")))
        self.assertFalse(self.theory.is_strong(Term.parse("card(ann,bob)")))
        self.assertEqual(self.theory.initial_properties(), [home])

    def test_the_time(self) -> None:
        self.assertEqual(self.theory.time, "tick")
        self.assertEqual(Theory.parse("time civil. initially a.").time, "civil")
        self.assertEqual(Theory.parse("initiates time tick.").time, "tick")

    def test_keywords_are_names_elsewhere(self) -> None:
        theory = Theory.parse("initiates initiates strong if time, strong = exclusive.")
        self.assertEqual(str(theory.rules[0].event), "initiates")
        self.assertEqual(str(theory.rules[0].conditions[1]), "strong = exclusive")

    def test_the_examples_are_read(self) -> None:
        for name in example_names():
            self.assertTrue(Theory.read(theory_of(name)).rules, name)


class Comparing(unittest.TestCase):
    def test_numbers_come_before_names(self) -> None:
        binding = {"N": 7, "M": 10, "A": "ann", "B": "bob"}
        for text, wanted in [
            ("N < M", True),
            ("M < N", False),
            ("N < A", True),
            ("A < B", True),
            ("A <= A", True),
            ("N != A", True),
            ("N = 7", True),
            ("B <= A", False),
        ]:
            rule = Theory.parse(f"initiates e(N,M,A,B) p if {text}.").rules[0]
            test = rule.conditions[0]
            assert isinstance(test, Test)
            self.assertEqual(test.holds(binding), wanted, text)
        self.assertEqual(test.filled(binding), "bob <= ann")


class Faults(unittest.TestCase):
    def test_the_first_fault_is_told_at_its_place(self) -> None:
        for source, place, kind in [
            ("initiates a b;", (1, 14), "byte"),
            ("initiates a 9223372036854775808.", (1, 13), "number"),
            ("initiates plug(L powered(L).", (1, 18), "syntax"),
            ("initiates plug(L) powered(L)\n", (2, 1), "syntax"),
            ("initiates plug(L) powered(L)", (1, 29), "syntax"),
            ("initiates a b if -.", (1, 18), "byte"),
            ("initiates a b if a ! b.", (1, 20), "byte"),
            ("% x\ninitiates " + "a" * 65 + " b.", (2, 11), "long-name"),
            ("initiates if b.", (1, 11), "syntax"),
            ("initiates a b if not.", (1, 21), "syntax"),
            ("initiates a(if) b.", (1, 13), "syntax"),
            ("begins a b.", (1, 1), "syntax"),
            ("strong a 1.", (1, 10), "syntax"),
            ("strong a/b.", (1, 10), "syntax"),
            ("initiates a b if 7 a.", (1, 20), "syntax"),
            ("initiates a b if a(b) = c.", (1, 23), "syntax"),
            ("\xef\xbb\xbfinitiates a b.", (1, 1), "byte"),
            ("time day.", (1, 6), "syntax"),
        ]:
            with self.subTest(source), self.assertRaises(TheoryFault) as caught:
                Theory.parse(source.encode("latin-1"))
            fault = caught.exception
            self.assertEqual(((fault.line, fault.column), fault.kind), (place, kind))

    def test_the_reason_says_what_was_expected(self) -> None:
        for source, words in [
            (b"initiates plug(L) powered(L)", "the file ends, where 'if' or '.'"),
            (b"initiates plug(L powered(L).", "'powered' stands here, where ',' or"),
            (b"\xef\xbb\xbfinitially a.", "byte order mark"),
            (b"initiates a b if x-1.", "a '-' needs|'-1' stands here"),
        ]:
            with self.assertRaisesRegex(TheoryFault, words):
                Theory.parse(source)


if __name__ == "__main__":
    unittest.main()
