"""Ground terms and patterns: reading, writing, order, matching."""

import unittest

from ec_history.errors import TermError
from ec_history.terms import Pattern, Term, number_value


class ReadingTerms(unittest.TestCase):
    def test_a_term_is_read_and_written(self) -> None:
        for text in ["a", "lit(desk)", "has(ann,dune)", "at(p_7,-9223372036854775808)"]:
            self.assertEqual(str(Term.parse(text)), text)
        self.assertEqual(Term.parse("has(ann,7)"), Term("has", ("ann", 7)))

    def test_numbers_are_written_in_their_canonical_form(self) -> None:
        self.assertEqual(str(Term.parse("lit(007)")), "lit(7)")
        self.assertEqual(str(Term.parse("lit(-0)")), "lit(0)")

    def test_what_is_no_term_is_told_with_its_column(self) -> None:
        for text, column in [
            ("", 1),
            ("Lit", 1),
            ("lit()", 5),
            ("lit(a,)", 7),
            ("lit(a", 6),
            ("lit(a)b", 7),
            ("lit(a,B)", 7),
            ("lit(_)", 5),
            ("lit(9223372036854775808)", 5),
            ("lit(1.5)", 5),
            ("lit(a b)", 5),
            ("lit(é)", 5),
            ("é", 1),
            ("f(a,b,c,d,e,f,g,h,i)", 2),
            ("l" * 65, 1),
        ]:
            with self.subTest(text), self.assertRaises(TermError) as caught:
                Term.parse(text)
            self.assertEqual(caught.exception.column, column, text)

    def test_the_reason_says_what_was_expected(self) -> None:
        for text, words in [
            ("lit(Desk)", "stands for anything; here a number or a name is expected"),
            ("Lit(desk)", "begins with a lower case letter"),
            ("lit(b3-west)", "'-' can't stand in a name"),
            ("lit(3x)", "no whole number"),
            ("lit(" + "9" * 21 + ")", "over 20 digits"),
        ]:
            with self.assertRaisesRegex(TermError, words):
                Term.parse(text)

    def test_a_term_that_is_made_is_checked(self) -> None:
        for name, arguments in [
            ("Lit", ()),
            ("lit", ("Desk",)),
            ("lit", (2**63,)),
            ("lit", (1,) * 9),
        ]:
            with self.assertRaises(TermError):
                Term(name, arguments)

    def test_numbers(self) -> None:
        self.assertEqual(number_value("-9223372036854775808"), -(2**63))
        self.assertEqual(number_value("00000000000000000001"), 1)
        for text in ["", "-", "+1", "1.0", "9223372036854775808", "0" * 21, "1_0", "²"]:
            self.assertIsNone(number_value(text), text)


class OrderOfTerms(unittest.TestCase):
    def test_name_then_arguments_then_numbers_before_names(self) -> None:
        texts = [
            "a",
            "a(-1)",
            "a(7)",
            "a(10)",
            "a(b)",
            "a(ba)",
            "a(1,1)",
            "aB",
            "b",
            "b(a)",
        ]
        terms = [Term.parse(text) for text in texts]
        self.assertEqual(sorted(reversed(terms)), terms)


class Matching(unittest.TestCase):
    def test_variables_and_anything(self) -> None:
        pattern = Pattern.parse("in(Bed,_,Bed)")
        self.assertEqual(pattern.match(Term.parse("in(b3,7,b3)")), {"Bed": "b3"})
        self.assertIsNone(pattern.match(Term.parse("in(b3,7,b4)")))
        self.assertIsNone(pattern.match(Term.parse("in(b3,7)")))
        self.assertIsNone(pattern.match(Term.parse("on(b3,7,b3)")))
        self.assertEqual(str(pattern), "in(Bed,_,Bed)")
        self.assertEqual(pattern.variables(), ["Bed"])

    def test_a_binding_stands(self) -> None:
        pattern = Pattern.parse("in(Bed,Ward)")
        term = Term.parse("in(b3,west)")
        self.assertEqual(
            pattern.match(term, {"Bed": "b3"}), {"Bed": "b3", "Ward": "west"}
        )
        self.assertIsNone(pattern.match(term, {"Bed": "b4"}))

    def test_filling(self) -> None:
        pattern = Pattern.parse("in(Bed,7)")
        self.assertEqual(str(pattern.fill({"Bed": "b3"})), "in(b3,7)")
        self.assertFalse(pattern.is_ground())
        self.assertTrue(Pattern.parse("in(b3,7)").is_ground())

    def test_a_number_is_not_the_name_of_its_digits(self) -> None:
        self.assertIsNone(Pattern.parse("in(7)").match(Term.parse("in(x7)")))


if __name__ == "__main__":
    unittest.main()
