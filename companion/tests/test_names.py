"""Names for texts, and the way back."""

from __future__ import annotations

import os
import random
import tempfile
import unittest

from ec_history.names import Form, NameFault, Names, spelled
from ec_history.terms import is_name

NAME = Form("name", "{}")


class SpelledTest(unittest.TestCase):
    def test_letters_and_digits_stay_and_the_rest_becomes_a_mark(self) -> None:
        for text, name in [
            ("B3 West, bed 12", "b3_west_bed_12"),
            ("  Müller-Lüdenscheidt ", "muller_ludenscheidt"),
            ("Straße", "strasse"),
            ("Ærø", "aero"),
            ("Иван", "u438_u432_u430_u43d"),
            ("--", ""),
            ("½", "1_2"),
        ]:
            self.assertEqual(spelled(text), name)

    def test_case_is_kept_where_that_is_asked(self) -> None:
        self.assertEqual(spelled("McDonald Öl", True), "McDonald_Ol")


class NamesTest(unittest.TestCase):
    def test_a_name_stays_and_leads_back(self) -> None:
        names = Names()
        self.assertEqual(names.name_of(NAME, ["Ann Smith"]), "ann_smith")
        self.assertEqual(names.name_of(NAME, ["Ann Smith"]), "ann_smith")
        self.assertEqual(names.text_of("ann_smith"), "Ann Smith")
        self.assertIsNone(names.text_of("bob"))

    def test_a_form_puts_letters_around_fields(self) -> None:
        names = Names()
        self.assertEqual(names.name_of(Form("name", "p{}"), ["0177"]), "p0177")
        self.assertEqual(names.text_of("p0177"), "0177")
        self.assertEqual(names.name_of(NAME, ["12 West"]), "n12_west")
        both = Form("name", "{}_bed{}")
        self.assertEqual(names.name_of(both, ["B 3", "07"]), "b_3_bed07")
        self.assertEqual(names.text_of("b_3_bed07"), "B 3_bed07")

    def test_a_collision_is_told_with_both_texts(self) -> None:
        names = Names()
        names.name_of(NAME, ["Ann Smith"])
        both = "'ann-smith' and 'Ann Smith' would both be ann_smith"
        with self.assertRaisesRegex(NameFault, both):
            names.name_of(NAME, ["ann-smith"])
        with self.assertRaisesRegex(NameFault, "both be p177"):
            names.name_of(NAME, ["P177"])
            names.name_of(Form("name", "p{}"), ["177"])

    def test_two_fields_are_not_one_with_the_same_whole(self) -> None:
        names, both = Names(), Form("name", "{}_{}")
        names.name_of(both, ["B_3", "West"])
        with self.assertRaises(NameFault):
            names.name_of(both, ["B", "3_West"])

    def test_what_has_no_name_is_told(self) -> None:
        for text, said in [
            ("", "empty"),
            ("?!", "no letter and no digit"),
            ("x" * 65, "65 bytes, and ec takes 64"),
        ]:
            with self.assertRaisesRegex(NameFault, said):
                Names().name_of(NAME, [text])
        self.assertEqual(Names().name_of(NAME, ["x" * 64]), "x" * 64)

    def test_the_kinds_do_not_mix(self) -> None:
        names = Names()
        self.assertEqual(names.name_of(Form("event", "r{}"), ["17"]), "r17")
        self.assertEqual(names.name_of(NAME, ["R17"]), "r17")
        self.assertEqual(names.text_of("r17", "event"), "17")

    def test_the_file_holds_any_texts(self) -> None:
        draw = random.Random(5)
        letters = "aB3 _-\t\n\r\\äжÅ\u0301½😀"
        names = Names()
        for _ in range(2000):
            text = "".join(draw.choices(letters, k=draw.randint(1, 12)))
            form = draw.choice([NAME, Form("name", "p{}"), Form("event", "{}_{}")])
            try:
                parts = [text] if form.text != "{}_{}" else [text, text[::-1]]
                self.assertTrue(is_name(names.name_of(form, parts)))
            except NameFault:
                pass
        with tempfile.TemporaryDirectory() as folder:
            path = os.path.join(folder, "names.tsv")
            names.write(path)
            again = Names.read(path)
            self.assertEqual(again._names, names._names)
            self.assertGreater(len(again), 500)
            self.assertEqual(os.listdir(folder), ["names.tsv"])

    def test_a_name_is_changed_by_hand(self) -> None:
        with tempfile.TemporaryDirectory() as folder:
            path = os.path.join(folder, "names.tsv")
            with open(path, "w") as file:
                file.write("kind\tname\tform\ttext\nname\tsmith_2\t{}\tann-smith\n")
            names = Names.read(path)
            names.name_of(NAME, ["Ann Smith"])
            self.assertEqual(names.name_of(NAME, ["ann-smith"]), "smith_2")

    def test_faults_of_the_file_have_their_line(self) -> None:
        head = "kind\tname\tform\ttext\n"
        for rows, said in [
            ("name\tann\n", "line 2: a line is"),
            ("name\tAnn\t{}\tAnn\n", "line 2: Ann is no name"),
            ("name\tann\t{}_{}\tAnn\tA\n", "line 2: the form .* 2 fields"),
            ("name\ta\t{}\tA\nname\ta\t{}\tB\n", "line 3: .* twice"),
            ("name\ta\t{}\tA\nname\tb\t{}\tA\n", "line 3: .* twice"),
        ]:
            with tempfile.TemporaryDirectory() as folder:
                path = os.path.join(folder, "names.tsv")
                with open(path, "w") as file:
                    file.write(head + rows)
                with self.assertRaisesRegex(NameFault, said):
                    Names.read(path)


if __name__ == "__main__":
    unittest.main()
