"""`split`: by which arguments theories fall apart, and what stands in the way."""

import tempfile
import unittest
from typing import Dict, Optional

from ec_history.keys import EVENT, PROPERTY, Form, Keys
from ec_history.splitting import obstacles_told
from ec_history.theory import Theory

from .commands import run
from .setting import example_names, theory_of

LOANS = """\
initiates  lend(Book, Who)      has(Who, Book).
terminates give_back(Book, Who) has(Who, Book).
exclusive  has(Who, Book)       has(Other, Book).
"""
REFUSED = [
    (
        "a condition with another key",
        "initiates lend(Book, Who) has(Who, Book) if not blocked(Who).\n"
        "initiates lend(Book, Who) blocked(Who) if has(Who, Book).\n"
        "exclusive has(Who, Book) has(Other, Book).\n",
        "rule 2 (line 2), `initiates lend(Book, Who) blocked(Who) if has(Who, Book).`: "
        "the event lend(Book,Who) has a key, and blocked(Who) could have none",
    ),
    (
        "an exclusion across keys",
        "initiates put(Thing, Place) on(Thing, Place).\n"
        "exclusive on(Thing, Place) on(Other, Room).\n",
        "the declaration (line 2), `exclusive on(Thing, Place) on(Other, Room).`: "
        "on(Thing,Place) and on(Other,Room) have not the same key",
    ),
    (
        "a key that two arguments swap",
        "initiates give(From, To) owes(To, From) if not owes(From, To).\n",
        "`initiates give(From, To) owes(To, From) if not owes(From, To).`: the "
        "condition owes(From,To) has another argument as its key",
    ),
    (
        "an event without a key that starts a keyed property",
        LOANS + "terminates stocktaking has(ann, dune).\n",
        "the event stocktaking does not name the key of has(ann,dune)",
    ),
    (
        "an initial property",
        LOANS + "initially has(ann, dune).\n",
        "has(_,_) is there initially (line 4), in all parts, so it has no key",
    ),
    (
        "events without arguments",
        "initiates push lit.\nterminates pull lit.\n",
        "no property that push, pull starts or ends has an argument",
    ),
    (
        "a property without a key that rests on one with a key",
        LOANS + "initiates look(Book, Who) busy if has(Who, Book).\n"
        "terminates lend(Book, Who) busy.\n",
        "the condition has(Who,Book) has a key, and busy could have none",
    ),
]
ACCEPTED: Dict[str, Dict[str, Optional[int]]] = {
    LOANS: {"lend": 0, "give_back": 0},
    # who has a book is asked by the book, and who is a member everywhere
    "initiates join(Who) member(Who).\n"
    "initiates lend(Book, Who) has(Who, Book) if member(Who).\n"
    "exclusive has(Who, Book) has(Other, Book).\n": {"join": None, "lend": 0},
    # two keys that nothing reads across
    "initiates lend(Book, Who) has(Who, Book).\n"
    "initiates pay(Who, Sum) paid(Who) if paid(Who).\n"
    "exclusive has(Who, Book) has(Other, Book).\n": {"lend": 0, "pay": 0},
    # a name at the place of the key
    "initiates open_up(Door) open(Door).\n"
    "initiates push(front) open(front).\n": {"open_up": 0, "push": 0},
    # a condition on what has no argument
    "initiates dusk dark.\n"
    "initiates push(Lamp) lit(Lamp) if dark.\n": {"dusk": None, "push": 0},
}


class Splitting(unittest.TestCase):
    def test_theories_that_do_not_fall_apart_are_refused_with_their_rule(self) -> None:
        for name, text, wanted in REFUSED:
            theory = Theory.parse(text)
            split = Keys(theory).split()
            self.assertFalse(split.falls_apart, name)
            told = "\n".join(obstacles_told(theory, split))
            self.assertIn(wanted, told, name)

    def test_theories_that_fall_apart_have_their_places(self) -> None:
        for text, wanted in ACCEPTED.items():
            keys = Keys(Theory.parse(text))
            split = keys.split()
            self.assertTrue(keys.agree(split))
            found = {f.name: p for f, p in split.places.items() if f.kind == EVENT}
            self.assertEqual(found, wanted, text)

    def test_a_change_of_one_place_does_not_agree(self) -> None:
        for name in example_names():
            keys = Keys(Theory.read(theory_of(name)))
            split = keys.split()
            self.assertTrue(keys.agree(split), name)
            for form, place in split.places.items():
                if place is not None and form.kind == PROPERTY:
                    places = {**split.places, form: None}
                    self.assertFalse(keys.agree(type(split)(places)), (name, form))

    def test_many_rules_are_searched_in_little_time(self) -> None:
        rules = [
            f"initiates e{n}(A, B, C) p{n}(B, C, A) if p{(n * 7) % 300}(B, C, A)."
            for n in range(300)
        ]
        split = Keys(Theory.parse("\n".join(rules))).split()
        self.assertEqual(split.places[Form(PROPERTY, "p299", 3)], 0)


class Command(unittest.TestCase):
    def test_it_prints_the_places(self) -> None:
        path = theory_of("lending_year")
        told = run("split", path)
        self.assertEqual((told.status, told.errors), (0, ""))
        lines = told.output.splitlines()
        self.assertEqual(lines[0], f"{path} falls apart by the argument KEY:")
        self.assertIn("  event, to one part      borrow(_,KEY)", lines)
        self.assertIn("  property, in all parts  member(_)", lines)

    def test_it_tells_what_stands_in_the_way(self) -> None:
        with tempfile.NamedTemporaryFile("w", suffix=".ec") as file:
            file.write(REFUSED[3][1])
            file.flush()
            told = run("split", file.name)
        self.assertEqual(told.status, 1)
        lines = told.output.splitlines()
        self.assertEqual(lines[0], f"{file.name} does not fall apart:")
        self.assertEqual(len(lines), 3)

    def test_a_theory_at_fault_is_told(self) -> None:
        with tempfile.NamedTemporaryFile("w", suffix=".ec") as file:
            file.write("initiates a(X)\nb(Y).")
            file.flush()
            told = run("split", file.name)
            self.assertEqual(told.status, 2)
            self.assertIn(f"{file.name}:2: clause 1: the variable Y", told.errors)
        self.assertEqual(run("split", "none.ec").status, 2)


if __name__ == "__main__":
    unittest.main()
