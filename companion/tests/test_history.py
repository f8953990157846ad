"""Files of lines as they are told, and the properties that there are to ask about."""

import unittest
from typing import List

from ec_history.client import Server
from ec_history.history import History, Telling, doubt, tell
from ec_history.terms import Pattern

from .calculus import Calculus
from .histories import drawn, written
from .setting import program

LAMP = "initiates plug(L) powered(L).\nterminates unplug(L) powered(L).\n"


class ToldLines(unittest.TestCase):
    def told(self, source: bytes) -> "tuple[Telling, List[str]]":
        with written(LAMP, []) as (theory, path):
            with open(path, "wb") as file:
                file.write(source)
            with Server(theory, program()) as server:
                telling = tell(server, path)
                events = [event.identity for event in server.main.events()]
        return telling, events

    def test_line_ends(self) -> None:
        _, events = self.told(b"assert a 1 plug(x)\r\n\r\nassert b 1 plug(x)")
        self.assertEqual(events, ["a", "b"])
        telling, events = self.told(b"assert a 1 plug(x)\r")
        # no carriage return is dropped from a last line without a line feed
        self.assertEqual((len(telling.refusals), events), (1, []))
        telling, events = self.told(b"assert a 1 plug(x)\r\r\n")
        self.assertEqual((len(telling.refusals), events), (1, []))

    def test_quit_ends_it(self) -> None:
        source = b"assert a 1 plug(x)\n@3 quit\n% x\nassert b 2 plug(x)\nlast\n"
        telling, events = self.told(source)
        self.assertEqual((telling.behind_quit, events), (2, ["a"]))

    def test_drafts(self) -> None:
        telling, events = self.told(
            b"@1 begin\n@1 assert a 1 plug(x)\n@1 commit\n@2 begin\n@2 retract a\n"
            b"@2 abort\n@3 begin\n@3 retract a\n@4 begin\n"
        )
        self.assertEqual((telling.drafted, events), ({3: 1}, ["a"]))
        (warning,) = telling.warnings()
        self.assertIn("the draft of session 3 was not committed, so its 1", warning)

    def test_refusals(self) -> None:
        telling, _ = self.told(
            b"assert a 1 plug(x)\nbegin\nretract b\ncommit\nabort\nwhat\n\xff\n"
        )
        places = [(refusal.number, refusal.reply) for refusal in telling.refusals]
        self.assertEqual(
            places,
            [
                (4, "refused commit 1 unknown b"),
                (6, "refused syntax"),
                (7, "refused syntax"),
            ],
        )
        (warning,) = telling.warnings()
        self.assertIn("3 lines were refused", warning)
        self.assertIn("line 4, 'commit': no event with the identity b", warning)


class Candidates(unittest.TestCase):
    def test_they_are_in_order_and_fit(self) -> None:
        with drawn(5) as history:
            terms = history.candidates()
            self.assertEqual(terms, sorted(set(terms)))
            fitting = history.candidates(Pattern.parse("at(ann,_)"))
            self.assertEqual(
                fitting, [t for t in terms if t.name == "at" and "ann" in t.arguments]
            )

    def test_all_that_ever_holds_is_among_them(self) -> None:
        for seed in range(6):
            with drawn(seed) as history:
                calculus = Calculus(history.theory, history.events)
                known = set(history.candidates())
                for time in range(-1, 42):
                    self.assertTrue(set(calculus.at(time)) <= known)
                    self.assertEqual(calculus.at(time), history.session.at(time))

    def test_what_no_rule_starts_is_told(self) -> None:
        with written(LAMP, ["assert a 1 plug(x)"]) as paths:
            with Server(paths[0], program()) as server:
                tell(server, paths[1])
                history = History(server)
        self.assertIsNone(doubt(history.theory, Pattern.parse("powered(_)")))
        self.assertEqual(
            doubt(history.theory, Pattern.parse("powered(_,_)")),
            "no rule starts powered with 2 arguments; the theory has powered/1",
        )


if __name__ == "__main__":
    unittest.main()
