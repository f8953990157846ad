"""`ask`: each question over each example, and the three formats."""

import json
import unittest
from collections import Counter
from typing import Dict, List, Optional, Tuple

from ec_history.asking import QUESTIONS, answer
from ec_history.history import History
from ec_history.moments import Moment
from ec_history.terms import Pattern, Term
from ec_history.wording import Wording

from .calculus import Calculus
from .commands import run
from .histories import drawn, example, written
from .setting import example_names, lines_of, theory_of


def rows(history: History, question: str) -> List[Dict]:
    """The rows that answer a question, each by the names of its columns."""
    table = answer(history, Wording(history.theory), question)
    return [dict(zip(table.columns, row)) for row in table.rows]


def some_instants(history: History) -> List[Moment]:
    times = sorted({event.time for event in history.events})
    last = times[-1]
    return [times[0], times[len(times) // 2], last, later(history, last, 1)]


def later(history: History, moment: Moment, count: int) -> Moment:
    """The time that lies so many units behind another."""
    clock = history.clock
    return clock.moment(clock.rank(moment) + count)


def cells(history: History, *moments: Optional[Moment]) -> Tuple:
    """Times as they stand in tables."""
    wording = Wording(history.theory)
    return tuple(wording.cell(moment) for moment in moments)


class Answers(unittest.TestCase):
    """Each question, beside an independent calculation."""

    def each(self):
        for name in example_names():
            with self.subTest(name), example(name) as history:
                yield history, Calculus(history.theory, history.events)
        for seed in (11, 12):
            with self.subTest(seed), drawn(seed) as history:
                yield history, Calculus(history.theory, history.events)

    def test_at_and_holds_and_count(self) -> None:
        for history, calculus in self.each():
            for at in some_instants(history):
                time = history.clock.write(at)
                told = [row["property"] for row in rows(history, f"at {time}")]
                self.assertEqual(told, [str(term) for term in calculus.at(at)])
                for shape in {(t.name, t.arity) for t in history.candidates()}:
                    if not shape[1]:
                        continue
                    pattern = f"{shape[0]}({','.join('_' * shape[1])})"
                    told = {
                        r["property"]: r["holds"]
                        for r in rows(history, f"holds {pattern} {time}")
                    }
                    self.assertTrue(told)
                    for text, holds in told.items():
                        self.assertEqual(holds, calculus.holds(Term.parse(text), at))
                    self.check_count(history, calculus, shape, at)

    def check_count(
        self, history: History, calculus: Calculus, shape, at: Moment
    ) -> None:
        name, arity = shape
        pattern = f"{name}({','.join(['By'] + ['_'] * (arity - 1))})"
        time = history.clock.write(at)
        told = {r["By"]: r["count"] for r in rows(history, f"count {pattern} {time}")}
        fitting = (t for t in calculus.at(at) if (t.name, t.arity) == shape)
        self.assertEqual(told, Counter(str(t.arguments[0]) for t in fitting))

    def test_intervals_broken_and_properties(self) -> None:
        for history, calculus in self.each():
            intervals, broken = rows(history, "intervals _"), rows(history, "broken _")
            counts = []
            for term in history.candidates():
                held, broke = calculus.spans(term)
                told = [r for r in intervals if r["property"] == str(term)]
                wanted = [cells(history, *span) for span in held]
                self.assertEqual([(r["start"], r["end"]) for r in told], wanted)
                told = [r for r in broken if r["property"] == str(term)]
                wanted = [cells(history, *span) for span in broke]
                self.assertEqual([(r["start"], r["broken"]) for r in told], wanted)
                if held or broke:
                    counts.append((str(term), len(held), len(broke)))
            told = [
                (r["property"], r["intervals"], r["broken"])
                for r in rows(history, "properties")
            ]
            self.assertEqual(told, counts)
            # whatever ever starts is among the candidates
            started = {term for term in calculus.marks if any(calculus.spans(term))}
            self.assertTrue(started <= set(history.candidates()))

    def test_why_and_through(self) -> None:
        for history, calculus in self.each():
            for at in some_instants(history):
                time = history.clock.write(at)
                for row in rows(history, f"why _ {time}"):
                    reason = history.session.why(row["property"], at)
                    self.assertEqual(row["reason"], reason.kind)
                    self.assertEqual(
                        (row["start"], row["end"]),
                        cells(history, reason.start, reason.end),
                    )
                    by = reason.by.event if reason.by else None
                    until = reason.until.rule if reason.until else None
                    self.assertEqual((row["by"], row["until_rule"]), (by, until))
                stretch = [later(history, at, count) for count in range(3)]
                end = history.clock.write(stretch[-1])
                for row in rows(history, f"through _ {time} {end}"):
                    term = Term.parse(row["property"])
                    wanted = all(calculus.holds(term, t) for t in stretch)
                    self.assertEqual(row["holds"], wanted)

    def test_events_mentions_and_clashes(self) -> None:
        for history, _ in self.each():
            events = [
                (e.identity, *cells(history, e.time), str(e.term))
                for e in history.events
            ]
            told = [(r["event"], r["time"], r["what"]) for r in rows(history, "events")]
            self.assertEqual(told, events)
            word = history.events[0].term.arguments[0]
            told = [r["event"] for r in rows(history, f"mentions {word}")]
            wanted = [e.identity for e in history.events if word in e.term.arguments]
            self.assertEqual(told, wanted)
            told = [r["time"] for r in rows(history, "clashes")]
            self.assertEqual(told, list(cells(history, *history.session.clashes())))


class Questions(unittest.TestCase):
    def test_a_property_without_a_pattern_is_asked_as_it_is(self) -> None:
        with example("loans") as history:
            (row,) = rows(history, "holds has(zoe,dune) 12")
            self.assertEqual((row["property"], row["holds"]), ("has(zoe,dune)", False))

    def test_a_variable_stands_for_one_value(self) -> None:
        with drawn(3) as history:
            pattern = Pattern.parse("at(X,X)")
            self.assertEqual(history.candidates(pattern), [])

    def test_mentions_finds_identities_events_and_numbers(self) -> None:
        with example("plant") as history:
            self.assertEqual([r["event"] for r in rows(history, "mentions t1")], ["t1"])
            self.assertEqual(len(rows(history, "mentions read")), 2)
            self.assertEqual(
                [r["event"] for r in rows(history, "mentions 095")], ["r2"]
            )

    def test_events_and_what_holds_are_chosen_by_a_pattern(self) -> None:
        with example("loans") as history:
            told = [r["event"] for r in rows(history, "events give_back(_,ann)")]
            self.assertEqual(told, ["g1", "g2"])
            told = [r["property"] for r in rows(history, "at 18 has(_,_)")]
            self.assertEqual(told, ["has(bob,dune)"])

    def test_a_count_of_none(self) -> None:
        with example("loans") as history:
            self.assertEqual(rows(history, "count out(_) 1"), [{"count": 0}])
            self.assertEqual(rows(history, "count out(Book) 1"), [])


class Command(unittest.TestCase):
    def ask(self, question: str, *words: str, name: str = "loans"):
        return run("ask", theory_of(name), lines_of(name), question, *words)

    def test_text(self) -> None:
        ran = self.ask("at 18 _")
        self.assertEqual((ran.status, ran.output), (0, "has(bob,dune)\nout(dune)\n"))
        ran = self.ask("holds has(_,dune) 14")
        self.assertEqual(ran.output, "has(ann,dune)  yes\nhas(bob,dune)  no\n")
        ran = self.ask("intervals out(_)")
        self.assertEqual(
            ran.output,
            "out(dune)  after 10 up to 15\nout(dune)  after 17, without an end\n",
        )

    def test_tsv(self) -> None:
        ran = self.ask("broken mill(_)", "--format", "tsv", name="plant")
        self.assertEqual(ran.output, "property\tstart\tbroken\twords\n")
        ran = self.ask("why has(ann,_) 14", "--format", "tsv")
        header, row = (line.split("\t") for line in ran.output.splitlines())
        told = dict(zip(header, row))
        self.assertEqual(
            (told["reason"], told["by"], told["until_rule"]), ("yes", "l1", "3")
        )

    def test_json(self) -> None:
        ran = self.ask("intervals waits(_,_)", "--format", "json")
        (row,) = json.loads(ran.output)
        self.assertEqual(row["arguments"], ["bob", "dune"])
        self.assertEqual((row["name"], row["start"], row["end"]), ("waits", 12, 17))
        ran = self.ask("broken _", "--format", "json")
        self.assertEqual(json.loads(ran.output), [])

    def test_every_question_of_every_example_in_every_format(self) -> None:
        words = {"T": "20", "S": "10", "E": "30", "PATTERN": "_", "X": "x"}
        for name in ("loans", "plant", "stock"):
            for question in QUESTIONS.values():
                asked = question.form.replace("[", "").replace("]", "").split()
                text = " ".join(words.get(word, word) for word in asked)
                if text.startswith("count"):
                    text = "count at(By,_) 20"
                for form in ("text", "tsv", "json"):
                    ran = self.ask(text, "--format", form, name=name)
                    self.assertEqual(ran.status, 0, ran.errors)

    def test_real_names_and_dates(self) -> None:
        names = (
            "kind\tname\tform\ttext\nname\tann\t{}\tAnn Müller\nname\tdune\t{}\tDune\n"
        )
        with written("initially a.\n", []) as (theory, _):
            path = f"{theory}.names.tsv"
            with open(path, "w", encoding="utf-8") as file:
                file.write(names)
            options = ["--names", path, "--unit", "day", "--origin", "2024-01-01"]
            ran = self.ask("intervals has(_,_)", *options)
            self.assertIn(
                "has(Ann Müller, Dune)  after 2024-01-11 up to 2024-01-16", ran.output
            )
            ran = self.ask("at 2024-01-13 _", *options, "--format", "json")
            self.assertEqual(
                json.loads(ran.output)[0]["arguments"], ["Ann Müller", "Dune"]
            )
            ran = self.ask("at 12", *options)
            self.assertIn("has(Ann Müller, Dune)\n", ran.output)
            ran = self.ask('holds has("Ann Müller",_) 12', *options)
            self.assertEqual(ran.output, "has(Ann Müller, Dune)  yes\n")
            ran = self.ask('holds has("Ann Muller",_) 12', *options)
            self.assertIn('did you mean "Ann Müller"?', ran.errors)
            self.assertEqual(ran.status, 2)
            ran = self.ask('holds has("Ann Müller",_) 12')
            self.assertIn("without --map or --names no name is known", ran.errors)

    def test_what_was_refused_is_told_on_standard_error(self) -> None:
        ran = self.ask("at 18 _")
        self.assertIn(
            "1 line was refused and changed nothing. The first is line 29", ran.errors
        )
        self.assertIn("an event with the identity g1 is present already", ran.errors)

    def test_what_is_behind_quit_and_what_is_not_committed_is_told(self) -> None:
        lines = ["assert l1 10 lend(dune,ann)", "begin", "assert l2 20 lend(emma,bob)"]
        with written(
            "initiates lend(B, W) has(W, B).", lines + ["quit", "last"]
        ) as paths:
            ran = run("ask", *paths, "at 30")
        self.assertEqual(ran.output, "has(ann,dune)\n")
        self.assertIn(
            "the draft of session 0 was not committed, so its 1 update", ran.errors
        )
        self.assertIn("1 line stands behind `quit`", ran.errors)

    def test_faults_say_what_to_do(self) -> None:
        for question, words in [
            ("who", "'who' is no question; there are at, holds"),
            ("at", "is asked as `at T [PATTERN]`"),
            ("at x", "a time is expected"),
            ("at 5 Has(_)", "_ stands for anything"),
            ("intervals hass(_,_)", "no rule starts hass with 2 arguments"),
            ("mentions Ann", "is no name and no number"),
        ]:
            ran = self.ask(question)
            self.assertIn(words, ran.errors)
            self.assertEqual(ran.status, 0 if "hass" in question else 2, question)
        ran = run("ask", "/no/theory.ec", lines_of("loans"), "events")
        self.assertEqual(ran.status, 2)
        self.assertIn("/no/theory.ec can't be read: No such file", ran.errors)
        ran = run("ask", theory_of("loans"), "/no/lines", "events")
        self.assertEqual(ran.status, 2)
        self.assertIn("/no/lines can't be read: No such file", ran.errors)


if __name__ == "__main__":
    unittest.main()
