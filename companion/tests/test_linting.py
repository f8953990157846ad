"""Findings in theories and lines."""

from __future__ import annotations

import io
import os
import tempfile
import unittest
from contextlib import redirect_stderr, redirect_stdout
from typing import List, Tuple, Union

from ec_history.cli import main
from ec_history.theory_faults import check
from tests.setting import example_names, lines_of, program, theory_of

WARD = """\
% who lies where
initiates  admit(Who, Bed)     in(Bed, Who).
terminates discharge(Who, Bed) in(Bed, Who).
initiates  read(Who, Degrees)  hot(Who) if 38 < Degrees.
"""


class LintTest(unittest.TestCase):
    def setUp(self) -> None:
        held = tempfile.TemporaryDirectory()
        self.addCleanup(held.cleanup)
        self.folder = held.name

    def lint(self, theory: str, lines: Union[str, bytes, None] = None) -> List[str]:
        """The findings, with `T` and `L` for the two paths."""
        paths = [os.path.join(self.folder, name) for name in ("t.ec", "l.lines")]
        with open(paths[0], "w", encoding="utf-8", newline="") as file:
            file.write(theory)
        if lines is not None:
            data = lines.encode() if isinstance(lines, str) else lines
            with open(paths[1], "wb") as binary:
                binary.write(data)
        status, out, _ = self.run_main(*(paths if lines is not None else paths[:1]))
        self.assertEqual(status, 1 if out else 0)
        return out.replace(paths[0], "T").replace(paths[1], "L").splitlines()

    def run_main(self, *words: str) -> Tuple[int, str, str]:
        out, err = io.StringIO(), io.StringIO()
        with redirect_stdout(out), redirect_stderr(err):
            status = main(["lint", "--program", program(), *words])
        return status, out.getvalue(), err.getvalue()

    def one(self, theory: str, lines: Union[str, bytes, None], said: str) -> None:
        found = self.lint(theory, lines)
        self.assertEqual(len(found), 1, found)
        self.assertIn(said, found[0])

    def test_nothing_is_found_where_all_is_well(self) -> None:
        lines = (
            "assert a 5 admit(ann,b3)\nassert b 9 discharge(ann,b3)\n"
            "% a note\n\nat 7\nholds in(b3,ann) 7\n"
        )
        self.assertEqual(self.lint(WARD, lines), [])
        self.assertEqual(self.lint(WARD, lines.replace("\n", "\r\n")), [])
        self.assertEqual(self.lint(WARD), [])

    def test_refused_lines_have_their_number_and_a_reason(self) -> None:
        lines = (
            "assert a 5 admit(ann,b3)\nassert b 2024-03-03 discharge(ann,b3)\n"
            "retract z\n@1 begin\n@1 assert a 6 admit(ann,b3)\n@1 commit\n@1 abort\n"
        )
        self.assertEqual(
            self.lint(WARD, lines),
            [
                "L:2: word 3: '2024-03-03': a time is expected: a whole number of 64 "
                "bits",
                "L:3: ec refuses it: no event with the identity z is present",
                "L:6: ec refuses it: update 1 of the draft: an event with the identity "
                "a is present already; retract it first, or choose another identity",
            ],
        )

    def test_a_byte_order_mark(self) -> None:
        found = self.lint(WARD, b"\xef\xbb\xbfassert a 5 admit(ann,b3)\n")
        self.assertEqual(len(found), 2)
        self.assertIn("L:1: the file begins with a byte order mark", found[0])
        self.assertIn("L:1: word 1: a byte order mark stands before it", found[1])
        self.one("\ufeff" + WARD, None, "T:1: column 1: the file begins with a byte")

    def test_a_carriage_return_alone(self) -> None:
        data = b"assert a 5 admit(ann,b3)\rassert b 9 discharge(ann,b3)\r"
        found = self.lint(WARD, data)
        self.assertIn("L:1: a CR stands within the line; CR alone ends no", found[0])
        self.assertIn("L:1: the last line has no LF behind it", found[1])
        self.assertIn("L:1: word 4: an event is expected", found[2])

    def test_quit_in_the_middle(self) -> None:
        lines = "assert a 5 admit(ann,b3)\nquit\n% x\nassert b 9 x\nat 7\n"
        self.one(WARD, lines, "L:2: `quit` stands here, and the 2 lines behind it are")
        self.assertEqual(self.lint(WARD, "at 7\nquit\n\n% the end\n"), [])

    def test_a_last_line_without_its_end(self) -> None:
        lines = "assert a 5 admit(ann,b3)\nretract a"
        self.one(WARD, lines, "L:2: the last line has no LF behind it")

    def test_a_draft_that_stays_open(self) -> None:
        lines = "@2 begin\n@2 assert a 5 admit(ann,b3)\nat 7\n"
        self.one(WARD, lines, "L:1: the draft that is opened here is never closed: `@2")

    def test_events_that_meet_no_rule(self) -> None:
        lines = "assert a 5 admitt(ann,b3)\nassert b 6 admitt(bob,b3)\n"
        said = "L:1: the event admitt(ann,b3) meets no rule; did you mean admit/2? (an"
        self.one(WARD, lines, said)
        lines = "assert a 5 read(ann,37)\nassert b 6 read(ann,39)\n"
        self.one(WARD, lines, "L:1: the event read(ann,37) meets no rule: its arg")

    def test_properties_that_nothing_starts(self) -> None:
        theory = WARD + "initiates x(W) y(W) if inn(b, W).\nstrong z/1.\n"
        theory += "terminates x(W) why(W, W).\nexclusive in(B, C) at(B, C).\n"
        found = self.lint(theory)
        self.assertEqual(len(found), 4)
        self.assertIn("T:5: the condition inn(b,W): nothing starts it; did", found[0])
        self.assertIn("T:6: `strong z/1`: nothing starts such a property", found[1])
        self.assertIn("T:7: `terminates` why(W,W): nothing starts it", found[2])
        self.assertIn("T:8: `exclusive` at(B,C): nothing starts it", found[3])
        theory = WARD + "initially in(b9, zoe).\ninitiates x y if in(b9, zoe), hot(a)."
        self.assertEqual(self.lint(theory), [])

    def test_properties_that_are_asked_and_not_told(self) -> None:
        lines = "assert a 5 admit(ann,b3)\nholds inn(b3,ann) 7\nat 8\n"
        said = "L:2: the property inn(b3,ann): nothing in the theory starts it; did you"
        self.one(WARD, lines, said + " mean in/2?")
        lines = "assert a 5 admit(ann,b3)\nintervals in(b4,ann)\nbroken in(b4,ann)\n"
        said = "L:2: the property in(b4,ann): no event of these lines starts or ends it"
        self.one(WARD, lines, said + " (and 1 more such lines)")

    def test_mixed_widths_of_times(self) -> None:
        lines = (
            "assert a 202403031200 admit(ann,b3)\nassert b 202403041200 admit(bob,b4)\n"
            "at 20240304\nat 20240305\nassert c 202403051200 discharge(ann,b3)\n"
        )
        said = "L:3: the time 20240304 is YYYYMMDD, and most times here are YYYYMMDDhh"
        self.one(WARD, lines, f"{said}mm: by value it comes before all of them; write")
        ticks = "assert a 5 admit(ann,b3)\nassert b 10051231 admit(bob,b4)\nat 100\n"
        self.assertEqual(self.lint(WARD, ticks), [])

    def test_a_start_and_an_end_at_one_instant(self) -> None:
        lines = "assert a 5 admit(ann,b3)\nassert b 5 discharge(ann,b3)\nat 7\n"
        said = "L:2: b ends in(b3,ann) at 5, where a starts it: the end is of what was"
        self.one(WARD, lines, said)
        lines = "assert z 2 admit(ann,b3)\n" + lines
        self.assertEqual(self.lint(WARD, lines), [])
        renewed = "initiates renew(C) valid(C).\nterminates renew(C) valid(C).\n"
        self.assertEqual(self.lint(renewed, "assert a 5 renew(c7)\n"), [])

    def test_faults_of_a_theory(self) -> None:
        for theory, said in [
            ("initiates a b;", "T:1: column 14: ';' can't stand here"),
            (
                "initiates plug(L powered(L).",
                "T:1: column 18: 'powered' stands here, w",
            ),
            ("initiates a\nb", "T:2: column 2: the file ends, where 'if' or '.' is e"),
            (
                "initiates a(X) b(X).\n% x\nterminates storm\n  powered(Lamp).",
                "T:4: clause 2: the variable Lamp of the property powered(Lamp) does "
                "not stand in the event storm; let the event name it",
            ),
            (
                "initiates a(X)\n b(X) if\n c(X), not\n d(Y).",
                "T:4: clause 1: the variable Y of the condition not d(Y) does not",
            ),
            (
                "initiates a(X) b(X) if X < Z.",
                "T:1: clause 1: the variable Z of the comparison X < Z does not stand",
            ),
            ("initially b(X).", "T:1: clause 1: the variable X stands in b(X); `init"),
            ("initiates a(_) b(_).", "T:1: clause 1: `_` stands in the property b(_)"),
            ("initiates a b if\n c(_).", "T:2: clause 1: `_` stands in the condition"),
            ("initiates a b if 1 < _.", "T:1: clause 1: `_` stands in a comparison"),
            ("initially b(_).", "`_` stands in the property b(_), where a name or a n"),
            ("strong b/9.", "T:1: clause 1: b/9: a property has 0 to 8 arguments"),
            (
                "initiates a(A,B,C,D,E,F,G,H,I) b.",
                "T:1: clause 1: the event a(A,B,C,D,E,F,G,H,I) has 9 arguments; at m",
            ),
            ("strong b/0.\n" * 1025, "T:1025: clause 1025: over 1,024 strong"),
            ("initiates a b" + " if c, c" + ", c" * 15 + ".", "over 16 properties as"),
            (" " * 1_048_577, "T: over 1,048,576 bytes"),
        ]:
            self.one(theory, None, said)
            self.one(theory, "at 5\n", said)

    def test_lines_are_read_where_the_theory_is_at_fault(self) -> None:
        found = self.lint("initiates a b;", "holds A 5\nat 5\n")
        self.assertEqual(len(found), 2)
        self.assertIn("L:1: word 2: a property is expected: 'A'", found[1])

    def test_the_examples_are_accepted(self) -> None:
        for name in example_names():
            self.assertIsNone(check(program(), theory_of(name)))
            status, out, _ = self.run_main(theory_of(name), lines_of(name))
            self.assertEqual(status, 1 if out else 0)
            for line in out.splitlines():
                self.assertNotIn("word", line)

    def test_files_that_can_not_be_read(self) -> None:
        for words in (["none.ec"], [theory_of("loans"), "none.lines"]):
            status, out, err = self.run_main(*words)
            self.assertEqual((status, out), (2, ""))
            self.assertIn("can't be read", err)


if __name__ == "__main__":
    unittest.main()
