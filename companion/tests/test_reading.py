"""The reading of lines, compared with `ec`'s own."""

from __future__ import annotations

import os
import random
import subprocess
import tempfile
import unittest
from typing import List, Tuple

from ec_history.moments import CIVIL, TICK, Clock
from ec_history.reading import Command, LineFault, Reader, as_sent, is_silent
from ec_history.reading import later_commands, lines_in
from ec_history.terms import Term
from tests.setting import program

NAMES = ["a", "dune", "x_9", "aB", "if", "not", "n" * 64, "n" * 65, "A", "_", "_a"]
NAMES += ["1a", "é", "a-b", "a.b", "", "a\x00", "inf"]
NUMBERS = ["0", "-0", "7", "-7", "007", "9223372036854775807", "9223372036854775808"]
NUMBERS += ["-9223372036854775808", "-9223372036854775809", "1" * 20, "1" * 21, "-"]
NUMBERS += ["+1", "0" * 20, "0" * 21, "1.5", "--1", "1-", "\xb2", "٣"]
CIVILS = ["2024-02-29T23:59:59Z", "2023-02-29T00:00:00Z", "0000-02-29T00:00:00Z"]
CIVILS += ["9999-12-31T23:59:59Z", "2024-02-30T00:00:00Z", "2024-13-01T00:00:00Z"]
CIVILS += ["2024-01-01T24:00:00Z", "2024-01-01T00:60:00Z", "2024-01-01T00:00:60Z"]
CIVILS += ["2024-01-01t00:00:00Z", "2024-01-01T00:00:00", "2024-01-01", "0000-00-01"]
CIVILS += ["2024-01-00T00:00:00Z", "٢024-01-01T00:00:00Z", "1900-02-29T00:00:00Z"]
WORDS = ["assert", "retract", "begin", "commit", "abort", "holds", "through", "last"]
WORDS += ["intervals", "broken", "at", "why", "clashes", "events", "asof", "watch"]
WORDS += ["unwatch", "pairs", "related", "Assert", "has", "quit2", "%", "% a", "@"]
PREFIXES = ["@0", "@7", "@07", "@63", "@64", "@", "@007", "@a", "@1a", "@\xb2"]
RELATIONS = ["before", "met_by", "equals", "finished_by", "near"]


class Draw:
    """Draws lines: well-formed ones, and such as are wrong in one place or more."""

    def __init__(self, seed: int, times: List[str]) -> None:
        self.random = random.Random(seed)
        self.times = times

    def term(self) -> str:
        draw = self.random
        name = draw.choice(NAMES[:7] if draw.random() < 0.9 else NAMES)
        if draw.random() < 0.3:
            return name
        count = draw.choice([0, 1, 1, 2, 2, 3, 8, 9])
        arguments = NAMES[:7] + NUMBERS[:6]
        if draw.random() < 0.2:
            arguments = NAMES + NUMBERS
        inner = ",".join(draw.choice(arguments) for _ in range(count))
        return f"{name}({inner})"

    def words(self) -> List[str]:
        draw = self.random
        time = lambda: draw.choice(self.times)  # noqa: E731
        relation = draw.choice(RELATIONS)
        return draw.choice(
            [
                ["assert", draw.choice(NAMES), time(), self.term()],
                ["retract", draw.choice(NAMES)],
                ["holds", self.term(), time()],
                ["through", self.term(), time(), time()],
                ["intervals", self.term()],
                ["at", time()],
                ["why", self.term(), time()],
                ["asof", draw.choice(NUMBERS), "holds", self.term(), time()],
                ["pairs", self.term(), relation, self.term()],
                ["related", self.term(), time(), relation, self.term()],
                ["watch", self.term()],
                [draw.choice(WORDS)],
            ]
        )

    def line(self) -> bytes:
        draw = self.random
        words = self.words()
        if draw.random() < 0.2:
            words = [draw.choice(PREFIXES), *words]
        if draw.random() < 0.1:
            words.insert(draw.randint(0, len(words)), draw.choice(WORDS + NAMES))
        if draw.random() < 0.1:
            del words[draw.randrange(len(words))]
        blanks = [" ", " ", " ", "  ", "\t", " \t "]
        text = "".join(word + draw.choice(blanks) for word in words)
        text = text[:-1] if draw.random() < 0.9 else " " + text
        line = text.encode("utf-8")
        if draw.random() < 0.15 and line:
            place = draw.randrange(len(line))
            byte = bytes([draw.choice([0, 9, 11, 12, 13, 32, 37, 40, 44, 64, 95, 200])])
            line = line[:place] + byte + line[place + draw.randint(0, 1) :]
        if draw.random() < 0.02:
            line = line.ljust(draw.choice([4095, 4096, 4097, 5000]), b" ")
        return line.replace(b"\n", b" ")


class ComparedTest(unittest.TestCase):
    """10,000 lines, and 3,000 of civil times where `ec` has these."""

    def compare(self, theory: str, clock: Clock, times: List[str], count: int) -> None:
        with tempfile.TemporaryDirectory() as folder:
            path = os.path.join(folder, "theory.ec")
            with open(path, "w") as file:
                file.write(theory)
            if clock is CIVIL and self.check(path) != 0:
                self.skipTest("this ec has no civil time yet")
            reader = Reader(clock, later_commands(program(), path, clock))
            draw = Draw(7, times)
            lines = [draw.line() for _ in range(count)]
            data = b"".join(as_sent(line) + b"\n" for line in lines)
            words = [program(), "serve", path]
            asked = subprocess.run(
                words, input=data, stdout=subprocess.PIPE, check=True
            )
        replies = [r for r in asked.stdout.split(b"\n") if not r.startswith(b"note ")]
        answered = [line for line in lines if not is_silent(line)]
        self.assertEqual(len(answered), len(replies) - 1)
        counts = {"": 0, "syntax": 0, "long-line": 0}
        for line, reply in zip(answered, replies):
            words = reply.decode().split(" ")
            refused = [word for word in words if word in ("syntax", "long-line")]
            wanted = refused[0] if "refused" in words and refused else ""
            code = self.code(reader, line)
            self.assertEqual((line, code), (line, wanted))
            counts[code] += 1
        for code, number in counts.items():
            self.assertGreater(number, count // 400, code)

    def check(self, path: str) -> int:
        words = [program(), "check", path]
        return subprocess.run(words, stdout=subprocess.DEVNULL, check=False).returncode

    def code(self, reader: Reader, line: bytes) -> str:
        try:
            self.assertIsNotNone(reader.read(line))
        except LineFault as fault:
            self.assertTrue(fault.reason)
            return fault.code
        return ""

    def test_lines_of_ticks(self) -> None:
        self.compare("initiates a b.", TICK, NUMBERS, 10_000)

    def test_lines_of_civil_times(self) -> None:
        self.compare("time civil. initiates a b.", CIVIL, CIVILS, 3_000)


class ReaderTest(unittest.TestCase):
    def test_what_a_line_says(self) -> None:
        reader = Reader(TICK, frozenset(["asof"]))
        self.assertEqual(
            reader.read(b"@07 assert l1 010\tlend(dune,ann)"),
            Command(7, "assert", ("l1", "010", Term("lend", ("dune", "ann")))),
        )
        past = reader.read(b"asof 3 through b 5 9")
        self.assertEqual(past, Command(None, "through", (Term("b"), "5", "9"), 3))
        assert past is not None
        self.assertEqual(past.times, ["5", "9"])
        self.assertIsNone(reader.read(b"  \t"))
        self.assertIsNone(reader.read(b" %a"))

    def test_a_fault_says_which_word_and_what_was_expected(self) -> None:
        for line, word, said in [
            (b"asert a 1 b", 1, "'asert' is no command; did you mean `assert`?"),
            (b"ASSERT a 1 b", 1, "did you mean `assert`?"),
            (b"assert A 1 b", 2, "an event's name is expected: 'A': a name begins"),
            (b"assert a 2024-03-03 b", 3, "a time is expected: a whole number"),
            (b"assert a 1", 4, "the line ends, where an event is expected"),
            (b"assert a 1 in(b3, p1)", 4, "'in(b3,', byte 7: a ')' is expected"),
            (b"assert a 1 in(b3,P1)", 4, "byte 7: P1 stands for anything; here a num"),
            (b"assert a 1 b c", 5, "'c' is too much: `assert` takes identity, time,"),
            (b"events 7", 2, "'7' is too much: `events` takes nothing"),
            (b"@64 last", 1, "'@64' is no session: `@` and a number from 0 to 63"),
            (b"@3", 2, "the line ends, where a command is expected"),
            (b"watch b", 1, "this ec has no command `watch` yet"),
            (b"\xef\xbb\xbfassert a 1 b", 1, "a byte order mark stands before it"),
            (b"x" * 4097, 0, "the line has 4,097 bytes; a line has at most 4,096"),
            (b"asof 1 last", 3, "'last' can't stand behind `asof`"),
        ]:
            with self.assertRaises(LineFault) as raised:
                Reader(TICK, frozenset(["asof"])).read(line)
            self.assertEqual(raised.exception.word, word, line)
            self.assertIn(said, raised.exception.reason)

    def test_a_file_is_cut_as_ec_cuts_it(self) -> None:
        found = [(l.content, l.ended) for l in lines_in(b"a\r\n\nb\r\r\nc\r")]
        wanted: List[Tuple[bytes, bool]] = [(b"a", True), (b"", True), (b"b\r", True)]
        self.assertEqual(found, [*wanted, (b"c\r", False)])
        self.assertEqual(list(lines_in(b"")), [])


if __name__ == "__main__":
    unittest.main()
