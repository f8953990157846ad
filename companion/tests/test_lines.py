"""Which lines have a reply, and whose: compared with `ec` on many odd lines."""

import random
import unittest

from ec_history.client import Server
from ec_history.lines import is_quit, shape_of

from .setting import program, theory_of

PIECES = [b"last", b"@3", b"@64", b"@07", b"@", b"%", b"% x", b"assert", b"commit"]
PIECES += [b" ", b"  ", b"\t", b"\r", b"\x0b", b"\xff", b"\x00", b"events", b"begin"]
PIECES += [b"quit now", b" " * 4095, b"x" * 4094]


class BesideEc(unittest.TestCase):
    def test_silence_and_sessions(self) -> None:
        draw = random.Random(7)
        lines = []
        for _ in range(3000):
            line = b"".join(draw.choice(PIECES) for _ in range(draw.randrange(4)))
            if not is_quit(line):
                lines.append(line)
        with Server(theory_of("loans"), program()) as server:
            # each line has the reply of its own session, so none is one off
            for played in server.play(
                each for line in lines for each in (line, b"last")
            ):
                shape = shape_of(played.line)
                self.assertEqual(played.reply is None, shape.silent)
                if played.line == b"last":
                    self.assertTrue(played.reply.startswith("last "), played)
                elif played.reply is not None:
                    prefix = f"@{shape.session} " if shape.session is not None else ""
                    self.assertTrue(played.reply.startswith(prefix), played)
                    self.assertEqual(bool(prefix), played.reply.startswith("@"), played)


class Quit(unittest.TestCase):
    def test_what_is_quit(self) -> None:
        for line in [b"quit", b" quit\t", b"@3 quit", b"@03  quit", b"quit\r"]:
            self.assertTrue(is_quit(line), line)
        for line in [
            b"quit x",
            b"@64 quit",
            b"@3",
            b"% quit",
            b"quit\x0b",
            b"quit\r\r",
        ]:
            self.assertFalse(is_quit(line), line)
        self.assertFalse(is_quit(b"quit" + b" " * 4093))


if __name__ == "__main__":
    unittest.main()
