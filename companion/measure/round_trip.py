#!/usr/bin/env python3
"""How long a round trip by the library takes, beside a bare write and read.

    companion/measure/round_trip.py [--program PATH] [--times N]

The same question goes to the same program by turns: by `os.write` and `os.read` on its
pipe, and by `Session.holds`, which writes it, waits for the reply and reads that. The
medians are told, and their ratio, which should be at most three.
"""

from __future__ import annotations

import argparse
import os
import statistics
import subprocess
import sys
import tempfile
import time
from typing import Callable, List

sys.path.insert(0, os.path.join(os.path.dirname(os.path.abspath(__file__)), ".."))

from ec_history.client import Server  # noqa: E402  (the path comes first)
from ec_history.program import add_program, find_program  # noqa: E402
from ec_history.terms import Term  # noqa: E402

THEORY = "initiates plug(Lamp) powered(Lamp).\nterminates unplug(Lamp) powered(Lamp).\n"
MOST = 3.0


def seconds(work: Callable[[], object], times: int) -> List[float]:
    """How long each of so many calls took."""
    spent = []
    for _ in range(times):
        start = time.perf_counter()
        work()
        spent.append(time.perf_counter() - start)
    return spent


def main() -> int:
    parser = argparse.ArgumentParser(description=__doc__)
    add_program(parser)
    parser.add_argument("--times", type=int, default=20_000, help="round trips of each")
    args = parser.parse_args()
    program = find_program(args.program)
    bare: List[float] = []
    library: List[float] = []
    with tempfile.TemporaryDirectory() as folder:
        path = os.path.join(folder, "lamp.ec")
        with open(path, "w", encoding="ascii") as file:
            file.write(THEORY)
        with Server(path, program) as server, subprocess.Popen(
            [program, "serve", path],
            stdin=subprocess.PIPE,
            stdout=subprocess.PIPE,
            bufsize=0,
        ) as process:
            assert process.stdin is not None and process.stdout is not None
            write, read = process.stdin.fileno(), process.stdout.fileno()
            session, desk = server.session(), Term("powered", ("desk",))
            session.assert_event("p1", 5, "plug(desk)")
            os.write(write, b"@1 assert p1 5 plug(desk)\n")
            os.read(read, 65536)

            def one_bare() -> None:
                os.write(write, b"@1 holds powered(desk) 10\n")
                assert os.read(read, 65536) == b"@1 yes\n"

            def one_of_library() -> None:
                assert session.holds(desk, 10)

            for _ in range(10):
                bare += seconds(one_bare, args.times // 10)
                library += seconds(one_of_library, args.times // 10)
            process.stdin.close()
    few, more = statistics.median(bare) * 1e6, statistics.median(library) * 1e6
    print(f"bare write and read: {few:.1f} us, in the median of {len(bare)}")
    print(f"by the library: {more:.1f} us, {more / few:.2f} times as long")
    return 0 if more <= MOST * few else 1


if __name__ == "__main__":
    sys.exit(main())
