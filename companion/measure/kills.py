#!/usr/bin/env python3
"""Kills `ec-history keep` at random moments under load, many times over.

    companion/measure/kills.py [--program PATH] [--times 500] [--seed 1]

Each time eight clients tell updates, and the process is ended by signal 9; each second
time four copies of all files are taken while it is stopped (SIGSTOP). What was answered
`ok` must be there afterwards, what was refused must not, and the answers must be those
of `ec` over the lines that are kept. A new file is begun after each 25 times.
"""

from __future__ import annotations

import argparse
import os
import sys
import tempfile
import time

sys.path.insert(0, os.path.join(os.path.dirname(os.path.abspath(__file__)), ".."))

from ec_history.program import add_program, find_program  # noqa: E402  (path first)
from tests.kills import Trial  # noqa: E402

FILE_LASTS = 25


def main() -> int:
    parser = argparse.ArgumentParser(description=(__doc__ or "").splitlines()[0])
    parser.add_argument("--times", type=int, default=500)
    parser.add_argument("--seed", type=int, default=1)
    add_program(parser)
    args = parser.parse_args()
    os.environ["EC_PROGRAM"] = find_program(args.program)
    begun = time.monotonic()
    updates = copies = done = 0
    while done < args.times:
        with tempfile.TemporaryDirectory() as folder:
            trial = Trial(folder, args.seed * 1_000_000 + done)
            count = 0
            for _ in range(min(FILE_LASTS, args.times - done)):
                taken = 4 * (done % 2)
                count = trial.kill(taken)
                copies += taken
                done += 1
            updates += count
        print(f"killed {done} times, {copies} copies, {updates:,} updates", flush=True)
    minutes = (time.monotonic() - begun) / 60
    print(f"nothing was lost, in {minutes:.1f} minutes")
    return 0


if __name__ == "__main__":
    sys.exit(main())
