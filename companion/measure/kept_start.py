#!/usr/bin/env python3
"""How long a start of `ec-history keep` takes, with 100,000 updates to play.

    companion/measure/kept_start.py [--program PATH] [--updates 100000]

It should take under five seconds.
"""

from __future__ import annotations

import argparse
import os
import sys
import tempfile
import time
from datetime import datetime, timezone

sys.path.insert(0, os.path.join(os.path.dirname(os.path.abspath(__file__)), ".."))

from ec_history.database import Database  # noqa: E402  (path first)
from ec_history.keeper import Keeper  # noqa: E402
from ec_history.program import add_program, find_program  # noqa: E402

THEORY = b"""\
initiates  lend(Book, Who)      has(Who, Book)   if not out(Book).
initiates  lend(Book, Who)      out(Book).
terminates give_back(Book, Who) has(Who, Book).
terminates give_back(Book, Who) out(Book)        if has(Who, Book).
"""
MOST_SECONDS = 5.0


def main() -> int:
    parser = argparse.ArgumentParser(description=(__doc__ or "").splitlines()[0])
    parser.add_argument("--updates", type=int, default=100_000)
    add_program(parser)
    args = parser.parse_args()
    program = find_program(args.program)
    rows = []
    for number in range(args.updates):
        what = "lend" if number % 2 == 0 else "give_back"
        event = f"{what}(b{number // 2 % 997},p{number % 91})"
        rows.append((0, f"assert e{number} {number} {event}", "ok"))
    with tempfile.TemporaryDirectory() as folder:
        database = Database.create(os.path.join(folder, "kept.db"), THEORY)
        database.append(rows, datetime.now(timezone.utc))
        begun = time.monotonic()
        Keeper(database, program).close()
        seconds = time.monotonic() - begun
        database.close()
    print(f"{args.updates:,} updates were played in {seconds:.2f} seconds")
    return 0 if seconds < MOST_SECONDS else 1


if __name__ == "__main__":
    sys.exit(main())
