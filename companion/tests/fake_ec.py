#!/usr/bin/env python3
"""Stands in for `ec` in tests of the client: it answers by a plan, and not by events.

    fake_ec.py serve THEORY

The comments of the theory are the plan: each has a regular expression, a tab, and what
is written for a line that it fits, with `\\n` for a line feed. `STATUS n` ends it with
that status, and `LONG n` writes a reply of so many bytes. Without a plan for a line,
`ok` is the reply. Silent lines have none.
"""

import re
import sys


def main() -> int:
    with open(sys.argv[2], encoding="utf-8") as file:
        plan = [line[2:].rstrip("\n").split("\t") for line in file if "\t" in line]
    for raw in sys.stdin.buffer:
        line = raw.decode("utf-8", "replace").rstrip("\r\n")
        if not line.strip() or line.lstrip().startswith("%"):
            continue
        for form, answer in plan:
            if re.fullmatch(form, line):
                break
        else:
            answer = "last seen 0 on 0 off 0 props 0" if line == "last" else "ok"
        if answer.startswith("STATUS "):
            return int(answer[7:])
        if answer.startswith("LONG "):
            answer = "1 " + "x" * (int(answer[5:]) - 2)
        sys.stdout.write(answer.replace("\\n", "\n") + "\n")
        sys.stdout.flush()
    return 0


if __name__ == "__main__":
    sys.exit(main())
