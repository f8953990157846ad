#!/usr/bin/env python3
"""Writes lines for ec from a CSV file: examples/from_csv.py examples/beds.csv > examples/beds.lines

A row is an event: `what` is its name, the columns of ARGUMENTS are its arguments, and `when` its time. Its identity is r and its
`record`; where `corrects` names a record, that one is taken back first. The end has a question, so that there is something to see.
"""
import csv
import datetime
import re
import sys

ARGUMENTS = ["patient", "bed"]
texts = {}  # the text that each name stands for


def name(text):
    """A name for a text: small letters, digits and _, and an x in front where it would not begin with a letter."""
    made = re.sub(r"[^a-z0-9]+", "_", text.strip().lower()).strip("_")
    made = (made if re.match("[a-z]", made) else "x" + made)[:64]
    if texts.setdefault(made, text) != text:
        sys.exit(f"{text!r} and {texts[made]!r} would both be called {made}")
    return made


def time(text):
    """A date with the time of day as one number, of one width throughout."""
    return datetime.datetime.strptime(text, "%Y-%m-%d %H:%M").strftime("%Y%m%d%H%M")


with open(sys.argv[1], encoding="utf-8-sig", newline="") as file:  # (a byte order mark is dropped)
    for row in csv.DictReader(file):
        assertion = f"assert r{row['record']} {time(row['when'])} {name(row['what'])}({','.join(name(row[it]) for it in ARGUMENTS)})"
        if row["corrects"]:
            print("begin", f"retract r{row['corrects']}", assertion, "commit", sep="\n")
        else:
            print(assertion)
print("events", "at 202403021600", "intervals isolated(b3_west)", "quit", sep="\n")
