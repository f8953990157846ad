#!/usr/bin/env python3
"""Writes the lines of a year in a lending library: examples/lending_year.py > examples/lending_year.lines

Days are counted from 1. Each event is told some days after it happened, so that lines come out of order; some are told wrongly
and put right later, one at a time or several in a draft. The replies beside the lines, lending_year.replies, were worked out by
another program from the rules of the calculus, and not by ec.
"""
MEMBERS = 6
BOOKS = 9
SHELVES = 4
DAYS = 365

state = 1986
count = 0
told = []  # the identities of what was told and not taken back


def draw(limit):
    """A number below a limit."""
    global state
    state = (state * 6364136223846793005 + 1442695040888963407) % 2**64
    return (state >> 33) % limit


def pick(things):
    """One of some things."""
    return things[draw(len(things))]


def tell(day, event):
    """The line of an event that happened on a day."""
    global count
    count += 1
    told.append(f"e{count}")
    return f"assert e{count} {day} {event}"


def happening():
    """Something that happens in a library."""
    member = f"m{draw(MEMBERS)}"
    book = f"b{draw(BOOKS)}"
    shelf = f"s{draw(SHELVES)}"
    return pick(
        [f"borrow({member},{book})", f"return({member},{book})"] * 6
        + [f"shelve({book},{shelf})"] * 4
        + [f"clear({shelf},{book})", f"join({member})"] * 2
        + [f"renew({member})"] * 3
        + [f"leave({member})"]
    )


def question(day):
    """Something that the desk asks."""
    member = f"m{draw(MEMBERS)}"
    book = f"b{draw(BOOKS)}"
    about = pick(
        [
            f"lent({book})",
            f"has_book({member},{book})",
            f"member({member})",
            f"card({member})",
            f"place({book},s{draw(SHELVES)})",
        ]
    )
    return pick(
        [
            f"holds {about} {day}",
            f"why {about} {day}",
            f"intervals {about}",
            f"broken {about}",
            f"through {about} {max(day - 20, 1)} {day}",
            f"at {day}",
            "clashes",
            "last",
        ]
    )


def changes(day):
    """Some lines that tell what happened up to a day, or take back what was told wrongly."""
    for _ in range(1 + draw(3)):
        if draw(100) < 12:
            yield f"retract {told.pop(draw(len(told)))}"
        elif draw(100) < 3:
            yield f"assert {pick(told)} {day} {happening()}"  # a name that is taken
        else:
            yield tell(max(day - pick([0, 0, 0, 1, 2, 5, 30]), 1), happening())


print("% Written by lending_year.py.")
for number in range(MEMBERS):
    print(tell(1, f"join(m{number})"))
for day in range(2, DAYS + 1):
    if day % 10 == 0:
        session = pick(["", "@1 ", "@2 "])
        print(f"{session}begin")
        for line in changes(day):
            print(f"{session}{line}")
        print(f"{session}commit")
        print(f"{session}abort")  # where the draft was refused
    elif draw(4) > 0:
        for line in changes(day):
            print(line)
    if draw(100) < 85:
        print(question(1 + draw(day + 1)))
    if day % 30 == 0:
        print(f"% day {day}: the state of the library")
        print(f"at {day}")
        for number in range(BOOKS):
            print(f"intervals lent(b{number})")
print("events")
print("quit")
