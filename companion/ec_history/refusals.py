"""What the refusals and statuses of `ec` mean, in words that say what to do."""

from __future__ import annotations

from typing import Optional

_REFUSALS = {
    "long-line": "the line has more than 4,096 bytes",
    "syntax": "the line is none of the commands; `ec-history lint` says what is wrong",
    "order": "the stretch begins after it ends; exchange the two times",
    "in-draft": "the session's draft is open already; commit or abort it first",
    "no-draft": "the session has no open draft; `begin` opens one",
    "full-draft": "the draft holds {0} updates, as many as it can; commit it first",
    "duplicate": "an event with the identity {0} is present already; retract it first, "
    "or choose another identity",
    "unknown": "no event with the identity {0} is present",
    "full-events": "there are {0} events, as many as there can be",
    "full-mentions": "with this event there would be more than {0} mentions, of "
    "properties by the rules that events meet",
    "full-links": "with this event there would be more than {0} links, between "
    "properties that exclude each other",
    "memory": "memory ran out; nothing was changed",
    "watched": "the session watches this property already",
    "not-watched": "the session does not watch this property",
    "full-watches": "the session watches {0} properties, as many as it can",
    "full-pairs": "there are more than {0} pairs",
    "future": "only {0} updates were accepted so far",
    "gone": "the list is kept no longer; the first that is kept is {0}",
}

_STATUSES = {
    2: "it takes other words than those it was given, so it may not be ec",
    3: "the theory is not accepted",
    4: "it could not read its input",
    5: "it could not write its replies",
    6: "memory ran out before the first line",
    7: "a file could not be read",
    8: "1,099,511,627,776 bytes of input were taken, the most that there can be",
    9: "the file of lines has more than 67,108,864 bytes",
}

_FAULTS = {
    "byte": "a byte that begins no word and no mark",
    "long-name": "a name of over 64 bytes",
    "number": "a number of over 20 digits, or of over 64 bits",
    "syntax": "a word or mark that no theory has here",
    "many-rules": "over 1,024 rules",
    "many-exclusives": "over 256 exclusive declarations",
    "many-strongs": "over 1,024 strong declarations",
    "many-initials": "over 1,024 initial properties",
    "many-times": "a second time clause",
    "arity": "over 8 arguments",
    "many-event-rules": "over 64 rules for one event",
    "many-tests": "over 16 comparisons in one rule",
    "many-literals": "over 16 properties as conditions in one rule",
    "many-variables": "over 16 different variables in one clause",
    "any": "_ in the property of a rule, in a condition or in an initial property; "
    "name a variable that the event has",
    "unbound": "a variable that does not stand in the event, or one in an initial "
    "property",
    "too-long": "over 1,048,576 bytes",
}


def refusal_words(code: str, detail: Optional[str] = None) -> str:
    """What a refusal means, by its code (`duplicate`) and what follows (`l1`)."""
    words = _REFUSALS.get(code, f"ec says {code}")
    return words.format(detail or "")


def status_words(status: int) -> str:
    """What a status of the program other than 0 means. Below 0 a signal ended it."""
    if status < 0:
        return f"it was ended by the signal {-status}"
    return _STATUSES.get(status, f"it ended with the status {status}")


def fault_words(kind: str) -> str:
    """What a fault of a theory means, by `ec`'s word for it."""
    return _FAULTS.get(kind, kind)
