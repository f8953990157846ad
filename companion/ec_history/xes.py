"""Event logs of process mining (XES) as records.

An event of a log becomes a record of its attributes, by their keys
(`concept:name`, `time:timestamp`); those of its trace stand beside them with `case:`
before their keys (`case:concept:name`). Attributes within attributes are left out.
"""

from __future__ import annotations

from typing import IO, Dict, Iterator, Tuple
from xml.etree import ElementTree

from .errors import HistoryError

VALUES = ("string", "date", "int", "float", "boolean", "id")


class XesFault(HistoryError, ValueError):
    """A file that is no event log."""


def read_events(file: IO[bytes]) -> Iterator[Tuple[str, Dict[str, str]]]:
    """Each event with the trace that it stands in; raises XesFault.

    An event that stands in no trace has `case:` attributes of none. Traces are let go
    one by one, so a log may be longer than the memory.
    """
    trace: Dict[str, str] = {}
    open_tags = []
    try:
        for step, element in ElementTree.iterparse(file, ("start", "end")):
            tag = element.tag.rpartition("}")[2]
            if step == "start":
                open_tags.append(tag)
                if len(open_tags) == 1 and tag != "log":
                    raise XesFault(f"the file begins with <{tag}>, and no <log>")
                continue
            open_tags.pop()
            above = open_tags[-1] if open_tags else ""
            if above == "trace" and tag in VALUES:
                trace[f"case:{element.get('key', '')}"] = element.get("value", "")
            elif tag == "event" and above in ("trace", "log"):
                yield trace.get("case:concept:name", ""), {**trace, **_values(element)}
                element.clear()
            elif tag == "trace":
                trace = {}
                element.clear()
    except ElementTree.ParseError as fault:
        raise XesFault(f"the file is no XML: {fault}") from None


def _values(event: ElementTree.Element) -> Dict[str, str]:
    return {
        child.get("key", ""): child.get("value", "")
        for child in event
        if child.tag.rpartition("}")[2] in VALUES
    }
