"""`ec-history lint`: what is wrong with a theory, and with the lines for it.

`ec` itself is asked: it reads the theory, and answers the lines. Here its refusals get
their line and a reason in words, and what it accepts in silence is looked at as well:
events that meet no rule, properties that nothing starts, times of mixed widths, a start
and an end at one instant, and what is easily wrong with a file.
"""

from __future__ import annotations

import argparse
import os
import sys
from collections import Counter, defaultdict
from dataclasses import dataclass, field
from difflib import get_close_matches
from functools import partial
from typing import Dict, Iterator, List, Optional, Set, Tuple

from .client import Server
from .common import add_processes
from .errors import HistoryError
from .moments import TICK
from .parts import Parts, PartsFault, is_parts, open_parts
from .program import add_program, find_program
from .processes import in_processes
from .progress import Progress
from .reading import Command, Line, LineFault, Reader, as_sent, is_silent
from .reading import later_commands, lines_in
from .refusals import refusal_words
from .terms import Pattern, Term
from .theory import Theory
from .theory_faults import Finding, check, fault_finding, may_meet, never_started
from .theory_faults import startable
from .tokens import TheoryFault

EXAMPLE = """\
example:
  ec-history lint examples/loans.ec my.lines

  my.lines:3: word 3: a time is expected: a whole number of 64 bits
  my.lines:9: the event lendd(dune,ann) meets no rule; did you mean lend/2?

The status is 0 where nothing was found, and 1 where something was.
"""
WIDTHS = {4: "YYYY", 6: "YYYYMM", 8: "YYYYMMDD", 10: "YYYYMMDDhh"}
WIDTHS.update({12: "YYYYMMDDhhmm", 14: "YYYYMMDDhhmmss"})
Shape = Tuple[str, int]


@dataclass
class Seen:
    """What was seen of some lines: the first, and how many there are."""

    line: int
    count: int = 0

    def more(self) -> str:
        others = self.count - 1
        return f" (and {others:,} more such lines)" if others else ""


@dataclass
class Lint:
    """The findings of a file of lines, as they come."""

    path: str
    theory: Optional[Theory]
    reader: Reader
    findings: List[Finding] = field(default_factory=list)
    asserted: Dict[str, int] = field(default_factory=dict)
    effects: Dict[str, List[Tuple[bool, Term]]] = field(default_factory=dict)
    mentioned: Set[Term] = field(default_factory=set)
    asked: Dict[Term, Seen] = field(default_factory=dict)
    strange: Dict[Tuple[Shape, bool], Tuple[Seen, Term]] = field(default_factory=dict)
    times: List[Tuple[int, str]] = field(default_factory=list)
    drafts: Dict[int, int] = field(default_factory=dict)

    def find(self, line: int, text: str) -> None:
        self.findings.append(Finding(self.path, line, text))

    def line(self, line: Line, reply: Optional[str]) -> None:
        """Takes a line with `ec`'s reply; None where `ec` was not asked."""
        command, fault = None, None
        try:
            command = self.reader.read(line.content)
        except LineFault as found:
            fault = found
        refusal = _refusal(reply)
        if reply is None and fault is not None:
            self.find(line.number, f"{fault}")
        elif refusal[:1] in (["syntax"], ["long-line"]):
            reason = str(fault) if fault else "ec refuses the line for its form"
            self.find(line.number, reason)
        elif refusal:
            self.find(line.number, _refusal_words(refusal))
        elif command is not None:
            self.command(line.number, command)

    def command(self, number: int, command: Command) -> None:
        """Takes a line that `ec` accepted."""
        session = command.session or 0
        if command.name == "begin":
            self.drafts[session] = number
        elif command.name in ("commit", "abort"):
            self.drafts.pop(session, None)
        self.times += [(number, time) for time in command.times]
        if command.name == "assert":
            identity, _, event = command.values
            assert isinstance(identity, str) and isinstance(event, Term)
            self.asserted[identity] = number
            self.event(number, event)
        else:
            for term in command.terms:
                self.asked.setdefault(term, Seen(number)).count += 1

    def event(self, number: int, event: Term) -> None:
        if self.theory is None:
            return
        effects = [
            (rule.initiates, rule.head.fill(binding))
            for rule, binding in self.theory.rules_met(event)
        ]
        self.effects[str(event)] = effects
        self.mentioned.update(head for _, head in effects)
        if not effects:
            known = bool(self.theory.rules_for(event))
            key = ((event.name, event.arity), known)
            self.strange.setdefault(key, (Seen(number), event))[0].count += 1

    def end(self) -> None:
        """Adds what only all lines together show."""
        for session, number in self.drafts.items():
            prefix = f"@{session} " if session else ""
            self.find(
                number,
                f"the draft that is opened here is never closed: `{prefix}commit` is "
                "missing, and all updates of the session behind it are only held",
            )
        if self.theory is not None:
            self._strange_events(self.theory)
            self._asked_properties(self.theory)
        if self.reader.clock is TICK:
            self._mixed_widths()

    def _strange_events(self, theory: Theory) -> None:
        shapes = sorted({f"{r.event.name}/{r.event.arity}" for r in theory.rules})
        for ((name, arity), known), (seen, event) in self.strange.items():
            text = f"the event {event} meets no rule"
            if known:
                text += ": its arguments fit none, or a comparison is not so"
            else:
                near = get_close_matches(f"{name}/{arity}", shapes, 1)
                text += f"; did you mean {near[0]}?" if near else ""
            self.find(seen.line, text + seen.more())

    def _asked_properties(self, theory: Theory) -> None:
        started = startable(theory)
        shapes = sorted({f"{other.name}/{other.arity}" for other in started})
        initial = set(theory.initial_properties())
        for term, seen in self.asked.items():
            pattern = Pattern(term.name, term.arguments)
            if not any(may_meet(pattern, other) for other in started):
                near = get_close_matches(f"{term.name}/{term.arity}", shapes, 1)
                hint = f"; did you mean {near[0]}?" if near else ""
                text = f"the property {term}: nothing in the theory starts it{hint}"
                self.find(seen.line, text + seen.more())
            elif term not in self.mentioned and term not in initial:
                text = f"the property {term}: no event of these lines starts or ends it"
                self.find(seen.line, text + seen.more())

    def _mixed_widths(self) -> None:
        """Tells of times that are not as wide as the dates that most of them are."""
        widths = Counter(len(time.lstrip("-")) for _, time in self.times)
        dates = Counter(len(time) for _, time in self.times if _is_date(time))
        if not dates:
            return
        width, count = dates.most_common(1)[0]
        if count * 2 <= len(self.times):
            return
        for other in sorted(set(widths) - {width}):
            line, time = next(t for t in self.times if len(t[1].lstrip("-")) == other)
            seen = Seen(line, widths[other])
            form = WIDTHS.get(other, f"of {other} digits")
            self.find(
                line,
                f"the time {time} is {form}, and most times here are {WIDTHS[width]}: "
                f"by value it comes {_side(other, width)} all of them; write all times "
                f"with {width} digits{seen.more()}",
            )


def _side(width: int, other: int) -> str:
    return "before" if width < other else "after"


def _is_date(time: str) -> bool:
    """Whether a time looks like a date as one number, at least down to its day."""
    if len(time) not in WIDTHS or len(time) < 8 or not time.isdigit():
        return False
    year, month, day = int(time[:4]), int(time[4:6]), int(time[6:8])
    rest = [int(time[place : place + 2]) for place in range(8, len(time), 2)]
    within = all(part < limit for part, limit in zip(rest, (25, 60, 61)))
    return 1000 <= year < 3000 and 1 <= month <= 12 and 1 <= day <= 31 and within


def _refusal(reply: Optional[str]) -> List[str]:
    """The words behind `refused` in a reply; none where it is no refusal."""
    words = (reply or "").split(" ")
    if words[0].startswith("@"):
        words = words[1:]
    return words[1:] if words and words[0] == "refused" else []


def _refusal_words(refusal: List[str]) -> str:
    place = ""
    if refusal[0] == "commit" and len(refusal) > 2:
        place = f"update {refusal[1]} of the draft: "
        refusal = refusal[2:]
    detail = refusal[1] if len(refusal) > 1 else None
    return f"ec refuses it: {place}{refusal_words(refusal[0], detail)}"


def file_findings(path: str, data: bytes, lines: List[Line]) -> Iterator[Finding]:
    """What is easily wrong with a file of lines, whatever stands in it."""
    if data.startswith(b"\xef\xbb\xbf"):
        text = "the file begins with a byte order mark, so its first line is refused:"
        yield Finding(path, 1, f"{text} save it without one")
    alone = [line.number for line in lines if b"\r" in line.content]
    if alone:
        text = "a CR stands within the line; CR alone ends no line, and LF does"
        yield Finding(path, alone[0], text + Seen(alone[0], len(alone)).more())
    if lines and not lines[-1].ended:
        text = "the last line has no LF behind it; if it was cut off, it is another"
        yield Finding(path, lines[-1].number, f"{text} line")


def cut_at_quit(
    path: str, lines: List[Line], reader: Reader
) -> Tuple[List[Line], List[Finding]]:
    """The lines up to the first `quit`, and whether others stand behind it."""
    for place, line in enumerate(lines):
        if b"quit" not in line.content:
            continue
        try:
            command = reader.read(line.content)
        except LineFault:
            continue
        if command is not None and command.name == "quit":
            rest = [more for more in lines[place + 1 :] if not is_silent(more.content)]
            text = f"`quit` stands here, and the {len(rest):,} lines behind it are not"
            found = [Finding(path, line.number, f"{text} answered")] if rest else []
            return lines[:place], found
    return lines, []


def lint_theory(program: str, path: str) -> Tuple[bool, List[Finding]]:
    """Whether a theory is accepted, and what is found in it."""
    fault = check(program, path)
    if fault is not None:
        return False, [fault_finding(path, fault)]
    try:
        return True, list(never_started(Theory.read(path), path))
    except TheoryFault as fault_here:
        text = f"ec accepts the theory, and this reader does not: {fault_here}"
        return True, [Finding(path, fault_here.line, text)]


def lint_lines(
    program: str, theory_path: str, accepted: bool, path: str
) -> List[Finding]:
    """What is found in a file of lines."""
    try:
        with open(path, "rb") as file:
            data = file.read()
    except OSError as fault:
        raise HistoryError(f"{path}: can't be read: {fault.strerror}") from None
    lines = list(lines_in(data))
    theory = _theory(theory_path)
    clock = theory.clock if theory else TICK
    later = later_commands(program, theory_path, clock) if accepted else frozenset()
    reader = Reader(clock, later)
    lint = Lint(path, theory, reader)
    lint.findings += file_findings(path, data, lines)
    lines, found = cut_at_quit(path, lines, reader)
    lint.findings += found
    if not accepted:
        for line in lines:
            lint.line(line, None)
        lint.end()
        return lint.findings
    with Server(theory_path, program) as server, Progress("lines") as progress:
        for line, played in zip(lines, server.play(as_sent(x.content) for x in lines)):
            lint.line(line, played.reply or "")
            progress.step()
        lint.end()
        lint.findings += same_instants(lint, server)
    return lint.findings


def _theory(path: str) -> Optional[Theory]:
    try:
        return Theory.read(path)
    except TheoryFault:
        return None


def same_instants(lint: Lint, server: Server) -> Iterator[Finding]:
    """Ends that end nothing, since the property starts at the same instant.

    A property holds after the instant that starts it, so an end at that instant is of
    what was before: the property then has no end that was meant for it.
    """
    starts: Dict[Tuple[Term, str], Set[str]] = defaultdict(set)
    ends: Dict[Tuple[Term, str], Set[str]] = defaultdict(set)
    words = server.main.ask("events").split(" ")[1:]
    for identity, time, text in zip(words[::3], words[1::3], words[2::3]):
        for initiates, head in lint.effects.get(text, ()):
            side = starts if initiates else ends
            side[(head, time)].add(identity)
    both = [key for key in starts if ends.get(key, set()) - starts[key]]
    replies = server.main.ask_all(f"intervals {term}" for term, _ in both)
    for (term, time), reply in zip(both, replies):
        spans = [word[1:-1].split(",") for word in reply.split(" ")[1:]]
        started = any(start == time for start, _ in spans)
        ended = any(end == time for _, end in spans)
        if started and not ended:
            starters, enders = starts[(term, time)], ends[(term, time)]
            starter = min(starters)
            ender = min(enders - starters)
            yield Finding(
                lint.path,
                lint.asserted.get(ender, 0),
                f"{ender} ends {term} at {time}, where {starter} starts it: the end is "
                "of what was before, and ends nothing; take a finer unit of time, or a "
                "later time for it",
            )


def lint_parts(
    program: str, theory_path: str, folder: str, processes: int
) -> List[Finding]:
    """What is found in the lines of the parts of a folder."""
    parts = open_parts(folder, theory_path)
    findings: List[Finding] = []
    job = partial(_lint_part, program, theory_path, parts)
    with Progress("parts looked through") as progress:
        for found in in_processes(job, range(parts.count), processes):
            findings += found
            progress.step()
    return findings


def _lint_part(
    program: str, theory_path: str, parts: Parts, part: int
) -> List[Finding]:
    """What is found in the lines of a part."""
    path = parts.lines_path(part)
    try:
        parts.lines(part)
        findings = []
    except PartsFault as fault:
        findings = [Finding(parts.path, 0, str(fault))]
    if not os.path.exists(path):
        return findings
    return findings + lint_lines(program, theory_path, True, path)


def add_parser(subparsers: argparse._SubParsersAction) -> None:
    """Adds the words of the command."""
    parser = subparsers.add_parser(
        "lint",
        help="tell what is wrong with a theory and its lines",
        description="Tells what is wrong with a theory, and with LINES for it, line by "
        "line and in words.",
        epilog=EXAMPLE,
        formatter_class=argparse.RawDescriptionHelpFormatter,
    )
    parser.add_argument("theory", metavar="THEORY", help="a theory file")
    parser.add_argument(
        "lines",
        metavar="LINES",
        nargs="?",
        help="a file of lines, or a folder of parts",
    )
    add_processes(parser)
    add_program(parser)
    parser.set_defaults(run=run)


def run(args: argparse.Namespace) -> int:
    """Writes the findings, a line each; 1 where there are some."""
    program = find_program(args.program)
    try:
        accepted, findings = lint_theory(program, args.theory)
    except OSError as fault:
        raise HistoryError(f"{args.theory}: can't be read: {fault.strerror}") from None
    if args.lines is not None and is_parts(args.lines):
        findings += lint_parts(program, args.theory, args.lines, args.processes)
    elif args.lines is not None:
        findings += lint_lines(program, args.theory, accepted, args.lines)
    order = {args.theory: 0}
    findings.sort(key=lambda f: (order.get(f.path, 1), f.path, f.line))
    for finding in findings:
        print(finding)
    if findings:
        count = f"{len(findings):,} finding{'s' if len(findings) > 1 else ''}"
        print(f"ec-history: {count}", file=sys.stderr)
    return 1 if findings else 0
