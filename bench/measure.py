"""Runs a built program on lines and measures it: processor time, peak memory, and how time grows with size."""
import math
import os
import subprocess
import sys
import tempfile
import time

HERE = os.path.dirname(os.path.abspath(__file__))
BUILT = os.path.join(HERE, "..", "crates", "ec", "out", "ec")


class Wrong(Exception):
    """The program did not answer as it should."""


class Draw:
    """Numbers below a limit, the same ones in each run."""

    def __init__(self, seed):
        self.state = seed

    def __call__(self, limit):
        self.state = (self.state * 6364136223846793005 + 1442695040888963407) % 2**64
        return (self.state >> 33) % limit

    def shuffled(self, things):
        """The things in another order."""
        things = list(things)
        for last in range(len(things) - 1, 0, -1):
            other = self(last + 1)
            things[last], things[other] = things[other], things[last]
        return things


class Program:
    """A program that is run as `PROGRAM serve THEORY` on the lines of its standard input."""

    def __init__(self, path, runs):
        self.words = [os.path.abspath(path), "serve"]
        self.runs = runs
        self.work = tempfile.TemporaryDirectory()
        self.start_up = min(self.seconds("", []) for _ in range(runs))

    def written(self, name, text):
        """The path of a file with this text."""
        path = os.path.join(self.work.name, name)
        with open(path, "w", encoding="ascii", newline="") as file:
            file.write(text)
        return path

    def seconds(self, theory, lines, refused=0):
        """How long the processor works on one run. It is told apart from what else the machine does."""
        theory_path = self.written("theory.ec", theory)
        lines_path = self.written("lines", "".join(line + "\n" for line in lines))
        replies_path = os.path.join(self.work.name, "replies")
        with open(lines_path, "rb") as source, open(replies_path, "wb") as sink:
            child = subprocess.Popen([*self.words, theory_path], stdin=source, stdout=sink)
            _, status, used = os.wait4(child.pid, 0)
            child.returncode = status  # it is waited for
        with open(replies_path, "rb") as file:
            replies = file.read().splitlines()
        found = sum(b"refused" in reply for reply in replies)
        if status != 0 or len(replies) != len(lines) or found != refused:
            raise Wrong(f"status {os.waitstatus_to_exitcode(status)}, {len(replies)} replies to {len(lines)} lines, {found} of them refused")
        return used.ru_utime + used.ru_stime

    def peak(self, theory, lines):
        """The peak memory of one run in bytes, where the system tells it of a program that is still running; else none."""
        theory_path = self.written("theory.ec", theory)
        replies_path = os.path.join(self.work.name, "replies")
        with open(replies_path, "wb") as sink, open(replies_path, "rb") as replies:
            child = subprocess.Popen([*self.words, theory_path], stdin=subprocess.PIPE, stdout=sink)
            child.stdin.write("".join(line + "\n" for line in lines).encode())
            child.stdin.flush()
            missing = len(lines)
            while missing > 0 and child.poll() is None:
                time.sleep(0.005)
                missing -= replies.read().count(b"\n")  # all replies are handed on before the program reads again
            peak = peak_told(child.pid)
            child.stdin.close()
            child.wait()
        return peak

    def measure(self, theory, lines, refused=0):
        """The least seconds of some runs, without starting the program; so many replies may refuse."""
        lines = list(lines)
        least = min(self.seconds(theory, lines, refused) for _ in range(self.runs))
        return max(least - self.start_up, 1e-6)


def peak_told(process):
    """The peak memory of a running process in bytes, where the system tells it."""
    try:
        with open(f"/proc/{process}/status", encoding="ascii") as file:
            told = [line.split()[1] for line in file if line.startswith("VmHWM:")]
        return int(told[0]) * 1024 if told else None
    except OSError:
        return None


def growth(sizes, values):
    """The exponent k with which values grow as size^k: the slope of the line through their logarithms."""
    xs = [math.log(size) for size in sizes]
    ys = [math.log(value) for value in values]
    middle_x, middle_y = sum(xs) / len(xs), sum(ys) / len(ys)
    across = sum((x - middle_x) ** 2 for x in xs)
    return sum((x - middle_x) * (y - middle_y) for x, y in zip(xs, ys)) / across if across else 0.0


def doubling(least, most):
    """The sizes from the least on, each twice the one before, up to the most."""
    sizes = []
    while least <= most:
        sizes.append(least)
        least *= 2
    return sizes


def table(heads, rows):
    """A table in Markdown."""
    lines = ["| " + " | ".join(heads) + " |", "|" + "---|" * len(heads)]
    return "\n".join(lines + ["| " + " | ".join(row) + " |" for row in rows])


def program_of(arguments):
    """The program that the arguments name, or else the one that is built."""
    if not os.path.isfile(arguments.program):
        sys.exit(f"{arguments.program} is not there: build it with ./build, or name another with --program")
    return Program(arguments.program, arguments.runs)


def with_program(parser):
    """Adds what both scripts take."""
    parser.add_argument("--program", default=BUILT, help="the program to run; else the one that is built here")
    parser.add_argument("--runs", type=int, default=3, help="runs of each measure, of which the fastest counts (3)")
    parser.add_argument("--only", default="", help="the names of those to run, separated by commas")
    return parser


def chosen(all_by_name, names):
    """Those of the names, or all."""
    if not names:
        return all_by_name
    unknown = set(names.split(",")) - set(all_by_name)
    if unknown:
        sys.exit(f"unknown: {', '.join(sorted(unknown))}; there are {', '.join(all_by_name)}")
    return {name: all_by_name[name] for name in names.split(",")}
