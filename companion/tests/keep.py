"""What tests of `keep` share; `python3 -m tests.keep WORDS` is `ec-history keep WORDS`.
"""

from __future__ import annotations

import argparse
import os
import socket
import subprocess
import sys
import tempfile
import unittest
from typing import List, Optional, Tuple, Union

from ec_history import keeping
from ec_history.errors import HistoryError
from tests.setting import TOP, program


def words(*more: str) -> List[str]:
    """The words of a process that keeps a history."""
    return [sys.executable, "-m", "tests.keep", "--program", program(), *more]


class Folder(unittest.TestCase):
    """A test with a folder, in which histories are kept."""

    def setUp(self) -> None:
        held = tempfile.TemporaryDirectory()
        self.addCleanup(held.cleanup)
        self.folder = held.name
        self.file = self.path("kept.db")

    def path(self, name: str) -> str:
        return os.path.join(self.folder, name)

    def write(self, name: str, content: Union[str, bytes]) -> str:
        data = content.encode() if isinstance(content, str) else content
        with open(self.path(name), "wb") as file:
            file.write(data)
        return self.path(name)

    def keep(self, *more: str, lines: Union[str, bytes] = b"") -> Tuple[int, str, str]:
        """Runs it to its end: status, standard output, standard error."""
        data = lines.encode() if isinstance(lines, str) else lines
        ran = subprocess.run(
            words(*more),
            input=data,
            stdout=subprocess.PIPE,
            stderr=subprocess.PIPE,
            cwd=TOP / "companion",
            check=False,
        )
        return ran.returncode, ran.stdout.decode(), ran.stderr.decode()

    def begin(self, *more: str) -> "Running":
        """Starts it, listening; it is ended with the test."""
        running = Running(*more)
        self.addCleanup(running.end)
        return running


class Running:
    """A process that listens at a free port."""

    def __init__(self, *more: str) -> None:
        self.process = subprocess.Popen(
            words(*more, "--listen", "0"),
            stdin=subprocess.DEVNULL,
            stderr=subprocess.PIPE,
            cwd=TOP / "companion",
        )
        assert self.process.stderr is not None
        first = self.process.stderr.readline().decode()
        self.first = first
        listens = first.startswith("ec-history: listening")
        self.port = int(first.rpartition(":")[2]) if listens else 0

    def client(self) -> "Client":
        return Client(self.port)

    def end(self) -> str:
        """Ends it, and answers what else it said."""
        assert self.process.stderr is not None
        if self.process.poll() is None:
            self.process.terminate()
        self.process.wait()
        if self.process.stderr.closed:
            return ""
        with self.process.stderr as rest:
            return rest.read().decode()


class Client:
    """A connection, of which lines are sent and replies awaited."""

    def __init__(self, port: int) -> None:
        self.socket = socket.create_connection(("127.0.0.1", port), timeout=120)
        self.socket.setsockopt(socket.IPPROTO_TCP, socket.TCP_NODELAY, 1)
        self.replies = self.socket.makefile("rb")

    def send(self, *lines: Union[str, bytes]) -> None:
        for line in lines:
            data = line.encode() if isinstance(line, str) else line
            self.socket.sendall(data + b"\n")

    def reply(self) -> Optional[str]:
        """The next line of the server; None at its end."""
        line = self.replies.readline()
        return line.decode().rstrip("\n") if line else None

    def ask(self, line: Union[str, bytes]) -> Optional[str]:
        self.send(line)
        return self.reply()

    def close(self) -> None:
        self.replies.close()
        self.socket.close()

    def __enter__(self) -> "Client":
        return self

    def __exit__(self, *_: object) -> None:
        self.close()


def main() -> int:
    parser = argparse.ArgumentParser()
    keeping.add_parser(parser.add_subparsers())
    at = sys.argv.index("--program")
    program_words, rest = sys.argv[at : at + 2], sys.argv[at + 2 :]
    args = parser.parse_args(["keep", *rest, *program_words])
    try:
        return args.run(args)
    except HistoryError as fault:
        print(f"ec-history: {fault}", file=sys.stderr)
        return 2


if __name__ == "__main__":
    sys.exit(main())
