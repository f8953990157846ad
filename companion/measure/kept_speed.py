#!/usr/bin/env python3
"""Synced updates a second of `ec-history keep --listen`, beside Redis.

    companion/measure/kept_speed.py [--program PATH] [--clients 32] [--seconds 3]
                                    [--turns 9]

Each client tells one update, waits for its `ok`, and tells the next, over the loopback.
Where `redis-server` is on the PATH, it does the same with `SET` under `appendfsync
always`, on the same disk. The two take turns, so that each turn of one has one of the
other beside it; in the median of these pairs `keep` should reach at least half of it.
Of each the processor time for an update is told as well, of all its processes.

Where the machine is at other work, who syncs waits for a processor each time, and the
figures tell of that more than of the two. `chrt -r 1 python3 ..` puts both, and their
clients, in front of all else for the time of the measure.
"""

from __future__ import annotations

import argparse
import multiprocessing
import os
import shutil
import socket
import statistics
import subprocess
import sys
import tempfile
import time
from pathlib import Path
from typing import Callable, List, NamedTuple

sys.path.insert(0, os.path.join(os.path.dirname(os.path.abspath(__file__)), ".."))

from ec_history.program import add_program, find_program  # noqa: E402  (path first)

THEORY = "initiates plug(Lamp) powered(Lamp).\nterminates unplug(Lamp) powered(Lamp).\n"
LEAST_SHARE = 0.5
Command = Callable[[int, int], bytes]


def update(client: int, number: int) -> bytes:
    """The line of an update."""
    return b"assert e%d_%d %d plug(l%d)\n" % (client, number, number, number % 97)


def setting(client: int, number: int) -> bytes:
    """The same bytes as a value of Redis."""
    key, value = b"e%d_%d" % (client, number), update(client, number)[:-1]
    sizes = (len(key), key, len(value), value)
    return b"*3\r\n$3\r\nSET\r\n$%d\r\n%s\r\n$%d\r\n%s\r\n" % sizes


def tell(port: int, client: int, command: Command, until: float, told: object) -> None:
    """Tells one command after the other, each once the one before is answered."""
    with socket.create_connection(("127.0.0.1", port)) as link:
        link.setsockopt(socket.IPPROTO_TCP, socket.TCP_NODELAY, 1)
        replies = link.makefile("rb")
        number = 0
        while time.time() < until:
            link.sendall(command(client, number))
            reply = replies.readline().strip()
            if reply not in (b"ok", b"+OK"):
                raise SystemExit(f"an unexpected reply: {reply!r}")
            number += 1
        told.put(number)  # type: ignore[attr-defined]


class Rate(NamedTuple):
    """Commands a second, and microseconds of processor time for one."""

    commands: float
    spent: float


def rate(
    process: int, port: int, command: Command, clients: int, seconds: float
) -> Rate:
    """How many commands of all clients together a server answers."""
    before = processor_seconds(process)
    told: multiprocessing.Queue = multiprocessing.Queue()
    until = time.time() + seconds
    tasks = [
        multiprocessing.Process(target=tell, args=(port, n, command, until, told))
        for n in range(clients)
    ]
    for task in tasks:
        task.start()
    count = sum(told.get() for _ in tasks)
    for task in tasks:
        task.join()
    spent = processor_seconds(process) - before
    return Rate(count / seconds, spent / count * 1e6)


def processor_seconds(process: int) -> float:
    """The processor time of a process and of those that it has started."""
    ticks = 0
    for path in Path("/proc").glob("[0-9]*/stat"):
        try:
            words = path.read_text().rpartition(")")[2].split()
        except OSError:
            continue  # it has just ended
        if process in (int(path.parent.name), int(words[1])):
            ticks += int(words[11]) + int(words[12])
    return ticks / os.sysconf("SC_CLK_TCK")


def keep_rate(program: str, clients: int, seconds: float) -> Rate:
    """Updates a second of a server that is started for it."""
    with tempfile.TemporaryDirectory(dir=".") as folder:
        theory = os.path.join(folder, "lamps.ec")
        with open(theory, "w") as file:
            file.write(THEORY)
        top = os.path.join(os.path.dirname(os.path.abspath(__file__)), "..")
        words = [sys.executable, os.path.join(top, "ec-history"), "keep"]
        words += [os.path.join(folder, "kept.db"), "--theory", theory]
        words += ["--listen", "0", "--program", program]
        with subprocess.Popen(words, stderr=subprocess.PIPE, text=True) as server:
            assert server.stderr is not None
            port = int(server.stderr.readline().rpartition(":")[2])
            found = rate(server.pid, port, update, clients, seconds)
            server.terminate()
    return found


def redis_rate(clients: int, seconds: float) -> Rate:
    """Commands a second of a Redis that is started for it."""
    with socket.socket() as free:
        free.bind(("127.0.0.1", 0))
        port = free.getsockname()[1]
    with tempfile.TemporaryDirectory(dir=".") as folder:
        words = ["redis-server", "--port", str(port), "--dir", folder, "--save", ""]
        words += ["--bind", "127.0.0.1", "--appendonly", "yes"]
        words += ["--appendfsync", "always"]
        with subprocess.Popen(words, stdout=subprocess.DEVNULL) as server:
            time.sleep(1)
            found = rate(server.pid, port, setting, clients, seconds)
            server.terminate()
    return found


def words_of(name: str, rates: List[Rate]) -> str:
    """The best and the median of some turns."""
    middle = statistics.median(each.commands for each in rates)
    spent = statistics.median(each.spent for each in rates)
    best = max(rates).commands
    return f"{name:<6} {best:9,.0f} at best, {middle:9,.0f} median; {spent:.0f} us"


def main() -> int:
    parser = argparse.ArgumentParser(description=(__doc__ or "").splitlines()[0])
    parser.add_argument("--clients", type=int, default=32)
    parser.add_argument("--seconds", type=float, default=3)
    parser.add_argument("--turns", type=int, default=9)
    add_program(parser)
    args = parser.parse_args()
    program = find_program(args.program)
    kept: List[Rate] = []
    redis: List[Rate] = []
    for _ in range(args.turns):
        kept.append(keep_rate(program, args.clients, args.seconds))
        if shutil.which("redis-server"):
            redis.append(redis_rate(args.clients, args.seconds))
    print(
        f"of {args.clients} clients, synced commands a second and processor time each"
    )
    print(words_of("keep", kept))
    if not redis:
        print("redis-server is not on the PATH, so nothing was compared")
        return 0
    print(words_of("redis", redis))
    shares = sorted(k.commands / r.commands for k, r in zip(kept, redis))
    middle = statistics.median(shares)
    print(
        f"keep reaches {middle:.2f} of it in the median of {len(shares)} pairs of "
        f"turns, {shares[0]:.2f} in the worst and {shares[-1]:.2f} in the best"
    )
    return 0 if middle >= LEAST_SHARE else 1


if __name__ == "__main__":
    sys.exit(main())
