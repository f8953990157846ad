"""Kills a server at random moments under load, and looks at what it has kept.

Each client knows of each of its updates whether it was answered `ok`, refused, or not
answered. What was answered `ok` must be there afterwards, and what was refused must
not; of the others nothing is promised. The answers must be those of `ec` over the lines
that are kept.
"""

from __future__ import annotations

import os
import random
import shutil
import signal
import subprocess
import threading
import time
from typing import Dict, List, Set, Tuple

from ec_history.database import Database
from ec_history.keeper import Keeper, Request
from tests.keep import Client, Running
from tests.setting import program, theory_of

LOANS = theory_of("loans")


class Load(threading.Thread):
    """A client that tells updates until its connection ends."""

    def __init__(self, client: Client, name: str, seed: int) -> None:
        super().__init__(daemon=True)
        self.client, self.prefix = client, name
        self.draw = random.Random(seed)
        self.accepted: Set[str] = set()
        self.refused: Set[str] = set()
        self._present: List[str] = []
        self._count = 0

    def run(self) -> None:
        try:
            while True:
                self._tell([self._update() for _ in range(self.draw.randint(1, 4))])
        except (OSError, EOFError):
            self.client.close()

    def _update(self) -> List[str]:
        """The lines of an update: one, or a draft; some are refused."""
        draw = self.draw
        self._count += 1
        name = f"{self.prefix}_{self._count}"
        if draw.random() < 0.1:
            return [f"retract none_{name}"]
        if draw.random() < 0.2 and self._present:
            return [f"retract {self._present.pop(draw.randrange(len(self._present)))}"]
        event = f"lend(b{draw.randrange(500)},p{draw.randrange(50)})"
        line = f"assert {name} {draw.randrange(10_000)} {event}"
        if draw.random() < 0.2:
            return ["begin", line, f"retract {name}", line, "commit"]
        return [line]

    def _tell(self, updates: List[List[str]]) -> None:
        """Sends updates, and notes down how each was answered."""
        lines = [line for update in updates for line in update]
        self.client.socket.sendall("".join(f"{line}\n" for line in lines).encode())
        for update in updates:
            reply = ""
            for _ in update:
                reply = self.client.reply() or ""
                if not reply:
                    raise EOFError
            text = "\n".join(update)
            if reply == "ok":
                self.accepted.add(text)
                if not update[-1].startswith("retract"):
                    told = update[-2] if len(update) > 1 else update[0]
                    self._present.append(told.split(" ")[1])
            else:
                self.refused.add(text)


def compare(path: str, loads: List[Load], accepted: Dict[Load, Set[str]]) -> int:
    """Compares a file with what clients were told; answers how many updates it has.

    Raises AssertionError where it differs.
    """
    database = Database.open(path)
    faults = database.faults()
    assert not faults, faults
    updates = list(database.updates())
    kept = {update.lines for update in updates}
    assert len(kept) == len(updates), "an update is there twice"
    for load in loads:
        lost = accepted[load] - kept
        assert not lost, f"answered ok, and lost: {sorted(lost)[:3]}"
        taken = load.refused & kept
        assert not taken, f"refused, and kept: {sorted(taken)[:3]}"
    keeper = Keeper(database, program())
    (events,) = keeper.round([Request(0, b"events", b"events")])
    keeper.close()
    database.close()
    lines = "".join(f"{update.lines}\n" for update in updates) + "events\n"
    asked = subprocess.run(
        [program(), "serve", LOANS],
        input=lines.encode(),
        stdout=subprocess.PIPE,
        check=True,
    )
    assert asked.stdout.splitlines()[-1] == events.reply, "other answers than by ec"
    return len(updates)


class Trial:
    """A server with clients, of which copies are taken, and which is killed at last."""

    def __init__(self, folder: str, seed: int, clients: int = 8) -> None:
        self.draw = random.Random(seed)
        self.seed = seed
        self.folder = folder
        self.file = os.path.join(folder, "kept.db")
        self.clients = clients
        self.earlier: List[Load] = []
        self.copies = 0

    def kill(self, copies: int = 0) -> int:
        """Starts, loads, takes copies while stopped, kills, and compares all.

        Answers how many updates there are in the end.
        """
        server = Running(self.file, "--theory", LOANS)
        loads = []
        for number in range(self.clients):
            name = f"c{self.draw.getrandbits(40):x}_{number}"
            loads.append(Load(server.client(), name, self.draw.getrandbits(32)))
        everyone = self.earlier + loads
        for load in loads:
            load.start()
        taken = []
        for _ in range(copies):
            self._wait(server, loads)
            taken.append(self._copy(server, everyone))
        self._wait(server, loads)
        os.kill(server.process.pid, signal.SIGKILL)
        server.end()
        for load in loads:
            load.join()
        for path, accepted in taken:
            compare(path, everyone, accepted)
        self.earlier = everyone
        return compare(self.file, everyone, {load: load.accepted for load in everyone})

    def _wait(self, server: Running, loads: List[Load]) -> None:
        """Waits for a random moment, behind a random number of further updates."""
        wanted = self.draw.randint(1, 100) + sum(len(load.accepted) for load in loads)
        while sum(len(load.accepted) for load in loads) < wanted:
            assert server.process.poll() is None, server.end()
            time.sleep(0.002)
        time.sleep(self.draw.uniform(0, 0.05))

    def _copy(
        self, server: Running, loads: List[Load]
    ) -> Tuple[str, Dict[Load, Set[str]]]:
        """A copy of all files while the server is stopped, and what it had answered."""
        os.kill(server.process.pid, signal.SIGSTOP)
        time.sleep(0.05)  # what it had sent arrives
        accepted = {load: set(load.accepted) for load in loads}
        self.copies += 1
        path = os.path.join(self.folder, f"copy{self.copies}.db")
        for end in ("", "-wal", "-shm"):
            if os.path.exists(self.file + end):
                shutil.copy(self.file + end, path + end)
        os.kill(server.process.pid, signal.SIGCONT)
        return path, accepted
