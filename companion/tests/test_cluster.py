"""Parts on a cluster of Dask, one of whose workers dies within a question.

Where `distributed` is not installed these tests are skipped, and say so.
"""

from __future__ import annotations

import importlib.util
import os
import signal
import threading
import time
import unittest
from typing import Any, Iterator, List

from ec_history.asking import answer
from ec_history.errors import HistoryError
from ec_history.history import History
from ec_history.sources import InParts
from ec_history.terms import Pattern
from ec_history.workers import Here, Processes
from ec_history.wording import Wording

from .parted import Loans
from .setting import program

HAS_DASK = importlib.util.find_spec("distributed") is not None
QUESTIONS = ("at 500 _", "intervals out(_)", "count has(_,_) 700", "clashes")


def marked(history: History, folder: str, seconds: float) -> Iterator[str]:
    """Notes down which worker answers for a part, and takes its time over it."""
    with open(os.path.join(folder, str(os.getpid())), "a") as file:
        file.write("x")
    time.sleep(seconds)
    yield from (str(term) for term in history.session.at(500))


class WithoutACluster(unittest.TestCase):
    @unittest.skipIf(HAS_DASK, "distributed is installed")
    def test_it_is_told_what_is_missing(self) -> None:
        from ec_history.cluster import Cluster

        with self.assertRaisesRegex(HistoryError, "--on needs Dask: install"):
            Cluster("127.0.0.1:1")


@unittest.skipUnless(HAS_DASK, "distributed (Debian: python3-distributed) is missing")
class OnACluster(Loans):
    cluster: Any

    def setUp(self) -> None:
        super().setUp()
        from distributed import LocalCluster

        self.cluster = LocalCluster(
            n_workers=2,
            threads_per_worker=1,
            processes=True,
            host="127.0.0.1",
            dashboard_address=None,
            silence_logs=50,
            worker_dashboard_address=None,
            env={"EC_PROGRAM": program()},
        )
        self.addCleanup(self.cluster.close)

    def workers(self) -> Any:
        from ec_history.cluster import Cluster

        return Cluster(self.cluster.scheduler_address, program())

    def test_it_answers_as_processes_do_and_keeps_the_parts(self) -> None:
        wording = Wording(self.parts.theory)
        for _ in range(2):
            with self.workers() as workers, Here(program()) as here:
                for question in QUESTIONS:
                    wanted, told = (
                        list(answer(InParts(self.parts, who), wording, question).rows)
                        for who in (here, workers)
                    )
                    self.assertEqual(wanted, told)
                    self.assertTrue(wanted or question == "clashes")

    def test_a_worker_that_is_killed_within_a_question_changes_no_answer(self) -> None:
        pattern = Pattern.parse("has(_,_)")
        told: List[Any] = []

        def asked() -> None:
            with self.workers() as workers:
                source = InParts(self.parts, workers)
                told.extend(source.rows("property", pattern, marked, self.folder, 0.5))

        before = set(os.listdir(self.folder))
        asker = threading.Thread(target=asked)
        asker.start()
        until = time.monotonic() + 60
        while len(answering := set(os.listdir(self.folder)) - before) < 2:
            self.assertLess(time.monotonic(), until, "no worker has begun")
            time.sleep(0.02)
        os.kill(int(sorted(answering)[0]), signal.SIGKILL)
        asker.join(120)
        self.assertFalse(asker.is_alive())
        with Processes(program(), 2) as processes:
            source = InParts(self.parts, processes)
            wanted = source.rows("property", pattern, marked, self.folder, 0)
        self.assertEqual(told, wanted)
        self.assertEqual(len(told), self.parts.count)

    def test_a_fault_of_a_part_is_told(self) -> None:
        with open(self.parts.lines_path(1), "a") as file:
            file.write("assert late 1 lend(b,c)\n")
        with self.workers() as workers:
            with self.assertRaisesRegex(HistoryError, "has changed since it was"):
                answer(
                    InParts(self.parts, workers), Wording(self.parts.theory), "clashes"
                )


if __name__ == "__main__":
    unittest.main()
