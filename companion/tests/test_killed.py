"""Nothing that was answered is lost where a server is killed: a few seconds of it.

`measure/kills` does the same many times over.
"""

from __future__ import annotations

from tests.keep import Folder
from tests.kills import Trial


class KilledTest(Folder):
    def test_killed_at_random_moments_under_load(self) -> None:
        trial = Trial(self.folder, 20240303)
        counts = [trial.kill() for _ in range(4)]
        self.assertEqual(counts, sorted(counts))

    def test_copies_taken_while_it_is_stopped(self) -> None:
        trial = Trial(self.folder, 7)
        self.assertGreaterEqual(trial.kill(copies=4), 5)
