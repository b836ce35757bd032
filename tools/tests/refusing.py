"""Runs of a program to which requests for memory are refused (data/refuse.c, loaded before it)."""
import dataclasses
import os
import subprocess
import tempfile
from concurrent.futures import ThreadPoolExecutor

from preloaded import library_of
from support import DATA, Case

SOURCE = DATA / "refuse.c"
WORD = 8
# Beyond every request.
NEVER = 2**62
BATCH = 64


@dataclasses.dataclass(frozen=True)
class Run:
    """How a run ended, how many requests for memory it made, and how many blocks it had not freed at its end."""

    number: int
    status: int
    output: bytes
    error: bytes
    requests: int
    unfreed: int


class RefusingCase(Case):
    """A test that refuses memory to a program."""

    def setUp(self):
        super().setUp()
        self.library = library_of(SOURCE, self.folder)

    def run_refusing(self, command, first, last, text=b"", folder=None):
        """A run to which the requests from number `first` to number `last` are refused."""
        with tempfile.NamedTemporaryFile(dir=self.folder) as count:
            count.write(bytes(2 * WORD))
            count.flush()
            environment = {"LD_PRELOAD": str(self.library), "FIRST": str(first), "LAST": str(last), "COUNT": count.name}
            done = subprocess.run(
                command, env=environment, input=text, capture_output=True, timeout=60, cwd=folder, check=False
            )
            count.seek(0)
            requests, unfreed = (int.from_bytes(count.read(WORD), "little", signed=True) for _ in range(2))
        return Run(first, done.returncode, done.stdout, done.stderr, requests, unfreed)

    def refuse_each(self, run_of, check):
        """Checks the runs to which a request is refused, from the first one on,
        until no run of a batch meets its refusal.

        `run_of` makes the run to which a request of this number is refused. How many runs met theirs.
        """
        first, met = 1, 0
        with ThreadPoolExecutor(len(os.sched_getaffinity(0))) as pool:
            while True:
                runs = [run for run in pool.map(run_of, range(first, first + BATCH)) if run.requests >= run.number]
                for run in runs:
                    check(run)
                met += len(runs)
                if not runs:
                    return met
                first += BATCH
