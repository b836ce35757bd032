"""Tests of Python by module: each module in a process of its own, as many side by side as there are processors.

Started as a script it is such a process: it runs the tests of one file and leaves on standard output, as its last
line, what came of them.
"""
from __future__ import annotations

import json
import os
import subprocess
import sys
import time
import unittest
from collections.abc import Iterable
from concurrent.futures import ThreadPoolExecutor
from dataclasses import asdict, dataclass, field
from pathlib import Path

# Modules whose tests take longest: they begin first, so that no processor waits for the last one.
LONGEST = (
    "test_doors", "test_study", "test_route", "test_walks", "test_decides", "test_traci", "test_sealed",
    "test_signal_plans", "test_mutants", "test_served", "test_samples", "test_kept_sessions", "test_recorded",
    "test_first_minute",
)


@dataclass
class Outcome:
    """What came of the tests of a module: how many ran, those that failed or passed against what was expected, by their
    names, those that were skipped with why, the seconds of each, and all that was printed."""

    run: int = 0
    failed: list[str] = field(default_factory=list)
    unexpected: list[str] = field(default_factory=list)
    skipped: list[tuple[str, str]] = field(default_factory=list)
    seconds: dict[str, float] = field(default_factory=dict)
    text: str = ""

    def add(self, module: Outcome) -> None:
        """Takes the outcome of one more module in."""
        self.run += module.run
        self.failed += module.failed
        self.unexpected += module.unexpected
        self.skipped += module.skipped
        self.seconds |= module.seconds


class TimedResult(unittest.TextTestResult):
    """Keeps the seconds of each test."""

    def startTest(self, test: unittest.TestCase) -> None:
        self.start_time = time.monotonic()
        super().startTest(test)

    def stopTest(self, test: unittest.TestCase) -> None:
        super().stopTest(test)
        outcome.seconds[test.id()] = round(time.monotonic() - self.start_time, 1)


outcome = Outcome()


def run_file(file: Path) -> None:
    """Runs the tests of a file into `outcome`."""
    suite = unittest.TestLoader().discover(str(file.parent), pattern=file.name)
    result = unittest.TextTestRunner(resultclass=TimedResult).run(suite)
    outcome.run = result.testsRun
    outcome.failed = sorted({getattr(test, "test_case", test).id() for test, _ in result.failures + result.errors})
    outcome.unexpected = [test.id() for test in result.unexpectedSuccesses]
    outcome.skipped = [(test.id(), why) for test, why in result.skipped]


def outcome_of(file: Path) -> Outcome:
    """Runs the tests of a file in a process of its own, and tells how they went. A process that leaves no outcome
    has failed as a whole."""
    words: list[str | Path] = [sys.executable, "-B", Path(__file__), file]
    begin = time.monotonic()
    process = subprocess.run(
        words, cwd=file.parent, stdin=subprocess.DEVNULL, stdout=subprocess.PIPE, stderr=subprocess.STDOUT, text=True,
        errors="replace", check=False,
    )
    text, _, last = process.stdout.rstrip("\n").rpartition("\n")
    try:
        module_outcome = Outcome(**json.loads(last))
    except (TypeError, ValueError):
        module_outcome, text = Outcome(run=1, failed=[file.stem]), f"{process.stdout}\nstatus {process.returncode}"
    ill = module_outcome.failed + module_outcome.unexpected
    # One write, so that no other module's line comes between the text and its line's end.
    told = f"{module_outcome.run - len(ill)} passed, {len(ill)} failed in {time.monotonic() - begin:.0f} s"
    print(f"{text}\n" * bool(ill) + f"{file.stem}: {told}\n", end="", flush=True)
    return module_outcome


def run_modules(files: Iterable[Path]) -> Outcome:
    """Runs the tests of files side by side; the last lines name the ten tests that took longest."""
    all_outcomes = Outcome()
    places = {name: place for place, name in enumerate(LONGEST)}
    first = sorted(files, key=lambda file: (places.get(file.stem, len(places)), -file.stat().st_size))
    with ThreadPoolExecutor(len(os.sched_getaffinity(0))) as pool:
        for module_outcome in pool.map(outcome_of, first):
            all_outcomes.add(module_outcome)
    for name, seconds in sorted(all_outcomes.seconds.items(), key=lambda item: -item[1])[:10]:
        print(f"{seconds:6.1f} s {name}")
    return all_outcomes


if __name__ == "__main__":
    run_file(Path(sys.argv[1]))
    print(json.dumps(asdict(outcome)))
