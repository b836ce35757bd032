#!/usr/bin/env python3
"""Serves sessions by the program and by the one that the kit's own compiler makes of the same proved code, and compares
all that they give, byte by byte: no proof covers a compiler, and a fault of one of them shows as a difference.

    check/compilers.py                 all stored sessions, one with threads, and 500 random ones
    check/compilers.py --count 10000   the same with more random ones

The kit's gate makes both programs: `street_sim` by LLVM, and beside it `street_sim.by-rattle`.
"""
from __future__ import annotations

import argparse
import concurrent.futures
import itertools
import os
import subprocess
import sys
import tempfile
import time
from collections.abc import Iterable, Iterator
from pathlib import Path

from making import Maker, crowd
from sessions import PROGRAM, plain
from stored import stored_sessions

# Why there is nothing to compare.
NO_OTHER = "no program of the kit's own compiler"
ENDING = ".by-rattle"
RANDOM_SESSIONS = 500
# Other sessions than those that the definitions serve too.
FIRST_SEED = 2_000_000
SECONDS = 300
# How each session is served, one after another in a folder of its own: what one leaves in a file the next reads.
RUNS = [
    ["--workers", "1", "--tape", "tape"],
    ["--workers", "3", "--replay", "tape"],
    ["--workers", "4", "--endless", "--record", "record"],
    ["--keep", "kept", "--unsynced"],
    ["--keep", "kept", "--unsynced", "--workers", "4", "--record", "record-of-kept"],
]
Session = tuple[str, list[bytes]]


def other_of(program: Path) -> Path | None:
    """The program of the kit's own compiler that one run of the gate made beside this one, or none."""
    other = program.with_name(program.name + ENDING)
    if not program.is_file() or not os.access(other, os.X_OK):
        return None
    # The gate makes it last: an older one is that of other sources.
    return other if other.stat().st_mtime >= program.stat().st_mtime else None


def random_sessions(count: int, first: int = FIRST_SEED) -> Iterator[Session]:
    for seed in range(first, first + count):
        yield f"seed {seed}", Maker(seed).session()


def kept_sessions() -> Iterator[Session]:
    """The stored sessions, and one whose steps threads share."""
    yield from ((name, lines) for name, lines, _ in stored_sessions())
    yield "a crowd", crowd()


def given(program: Path, lines: list[bytes]) -> Iterator[tuple[str, bytes]]:
    """All that a program gives for a session, each with its name: what it writes, its faults, its status, its files."""
    text = b"".join(line + b"\n" for line in lines)
    with tempfile.TemporaryDirectory() as folder:
        for words in RUNS:
            done = subprocess.run(
                [program, *words], cwd=folder, input=text, capture_output=True, timeout=SECONDS, check=False
            )
            run = " ".join(words)
            yield f"{run}: status", str(done.returncode).encode()
            yield f"{run}: standard error", done.stderr
            yield f"{run}: standard output", done.stdout
        for file in sorted(Path(folder).iterdir()):
            yield f"the file {file.name}", file.read_bytes()


def difference(program: Path, other: Path, lines: list[bytes]) -> str:
    """The first thing in which two programs differ, or nothing."""
    both = itertools.zip_longest(given(program, lines), given(other, lines), fillvalue=("nothing", b""))
    for (what, one), (also, two) in both:
        if (what, one) != (also, two):
            return f"{what}: {first_lines(one, two)}" if what == also else f"{what}, or {also}"
    return ""


def first_lines(one: bytes, two: bytes) -> str:
    """The first line that differs, of both."""
    pairs = zip([*one.split(b"\n"), b"(the end)"], [*two.split(b"\n"), b"(the end)"])
    at, first, second = next((at, a, b) for at, (a, b) in enumerate(pairs) if a != b)
    return f"line {at + 1} is {plain(first)} by LLVM and {plain(second)} by the kit's own compiler"


def first_difference(program: Path, other: Path, sessions: Iterable[Session]) -> tuple[int, str]:
    """How many sessions were served, and where the two programs differ first, or nothing."""
    sessions = list(sessions)
    with concurrent.futures.ThreadPoolExecutor(len(os.sched_getaffinity(0))) as pool:
        found = pool.map(lambda session: difference(program, other, session[1]), sessions)
        for count, ((name, _), told) in enumerate(zip(sessions, found), 1):
            if told:
                pool.shutdown(wait=False, cancel_futures=True)
                return count, f"{name}: {told}"
    return len(sessions), ""


def main() -> int:
    parser = argparse.ArgumentParser(description=__doc__, formatter_class=argparse.RawDescriptionHelpFormatter)
    parser.add_argument("--count", type=int, default=RANDOM_SESSIONS)
    parser.add_argument("--first", type=int, default=FIRST_SEED)
    words = parser.parse_args()
    start, other = time.monotonic(), other_of(PROGRAM)
    if other is None:
        print(f"{NO_OTHER}: the gate (rt ci) makes {PROGRAM.name}{ENDING} beside {PROGRAM}")
        return 1
    sessions = [*kept_sessions(), *random_sessions(words.count, words.first)]
    count, told = first_difference(PROGRAM, other, sessions)
    print(f"{count} sessions, {time.monotonic() - start:.0f} s: {told or 'no difference'}")
    return 1 if told else 0


if __name__ == "__main__":
    sys.exit(main())
