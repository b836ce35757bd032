#!/usr/bin/env python3
"""Serves random kept sessions by the definitions and by the built program, and compares what both leave.

    check/kept.py --count 200                    so many sessions, from seed 0 on

A session is served in two parts, with one file. Between them the file is cut off at a random byte; now and then NULs \
are left behind it, as a disk may leave them, or a line of it is spoilt. Compared are the replies, what is told, and \
the bytes of the file. Of the first that differs the seed is told; the status is then 1.
`--program PATH` names the program, and `--top FOLDER` another repository's definitions.
"""
import random
import subprocess
import sys
import tempfile
from collections.abc import Iterable
from dataclasses import dataclass
from pathlib import Path

from definitions import Definitions, deep_calls
from making import Maker
from sessions import WORKERS, seeds_parser

# The definitions take a text apart byte by byte, and keep each of its ends: so long at most are those that are served.
MOST_BYTES = 4_000


@dataclass
class Left:
    """What a session leaves: its replies, what is told on standard error, and the bytes of its file."""

    replies: bytes
    told: bytes
    file: bytes


def defined(definitions: Definitions, had: bytes, text: bytes) -> Left:
    """What is left by the definitions, where the file had the first text and the second is read."""
    left = definitions.keep(had, text)
    if left.name == "Err":
        return Left(b"", b"streetsim: bad tape at line %d\n" % left.parts[0], had)
    end = left.parts[0]
    file, told = bytes(end.v_file), b""
    lost = len(had) - len(definitions.ended(had))
    if lost:
        told += b"streetsim: %d bytes behind the lines of FILE are now in FILE.lost\n" % lost
    if end.v_lines:
        told += b"streetsim: %d lines of FILE were done again\n" % end.v_lines
    return Left(bytes(end.v_replies), told, file)


def served(program: Path, workers: int, had: bytes, text: bytes) -> Left:
    """What the program leaves."""
    with tempfile.TemporaryDirectory() as folder:
        file = Path(folder) / "FILE"
        file.write_bytes(had)
        words = [program, "--unsynced", "--workers", str(workers), "--keep", "FILE"]
        done = subprocess.run(words, input=text, capture_output=True, cwd=folder, timeout=60, check=False)
        told = done.stderr.replace(f"{file.resolve().parent}/".encode(), b"")
        return Left(done.stdout, told, file.read_bytes())


def torn_file(seed: int, kept: bytes) -> bytes:
    """What a crash has left of a kept file: its first bytes, rarely with NULs behind them, or with a spoilt line."""
    chance = random.Random(seed)
    had = kept[: chance.randint(0, len(kept))]
    if chance.random() < 0.2:
        return had + bytes(chance.randint(1, 9)) + b"\n" + kept
    if chance.random() < 0.2:
        lines = had.split(b"\n")
        lines.insert(chance.randrange(len(lines)), chance.choice([b"[]", b" ", b'{"cmd":"takeout","car":99}']))
        return b"\n".join(lines)
    return had


def session_of(seed: int) -> tuple[bytes, bytes] | None:
    """A random session in two parts, or none where it is too long."""
    lines = Maker(seed).session()
    at = random.Random(seed).randint(1, len(lines))
    # The last line may have no LF.
    first, second = (b"".join(line + b"\n" for line in part) for part in (lines[:at], lines[at:]))
    return None if len(first) + len(second) > MOST_BYTES else (first, second[:-1])


def fault_of(program: Path, definitions: Definitions, seed: int, first: bytes, second: bytes) -> str | None:
    """How the program's session differs from the one that is defined, or none."""
    had = b""
    for text in (first, second):
        wanted = defined(definitions, had, text)
        for workers in WORKERS:
            got = served(program, workers, had, text)
            if got != wanted:
                return f"session {seed}, {workers} workers, of a file with {had!r} and {text!r}: {got} and not {wanted}"
        had = torn_file(seed, wanted.file)
    return None


def compare(program: Path, top: Path, seeds: Iterable[int]) -> tuple[int, str | None]:
    """How many sessions of these seeds were compared, and the first fault."""
    definitions, count = Definitions(top), 0
    for seed in seeds:
        session = session_of(seed)
        if session is None:
            continue
        count += 1
        if fault := fault_of(program, definitions, seed, *session):
            return count, fault
    return count, None


def main() -> int:
    words = seeds_parser(__doc__, 200).parse_args()
    with deep_calls():
        count, fault = compare(words.program, words.top, range(words.first, words.first + words.count))
    print(fault or f"{count} kept sessions are left as they are defined")
    return 1 if fault else 0


if __name__ == "__main__":
    sys.exit(main())
