#!/usr/bin/env python3
"""Serves random kept sessions with a record while a file or a pipe fails; compares what is left with the definitions.

    check/failing.py --count 2000     so many sessions, from seed 0 on

Lines come in random pieces, each of which the program reads at once. In a session one of these fails: whichever file \
first grows beyond a random size, or the log alone; the record or the output on a full device; the output in a full \
pipe. Replies, record and log then have to be those of some read at which that failed: no reply without its blocks \
and its lines in the log, and no step of a line that was not read. The session goes on from its log, and is asked what \
stands. Of the first session that contradicts its seed is told; the status is then 1.
`--program PATH` names the program, and `--top FOLDER` another repository's definitions.
"""
import fcntl
import os
import random
import resource
import signal
import subprocess
import sys
import tempfile
from collections import Counter
from collections.abc import Callable, Iterable
from dataclasses import dataclass
from itertools import pairwise
from pathlib import Path

from definitions import Definitions, deep_calls
from making import Maker
from sessions import WORKERS, seeds_parser

FILE, RECORD, OUTPUT = "FILE", "RECORD", "standard output"
FULL = "/dev/full"
KINDS = ("files", "log", "record", "output", "pipe")
# How long sessions, their records and pieces of them are at most, in bytes.
MOST_BYTES, MOST_RECORD, MOST_PIECE = 20_000, 500_000, 700
# How many bytes a pipe holds: so many that nobody waits, or as few as the system allows.
WIDE, NARROW = 1 << 20, 1 << 12
QUESTIONS = [b'{"cmd":"count"}', *(b'{"cmd":"vehicle","car":%d}' % car for car in range(9))]


@dataclass(frozen=True)
class Session:
    """A session in pieces that are read one by one; what the definitions give for each of its lines; and how many of
    its lines have ended before and after each read, that of the end too."""

    pieces: list[bytes]
    replies: list[bytes]
    kept: list[bytes]
    blocks: list[bytes]
    reads: list[tuple[int, int]]


@dataclass(frozen=True)
class Left:
    """What a run leaves: its status, what is told, and the bytes of its output, its log and its record."""

    status: int
    told: str
    output: bytes
    log: bytes
    record: bytes


def session_of(definitions: Definitions, seed: int) -> Session | None:
    """A random session, the last line of which has no end; none where it is too long."""
    lines, draw = Maker(seed).session(), random.Random(seed)
    text = b"\n".join(lines)
    if len(text) > MOST_BYTES:
        return None
    served = definitions.serve(lines)
    pieces = []
    while text:
        size = draw.randint(1, MOST_PIECE)
        pieces, text = [*pieces, text[:size]], text[size:]
    ended = [0]
    for piece in pieces:
        ended.append(ended[-1] + piece.count(b"\n"))
    replies = [b"" if reply is None else reply + b"\n" for reply in served.replies]
    made = Session(pieces, replies, served.kept, served.blocks, list(pairwise([*ended, len(lines)])))
    return made if sum(map(len, made.blocks)) <= MOST_RECORD else None


def pipe_of(size: int, flags: int = 0) -> tuple[int, int]:
    """A pipe that holds so many bytes, and on which nobody waits."""
    ends = os.pipe2(os.O_NONBLOCK | flags)
    fcntl.fcntl(ends[1], fcntl.F_SETPIPE_SZ, size)
    return ends


def piped(pieces: list[bytes]) -> int:
    """A pipe to be read, which has ended: each read gives one of these pieces."""
    reading, writing = pipe_of(WIDE, os.O_DIRECT)
    for piece in pieces:
        os.write(writing, piece)
    os.close(writing)
    os.set_blocking(reading, True)
    return reading


def emptied(reading: int) -> bytes:
    """All that a pipe held, which is closed then."""
    text = b""
    with os.fdopen(reading, "rb", buffering=0) as file:
        while more := file.read(WIDE):
            text += more
    return text


def output_of(kind: str, folder: Path, draw: random.Random) -> tuple[int, Callable[[], bytes]]:
    """Where replies are written, and what tells those that were, once the program has ended."""
    if kind == "files":
        return os.open(folder / "OUT", os.O_WRONLY | os.O_CREAT), (folder / "OUT").read_bytes
    if kind == "output":
        return os.open(FULL, os.O_WRONLY), bytes
    reading, writing = pipe_of(NARROW if kind == "pipe" else WIDE)
    before = os.write(writing, bytes(draw.randint(1, NARROW))) if kind == "pipe" else 0
    return writing, lambda: emptied(reading)[before:]


def record_of(kind: str, folder: Path) -> tuple[str, Callable[[], bytes]]:
    """The name of the record, and what tells its bytes, once the program has ended."""
    if kind == "record":
        return FULL, bytes
    if kind != "log":
        return RECORD, (folder / RECORD).read_bytes
    os.mkfifo(folder / RECORD)
    fifo = os.open(folder / RECORD, os.O_RDONLY | os.O_NONBLOCK)
    fcntl.fcntl(fifo, fcntl.F_SETPIPE_SZ, WIDE)
    return RECORD, lambda: emptied(fifo)


def growing_to(limit: int) -> Callable[[], None]:
    """What has a program that is started then make no file longer than so many bytes; a write beyond that fails."""

    def limits() -> None:
        signal.signal(signal.SIGXFSZ, signal.SIG_IGN)
        resource.setrlimit(resource.RLIMIT_FSIZE, (limit, limit))

    return limits


def run(words: list[str], pieces: list[bytes], folder: Path, output: int, limit: int) -> tuple[int, str]:
    """Runs the program in a folder; its status, and what it tells."""
    reading = piped(pieces)
    try:
        done = subprocess.run(
            words, stdin=reading, stdout=output, stderr=subprocess.PIPE, cwd=folder, timeout=60, check=False,
            preexec_fn=growing_to(limit),
        )
    finally:
        os.close(reading)
        os.close(output)
    return done.returncode, done.stderr.decode().replace(FULL, RECORD)


def size(parts: list[bytes]) -> int:
    return sum(map(len, parts))


def limit_of(session: Session, kind: str, draw: random.Random) -> int:
    """How long a file may become: shorter than the log, or than the longest file, where that is to fail."""
    longest = max(size(session.kept), *(map(size, (session.blocks, session.replies)) if kind == "files" else ()), 1)
    return draw.randrange(longest) if kind in ("files", "log") else MOST_RECORD


def left_by(words: list[str], session: Session, kind: str, draw: random.Random, folder: Path) -> Left:
    """What a run of the program leaves in an empty folder, in which something of this kind fails."""
    record, recorded = record_of(kind, folder)
    output, written = output_of(kind, folder, draw)
    limit = limit_of(session, kind, draw)
    status, told = run([*words, "--record", record], session.pieces, folder, output, limit)
    return Left(status, told, written(), (folder / FILE).read_bytes(), recorded())


def fits(session: Session, left: Left, failed: str, synced: bool, read: tuple[int, int]) -> bool:
    """Whether what is left is that of a fault at this read: replies are those of the reads before, log and record
    have what the read's lines owe, but for what failed; a log is cut back to what was synced."""
    output, log, record = map(len, (left.output, left.log, left.record))
    replies, kept, blocks = (
        [size(parts[:count]) for count in read] for parts in (session.replies, session.kept, session.blocks)
    )
    if failed == OUTPUT:
        return replies[0] <= output < replies[1] and (log, record) == (kept[1], blocks[1])
    if failed == FILE:
        is_cut = log == kept[0] if synced else kept[0] <= log < kept[1]
        return is_cut and (output, record) == (replies[0], blocks[1])
    return output == replies[0] and kept[0] <= log <= kept[1] and blocks[0] <= record < blocks[1]


def contradiction(session: Session, left: Left, synced: bool) -> str | None:
    """How what a run left differs from what the definitions have it leave, or none."""
    wanted = [b"".join(parts) for parts in (session.replies, session.kept, session.blocks)]
    got = [left.output, left.log, left.record]
    if left.status == 0:
        return None if (left.told, got) == ("", wanted) else "not all is there"
    if not all(map(bytes.startswith, wanted, got)):
        return "other bytes"
    failed = [name for name in (FILE, RECORD, OUTPUT) if left.told == f"streetsim: cannot write {name}\n"]
    if left.status != 1 or not failed:
        return "another end"
    return None if any(fits(session, left, failed[0], synced, read) for read in session.reads) else "of no read"


def is_gone_on(definitions: Definitions, words: list[str], log: bytes, folder: Path) -> bool:
    """Whether a session that goes on from the log answers as after its lines."""
    lines = log.split(b"\n")[:-1]
    wanted = definitions.serve([*lines, *QUESTIONS]).replies[len(lines) :]
    reading, writing = pipe_of(WIDE)
    status, _ = run(words, [b"\n".join(QUESTIONS)], folder, writing, MOST_RECORD)
    return (status, emptied(reading)) == (0, b"".join(reply + b"\n" for reply in wanted))


def fault_of(program: Path, definitions: Definitions, seed: int, session: Session) -> tuple[str, str | None]:
    """The end of a session in which something failed, and how it contradicts the definitions, or none."""
    draw = random.Random(seed)
    kind, workers, unsynced = draw.choice(KINDS), draw.choice(WORKERS), draw.choice(([], ["--unsynced"]))
    words = [str(program), "--workers", str(workers), *unsynced, "--keep", FILE]
    with tempfile.TemporaryDirectory() as name:
        folder = Path(name)
        left = left_by(words, session, kind, draw, folder)
        fault = contradiction(session, left, not unsynced)
        if fault is None and not is_gone_on(definitions, words, left.log, folder):
            fault = "goes on otherwise"
    return left.told or "whole", fault and f"session {seed}, {kind} {words[1:]}: {fault}: {left}"


def compare(program: Path, top: Path, seeds: Iterable[int]) -> tuple[Counter[str], str | None]:
    """How many sessions of these seeds ended in which way, and the first fault."""
    definitions, ends = Definitions(top), Counter[str]()
    for seed in seeds:
        if session := session_of(definitions, seed):
            end, fault = fault_of(program, definitions, seed, session)
            ends[end.strip()] += 1
            if fault:
                return ends, fault
    return ends, None


def main() -> int:
    words = seeds_parser(__doc__, 200).parse_args()
    with deep_calls():
        ends, fault = compare(words.program, words.top, range(words.first, words.first + words.count))
    for end, count in ends.most_common():
        print(f"{count:6} {end}")
    print(fault or f"{ends.total()} sessions: nothing contradicts the definitions")
    return 1 if fault else 0


if __name__ == "__main__":
    sys.exit(main())
