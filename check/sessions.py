#!/usr/bin/env python3
"""Serves random sessions by the definitions and by the built program, and compares the replies byte by byte.

    check/sessions.py --count 300                 so many sessions, from seed 0 on
    check/sessions.py --seconds 3600 --first 1000000
    check/sessions.py --file SESSION.jsonl        one session from a file

The program serves each session with 1, 3 and 64 workers, writes its tape and replays it. \
With `--record` it serves each with these workers once more, and its record is compared too. \
The first session in which anything differs is made
small and printed as lines to paste; the status is then 1. \
`--program PATH` names the program, and `--top FOLDER` another repository's definitions.
"""
import argparse
import concurrent.futures
import json
import os
import random
import shlex
import subprocess
import sys
import tempfile
import time
from dataclasses import dataclass
from pathlib import Path

from definitions import TOP, Definitions, deep_calls
from making import Maker
from tapes import Replay, changed_tape

PROGRAM = Path(os.environ.get("STREETSIM_PROGRAM") or TOP / "crates/street_sim/out/street_sim")
WORKERS = (1, 3, 64)
# So many calls the program has places for where nothing else is said.
MOST_CALLS = 65536
SMALLER_SECONDS = 120
# So many sessions are given out at once.
BATCH = 100


@dataclass
class Difference:
    """What differs in a session: the words of the command line, and those of a second run if it is that one's;
    to which line; what is wanted."""

    lines: list
    words: list
    then: list
    line: bytes
    wanted: bytes
    got: bytes
    # The tape that the second run reads, where it was changed.
    tape: list


class Comparison:
    """The definitions beside a program; its record is compared too where that is wanted."""

    def __init__(self, program, top=TOP, records=False):
        self.program, self.definitions, self.records = program, Definitions(top), records

    def difference(self, lines, most=MOST_CALLS):
        """The first difference in a session that has places for so many calls, or none."""
        served = self.definitions.serve(lines, most)
        text = b"".join(line + b"\n" for line in lines)
        places = [] if most == MOST_CALLS else ["--calls", str(most)]
        with tempfile.TemporaryDirectory() as folder:
            tape = Path(folder) / "tape"
            for workers in WORKERS:
                words = ["--workers", str(workers), *places]
                found = first_difference(lines, served.replies, self.run([*words, "--tape", tape], text))
                if found:
                    return Difference(lines, words, [], *found, [])
            found = self.of_tape(served, tape) or self.of_replay(served, tape) or self.of_changed_tape(lines, tape)
            if found:
                return Difference(lines, [*places, "--tape", "FILE"], *found)
            # A session with a record has no end of places.
            return self.of_record(lines, served, Path(folder) / "record") if self.records and not places else None

    def run(self, words, text=b""):
        """The lines that the program writes; its status and what it says of it stand behind them
        where the status is not 0."""
        done = subprocess.run([self.program, *words], input=text, capture_output=True, timeout=60, check=False)
        ended = b"" if done.returncode == 0 else b"status %d: %s\n" % (done.returncode, done.stderr.strip())
        return (done.stdout + ended).split(b"\n")

    def of_record(self, lines, served, record):
        """Whether the program replies the same where it writes a record, and the record is the one defined."""
        steps = [(line, block) for line, blocks in zip(lines, served.blocks) for block in blocks_shown(blocks)]
        text = b"".join(line + b"\n" for line in lines)
        for workers in WORKERS:
            words = ["--workers", str(workers), "--record"]
            found = first_difference(lines, served.replies, self.run([*words, record], text))
            if found:
                return Difference(lines, [*words, "FILE"], [], *found, [])
            got = blocks_shown(record.read_bytes())
            found = first_difference([line for line, _ in steps], [block for _, block in steps], got)
            if found:
                return Difference(lines, [*words, "FILE"], ["(the record)"], *found, [])
        return None

    def of_tape(self, served, tape):
        """Whether the tape is that of the calls, and reads as these calls."""
        entries = self.definitions.tape(served.calls).split(b"\n")[:-1]
        if self.definitions.calls_of_tape(entries) != served.calls:
            return ["(the definitions read their own tape)"], b"all lines", b"the calls", b"other calls", []
        found = first_difference(entries, entries, tape.read_bytes().split(b"\n"))
        return found and (["(the tape itself)"], *found, [])

    def of_replay(self, served, tape):
        """Whether the tape is replayed to the replies of its calls and a count."""
        words = ["--workers", "3", "--replay"]
        entries = tape.read_bytes().split(b"\n")[1:]
        found = first_difference(
            entries, [*served.answers, self.definitions.count(served.state)], self.run([*words, tape])
        )
        return found and ([*words, "FILE"], *found, [])

    def of_changed_tape(self, lines, tape):
        """Of a quarter of the sessions: whether the tape with changes made at random is replayed as defined,
        or refused at its bad line."""
        if len(lines) % 4:
            return None
        entries = tape.read_bytes().split(b"\n")[:-1]
        changed = changed_tape(random.Random(len(entries)), entries)
        tape.write_bytes(b"".join(line + b"\n" for line in changed))
        found = first_difference(changed[1:], Replay(self.definitions).output(changed), self.run(["--replay", tape]))
        return found and (["--replay", "FILE"], *found, changed)

    # ---- making it small

    def smaller(self, difference, most=MOST_CALLS):
        """A difference in as few lines, with as short lists in them, as can be found soon."""
        until, best, tried = time.monotonic() + SMALLER_SECONDS, difference, set()
        while time.monotonic() < until:
            lines = next((lines for lines in shorter(best.lines) if tuple(lines) not in tried), None)
            if lines is None:
                break
            tried.add(tuple(lines))
            best = self.difference(lines, most) or best
        return best


def blocks_shown(record):
    """Each block of a record in hexadecimal digits, the head and each row as a word; what is torn as it is, last."""
    blocks, at = [], 0
    while at < len(record):
        rows = int.from_bytes(record[at + 4:at + 8], "little")
        block = record[at:at + 16 * (1 + rows)]
        blocks.append(block.hex(" ", -16).encode())
        at += len(block)
    return blocks


def first_difference(lines, wanted, got):
    """The first line whose reply differs, what is wanted and what it got, or none; a blank line has no reply."""
    got = iter(got)
    for at, reply in enumerate(wanted):
        if reply is not None:
            told = next(got, b"(nothing)")
            if told != reply:
                return lines[at] if at < len(lines) else b"the end", reply, told
    rest = b"\n".join(got)
    return (b"the end", b"(nothing)", rest) if rest else None


def shorter(lines):
    """Shorter sessions: without a half, a quarter and so on of the lines, without one line,
    and with one entry less in a list of a line."""
    size = len(lines) // 2
    while size > 0:
        for at in range(0, len(lines), size):
            yield lines[:at] + lines[at + size:]
        size //= 2
    for at, line in enumerate(lines):
        for less in shorter_lists(line):
            yield [*lines[:at], less, *lines[at + 1:]]


def shorter_lists(line):
    """A command with one entry less in one of its lists."""
    try:
        command = json.loads(line)
    except ValueError:
        return
    for name in ("turns", "links", "nodes", "plan", "phases"):
        entries = command.get(name, []) if isinstance(command, dict) else []
        for at in range(len(entries) if isinstance(entries, list) else 0):
            yield json.dumps({**command, name: entries[:at] + entries[at + 1:]}, separators=(",", ":")).encode()


def shown(difference):
    """A difference as lines to paste, with both replies."""
    parts = [f"./streetsim {shlex.join(difference.words)} <<'END'", *difference.lines, "END"]
    if difference.tape:
        parts += ["cat >FILE <<'END'", *difference.tape, "END"]
    if difference.then:
        parts.append(f"./streetsim {' '.join(difference.then)}" if difference.then[0][0] == "-" else difference.then[0])
    parts += [
        "to the line:     " + plain(difference.line),
        "the definitions: " + plain(difference.wanted),
        "the program:     " + plain(difference.got),
    ]
    return "\n".join(map(plain, parts))


def plain(line):
    """A line as text; what is no UTF-8 is shown by its bytes, and of a very long line the beginning."""
    text = line if isinstance(line, str) else line.decode(errors="backslashreplace")
    return text if len(text) <= 20000 else text[:200] + f".. ({len(text)} characters)"


# ---- many sessions, on all processors

def start_worker(program, top, records):
    global comparison
    comparison = Comparison(program, top, records)


def fault_of_seed(seed):
    """What differs in the session of a seed, small and shown, or none; and how many lines it has."""
    lines = Maker(seed).session()
    # Every tenth session comes to the end of its places.
    most = len(lines) // 2 if seed % 10 == 0 else MOST_CALLS
    found = comparison.difference(lines, most)
    return (shown(comparison.smaller(found, most)) if found else None), len(lines)


def compare(program, top, seeds, until=None, records=False):
    """Compares the sessions of these seeds, until a time if one is given, and their records if that is wanted:
    how many sessions and lines, and the first fault shown, or none."""
    sessions = lines = 0
    with concurrent.futures.ProcessPoolExecutor(
        len(os.sched_getaffinity(0)), initializer=start_worker, initargs=(program, top, records)
    ) as pool:
        for start in range(0, len(seeds), BATCH):
            batch = seeds[start:start + BATCH]
            for seed, (fault, count) in zip(batch, pool.map(fault_of_seed, batch)):
                sessions, lines = sessions + 1, lines + count
                if fault or until is not None and time.monotonic() > until:
                    pool.shutdown(wait=False, cancel_futures=True)
                    return sessions, lines, f"seed {seed}:\n{fault}" if fault else None
    return sessions, lines, None


def compare_file(words):
    """Compares the session of a file, and tells where it differs."""
    found = Comparison(words.program, words.top, words.record).difference(words.file.read_bytes().splitlines())
    print(shown(found) if found else "no difference")
    return 1 if found else 0


def compare_random(words):
    """Compares random sessions, so many or for so many seconds, and tells the first that differs."""
    start = time.monotonic()
    count = words.count if words.seconds is None else 1_000_000_000
    until = None if words.seconds is None else start + words.seconds
    seeds = range(words.first, words.first + count)
    sessions, lines, fault = compare(words.program, words.top, seeds, until, words.record)
    if fault:
        print(fault)
    print(
        f"{sessions} sessions of {lines} lines, {time.monotonic() - start:.0f} s: "
        f"{'one differs' if fault else 'no difference'}"
    )
    return 1 if fault else 0


def seeds_parser(doc, count):
    """The words of a check of random sessions: how many (count, where none is given) and from which seed on, the
    program, and the repository of the definitions."""
    parser = argparse.ArgumentParser(description=doc, formatter_class=argparse.RawDescriptionHelpFormatter)
    parser.add_argument("--count", type=int, default=count)
    parser.add_argument("--first", type=int, default=0)
    parser.add_argument("--program", type=Path, default=PROGRAM)
    parser.add_argument("--top", type=Path, default=TOP)
    return parser


def main():
    parser = seeds_parser(__doc__, 300)
    parser.add_argument("--seconds", type=float)
    parser.add_argument("--file", type=Path)
    parser.add_argument("--record", action="store_true")
    words = parser.parse_args()
    with deep_calls():
        return compare_file(words) if words.file else compare_random(words)


if __name__ == "__main__":
    sys.exit(main())
