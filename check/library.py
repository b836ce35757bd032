#!/usr/bin/env python3
"""Serves random sessions by the library in this process and by the program, and compares the replies byte by byte.

    check/library.py --count 3000              so many sessions, from seed 0 on
    check/library.py --count 300 --first 9000

A session is served thrice: by the program with one worker; by lines, where each reply finds a room one byte too short \
first and is asked for again; and by the calls for count, advance, vehicle and enter where a line is one of these, \
whose typed answers are compared. `--program PATH` and `--library PATH` name them. The first difference is printed, \
and the status is then 1.
"""
import argparse
import ctypes
import json
import os
import subprocess
import sys
from pathlib import Path

from definitions import TOP
from making import Maker

sys.path.append(str(TOP / "tools"))
from streetsim.base.client import Refused, Starved, read_reply  # noqa: E402
from streetsim.base.engine import BUILT_LIBRARY, Engine  # noqa: E402

PROGRAM = Path(os.environ.get("STREETSIM_PROGRAM") or TOP / "crates/street_sim/out/street_sim")
CALLS = {
    "count": lambda session, fields: session.count(),
    "advance": lambda session, fields: session.advance(**fields),
    "vehicle": lambda session, fields: session.vehicle(**fields),
    "enter": lambda session, fields: session.enter(**fields),
}
FIELDS = {
    "count": set(),
    "advance": {"steps"},
    "vehicle": {"car"},
    "enter": {"plan", "lane", "depart"},
}  # that a line of such a call has, at least


def by_program(program, lines):
    """The program's replies, as one text."""
    text = b"".join(line + b"\n" for line in lines)
    words = [program, "--endless"]
    return subprocess.run(words, input=text, capture_output=True, timeout=120, check=True).stdout


def by_lines(library, lines):
    """The library's replies, each of which found a room one byte too short first."""
    replies = []
    with Engine(library) as session:
        for line in lines:
            session.room = ctypes.create_string_buffer(1)
            reply = session.exchange_one(line + b"\n")
            if len(reply) > 1:
                session.room = ctypes.create_string_buffer(len(reply) - 1)
                if session.calls.streetsim_reply(
                    session.pointer, session.room, len(session.room), session.to_bytes
                ) != 3 or session.bytes.value != len(reply):
                    return b"a room one byte too short was enough"
                reply = session.reply_line(3)
            replies.append(reply)
    return b"".join(replies)


def call_of(line):
    """The name and the fields of a line that a call can stand for, or none."""
    try:
        value = json.loads(line)
        name = value.pop("cmd")
        known = name in CALLS and FIELDS[name] <= set(value) <= FIELDS[name] | {"size"} * (name == "enter")
        return (name, value) if known and isinstance(value.get("plan", []), list) else None
    except (ValueError, AttributeError, KeyError, TypeError):
        return None


def by_calls(library, lines, replies):
    """The first line whose call answers otherwise than its reply says, with both; none where there is none."""
    with Engine(library) as session:
        for line, reply in zip(lines, replies):
            call = call_of(line)
            if call is None:
                session.exchange_one(line + b"\n")
                continue
            try:
                answer = CALLS[call[0]](session, call[1])
            except (Refused, Starved) as fault:
                answer = fault
            if answer != read_reply(reply):
                return line, answer, reply
    return None


def difference(program, library, seed):
    """What differs in a session, in words; none where nothing does."""
    lines = Maker(seed).session()
    wanted = by_program(program, lines)
    got = by_lines(library, lines)
    if got != wanted:
        return f"session {seed}: the lines' replies differ: {got[:200]} for {wanted[:200]}"
    speaking = [line for line in lines if line.strip(b" \t\r")]
    other = by_calls(library, speaking, wanted.splitlines(keepends=True))
    return other and f"session {seed}: {other[0]}: {other[1]} for {other[2]}"


def main():
    words = argparse.ArgumentParser(description=__doc__, formatter_class=argparse.RawDescriptionHelpFormatter)
    words.add_argument("--count", type=int, default=300)
    words.add_argument("--first", type=int, default=0)
    words.add_argument("--program", default=str(PROGRAM))
    words.add_argument("--library", default=str(TOP / BUILT_LIBRARY))
    given = words.parse_args()
    for seed in range(given.first, given.first + given.count):
        if found := difference(given.program, given.library, seed):
            print(found)
            return 1
    print(f"{given.count} sessions: the library's replies are the program's")
    return 0


if __name__ == "__main__":
    sys.exit(main())
