#!/usr/bin/env python3
"""Searches the model of a team that waits: every order of the steps of the caller and of its threads.

    check/team.py                           one to three threads, three tasks for each
    check/team.py --threads 2 --tasks 4     a team of your own
    check/team.py --wrong                   wrong protocols, each with the shortest way to its fault

TEAM.md says what is shown, and has the lines of `street_team` beside the steps of the model. The status is 1 where \
the team can hang or a wrong protocol is not found.
"""
from __future__ import annotations

import argparse
import re
import sys
import time
from pathlib import Path

from protocol import caller, searched, worker
from wrong_protocols import WRONG

PAGE = Path(__file__).with_name("TEAM.md")
# So many threads, so many tasks for each, and whether a thread may also be lent nothing.
TEAMS = [(1, 3, True), (2, 3, True), (3, 3, False)]
# A team in which each wrong protocol shows.
SMALL = (2, 2)
# The sources of the team, from the top of the repository, and what a function of theirs begins with.
SOURCES = "crates/street_team/src"
HEAD = re.compile(r"( *)(?:pub(?:\(crate\))? )?fn (\w+)")


def page_lines() -> dict[str, list[tuple[str, str]]]:
    """Each function on the page, as `file: name`: its lines, each with the step of the model that it is, or none."""
    found: dict[str, list[tuple[str, str]]] = {}
    for block in re.findall(r"^```rust\n(.*?)^```", PAGE.read_text(), re.MULTILINE | re.DOTALL):
        for part in block.split("\n\n"):
            head, *lines = part.rstrip("\n").split("\n")
            parts = [line.partition("  // ") for line in lines]
            found[head.removeprefix("// ")] = [(line, step) for line, _, step in parts]
    return found


def source_lines(top: Path) -> dict[str, list[str]]:
    """The lines between the braces of each function of the team, as `file: name`."""
    found: dict[str, list[str]] = {}
    for file in sorted((top / SOURCES).glob("*.rt")):
        lines = file.read_text().split("\n")
        for at, line in enumerate(lines):
            if head := HEAD.match(line):
                found[f"{file.name}: {head[2]}"] = body(lines[at:], head[1])
    return found


def body(lines: list[str], margin: str) -> list[str]:
    """The lines between the braces of the function that begins here, or none where it has no body."""
    end = next((at for at, line in enumerate(lines) if line == margin + "}"), 0)
    begin = next((at for at, line in enumerate(lines[:end]) if line.endswith(" {") or line == margin + "{"), end)
    return [line[len(margin) + 4:] for line in lines[begin + 1:end]]


def model_steps() -> set[str]:
    """The names of the model's steps."""
    return {row.step for actor in (caller(1, 1, True), worker(0, 1)) for row in actor.rows if row.step}


def show(threads: int, tasks: int, may_lack: bool) -> bool:
    """Searches a team, and tells what was found. Whether nothing is wrong."""
    start = time.monotonic()
    found = searched(threads, tasks, may_lack)
    lent = f"{threads} threads, {tasks} tasks for each{' or fewer' if may_lack else ''}"
    print(f"{lent}: {found.states:,} states, {found.fault or 'it always ends'} ({time.monotonic() - start:.0f} s)")
    print("".join(f"  {step}\n" for step in found.trace), end="", flush=True)
    return not found.fault


def show_wrong() -> bool:
    """Searches each wrong protocol, and tells the way to its fault. Whether each has one."""
    faults = []
    for name, (edit, _) in WRONG.items():
        found = searched(*SMALL, edit=edit)
        faults.append(found.fault)
        print(f"{name}: {found.fault or 'NOTHING IS FOUND'}")
        print("".join(f"  {step}\n" for step in found.trace), end="")
    return all(faults)


def main() -> int:
    parser = argparse.ArgumentParser(description=__doc__, formatter_class=argparse.RawDescriptionHelpFormatter)
    parser.add_argument("--threads", type=int)
    parser.add_argument("--tasks", type=int, default=3)
    parser.add_argument("--wrong", action="store_true")
    words = parser.parse_args()
    if words.wrong:
        return 0 if show_wrong() else 1
    teams = TEAMS if words.threads is None else [(words.threads, words.tasks, False)]
    return 0 if all([show(*team) for team in teams]) else 1


if __name__ == "__main__":
    sys.exit(main())
