"""Whole runs as prepared bytes: what the program is sent, and what is read from its replies.

A session holds all of a run but its seed and its signals, so that runs of many plans cost little besides the program's
own time. The functions here read no file but the program's, so they run on any machine that has it.
"""
from __future__ import annotations

import hashlib
import json
import re
import subprocess
import tempfile
from bisect import bisect_left
from collections.abc import Collection, Iterable, Sequence
from dataclasses import dataclass
from itertools import pairwise
from operator import itemgetter

from streetsim.base.client import words_of
from streetsim.base.files import Fault
from streetsim.base.program import program_digest
from streetsim.control.actuated_lights import NONE_DRIVEN, ActuatedLights
from streetsim.control.bus_planned import NONE, Planned
from streetsim.model.mapping import Map
from streetsim.model.runs import Line, Run

OFTEN = 10  # seconds between counts
MINUTE = 60  # seconds between looks at who waits to enter
COUNT = b'{"cmd":"count"}\n'
ARRIVED = re.compile(rb'"arrived":(\d+)')
WAITING = re.compile(rb'"waiting":(\d+)')
REFUSED = re.compile(rb'.*(?:"error":|"starved"|"short":).*')


@dataclass(frozen=True, slots=True)
class PreparedRun:
    """A run but for its seed and the signals that are given with each run, as bytes. Only run_giving_way follows its
    giving: the functions here make the run without rounds, and end it at its last clock."""

    program: str
    digest: str | None  # SHA-256 of the program's file
    program_args: tuple[str, ...]  # by which the program takes any number of calls
    opening: bytes  # the load, up to its seed
    first_lines: bytes  # what goes before the enters, but the signals
    enters: bytes
    departs: tuple[int, ...]  # of the vehicles that depart before the end
    clocks: tuple[int, ...]  # at which vehicles are counted: the start and the end, and between
    counting: bytes  # the steps, with counts
    minutes: tuple[int, ...]  # at which it is looked who waits to enter: the start and the end, and between
    asking: bytes  # the steps, with counts at these, and then a question for each of these vehicles
    giving: Giving | None = None  # what rounds need by which vehicles give way without a light


@dataclass(frozen=True, slots=True)
class Outcome:
    """What a run gave, asked for each vehicle; one that has not arrived counts until the end."""

    digest: str  # SHA-256 of all replies
    arrived: int
    seconds: int  # of all vehicles, from the wished departure to the arrival
    end: int  # the last clock
    waiting: int  # vehicles that waited to enter, at the worst of the looks
    waiting_at: int  # its clock
    end_reason: str = ""  # why a run without a last second ended
    junctions: int = 0  # without a light, at which vehicles give way
    lines: int = 0  # signals by which they do
    all_arrived_at: int | None = None  # the clock at which all had arrived; None where some have not
    at_works: tuple[str, ...] = ()  # what speaks against the run, by what was seen before its works
    works_passed: int = 0  # vehicles that came past the begin of works
    works_queue: tuple[float, int] = 0.0, 0  # metres of the longest queue before works, and its clock
    works_quarter: tuple[float, int] = 0.0, 0  # of the quarter of an hour with the greatest mean delay that, its begin


def session_of(program: str, run: Run, until: int, without: Collection[int] = frozenset(), **load: int) -> PreparedRun:
    """The session of a run up to a clock (until), but for the signals that it has before its first step at the nodes in
    without; timed lines and departures at that clock or later are left out. load: fields of the load with other values.
    Runs the program once, as words_of does."""
    command = {**run.load.command, **load}
    command.pop("seed", None)
    first_lines = [
        line for line in run.first if not (line.command["cmd"] == "signal" and line.command["node"] in without)
    ]
    enters = [line for line in run.enters if line.command["depart"] < until]
    timed = [(clock, line) for clock, line in run.timed if clock < until]
    clocks, minutes = (tuple(sorted({*range(run.start(), until, every), until})) for every in (OFTEN, MINUTE))
    vehicle_questions = b"".join(b'{"cmd":"vehicle","car":%d}\n' % car for car in range(len(enters)))
    return PreparedRun(
        program=program,
        digest=program_digest(program),
        program_args=tuple(words_of(program)[1:]),
        opening=json.dumps(command, separators=(",", ":")).encode()[:-1] + b',"seed":',
        first_lines=bytes_of(first_lines),
        enters=bytes_of(enters),
        departs=tuple(line.command["depart"] for line in enters),
        clocks=clocks,
        counting=advance_lines(clocks, timed, COUNT),
        minutes=minutes,
        asking=advance_lines(minutes, timed, COUNT) + vehicle_questions,
    )


def bytes_of(lines: Iterable[Line]) -> bytes:
    """Lines of a run as bytes, each with its LF."""
    return "".join(line.text + "\n" for line in lines).encode()


def advance_lines(clocks: Sequence[int], timed: Sequence[tuple[int, Line]], count_line: bytes) -> bytes:
    """The advance lines from clock to clock with the timed lines between, as bytes; count_line: what follows at each of
    the clocks but the first; timed: of before the last of them, those of before the first go at it."""
    counts_at, clocks = set(clocks), sorted({*clocks, *(clock for clock, _ in timed if clocks[0] < clock < clocks[-1])})
    sent = {clock: b"" for clock in clocks}
    for clock, line in timed:
        sent[max(clock, clocks[0])] += line.text.encode() + b"\n"
    parts = (
        sent[begin] + b'{"cmd":"advance","steps":%d}\n' % (end - begin) + (count_line if end in counts_at else b"")
        for begin, end in pairwise(clocks)
    )
    return b"".join(parts)


def replies(session: PreparedRun, signals: bytes, seed: int, tail: bytes) -> bytes:
    """All replies of the program to a whole run, as bytes. signals: lines; tail: what follows the vehicles. Fault where
    a line is refused, the program fails, or it is another one than the session's."""
    if program_digest(session.program) != session.digest:
        raise Fault(f"{session.program}: another program than the one that the runs were prepared for, or none")
    with tempfile.TemporaryFile() as stdin, tempfile.TemporaryFile() as stdout:
        stdin.writelines((session.opening, b"%d}\n" % seed, session.first_lines, signals, session.enters, tail))
        stdin.seek(0)
        command = [session.program, *session.program_args]
        process = subprocess.run(command, stdin=stdin, stdout=stdout, stderr=subprocess.PIPE, check=False)
        stdout.seek(0)
        text = stdout.read()
    if process.returncode:
        why = process.stderr.decode(errors="replace").strip()
        raise Fault(f"the program ended with status {process.returncode}: {why or 'nothing on standard error'}")
    if refusal := any(mark in text for mark in (b'"error":', b'"starved"', b'"short":')) and REFUSED.search(text):
        number = text.count(b"\n", 0, refusal.start()) + 1
        raise Fault(f"the program refused call {number:,} of a run: {refusal[0].decode(errors='replace')[:100]}")
    return text


def vehicle_seconds(session: PreparedRun, signals: bytes, seed: int) -> float:
    """The seconds from wished departure to arrival, or to the end, of all vehicles of a run with a seed and signals
    (lines in bytes), by counts each OFTEN seconds, arrivals spread evenly between. Fault as of replies."""
    text = replies(session, signals, seed, session.counting)
    arrived = [0, *map(int, ARRIVED.findall(text))]
    if len(arrived) != len(session.clocks):
        raise Fault(f"{len(arrived) - 1:,} counts were answered, and {len(session.clocks) - 1:,} were asked for")
    start, count = session.clocks[0], len(session.departs)
    area = sum(
        (later - clock) * (count - (before + after) / 2)
        for (clock, later), (before, after) in zip(pairwise(session.clocks), pairwise(arrived), strict=True)
    )
    return area + 0.5 * arrived[-1] + count * start - sum(session.departs)


def outcome(session: PreparedRun, signals: bytes, seed: int) -> Outcome:
    """What a run with a seed and signals (lines in bytes) gave, by asking for each vehicle; Fault as of replies."""
    text = replies(session, signals, seed, session.asking)
    count, until = len(session.departs), session.clocks[-1]
    vehicles = [json.loads(line) for line in text.splitlines()[-count:]] if count else []
    ends = [vehicle["step"] + 1 if vehicle["state"] == "arrived" else None for vehicle in vehicles]
    seconds = sum((until if end is None else end) - depart for end, depart in zip(ends, session.departs, strict=True))
    arrived, digest = sum(end is not None for end in ends), hashlib.sha256(text).hexdigest()
    waiting = most_waiting(session, map(int, WAITING.findall(text)))
    return Outcome(digest, arrived, seconds, until, *waiting, all_arrived_at=when_all_arrived(ends, session.clocks[0]))


def when_all_arrived(ends: Sequence[int | None], start: int) -> int | None:
    """The clock at which the last vehicle arrived; ends: of each its arrival, None: it has not arrived. None where one
    has not; start where there is nobody."""
    arrivals = [end for end in ends if end is not None]
    return max(arrivals, default=start) if len(arrivals) == len(ends) else None


def most_waiting(session: PreparedRun, counts: Iterable[int]) -> tuple[int, int]:
    """(how many vehicles waited to enter at the worst minute, its clock). counts: by minute all who are admitted and
    not on the road, from which those of later departure are taken off."""
    departs, clocks = sorted(session.departs), session.minutes[1:]
    later = (len(departs) - bisect_left(departs, clock) for clock in clocks)
    waiting = [count - due_later for count, due_later in zip(counts, later, strict=True)]
    return max(zip(waiting, clocks, strict=True), key=itemgetter(0), default=(0, session.clocks[0]))


@dataclass(frozen=True, slots=True)
class Giving:
    """What the rounds of a session need, but for signals and seed."""

    run: Run
    mapping: Map
    until: int
    without: frozenset  # nodes whose signals are others
    rounds: int
    open_end: bool = False  # `until` is a first guess, and a run goes on until all have arrived or nobody moves
    merging: bool = True  # by turns before works
    lights: ActuatedLights = NONE_DRIVEN  # that detectors drive
    buses: Planned = NONE  # stops that are made
