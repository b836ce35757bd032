"""Lines of sessions: how many a second of each kind, the memory of calls, what keeping a session costs, and whether a
reply is ever contradicted where calls of the system fail."""

import argparse
import json
import os
import random
import statistics
import subprocess
import sys
import tempfile
import time
from collections import Counter
from collections.abc import Callable, Sequence
from concurrent.futures import ThreadPoolExecutor
from pathlib import Path

import shared
from disks import Fault, Noting
from repository.pages import add_put, keep_result
from shared import ring_of
from test_kept import random_lines
from trials import ERRORS, RECORD, Contradicted, LinkedTrial, Session, Trial, record_of

MOST_NODES = 4_096  # nodes, and links
TURNS_OF_A_LINK = 8
ALL_CALLS = ["--calls", "1000000"]  # by default fewer are served
FIRST_LINK = 100_000_000
LINKS_OF_A_PLAN = 20
SHARE_OF_A_KIND = 5  # so many fewer lines of a kind than short lines

NOTHING = b'{"cmd":"advance","steps":0}\n'
NOT_LOADED = b'{"error":1,"name":"NotLoaded"}\n'
AT_ZERO = b'{"clock":0}\n'
TOO_LONG = b'{"error":22,"name":"LineTooLong"}\n'


def line(command):
    return shared.text_of(command).encode() + b"\n"


SMALL = line(shared.load([[1, 1, 2], [2, 1, 2]], [[10, 1, 2, 1, 10, 5]], []))
SMALL_LOADED = line({"links": 1, "nodes": 2, "turns": 0})


def great():
    """A load with as many nodes, links and turns as there may be, and its reply.
    All links run from the first node to itself."""
    nodes = [[number, 1, 2] for number in range(1, MOST_NODES + 1)]
    links = [[FIRST_LINK + at, 1, 1, 1, 10, 5] for at in range(MOST_NODES)]
    pairs = ((at, (at + further) % MOST_NODES) for at in range(MOST_NODES) for further in range(TURNS_OF_A_LINK))
    turns = [[FIRST_LINK + at, 0, FIRST_LINK + onward, 0] for at, onward in pairs]
    reply = line({"links": len(links), "nodes": len(nodes), "turns": len(turns)})
    return line(shared.load(nodes, links, turns)), reply


def ring():
    """A ring of links that a plan does not go round, and its reply."""
    count = 2 * LINKS_OF_A_PLAN
    return line(ring_of(count, cells=10, first=FIRST_LINK)), line({"links": count, "nodes": count, "turns": count})


def kinds(number):
    """So many lines of each kind, as commands, and their replies."""
    plan = [FIRST_LINK + at for at in range(LINKS_OF_A_PLAN)]
    nobody = {"admitted": 0, "arrived": 0, "buffers": 0, "cells": 0, "clock": 0, "taken": 0, "waiting": 0}
    enter = {"cmd": "enter", "plan": plan, "lane": 0, "depart": 1_000}
    yield "a `count` line", [{"cmd": "count"}] * number, [nobody] * number
    yield f"an `enter` of {LINKS_OF_A_PLAN} links", [enter] * number, [{"car": car} for car in range(number)]


def equal(said, wanted):
    if said != wanted:
        raise SystemExit(f"wanted {wanted!r:.120}, but the program gave {said!r:.120}")


def session(command, text):
    """A run from a file to a file: seconds on the wall, processor seconds, which other programs disturb less, and its
    replies."""
    with tempfile.TemporaryFile() as source, tempfile.TemporaryFile() as target:
        source.write(text)
        source.seek(0)
        begun, before = time.perf_counter(), shared.children_seconds()
        subprocess.run(command, stdin=source, stdout=target, check=True)
        wall, spent = time.perf_counter() - begun, shared.children_seconds() - before
        target.seek(0)
        return wall, spent, target.read()


def spent_by(program, text, wanted):
    """The time on the wall of a run, and its processor seconds; the replies must be those."""
    *spent, said = session([program, *ALL_CALLS], text)
    equal(said, wanted)
    return spent


def peak(process):
    """The most memory that a running program has had in use, in bytes.
    What is told of an ended one counts this script's too."""
    with open(f"/proc/{process.pid}/status") as status:
        return next(int(row.split()[1]) * 1_024 for row in status if row.startswith("VmHWM:"))


def ask(process, text, expected):
    """The time on the wall from the first byte of a line to its reply, in seconds."""
    begun = time.perf_counter()
    process.stdin.write(text)
    process.stdin.flush()
    said = process.stdout.readline()
    spent = time.perf_counter() - begun
    equal(said, expected)
    return spent


def one_line(program, text, wanted, wanted_next):
    """The time of a line, which stands between two that advance by 0 steps so that the program has
    begun, and the memory."""
    with subprocess.Popen([program], stdin=subprocess.PIPE, stdout=subprocess.PIPE) as process:
        ask(process, NOTHING, NOT_LOADED)
        spent = ask(process, text, wanted)
        ask(process, NOTHING, wanted_next)
        memory = peak(process)
        process.stdin.close()
        equal(process.stdout.read(), b"")
        equal(process.wait(), 0)
    return spent, memory


def print_figure(name, value):
    print(f"  {name:<24}{value}")


def time_short_lines(args):
    lines = NOTHING * args.lines
    base = min(spent_by(args.program, SMALL, SMALL_LOADED)[0] for _ in range(args.times))
    replies = SMALL_LOADED + AT_ZERO * args.lines
    runs = [spent_by(args.program, SMALL + lines, replies)[0] - base for _ in range(args.times)]
    print(f"{args.lines} lines that advance by 0 steps")
    print_figure("lines a second", f"{args.lines / min(runs):.0f} (median {args.lines / statistics.median(runs):.0f})")


def microseconds(program, start, texts, number):
    """The processor time of a line of each text, in µs. That of the session without these lines is taken off."""
    base = spent_by(program, *start)[1]
    return [(spent_by(program, text, said)[1] - base) / number * 1e6 for text, said in texts]


def time_kind(args, start, name, commands, replies):
    said = start[1] + b"".join(map(line, replies))
    with_null = [{**command, "x": None} for command in commands]
    texts = [(start[0] + b"".join(map(line, sent)), said) for sent in (commands, with_null)]
    plain, null = zip(*(microseconds(args.program, start, texts, len(commands)) for _ in range(args.times)))
    print(f"{len(commands)} lines: {name}")
    for told, what, spent in (
        ("processor time a line", name, plain), ('with "x":null', f"{name} by way of a JSON value", null)
    ):
        print_figure(told, f"{min(spent):.2f} µs (median {statistics.median(spent):.2f} µs)")
        keep_result(args, "program", what, {"Measured": f"{min(spent):.2f} µs"})


def time_line(args, name, text, wanted, wanted_next):
    runs = [one_line(args.program, text, wanted, wanted_next) for _ in range(args.times)]
    spent = [run[0] * 1_000 for run in runs]
    print(f"{name}, {len(text) - 1} bytes")
    print_figure("time", f"{min(spent):.1f} ms (median {statistics.median(spent):.1f} ms)")
    print_figure("most memory", f"{max(run[1] for run in runs) / 1e6:.1f} MB")


def main_lines(argv: list[str]) -> int | None:
    """Lines a second: short, long, too long, by way of a JSON value; memory of a great load.

    Takes minutes.

    It stops where a reply is not the one that the rules give. Times are those of the clock on the wall, but for lines
    of a kind: theirs is the processor's, each kind in turn with the same lines and a member `"x":null` more, which are
    read by way of a JSON value. Memory, told of the two long lines, is the most that the program has had in use once
    the line is answered; Linux tells it while the program runs.
    """
    parser = shared.parser_of(main_lines)
    parser.add_argument("--lines", type=int, default=500_000)
    parser.add_argument("--times", type=int, default=5)
    add_put(parser)
    args = parser.parse_args(argv)

    time_short_lines(args)
    for kind in kinds(max(1, args.lines // SHARE_OF_A_KIND)):
        time_kind(args, ring(), *kind)
    time_line(args, "one load of 4,096 nodes, 4,096 links and 32,768 turns", *great(), AT_ZERO)
    time_line(args, "one line that is too long", b"x" * ((10 << 20)) + b"\n", TOO_LONG, NOT_LOADED)


LINKS, CELLS, STEPS = 1_000, 2_000, 400  # in which all enter, and few go round


def rings_of(links):
    here = range(links)
    nodes, rings = [[at, 1, 4] for at in here], [[at, at, at, 1, CELLS, 5] for at in here]
    return line(shared.load(nodes, rings, [[at, 0, at, 0] for at in here], dawdle=200, seed=1))


def enter_on(link, depart, laps=1):
    return line({"cmd": "enter", "plan": [link] * laps, "lane": 0, "depart": depart})


def driving(vehicles):
    """Vehicles on all links, after as many steps as they need to enter."""
    entered = b"".join(enter_on(at % LINKS, 0, laps=3) for at in range(vehicles))
    return rings_of(LINKS) + entered + line({"cmd": "advance", "steps": STEPS})


def sessions(vehicles, lines, waiting):
    """For each session its name, the lines that it stands on, the lines that are timed,
    and what each reply to these has."""
    draws = random.Random(1)
    base, cars = driving(vehicles), [draws.randrange(vehicles) for _ in range(lines)]
    questions = b"".join(line({"cmd": "vehicle", "car": car}) for car in cars)
    beside = f"lines a second beside {vehicles:,} vehicles"
    yield f"`vehicle` {beside}", base, questions, [{"car": car} for car in cars]
    counts = line({"cmd": "count"}) * lines
    yield f"`count` {beside}", base, counts, [{"admitted": vehicles, "arrived": 0, "waiting": 0}] * lines
    entered = b"".join(enter_on(0, draws.randrange(1_000_000)) for _ in range(waiting))
    name = f"`enter` lines a second, {waiting:,} on one lane, random departs"
    yield name, rings_of(1), entered, [{"car": car} for car in range(waiting)]
    cars = [draws.randrange(waiting) for _ in range(lines // 100)]  # fewer, since who waits is sought
    questions, told = b"".join(line({"cmd": "vehicle", "car": car}) for car in cars), {"state": "waiting"}
    yield "`vehicle` lines a second of these", rings_of(1) + entered, questions, [{"car": car, **told} for car in cars]


def check(replies, expected):
    for reply, fields in zip(replies.splitlines()[-len(expected) :], expected, strict=True):
        said = json.loads(reply)
        if any(said.get(key) != value for key, value in fields.items()):
            raise SystemExit(f"wanted {fields}, but the program gave {reply[:120]!r}")


def main_vehicles(argv: list[str]) -> int | None:
    """`vehicle`, `count` and `enter` lines a second beside many vehicles.

    Takes minutes.

    The vehicles drive on 1,000 one-lane links of 2,000 cells, each from a node to itself.
    """
    parser = shared.parser_of(main_vehicles)
    parser.add_argument("--vehicles", type=int, default=100_000)
    parser.add_argument("--lines", type=int, default=300_000)
    parser.add_argument("--waiting", type=int, default=20_000)
    parser.add_argument("--times", type=int, default=5)
    add_put(parser)
    args = parser.parse_args(argv)

    shared.print_heads("What | Measured")
    for name, base, timed, expected in sessions(args.vehicles, args.lines, args.waiting):
        below, with_lines, words = [], [], [args.program, *ALL_CALLS]
        for _ in range(args.times):
            below.append(session(words, base)[1])
            _, spent, replies = session(words, base + timed)
            with_lines.append(spent)
            check(replies, expected)
        rate = len(expected) / (min(with_lines) - min(below))
        print_and_keep(args, name, f"{rate:,.0f}")


def print_and_keep(args: argparse.Namespace, what: str, cell: str) -> None:
    """A row of what was measured, which is kept with --put."""
    print(f"| {what} | {cell} |", flush=True)
    keep_result(args, "program", what, {"Measured": cell})


ROW = 7  # links of the ring


def enter(links: int, depart: int = 0, first: int = 0) -> dict:
    """A vehicle on so many links of the ring."""
    return {"cmd": "enter", "plan": [(first + at) % ROW for at in range(links)], "lane": 0, "depart": depart}


def run(program: str, commands: Sequence[dict], prefix: Sequence[dict]) -> tuple[float, int, str]:
    """Processor seconds, the most resident set in bytes, and the last reply."""
    text = "".join(shared.text_of(one) + "\n" for one in [*prefix, *commands])
    watched = [sys.executable, "-c", WATCH, program]
    done = subprocess.run(watched, input=text, capture_output=True, text=True, check=True)
    seconds, memory = json.loads(done.stderr.splitlines()[-1])
    return seconds, memory, done.stdout.splitlines()[-1]


# The program alone is this process's child, so its figures are not those of another run.
WATCH = """
import json, resource, subprocess, sys
subprocess.run([sys.argv[1], "--calls", "1000000"], check=True)
used = resource.getrusage(resource.RUSAGE_CHILDREN)
print(json.dumps([used.ru_utime + used.ru_stime, used.ru_maxrss * 1024]), file=sys.stderr)
"""


def memory(program: str, command: dict, count: int, refused: bool, prefix: Sequence[dict] = ()) -> str:
    """Bytes that one call takes."""
    first, last = (run(program, [command] * times, prefix or [ring_of(ROW)]) for times in (count, 4 * count))
    if ("error" in json.loads(last[2])) != refused:
        raise SystemExit(f"{shared.text_of(command)[:80]}: {last[2][:200]}")
    taken = (last[1] - first[1]) / (3 * count)
    return f"{taken / 1e6:.2f} MB" if taken > 1e6 else f"{taken:,.0f} bytes"


def seconds(program: str, commands: Sequence[dict], prefix: Sequence[dict]) -> float:
    """Processor seconds of some lines behind others."""
    runs = [[run(program, some, prefix) for _ in range(3)] for some in (commands, [{"cmd": "count"}])]
    if "error" in json.loads(runs[0][0][2]):
        raise SystemExit(f"{shared.text_of(commands[-1])[:80]}: {runs[0][0][2][:200]}")
    whole, base = (min(one[0] for one in some) for some in runs)
    return max(0.0, whole - base)


def signal() -> dict:
    greens = [[at, 0, at + 1] for at in range(3)]
    return {"cmd": "signal", "node": 99, "offset": 0, "phases": [[10, greens]] * 16}


def great_load() -> dict:
    nodes = [[at, 1, 2] for at in range(4_000)]
    return shared.load(nodes, [[at, at, at, 1, 10, 5] for at in range(4_000)], [[0, 0, 0, 0]] * 50_000)


def closing(step: int) -> list[dict]:
    cells = range(0, 64_000 * step, step)
    return [{"cmd": "close", "link": 0, "lane": 0, "first": at, "last": at} for at in cells]


def closes(program: str, step: int, last: int) -> str:
    """Microseconds of each of the last closings of 64,000."""
    prefix, all_ = [ring_of(ROW, cells=200_000)], closing(step)
    return f"{seconds(program, all_[-last:], [*prefix, *all_[:-last]]) / last * 1e6:.1f} µs each"


def departs(program: str, order: Callable[[int], float]) -> str:
    commands = [enter(1, 1_000 + at) for at in sorted(range(100_000), key=order)]
    return f"{seconds(program, commands, [ring_of(ROW)]):.2f} s"


def waiting(program: str, car: int) -> str:
    prefix = [ring_of(ROW), *[enter(1, 1_000_000)] * 400_000]
    return f"{seconds(program, [{'cmd': 'vehicle', 'car': car}] * 300_000, prefix) / 300_000 * 1e6:.1f} µs"


def empty_steps(program: str) -> str:
    """Microseconds of a step of 7,936 lanes with nobody on them."""
    links = [[at, at % 1_000, (at + 1) % 1_000, 2, 100, 5] for at in range(3_968)]
    made = shared.load([[at, 1, 2] for at in range(1_000)], links, [])
    steps = [{"cmd": "advance", "steps": 10_000}]
    return f"{seconds(program, steps, [made]) / 10_000 * 1e6:.0f} µs"


ROWS: tuple[tuple[str, Callable[[str], str]], ...] = (
    ("memory of a `count`", lambda it: memory(it, {"cmd": "count"}, 50_000, False)),
    ("of an `enter` of 100 links, refused", lambda it: memory(it, {**enter(100), "lane": 9}, 20_000, True)),
    ("of an `enter` of 100 links, admitted", lambda it: memory(it, enter(100), 20_000, False)),
    ("of an `enter` of one link, admitted", lambda it: memory(it, enter(1), 20_000, False)),
    ("of a refused `signal` of 16 phases of 3 greens", lambda it: memory(it, signal(), 5_000, True)),
    ("of a refused `load` of 4,000 nodes, 4,000 links, 50,000 turns", lambda it: memory(it, great_load(), 4, True)),
    ("`close` of single cells, every other one, the last 8,000 of 64,000", lambda it: closes(it, 2, 8_000)),
    ("`close` of 64,000 cells side by side", lambda it: closes(it, 1, 64_000)),
    ("100,000 `enter` on one lane, departs rising", lambda it: departs(it, lambda at: at)),
    ("100,000 `enter` on one lane, departs falling", lambda it: departs(it, lambda at: -at)),
    ("100,000 `enter` on one lane, departs random", lambda it: departs(it, lambda at: random.Random(at).random())),
    ("`vehicle` of the first of 400,000 who wait", lambda it: waiting(it, 0)),
    ("`vehicle` of the last of 400,000 who wait", lambda it: waiting(it, 399_999)),
    ("a step of 7,936 lanes with nobody on them", empty_steps),
)


def main_calls(argv: list[str]) -> int | None:
    """Memory of a call, and the time of calls at their worst.

    Takes minutes.

    Memory is the most resident set of a run of n and of 4 n equal lines, the difference by 3 n. Times are processor
    times, the best of three runs, with the time of the same session without the lines that are measured taken off.
    Refusals are looked at, so that a line that is meant to be refused is.
    """
    parser = shared.parser_of(main_calls)
    parser.add_argument("--only", default="", help="rows whose name has this word")
    add_put(parser)
    args = parser.parse_args(argv)
    shared.print_heads("What | Measured")
    for name, measure in ROWS:
        if args.only in name:
            print_and_keep(args, name, measure(args.program))


STREET = ring_of(2, cells=10)
WAYS = (("--calls", "1000000"), ("--endless",), ("--keep", "FILE", "--unsynced"), ("--keep", "FILE"))


def seconds_by_way(args: argparse.Namespace, folder: Path) -> dict[tuple[str, ...], list[float]]:
    """How long each run takes by each of WAYS, in turn; all must have the same replies."""
    kept, pair = folder / "day.jsonl", line({**enter(1), "plan": [0, 1]}) + line({"cmd": "advance", "steps": 1})
    given, seconds_taken, first = line(STREET) + pair * (args.lines // 2), {way: [] for way in WAYS}, b""
    for way in WAYS * args.times:
        kept.unlink(missing_ok=True)
        wall, _, replies = session([args.program, *(str(kept) if word == "FILE" else word for word in way)], given)
        seconds_taken[way].append(wall)
        if replies != (first := first or replies):
            sys.exit(f"{way}: other replies")
    return seconds_taken


def most_memory(program: str, calls: int, folder: Path) -> int:
    """The most memory, in KiB, of a run of so many calls without an end of calls."""
    reader, writer = os.pipe()
    child = subprocess.Popen([program, "--endless"], stdin=reader, stdout=subprocess.DEVNULL, cwd=folder)
    os.close(reader)
    with open(writer, "wb") as lines:
        part = line({"cmd": "count"}) * 1000
        for _ in range(calls // 1000):
            lines.write(part)
    _, status, usage = os.wait4(child.pid, 0)
    child.returncode = os.waitstatus_to_exitcode(status)
    if child.returncode:
        sys.exit(f"the program ended with status {child.returncode}")
    return usage.ru_maxrss


def main_kept(argv: list[str]) -> int | None:
    """Lines a second of a kept session, and of one without an end of calls; memory of calls.

    Takes minutes.

    The same lines, `enter` and steps in turn, go from a file to a file with each of these words in turn, as often as
    --times says; what is told is the median, and its ratio to the first words of the same round. FOLDER is where the
    kept file lies: its disk is what is measured.
    """
    parser = shared.parser_of(main_kept)
    parser.add_argument("--lines", type=int, default=100_000)
    parser.add_argument("--times", type=int, default=5)
    parser.add_argument("--calls", type=int, default=5_000_000)
    parser.add_argument("--folder", type=Path)
    add_put(parser)
    args = parser.parse_args(argv)
    with tempfile.TemporaryDirectory(dir=args.folder) as folder:
        taken = seconds_by_way(args, Path(folder))
        shared.print_heads("What | Measured")
        for way, times in taken.items():
            ratio = statistics.median(one / base for one, base in zip(times, taken[WAYS[0]], strict=True))
            lines = args.lines / statistics.median(times)
            told = f"{lines:,.0f}" if way == WAYS[0] else f"{lines:,.0f}; {ratio:.2f} times as long"
            print_and_keep(args, f"lines a second with `{' '.join(way)}`", told)
        for calls in (50_000, args.calls):
            memory = most_memory(args.program, calls, Path(folder))
            print_and_keep(args, f"memory of `--endless` after {calls:,} calls", f"{memory:,} KiB")


MOST_LINES, AT_ONCE = 900, 300  # of a session; of a run
MOST_RUNS = 24  # of a trial
TORN = (b"", b'{"cmd":"torn', b"\0" * 100, b"\0" * 100 + b"\n")


def more_words(draw: random.Random) -> list[str]:
    """The words of a program beside those of its file."""
    more = ([], ["--unsynced"]), ([], ["--record", RECORD]), ([], ["--endless"])
    words = ["--workers", draw.choice(("1", "4"))]
    return words + [word for pair in more for word in draw.choice(pair)]


def trial_of(draw: random.Random, seed: int, noting: Noting, folder: Path) -> Trial:
    """A trial in a new folder. seed: of its lines."""
    folder.mkdir()
    words, lines = more_words(draw), random_lines(seed, draw.randrange(100, MOST_LINES))
    session = Session(lines, record_of(lines, folder) if "--record" in words else b"")
    begin = session.begin(draw.randrange(40), draw.choice(TORN))
    kind = draw.choice((Trial, Trial, LinkedTrial))
    return kind(session, noting, words, folder / "kept", draw.choice((None, begin)))


def run_on(trial: Trial, draw: random.Random, greatest_call: int) -> tuple[int, list[str]]:
    """A run of which one of so many calls fails, or four from it on, and what then ends: how many calls it made, and
    which of them failed."""
    # Where the file keeps its place, a sync that failed and could not be withdrawn is not covered.
    many = 1 if isinstance(trial, LinkedTrial) else draw.choice((1, 1, 4))
    # The later of two draws, since most calls are made before the first line is read.
    fault = Fault(max(draw.randint(1, greatest_call), draw.randint(1, greatest_call)), draw.choice(ERRORS), many)
    calls = trial.go_on(fault, trial.next() + draw.randint(1, AT_ONCE))
    made = [call.name for call in calls if call.name != "close"]
    if draw.random() < 0.5:
        trial.put(trial.drawn(draw))
    return len(made), made[fault.number - 1 :][: fault.many]


def tried(seed: int, noting: Noting, folder: Path) -> Counter[str]:
    """The trial of a seed: how many runs it had, and which calls failed in them; what contradicted a reply is told."""
    draw, most = random.Random(seed), 30
    trial = trial_of(draw, seed, noting, folder)
    counts: Counter[str] = Counter()
    try:
        while counts["runs"] < MOST_RUNS and trial.next() < len(trial.session.lines):
            most, failed = run_on(trial, draw, most)
            counts.update(["runs", *(["failing"] if failed else []), *(f"call {name}" for name in failed)])
        trial.go_on()
        trial.check_crashes()
    except Contradicted as fault:
        print(f"seed {seed}, {' '.join(trial.words)}: {fault}"[:1000])
        counts["contradicted"] += 1
    counts["lines"] += trial.answered
    return counts


def failed_in(found: Counter[str]) -> dict[str, int]:
    """How many of which calls failed."""
    return {name.removeprefix("call "): found[name] for name in sorted(found) if name.startswith("call ")}


def main_failing_calls(argv: list[str]) -> int | None:
    """Whether a reply of a kept session is contradicted where calls of the system fail.

    Takes minutes; needs clang, or the kit's.

    Each trial has a session of random commands, with one or four workers, and with or without --unsynced, --record and
    --endless; it begins in an empty folder, or behind a file that a crash has torn. Run after run goes on with it, and
    in each of them one call, drawn, or four from it on, fails (EIO, ENOSPC, EINTR) or moves half its bytes. Behind a
    run the program has ended, or the machine too: then the file has what a disk would have that forgets what was not
    synced, or a first part of that and NULs, and what a failed sync had; by the names as they were last, or when their
    folder was last synced. At each reply this file has to have what was answered, and nothing that was not sent; each
    reply and the record have to be those of a run that nothing ends. A seed draws all of it. The program is that of
    STREETSIM_PROGRAM.
    """
    parser = shared.parser_of(main_failing_calls, program=False)
    parser.add_argument("--runs", type=int, default=2_000, help="of which a call fails, at least")
    parser.add_argument("--seed", type=int, default=1, help="of the first session")
    parser.add_argument("--jobs", type=int, default=len(os.sched_getaffinity(0)))
    add_put(parser)
    args = parser.parse_args(argv)
    counts, seed = Counter[str](), args.seed
    with tempfile.TemporaryDirectory() as made, ThreadPoolExecutor(args.jobs) as pool:
        noting = Noting(Path(made))
        while counts["failing"] < args.runs:
            seeds = range(seed, seed := seed + args.jobs)
            counts += sum(pool.map(lambda one: tried(one, noting, Path(made) / str(one)), seeds), Counter[str]())
    failed = failed_in(counts)
    print(f"{counts['runs']:,} runs of {seed - args.seed:,} sessions, {counts['lines']:,} lines answered")
    print(f"in {counts['failing']:,} of them calls failed:")
    print(f"{sum(failed.values()):,} calls: {', '.join(f'{name} {count:,}' for name, count in failed.items())}")
    print(f"{counts['contradicted']:,} sessions in which a reply was contradicted")
    if counts["contradicted"]:
        return 1
    told = f"no reply of {counts['lines']:,} contradicted, in {counts['runs']:,} runs of {seed - args.seed:,} sessions"
    told += f"; in {counts['failing']:,} of these runs calls failed, {sum(failed.values()):,} in all"
    what = "kept sessions of which calls of the system fail or come short"
    keep_result(args, "program", what, {"Measured": told})
    return 0
