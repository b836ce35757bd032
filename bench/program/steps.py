"""Sessions of many vehicles: how fast steps are, in which instructions, whether threads change a reply, and what the
record of a run costs."""

import json
import os
import random
import re
import statistics
import subprocess
import sys
import tempfile
import time
from collections.abc import Iterator, Sequence
from concurrent.futures import ThreadPoolExecutor
from dataclasses import dataclass
from pathlib import Path

import shared
from repository.pages import add_put, keep_result
from shared import ring_of
from streetsim.base.program import find_program
from streetsim.model.record import ARRIVED, RecordReader, open_record

DIRECTIONS = [(0, 1), (1, 0), (0, -1), (-1, 0)]
BATCH = 50  # lines that are sent before their replies are read, so that no pipe fills
CALLS = ["--calls", "1000000"]  # more than a program serves by itself


def line(**fields):
    return shared.text_of(fields)


def load(nodes, links, turns, **values):
    return shared.text_of(shared.load(nodes, links, turns, dawdle=200, seed=1, **values))


def ring(density):
    """The lines that a session begins with, and the steps of each timed advance."""
    links = 100
    here = range(links)
    lines = [shared.text_of(ring_of(links, cells=1_000, dawdle=200, seed=1))]
    red = [line(cmd="signal", node=at, offset=0, phases=[[600, []]]) for at in here]
    green = [line(cmd="signal", node=at, offset=0, phases=[[600, [[(at - 1) % links, 0, at]]]]) for at in here]
    plans = [[(at + lap) % links for lap in range(links)] for at in here]
    entered = [line(cmd="enter", plan=plan, lane=0, depart=0) for _ in range(round(density * 1_000)) for plan in plans]
    filled = line(cmd="advance", steps=3_000)
    return lines + red + entered + [filled] + green + [line(cmd="advance", steps=500)], [100] * 10


def grid(vehicles, advances=20):
    side, draws = 32, random.Random(1)
    nodes = [(x, y) for x in range(side) for y in range(side)]
    number = {node: index for index, node in enumerate(nodes)}
    links = [
        (index, node, (node[0] + dx, node[1] + dy))
        for node in nodes
        for index, (dx, dy) in enumerate(DIRECTIONS)
        if (node[0] + dx, node[1] + dy) in number
    ]
    place = {(direction, begin): index for index, (direction, begin, _) in enumerate(links)}
    onward = [
        [place[to, end] for to in ((way + 1) % 4, way, (way + 3) % 4) if (to, end) in place] for way, _, end in links
    ]
    pairs = [(index, onward_link) for index, after in enumerate(onward) for onward_link in after]
    turns = [[index, lane, onward_link, lane] for index, onward_link in pairs for lane in (0, 1)]
    lines = [
        load(
            [[index, 1, 4] for index in range(len(nodes))],
            [[index, number[begin], number[end], 2, 100, 5] for index, (_, begin, end) in enumerate(links)],
            turns,
            zone=20,
            change=800,
        )
    ]
    for node in nodes:
        into = [index for index, (_, _, end) in enumerate(links) if end == node]
        phases = [
            [
                30,
                [
                    [index, lane, onward_link]
                    for index in into if links[index][0] % 2 == axis
                    for onward_link in onward[index] for lane in (0, 1)
                ],
            ]
            for axis in (0, 1)
        ]
        lines.append(line(cmd="signal", node=number[node], offset=draws.randrange(60), phases=phases))
    for _ in range(vehicles):
        plan = [draws.randrange(len(links))]
        while len(plan) < 20:
            plan.append(draws.choice(onward[plan[-1]]))
        lines.append(line(cmd="enter", plan=plan, lane=draws.randrange(2), depart=draws.randrange(500)))
    return lines, [50] * advances


def sparse(vehicles):
    draws, links = random.Random(1), 4_096
    lines = [load([[1, 1, 2], [2, 1, 2]], [[at, 1, 2, 2, 1_000_000, 5] for at in range(links)], [], zone=0, change=800)]
    for _ in range(vehicles):
        lines.append(
            line(cmd="enter", plan=[draws.randrange(links)], lane=draws.randrange(2), depart=draws.randrange(150))
        )
    return lines + [line(cmd="advance", steps=200)], [200] * 10


def star(vehicles, arms=200):
    """Links from as many nodes as arms to one node, and back to each: vehicles drive in and out."""
    draws, inward = random.Random(1), range(arms)
    ends = [[at, 1 + at, 0] for at in inward] + [[arms + at, 0, 1 + at] for at in inward]
    onward = {at: [arms + (at + ahead) % arms for ahead in (1, 7, 50)] for at in inward}
    onward |= {arms + at: [at] for at in inward}
    turns = [[at, lane, then, lane] for at, after in onward.items() for then in after for lane in (0, 1)]
    nodes = [[at, 1, 4] for at in range(arms + 1)]
    lines = [load(nodes, [[*link, 2, 100, 5] for link in ends], turns, zone=20, change=800)]
    for _ in range(vehicles):
        plan = [draws.randrange(arms)]
        while len(plan) < 40:
            plan.append(draws.choice(onward[plan[-1]]))
        lines.append(line(cmd="enter", plan=plan, lane=draws.randrange(2), depart=draws.randrange(200)))
    return lines + [line(cmd="advance", steps=200)], [50] * 10


SESSIONS = {
    "ring 0.1": lambda: ring(0.1),
    "ring 0.3": lambda: ring(0.3),
    "grid 5000": lambda: grid(5_000),
    "grid 20000": lambda: grid(20_000),
    "grid 100000": lambda: grid(100_000),
    "grid 400000": lambda: grid(400_000, advances=8),
    "sparse 10000": lambda: sparse(10_000),
    "star 10000": lambda: star(10_000),
}
PAGE_NAMES = {  # in the words of RESULTS.md
    **{f"ring 0.{tenth}": f"ring of 100 links, {tenth}0 % full" for tenth in (1, 3)},
    **{f"grid {count}": f"grid of two-lane links, {count:,} vehicles" for count in (5_000, 20_000, 100_000, 400_000)},
    "sparse 10000": "4,096 links of 7,500 km, 10,000 vehicles",
    "star 10000": "200 links into one node, and 200 out of it",
}
RUNS = {1: " (one run)", 5: ""}  # of which medians are kept, and how that is told there


class Program:
    """A program that answers lines on its standard input."""

    def __init__(self, name, words):
        self.name = name
        self.process = subprocess.Popen(words, stdin=subprocess.PIPE, stdout=subprocess.PIPE)

    def ask(self, lines):
        replies = []
        for at in range(0, len(lines), BATCH):
            part = lines[at : at + BATCH]
            self.write(part)
            replies += [self.process.stdout.readline() for _ in part]
        return replies

    def write(self, lines):
        self.process.stdin.write("".join(text + "\n" for text in lines).encode())
        self.process.stdin.flush()

    def end(self):
        self.process.stdin.close()
        self.process.wait()


def run(words_of, lines, chunks):
    """Updates of each advance, and for each program the seconds of each."""
    programs = [Program(name, words) for name, words in words_of.items()]
    first = [program.ask(lines) for program in programs]
    updates, spent = [], {program.name: [] for program in programs}
    for steps in chunks:
        own_replies = []
        for program in programs:
            before = program.ask([line(cmd="count")])
            start = time.perf_counter()
            moved = program.ask([line(cmd="advance", steps=steps)])
            spent[program.name].append(time.perf_counter() - start)
            own_replies.append(before + moved + program.ask([line(cmd="count")]))
        first = [replies + more for replies, more in zip(first, own_replies, strict=True)]
        cells = [json.loads(own_replies[0][at])["cells"] for at in (0, 2)]
        updates.append(sum(cells) / 2 * steps)
    for program in programs:
        program.end()
    if any(replies != first[0] for replies in first):
        raise SystemExit("the replies are not the same")
    return updates, spent


def main_steps(argv: list[str]) -> int | None:
    """How many vehicles move in a second, with some numbers of workers, and beside another program.

    Takes minutes.

    Sessions: a ring of 100 one-lane links of 1,000 cells, filled to a density; a grid of 32 by 32 nodes with signals
    and two-lane links of 100 cells, on which vehicles drive through 20 links; 4,096 two-lane links of 1,000,000 cells
    with 10,000 vehicles; a star of 200 two-lane links of 100 cells into one node and 200 out of it, with 10,000
    vehicles. OTHER is another program for the same lines and the option --calls. All take turns, advance by advance,
    and their replies must be the same, byte for byte. Times are those of the clock on the wall, so that workers on
    threads count; of each advance the best of so many times is taken. Of several runs the medians are told, of rates
    and of their ratios to the first of the same run.
    """
    parser = shared.parser_of(main_steps)
    parser.add_argument("--workers", default="1")
    parser.add_argument("--beside")
    parser.add_argument("--only", default="")
    parser.add_argument("--times", type=int, default=3)
    parser.add_argument("--runs", type=int, default=1)
    add_put(parser)
    args = parser.parse_args(argv)

    counts = args.workers.split(",")
    command_lines = {of_workers(count): [args.program, "--workers", count, *CALLS] for count in counts}
    if args.beside:
        command_lines = {"beside": [args.beside, *CALLS], **command_lines}
    print(f"million vehicle updates a second (best of {args.times}; medians of {args.runs} runs)")
    for name, make in SESSIONS.items():
        if args.only in name:
            runs = [rates_of(command_lines, *make(), args.times) for _ in range(args.runs)]
            found = cells_of(runs)
            print(f"  {name:<14}" + ", ".join(f"{it} {cell}" for it, cell in found.items()), flush=True)
            keep_rates(args, PAGE_NAMES[name] + RUNS.get(args.runs, f" ({args.runs} runs)"), found, runs)


def of_workers(count):
    return "1 worker" if count == "1" else f"{count} workers"


def rates_of(words, lines, chunks, times):
    """Million updates a second of each program, of each advance the best of so many times."""
    best = {}
    for _ in range(times):
        updates, spent = run(words, lines, chunks)
        best = {it: [min(pair) for pair in zip(spent[it], best.get(it, spent[it]), strict=True)] for it in spent}
    return {it: sum(updates) / sum(best[it]) / 1e6 for it in best}


def ratio_of(runs, one, other):
    """The median ratio of two programs' rates."""
    return f"{statistics.median(rates[one] / rates[other] for rates in runs):.2f}"


def cells_of(runs):
    """The median rate of each program, and in brackets its ratio to the first."""
    first, *others = runs[0]
    rates = {one: f"{statistics.median(rates[one] for rates in runs):.1f}" for one in runs[0]}
    return {first: rates[first], **{one: f"{rates[one]} ({ratio_of(runs, one, first)})" for one in others}}


def keep_rates(args, session, found, runs):
    """Keeps the rates beside another program, and the ratios to one worker."""
    first, *others = found
    if first == "beside":
        keep_result(args, "steps", session, {"C++": found[first], **{one: found[one] for one in others}})
    if "1 worker" in found:
        more = {one: ratio_of(runs, one, "1 worker") for one in others if one != "1 worker"}
        keep_result(args, "workers", session, more)


WARM = 32  # steps with caches before those that are counted
CACHES = ["--cache-sim=yes", "--D1=32768,8,64", "--LL=1048576,16,64"]
# What is shown of each function: instructions, reads that miss the near cache, reads that miss the far one.
EVENTS = ("Ir", "D1mr", "DLmr")
ALL = "PROGRAM TOTALS"  # as callgrind_annotate calls them
COLUMNS = {"ring 0.3": "Ring, 30 % full", "grid 20000": "Grid, 20,000 vehicles"}  # of RESULTS.md
# The parts of a step, by what the names of their functions have; the first that fits.
PARTS = {
    "rand_chacha|::dice::": "draws, made once in 32 steps",
    "street_rule::motion": "motion: the walk over a lane's vehicles",
    "drive_cells": "motion: what begins and ends the walk of each lane",
    "street_rule::": "lane changes: who wishes, and may",
    "::sort::|::packing::": "vehicles put in the order of the road",
    "street_yard::": "who leaves a list and comes to one, or has another place in memory",
    "run_phase|next_to_depart|::dues::": "the loops of all phases: next lanes, mouths, releases, entries",
}
NUMBER = re.compile(r"([\d,]+|\.)(?: \( ?[\d.]+%\))?(?=\s)")


def control(program, *words):
    """Tells callgrind what to do."""
    told = subprocess.run(
        ["callgrind_control", *words, str(program.process.pid)], capture_output=True, text=True, check=False
    )
    if told.returncode:
        raise SystemExit(told.stdout + told.stderr)


def cells(program):
    return json.loads(program.ask([line(cmd="count")])[0])["cells"]


def profiled(path, lines, warm_up_steps, steps, folder):
    """Runs a session up to the steps that are counted, and these;
    gives callgrind's file and how many updates they are."""
    profile = Path(folder) / "callgrind.out"
    words = [
        "valgrind", "--tool=callgrind", "--instr-atstart=no", *CACHES, f"--callgrind-out-file={profile}",
        f"--log-file={folder}/log",
    ]
    program = Program("counted", [*words, path, "--workers", "1", *CALLS])
    program.ask(lines)
    if warm_up_steps > WARM:
        program.ask([line(cmd="advance", steps=warm_up_steps - WARM)])
    control(program, "-i", "on")
    program.ask([line(cmd="advance", steps=min(warm_up_steps, WARM))])
    first = cells(program)
    control(program, "-z")
    program.ask([line(cmd="advance", steps=steps)])
    control(program, "-d")
    updates = steps * (first + cells(program)) / 2
    program.end()
    return profile.with_name("callgrind.out.1"), updates


def by_function(path):
    """The events of all, and of each function: [(name, [number of each event])], the most instructions first."""
    words = ["callgrind_annotate", "--threshold=100", f"--show={','.join(EVENTS)}", path]
    told = subprocess.run(words, capture_output=True, text=True, check=True).stdout
    rows = []
    for text in told.splitlines():
        numbers = NUMBER.findall(text)
        name = re.sub(r"^(\?\?\?|\S*\.[cS]):", "", text.rsplit("  ", 1)[-1].partition(" [")[0])
        if len(numbers) >= len(EVENTS) and re.match(r"\s*[\d,]+ \(", text):
            rows.append((name, [0 if one == "." else int(one.replace(",", "")) for one in numbers[: len(EVENTS)]]))
    return rows


def told_of(numbers):
    """Instructions and misses, as the page has them."""
    instructions, near, far = numbers
    if instructions < 1:
        return "less than 1"
    return f"{instructions:.0f}" + (f" ({near:.1f}, {far:.1f})" if near >= 0.05 or far >= 0.05 else "")


def by_part(rows, updates):
    """The events of all for an update, and of each part: {part: numbers}."""
    parts = {}
    for function, numbers in rows:
        part = "all" if function == ALL else next((PARTS[it] for it in PARTS if re.search(it, function)), "the rest")
        parts[part] = [a + b / updates for a, b in zip(parts.get(part, [0, 0, 0]), numbers, strict=True)]
    return parts


def tell_instructions(args, name, lines):
    """Prints the instructions of a session for a vehicle and step, by function and part, and keeps those of parts."""
    with tempfile.TemporaryDirectory() as folder:
        found, updates = profiled(args.program, lines, args.before, args.steps, folder)
        rows = by_function(found)
    for function, numbers in rows:
        instructions, near, far = (number / updates for number in numbers)
        if instructions >= args.least:
            print(f"  {name:<12} {instructions:7.1f} ({near:.2f}, {far:.2f})  {function}", flush=True)
    for part, numbers in by_part(rows, updates).items():
        print(f"  {name:<12} {told_of(numbers)}: {part}", flush=True)
        keep_result(args, "instructions", part, {COLUMNS.get(name, name): told_of(numbers)})


def main_instructions(argv: list[str]) -> int | None:
    """Instructions for a vehicle and step, by part and function, and reads that miss caches.

    Takes minutes; needs valgrind.

    Valgrind's callgrind runs the program, some fifty times slower. The sessions are those of `steps`, or with --session
    the lines of a file with a load and vehicles, as streetsim-import writes it. Steps before those that are counted:
    --before (200) after what a session begins with, the last 32 of them with the caches. In 32 steps (--steps) each
    vehicle makes its draws once. Functions with fewer instructions than --least (1) are left out. What was counted is
    the same for each run, however busy the machine is.
    """
    parser = shared.parser_of(main_instructions)
    shared.add_some(parser, "--only", SESSIONS, ("ring 0.3", "grid 20000", "grid 100000"))
    parser.add_argument("--session", type=shared.whole_path, metavar="FILE", help="these lines, and no other session")
    parser.add_argument("--name", default="session", help="what --session is called, in the table with --put")
    parser.add_argument("--before", type=int, default=200)
    parser.add_argument("--steps", type=int, default=32)
    parser.add_argument("--least", type=float, default=1.0)
    add_put(parser)
    args = parser.parse_args(argv)
    print("instructions a vehicle and step (reads that miss 32 KB, and 1 MB)")
    if args.session:
        return tell_instructions(args, args.name, args.session.read_text(encoding="utf-8").splitlines())
    for name in args.only:
        tell_instructions(args, name, SESSIONS[name]()[0])
    return None


LINKS, LENGTH, VEHICLES = 70, 200, 2_400
WORKERS = (2, 3, 4, 5, 8, 16, 33, 64)
SEEDS = 8
SECONDS = 120


def commands(seed):
    """A load, vehicles that enter evenly, some advances of many steps and of one, and a count."""
    yield ring_of(LINKS, LENGTH, lanes=2, first=1_000, dawdle=200, seed=seed)
    for vehicle in range(VEHICLES):
        plan = [1_000 + (vehicle + seed + onward) % LINKS for onward in range(6)]
        yield {"cmd": "enter", "plan": plan, "lane": vehicle // LINKS % 2, "depart": 0}
    for steps in (30, *[1] * 8, 25):
        yield {"cmd": "advance", "steps": steps}
    yield {"cmd": "count"}


def replies(program, text, workers):
    words = [program, "--workers", str(workers)]
    return subprocess.run(words, input=text, capture_output=True, timeout=SECONDS, check=True).stdout


def main_short_sessions(argv: list[str]) -> int | None:
    """Whether short sessions on many threads hang, or differ from those of one worker.

    Takes minutes.

    A ring of 70 links has 2,260 vehicles in its cells, enough for steps to be shared; sessions differ by the seed, by
    where vehicles enter, and by the number of workers. A session that has not ended after two minutes hangs.
    """
    parser = shared.parser_of(main_short_sessions)
    parser.add_argument("--runs", type=int, default=10_000)
    parser.add_argument("--jobs", type=int, default=3)
    add_put(parser)
    args = parser.parse_args(argv)

    texts = ["".join(shared.text_of(command) + "\n" for command in commands(seed)).encode() for seed in range(SEEDS)]
    wanted = [replies(args.program, text, 1) for text in texts]
    print(wanted[0].decode().splitlines()[-1])

    def is_equal(number):
        at, workers = number % SEEDS, WORKERS[number // SEEDS % len(WORKERS)]
        return replies(args.program, texts[at], workers) == wanted[at]

    with ThreadPoolExecutor(args.jobs) as pool:
        equal = sum(pool.map(is_equal, range(args.runs)))
    told = f"{args.runs - equal:,} with other replies than one worker's"
    what = f"sessions with {WORKERS[0]} to {WORKERS[-1]} workers"
    print(f"{args.runs:,} {what}: {told}, none hung")
    found = f"{equal:,} of {args.runs:,} as one worker, none hung"
    keep_result(args, "program", f"{what} on threads", {"Measured": found})


RECORD_HEADS = ("Without, s", "With the record, s", "Ratio", "Aim", "MB")
ADVANCE, COUNT = '{"cmd":"advance","steps":1}', '{"cmd":"count"}'
IN_MEMORY = "/dev/shm"


@dataclass
class Recorded:
    """The lines that a session begins with, and the seconds that it goes on for. aim: of the record's cost, a ratio."""

    name: str
    begin: list[str]
    seconds: int
    aim: float

    def text(self) -> bytes:
        return "".join(f"{text}\n" for text in [*self.begin, *[ADVANCE] * self.seconds, COUNT]).encode()


def imported(name: str, net: Path, routes: Path, seconds: int, aim: float) -> Recorded:
    """A session of SUMO's files, as streetsim-import makes its run, without what is sent later."""
    with tempfile.TemporaryDirectory() as folder:
        words = ["-o", "run.jsonl", "--map", "run.map.json"]
        shared.run([shared.TOP / "tools/streetsim-import", net, "--routes", routes, *words], folder)
        lines = Path(folder, "run.jsonl").read_text().splitlines()
    return Recorded(name, [line for line in lines if '"at":' not in line], seconds, aim)


def corridor() -> Recorded:
    return imported(
        "corridor, 2,400 vehicles, 4,500 s", shared.CORRIDOR / "corridor.net.xml.gz",
        shared.CORRIDOR / "corridor.rou.xml", 4_500, 1.3,
    )


def sessions() -> Iterator[Recorded]:
    """All sessions, each made when it is its turn."""
    yield corridor()
    samples = shared.SAMPLES
    yield imported("sample grid, 5,400 s", samples / "grid.net.xml.gz", samples / "grid.rou.xml.gz", 5_400, 1.35)
    lines, chunks = grid(100_000)
    yield Recorded("grid of 100,000, 1,000 s", lines, sum(chunks), 1.7)


def run_once(words: Sequence[str | Path], given: Path, told: Path) -> float:
    """The processor seconds of a run from a file to a file."""
    begin = shared.children_seconds()
    with given.open("rb") as lines, told.open("wb") as replies:
        subprocess.run(words, stdin=lines, stdout=replies, check=True)
    return shared.children_seconds() - begin


def check_record(record: Path, replies: list[bytes], seconds: int) -> None:
    """Ends the script where a record has other blocks than a session's seconds, or others in the last than `count`."""
    count, blocks, last = json.loads(replies[-1]), 0, None
    with open_record(record) as file:
        for last in RecordReader(file, record):
            blocks += 1
    there = int((last.spot != ARRIVED).sum()) if last else 0
    found = blocks, there, last and last.arrived, last and last.taken_out
    if found != (seconds, count["cells"] + count["buffers"], count["arrived"], count["taken"]):
        sys.exit(f"{record}: {found} are not of {seconds} seconds with {count}")


def measured(program: str, session: Recorded, times: int, folder: Path) -> dict[str, str]:
    """The row of a session, by the heads of its columns."""
    names = "lines", "replies", "replies-too", "record"
    given, plain_replies, recorded_replies, record = (folder / name for name in names)
    given.write_bytes(session.text())
    without, beside = [], []
    for _ in range(times):
        without.append(run_once([program, "--endless"], given, plain_replies))
        beside.append(run_once([program, "--record", record], given, recorded_replies))
        if plain_replies.read_bytes() != recorded_replies.read_bytes():
            sys.exit(f"{session.name}: the replies are not the same")
    check_record(record, plain_replies.read_bytes().splitlines(), session.seconds)
    megabytes = record.stat().st_size / 1e6
    record.unlink()
    ratio = statistics.median(two / one for one, two in zip(without, beside, strict=True))
    one, two = statistics.median(without), statistics.median(beside)
    told_ratio = f"{ratio:.2f}, above the aim" if ratio > session.aim else f"{ratio:.2f}"
    cells = f"{one:.3f}", f"{two:.3f}", told_ratio, f"{session.aim:g}", f"{megabytes:,.0f}"
    return dict(zip(RECORD_HEADS, cells, strict=True))


class Followed(Program):
    """A program whose record comes by a FIFO."""

    def __init__(self, program: str, folder: Path) -> None:
        fifo = folder / "fifo"
        os.mkfifo(fifo)
        self.record = open_record(fifo)
        super().__init__("followed", [program, "--record", fifo])
        self.reader = RecordReader(self.record, fifo)

    def second(self) -> int:
        """Makes a second and looks at its block: how many stand still. Then its reply is read."""
        self.write([ADVANCE])
        block = self.reader.read()
        stand = int((block.speed == 0).sum())
        self.process.stdout.readline()
        return stand

    def end(self) -> None:
        super().end()
        if self.process.returncode or self.reader.read() is not None:
            sys.exit("the program failed, or wrote more than was asked for")
        self.record.close()


def lock_step(program: str, session: Recorded) -> tuple[float, float, float, int]:
    """Seconds on the wall of all seconds in lock step, processor seconds of this script, of the program with its begin,
    and how many vehicles stood still in a second, summed."""
    with tempfile.TemporaryDirectory() as folder:
        earlier_seconds = shared.children_seconds()
        followed = Followed(program, Path(folder))
        followed.ask(session.begin)
        begin, own = time.perf_counter(), time.process_time()
        stand = sum(followed.second() for _ in range(session.seconds))
        wall, own = time.perf_counter() - begin, time.process_time() - own
        followed.end()
        return wall, own, shared.children_seconds() - earlier_seconds, stand


def main_record(argv: list[str]) -> int | None:
    """What the record of a run costs, and how fast a reader follows it.

    Takes minutes; needs numpy.

    Each session is made second by second, by one `advance` a line, from a file to a file, with `--endless` and with
    `--record` in turn, N times each. Told are the processor seconds of the program, the median of the turns, and the
    median of the ratios of each turn; the replies must be the same, byte for byte, and the record must have a block for
    each second, whose vehicles are those that `count` tells at the end. Sessions: the corridor of the tools' walk, the
    sample grid, and the grid of two-lane links with 100,000 vehicles of `steps`, whose record takes a gigabyte of the
    folder.

    Last the corridor goes in lock step: the record comes by a FIFO, each block is looked at by NumPy, and then the next
    `advance` is sent. FOLDER, by default in memory, is where the records lie.
    """
    parser = shared.parser_of(main_record)
    parser.add_argument("--only", default="")
    parser.add_argument("--times", type=int, default=5)
    parser.add_argument("--folder", type=Path, default=IN_MEMORY)
    add_put(parser)
    args = parser.parse_args(argv)
    program = find_program(args.program)
    shared.print_heads(f"Session | {' | '.join(RECORD_HEADS)}")
    with tempfile.TemporaryDirectory(dir=args.folder) as folder:
        for session in sessions():
            if args.only in session.name:
                found = measured(program, session, args.times, Path(folder))
                print(f"| {session.name} | {' | '.join(found.values())} |", flush=True)
                keep_result(args, "record", session.name, found)
    if args.only in "lock step":
        runs = [lock_step(program, corridor()) for _ in range(args.times)]
        wall, own, theirs, _ = (statistics.median(column) for column in zip(*runs, strict=True))
        print(f"\nlock step, 4,500 s of the corridor, {runs[0][3]:,} looks at vehicles that stand:")
        print(f"{wall:.2f} s on the wall, {own:.2f} s of this script's processor, {theirs:.2f} s of the program's")
