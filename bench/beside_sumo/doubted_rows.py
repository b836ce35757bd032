"""Rows of the junction tables beside SUMO: whether those that are far from SUMO's are doubted, and those that are near
are not; on lone lights and on streets with works, as a seed draws them."""

import argparse
import json
import re
import shutil
import xml.etree.ElementTree as ElementTree
from collections import Counter, defaultdict
from collections.abc import Iterator, Sequence
from dataclasses import dataclass
from pathlib import Path
from random import Random
from statistics import fmean

import shared
from beside_sumo import lit, rows
from beside_sumo.lit import layout_of, lone_losses, lost_between, variant_of, whole_jams, write_queues
from beside_sumo.rows import Way
from networks.unseen import MadeNetwork, make, read_net, ways_of
from planners.works import EDGE_METRES, EDGE_VEHICLES, Case, Stretch, edges_for, in_sumo, mean_trip, run_here
from shared import run
from streetsim.model.service import percentile
from streetsim.model.tables import JUNCTIONS, MOVEMENTS, read_table

FIRST, LAST = 1350, 2700  # seconds between which movements are compared; the demand begins at 0 and ends at LAST
SECONDS = range(FIRST, LAST)
LEVELS = 0.45, 1.0  # of the busiest lane
HOURLY = 20.0  # vehicles of a movement that is compared
# Share of SUMO's, and seconds or metres, beyond both of which one is far.
FAR_DELAY, FAR_QUEUE = (0.25, 10.0), (0.40, 30.0)
WORKS_LEVEL, WORKS_METRES, WORKS_EVERY = 0.8, 100, 4  # a street's level, of works, and how many networks have them
MEASURES = "delay", "queue"  # of Measured, that are compared
WORKS_DOUBTED = "works on"  # in what a last line says against itself


@dataclass(frozen=True)
class Measured:
    """A movement in a run."""

    vehicles: int
    delay: float  # seconds
    queue: float  # metres, of 95 % of the cycles
    ratio: float = 0.0  # v/c here
    doubt: str = ""


@dataclass(frozen=True)
class Compared:
    """A movement, or what works add, in the mean of both sides' runs."""

    network: str
    name: str
    theirs: tuple[float, float]  # delay and queue
    ours: tuple[float, float]
    doubt: str
    ratio: float = 0.0  # v/c here

    @property
    def is_far(self) -> bool:
        """Whether its delay or its queue is far from SUMO's."""
        pairs = zip(self.theirs, self.ours, (FAR_DELAY, FAR_QUEUE), strict=True)
        return any(abs(b - a) > max(share * a, least) for a, b, (share, least) in pairs)


# ---- movements at a lone light


def movements_in_sumo(network: MadeNetwork, seed: int, seconds: range = SECONDS) -> dict[Way, Measured]:
    """A run of SUMO, kept by its seed; seconds: in which vehicles leave that count."""
    seed_file = network.folder / f"movements-of-seconds-{seed}.json"
    if not seed_file.exists():
        queues = write_queues(network, layout_of(network.net), seed, period=1)
        trips, ways, statistics = rows.files_of_sumo(network, seed, [queues])
        found = measured_in_sumo(network, ways, network.folder / f"jams-{seed}.xml", seconds)
        seed_file.write_text(json.dumps([[*way, *values] for way, values in found.items()]), encoding="utf-8")
        for path in (trips, ways, statistics, queues, network.folder / f"jams-{seed}.xml"):
            path.unlink()
    lines = json.loads(seed_file.read_text(encoding="utf-8"))
    return {(edge, target): Measured(*values) for edge, target, *values in lines}


def measured_in_sumo(network: MadeNetwork, ways: Path, jams: Path, seconds: range) -> dict[Way, tuple]:
    """(vehicles, seconds lost, metres of the queue on the worst of its lanes) of each movement. jams: of each second,
    since lanes behind each other are not full at the same time."""
    layout, lanes = layout_of(network.net), defaultdict(set)
    for one in ElementTree.parse(network.net).getroot().iter("connection"):
        lanes[one.get("from"), one.get("to")].add(int(one.get("fromLane")))
    by_lane = defaultdict(list)
    for one in ElementTree.parse(jams).getroot():
        if int(float(one.get("begin"))) in seconds:
            by_lane[one.get("id")].append(float(one.get("maxJamLengthInMeters")))
    movements = {}
    for (edge, target), values in lost_between(ways, layout, seconds).items():
        paths = [layout.lanes[edge][lane] for lane in sorted(lanes[edge, target])] if edge in layout.lit else []
        by_path = [longest_of_cycles(whole_jams(path, by_lane, layout), seconds, layout.lit[edge]) for path in paths]
        queues = [percentile(queues, 0.95) for queues in by_path]
        movements[edge, target] = len(values), fmean(values), max(queues, default=0.0)
    return movements


def longest_of_cycles(metres: Sequence[float], seconds: range, cycle: int) -> list[float]:
    """The longest queue in each cycle, of those of each second."""
    longest = dict[int, float]()
    for second, queue in zip(seconds, metres, strict=True):
        longest[second // cycle] = max(queue, longest.get(second // cycle, 0.0))
    return list(longest.values())


def movements_here(network: MadeNetwork, seeds: Sequence[int], args: argparse.Namespace) -> list[dict[Way, Measured]]:
    """Our runs, by the rows of their tables."""
    files = [network.net, *network.additional, "--routes", *network.routes, *network.words]
    words = ["--until", LAST, "--junctions", LAST - FIRST, "--every", 0, "--seeds", f"{seeds[0]}-{seeds[-1]}"]
    rows.run_files(network.folder, files, [*words, "--departures", "listed", "--jobs", 1], args.program, args.tools)
    found = [movements_of(network.folder / f"out/seed-{seed}") for seed in seeds]
    shutil.rmtree(network.folder / "out")
    return found


def movements_of(folder: Path) -> dict[Way, Measured]:
    """The movements of a run from FIRST on."""
    found = {}
    for row in read_table(str(folder / "movements.csv"), MOVEMENTS):
        if int(row["begin"]) == FIRST:
            values = int(row["vehicles"]), float(row["control_delay_s"]), float(row["queue_95_m"] or 0)
            found[row["approach"], row["to"]] = Measured(*values, float(row["v_c"]), row["doubt"])
    return found


def compared_movements(network: MadeNetwork, args: argparse.Namespace) -> Iterator[Compared]:
    """The movements of a network that are compared, in the mean of the runs."""
    theirs = [movements_in_sumo(network, seed) for seed in args.runs]
    ours, alone = movements_here(network, args.runs, args), lone_losses(network)
    least = HOURLY * (LAST - FIRST) / 3600
    for way in sorted(set.intersection(*(set(side) for side in [*theirs, *ours]))):
        sides = [[side[way] for side in those] for those in (theirs, ours)]
        if fmean(movement.vehicles for movement in sides[0]) < least:
            continue
        delays, queues = [[fmean(getattr(movement, name) for movement in side) for side in sides] for name in MEASURES]
        doubts = [movement.doubt for movement in sides[1] if movement.doubt]
        doubt = doubts[0] if 2 * len(doubts) >= len(args.runs) else ""
        theirs_here = (max(0.0, delays[0] - alone[way]), queues[0]), (delays[1], queues[1])
        yield Compared(network.name, " to ".join(way), *theirs_here, doubt, fmean(row.ratio for row in sides[1]))


# ---- works on a street at its peak


def drawn_works(network: MadeNetwork, draws: Random) -> Stretch | None:
    """Works on the edge with room for them that most vehicles pass; none where no edge has."""
    net, through = read_net(network.net), Counter(edge for way in ways_of(network.routes[0]) for edge in way)
    sizes = ((least, few) for few in EDGE_VEHICLES for least in EDGE_METRES)
    if not (able := next(filter(None, (edges_for(net, through, *size) for size in sizes)), [])):
        return None
    edge = max(able, key=lambda one: (through[one.getID()], one.getID()))
    begin = draws.randrange(40, int(edge.getLength()) - WORKS_METRES - 20)
    return Stretch(edge.getID(), draws.randrange(edge.getLaneNumber()), begin, begin + WORKS_METRES, FIRST // 2, LAST)


def case_of(network: MadeNetwork) -> Case:
    """The case of a network with works."""
    return Case(network.folder, network.net, tuple(network.routes), tuple(network.additional), LAST + FIRST)


def compared_works(network: MadeNetwork, draws: Random, args: argparse.Namespace) -> Iterator[Compared]:
    """What works add to the trips of those who pass their edge; nothing where no edge has room for them."""
    if not (works := drawn_works(network, draws)):
        return
    case = case_of(network)
    passing = {car for car, way in ways_by_car(network.routes[0]) if works.edge in way}
    joint, added, doubt = f"{works.edge}_{works.lane}", [], ""
    for side in (in_sumo, lambda *asked: run_here(*asked, args.program, joint, args.tools)):
        with_works, without = (
            [side(case, closed, seed, label) for seed in args.runs]
            for closed, label in ((works, "works"), (None, "none"))
        )
        means = (
            fmean(mean_trip(seen, works.first, LAST, case.until, passing) for seen in some)
            for some in (with_works, without)
        )
        first, second = means
        added.append((first - second, 0.0))
        doubt = next((seen.doubt for seen in with_works if WORKS_DOUBTED in seen.doubt), "")
    yield Compared(network.name, f"works on {works.closing()}", added[0], added[1], doubt)


def ways_by_car(routes: Path) -> Iterator[tuple[str, list[str]]]:
    """(vehicle, edges of its way) of each vehicle."""
    for one in ElementTree.parse(routes).iter("vehicle"):
        yield one.get("id"), one.find("route").get("edges").split()


# ---- the measurement


def all_compared(args: argparse.Namespace, folder: Path) -> Iterator[Compared]:
    """What is compared on each network of the seed, which is told when it is done."""
    draws = Random(f"doubted rows {args.seed}")
    drawn = [(draws.randrange(1000, 100_000), round(draws.uniform(*LEVELS), 2)) for _ in range(args.networks)]
    for at, (seed, level) in enumerate(drawn):
        works = at % WORKS_EVERY == WORKS_EVERY - 1
        if at + 1 in args.part:
            kind, share = ("street", WORKS_LEVEL) if works else ("lone-light", level)
            network = make(kind, seed, folder, share, seconds=LAST)
            own = Random(f"works {seed}")
            found = list(compared_works(network, own, args) if works else compared_movements(network, args))
            yield from found
            print(f"{network.name}-{share}: {tally_told(found)}", flush=True)
            for one in found if args.all else ():
                print(f"    {row_told(one)}", flush=True)


def row_told(one: Compared) -> str:
    """A row in words: seconds and metres in SUMO and here, v/c here."""
    sides = ", ".join(f"{a:.0f} / {b:.0f} {unit}" for a, b, unit in zip(one.theirs, one.ours, ("s", "m"), strict=True))
    marks = f"{', far' if one.is_far else ''}{f'; doubted: {one.doubt}' if one.doubt else ''}"
    return f"{one.name}: {sides}, v/c {one.ratio:.2f}{marks}"


def tally_told(found: Sequence[Compared]) -> str:
    """How many are far and near, and how many of these are doubted."""
    count = Counter((one.is_far, bool(one.doubt)) for one in found)
    far, near = (count[is_far, True] + count[is_far, False] for is_far in (True, False))
    return f"{far} far, of these undoubted {count[True, False]}; {near} near, of these doubted {count[False, True]}"


def main_doubted_rows(argv: list[str]) -> int | None:
    """Whether rows that are far from SUMO's are doubted, and those that are near are not.

    Takes a minute a network; needs sumo, sumo-tools.

    Lone lights with pockets at 0.45 to 1.0 of the capacity, and each fourth network a street with works of half an hour
    on its busiest edge. Rows are movements of 20 vehicles an hour and more, from 1,350 to 2,700 s. One is far where its
    delay is more than 25 % and 10 s off SUMO's, or its 95 % queue more than 40 % and 30 m; and works, where what they
    add to trips is. What SUMO wrote is kept in the folder of --work.
    """
    parser = rows.parser_of(main_doubted_rows, "1-2")
    parser.add_argument("--networks", default=30, type=int, help="how many")
    parser.add_argument("--part", default="1-30", type=shared.numbers, help="which of them")
    parser.add_argument("--all", action="store_true", help="also each row")
    args = parser.parse_args(argv)
    print(f"all: {tally_told(list(all_compared(args, shared.work_of(args))))}")


# ---- what a page of two plans says first

VERDICT = re.compile('<p class="verdict">(Better|Worse|Undecided|Not)')
NO_PAGE = "no junction, no page"  # of a street
OF_WORKS = {"Not": "Worse"}  # from when to when a lane may not be closed


def first_word(variants: Sequence[tuple[MadeNetwork, list[str]]], until: int, args: argparse.Namespace) -> str:
    """What the page of a plan in the place of another says first: Better, Worse or Undecided. variants: of both the
    network and further words of its runs."""
    folders = []
    for number, (network, more) in enumerate(variants):
        files = [network.net, *network.additional, "--routes", *network.routes]
        run([args.tools / "streetsim-import", *files, "-o", "run.jsonl", "--map", "run.map.json"], network.folder)
        words = ["run.jsonl", "--map", "run.map.json", "--until", until, "--junctions", 900, "--every", 0, *more]
        words += ["--seeds", f"{args.runs[0]}-{args.runs[-1]}", "--departures", "listed", "--jobs", 1, "--force"]
        words += ["--program", args.program, "--out", f"variant-{number}"]
        run([args.tools / "streetsim-run", *words], network.folder)
        folders.append(network.folder / f"variant-{number}")
    if not read_table(f"{folders[0]}/seed-{args.runs[0]}/junctions.csv", JUNCTIONS):
        return NO_PAGE
    run([args.tools / "streetsim-report", *folders, "--short", "-o", "page.html"], folders[0].parent)
    found = VERDICT.search((folders[0].parent / "page.html").read_text(encoding="utf-8"))
    return OF_WORKS.get(found[1], found[1]) if found else "nothing"


def plans_said(base: MadeNetwork, case: str, args: argparse.Namespace) -> tuple[float, str]:
    """(seconds by which the mean trip changes in SUMO with another plan, what the page says first)."""
    variant = variant_of(base, case)
    sides = [[fmean(b - a for a, b in lit.in_sumo(one, run_seed).trips.values()) for run_seed in args.runs]
             for one in (base, variant)]  # fmt: skip
    said = first_word([(base, []), (variant, [])], base.seconds, args)
    return fmean(sides[1]) - fmean(sides[0]), said


def works_said(network: MadeNetwork, draws: Random, args: argparse.Namespace) -> tuple[float, str] | None:
    """The same of works at a street's peak; none where no edge has room for them."""
    if not (works := drawn_works(network, draws)):
        return None
    case = case_of(network)
    means = [
        fmean(mean_trip(in_sumo(case, closed, seed, label), 0, LAST, case.until) for seed in args.runs)
        for closed, label in ((None, "none"), (works, "works"))
    ]
    joint = network, ["--joint", f"{works.edge}_{works.lane}"]
    return means[1] - means[0], first_word([joint, (network, ["--close", works.closing()])], case.until, args)


def main_first_sentences(argv: list[str]) -> int | None:
    """Whether what a page of two plans says first is what SUMO says.

    Takes minutes a pair; needs sumo, sumo-tools.

    Lone lights, with another cycle or other greens, and each fourth pair a street without and with works of half an
    hour. A first word is right where the mean trip changes that way in SUMO, in the mean of the seeds, or where it is
    undecided. What SUMO wrote is kept in the folder of --work.
    """
    parser = rows.parser_of(main_first_sentences, "1-5")
    parser.add_argument("--networks", default=20, type=int, help="how many")
    parser.add_argument("--part", default="1-20", type=shared.numbers, help="which of them")
    args, right = parser.parse_args(argv), Counter[bool]()
    draws, folder = Random(f"first sentences {args.seed}"), shared.work_of(args)
    drawn = [(draws.randrange(1000, 100_000), round(draws.uniform(*LEVELS), 2), draws.choice(("cycle", "split")))
             for _ in range(args.networks)]  # fmt: skip
    for at in args.part:
        seed, level, case = drawn[at - 1]
        if at % WORKS_EVERY == 0:
            network, case = make("street", seed, folder, WORKS_LEVEL, seconds=LAST), "works"
            answer = works_said(network, Random(f"works {seed}"), args)
        else:
            network = make("lone-light", seed, folder, level, seconds=LAST)
            answer = plans_said(network, case, args)
        if answer is None or answer[1] == NO_PAGE:
            continue
        change, said = answer
        is_right = said == "Undecided" or said == ("Better" if change < 0 else "Worse")
        right[is_right] += 1
        print(f"{network.name}, {case}: SUMO {change:+.1f} s, {said}{'' if is_right else ': wrong'}", flush=True)
    print(f"right: {right[True]} of {right.total()}")
