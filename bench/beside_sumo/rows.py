"""A network and its demand in SUMO and here: runs with several seeds, what vehicles did in them, and the rows of this
folder that keep means of both; and networks with names: the samples, those of sumo-tools, and some of netgenerate."""

import argparse
import csv
import json
import os
import re
import shlex
import xml.etree.ElementTree as ElementTree
from collections import Counter, defaultdict
from collections.abc import Callable, Iterable, Iterator, Mapping, Sequence
from concurrent.futures import ThreadPoolExecutor
from dataclasses import asdict, dataclass, field, fields
from itertools import pairwise
from pathlib import Path
from statistics import fmean, median
from typing import ClassVar

import shared
from networks.streets import generate, random_trips, write_town
from networks.unseen import MadeNetwork
from shared import CORRIDOR, SAMPLES, SHIPPED, TOOLS, TOP, digest_of_commands, numbers
from shared import run, spread, teleports_of
from streetsim.model.folder import read_folder
from streetsim.model.tables import APPROACHES, MOVEMENTS, read_table
from streetsim.report.beside_sumo import edge_counts_of, geh, read_edgedata, read_tripinfo, trip_times_of

EXTRA_SECONDS = 1800  # seconds behind the last departure, at which both sides end
LOCKED = 0.02  # share of the vehicles that SUMO teleports, above which it is locked
Way = tuple[str, str]  # edge, next edge


@dataclass
class Side:
    """What vehicles did in a run in SUMO or here."""

    trips: dict[str, tuple[float, float]] = field(default_factory=dict)
    delays: dict[Way, tuple[float, float]] = field(default_factory=dict)  # vehicles, mean seconds
    teleports: int = 0
    doubt: str = ""
    queues: dict[str, float] = field(default_factory=dict)  # metres of the 95 % queue, by approach


def sumo_trips(trips: Path, words: Iterable[object]) -> Path:
    """The tripinfo output of a run of SUMO's, which is made where the file is not there."""
    if not trips.exists():
        run(["sumo", *words, "--no-step-log", "--no-warnings", "--tripinfo-output", "half.xml"], trips.parent)
        (trips.parent / "half.xml").replace(trips)
    return trips


def run_files(folder: Path, files: Iterable[object], words: Iterable[object], program: str, tools=TOOLS) -> str:
    """Imports files of SUMO's, with words of the import among them, and makes their run; gives what it said."""
    run([tools / "streetsim-import", *files, "-o", "run.jsonl", "--map", "run.map.json"], folder)
    usual = ["run.jsonl", "--map", "run.map.json", "--out", "out", "--program", program]
    return run([tools / "streetsim-run", *usual, *words], folder)


def trips_here(folder: Path) -> dict[str, tuple[float, float]]:
    """Departure and arrival of each vehicle of the run in a folder."""
    return trip_times_of(read_folder(str(folder / "out")))


def in_sumo(network: MadeNetwork, seed: int) -> Side:
    """Delays are seconds on an edge beyond those at its speed, movement by movement."""
    trips, ways, statistics = files_of_sumo(network, seed)
    return Side(read_tripinfo(str(trips)), delays_of(ways, speeds_of(network.net)), teleports_of(statistics))


def files_of_sumo(
    network: MadeNetwork, name: object, additional: Sequence[Path] = (), drawn: Sequence[object] = ()
) -> list[Path]:
    """SUMO's trips, ways and statistics of a run, whose name is its seed where no other words draw it."""
    outputs = [network.folder / f"sumo-{name}.{kind}.xml" for kind in ("trips", "ways", "statistics")]
    trips, ways, statistics = outputs
    end, besides = network.seconds + EXTRA_SECONDS, [*network.additional, *additional]
    words = ["-n", network.net, "-r", ",".join(map(str, network.routes)), *(drawn or ["--seed", name]), "--end", end]
    words += ["-a", ",".join(map(str, besides))] if besides else []
    words += ["--statistic-output", statistics, "--vehroute-output", ways, "--vehroute-output.exit-times"]
    sumo_trips(trips, words)
    return outputs


def in_sumo_until_locked(network: MadeNetwork, seeds: Sequence[int]) -> list[Side]:
    """SUMO's runs, in order; none behind the first that is locked."""
    found: list[Side] = []
    for seed in seeds:
        found.append(in_sumo(network, seed))
        if found[-1].teleports > LOCKED * network.vehicles:
            break
    return found


def speeds_of(net: Path) -> dict[str, float]:
    """The seconds of each edge at its speed."""
    edges = ElementTree.parse(net).getroot().iter("edge")
    lanes = ((edge.get("id"), edge.find("lane")) for edge in edges if edge.get("function") != "internal")
    return {name: float(lane.get("length")) / float(lane.get("speed")) for name, lane in lanes}


def delays_of(path: Path, free: dict[str, float]) -> dict[Way, tuple[float, float]]:
    delays = defaultdict(list)
    for vehicle in ElementTree.parse(path).getroot().iter("vehicle"):
        route = vehicle.find("route") if vehicle.find("route") is not None else vehicle.find("routeDistribution/route")
        edges, ends = route.get("edges").split(), [float(text) for text in route.get("exitTimes", "").split()]
        for at, way in enumerate(pairwise(edges)):
            if 0 < at < len(ends) and ends[at] >= 0:
                delays[way].append(ends[at] - ends[at - 1] - free[way[0]])
    return {way: (len(values), fmean(values)) for way, values in delays.items()}


def sides_here(network: MadeNetwork, seeds: Sequence[int], program: str, tools: Path) -> list[Side]:
    """Our runs, one after another from one import; what other tools found is kept apart."""
    state = digest_of_commands(("import", "run"), tools.parent)
    kept = [network.folder / f"here-{state}-{seed}.json" for seed in seeds]
    if not all(path.exists() for path in kept):
        for path, side in zip(kept, run_here(network, seeds, program, tools), strict=True):
            path.write_text(text_of(side), encoding="utf-8")
    return [side_of(path.read_text(encoding="utf-8")) for path in kept]


def run_here(network: MadeNetwork, seeds: Sequence[int], program: str, tools: Path) -> list[Side]:
    last = network.seconds + EXTRA_SECONDS
    files = [network.net, *network.additional, "--routes", *network.routes, *network.words]
    words = ["--until", last, "--junctions", last, "--seeds", f"{seeds[0]}-{seeds[-1]}", "--departures", "listed"]
    printed = run_files(network.folder, files, [*words, "--jobs", 1], program, tools)
    return [read_side(network.folder / "out" / f"seed-{seed}", printed, seed) for seed in seeds]


def read_side(folder: Path, printed: str, seed: int) -> Side:
    """A run by its folder and by what was said of it."""
    delays = {
        (row["approach"], row["to"]): (float(row["vehicles"]), float(row["control_delay_s"]))
        for row in read_table(str(folder / "movements.csv"), MOVEMENTS)
    }
    approaches = read_table(str(folder / "approaches.csv"), APPROACHES)
    queues = {row["approach"]: float(row["queue_95_m"] or 0) for row in approaches}
    return Side(trip_times_of(read_folder(str(folder))), delays, 0, doubt_of(printed, seed), queues)


def doubt_of(printed: str, seed: int) -> str:
    """What streetsim-run says of a seed's run against itself; nothing where it does not."""
    return " ".join(re.findall(rf"^seed {seed}: not to be trusted: (.*)$", printed, re.MULTILINE))


def text_of(side: Side) -> str:
    delays = [[*way, *values] for way, values in side.delays.items()]
    return json.dumps({**asdict(side), "delays": delays})


def side_of(text: str) -> Side:
    kept = json.loads(text)
    delays = {(edge, following): (count, mean) for edge, following, count, mean in kept["delays"]}
    trips = {name: tuple(times) for name, times in kept["trips"].items()}
    return Side(trips, delays, kept["teleports"], kept["doubt"], kept["queues"])


def mean_trips(theirs: Sequence[Side], ours: Sequence[Side], first: int = 0) -> tuple[float, float]:
    """SUMO's mean trip and ours, over vehicles that depart from a second on and arrived in both."""
    pairs = [(a.trips, b.trips) for a, b in zip(theirs, ours, strict=True)]
    common = [[name for name in a.keys() & b.keys() if a[name][0] >= first] for a, b in pairs]
    sumo, own = (
        fmean(fmean(pair[at][name][1] - pair[at][name][0] for name in names) for pair, names in zip(pairs, common))
        for at in (0, 1)
    )
    return sumo, own


def common_ways(sides: Sequence[Side]) -> set[Way]:
    """The movements that all runs have."""
    return set.intersection(*(set(side.delays) for side in sides))


def mean_delay(sides: Sequence[Side], ways: set[Way]) -> float:
    """The mean delay over all vehicles of some ways and runs."""
    parts = [side.delays[way] for side in sides for way in ways if way in side.delays]
    vehicles = sum(count for count, _ in parts)
    return sum(count * delay for count, delay in parts) / vehicles if vehicles else 0.0


FOLDER = TOP / "bench/beside_sumo"
NEAR = 0.05  # share of SUMO's mean trip within which ours is near it
LEAST_VEHICLES = 30  # vehicles of a movement that is compared
HALF = 1800  # seconds of a demand that is short, of which the first third is to warm up


@dataclass(frozen=True)
class Row:
    """Means of several runs of one network and demand; seconds."""

    network: str  # its kind and its seed, or its name
    level: float  # the busiest lane's share of what it can pass; 0: not known
    vehicles: int
    sumo: float  # mean trip
    jams: float  # teleports of a run of SUMO's
    here: float
    movement: str  # whose delay differs most
    lost_in_sumo: float  # on that movement, by a vehicle
    lost_here: float
    doubt: str  # of the first run's last line

    @property
    def excess(self) -> float:
        """Our mean trip over SUMO's, less 1."""
        return self.here / self.sumo - 1

    @property
    def is_locked(self) -> bool:
        return self.jams > LOCKED * self.vehicles

    @property
    def is_near(self) -> bool:
        return abs(self.excess) <= NEAR


@dataclass(frozen=True)
class Tally:
    """How many of some rows are near SUMO, and of how many the last line says that they may not be."""

    near: int
    near_doubted: int  # of the former
    off_doubted: int
    off_silent: int
    locked: int  # in SUMO, and not counted above

    HEADS: ClassVar[str] = "within 5 % | of these doubted | beyond, doubted | beyond, in silence | SUMO locks"

    def __str__(self) -> str:
        return f"{self.near} | {self.near_doubted} | {self.off_doubted} | {self.off_silent} | {self.locked}"


def tally(every: Sequence[Row]) -> Tally:
    free = [row for row in every if not row.is_locked]
    found = Counter((row.is_near, bool(row.doubt)) for row in free)
    near = found[True, True] + found[True, False]
    return Tally(near, found[True, True], found[False, True], found[False, False], len(every) - len(free))


def add_words(parser: argparse.ArgumentParser) -> None:
    """The words of all measurements that keep rows."""
    parser.add_argument("--jobs", default=1, type=int, help="networks, or runs, side by side")
    parser.add_argument("--tools", default=TOOLS, type=shared.whole_path, help="other tools than these")
    parser.add_argument("--rows", help="keep the rows in bench/beside_sumo, by this name")


def parser_of(command: Callable, runs: str, seed: Callable = int) -> argparse.ArgumentParser:
    """A parser of the words of measurements of networks of a seed. runs: the usual seeds of runs; seed: how the seed is
    read, or several seeds."""
    made = shared.parser_of(command, work=True)
    made.add_argument("seed", type=seed, help="of the networks")
    made.add_argument("--runs", default=runs, type=shared.numbers, help="seeds of the runs")
    add_words(made)
    return made


def ints(text: str) -> list[int]:
    return [int(one) for one in text.split(",")]


def floats(text: str) -> list[float]:
    return [float(one) for one in text.split(",")]


def side_by_side(jobs: int, act: Callable, some: Sequence) -> Iterator:
    """What an act gives of each of some things, in their order."""
    with ThreadPoolExecutor(jobs) as pool:
        yield from pool.map(act, some)


def both_sides(network: MadeNetwork, runs: Sequence[int], program: str, tools: Path) -> tuple[list[Side], list[Side]]:
    """SUMO's runs and ours; where SUMO is locked, those up to the first that is."""
    theirs = in_sumo_until_locked(network, runs)
    return theirs, sides_here(network, runs[: len(theirs)], program, tools)


def row_of(name: str, network: MadeNetwork, theirs: Sequence[Side], ours: Sequence[Side]) -> Row:
    counts = {way: min(side.delays[way][0] for side in theirs) for way in common_ways([*theirs, *ours])}
    compared = [way for way, count in counts.items() if count >= LEAST_VEHICLES]
    delays = {way: (mean_delay(theirs, {way}), mean_delay(ours, {way})) for way in compared}
    worst = max(delays, key=lambda way: abs(delays[way][1] - delays[way][0]), default=())
    sumo, own = (round(seconds, 1) for seconds in mean_trips(theirs, ours, warm_up(network)))
    jams = sum(side.teleports for side in theirs) / len(theirs)
    lost = [round(seconds, 1) for seconds in delays.get(worst, (0.0, 0.0))]
    jams, movement = round(jams, 1), " to ".join(worst)
    return Row(name, network.level, network.vehicles, sumo, jams, own, movement, *lost, ours[0].doubt)


def warm_up(network: MadeNetwork) -> int:
    """The second from which on trips count."""
    return network.seconds // 3 if network.seconds == HALF else 0


def reason(doubt: str) -> str:
    """The first reason of a last line against itself, without the names of places."""
    return re.split(", for |, and | at |, as |;", doubt)[0]


def keep(name: str, rows: Sequence[Row]) -> None:
    """Writes rows into the file of a measurement."""
    FOLDER.mkdir(exist_ok=True)
    with (FOLDER / f"{name}.csv").open("w", encoding="utf-8", newline="") as file:
        table = csv.DictWriter(file, [one.name for one in fields(Row)], lineterminator="\n")
        table.writeheader()
        table.writerows(asdict(row) for row in rows)


def read(name: str) -> list[Row]:
    """The rows of a measurement's file."""
    with (FOLDER / f"{name}.csv").open(encoding="utf-8", newline="") as file:
        return [row_from(cells) for cells in csv.DictReader(file)]


def row_from(cells: dict[str, str]) -> Row:
    kinds = {one.name: one.type for one in fields(Row)}
    return Row(**{name: kinds[name](text) for name, text in cells.items()})


REASONS = {  # what a last line names: as it says it
    "lanes that are nearly full by the demand": "nearly full by the demand",
    "streets that give way without a light nearly full": "without a light (is|are) nearly full",
    "queues that wait for gaps at lights": "wait for gaps at lights",
    "rescues, who waited to enter, who did not arrive": "rescues|waited to enter|had the time to arrive|is locked",
    "other": "",
}
PLACES = "; doubted most of all: "  # what a last line has behind it are no reasons
SPLIT = re.compile("; (?!(?:left|right|straight on|back|where lanes become one) from )")  # not between places
HEADS = ("The last line names", "rows", "SUMO locks", "within 5 %", "beyond", "off by: median", "most")


def reasons(doubt: str) -> set[str]:
    """What a last line names."""
    parts = SPLIT.split(doubt.partition(PLACES)[0]) if doubt else []
    return {next(name for name, text in REASONS.items() if re.search(text, part)) for part in parts}


def by_name(found: Mapping[str, Sequence[Row]]) -> Iterator[str]:
    yield f"| Rows of | rows | {Tally.HEADS} |\n|{'---|' * 7}"
    for name, own in found.items():
        yield f"| `{name}` | {len(own)} | {tally(own)} |"
    every = [row for own in found.values() for row in own]
    yield f"| all | {len(every)} | {tally(every)} |"


def by_reason(every: Sequence[Row]) -> Iterator[str]:
    yield f"| {' | '.join(HEADS)} |\n|{'---|' * len(HEADS)}"
    for name in REASONS:
        if own := [row for row in every if name in reasons(row.doubt)]:
            yield of_reason(name, own)
    yield of_reason("nothing", [row for row in every if not row.doubt])


def of_reason(name: str, own: Sequence[Row]) -> str:
    free = [row for row in own if not row.is_locked]
    off = [abs(row.excess) for row in free]
    near = sum(row.is_near for row in free)
    sizes = f"{median(off):.1%} | {max(off):.1%}" if off else " | "
    return f"| {name} | {len(own)} | {len(own) - len(free)} | {near} | {len(free) - near} | {sizes} |"


def main_doubts(argv: list[str]) -> int | None:
    """How often a run's last line is right that it is not to be trusted, by kept rows.

    Takes seconds.

    It runs nothing. The rows are those of bench/beside_sumo, which unseen, closeness, sweep and drawn-rows write with
    --rows. The first table has the rows by measurement: how many are within 5 % of SUMO's mean trip, how many beyond,
    and of how many the last line says so. The second one has them by what the last line names, and by how much those
    are off that SUMO does not lock.
    """
    shared.parser_of(main_doubts, program=False).parse_args(argv)
    found = {path.stem: read(path.stem) for path in sorted(FOLDER.glob("*.csv"))}
    print(*by_name(found), "", *by_reason([row for own in found.values() for row in own]), sep="\n")


PERIOD = 900
GENERATED = {  # by netgenerate: its words
    "spider": "--spider --spider.arm-number 7 --spider.circle-number 5 --spider.space-radius 200 -L 1 --seed 5 "
    "--default-junction-type traffic_light",
    "random": "--rand --rand.iterations 80 -L 2 --seed 17 --default-junction-type traffic_light",
    "mixed-42": "--rand --rand.iterations 150 --rand.max-distance 260 --rand.min-distance 100 --tls.guess true "
    "--tls.cycle.time 90 --seed 42",
    "priority-grid": "--grid --grid.number 6 --grid.length 180 --grid.attach-length 180 -j priority --seed 32",
    "equal-grid": "--grid --grid.number 5 --grid.length 150 --grid.attach-length 150 -j right_before_left --seed 33",
    "two-lane-grid": "--grid --grid.number 7 --grid.length 200 --grid.attach-length 200 -L 2 -j priority --seed 34",
    # Seeds drawn when the rule of giving way was settled: these two chose nothing.
    "priority-town": "--rand --rand.iterations 120 --rand.max-distance 260 --rand.min-distance 110 "
    "-j priority --seed 1728",
    "equal-town": "--rand --rand.iterations 120 --rand.max-distance 260 --rand.min-distance 110 "
    "-j right_before_left --seed 1630",
}
# By write_town: seed and radius. By the first two of these it was settled how long a roundabout's junctions take;
# the others judge, and the last two were drawn after it.
ROUNDABOUTS = {
    **{"roundabout-town": (8425, 18), "roundabout-town-7638": (7638, 26), "roundabout-town-722": (722, 18)},
    **{"roundabout-town-2975": (2975, 16), "roundabout-town-3015": (3015, 22)},
}
PERIODS = {  # seconds between vehicles
    **{"spider": 0.8, "random": 0.8, "mixed-42": 1.1, "priority-grid": 1.5, "equal-grid": 2.4},
    **{"two-lane-grid": 1.0, "priority-town": 1.8, "equal-town": 3.0, **dict.fromkeys(ROUNDABOUTS, 1.8)},
}
PAGE_NAMES = {  # in the words of the page, where a name alone says too little
    **{"grid": "grid, 36 signals, two lanes", "town": "town, 78 signals, one lane, near capacity"},
    **{"corridor": "corridor, offsets 0", "corridor wave": "corridor, green wave", "acosta": "Bologna, Acosta"},
    **{"joined": "Bologna, joined, `--classes passenger,bus`", "rilsa1": "RiLSA 1, one junction"},
    **{f"rilsa{number}": f"RiLSA {number}" for number in (2, 3, 4)},
    **{"spider": "spider, one lane", "random": "random, two lanes"},
}


@dataclass
class Case:
    name: str
    net: Path
    routes: Path
    additional: tuple = ()
    import_words: str = ""  # for the import
    period: float = 0.0  # seconds between vehicles, of a demand that is made
    count_end: int = 3600  # counts until then
    until: int = 9000


def cases():
    """All networks: those that were looked at when the import was written, and those held out."""
    for name in ("grid", "town"):
        yield Case(name, SAMPLES / f"{name}.net.xml.gz", SAMPLES / f"{name}.rou.xml.gz")
    street = CORRIDOR / "corridor.net.xml.gz", CORRIDOR / "corridor.rou.xml"
    yield Case("corridor", *street)
    yield Case("corridor wave", *street, (CORRIDOR / "wave.add.xml",))
    for name in ("acosta", "joined"):
        folder = SHIPPED / name
        types, lights = folder / f"{name}_vtypes.add.xml", folder / f"{name}_tls.add.xml"
        words = "--classes passenger,bus" if name == "joined" else ""
        network = folder / f"{name}_buslanes.net.xml"
        yield Case(name, network, folder / f"{name}.rou.xml", (types, lights), words, count_end=5400)
    for number in (1, 2, 3, 4):
        folder = SHIPPED / f"RiLSA_example{number}"
        more = folder / "vtypes.add.xml", folder / f"rilsa{number}_tls.add.xml"
        yield Case(f"rilsa{number}", folder / f"rilsa{number}.net.xml", folder / "genroutes.rou.xml", more)
    for name, period in PERIODS.items():
        yield Case(name, Path(f"{name}.net.xml"), Path(), period=period)


def prepare(case, folder):
    """The network and the demand of a case, made where they are not there yet."""
    if not case.period:
        return case.net, case.routes
    net, routes = folder / "net.net.xml", folder / "demand.rou.xml"
    if not routes.exists():
        if case.name in ROUNDABOUTS:
            words = write_town(folder, *ROUNDABOUTS[case.name])
            run([*words, "--no-turnarounds", "true", "-o", net], folder)
        else:
            generate(net, f"{GENERATED[case.name]} --no-turnarounds true")
        random_trips(net, routes, case.period, "--seed 7 --min-distance 300 --fringe-factor 2")
    return net, routes


def run_named_in_sumo(case, net, routes, folder, seed):
    """SUMO's trips, counts and teleports with a seed."""
    trips, counts, statistic = (folder / f"{name}-{seed}.xml" for name in ("trips", "counts", "statistic"))
    if not statistic.exists():
        wanted = folder / f"wanted-{seed}.add.xml"
        wanted.write_text(
            f'<additional><edgeData id="counts" freq="{PERIOD}" end="{case.count_end}" file="{counts}"/></additional>'
        )
        more = ",".join(map(str, (*case.additional, wanted)))
        words = ["sumo", "-n", net, "-r", routes, "-a", more, "--seed", seed, "--end", case.until]
        half = folder / "half.xml"
        run([*words, "--tripinfo-output", trips, "--statistic-output", half, "--no-step-log", "--no-warnings"], folder)
        os.replace(half, statistic)
    return read_tripinfo(str(trips)), read_edgedata(str(counts)), shared.teleports_of(statistic)


def run_named(case, net, routes, folder, args):
    """The folders that streetsim-run wrote, one for each seed, and what it says against the first run."""
    out_folder = folder / "here"
    words = [net, *case.additional, "--routes", routes, *shlex.split(f"{case.import_words} {args.words}")]
    run([args.tools / "streetsim-import", *words, "-o", "run.jsonl", "--map", "run.map.json"], folder)
    words = ["run.jsonl", "--map", "run.map.json", "--until", case.until, "--every", 600, "--period", PERIOD]
    words += ["--seeds", args.seeds, "--departures", "listed"]
    words += ["--jobs", args.jobs, "--out", out_folder, "--program", args.program]
    said = run([args.tools / "streetsim-run", *words], folder)
    runs = [read_folder(str(out_folder / f"seed-{seed}")) for seed in numbers(args.seeds)]
    return runs, doubt_of(said, numbers(args.seeds)[0])


def good_counts(here, there, counted):
    """The share of counts of edges and quarter hours whose GEH is below 5, and how many there are."""
    edges = {edge for *_, edge in here}
    keys = {key for key in {*here, *there} if key[2] in edges and key[1] <= counted}
    good = sum(geh(here.get(key, 0) * 3600 / PERIOD, there.get(key, 0) * 3600 / PERIOD) < 5 for key in keys)
    return good / max(1, len(keys)), len(keys)


def closeness_row(case, folder, args):
    """The cells of a case: SUMO's and our mean trips over vehicles that arrived in both,
    and how good the counts are; and its row for bench/beside_sumo."""
    net, routes = prepare(case, folder)
    sumo = [run_named_in_sumo(case, net, routes, folder, seed) for seed in numbers(args.seeds)]
    theirs, ours, shares, tallies = [], [], [], []
    runs, doubt = run_named(case, net, routes, folder, args)
    for (trips, counts, _), run_folder in zip(sumo, runs, strict=True):
        trip_times = trip_times_of(run_folder)
        both = trip_times.keys() & trips.keys()
        theirs.append(fmean(trips[name][1] - trips[name][0] for name in both))
        ours.append(fmean(trip_times[name][1] - trip_times[name][0] for name in both))
        share, number = good_counts(edge_counts_of(run_folder), counts, case.count_end)
        shares.append(share)
        rescues = sum(int(trip["rescues"]) for trip in run_folder.trips())
        tallies.append((len(trip_times), len(trips), len(run_folder.mapping.cars), rescues))
    means = round(fmean(theirs), 1), fmean(tele for *_, tele in sumo), round(fmean(ours), 1)
    row = Row(case.name, 0.0, tallies[0][2], *means, "", 0.0, 0.0, doubt)
    return [
        f"{PAGE_NAMES.get(case.name, case.name)} ({tallies[0][2]:,})",
        f"{spread(theirs)}",
        f"{row.jams:,.0f}",
        f"{spread(ours)} ({100 * row.excess:+.1f} %)",
        f"{fmean(shares) * 100:.0f} % of {number:,}",
        f"{fmean(tally_row[0] for tally_row in tallies):,.0f}, {fmean(tally_row[1] for tally_row in tallies):,.0f}",
        f"{fmean(tally_row[3] for tally_row in tallies):,.0f}",
        reason(doubt),
    ], row


def main_closeness(argv: list[str]) -> int | None:
    """Mean trips, counts and rescues beside SUMO, on networks with names.

    Takes a quarter hour; needs sumo, sumo-tools.

    What SUMO wrote is kept in the folder of --work. Networks of netgenerate and their demands come from fixed seeds;
    those of sumo-tools are read where Debian has put them.
    """
    parser = shared.parser_of(main_closeness, work=True)
    parser.add_argument("--seeds", default="1-3")
    shared.add_some(parser, "--only", (case.name for case in cases()))
    parser.add_argument("--import", dest="words", default="", help="more words for the import")
    add_words(parser)
    args, every = parser.parse_args(argv), []
    heads = "Network (vehicles) | SUMO, s | teleports | here, s | GEH below 5 | arrived here, in SUMO | rescues"
    shared.print_heads(f"{heads} | the last line")
    for case in cases():
        if case.name in args.only:
            folder = args.work / re.sub("[^a-z0-9.]+", "-", case.name)
            folder.mkdir(parents=True, exist_ok=True)
            cells, kept = closeness_row(case, folder, args)
            print(f"| {' | '.join(cells)} |", flush=True)
            every.append(kept)
    if args.rows:
        keep(args.rows, every)
