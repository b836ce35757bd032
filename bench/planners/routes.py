"""Routes that searches find, beside those of SUMO's tools."""

import csv
import gzip
import json
import os
import shlex
import shutil
import subprocess
import sys
import time
import xml.etree.ElementTree as ElementTree
from collections import Counter
from dataclasses import asdict, dataclass, replace
from itertools import pairwise
from pathlib import Path
from statistics import fmean

import shared
from networks.streets import generate, random_trips
from shared import SAMPLES, SUMO_HOME, TOP
from streetsim.base.files import elements
from streetsim.base.seeds import mean_and_half_width, seeds_of

UNTIL = 10_800
SLICE = 300
GENERATED = {  # by netgenerate: its words, and the seed of randomTrips
    "spider": (
        "--spider --spider.arm-number 9 --spider.circle-number 5 --spider.space-radius 180 -L 1 --seed 2718 "
        "-j traffic_light",
        28,
    ),
    "random": (
        "--rand --rand.iterations 160 --rand.min-distance 120 --tls.guess true -L 1 --seed 31415 -j traffic_light",
        92,
    ),
}
CASES = {"town": 3000, "spider": 4000, "random": 3600}  # networks, and their trips in an hour
WORKS_FROM, WORKS_UNTIL, WORKS_FREE = 900, 2700, 20  # seconds; metres of a closed lane that stay open at its ends
OBSTACLE = "works-"  # with which the names of vehicles begin that stand where works are in SUMO
FREE = "free flow (duarouter)"
METHODS = (FREE, "marouter SUE", "duaIterate Gawron", "streetsim-route")


@dataclass
class Case:
    """A network and trips, in a folder of their own."""

    folder: Path
    net: Path
    trips: Path


@dataclass
class Took:
    """What a method took, and where it was ended the steps that it had made by then."""

    processor: float
    clock: float
    steps: int | None = None


@dataclass
class Row:
    """What a method gave; of one that gave no routes, none. Seconds of a trip, gaps in percent."""

    case: str
    method: str
    processor: float | None = None
    sumo: float = 0.0
    teleports: float = 0.0
    lacking: int = 0
    here: float = 0.0
    rescues: float = 0.0
    gap: float = 0.0
    gap_in_sumo: float = 0.0
    steps: int | None = None  # of one that was ended

    def line(self):
        if self.processor is None:
            return f"| {self.case} | {self.method} | was ended | | | | |"
        ending = f", ended after {self.steps} steps" * (self.steps is not None)
        losses = (
            f", {self.teleports:.0f} teleports" * (self.teleports >= 1)
            + f", {self.lacking:,} not arrived" * (self.lacking > 0)
        )
        rescued = f", {self.rescues:.0f} rescues" * (self.rescues >= 1)
        return (
            f"| {self.case} | {self.method}{ending} | {self.processor:.0f} | {self.sumo:.1f}{losses} | "
            f"{self.here:.1f}{rescued} | {self.gap:.1f} | {self.gap_in_sumo:.1f} |"
        )


def run(command, folder, patience=None, statuses=(0,)):
    """Runs a command in a folder; gives what it took, and whether it came to its end in so many
    seconds of processor time."""
    seconds_before, begin = shared.children_seconds(), time.monotonic()
    command = list(map(str, command))
    home = shared.with_sumo()
    with open(folder / "log.txt", "a", encoding="utf-8") as log, subprocess.Popen(
        command, cwd=folder, env=home, stdout=log, stderr=log, start_new_session=True
    ) as process:
        while (status := process.poll()) is None:
            if patience is not None and (spent := processor_of(process.pid)) > patience:
                os.killpg(process.pid, 9)
                return Took(spent, time.monotonic() - begin), False
            time.sleep(0.2)
    if status not in statuses:
        raise SystemExit(f"{shlex.join(command)}: status {status}, see {folder / 'log.txt'}")
    return Took(shared.children_seconds() - seconds_before, time.monotonic() - begin), True


def processor_of(group):
    """Processor seconds of the processes of a group, and of those that they waited for."""
    total = 0
    for path in Path("/proc").glob("[0-9]*/stat"):
        try:
            fields = path.read_text(encoding="utf-8", errors="replace").rpartition(")")[2].split()
        except OSError:
            continue
        if int(fields[2]) == group:
            total += sum(map(int, fields[11:15]))
    return total / os.sysconf("SC_CLK_TCK")


def case_of(name, folder):
    """The files of a case, made where they are not there yet."""
    count, trips = CASES[name], folder / "demand.trips.xml"
    if name == "town":
        return Case(folder, SAMPLES / "town.net.xml.gz", trips_of(SAMPLES / "town.rou.xml.gz", trips))
    net, (words, seed) = folder / "made.net.xml", GENERATED[name]
    if not trips.exists():
        generate(net, f"{words} --no-turnarounds true")
        random_trips(net, folder / "validated.rou.xml", 3600 / count, f"--seed {seed} --min-distance 500")
        trips_of(folder / "validated.rou.xml", trips)
    return Case(folder, net, trips)


def trips_of(routes, path):
    """The vehicles of a file as trips from their first to their last edge."""
    if path.exists():
        return path
    with gzip.open(routes) if routes.suffix == ".gz" else open(routes, "rb") as file:
        vehicles = list(ElementTree.parse(file).getroot().iter("vehicle"))
    rows = []
    for vehicle in vehicles:
        edges = vehicle.find("route").get("edges").split()
        kept = "".join(f' {word}="{vehicle.get(word)}"' for word in ("type", "departLane") if vehicle.get(word))
        ends = f'from="{edges[0]}" to="{edges[-1]}"'
        rows.append(f'<trip id="{vehicle.get("id")}" depart="{vehicle.get("depart")}"{kept} {ends}/>')
    path.write_text("<routes>\n" + "\n".join(rows) + "\n</routes>\n", encoding="utf-8")
    return path


def routes_of(case, method, args):
    """The routes that a method finds, and what it took; none where it did not end in time."""
    place = case.folder / method.split()[0].lower()
    place.mkdir(exist_ok=True)
    found, took = place / "found.rou.xml", place / "took.json"
    if not took.exists():
        took.write_text(json.dumps(asdict(MAKERS[method](case, place, found, args))))
    spent = Took(**json.loads(took.read_text()))
    return found if found.exists() else None, spent


def free_flow(case, place, found, args):
    words = [
        "duarouter", "-n", case.net, "-r", case.trips, "-o", found, "--ignore-errors", "--no-step-log", "--no-warnings",
    ]
    return run(words, place)[0]


def marouter(case, place, found, args):
    words = [
        "marouter", "-n", case.net, "-r", case.trips, "-o", found, "--assignment-method", "SUE",
        "--flow-output.departlane", "best",
    ]
    return run([*words, "--no-step-log", "--no-warnings", "-e", UNTIL], place)[0]


def iterated(case, place, routes_path, args):
    """duaIterate with default values, but for its steps; the routes of its last one, and where it was ended those of
    the last one that was whole."""
    words = [
        sys.executable, f"{SUMO_HOME}/tools/assign/duaIterate.py", "-n", case.net, "-t", case.trips, "-l", args.steps,
        "-e", UNTIL,
    ]
    spent, has_ended = run(
        [*words, "--disable-summary", "--disable-tripinfos", "-w"], place, args.patience
    )
    steps = sorted(place.glob("*/*.rou.xml"))[: None if has_ended else -1]
    if steps:
        shutil.copy(steps[-1], routes_path)
    return replace(spent, steps=None if has_ended else len(steps))


def route(case, place, found, args):
    words = [
        TOP / "tools/streetsim-route", case.net, "--trips", case.trips, "-o", found,
        "--out", place / "out",
    ]
    words += ["--until", UNTIL, "--iterations", args.steps, "--jobs", args.jobs, "--program", args.program]
    return run(words, place, statuses=(0, 1))[0]


MAKERS = dict(zip(METHODS, (free_flow, marouter, iterated, route), strict=True))


@dataclass
class InSumo:
    mean: float  # seconds of a trip, from the wished departure
    teleports: int
    lacking: int  # trips that did not arrive
    passes: Path  # when vehicles left their edges


def in_sumo(case, routes, seed, obstacles=None):
    """SUMO's run with some routes and a seed. obstacles: vehicles that stand where works are."""
    place, stem = routes.parent, "" if routes.name == "found.rou.xml" else f"{routes.name.removesuffix('.rou.xml')}-"
    trips, statistic_path, passes = (place / f"{stem}{name}-{seed}.xml" for name in ("trips", "statistic", "passes"))
    if not statistic_path.exists():
        given = ",".join(map(str, [routes, *([obstacles] if obstacles else [])]))
        words = [
            "sumo", "-n", case.net, "-r", given, "--seed", seed, "-e", UNTIL,
            "--tripinfo-output", trips,
        ]
        words += ["--tripinfo-output.write-unfinished", "--vehroute-output", passes, "--vehroute-output.exit-times"]
        run([*words, "--no-step-log", "--no-warnings", "--statistic-output", place / f"{stem}half.xml"], place)
        os.replace(place / f"{stem}half.xml", statistic_path)
    seconds, arrived, standing = [], 0, 0
    for trip in elements(trips, ["tripinfos"]):
        if trip.get("id").startswith(OBSTACLE):
            standing += 1
            continue
        arrival, wished = float(trip.get("arrival")), float(trip.get("depart")) - float(trip.get("departDelay"))
        if float(trip.get("depart")) >= 0:
            seconds.append((arrival if arrival >= 0 else UNTIL) - wished)
            arrived += arrival >= 0
    statistic = ElementTree.parse(statistic_path).getroot()
    lacking = int(statistic.find("vehicles").get("loaded")) - standing - arrived
    return InSumo(fmean(seconds), int(statistic.find("teleports").get("total")), lacking, passes)


def judge(case, routes, args):
    """Mean trips and gaps of routes, here and in SUMO, by the same definition."""
    from streetsim.cli.route import parser
    from streetsim.cli.routing import job_of
    from streetsim.search.route_search import RouteSearch, relative_gap
    from streetsim.search.route_team import team
    from streetsim.sumo.way_costs import costs_of, mean_observed, nothing_observed

    words = [
        case.net, "--trips", routes, "-o", routes.parent / "x.rou.xml",
        "--out", routes.parent / "x",
    ]
    words += ["--until", UNTIL, "--check", args.check_text, "--program", args.program]
    job = job_of(parser().parse_args(list(map(str, words))))
    runs = [in_sumo(case, routes, seed) for seed in args.check]
    with team(job.ground, args.jobs, None) as workers:
        search = RouteSearch(job.town, job.ground, job.trips.trips, workers, lambda _: False)
        judged_here = search.judged(job.check)
        places = {trip.name: place for place, trip in enumerate(job.trips.trips)}
        sights = [
            sumo_passes(one.passes, job, places, nothing_observed(len(job.town.graph.movements), job.ground.slices))
            for one in runs
        ]
        for place, trip in enumerate(job.trips.trips):
            trip.entry = fmean(entries.get(place, trip.depart) for _, entries in sights)
        seen = mean_observed([observed for observed, _ in sights])
        costs = costs_of(job.town.graph, judged_here.loaded.free, seen, SLICE)
        return runs, judged_here, relative_gap(search.best_ways(costs))


def sumo_passes(path, job, places, observed):
    """What SUMO's vehicles took for movements, and when each came on the road."""
    graph, entries = job.town.graph, {}
    for vehicle in elements(path, ["routes"]):
        route = vehicle.find("route")
        if vehicle.tag != "vehicle" or route is None or not route.get("exitTimes") or vehicle.get("id") not in places:
            continue
        edges = [graph.number[name] for name in route.get("edges").split()]
        since = entries[places[vehicle.get("id")]] = float(vehicle.get("depart"))
        for way, until in zip(pairwise([*edges, -1]), map(float, route.get("exitTimes").split())):
            if until < since:
                break
            observed.add(graph.movement_of[way], int(since // SLICE), until - since)
            since = until
    return observed, entries


def row(name, case, method, args):
    """A row of the table, kept beside the routes."""
    row_path = case.folder / method.split()[0].lower() / f"row-{args.check_text}.json"
    if row_path.exists():
        return Row(**json.loads(row_path.read_text()))
    routes, took = routes_of(case, method, args)
    made_row = Row(name, method)
    if routes is not None:
        runs, judged_here, gap = judge(case, routes, args)
        made_row = Row(
            *(name, method, took.processor, fmean(one.mean for one in runs), fmean(one.teleports for one in runs)),
            *(
                max(one.lacking for one in runs),
                fmean(one.mean for one in judged_here.outcomes),
                fmean(one.rescues for one in judged_here.outcomes),
            ),
            *(100 * judged_here.gap, 100 * gap, took.steps),
        )
    row_path.write_text(json.dumps(asdict(made_row)))
    return made_row


@dataclass
class Street:
    """A street that is closed both ways. edges: in both directions, or the one that there is;
    lanes: of each, names and metres."""

    edges: list
    lanes: list

    def closing(self):
        return [
            f"--close={lane}:{WORKS_FREE}-{metres - WORKS_FREE}:{WORKS_FROM}-{WORKS_UNTIL}"
            for lane, metres in self.lanes
        ]

    def obstacles(self, path):
        """Vehicles of SUMO that stand there, in a file."""
        rows = []
        for lane, metres in self.lanes:
            edge, end = lane.rpartition("_")[0], metres - WORKS_FREE
            stop = f'<stop lane="{lane}" endPos="{end}" duration="{WORKS_UNTIL - WORKS_FROM}"/>'
            rows.append(
                f'<vType id="{OBSTACLE}{lane}" length="{end - WORKS_FREE}" minGap="0.5"/><vehicle '
                f'id="{OBSTACLE}{lane}" type="{OBSTACLE}{lane}" depart="{WORKS_FROM}" '
                f'departLane="{lane.rpartition("_")[2]}" departPos="{end}" departSpeed="0" '
                f'insertionChecks="none"><route edges="{edge}"/>{stop}</vehicle>'
            )
        path.write_text(f"<routes>{''.join(rows)}</routes>", encoding="utf-8")
        return path


def busiest(case, args):
    """The street that most free-flow routes pass, of 120 m and more."""
    free, _ = routes_of(case, FREE, args)
    passing = Counter(
        edge
        for vehicle in ElementTree.parse(free).iter("vehicle")
        for edge in vehicle.find("route").get("edges").split()[1:-1]
    )
    with gzip.open(case.net) if case.net.suffix == ".gz" else open(case.net, "rb") as file:
        edges = {
            edge.get("id"): edge
            for edge in ElementTree.parse(file).getroot().iter("edge")
            if edge.get("function") is None
        }
    length = {name: float(edge.find("lane").get("length")) for name, edge in edges.items()}
    chosen = next(name for name, _ in passing.most_common() if length[name] >= 120)
    ends = edges[chosen].get("to"), edges[chosen].get("from")
    both = [chosen, *(name for name, edge in edges.items() if (edge.get("from"), edge.get("to")) == ends)]
    lanes = [(lane.get("id"), int(float(lane.get("length")))) for name in both for lane in edges[name].iter("lane")]
    return Street(both, lanes)


def works(name, case, args):
    """What works add to the mean trip by the share of drivers who know of them: lines of a table."""
    street, place = busiest(case, args), case.folder / "works"
    place.mkdir(exist_ok=True)
    trips, routes_path = place / "demand.trips.xml", place / "found.rou.xml"
    rows = case.trips.read_text(encoding="utf-8").splitlines()
    ends = tuple(f'{word}="{edge}"' for word in ("from", "to") for edge in street.edges)
    trips.write_text("\n".join(row for row in rows if not any(f" {end}" in row for end in ends)), encoding="utf-8")
    if not (place / "out/knowing.csv").exists():
        command = [
            TOP / "tools/streetsim-route", case.net, "--trips", trips, "-o", routes_path,
            "--out", place / "out",
        ]
        command += [
            "--until", UNTIL, "--iterations", args.steps, "--jobs", args.jobs, "--program", args.program,
            "--check", args.check_text,
        ]
        run([*command, *street.closing(), "--knowing", args.knowing], place, statuses=(0, 1))
    with open(place / "out/knowing.csv", encoding="utf-8") as file:
        rows_here = list(csv.DictReader(file))
    without = Path(shutil.copy(place / "out/before.rou.xml", place))
    means_before = [in_sumo(case, without, seed).mean for seed in args.check]
    obstacles = street.obstacles(place / "obstacles.rou.xml")
    yield (
        f"| {name}, {' and '.join(street.edges)} | before | {float(rows_here[0]['mean_trip_s']):.1f} | | "
        f"{fmean(means_before):.1f} | | |"
    )
    for row in rows_here[1:]:
        runs = [in_sumo(case, place / f"found-{row['knowing']}.rou.xml", seed, obstacles) for seed in args.check]
        apart, half = mean_and_half_width([one.mean - other for one, other in zip(runs, means_before, strict=True)])
        here_apart = f"{float(row['difference_s']):+.1f} +- {float(row['half_width_95_s']):.1f}"
        yield (
            f"| | {100 * float(row['knowing']):g} % know | {float(row['mean_trip_s']):.1f} | {here_apart} | "
            f"{fmean(one.mean for one in runs):.1f} | {apart:+.1f} +- {half:.1f} | "
            f"{fmean(one.teleports for one in runs):.0f} |"
        )


def folder_of(name, args):
    folder = args.work / name
    folder.mkdir(parents=True, exist_ok=True)
    return folder


def main_routes(argv: list[str]) -> int | None:
    """How good found routes are, beside SUMO's tools; what works add by who knows of them.

    Takes minutes a network, hours all; needs sumo, sumo-tools.

    All routes are judged by seeds that no search saw. What was found, what SUMO said and each row is kept in the folder
    of --work, so that a table may be ended and gone on with. Town was at hand when streetsim-route was written; the
    spider and the random network are made by this script, from seeds of their own, and chose nothing.

    A duaIterate that has had --patience seconds of processor time is ended, as it may not come to its end on a network
    that locks; the routes of its last whole step are judged then, and the table says how many steps it had.

    With --works the street that most free-flow routes pass is closed both ways for half an hour, in SUMO by vehicles as
    long as the works that stand on each of its lanes; trips that begin or end there are left out. Outcomes are paired
    by seeds.
    """
    parser = shared.parser_of(main_routes, work=True)
    parser.add_argument("--only", help="cases, with semicolons between")
    parser.add_argument("--methods", help="methods, with commas between")
    parser.add_argument("--check", default="101-103", help="seeds of the judgement, here and in SUMO")
    parser.add_argument("--steps", type=int, default=15, help="iterations of duaIterate and streetsim-route")
    parser.add_argument("--jobs", type=int, default=1)
    parser.add_argument("--patience", type=int, default=1800, help="processor seconds after which duaIterate is ended")
    parser.add_argument("--works", action="store_true", help="the table of works instead")
    parser.add_argument("--knowing", default="0,0.3,0.6,1", help="shares of drivers who know of the works")
    args = parser.parse_args(argv)
    args.check_text, args.check = args.check, seeds_of(args.check, "--check")
    names = args.only.split(";") if args.only else CASES
    methods = args.methods.split(",") if args.methods else METHODS
    if unknown := [name for name in (*names, *methods) if name not in (*CASES, *METHODS)]:
        parser.error(f"{unknown[0]!r} is none of {'; '.join((*CASES, *METHODS))}")
    if args.works:
        shared.print_heads("Street | | here, s | more | SUMO, s | more | teleports")
    else:
        shared.print_heads("Case | Routes | processor, s | SUMO, s | here, s | gap here, % | gap in SUMO, %")
    for name in names:
        case = case_of(name, folder_of(name, args))
        lines = works(name, case, args) if args.works else (row(name, case, method, args).line() for method in methods)
        for line in lines:
            print(line, flush=True)
