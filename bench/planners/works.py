"""Road works in SUMO and here: on one street, on networks of a seed, on edges of networks with names."""

import csv
import gzip
import json
import os
import random
import xml.etree.ElementTree as ElementTree
from collections import Counter
from dataclasses import dataclass
from functools import cache
from pathlib import Path
from statistics import fmean

import shared
from beside_sumo.rows import sumo_trips
from networks.streets import Plain
from networks.unseen import MadeNetwork, make, read_net, ways_of
from shared import SAMPLES, SHIPPED, TOOLS, TOP, numbers, run, teleports_of

PASSES = 1600  # vehicles an hour of an open lane
FREE = 20  # metres of a lane before and behind drawn works


@dataclass(frozen=True)
class Stretch:
    """Works on a lane."""

    edge: str
    lane: int
    begin: int  # metres
    end: int
    first: int  # seconds
    last: int

    def closing(self) -> str:
        return f"{self.edge}_{self.lane}:{self.begin}-{self.end}:{self.first}-{self.last}"

    def obstacle(self) -> str:
        """A vehicle of SUMO that is as long as the works and stands there."""
        return (
            f'<routes><vType id="works" length="{self.end - self.begin - 1}" minGap="0"/>'
            f'<vehicle id="works" type="works" depart="{self.first}" departLane="{self.lane}" departPos="{self.end}" '
            f'departSpeed="0" insertionChecks="none"><route edges="{self.edge}"/><stop lane="{self.edge}_{self.lane}" '
            f'startPos="{self.end - 5}" endPos="{self.end}" until="{self.last}"/></vehicle></routes>'
        )


@dataclass(frozen=True)
class Case:
    """A network with its demand in a folder of its own."""

    folder: Path
    net: Path
    routes: tuple[Path, ...]
    additional: tuple[Path, ...]
    until: int


@dataclass(frozen=True)
class SeenRun:
    """What a run gave. trips: (wished departure, arrival or the end), by name."""

    trips: dict[str, tuple[float, float]]
    stood: int = 0  # seconds, the longest in one cell before works
    doubt: str = ""


def in_sumo(case: Case, works: Stretch | None, seed: int, label: str) -> SeenRun:
    """A run of SUMO, kept by its label; nobody is teleported."""
    routes = list(case.routes)
    if works:
        routes.append(case.folder / f"works-{label}.rou.xml")
        routes[-1].write_text(works.obstacle(), encoding="utf-8")
    words = ["-n", case.net, "-r", ",".join(map(str, routes)), "--end", case.until, "--seed", seed]
    words += ["-a", ",".join(map(str, case.additional))] if case.additional else []
    words += ["--time-to-teleport", -1]
    words += ["--collision.action", "none"]  # else works that begin where somebody drives may be taken out
    trips, found = sumo_trips(case.folder / f"sumo-{label}-{seed}.xml", words), {}
    for one in ElementTree.parse(trips).iter("tripinfo"):
        found[one.get("id")] = float(one.get("depart")) - float(one.get("departDelay")), float(one.get("arrival"))
    found.pop("works", None)
    return SeenRun(found)


@cache
def convert(case: Case, tools: Path) -> None:
    """Imports a case, once in each call of the script."""
    words = [case.net, *case.additional, "--routes", *case.routes, "-o", "run.jsonl", "--map", "run.map.json"]
    run([tools / "streetsim-import", *words], case.folder)


def run_here(
    case: Case, works: Stretch | None, seed: int, label: str, program: str, joint: str, tools: Path = TOOLS
) -> SeenRun:
    """A run of streetsim; joint: the lane of works, which is joint without them too."""
    run_folder = case.folder / f"here-{label}-{seed}"
    convert(case, tools)
    command = ["run.jsonl", "--map", "run.map.json", "--until", case.until, "--every", 0, "--rescue", 0]
    command += ["--out", run_folder, "--program", program]
    if works:
        command.append(f"--close={works.closing()}")
    elif joint:
        command.append(f"--joint={joint}")
    command += ["--seeds", f"{seed}-{seed}", "--departures", "listed"]
    printed = run([tools / "streetsim-run", *command], case.folder)
    run_folder = run_folder / f"seed-{seed}"
    with open(run_folder / "trips.csv", encoding="utf-8") as file:
        rows = list(csv.DictReader(file))
    trips = {row["id"]: (float(row["depart"]), float(row["arrival"] or case.until)) for row in rows}
    stood = 0
    if works:
        with open(run_folder / "works.csv", encoding="utf-8") as file:
            stood = max((int(row["longest_stand_s"]) for row in csv.DictReader(file)), default=0)
    doubt = next((line for line in printed.splitlines() if "not to be trusted: " in line), "").partition("trusted: ")[2]
    return SeenRun(trips, stood, doubt)


def mean_trip(seen: SeenRun, first: float, last: float, until: float, names: set[str] | None = None) -> float:
    """Of those who wish to depart between two seconds; who has not arrived counts until the end."""
    some = [(depart, end) for name, (depart, end) in seen.trips.items() if names is None or name in names]
    return fmean(min(end, until) - depart for depart, end in some if first <= depart < last)


def flow(seen: SeenRun, first: float, last: float) -> float:
    """Arrivals an hour between two seconds."""
    return sum(first <= end < last for _, end in seen.trips.values()) * 3600 / (last - first)


# ---- the street of the table: two edges of 800 m

FLOWS, FULL = (800, 1000, 1200, 1400, 1600), 2400
PLACES = (50, 200, 400, 600)
BEGIN, END, UNTIL, WORKS = 1800, 5400, 9000, 200


def plain_street(folder: Path, hourly: int) -> Case:
    """Two edges of two lanes at 50 km/h, 7,200 s of vehicles."""
    street_folder = folder / f"street-{hourly}"
    street_folder.mkdir(parents=True, exist_ok=True)
    if not (street_folder / "net.net.xml").exists():
        plain = Plain()
        for name, x in (("a", 0), ("b", 800), ("c", 1600)):
            plain.node(name, x, 0, "")
        for name, begin, end in (("in", "a", "b"), ("out", "b", "c")):
            plain.named_edge(name, begin, end, numLanes=2, speed=13.89)
        plain.make(street_folder / "net.net.xml")
        each = f'begin="0" end="7200" vehsPerHour="{hourly}" departLane="best" departSpeed="max"'
        text = f'<routes><flow id="f" {each}><route edges="in out"/></flow></routes>'
        (street_folder / "demand.rou.xml").write_text(text, encoding="utf-8")
    return Case(street_folder, street_folder / "net.net.xml", (street_folder / "demand.rou.xml",), (), UNTIL)


def street_rows(folder: Path, program: str, seeds: range):
    """The table of the street, row by row."""
    yield "| vehicles an hour | works at, m | SUMO, mean trip, s | here | | longest trip, SUMO, here | longest stand |"
    yield "|---|---|---|---|---|---|---|"
    for hourly in FLOWS:
        case = plain_street(folder, hourly)
        for place in PLACES:
            yield street_row(case, hourly, place, program, seeds)
    yield "\n| vehicles an hour | works at, m | pass here an hour |"
    yield "|---|---|---|"
    case = plain_street(folder, FULL)
    for place in PLACES:
        works = Stretch("out", 0, place, min(800, place + WORKS), BEGIN, END)
        flows = [flow(run_here(case, works, seed, f"{place}", program, ""), BEGIN + 900, END) for seed in seeds]
        yield f"| {FULL:,} | {place} | {fmean(flows):,.0f} |"


def street_row(case: Case, hourly: int, place: int, program: str, seeds: range) -> str:
    works = Stretch("out", 0, place, min(799, place + WORKS), BEGIN, END)
    theirs = [in_sumo(case, works, seed, f"{place}") for seed in seeds]
    ours = [run_here(case, works, seed, f"{place}", program, "") for seed in seeds]
    there, own = (fmean(mean_trip(one, BEGIN - 100, END, UNTIL) for one in some) for some in (theirs, ours))
    longest = (max(max(end - depart for depart, end in one.trips.values()) for one in some) for some in (theirs, ours))
    more = 100 * (own / there - 1)
    stood = max(one.stood for one in ours)
    most = ", ".join(f"{one:.0f}" for one in longest)
    return f"| {hourly:,} | {place} | {there:.1f} | {own:.1f} | {more:+.1f} % | {most} | {stood} |"


# ---- streets and towns from a seed

DRAWN = ("street", "street", "street", "street", "street", "arterial", "town", "turn-lanes")
FIRST, LAST, RUN_END = 600, 3000, 7200
# Metres of an edge with works, and vehicles that pass it: the first where there is one.
EDGE_METRES, EDGE_VEHICLES = (150, 100), (200, 100, 50)


@dataclass(frozen=True)
class Drawn:
    """Works on a made network, and the share of what the open lanes pass that comes to them."""

    made_network: MadeNetwork
    works: Stretch
    lanes: int
    share: float

    def case(self) -> Case:
        network = self.made_network
        return Case(network.folder, network.net, tuple(network.routes), tuple(network.additional), RUN_END)

    def passing(self) -> set[str]:
        """The vehicles whose way has the edge."""
        found = set()
        for one in ElementTree.parse(self.made_network.folder / "demand.rou.xml").iter("vehicle"):
            if self.works.edge in one.find("route").get("edges").split():
                found.add(one.get("id"))
        return found


def drawn(seed: int, number: int, work: Path) -> Drawn:
    """A network of a kind, and works on one lane of an edge of two or more lanes that many pass."""
    kind, draws = DRAWN[number], random.Random(f"works {seed} {number}")
    network = make(kind, seed + number, work, 0.7)
    net = read_net(network.net)
    through = Counter(edge for way in ways(network) for edge in way)
    able = next(filter(None, (edges_for(net, through, least, few) for few in EDGE_VEHICLES for least in EDGE_METRES)))
    able.sort(key=lambda edge: (-through[edge.getID()], edge.getID()))
    edge = able[draws.randrange(max(1, len(able) // 3))]
    length = min(draws.choice((50, 100, 200)), int(edge.getLength()) - 2 * FREE - 21)
    begin = draws.randrange(FREE + 20, int(edge.getLength()) - FREE - length + 1)
    lanes = edge.getLaneNumber()
    wanted = draws.uniform(0.5, 0.95) * PASSES * (lanes - 1)
    if through[edge.getID()] > wanted:
        network = make(kind, seed + number, work, vehicles=round(network.vehicles * wanted / through[edge.getID()]))
        through = Counter(edge for way in ways(network) for edge in way)
    works = Stretch(edge.getID(), draws.randrange(lanes), begin, begin + length, FIRST, LAST)
    return Drawn(network, works, lanes, through[edge.getID()] / (PASSES * (lanes - 1)))


def edges_for(net, through: Counter, least: int, few: int) -> list:
    """The edges of sumolib's network that may have works: of so many metres, and passed by so many vehicles, at
    least."""
    able = [edge for edge in net.getEdges() if edge.getLaneNumber() >= 2 and edge.getLength() >= least]
    return [edge for edge in able if through[edge.getID()] >= few]


def ways(made_network: MadeNetwork) -> list[list[str]]:
    return ways_of(made_network.folder / "demand.rou.xml")


def drawn_rows(seed: int, folder: Path, program: str, seeds: range):
    """A row for each of the networks of a seed: seconds that works add for those who pass their edge meanwhile."""
    yield "| Network | works | of what the open lanes pass | SUMO adds, s | here | longest stand | |"
    yield "|---|---|---|---|---|---|---|"
    for number in range(len(DRAWN)):
        yield drawn_row(drawn(seed, number, folder), program, seeds)


def drawn_row(network: Drawn, program: str, seeds: range) -> str:
    case, names, works = network.case(), network.passing(), network.works
    joint = f"{works.edge}_{works.lane}"
    added = []
    runs = []
    for side in (in_sumo, lambda *asked: run_here(*asked, program, joint)):
        with_works = [side(case, works, seed, "works") for seed in seeds]
        without = [side(case, None, seed, "none") for seed in seeds]
        means = (fmean(mean_trip(seen, FIRST, LAST, RUN_END, names) for seen in some) for some in (with_works, without))
        first, second = means
        added.append(first - second)
        runs.append(with_works)
    stood = max(seen.stood for seen in runs[1])
    doubt = "doubted" if any(seen.doubt for seen in runs[1]) else ""
    what = f"{works.edge} ({network.lanes} lanes), lane {works.lane}, {works.end - works.begin} m"
    made = network.made_network
    name = f"{made.name}{street_in_words(made.drawn) if made.kind == 'street' else ''}"
    cells = f"{100 * network.share:.0f} % | {added[0]:+.1f} | {added[1]:+.1f} | {stood} s | {doubt}"
    return f"| {name} | {what} | {cells} |"


def street_in_words(given: dict) -> str:
    """What a seed gave a street."""
    light = ", a light" if given["light"] is not None else ""
    trucks = f", {given['trucks']:.0%} trucks" if given["trucks"] else ""
    return f": {given['lanes']} lanes, {given['kmh']} km/h{light}{trucks}"


ACOSTA = SHIPPED / "acosta"
LAST_SECOND, WORKS_BEGIN, LEAST_METRES = 7200, 600, 120.0
LENGTHS, SECONDS = (100, 50, 200), (1800, 3600)
NETWORKS = {  # network, routes, additional files, and how many edges of each number of lanes
    "grid": (SAMPLES / "grid.net.xml.gz", SAMPLES / "grid.rou.xml.gz", (), {2: 4}),
    "acosta": (
        ACOSTA / "acosta_buslanes.net.xml",
        ACOSTA / "acosta.rou.xml",
        (ACOSTA / "acosta_vtypes.add.xml", ACOSTA / "acosta_tls.add.xml"),
        {1: 2, 2: 2, 3: 3},
    ),
}


@dataclass
class Works:
    edge: str
    lanes: int
    lane: int
    begin: int  # metres
    end: int
    seconds: int

    def closing(self):
        return f"{self.edge}_{self.lane}:{self.begin}-{self.end}:{WORKS_BEGIN}-{WORKS_BEGIN + self.seconds}"

    def obstacle(self):
        """A vehicle of SUMO that stands there."""
        length = self.end - self.begin
        stop = f'<stop lane="{self.edge}_{self.lane}" endPos="{self.end}" duration="{self.seconds}"/>'
        return (
            f'<routes><vType id="works" length="{length}" minGap="0.5"/>'
            f'<vehicle id="works" type="works" depart="{WORKS_BEGIN}" departLane="{self.lane}" departPos="{self.end}" '
            f'departSpeed="0" insertionChecks="none"><route edges="{self.edge}"/>{stop}</vehicle></routes>'
        )


def chosen(mapping, lines, counts):
    """The works on a network, by its map and its run."""
    links = mapping["links"]
    passing = Counter(links["edge"][at] for line in lines if line["cmd"] == "enter" for at in line["plan"])
    lanes, metres = Counter(), dict(zip(links["edge"], links["metres"], strict=True))
    for edge, own in zip(links["edge"], links["lanes"], strict=True):
        lanes[edge] += len(own)
    for lane_count, count in counts.items():
        alike = (name for name, _ in passing.most_common() if lanes[name] == lane_count)
        names = [name for name in alike if metres[name] >= LEAST_METRES]
        names = names if lane_count == 1 else names[: (len(names) + 1) // 2]
        for place in range(count):
            name = names[(2 * place + 1) * len(names) // (2 * count)]
            length = min(LENGTHS[place % 3], int(metres[name]) - 60)
            begin = (int(metres[name]) - length) // 2
            yield Works(name, lane_count, place % lane_count, begin, begin + length, SECONDS[place % 2])


def wished(routes):
    """When each vehicle wishes to depart."""
    with gzip.open(routes) if routes.suffix == ".gz" else open(routes, "rb") as file:
        return {one.get("id"): float(one.get("depart")) for one in ElementTree.parse(file).iter("vehicle")}


def mean_of(departs, arrivals):
    return fmean(arrivals.get(name, LAST_SECOND) - depart for name, depart in departs.items())


def sumo_trip(name, works, seed, folder):
    """The mean trip in SUMO, and the teleports."""
    network, routes, additional, _ = NETWORKS[name]
    stem = f"{name}-{works.edge.replace('/', '_') if works else 'none'}-{seed}"
    trips, statistic = folder / f"{stem}.trips.xml", folder / f"{stem}.statistic.xml"
    if not statistic.exists():
        routes_words = str(routes)
        if works:
            obstacle = folder / f"{stem}.rou.xml"
            obstacle.write_text(works.obstacle(), encoding="utf-8")
            routes_words += f",{obstacle}"
        words = ["sumo", "-n", network, "-r", routes_words, "--seed", seed, "--end", LAST_SECOND, "--no-step-log"]
        words += ["--no-warnings"]
        words += ["-a", ",".join(map(str, additional))] if additional else []
        half = folder / "half.xml"
        run([*words, "--tripinfo-output", trips, "--statistic-output", half], folder)
        os.replace(half, statistic)
    arrivals = {one.get("id"): float(one.get("arrival")) for one in ElementTree.parse(trips).iter("tripinfo")}
    return mean_of(wished(routes), arrivals), teleports_of(statistic)


def here_trip(name, works, closing, args, folder):
    """The mean trips here, and the rescues, of each seed; the lane of the works is joint also without them."""
    command = [f"{name}.jsonl", "--map", f"{name}.map.json", "--until", LAST_SECOND, "--every", 0, "--jobs", 1]
    command += ["--seeds", args.seeds, "--departures", "listed", "--out", "here", "--program", args.program]
    if closing:
        command.append(f"--close={works.closing()}")
    elif works.lanes > 1:
        command += [f"--joint={works.edge}_{works.lane}"]
    run([TOP / "tools/streetsim-run", *command], folder)
    departs = wished(NETWORKS[name][1])
    seed_trips = []
    for seed in numbers(args.seeds):
        with open(folder / f"here/seed-{seed}/trips.csv", encoding="utf-8") as file:
            rows = list(csv.DictReader(file))
        arrivals = {row["id"]: float(row["arrival"]) for row in rows if row["arrival"]}
        seed_trips.append((mean_of(departs, arrivals), sum(int(row["rescues"]) for row in rows)))
    return seed_trips


def cells_of(before, after):
    """A mean trip without works, what they add in seconds and percent, and the rescues with them."""
    first, second = (fmean(trip for trip, _ in runs) for runs in (before, after))
    rescues = fmean(count for _, count in after)
    return f"{first:.1f} | {second - first:+.1f} ({100 * (second / first - 1):+.1f} %) | {rescues:.0f}"


def named_rows(args, folder):
    """A row for each of the edges with works, of the networks with names."""
    yield "| Edge (lanes) | works | SUMO, s | more | teleports | here, s | more | rescues |"
    yield f"|{'---|' * 8}"
    for name in args.only:
        network, routes, additional, counts = NETWORKS[name]
        made = ["-o", f"{name}.jsonl", "--map", f"{name}.map.json"]
        run([TOP / "tools/streetsim-import", network, *additional, "--routes", routes, *made], folder)
        mapping = json.loads((folder / f"{name}.map.json").read_text(encoding="utf-8"))
        lines = map(json.loads, (folder / f"{name}.jsonl").read_text(encoding="utf-8").splitlines())
        for works in chosen(mapping, lines, counts):
            if not args.edges or works.edge in args.edges.split(","):
                yield named_row(name, works, args, folder)


def named_row(name, works, args, folder):
    there = ([sumo_trip(name, one, seed, folder) for seed in numbers(args.seeds)] for one in (None, works))
    own = (here_trip(name, works, is_closed, args, folder) for is_closed in (False, True))
    stretch = f"lane {works.lane}, {works.end - works.begin} m, {works.seconds // 60} min"
    return f"| {name} {works.edge} ({works.lanes}) | {stretch} | {cells_of(*there)} | {cells_of(*own)} |"


def main_works(argv: list[str]) -> int | None:
    """What road works add to trips, beside SUMO.

    Takes minutes; needs sumo, sumo-tools.

    --street: one lane of a street of two is closed for an hour, at 800 to 1,600 vehicles an hour and four places; and
    what passes at 2,400. --drawn: works on streets and towns that unseen-nets makes from a seed, and what they add to
    the trips of those who pass their edge meanwhile; nobody is teleported in SUMO. By the
    seed 0.5 to 0.95 of what the open lanes pass come to them, where no lane of the network has above 0.7 of it.

    Of each network and number of lanes the edges of 120 m and more are put in order by the vehicles that pass them, and
    of so many equal parts of these (of the busier half, where there are several lanes) the middle one is taken; lane,
    length and time of the works go round with the rows. In SUMO the works are a vehicle as long as they, which stands
    there. A trip lasts from the wished departure to the arrival or the end. What SUMO wrote is kept in the folder of
    --work. Prints the table of tools/WORKS.md.
    """
    parser = shared.parser_of(main_works, work=True)
    parser.add_argument("--seeds", default="1-2")
    shared.add_some(parser, "--only", NETWORKS)
    parser.add_argument("--edges", help="of the networks' edges with works, these alone")
    parser.add_argument("--street", action="store_true", help="the table of one street of two lanes")
    parser.add_argument("--drawn", type=int, metavar="SEED", help="the table of streets and towns from a seed")
    args = parser.parse_args(argv)
    folder, seeds = shared.work_of(args), numbers(args.seeds)
    if args.street:
        table = street_rows(folder, args.program, seeds)
    elif args.drawn is not None:
        table = drawn_rows(args.drawn, folder, args.program, seeds)
    else:
        table = named_rows(args, folder)
    for row in table:
        print(row, flush=True)
