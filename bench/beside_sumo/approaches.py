"""Lone approaches and lanes beside SUMO: who leaves in each green, where some turn left or are long; detectors, and
lights that these drive."""

import csv
import gzip
import random
import re
import shlex
import xml.etree.ElementTree as ElementTree
from collections import defaultdict
from dataclasses import dataclass
from itertools import product
from statistics import correlation, fmean

import shared
from beside_sumo.rows import run_files, sumo_trips, trips_here
from crosses import FIRST, FULL, LAST, a_green, cases, demand
from networks.streets import Plain
from networks.unseen import KINDS as NETWORKS, make
from shared import SAMPLES, TOP, run
from streetsim.model.folder import read_folder
from streetsim.report.beside_sumo import edge_counts_of, geh, read_edgedata, read_tripinfo, trip_times_of

def in_sumo(net, routes, folder):
    words = ["-n", net, "-r", routes, "--end", LAST, "--time-to-teleport", -1]
    return a_green(read_tripinfo(str(sumo_trips(folder / f"{routes.stem}.trips.xml", words))))


def run_here(net, routes, folder, args):
    words = ["--until", LAST, "--every", 900, "--rescue", 0]
    run_files(folder, [net, "--routes", routes, *shlex.split(args.words)], words, args.program)
    return a_green(trips_here(folder))


def main_cross(argv: list[str]) -> int | None:
    """Who leaves in each green of a lone cross, by movement, beside SUMO.

    Takes minutes; needs sumo.

    Means over demands of several seeds. What SUMO wrote is kept in the folder of --work.
    """
    parser = shared.parser_of(main_cross, work=True)
    parser.add_argument("--seeds", default="1-3")
    parser.add_argument("--only", default="", help="a word of the names of cases")
    parser.add_argument("--import", dest="words", default="", help="more words for the import")
    args = parser.parse_args(argv)
    folder = shared.work_of(args)
    shared.print_heads("Vehicles from the west | SUMO | here")
    for name, network, flows in (case for case in cases() if args.only in case[0]):
        net = TOP / f"tools/tests/data/{network}.net.xml.gz"
        pairs = []
        for seed in shared.numbers(args.seeds):
            routes = folder / f"{re.sub('[^a-z0-9]+', '-', name)}-{seed}.xml"
            routes.write_text(demand(flows, seed), encoding="utf-8")
            pairs.append((in_sumo(net, routes, folder), run_here(net, routes, folder, args)))
        for way in sorted({way for arm, way in flows if arm == "w"}, reverse=True):
            there, ours = (fmean(case[side].get(way, 0.0) for case in pairs) for side in (0, 1))
            print(f"| {name}: {way} | {there:.1f} | {ours:.1f} ({(ours / there - 1) * 100:+.0f} %) |", flush=True)


CROSS = TOP / "tools/tests/data/cross1.net.xml.gz"
# Greens of the other street and of this one, shares that turn left in percent, vehicles an hour against them, and the
# shares of these that turn left and right.
ROWS = {
    "42 of 90 s, all against go straight on": (["42-42"], (10, 30, 60), (200, 400, 600), 0, 0),
    "57 or 27 of 90 s, 27 of 60 s": (["27-57", "57-27", "27-27"], (12, 25), (150, 450), 0, 0),
    "42 or 27 of 90 s, 20 % against turn left": (["42-42", "57-27"], (12, 25), (300, 500), 20, 0),
    "42 or 57 of 90 s, 20 % left and 20 % right": (["42-42", "27-57"], (12, 25), (300, 500), 20, 20),
}


def greens_file(greens, folder):
    """An additional file with the greens of both streets."""
    other, own = map(int, greens.split("-"))
    states = (other, "GGgrrrGGgrrr"), (3, "yyyrrryyyrrr"), (own, "rrrGGgrrrGGg"), (3, "rrryyyrrryyy")
    phases = "".join(f'<phase duration="{seconds}" state="{state}"/>' for seconds, state in states)
    path = folder / f"{greens}.add.xml"
    path.write_text(f'<add><tlLogic id="c" type="static" programID="own" offset="0">{phases}</tlLogic></add>')
    return path


def vehicles_per_green(trips, cycle):
    """Vehicles a green from the west."""
    own = [name for name, (_, arrival) in trips.items() if name[0] == "w" and FIRST <= arrival < LAST]
    return len(own) * cycle / (LAST - FIRST)


def greens_of_both(greens, flows, seed, folder, program):
    """Vehicles a green in SUMO and here."""
    folder.mkdir(parents=True, exist_ok=True)
    added, cycle = greens_file(greens, folder), sum(map(int, greens.split("-"))) + 6
    (folder / "demand.rou.xml").write_text(demand(flows, seed), encoding="utf-8")
    words = ["-n", CROSS, "-r", "demand.rou.xml", "-a", added, "--end", LAST, "--time-to-teleport", -1]
    theirs = read_tripinfo(str(sumo_trips(folder / "trips.xml", words)))
    words = ["--until", LAST, "--every", 900, "--rescue", 0]
    run_files(folder, [CROSS, added, "--routes", "demand.rou.xml"], words, program)
    return vehicles_per_green(theirs, cycle), vehicles_per_green(trips_here(folder), cycle)


def main_shared_lanes(argv: list[str]) -> int | None:
    """Who leaves in each green of a full lane on which some turn left, beside SUMO.

    Takes minutes; needs sumo.

    Differences over all cases of a row, each the mean of several seeds; --all: also each case. What SUMO wrote is kept
    in the folder of --work.
    """
    parser = shared.parser_of(main_shared_lanes, work=True)
    parser.add_argument("--seeds", default="1-2")
    parser.add_argument("--all", action="store_true", help="also each case")
    args = parser.parse_args(argv)
    work = shared.work_of(args)
    shared.print_heads("Greens, and who comes against | cases | difference, mean | absolute, mean | largest")
    for name, (plans, shares, against, left_share, right_share) in ROWS.items():
        differences = []
        for greens, share, hourly in product(plans, shares, against):
            flows = {("w", "straight"): FULL * (100 - share) / 100, ("w", "left"): FULL * share / 100}
            flows |= {("e", "straight"): hourly * (100 - left_share - right_share) / 100}
            flows |= {("e", "left"): hourly * left_share / 100, ("e", "right"): hourly * right_share / 100}
            folder = work / f"{greens}-{share}-{hourly}-{left_share}-{right_share}"
            seeds = shared.numbers(args.seeds)
            pairs = [greens_of_both(greens, flows, seed, folder / str(seed), args.program) for seed in seeds]
            there, ours = (fmean(pair[side] for pair in pairs) for side in (0, 1))
            differences.append((ours / there - 1) * 100)
            if args.all:
                cells = f"{there:.1f}, {ours:.1f} ({differences[-1]:+.0f} %)"
                print(f"    {greens}, {share} % left against {hourly}: {cells}")
        mean, absolute, most = fmean(differences), fmean(map(abs, differences)), max(map(abs, differences))
        print(f"| {name} | {len(differences)} | {mean:+.1f} % | {absolute:.1f} % | {most:.1f} % |", flush=True)


PLAIN, LIT = "priority", "traffic_light"
NODES = ("a", -800, 0, PLAIN), ("b", 0, 0, LIT), ("c", 400, 0, PLAIN), ("d", 0, -400, PLAIN), ("e", 0, 400, PLAIN)
EDGES = (("in", "a", "b"), ("out", "b", "c"), ("up", "d", "b"), ("away", "b", "e"))
BEGIN, END = 900, 1800  # seconds of the count, when the approach is full


def approach(folder):
    """A cross of two one-way streets of one lane, 50 km/h; its light lets one of them go for 42 s of 90."""
    plain = Plain()
    for name, x, y, kind in NODES:
        plain.node(name, x, y, kind)
    for name, begin, end in EDGES:
        plain.named_edge(name, begin, end, speed=13.89)
    plain.connect("in", "out")
    plain.connect("up", "away")
    plain.make(folder / "x.net.xml")
    text = (folder / "x.net.xml").read_text()
    mine = int(re.search(r'from="in" to="out"[^>]*linkIndex="(\d)"', text)[1])
    states = [("G", "r"), ("y", "r"), ("r", "G"), ("r", "y")]
    phases = "".join(
        f'<phase duration="{seconds}" state="{"".join(state if mine == 0 else state[::-1])}"/>'
        for seconds, state in zip((42, 3, 42, 3), states)
    )
    (folder / "x.add.xml").write_text(
        f'<additional><tlLogic id="b" type="static" programID="1" offset="0">{phases}</tlLogic></additional>'
    )


def counted_in_sumo(folder, net, routes, more, end, freq):
    wanted = f'<additional><edgeData id="c" freq="{freq}" file="edges.xml"/></additional>'
    (folder / "wanted.add.xml").write_text(wanted)
    words = ["sumo", "-n", net, "-r", routes, "-a", ",".join([*more, "wanted.add.xml"]), "--end", end, "--no-warnings"]
    run([*words, "--tripinfo-output", "trips.xml", "--no-step-log"], folder)
    return read_tripinfo(str(folder / "trips.xml")), read_edgedata(str(folder / "edges.xml"))


def counted_here(folder, net, routes, more, end, freq, program):
    words = ["--until", end, "--every", 600, "--period", freq, "--rescue", 0]
    run_files(folder, [net, *more, "--routes", routes], words, program)
    return read_folder(str(folder / "out"))


def full_approach(folder, program):
    """Rows of vehicles that pass in 900 s."""
    approach(folder)
    key = float(BEGIN), float(END), "in"
    for metres in (12, 18):
        for share in (0, 10, 20, 40):
            draws = random.Random(f"{metres} {share}")
            kinds = ["long"] * (share * 10) + ["car"] * (1000 - share * 10)
            draws.shuffle(kinds)
            cars = "".join(
                f'<vehicle id="{at}" type="{kind}" depart="{at * 1.9:.1f}" departSpeed="max" route="through"/>'
                for at, kind in enumerate(kinds)
            )
            cars = f'<route id="through" edges="in out"/>{cars}'
            (folder / "x.rou.xml").write_text(
                f'<routes><vType id="car"/><vType id="long" length="{metres}"/>{cars}</routes>'
            )
            _, counts = counted_in_sumo(folder, "x.net.xml", "x.rou.xml", ["x.add.xml"], END, 900)
            one = counted_here(folder, "x.net.xml", "x.rou.xml", ["x.add.xml"], END, 900, program)
            there, ours = counts[key], edge_counts_of(one)[key]
            yield f"{share} % of {metres} m", there, ours


def long_grid(folder, program):
    """The sample grid with each vehicle of 15 % 18 m long: mean trips and the share of good counts, in both."""
    text = gzip.decompress((SAMPLES / "grid.rou.xml.gz").read_bytes()).decode()
    draws = random.Random(15)
    text = re.sub("<vehicle ", lambda _: '<vehicle type="long" ' if draws.random() < 0.15 else "<vehicle ", text)
    (folder / "grid.rou.xml").write_text(re.sub("(<routes[^>]*>)", r'\1<vType id="long" length="18"/>', text, count=1))
    net = SAMPLES / "grid.net.xml.gz"
    trips, counts = counted_in_sumo(folder, net, "grid.rou.xml", [], 6000, 900)
    one = counted_here(folder, net, "grid.rou.xml", [], 6000, 900, program)
    own, ours = trip_times_of(one), edge_counts_of(one)
    both = own.keys() & trips.keys()
    means = [fmean(each[name][1] - each[name][0] for name in both) for each in (trips, own)]
    keys = [key for key in ours if key[1] <= 3600]
    good = sum(geh(4 * ours[key], 4 * counts.get(key, 0)) < 5 for key in keys)
    return len(both), *means, good / len(keys)


def main_long_vehicles(argv: list[str]) -> int | None:
    """Who passes a full approach, with 0 to 40 % long vehicles, beside SUMO.

    Takes minutes; needs sumo.

    Two cases: one approach of one lane that is always full, green 42 s of 90, vehicles that pass in 900 s; and the
    sample grid with 15 % of its vehicles 18 m long.
    """
    parser = shared.parser_of(main_long_vehicles, work=True)
    args = parser.parse_args(argv)
    folder = shared.work_of(args)
    shared.print_heads("Long vehicles | passed in 900 s: SUMO | here")
    for name, there, ours in full_approach(folder, args.program):
        print(f"| {name} | {there} | {ours} ({(ours / there - 1) * 100:+.1f} %) |", flush=True)
    count, there, ours, good = long_grid(folder, args.program)
    print()
    shared.print_heads("Network | vehicles | mean trip in SUMO, s | here, s | GEH below 5")
    print(f"| sample grid, 15 % of 18 m | {count:,} | {there:.1f} | {ours:.1f} | {good:.0%} |")


NET, ROUTES = (SAMPLES / f"grid.{kind}.xml.gz" for kind in ("net", "rou"))
PERIOD, COUNT_END, UNTIL, AREA = 900, 3600, 4500, 100
KMH = 3.6


@dataclass
class Figure:
    """A column here and SUMO's attribute of the same meaning; a mean weighs by another column, where one is told."""

    name: str
    sort: str  # of detector: how their names begin
    table: str
    column: str
    attribute: str
    factor: float = 1.0
    weight: str = ""


LOOP = (
    ("vehicles", "vehicles", "nVehContrib"),
    ("km/h", "mean_speed_kmh", "speed", KMH, "vehicles"),
    ("occupancy, %", "occupancy_percent", "occupancy"),
)
AREAS = (
    ("vehicles", "mean_vehicles", "meanVehicleNumber"),
    ("most vehicles", "most_vehicles", "maxVehicleNumber"),
    ("km/h", "mean_speed_kmh", "meanSpeed", KMH, "mean_vehicles"),
    ("occupancy, %", "occupancy_percent", "meanOccupancy"),
    ("longest jam, mean of vehicles", "mean_jam_vehicles", "meanMaxJamLengthInVehicles"),
    ("longest jam, most vehicles", "longest_jam_vehicles", "maxJamLengthInVehicles"),
)
FIGURES = (
    *(Figure(f"e1 at the stop line: {name}", "end", "detectors", *words) for name, *words in LOOP),
    *(Figure(f"e1 in the middle: {name}", "middle", "detectors", *words) for name, *words in LOOP),
    *(Figure(f"e2: {name}", "area", "areas", *words) for name, *words in AREAS),
)


def write_detectors(path):
    """Two loops and an area on each lane."""
    with gzip.open(NET, "rt", encoding="utf-8") as file:
        root = ElementTree.parse(file).getroot()
    with open(path, "w", encoding="utf-8") as file:
        file.write("<additional>\n")
        for lane in root.iterfind("edge[@from]/lane"):
            name, metres = lane.get("id"), float(lane.get("length"))
            for sort, place in (("end", metres - 5), ("middle", metres / 2)):
                attributes = f'id="{sort} {name}" lane="{name}" pos="{place:.2f}" freq="{PERIOD}" file="e1.xml"'
                file.write(f"<inductionLoop {attributes}/>\n")
            begin = max(0.0, metres - AREA)
            attributes = (
                f'id="area {name}" lane="{name}" pos="{begin:.2f}" endPos="{metres:.2f}" freq="{PERIOD}" file="e2.xml"'
            )
            file.write(f"<laneAreaDetector {attributes}/>\n")
        file.write("</additional>\n")


def sumos(folder):
    """SUMO's rows, {table: {(begin, id): attributes}}."""
    found = {}
    for table, name in (("detectors", "e1.xml"), ("areas", "e2.xml")):
        rows = ElementTree.parse(folder / name).getroot().iter("interval")
        found[table] = {(int(float(row.get("begin"))), row.get("id")): row.attrib for row in rows}
    return found


def ours(folder):
    found = {}
    for table in ("detectors", "areas"):
        with open(folder / "out" / f"{table}.csv", encoding="utf-8") as file:
            found[table] = {(int(row["begin"]), row["id"]): row for row in csv.DictReader(file)}
    return found


def pairs_of(figure, here, there):
    """(SUMO's value, ours, its weight) by begin and detector, of the rows in which both saw vehicles."""
    pairs = {}
    for key, row in here[figure.table].items():
        other = there[figure.table].get(key) if key[1].startswith(figure.sort) else None
        if other and key[0] < COUNT_END and row[figure.column] != "" and float(other[figure.attribute]) >= 0:
            weight = float(row[figure.weight]) if figure.weight else 1.0
            pairs[key] = float(other[figure.attribute]) * figure.factor, float(row[figure.column]), weight
    return pairs


def by_edge(pairs):
    """The same by begin and edge."""
    lanes = defaultdict(list)
    for (begin, name), pair in pairs.items():
        lanes[begin, name.rpartition("_")[0]].append(pair)
    return {key: (*means(found), sum(weight for *_, weight in found)) for key, found in lanes.items()}


def means(pairs):
    weights = sum(weight for *_, weight in pairs)
    return [sum(pair[side] * pair[2] for pair in pairs) / weights if weights else 0.0 for side in (0, 1)]


def together(pairs):
    return correlation([pair[0] for pair in pairs.values()], [pair[1] for pair in pairs.values()])


def main_detectors(argv: list[str]) -> int | None:
    """Induction loops and areas, beside SUMO's own.

    Takes minutes; needs sumo.

    Each of the 240 lanes has an induction loop (e1) 5 m before its stop line, one in its middle, and an area (e2) on
    its last 100 m, quarter hours. Prints, over all detectors and periods of the first hour, both means, and how they go
    together by lane and by edge. What SUMO wrote is kept in the folder of --work.
    """
    parser = shared.parser_of(main_detectors, work=True)
    parser.add_argument("--seed", type=int, default=1)
    args = parser.parse_args(argv)
    folder = shared.work_of(args)
    added = folder / "detectors.add.xml"
    if not (folder / "e2.xml").exists():
        write_detectors(added)
        words = ["-n", NET, "-r", ROUTES, "-a", added, "--seed", args.seed, "--end", UNTIL]
        run(["sumo", *words, "--no-step-log"], folder)
    run_files(folder, [NET, added, "--routes", ROUTES], ["--until", UNTIL], args.program)
    here, there = ours(folder), sumos(folder)
    shared.print_heads("Detectors of the grid, quarter hours | SUMO | here | r by lane | r by edge")
    for figure in FIGURES:
        lanes = pairs_of(figure, here, there)
        edges = by_edge(lanes)
        both = " | ".join(f"{value:.2f}" for value in means(lanes.values()))
        print(f"| {figure.name} | {both} | {together(lanes):.2f} | {together(edges):.2f} |")


DRIVEN = ("actuated-grid", "actuated-arterial", "actuated-town", "actuated-turn-lanes", "nema-cross", "nema-arterial")
HOUR = 3600
SUMO_END = 4 * HOUR  # second by which a run of SUMO ends that is locked
NEAR = 1.0  # seconds of green


def driven_in_sumo(network, net, folder):
    """The mean trip of those who arrived, how many did, and the greens by (light, state)."""
    programs = list(ElementTree.parse(net).getroot().iter("tlLogic"))
    lights = {program.get("id") for program in programs}
    rings = {
        program.get("id"): [phase.get("state") for phase in program.iter("phase")]
        for program in programs
        if program.get("type") == "NEMA"
    }
    events, states, trips = folder / "events.add.xml", folder / "states.xml", folder / "trips.xml"
    wanted = "".join(f'<timedEvent type="SaveTLSStates" source="{light}" dest="{states}"/>' for light in sorted(lights))
    events.write_text(f"<additional>{wanted}</additional>", encoding="utf-8")
    routes = ",".join(map(str, network.routes))
    words = ["sumo", "-n", net, "-r", routes, "-a", events, "--tripinfo-output", trips, "--end", SUMO_END]
    shared.run([*words, "--no-step-log", "--no-warnings", "--time-to-teleport", 300], folder)
    seconds = shared.trips_from_wish(trips).values()
    return fmean(seconds), len(seconds), greens_in(states, rings)


def greens_in(path, rings):
    """{(light, state): how long each lasted} of a file of SUMO's states, of the first hour; rings: the states of the
    phases of NEMA lights, of which two are shown at once."""
    durations, since_by_green = defaultdict(list), {}
    for _, element in ElementTree.iterparse(path):
        if element.tag == "tlsState":
            light, state, time = element.get("id"), element.get("state"), float(element.get("time"))
            own = [phase for phase in rings[light] if is_green(phase, state)] if light in rings else [state]
            for key in [key for key in since_by_green if key[0] == light and key[1] not in own]:
                since = since_by_green.pop(key)
                if time <= HOUR:
                    durations[key].append(time - since)
            for phase in own:
                since_by_green.setdefault((light, phase), time)
            element.clear()
    return durations


def is_green(phase, state):
    """Whether a phase of a ring is green in a state of its light."""
    return all(shown == "G" for own, shown in zip(phase, state) if own == "G")


def driven_here(program, run, folder, lights):
    """The same of a run here, and whether it is to be trusted."""
    run_folder = folder / f"out-{lights}"
    words = [shared.TOP / "tools/streetsim-run", *run, "--lights", lights, "--program", program, "--out", run_folder]
    printed = shared.run([*words, "--every", 0], folder)
    seconds = shared.durations_here(run_folder).values()
    greens = defaultdict(list)
    if (run_folder / "phases.csv").exists():
        with open(run_folder / "phases.csv", encoding="utf-8") as file:
            for row in csv.DictReader(file):
                if row["ended"] not in ("", "listed") and int(row["begin"]) + int(row["seconds"]) <= HOUR:
                    greens[row["light"], row["state"]].append(int(row["seconds"]))
    return fmean(seconds), len(seconds), greens, "not to be trusted" in printed


def compared(there, own):
    """How many greens differ by less than a second, of how many, and the mean difference."""
    apart = [fmean(own[key]) - fmean(there[key]) for key in own if there.get(key)]
    near = sum(abs(one) < NEAR for one in apart)
    return f"{near} of {len(apart)}, {fmean(apart):+.1f}" if apart else ""


def driven_row(program, kind, network):
    """A line of the table."""
    folder = network.folder
    fixed = folder / "fixed.net.xml"
    text = network.net.read_text(encoding="utf-8")
    for driven in ("actuated", "NEMA", "delay_based"):
        text = text.replace(f'type="{driven}"', 'type="static"')
    fixed.write_text(text, encoding="utf-8")
    sumo_runs = [driven_in_sumo(network, net, folder) for net in (fixed, network.net)]
    run = [folder / "run.jsonl", "--map", folder / "map.json"]
    shared.run([shared.TOP / "tools/streetsim-import", network.net, "--routes", *network.routes, "-o", *run], folder)
    our_runs = [driven_here(program, run, folder, lights) for lights in ("listed", "actuated")]
    gains = [100 * (after[0] / before[0] - 1) for before, after in (sumo_runs, our_runs)]
    cells = [
        kind, f"{network.level:g}", f"{network.vehicles:,}", f"{sumo_runs[1][1]:,}, {our_runs[1][1]:,}",
        f"{sumo_runs[0][0]:.1f} -> {sumo_runs[1][0]:.1f}", f"{our_runs[0][0]:.1f} -> {our_runs[1][0]:.1f}",
        f"{100 * (our_runs[1][0] / sumo_runs[1][0] - 1):+.1f}", f"{gains[0]:+.0f}, {gains[1]:+.0f}",
        compared(sumo_runs[1][2], our_runs[1][2]), "yes" if our_runs[1][3] else "",
    ]  # fmt: skip
    return f"| {' | '.join(cells)} |"


def main_actuated(argv: list[str]) -> int | None:
    """What detectors gain at lights, and whether their greens are SUMO's.

    Takes minutes a network; needs sumo, sumo-tools.

    Each network runs an hour of demand until all have arrived, in SUMO and here, with its actuated lights and with the
    same programs as fixed plans (--lights listed). A trip counts from its wished departure. Greens are of those phases
    that detectors extend, of the first hour, by light and phase: how many of them differ by less than a second on the
    mean, and the mean difference. Those of a NEMA light are of each phase of its rings.
    """
    parser = shared.parser_of(main_actuated, work=True)
    parser.add_argument("--seed", type=int, required=True)
    shared.add_some(parser, "--kinds", NETWORKS, DRIVEN)
    parser.add_argument("--levels", default="0.5,0.7", help="of the busiest approach's capacity (default %(default)s)")
    args = parser.parse_args(argv)
    work = shared.work_of(args)
    trips = "SUMO, fixed -> actuated, s | here, s | apart, % | gain in SUMO, here, %"
    greens = "greens within 1 s, mean difference | doubted"
    shared.print_heads(f"Network | level | vehicles | arrived in SUMO, here | {trips} | {greens}")
    for kind in args.kinds:
        for level in map(float, args.levels.split(",")):
            folder = work / f"{level:g}"
            folder.mkdir(exist_ok=True)
            print(driven_row(args.program, kind, make(kind, args.seed, folder, level)), flush=True)
