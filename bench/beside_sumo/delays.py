"""Delays, letters and queues of approaches beside SUMO's detectors."""

import csv
import gzip
import re
import xml.etree.ElementTree as ElementTree
from collections import defaultdict
from dataclasses import dataclass, replace
from itertools import product
from pathlib import Path
from statistics import fmean
from types import SimpleNamespace

import shared
from crosses import demand
from networks.streets import Plain, generate, random_trips
from seen import kernel_of, show
from shared import CORRIDOR, SAMPLES, SHIPPED, TOP, run
from streetsim.base.report import Report
from streetsim.model.folder import read_folder
from streetsim.model.mapping import read_map
from streetsim.model.runs import read_run
from streetsim.model.service import LETTERS, SIGNALS, level, percentile
from streetsim.observe import junction_measures as measuring
from streetsim.observe.crossings import Crossings, Movements, PlanPlaces
from streetsim.observe.junction_layout import approaches_of
from streetsim.observe.passages import Passages
from streetsim.report.beside_sumo import correlation
from streetsim.sumo.net import read_net

ACOSTA = SHIPPED / "acosta"
ENTRY = 8.0  # metres: just ahead of a car that departs with its rear at the lane's begin
LEAST_VEHICLES = 20  # vehicles of an approach in all seeds, from which on it is judged
THIN = 0.1  # of the vehicles drive alone
LONE = "lone"  # the run of those, in place of a seed
NINE = "--grid --grid.number 3 --no-turnarounds true"
GENERATED = {  # by netgenerate: its words, seconds between two vehicles and until when they depart
    "nine": (f"{NINE} --grid.length 220 --grid.attach-length 220 -L 2 -j traffic_light --tls.cycle.time 90", 1.2, 3600),
    "nine-priority": (f"{NINE} --grid.length 250 --grid.attach-length 250 -L 1 -j priority", 1.5, 1800),
}


@dataclass
class Case:
    name: str
    net: Path
    routes: Path
    additional: tuple = ()
    count_end: int = 3600
    by_edges: bool = False  # delays by edgeData, as SUMO 1.15 ends at an assertion of its e3


CASES = (
    Case("corridor", CORRIDOR / "corridor.net.xml.gz", CORRIDOR / "corridor.rou.xml"),
    Case("grid", SAMPLES / "grid.net.xml.gz", SAMPLES / "grid.rou.xml.gz"),
    Case("acosta", ACOSTA / "acosta_buslanes.net.xml", ACOSTA / "acosta.rou.xml",
         (ACOSTA / "acosta_vtypes.add.xml", ACOSTA / "acosta_tls.add.xml"), 5400),
    Case("town", SAMPLES / "town.net.xml.gz", SAMPLES / "town.rou.xml.gz", by_edges=True),
    *(
        Case(name, Path("net.net.xml"), Path("trips.rou.xml"), count_end=last)
        for name, (_, _, last) in GENERATED.items()
    ),
)


def prepared(case, folder):
    """The case, with its network and its demand made where they are to be."""
    if case.name not in GENERATED:
        return case
    words, often, last = GENERATED[case.name]
    net, routes = folder / case.net, folder / case.routes
    if not routes.exists():
        generate(net, f"{words} --seed 1")
        random_trips(net, routes, often, "--seed 7 --min-distance 300 --fringe-factor 2", last)
    return replace(case, net=net, routes=routes)


def at_speed(routes, folder):
    """The demand with vehicles that depart at the speed of traffic."""
    opened = gzip.open if routes.suffix == ".gz" else open
    with opened(routes, "rt", encoding="utf-8") as file:
        text = re.sub(r' departSpeed="[^"]*"', "", file.read())
    path = folder / "demand.rou.xml"
    path.write_text(re.sub(r"<(vehicle|flow|trip) ", r'<\1 departSpeed="max" ', text), encoding="utf-8")
    return path


def cycles(mapping, folder):
    """The cycle of each edge's signal, seconds."""
    by_node = {}
    for line in read_run(folder / "run.jsonl").first:
        if line.command["cmd"] == "signal":
            by_node[line.command["node"]] = sum(seconds for seconds, _ in line.command["phases"])
    return {link.edge: by_node.get(link.end, 60) for link in mapping.links}


def write_detectors(case, mapping, folder, seed, cycle, queues=True):
    """An additional file with an e3 for each approach (or one edgeData) and an e2 for each of its lanes."""
    net = read_net(str(case.net), ("passenger",), Report())
    lost = f'<edgeData id="lost" freq="{case.count_end}" file="lost-{seed}.xml" withInternal="true"/>'
    rows = [lost] if case.by_edges else []
    for edge, approach in approaches_of(mapping).items():
        lanes = net.edges[edge].lanes
        rows += [] if case.by_edges else e3(case, net, edges_of(mapping, approach)[-1], edge, seed)
        rows += [
            f'<laneAreaDetector id="{edge}_{lane.index}" lane="{edge}_{lane.index}" pos="0" endPos="-0.1" '
            f'friendlyPos="true" freq="{cycle[edge]}" file="e2-{seed}.xml"/>'
            for lane in lanes
            if queues
        ]
    (folder / f"detectors-{seed}.add.xml").write_text("<additional>\n" + "\n".join(rows) + "\n</additional>")


def edges_of(mapping, approach):
    """The edges of an approach, from the junction back."""
    return [approach.edge, *(mapping.links[links[0]].edge for links in approach.edges_before)]


def targets_of(net, edge):
    return sorted({one.target for one in net.connections if one.source == edge})


def e3(case, net, begin, edge, seed):
    """The rows of an e3 from the begin of an approach, an edge, to the edges behind the approach's last one."""
    lanes, targets = net.edges[begin].lanes, targets_of(net, edge)
    entry = min(ENTRY, lanes[0].metres / 2)
    return [
        f'<e3Detector id="{edge}" freq="{case.count_end}" file="e3-{seed}.xml" openEntry="true">',
        *(f'<detEntry lane="{begin}_{lane.index}" pos="{entry}"/>' for lane in lanes),
        *(
            f'<detExit lane="{target}_{lane.index}" pos="{min(ENTRY, lane.metres / 2)}"/>'
            for target in targets for lane in net.edges[target].lanes
        ),
        "</e3Detector>",
    ]


def lost_on_edges(case, folder, seed):
    """{edge: (vehicles that left it, what they lost there and in the junction behind)} by edgeData."""
    opened = gzip.open if case.net.suffix == ".gz" else open
    inside = defaultdict(set)  # the internal lanes behind a lane on the way to an edge
    internal_edges = defaultdict(set)  # the internal edges behind an edge
    with opened(case.net, "rt", encoding="utf-8") as file:
        for element in ElementTree.parse(file).getroot().iter("connection"):
            if element.get("via"):
                inside[f"{element.get('from')}_{element.get('fromLane')}", element.get("to")].add(element.get("via"))
    for (lane, target), ways in list(inside.items()):
        while ways:
            internal_edges[lane.rsplit("_", 1)[0]] |= {via.rsplit("_", 1)[0] for via in ways}
            ways = {via for lane in ways for via in inside.get((lane, target), ())}
    elements = ElementTree.parse(folder / f"lost-{seed}.xml").getroot().iter("edge")
    rows = {element.get("id"): element for element in elements}
    lost = {edge: float(element.get("timeLoss") or 0) for edge, element in rows.items()}
    left = {edge: int(element.get("left")) for edge, element in rows.items() if edge[0] != ":"}
    return {
        edge: (count, (lost[edge] + sum(lost.get(element, 0.0) for element in internal_edges[edge])) / count)
        for edge, count in left.items() if count
    }


def waits_to_enter(folder, seed):
    """{edge: seconds} that the vehicles which depart there wait together until they enter."""
    waits = defaultdict(float)
    for trip in ElementTree.parse(folder / f"trips-{seed}.xml").getroot():
        waits[trip.get("departLane").rsplit("_", 1)[0]] += float(trip.get("departDelay"))
    return waits


def on_approaches(case, mapping, delays, waits):
    """The delays of approaches, {edge: (vehicles, delay)}, from those that the detectors saw: with the waits to enter
    at them (waits: of all vehicles, by edge), as streetsim counts them, and from edges with the edges before."""
    by_approach = {}
    for edge, approach in approaches_of(mapping).items():
        edges = edges_of(mapping, approach)
        seen = [delays[one] for one in (edges if case.by_edges else [edge]) if one in delays]
        if edge in delays:
            lost = sum(count * delay for count, delay in seen) + sum(waits[one] for one in edges)
            by_approach[edge] = delays[edge][0], lost / delays[edge][0]
    return by_approach


def run_sumo(case, routes, folder, seed):
    """What the detectors saw: {edge: (vehicles, delay)} and {lane: the longest jam of each cycle, metres}."""
    if not (folder / f"done-{seed}").exists():
        lights = (folder / "green.add.xml",) if seed == LONE else ()
        more = ",".join(map(str, (*case.additional, *lights, folder / f"detectors-{seed}.add.xml")))
        words = ["sumo", "-n", case.net, "-r", routes, "-a", more, "--end", case.count_end]
        drawn = ("--scale", THIN) if seed == LONE else ("--seed", seed)
        trips = "--tripinfo-output", f"trips-{seed}.xml"
        run([*words, *drawn, *trips, "--no-step-log", "--no-warnings"], folder)
        (folder / f"done-{seed}").touch()
    delays, jams = lost_on_edges(case, folder, seed) if case.by_edges else {}, defaultdict(list)
    for one in [] if case.by_edges else ElementTree.parse(folder / f"e3-{seed}.xml").getroot():
        if int(one.get("vehicleSum")):
            delays[one.get("id")] = int(one.get("vehicleSum")), float(one.get("meanTimeLoss"))
    if (folder / f"e2-{seed}.xml").exists():
        for one in ElementTree.parse(folder / f"e2-{seed}.xml").getroot():
            jams[one.get("id")].append(float(one.get("maxJamLengthInMeters")))
    return delays, jams


def write_greens(case, folder):
    """An additional file with programs that are always green."""
    rows = []
    for light, program in read_net(str(case.net), ("passenger",), Report()).programs.items():
        phase = f'<phase duration="90" state="{"G" * len(program.phases[0][1])}"/>'
        rows.append(f'<tlLogic id="{light}" type="static" programID="green" offset="0">{phase}</tlLogic>')
    (folder / "green.add.xml").write_text("<additional>\n" + "\n".join(rows) + "\n</additional>")


def alone(case, mapping, routes, folder, cycle):
    """What a vehicle loses that nobody hinders: {edge: seconds} of each approach, the mean of all for the others."""
    write_detectors(case, mapping, folder, LONE, cycle, queues=False)
    write_greens(case, folder)
    delays = on_approaches(case, mapping, run_sumo(case, routes, folder, LONE)[0], defaultdict(float))
    usual = mean_delay(delays.values())
    return defaultdict(lambda: usual, {edge: lost for edge, (_, lost) in delays.items()})


def run_here(case, folder, seeds, program):
    more = ["--seeds", seeds, "--departures", "listed"]
    more += ["--jobs", 1, "--junctions", case.count_end, "--period", case.count_end]
    simulate(case, folder, program, "--every", 60, *more)


def simulate(case, folder, program, *words):
    """Runs the case here, with the words that say what is written."""
    usual = ["run.jsonl", "--map", "run.map.json", "--until", case.count_end, "--out", "here", "--program", program]
    run([TOP / "tools/streetsim-run", *usual, *words], folder)


def convert(case, routes, folder):
    """Imports the case; gives its map."""
    words = [case.net, *case.additional, "--routes", routes, "-o", "run.jsonl", "--map", "run.map.json"]
    run([TOP / "tools/streetsim-import", *words], folder)
    return read_map(folder / "run.map.json")


def rows_of(folder, seed):
    with open(folder / f"here/seed-{seed}/approaches.csv", encoding="utf-8") as file:
        return {row["approach"]: row for row in csv.DictReader(file)}


@dataclass
class ComparedApproach:
    """An approach in SUMO and here: vehicles and delays over all seeds, mean 95 % queues."""

    edge: str
    control: str
    vehicles: tuple
    delays: tuple
    queues: tuple
    counted_delay: float  # the delay as SUMO counts it, with what a vehicle alone loses

    def letters(self):
        return tuple(LETTERS.index(level(delay, self.control)) for delay in self.delays)


def mean_delay(pairs):
    """The mean of (vehicles, delay) pairs by vehicles."""
    return sum(count * delay for count, delay in pairs) / sum(count for count, _ in pairs)


def judged(case, folder, seeds, mapping, free):
    """The approaches with vehicles enough on both sides; free: what a vehicle loses in SUMO that nobody hinders."""
    sumo_runs = []
    for seed in seeds:
        delays, jams = run_sumo(case, folder / "demand.rou.xml", folder, seed)
        sumo_runs.append((on_approaches(case, mapping, delays, waits_to_enter(folder, seed)), jams))
    our_runs = [rows_of(folder, seed) for seed in seeds]
    for edge, approach in approaches_of(mapping).items():
        own_rows = [rows[edge] for rows in our_runs if edge in rows]
        ours = [(int(row["vehicles"]), float(row["control_delay_s"])) for row in own_rows]
        theirs = [delays[edge] for delays, _ in sumo_runs if edge in delays]
        counts = tuple(sum(count for count, _ in side) for side in (theirs, ours))
        if min(counts) < LEAST_VEHICLES:
            continue
        lanes = [name for name in sumo_runs[0][1] if name.rsplit("_", 1)[0] == edge]
        jams = fmean(max(percentile(jams[lane], 0.95) for lane in lanes) for _, jams in sumo_runs)
        queue = fmean(min(float(row["queue_95_m"]), approach.metres) for row in own_rows)
        counted = mean_delay(theirs)
        delays = max(0.0, counted - free[edge]), mean_delay(ours)
        yield ComparedApproach(edge, approach.control, counts, delays, (jams, queue), counted)


def row_text(name, control, approaches):
    """A row of the table."""
    means = [mean_delay([(one.vehicles[side], one.delays[side]) for one in approaches]) for side in (0, 1)]
    counted_delay = mean_delay([(one.vehicles[0], one.counted_delay) for one in approaches])
    r = correlation([one.delays[0] for one in approaches], [one.delays[1] for one in approaches])
    apart = [abs(one.letters()[0] - one.letters()[1]) for one in approaches]
    queues = [fmean(one.queues[side] for one in approaches) for side in (0, 1)]
    excess = (means[1] / means[0] - 1) * 100, (queues[1] / queues[0] - 1) * 100 if queues[0] else 0.0
    count = len(approaches)
    return (
        f"| {name}, {control} | {count} | {counted_delay:.1f} | {means[0]:.1f} | {means[1]:.1f} ({excess[0]:+.0f} %) | "
        f"{r or 0:.2f} | "
        f"{apart.count(0) / count * 100:.0f} %, {sum(gap <= 1 for gap in apart) / count * 100:.0f} % | "
        f"{queues[0]:.0f} | {queues[1]:.0f} ({excess[1]:+.0f} %) |"
    )


def compare(case, args, seeds):
    folder = args.work / case.name
    folder.mkdir(parents=True, exist_ok=True)
    case = prepared(case, folder)
    routes = at_speed(case.routes, folder)
    mapping = convert(case, routes, folder)
    cycle = cycles(mapping, folder)
    free = alone(case, mapping, routes, folder, cycle)
    for seed in seeds:
        write_detectors(case, mapping, folder, seed, cycle)
        run_sumo(case, routes, folder, seed)
    run_here(case, folder, args.seeds, args.program)
    found = list(judged(case, folder, seeds, mapping, free))
    controls = (SIGNALS, "priority")
    groups = [(control, [approach for approach in found if approach.control == control]) for control in controls]
    if all(those for _, those in groups):
        print(row_text(case.name, "all", found))
    for control, those in groups:
        if those:
            print(row_text(case.name, control, those), flush=True)
        for approach in those:
            if abs(approach.letters()[0] - approach.letters()[1]) > 1 or args.all:
                print(described(approach), flush=True)


def described(one):
    """A line on an approach."""
    letters = "".join(LETTERS[letter] for letter in one.letters())
    delays, queues = ("{:.1f} and {:.1f} s".format(*one.delays), "{:.0f} and {:.0f} m".format(*one.queues))
    return f"    {one.edge}: {one.vehicles} vehicles, {delays} ({letters}), queues {queues}"


LONE_CROSSES = (  # way, lanes, vehicles an hour from each side
    ("straight", 1, (150, 300, 450, 600)),
    ("straight", 2, (300, 600, 900, 1200)),
    ("right", 1, (150, 300, 450)),
)


def calibrate(args, seeds):
    """The loss of a stop, of each way: the delay that SUMO's e3 have more, over the share that stops here. Of lone
    crosses of one lane and of two, on which all go the same way."""
    for way, lanes, flows in LONE_CROSSES:
        pairs = []
        for flow, seed in product(flows, seeds):
            folder = args.work / f"cross-{way}-{lanes}-{flow}-{seed}"
            folder.mkdir(parents=True, exist_ok=True)
            routes = folder / "one.rou.xml"
            routes.write_text(demand({(arm, way): flow for arm in "wens"}, seed), encoding="utf-8")
            case = Case("cross", cross_of(lanes, args.work), routes)
            for edge, there, lost, share in apart(case, folder, seed, args.program):
                pairs.append((share, there - lost))
                told = f"SUMO {there:.1f} s, here {lost:.1f} s without the loss of a stop, {share:.2f} stop"
                print(f"{way}, {lanes} lanes, {flow} an hour, {edge}: {told}", flush=True)
        loss = sum(share * more for share, more in pairs) / sum(share * share for share, _ in pairs)
        squares = f"least squares over {len(pairs)} approaches"
        print(f"{way}, {lanes} lanes: loss of a stop {loss:.2f} s ({squares})", flush=True)


def cross_of(lanes, folder):
    """The network of a lone cross: the tests' of one lane, or the same of more, made by netconvert."""
    if lanes == 1:
        return SAMPLES / "cross1.net.xml.gz"
    net = folder / f"cross-of-{lanes}.net.xml"
    if not net.exists():
        places = {"c": (0, 0), "w": (-500, 0), "e": (500, 0), "n": (0, 500), "s": (0, -500)}
        plain = Plain()
        for name, (x, y) in places.items():
            plain.node(name, x, y, "traffic_light" if name == "c" else "")
        for arm in "wens":
            for source, target in ((arm, "c"), ("c", arm)):
                plain.named_edge(f"{source}{target}", source, target, numLanes=lanes, speed=13.89)
        plain.make(net, "--no-turnarounds", "--tls.cycle.time", 90)
    return net


def apart(case, folder, seed, program):
    """For each approach the delay in SUMO, here without the loss of a stop, and the share that stops."""
    routes = at_speed(case.routes, folder)
    mapping = convert(case, routes, folder)
    cycle = cycles(mapping, folder)
    write_detectors(case, mapping, folder, seed, cycle)
    delays, _ = run_sumo(case, routes, folder, seed)
    free = alone(case, mapping, routes, folder, cycle)
    simulate(case, folder, program, "--every", 1)
    for edge, (lost, share) in plain_delays(folder, mapping).items():
        yield edge, delays[edge][1] - free[edge], lost, share


def plain_delays(folder, mapping):
    """For each approach the mean delay without the loss of a stop, and the share that stops."""
    by_edge = defaultdict(list)
    for one in plain_crossings(folder, mapping):
        by_edge[one.movement[0]].append(one)
    return {
        edge: (fmean(one.delay for one in those), fmean(one.stops > 0 for one in those))
        for edge, those in by_edge.items()
    }


def plain_crossings(folder, mapping):
    """What each vehicle lost on each approach, without the loss of a stop, in the order in which they left these."""
    measuring.STOP_LOSS = 0.0, 0.0
    there, approach_passages = read_folder(str(folder / "here")), Passages()
    plans = [line.command["plan"] for line in read_run(folder / "run.jsonl").enters]
    kernel = kernel_of(mapping, plans, dawdle=there.dawdle)
    show(kernel, [(poll["clock"], [lane[:4] for lane in poll["lanes"]]) for poll in there.polls()], approach_passages)
    movements, crossings = Movements(approach_passages), []
    planned = PlanPlaces(movements, kernel.plans)
    for _, passages in approach_passages.ended_passages(3600, {}):
        found = Crossings(planned, passages)
        columns = (one.tolist() for one in (found.movement, found.delay, found.stops))
        crossings += [
            SimpleNamespace(movement=movements.edge_pair(number), delay=delay, stops=stops)
            for number, delay, stops in zip(*columns, strict=True)
        ]
    return crossings


def main_delays(argv: list[str]) -> int | None:
    """Control delays, letters and queues of approaches beside SUMO; the loss of a stop.

    Takes minutes a seed; needs sumo, sumo-tools.

    An e3 of each approach begins where a departing vehicle stands on its first edge and ends as far into the next edges
    (SUMO 1.15 ends at an assertion where it lies nearer to their begins); an e2 lies on each lane of its last edge and
    tells the longest jam in each cycle, so queues count here as far as that edge goes. In SUMO vehicles depart at the
    speed of traffic (departSpeed="max"), so that a departure is no delay; the wait to enter is one on both sides. An e3
    counts as lost what a vehicle loses that nobody hinders: it drives below its speed by chance, and slower in turns.
    So from each approach that is taken off which a tenth of the demand loses where all lights are green.
    --calibrate: the loss of a stop, from lone crosses.
    """
    parser = shared.parser_of(main_delays, work=True)
    parser.add_argument("--seeds", default="1-5")
    shared.add_some(parser, "--only", (case.name for case in CASES))
    parser.add_argument("--calibrate", action="store_true")
    parser.add_argument("--all", action="store_true", help="print each approach")
    args = parser.parse_args(argv)
    seeds = shared.numbers(args.seeds)
    if args.calibrate:
        return calibrate(args, seeds)
    delays = "delay as SUMO counts it, s | beyond a vehicle alone, s | here, s | r | same letter, within one"
    shared.print_heads(f"Network, approaches at | approaches | {delays} | 95 % queue: SUMO, m | here, m")
    for case in CASES:
        if case.name in args.only:
            compare(case, args, seeds)
    return None
