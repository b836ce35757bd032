"""Networks with lights of many kinds beside SUMO: trips, movements, queues, and which of two variants is better."""

import argparse
import json
import re
import shutil
import xml.etree.ElementTree as ElementTree
from collections import Counter, defaultdict
from collections.abc import Iterable, Iterator, Sequence
from dataclasses import dataclass, replace
from functools import cache
from itertools import combinations, pairwise
from pathlib import Path
from random import Random
from statistics import fmean, stdev

import shared
from beside_sumo import rows
from beside_sumo.rows import Row, Side, Way, common_ways, mean_delay
from networks.lit_streets import MAIN, Program, programs_of, put_programs, with_cycle, with_split
from networks.unseen import KINDS, LIT, MadeNetwork, connections_of, make, read_net, ways_of
from shared import run
from streetsim.model.service import percentile
from streetsim.report.beside_sumo import correlation, read_tripinfo

# ---- variants of a network

CASES = ("base", "cycle", "split", "offsets", "closed", "demand")
PLANS = ("base", "cycle", "split")  # that a formula tells apart
TIMES = (0.7, 1.4)  # of the cycle
MOVED = (-0.2, 0.2)  # of the greens, to the main street or from it
STAYING = 0.85  # share of the vehicles
VEHICLE = re.compile("<vehicle .*?</vehicle>", re.DOTALL)
EDGES, CONNECTIONS = "plain.edges.xml", "plain.connections.xml"


def variants_of(network: MadeNetwork, cases: Sequence[str]) -> dict[str, MadeNetwork]:
    """The network as it is and its variants; none of a closed lane where no lane can be closed."""
    found = {case: variant_of(network, case) for case in cases}
    return {case: one for case, one in found.items() if one}


def variant_of(network: MadeNetwork, case: str) -> MadeNetwork | None:
    """The network with one thing changed, in a folder of its own, made where it is not there yet."""
    if case == "base":
        return network
    if case == "closed" and not closable(network.folder):
        return None
    variant = replace(network, folder=network.folder / case)
    if not (variant.folder / "made").exists():
        variant.folder.mkdir(exist_ok=True)
        for path in (network.net, *network.routes, *network.additional):
            shutil.copy(path, variant.folder)
        CHANGES[case](variant, Random(f"{network.name} {case}"))
        (variant.folder / "made").touch()
    return variant


def other_cycle(variant: MadeNetwork, draws: Random) -> None:
    times = draws.choice(TIMES)
    put_programs(variant.net, [with_cycle(one, round(times * one.cycle)) for one in programs_of(variant.net)])


def other_split(variant: MadeNetwork, draws: Random) -> None:
    moved, changed = draws.choice(MOVED), []
    for one in programs_of(variant.net):
        greens = [(one.phases[at][0], one.is_main(at)) for at in one.greens]
        share = sum(seconds for seconds, is_main in greens if is_main) / sum(seconds for seconds, _ in greens)
        changed.append(with_split(one, share + moved))
    put_programs(variant.net, changed)


def other_offsets(variant: MadeNetwork, draws: Random) -> None:
    own = programs_of(variant.net)
    put_programs(variant.net, [replace(one, offset=draws.randrange(one.cycle)) for one in own])


def less_demand(variant: MadeNetwork, draws: Random) -> None:
    path = variant.routes[0]
    text = path.read_text(encoding="utf-8")
    kept = re.sub(VEHICLE, lambda one: one[0] if draws.random() < STAYING else "", text)
    path.write_text(kept, encoding="utf-8")


def closed_lane(variant: MadeNetwork, draws: Random) -> None:
    """A lane of a main street is closed behind a light: the lanes that led to it lead to the one beside it."""
    draft = KINDS[variant.kind].build(Random(f"{variant.kind} {variant.seed}"), variant.folder)
    path, closed_name = variant.folder / EDGES, draws.choice(closable(variant.folder))
    edges = ElementTree.parse(path)
    closed = next(one for one in edges.getroot() if one.get("id") == closed_name)
    close(closed)
    edges.write(path, encoding="utf-8")
    found = [one for one in ElementTree.parse(variant.net).getroot().iter("connection") if one.get("from")[0] != ":"]
    sources = {one.get("from") for one in found if one.get("to") == closed.get("id")}
    (variant.folder / CONNECTIONS).write_text(connections_onto(found, sources, closed), encoding="utf-8")
    words = [*draft.maker_words, "-x", CONNECTIONS, "--no-turnarounds", "true", "--no-warnings", "-o", variant.net.name]
    run(words, variant.folder)
    if draft.change:
        draft.change(variant.net)


def closable(folder: Path) -> list[str]:
    """The edges of a main street behind a light that have a lane to spare; none where a network tells its connections,
    or lanes are for some alone."""
    if (folder / CONNECTIONS).exists():
        return []
    nodes = ElementTree.parse(folder / "plain.nodes.xml").getroot()
    lit = {node.get("id") for node in nodes if node.get("type") == "traffic_light"}
    every = [edge for edge in ElementTree.parse(folder / EDGES).getroot() if edge.get("from") in lit]
    return [edge.get("id") for edge in every if int(edge.get("priority")) >= MAIN and is_wide(edge)]


def is_wide(edge: ElementTree.Element) -> bool:
    lanes = len(edge[0].get("lanes").split()) if edge.findall("split") else int(edge.get("numLanes"))
    return lanes >= 2 and edge.find("lane") is None


def close(edge: ElementTree.Element) -> None:
    """Takes the leftmost lane that goes through from an edge."""
    edge.set("numLanes", str(int(edge.get("numLanes")) - 1))
    for part in edge.findall("split"):
        part.set("lanes", " ".join(part.get("lanes").split()[:-1]))


def connections_onto(found: Iterable[ElementTree.Element], sources: set[str], closed: ElementTree.Element) -> str:
    """All connections from some edges, those to a lane that is closed to the one beside it."""
    split = closed.find("split")
    last = (len(split.get("lanes").split()) if split is not None else int(closed.get("numLanes"))) - 1
    lines = []
    for one in (one for one in found if one.get("from") in sources):
        lane = min(int(one.get("toLane")), last) if one.get("to") == closed.get("id") else one.get("toLane")
        ends = f'from="{one.get("from")}" to="{one.get("to")}"'
        lines.append(f'<connection {ends} fromLane="{one.get("fromLane")}" toLane="{lane}"/>')
    return f"<connections>{''.join(lines)}</connections>\n"


CHANGES = {
    "cycle": other_cycle, "split": other_split, "offsets": other_offsets, "closed": closed_lane, "demand": less_demand,
}


# ---- SUMO's side

THIN = 0.1  # of the vehicles drive alone, all lights green
LONE = "lone"  # the run of those, in place of a seed


@dataclass(frozen=True)
class Layout:
    """Edges of a network of SUMO's."""

    free: dict[str, float]  # seconds at its speed
    continued: set[str]  # edges that another alone continues
    lit: dict[str, int]  # edges before a light, and its cycle
    lanes: dict[str, list[list[str]]]  # of an edge, each with those before that it continues, in the order of driving
    metres: dict[str, float]  # of a lane


@cache
def layout_of(net: Path) -> Layout:
    root = ElementTree.parse(net).getroot()
    edges = [edge for edge in root.iter("edge") if edge.get("function") != "internal"]
    into, out_of = Counter(edge.get("to") for edge in edges), Counter(edge.get("from") for edge in edges)
    cycles = {program.light: program.cycle for program in programs_of(net)}
    plain = {node for node in into if into[node] == out_of[node] == 1} - cycles.keys()
    ends = {edge.get("id"): edge.get("to") for edge in edges}
    lit = {edge.get("id"): cycles[edge.get("to")] for edge in edges if edge.get("to") in cycles}
    before = {
        f"{row.get('to')}_{row.get('toLane')}": f"{row.get('from')}_{row.get('fromLane')}"
        for row in root.iter("connection") if ends.get(row.get("from")) in plain
    }
    lanes = {edge.get("id"): [path_to(lane.get("id"), before) for lane in edge.iter("lane")] for edge in edges}
    metres = {lane.get("id"): float(lane.get("length")) for edge in edges for lane in edge.iter("lane")}
    continued = {edge for edge, end in ends.items() if end in plain}
    return Layout(rows.speeds_of(net), continued, lit, lanes, metres)


def path_to(lane: str, before: dict[str, str]) -> list[str]:
    return [*path_to(before[lane], before), lane] if lane in before else [lane]


def in_sumo(network: MadeNetwork, seed: int) -> Side:
    """SUMO's run: a delay is what a vehicle loses from where it departs or leaves a junction to its next stop line."""
    side_file = network.folder / f"sumo-{seed}.json"
    if not side_file.exists():
        layout = layout_of(network.net)
        queues = write_queues(network, layout, seed)
        trips, ways, statistics = rows.files_of_sumo(network, seed, [queues])
        jams = queues_of(network.folder / f"jams-{seed}.xml", layout)
        side = Side(read_tripinfo(str(trips)), lost_on(ways, layout), shared.teleports_of(statistics), "", jams)
        side_file.write_text(rows.text_of(side), encoding="utf-8")
        for path in (trips, ways, statistics, queues, network.folder / f"jams-{seed}.xml"):
            path.unlink()
    return rows.side_of(side_file.read_text(encoding="utf-8"))


def lone_losses(network: MadeNetwork) -> defaultdict[Way, float]:
    """What a vehicle loses that nobody hinders, by movement; the mean where none was seen."""
    lost_file = network.folder / f"{LONE}.json"
    if not lost_file.exists():
        greens = network.folder / "green.add.xml"
        write_greens(greens, programs_of(network.net))
        trips, ways, statistics = rows.files_of_sumo(network, LONE, [greens], ["--scale", THIN])
        text = json.dumps([[*way, *values] for way, values in lost_on(ways, layout_of(network.net)).items()])
        lost_file.write_text(text, encoding="utf-8")
        for path in (trips, ways, statistics, greens):
            path.unlink()
    found = {(a, b): (count, lost) for a, b, count, lost in json.loads(lost_file.read_text(encoding="utf-8"))}
    usual = sum(count * lost for count, lost in found.values()) / sum(count for count, _ in found.values())
    return defaultdict(lambda: usual, {way: lost for way, (_, lost) in found.items()})


def write_greens(path: Path, programs: Iterable[Program]) -> None:
    """An additional file with programs that are always green."""
    lights = [
        f'<tlLogic id="{one.light}" type="static" programID="green" offset="0">'
        f'<phase duration="90" state="{"G" * len(one.phases[0][1])}"/></tlLogic>' for one in programs
    ]
    path.write_text(f"<additional>{''.join(lights)}</additional>", encoding="utf-8")


def lost_on(path: Path, layout: Layout) -> dict[Way, tuple[float, float]]:
    """Vehicles and their mean loss, by the last edge of an approach and the next edge."""
    return {way: (len(values), fmean(values)) for way, values in lost_between(path, layout).items()}


def lost_between(path: Path, layout: Layout, seconds: range | None = None) -> dict[Way, list[float]]:
    """What those lost who left an approach in these seconds, or at all, from where they departed or left a junction."""
    lost = defaultdict(list)
    for vehicle in ElementTree.parse(path).getroot().iter("vehicle"):
        route = vehicle.find("route") if vehicle.find("route") is not None else vehicle.find("routeDistribution/route")
        edges, ends = route.get("edges").split(), [float(text) for text in route.get("exitTimes", "").split()]
        begin, free = float(vehicle.get("depart")), 0.0
        for (edge, following), end in zip(pairwise(edges), ends, strict=False):
            if end < 0:
                break
            free += layout.free[edge]
            if edge not in layout.continued:
                if seconds is None or int(end) in seconds:
                    lost[edge, following].append(end - begin - free)
                begin, free = end, 0.0
    return lost


def write_queues(network: MadeNetwork, layout: Layout, seed: int, period: int = 0) -> Path:
    """Detectors of the queues of each lane that leads to a light, in each cycle, or by a period in seconds."""
    path = network.folder / f"queues-{seed}.add.xml"
    cycles = {lane: cycle for edge, cycle in layout.lit.items() for way in layout.lanes[edge] for lane in way}
    lines = [
        f'<laneAreaDetector id="{lane}" lane="{lane}" pos="0" endPos="-0.1" friendlyPos="true" '
        f'period="{period or cycle}" file="jams-{seed}.xml"/>' for lane, cycle in cycles.items()
    ]
    path.write_text(f"<additional>{''.join(lines)}</additional>", encoding="utf-8")
    return path


FREE_METRES = 8.0  # of a lane with a queue that goes on behind it


def queues_of(path: Path, layout: Layout) -> dict[str, float]:
    """The 95 % queue of each approach, of the lane whose queue is the longest."""
    jams = defaultdict(list)
    for one in ElementTree.parse(path).getroot():
        jams[one.get("id")].append(float(one.get("maxJamLengthInMeters")))
    return {
        edge: max(percentile(whole_jams(way, jams, layout), 0.95) for way in layout.lanes[edge]) for edge in layout.lit
    }


def whole_jams(way: Sequence[str], jams: dict[str, list[float]], layout: Layout) -> list[float]:
    """The jam of each cycle over lanes in the order of driving: one that fills a lane goes on on the lane before it."""
    metres = [0.0] * len(jams[way[-1]])
    for at in range(len(metres)):
        for lane in reversed(way):
            metres[at] += jams[lane][at]
            if jams[lane][at] < layout.metres[lane] - FREE_METRES:
                break
    return metres


def until_locked(network: MadeNetwork, seeds: Sequence[int]) -> list[Side]:
    """SUMO's runs, in order; none behind the first that is locked."""
    found: list[Side] = []
    for seed in seeds:
        found.append(in_sumo(network, seed))
        if found[-1].teleports > rows.LOCKED * network.vehicles:
            break
    return found


# ---- both sides

LEAST_VEHICLES = 20  # vehicles of a movement that is compared
SHARE, SECONDS = 0.10, 3.0  # within which a movement's delay is near SUMO's


@dataclass(frozen=True)
class Compared:
    """A network, or a variant, on both sides."""

    row: Row
    case: str
    theirs: list[float]  # mean trip of each run
    ours: list[float]
    movements: dict[Way, tuple[float, float]]  # delays in SUMO and here
    queues: dict[str, tuple[float, float]]  # metres of 95 % queues
    formula: float  # seconds a vehicle

    @property
    def near(self) -> int:
        """Movements whose delay is near SUMO's."""
        return sum(abs(ours - theirs) <= max(SECONDS, SHARE * theirs) for theirs, ours in self.movements.values())


def compared(case: str, network: MadeNetwork, args: argparse.Namespace) -> Compared:
    theirs = until_locked(network, args.runs)
    ours = rows.sides_here(network, args.runs[: len(theirs)], args.program, args.tools)
    shutil.rmtree(network.folder / "out", ignore_errors=True)
    first = rows.warm_up(network)
    trips = [rows.mean_trips([one], [other], first) for one, other in zip(theirs, ours, strict=True)]
    row, alone = rows.row_of(f"{network.name}, {case}", network, theirs, ours), lone_losses(network)
    counts = {way: min(side.delays[way][0] for side in theirs) for way in common_ways([*theirs, *ours])}
    movements = {
        way: (max(0.0, mean_delay(theirs, {way}) - alone[way]), mean_delay(ours, {way}))
        for way, count in sorted(counts.items()) if count >= LEAST_VEHICLES
    }
    queues = {
        edge: tuple(fmean(side.queues[edge] for side in sides) for sides in (theirs, ours))
        for edge in sorted(theirs[0].queues) if all(edge in side.queues for side in [*theirs, *ours])
    }
    return Compared(row, case, *map(list, zip(*trips)), movements, queues, by_formula(network))


def by_formula(network: MadeNetwork) -> float:
    """Seconds of delay of a vehicle by Webster's formula, whose second term is that of a time with an end, so that it
    holds for full lanes too."""
    hours, net = network.seconds / 3600, read_net(network.net)
    hourly = {way: count / hours for way, count in Counter(
        pair for way in ways_of(network.routes[0]) for pair in pairwise(way)).items()}
    cycles, by_lane = layout_of(network.net).lit, defaultdict(list)
    for one in connections_of(net):
        if one.movement in hourly and one.lane[0] in cycles:
            by_lane[one.lane].append((hourly[one.movement] / one.lanes, one.green, one.capacity(hourly)))
    return sum(lost_on_lane(own, cycles[edge], hours) for (edge, _), own in by_lane.items()) / network.vehicles


def lost_on_lane(own: Sequence[tuple[float, float, float]], cycle: int, hours: float) -> float:
    """Seconds that all lose on a lane; own: vehicles an hour, share of green, capacity of each of its movements."""
    hourly, full = sum(flow for flow, _, _ in own), sum(flow / capacity for flow, _, capacity in own)
    green, capacity = sum(flow * green for flow, green, _ in own) / hourly, hourly / full
    uniform = cycle * (1 - green) ** 2 / (2 * (1 - green * min(1.0, full)))
    random = 900 * hours * (full - 1 + ((full - 1) ** 2 + 4 * full / (capacity * hours)) ** 0.5)
    return (uniform + random) * hourly * hours


# ---- which of two variants is better


@dataclass(frozen=True)
class Decision:
    """Two variants that differ in SUMO."""

    cases: tuple[str, str]
    right: bool
    formula_right: bool
    doubted: bool


DIFFER = 0.02  # of the mean trip


def decisions(found: Sequence[Compared]) -> Iterator[Decision]:
    for first, second in combinations([one for one in found if not one.row.is_locked], 2):
        apart = [b - a for a, b in zip(first.theirs, second.theirs)]
        here = fmean(b - a for a, b in zip(first.ours, second.ours))
        error = stdev(apart) / len(apart) ** 0.5 if len(apart) > 1 else 0.0
        change = fmean(apart)
        if abs(change) >= max(DIFFER * fmean(first.theirs), 2 * error):
            by_formula, doubted = second.formula - first.formula, bool(first.row.doubt or second.row.doubt)
            yield Decision((first.case, second.case), here * change > 0, by_formula * change > 0, doubted)


def share_right(name: str, some: Sequence[Decision]) -> str:
    right, formula = sum(one.right for one in some), sum(one.formula_right for one in some)
    return f"| {name} | {len(some)} | {right} | {formula} |"


# ---- the measurement

LOWEST, HIGHEST = 0.4, 0.95


def drawn(seed: int, count: int, kinds: Sequence[str]) -> list[tuple[str, int, float]]:
    """So many networks of the kinds in turn: kind, seed, level."""
    draws, found = Random(seed), []
    while len(found) < count:
        turn = draws.sample(list(kinds), len(kinds))
        found += [(kind, draws.randrange(1000, 100_000), round(draws.uniform(LOWEST, HIGHEST), 2)) for kind in turn]
    return found[:count]


def network_line(base: Compared) -> str:
    row, queues = base.row, base.queues.values()
    trip = "SUMO locks" if row.is_locked else f"{row.here:.1f} ({row.excess:+.1%})"
    metres = [fmean(one[at] for one in queues) if queues else 0.0 for at in (0, 1)]
    cells = row.network.removesuffix(", base"), f"{row.level:g}", f"{row.sumo:.1f}", trip
    last = f"{base.near} of {len(base.movements)}", f"{metres[0]:.0f} / {metres[1]:.0f}", rows.reason(row.doubt)
    return f"| {' | '.join([*cells, *last])} |"


def worst_lines(base: Compared, count: int) -> Iterator[str]:
    far = sorted(base.movements.items(), key=lambda one: -abs(one[1][1] - one[1][0]))[:count]
    yield from (f"    {' to '.join(way)}: {theirs:.0f} s, here {ours:.0f} s" for way, (theirs, ours) in far)


def summary(bases: Sequence[Compared]) -> Iterator[str]:
    free = [base for base in bases if not base.row.is_locked]
    off = [abs(base.row.excess) for base in free]
    silent = sum(abs(base.row.excess) > 0.08 and not base.row.doubt for base in free)
    doubted = sum(bool(base.row.doubt) for base in free)
    yield f"| networks that SUMO does not lock | {len(free)} of {len(bases)} |"
    yield f"| mean of the differences of mean trips | {fmean(off):.1%} |"
    yield f"| within 5 % | {sum(share <= rows.NEAR for share in off)} |"
    yield f"| beyond 8 % in silence | {silent} |"
    yield f"| doubted | {doubted} |"
    movements = sum(len(base.movements) for base in free)
    yield f"| movements within 10 % or 3 s | {sum(base.near for base in free) / movements:.0%} of {movements} |"
    queues = [pair for base in free for pair in base.queues.values()]
    theirs, ours = zip(*queues)
    there, here, r = fmean(theirs), fmean(ours), correlation(theirs, ours) or 0.0
    yield f"| 95 % queues: SUMO, here, r | {there:.1f} m, {here:.1f} m ({here / there - 1:+.1%}), {r:.2f} |"


def by_pairs(every: Sequence[Decision]) -> Iterator[str]:
    yield share_right("all", every)
    yield share_right("doubted", [one for one in every if one.doubted])
    yield share_right("cycle and split alone", [one for one in every if set(one.cases) <= {*PLANS}])
    for case in CASES[1:]:
        yield share_right(f"base and {case}", [one for one in every if one.cases == ("base", case)])


def main_lit(argv: list[str]) -> int | None:
    """Networks with lights that chose nothing: trips, movements, queues and variants beside SUMO.

    Takes a minute a network; needs sumo, sumo-tools.

    SEED draws so many networks of the kinds, with 0.4 to 0.95 of what the busiest lane can pass. A movement of 20
    vehicles and more is near where its delay is within 10 % or 3 s of SUMO's, in which what a vehicle loses alone is
    taken off. Variants of a network are another cycle, split and offsets, a lane closed, and fewer vehicles; two are
    compared where they differ in SUMO by 2 % and two standard errors, beside Webster's formula. Draw the seed when the
    work is done: then the table judges. What both sides found is kept in the folder of --work, ours by the tools.
    """
    parser = rows.parser_of(main_lit, "1-3")
    parser.add_argument("--networks", type=int, default=40)
    parser.add_argument("--part", type=shared.numbers, default=range(1, 1000), help="FIRST-LAST of these, from 1 on")
    shared.add_some(parser, "--kinds", KINDS, LIT)
    shared.add_some(parser, "--cases", CASES)
    parser.add_argument("--worst", type=int, default=0, help="print so many movements that are off most")
    args = parser.parse_args(argv)
    args.folder = shared.work_of(args)
    shared.print_heads("Network | load | SUMO, s | here, s | movements near | queue, m: SUMO / here | the last line")
    bases, every = [], []
    for number, (kind, seed, level) in enumerate(drawn(args.seed, args.networks, args.kinds), 1):
        if number not in args.part:
            continue
        made = make(kind, seed, args.folder, level, seconds=rows.HALF)
        found = [compared(case, variant, args) for case, variant in variants_of(made, args.cases).items()]
        bases.append(found[0])
        every += decisions(found)
        print(network_line(found[0]), *worst_lines(found[0], args.worst), sep="\n", flush=True)
    print("", *summary(bases), "", sep="\n")
    shared.print_heads("Pairs of variants | differ in SUMO | right here | by the formula")
    print(*by_pairs(every), sep="\n")
    if args.rows:
        rows.keep(args.rows, [base.row for base in bases])
