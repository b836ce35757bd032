"""Lone junctions beside SUMO, side by side in one network of netconvert's: who passes them against full streams, and
what the few lose.

A junction has arms to the west, east, north and south, of 500 m if not told. One stream is looked at, others go along
or across.
"""

import math
import random
from collections import Counter, defaultdict
from collections.abc import Callable, Sequence
from dataclasses import dataclass
from pathlib import Path
from statistics import fmean

import shared
from beside_sumo.rows import run_files, sumo_trips, trips_here
from networks.streets import Plain, quarter
from shared import TOOLS
from streetsim.report.beside_sumo import read_tripinfo
from streetsim.report.picture_files import load_pyplot, save_picture

FIRST, LAST = 600, 3900  # seconds of the count
# Metres of an arm that leads to the junction, and of one from it; metres a second.
ARM, EXIT_ARM, SPEED = 500, 200, 13.89
RADIUS = 18  # of a roundabout, metres
APART = 2500  # metres from junction to junction
PLACES = {"w": (-1, 0), "e": (1, 0), "n": (0, 1), "s": (0, -1)}
ROUND = "enws"  # the arms in the order of driving
TYPES = {"equal": "right_before_left", "stop": "priority_stop", "allway": "allway_stop"}
Trips = dict[str, tuple[float, float]]  # departure and arrival


@dataclass(frozen=True)
class Stream:
    ends: str  # from, to
    hourly: float
    lane: int | str = "best"  # on which it departs


@dataclass(frozen=True)
class Junction:
    name: str
    arms: str = "wens"
    kind: str = "priority"  # or a word of TYPES, roundabout, or a type of SUMO's
    looked_at: tuple[Stream, ...] = ()
    major: tuple[Stream, ...] = ()
    lanes: int = 1  # of the main street
    exit_lanes: int = 0  # of its arms that lead away; 0: as many
    arm: int = ARM
    exit_arm: int = EXIT_ARM
    speed: float = SPEED
    radius: int = RADIUS

    @property
    def type(self) -> str:
        return TYPES.get(self.kind, "priority" if self.kind == "roundabout" else self.kind)

    def priority(self, arm: str) -> int:
        return 5 if self.kind in ("equal", "allway") else 10 if arm in "we" else 1


def draw_junction(plain: Plain, junction: Junction, x: float) -> None:
    """Nodes and edges of a lone junction."""
    if junction.kind == "roundabout":
        return draw_roundabout(plain, junction, x)
    plain.node(junction.name, x, 0, junction.type)
    for arm in junction.arms:
        draw_arm(plain, junction, junction.name, arm, junction.priority(arm), junction.lanes if arm in "we" else 1)
        draw_ends(plain, junction, arm, x, 0)


def draw_ends(plain: Plain, junction: Junction, arm: str, x: float, radius: float) -> None:
    """The far ends of an arm."""
    right, up = PLACES[arm]
    for side, length in (("in", junction.arm), ("out", junction.exit_arm)):
        plain.node(f"{junction.name}{arm}{side}", x + right * (radius + length), up * (radius + length), "")


def draw_arm(plain: Plain, junction: Junction, node: str, arm: str, priority: int, lanes: int = 1) -> None:
    """The two edges of an arm."""
    name, usual = junction.name, {"numLanes": lanes, "speed": junction.speed, "priority": priority}
    plain.named_edge(f"{name}{arm}c", f"{name}{arm}in", node, **usual)
    usual["numLanes"] = junction.exit_lanes or lanes
    plain.named_edge(f"{name}c{arm}", node, f"{name}{arm}out", **usual)


def draw_roundabout(plain: Plain, junction: Junction, x: float) -> None:
    name, radius = junction.name, junction.radius
    for at, arm in enumerate(ROUND):
        begin, following = at * math.pi / 2, ROUND[(at + 1) % 4]
        plain.node(f"{name}{arm}", x + radius * math.cos(begin), radius * math.sin(begin))
        draw_ends(plain, junction, arm, x, radius)
        draw_arm(plain, junction, f"{name}{arm}", arm, 5, junction.lanes)
        shape = quarter(x, 0, radius, at) | {"numLanes": junction.lanes}
        plain.named_edge(f"{name}q{arm}", f"{name}{arm}", f"{name}{following}", **shape)


def way(junction: Junction, ends: str) -> str:
    """The edges from one arm to another."""
    (begin, end), name = ends, junction.name
    if junction.kind != "roundabout":
        return f"{name}{begin}c {name}c{end}"
    first, last = ROUND.index(begin), ROUND.index(end)
    ring = [f"{name}q{ROUND[(first + at) % 4]}" for at in range((last - first) % 4)]
    return " ".join([f"{name}{begin}c", *ring, f"{name}c{end}"])


def demand(junctions: Sequence[Junction], seed: int) -> str:
    """The routes: vehicles at random, whose names tell the junction, whether they are looked at, and where they go."""
    draws, vehicles = random.Random(seed), []
    for junction in junctions:
        streams = [("minor", stream) for stream in junction.looked_at] + [("major", other) for other in junction.major]
        for kind, stream in streams:
            clock = 0.0
            while stream.hourly and (clock := clock + draws.expovariate(stream.hourly / 3600)) < LAST:
                name = f"{junction.name}.{kind}.{len(vehicles)}.{stream.ends}"
                vehicles.append((clock, name, stream.lane, way(junction, stream.ends)))
    lines = (
        f'<vehicle id="{name}" depart="{clock:.1f}" departLane="{lane}" departSpeed="max"><route edges="{edges}"/>'
        "</vehicle>"
        for clock, name, lane, edges in sorted(vehicles)
    )
    return f"<routes>{''.join(lines)}</routes>"


def prepare(junctions: Sequence[Junction], folder: Path, seed: int, netconvert_words: str = "") -> tuple[Path, Path]:
    """The network and the routes."""
    net, routes = folder / "net.net.xml", folder / f"demand-{seed}.rou.xml"
    if not net.exists():
        plain = Plain()
        for at, junction in enumerate(junctions):
            draw_junction(plain, junction, at * APART)
        plain.make(net, "--roundabouts.guess", "true", "--no-turnarounds", "true", *netconvert_words.split())
    if not routes.exists():
        routes.write_text(demand(junctions, seed), encoding="utf-8")
    return net, routes


def in_sumo(net: Path, routes: Path, folder: Path, seed: int, last: int = LAST) -> Trips:
    words = ["-n", net, "-r", routes, "--end", last, "--seed", seed, "--time-to-teleport", -1]
    return read_tripinfo(str(sumo_trips(folder / f"trips-{seed}.xml", words)))


def run_here(net: Path, routes: Path, folder: Path, program: str, tools: Path = TOOLS, last: int = LAST) -> Trips:
    words = ["--until", last, "--every", 0, "--rescue", 0]
    run_files(folder, [net, "--routes", routes], words, program, tools)
    return trips_here(folder)


def capacities(trips: Trips) -> dict[str, float]:
    """Vehicles an hour of those looked at that arrived at the end of their way, by junction."""
    passed = Counter(
        name.split(".")[0]
        for name, (_, arrival) in trips.items()
        if name.split(".")[1] == "minor" and FIRST <= arrival < LAST
    )
    return {name: count * 3600 / (LAST - FIRST) for name, count in passed.items()}


@dataclass(frozen=True)
class Case:
    title: str
    kind: str
    arms: str
    minor: str  # from, to
    major: str  # from, to of the streams that go first, with blanks between


@dataclass(frozen=True)
class Cases:
    flows: tuple[int, ...]  # of each stream, vehicles an hour
    all: tuple[Case, ...]
    full: Callable[[int], int]  # vehicles an hour of the minor street, by the flow

    def junctions(self) -> list[tuple[Case, int, Junction]]:
        return [(case, flow, self.junction(at, case, flow)) for at, case in enumerate(self.all) for flow in self.flows]

    def junction(self, at: int, case: Case, flow: int) -> Junction:
        major = tuple(Stream(ends, flow) for ends in case.major.split())
        minor = tuple(Stream(ends, self.full(flow)) for ends in case.minor.split())
        return Junction(f"j{at}_{flow}", case.arms, case.kind, minor, major)


ONE_STREAM = (
    Case("T, right turn (joining)", "priority", "wes", "se", "we"),
    Case("T, left turn (crossing)", "priority", "wes", "sw", "we"),
    Case("T, left turn (joining)", "priority", "wes", "sw", "ew"),
    Case("cross, straight on (crossing)", "priority", "wens", "sn", "we"),
    Case("cross, left from the main street (crossing)", "priority", "wens", "wn", "ew"),
    Case("roundabout, entry (joining)", "roundabout", "wens", "se", "we"),
    Case("right before left, straight on (crossing)", "equal", "wens", "sn", "ew"),
    Case("right before left, left turn (joining)", "equal", "wens", "sw", "ew"),
    Case("right before left, left turn (crossing)", "equal", "wens", "sw", "ns"),
)
STOPS = (
    Case("T, right turn (joining)", "stop", "wes", "se", "we"),
    Case("T, left turn (crossing)", "stop", "wes", "sw", "we"),
    Case("T, left turn (joining)", "stop", "wes", "sw", "ew"),
    Case("cross, straight on (crossing)", "stop", "wens", "sn", "we"),
    Case("cross, straight on, two directions", "stop", "wens", "sn", "we ew"),
    Case("T, left turn, two directions", "stop", "wes", "sw", "we ew"),
)
ALL_WAY = (
    Case("straight on, three others straight on", "allway", "wens", "sn", "we ew ns"),
    Case("straight on, one from the other side", "allway", "wens", "sn", "ns"),
    Case("straight on, one across", "allway", "wens", "sn", "we"),
    Case("straight on, both across", "allway", "wens", "sn", "we ew"),
    Case("left turn, one across", "allway", "wens", "sw", "we"),
    Case("right turn, one across", "allway", "wens", "se", "we"),
)
RIGHT_ON_RED = (Case("right turn (joining)", "traffic_light_right_on_red", "wens", "se", "we ew"),)
CASES = {
    "one": Cases((0, 100, 200, 400, 600, 800, 1000, 1200), ONE_STREAM, lambda flow: 1500 if flow <= 200 else 1000),
    "stops": Cases((0, 100, 200, 400, 600, 800, 1000), STOPS, lambda _: 700),
    "all-way": Cases((0, 50, 100, 200, 300, 400, 600), ALL_WAY, lambda _: 700),
    "right-on-red": Cases((0, 100, 200, 400, 600), RIGHT_ON_RED, lambda _: 1400),
}


def table(cases: Cases, theirs, ours):
    yield f"| SUMO / here, against | {' | '.join(f'{flow:,}' for flow in cases.flows)} |"
    yield "|" + "---|" * (len(cases.flows) + 1)
    for at, case in enumerate(cases.all):
        names = (f"j{at}_{flow}" for flow in cases.flows)
        cells = (f"{theirs.get(name, 0):,.0f} / {ours.get(name, 0):,.0f}" for name in names)
        yield f"| {case.title} | {' | '.join(cells)} |"


def draw(cases: Cases, theirs, ours, path):
    """A small picture for each case: SUMO's capacity as a line, ours as points."""
    pyplot = load_pyplot()
    rows = -(-len(cases.all) // 3)
    figure, places = pyplot.subplots(rows, 3, figsize=(9, 7 * rows / 3), sharex=True, sharey=True, squeeze=False)
    for at, (case, axes) in enumerate(zip(cases.all, places.flat)):
        for values, style, label in (
            (theirs, {"color": "#999999", "linewidth": 3}, "SUMO"),
            (ours, {"color": "black", "marker": "o", "linewidth": 0}, "here"),
        ):
            axes.plot(cases.flows, [values.get(f"j{at}_{flow}", 0) for flow in cases.flows], label=label, **style)
        axes.set_title(case.title, fontsize=8)
        axes.set_ylim(0, 1800)
    places[0][0].legend(frameon=False, fontsize=8)
    places[-1][1].set_xlabel("vehicles an hour that are given way to")
    places[rows // 2][0].set_ylabel("vehicles an hour of the minor stream")
    save_picture(figure, path)


def main_junctions(argv: list[str]) -> int | None:
    """Who passes lone junctions against full streams, beside SUMO.

    Takes minutes; needs sumo.

    Cases: one (one stream that goes first), stops (stop signs), all-way (all have to stop), right-on-red (at a light of
    90 s). All junctions of some cases stand in one network that netconvert makes. What SUMO wrote is kept in the folder
    of --work.
    """
    parser = shared.parser_of(main_junctions, work=True)
    parser.add_argument("--cases", default="one", choices=CASES)
    parser.add_argument("--seed", type=int, default=1)
    parser.add_argument("--picture", help="draw the table too")
    args = parser.parse_args(argv)
    folder, cases = shared.work_of(args) / args.cases, CASES[args.cases]
    folder.mkdir(exist_ok=True)
    net, routes = prepare([junction for *_, junction in cases.junctions()], folder, args.seed)
    theirs = capacities(in_sumo(net, routes, folder, args.seed))
    ours = capacities(run_here(net, routes, folder, args.program))
    print(*table(cases, theirs, ours), sep="\n")
    if args.picture:
        draw(cases, theirs, ours, args.picture)


# ---- all streams at once

FULL_ARM = 900  # vehicles an hour that are more than can pass
COUNT_END = 2400  # second at which the count ends
SHARES = {"straight": 0.6, "left": 0.2, "right": 0.2}
MOST_OFF = 0.08
Loads = dict[str, int]  # vehicles an hour, by arm
Arm = tuple[str, str]  # of a junction


def loads_of(kind: str, arms: str, hourly: int) -> list[Loads]:
    """The loads of a junction: arms that are full while others have so many vehicles an hour."""
    full = "ns" if kind in ("priority", "stop") else "s"
    some = {arm: FULL_ARM if arm in full else hourly for arm in arms}
    if kind in ("priority", "stop"):
        return [some]
    return [some, {arm: FULL_ARM if arm in "ns" or arms == "wes" else hourly for arm in arms}]


@dataclass(frozen=True)
class Full:
    """A junction some of whose arms are full."""

    title: str
    loads: Loads
    junction: Junction

    def arms(self) -> list[str]:
        return [arm for arm, hourly in self.loads.items() if hourly == FULL_ARM]


ALL_KINDS = {  # kind, arms, lanes of the main street or of all
    "main-tee": ("priority", "wes", 1), "main-cross": ("priority", "wens", 1), "wide-cross": ("priority", "wens", 2),
    "equal-tee": ("equal", "wes", 1), "equal-cross": ("equal", "wens", 1),
    "stop-tee": ("stop", "wes", 1), "stop-cross": ("stop", "wens", 1),
    "all-way-tee": ("allway", "wes", 1), "all-way-cross": ("allway", "wens", 1),
    "roundabout": ("roundabout", "wens", 1), "wide-roundabout": ("roundabout", "wens", 2),
}


def full_junctions(kinds: Sequence[str], hourly: Sequence[int], draws: random.Random) -> list[Full]:
    """Some kinds with all loads: turns have the usual shares, changed a little by draws."""
    full_ones: list[Full] = []
    for title, (kind, arms, lanes) in ((title, ALL_KINDS[title]) for title in kinds):
        for flow in hourly:
            for loads in loads_of(kind, arms, flow):
                streams = [one for arm, count in loads.items() for one in streams_of(arm, arms, count, draws)]
                junction = Junction(f"j{len(full_ones)}", arms, kind, tuple(streams), lanes=lanes)
                full_ones.append(Full(f"{title}, {flow} an hour", loads, junction))
    return full_ones


def streams_of(arm: str, arms: str, hourly: int, draws: random.Random) -> list[Stream]:
    """Who comes from an arm."""
    shares = {to[arm]: SHARES[turn] * draws.uniform(0.7, 1.3) for turn, to in TURNS.items() if to[arm] in arms}
    return [Stream(arm + end, hourly * share / sum(shares.values())) for end, share in shares.items()]


def passed_by_arm(trips: Trips) -> dict[Arm, float]:
    """Vehicles an hour that arrived, by junction and arm."""
    arrived = (name.split(".") for name, (_, arrival) in trips.items() if FIRST <= arrival < COUNT_END)
    passed = Counter((name, ends[0]) for name, _, _, ends in arrived)
    return {key: count * 3600 / (COUNT_END - FIRST) for key, count in passed.items()}


def main_all_streams(argv: list[str]) -> int | None:
    """Who passes lone junctions without a light from full arms while vehicles come from all others, beside SUMO.

    Takes minutes; needs sumo.

    The arms that are not full have so many vehicles an hour as --hourly tells. It prints how far the vehicles that pass
    in an hour from full arms are off, by kind, over all seeds together; --all: also each arm. All junctions stand in
    one network that netconvert makes. What SUMO wrote is kept in the folder of --work.
    """
    parser = shared.parser_of(main_all_streams, work=True)
    parser.add_argument("--seeds", default="1", type=shared.numbers, help="of departures, turns, and SUMO")
    parser.add_argument("--hourly", default=[150, 300, 450], type=lambda text: [int(one) for one in text.split(",")])
    parser.add_argument("--all", action="store_true", help="also each arm")
    shared.add_some(parser, "--kinds", ALL_KINDS)
    parser.add_argument("--tools", default=shared.TOOLS, type=shared.whole_path, help="other tools than these")
    args = parser.parse_args(argv)
    folder, theirs, ours = shared.work_of(args), Counter[Arm](), Counter[Arm]()
    for seed in args.seeds:
        every, own = full_junctions(args.kinds, args.hourly, random.Random(seed)), folder / str(seed)
        own.mkdir(exist_ok=True)
        net, routes = prepare([full.junction for full in every], own, seed)
        theirs.update(passed_by_arm(in_sumo(net, routes, own, seed, COUNT_END)))
        ours.update(passed_by_arm(run_here(net, routes, own, args.program, args.tools, COUNT_END)))
    shared.print_heads("Junction | full arms | within 8 % | difference, mean | absolute, mean | largest")
    differences: dict[str, list[float]] = defaultdict(list)
    for full in every:
        for key in ((full.junction.name, arm) for arm in full.arms()):
            differences[full.title.rpartition(", ")[0]].append(ours[key] / theirs[key] - 1)
    for title, values in differences.items():
        print(full_text(title, values))
    print(full_text("all", [value for values in differences.values() for value in values]))
    for full in every if args.all else ():
        keys = [(full.junction.name, arm) for arm in full.arms()]
        means = ([side[key] / len(args.seeds) for key in keys] for side in (theirs, ours))
        cells = (f"{arm} {there:.0f} / {here:.0f}" for (_, arm), there, here in zip(keys, *means))
        print(f"    {full.title}: {', '.join(cells)}")


def full_text(title: str, off: Sequence[float]) -> str:
    near, most = sum(abs(value) <= MOST_OFF for value in off), max(off, key=abs)
    return f"| {title} | {len(off)} | {near} | {fmean(off):+.1%} | {fmean(map(abs, off)):.1%} | {most:+.1%} |"


# ---- mean trips

LEVELS = (0.1, 0.5, 1.0)
LIT = ("--tls.cycle.time", "80")
KINDS = {
    **{"mains": "priority", "stops": "stop", "all-way": "allway", "equal": "equal", "roundabouts": "roundabout"},
    **{"light": "traffic_light", "right-on-red": "traffic_light_right_on_red"},
}
# Vehicles an hour of a minor arm.
MOST_HOURLY = {"mains": 260, "stops": 200, "all-way": 250, "equal": 250, "roundabouts": 300}
STRAIGHT, LEFT_TURN, RIGHT_TURN = (dict(zip("wens", to, strict=True)) for to in ("ewsn", "nsew", "snwe"))
TURNS = {"straight": STRAIGHT, "left": LEFT_TURN, "right": RIGHT_TURN}


def drawn(kind: str, seed: int, count: int) -> list[Junction]:
    """The junctions of a kind: of each as many as there are levels."""
    draws, junctions = random.Random(f"{kind} {seed}"), []
    for number in range(count):
        arms = "wes" if number % 4 == 3 and kind != "roundabouts" else "wens"
        flows, arm = flows_of(kind, arms, draws), draws.randrange(120, 301, 10)
        radius = draws.randrange(16, 29)
        for level in LEVELS:
            streams = tuple(Stream(ends, flow * level) for ends, flow in flows.items())
            name = f"j{number}_{round(100 * level)}"
            junctions.append(Junction(name, arms, KINDS[kind], streams, arm=arm, exit_arm=arm, radius=radius))
    return junctions


def flows_of(kind: str, arms: str, draws: random.Random) -> dict[str, float]:
    """Vehicles an hour of one junction, by from and to."""
    most = MOST_HOURLY.get(kind, 300)
    flows = {arm: draws.uniform(0.3 * most, most) * (1.8 if is_main(kind, arm) else 1.0) for arm in arms}
    shares = {arm: (draws.uniform(0.05, 0.35), draws.uniform(0.05, 0.35)) for arm in arms}
    found: dict[str, float] = {}
    for arm, (left, right) in shares.items():
        for share, to in ((1 - left - right, STRAIGHT), (left, LEFT_TURN), (right, RIGHT_TURN)):
            if to[arm] in arms:
                found[arm + to[arm]] = flows[arm] * share
    return found


def is_main(kind: str, arm: str) -> bool:
    return kind in ("mains", "stops") and arm in "we"


def way_of(kind: str, ends: str) -> str:
    """Who goes so: by whether it comes from the main street, and its turn."""
    turn = next(name for name, to in TURNS.items() if to[ends[0]] == ends[1])
    return f"{'main' if is_main(kind, ends[0]) else 'minor'} {turn}"


def means(kind: str, trips: Trips) -> dict[tuple[int, str], list[float]]:
    """The trips of those who depart in the count, by (percent of the flows, way), and of all ways ("")."""
    durations = defaultdict(list)
    for name, (depart, arrival) in trips.items():
        if FIRST <= depart < LAST - FIRST:
            junction, _, _, ends = name.split(".")
            for way in ("", way_of(kind, ends)):
                durations[int(junction.partition("_")[2]), way].append(arrival - depart)
    return durations


def main_lone_trips(argv: list[str]) -> int | None:
    """Mean trips over lone junctions of all kinds, by drawn arms, flows and turns, beside SUMO.

    Takes a minute; needs sumo.

    Each junction stands there with a tenth, a half and all of its flows. The table has, by kind and share of the flows,
    SUMO's mean trip and by how many seconds ours is longer, and last of whom: by way with --ways. What waits and losses
    are chosen by. All junctions of a kind stand in one network that netconvert makes. What SUMO wrote is kept in the
    folder of --work.
    """
    parser = shared.parser_of(main_lone_trips, work=True)
    parser.add_argument("--draw", type=int, default=81, help="the seed of arms, flows and turns")
    parser.add_argument("--count", type=int, default=8, help="junctions of a kind, each at three levels")
    parser.add_argument("--seed", type=int, default=1, help="of departures, and of SUMO")
    shared.add_some(parser, "--kinds", KINDS)
    parser.add_argument("--ways", action="store_true", help="a row for each way")
    parser.add_argument("--tools", default=shared.TOOLS, type=shared.whole_path, help="other tools than these")
    args = parser.parse_args(argv)
    folder = shared.work_of(args)
    shared.print_heads(f"SUMO, s, and here more | {' | '.join(f'{level:.0%} of the flows' for level in LEVELS)}")
    for kind in args.kinds:
        own = folder / f"{kind}-{args.draw}"
        own.mkdir(exist_ok=True)
        junctions = drawn(kind, args.draw, args.count)
        net, routes = prepare(junctions, own, args.seed, " ".join(LIT))
        theirs = means(kind, in_sumo(net, routes, own, args.seed))
        ours = means(kind, run_here(net, routes, own, args.program, args.tools))
        for way in sorted({way for _, way in theirs}) if args.ways else [""]:
            pairs = [(theirs.get((round(100 * level), way)), ours.get((round(100 * level), way))) for level in LEVELS]
            cells = (f"{fmean(a):.1f} {fmean(b) - fmean(a):+.2f}" if a and b else "" for a, b in pairs)
            print(f"| {kind}{f', {way}' if way else ''} | {' | '.join(cells)} |", flush=True)


WAITS = {  # kind, arms, from and to of the minor street and of those that go first
    "cross, straight on": ("priority", "wens", "sn", "we"),
    "cross, left from the main street": ("priority", "wens", "wn", "ew"),
    "T, right turn (joining)": ("priority", "wes", "se", "we"),
    "roundabout, entry": ("roundabout", "wens", "se", "we"),
    "right before left, straight on": ("equal", "wens", "sn", "ew"),
    "right before left, left turn (joining)": ("equal", "wens", "sw", "ew"),
}
MAJOR, MINOR = (0, 100, 200, 400), (40, 160)  # vehicles an hour
UNTIL = 14400  # seconds
Key = tuple[str, int, int]  # case, vehicles an hour of the minor street and of the others


def waiting_junctions() -> dict[Key, Junction]:
    return {
        (title, minor, first): Junction(f"j{at}_{minor}_{first}", arms, kind, arm=200, exit_arm=150)
        for at, (title, (kind, arms, *_)) in enumerate(WAITS.items()) for minor in MINOR for first in MAJOR
    }  # fmt: skip


def waiting_demand(every: dict[Key, Junction]) -> str:
    """The routes: each minor street's vehicles are drawn alike against each stream."""
    vehicles = []
    for (title, minor, first), junction in every.items():
        *_, own, other = WAITS[title]
        for kind, ends, hourly, seed in (("minor", own, minor, f"{title}{minor}"), ("major", other, first, title)):
            draws, clock = random.Random(f"{kind} {seed} {hourly}"), 0.0
            while hourly and (clock := clock + draws.expovariate(hourly / 3600)) < UNTIL - 300:
                factor = min(1.3, max(0.7, draws.gauss(1, 0.1)))
                vehicles.append((clock, f"{junction.name}.{kind}.{len(vehicles)}", factor, way(junction, ends)))
    lines = (
        f'<vehicle id="{name}" depart="{clock:.1f}" departSpeed="max" speedFactor="{factor:.3f}">'
        f'<route edges="{edges}"/></vehicle>'
        for clock, name, factor, edges in sorted(vehicles)
    )
    return f"<routes>{''.join(lines)}</routes>"


def lost_by(trips: Trips, every: dict[Key, Junction]) -> dict[Key, float]:
    """Mean seconds of the minor street's trips, less those against nobody."""
    means = {}
    for key, junction in every.items():
        own = [to - at for name, (at, to) in trips.items() if name.startswith(f"{junction.name}.minor.")]
        means[key] = fmean(own)
    return {key: mean - means[*key[:2], 0] for key, mean in means.items()}


def main_light_waits(argv: list[str]) -> int | None:
    """What few vehicles lose that give way to a stream, beside SUMO.

    Takes a minute; needs sumo.

    A street has the same vehicles against each stream, so their trips less those against nobody are what they lose.
    What one needs who comes while nobody stands at the line is chosen by. What SUMO wrote is kept in the folder of
    --work.
    """
    parser = shared.parser_of(main_light_waits, work=True)
    parser.add_argument("--tools", default=shared.TOOLS, type=shared.whole_path, help="other tools than these")
    args = parser.parse_args(argv)
    folder, every = shared.work_of(args), waiting_junctions()
    routes = folder / "demand-1.rou.xml"
    routes.write_text(waiting_demand(every), encoding="utf-8")
    net, _ = prepare(list(every.values()), folder, 1)
    theirs = lost_by(in_sumo(net, routes, folder, 1, UNTIL), every)
    ours = lost_by(run_here(net, routes, folder, args.program, args.tools, UNTIL), every)
    columns = [(minor, first) for minor in MINOR for first in MAJOR if first]
    shared.print_heads(f"SUMO / here, s | {' | '.join(f'{minor} against {first}' for minor, first in columns)}")
    for title in WAITS:
        keys = [(title, *column) for column in columns]
        print(f"| {title} | {' | '.join(f'{theirs[key]:.1f} / {ours[key]:.1f}' for key in keys)} |")
