"""Networks and demands of many kinds, each from a seed, so that anybody can judge on what chose nothing.

    from networks.unseen import KINDS, make

    made = make("town", 4711, folder, level=0.8)
    made.net, made.routes, made.additional   # files of SUMO's

A kind and a seed give the same files wherever Debian's sumo is the same. `level` is the share of what it can pass that
the busiest approach has, reckoned plainly from lanes, greens and ways, with no simulation.
"""

import json
import math
import sys
from collections import Counter
from collections.abc import Iterable, Sequence
from dataclasses import asdict, dataclass, field, replace
from itertools import pairwise
from math import exp
from pathlib import Path
from random import Random
from typing import Any

import shared
from networks.lit_streets import (
    SPLITS, WALK, MainStreet, banned_turns, couplet, offset_tees, retimed, two_lefts, with_peak, with_split, with_walk,
    without_permissive,
)
from networks.streets import (
    BUS_LANE, Build, Draft, bus_lane, cross, grid, lane_drop, limit, lone_light, mains, mixed, radial, random_town,
    rings, street, types, zipper,
)
from shared import SUMO_HOME, run

LIGHTS = ("-j", "traffic_light")
GUESSED = ("--tls.guess", "true", "--random-lanenumber", "-L", "2", "--tls.cycle.time", "80")


@dataclass(frozen=True)
class Kind:
    about: str
    build: Build


def with_words(build: Build, *words: str) -> Build:
    """The same network, made with more words."""

    def build_with_words(draws: Random, folder: Path) -> Draft:
        draft = build(draws, folder)
        return replace(draft, maker_words=[*draft.maker_words, *words])

    return build_with_words


def with_lights(build: Build, kind: str) -> Build:
    return with_words(build, "--tls.default-type", kind)


def with_buses(build: Build) -> Build:
    """The same network with lines of buses."""

    def build_with_buses(draws: Random, folder: Path) -> Draft:
        return replace(build(draws, folder), lines=draws.randrange(2, 5))

    return build_with_buses


ARTERIAL = MainStreet()
YIELDING = replace(ARTERIAL, arrow=0)
TURN_LANES = grid(*LIGHTS, "--turn-lanes", "1", "--turn-lanes.length", "60", lanes=(2,))
KINDS: dict[str, Kind] = {
    "street": Kind("a main street of two or three lanes, with a light or none, trucks, turn lanes", street),
    "arterial": Kind("a main street with four to seven fixed lights", ARTERIAL),
    "permissive-arterial": Kind("an arterial whose left turns are all permissive", YIELDING),
    "grid": Kind("a grid with fixed lights", grid(*LIGHTS)),
    "turn-lanes": Kind("a grid with fixed lights and left-turn lanes of 60 m", TURN_LANES),
    "town": Kind("a random town of one and two lanes, lights where netgenerate guesses them", random_town(*GUESSED)),
    "radial": Kind("a radial town with fixed lights", radial),
    "shared-legs": Kind(
        "a random town of one lane, lights at all junctions, all left turns permissive",
        random_town(*LIGHTS, "--tls.left-green.time", "0", "--tls.cycle.time", "80"),
    ),
    "right-on-red": Kind("a grid whose lights let turn right on red", grid("-j", "traffic_light_right_on_red")),
    "roundabouts": Kind("a town of roundabouts of one lane", rings),
    "priority": Kind("a random town of one lane, without lights", random_town("-j", "priority")),
    "equal": Kind("a random town where who comes from the right goes first", random_town("-j", "right_before_left")),
    "stops": Kind("a random town of one lane with stop signs", random_town("-j", "priority_stop")),
    "all-way": Kind("a random town of one lane with all-way stops", random_town("-j", "allway_stop")),
    "mains": Kind("main streets of two lanes, minor roads without a light", mains((2,), 50, "traffic_light")),
    "slow": Kind("main streets and side streets of 30 km/h", mains((1, 2), 30, "traffic_light")),
    "one-way": Kind("one-way streets with lights", mains((2,), 50, "traffic_light", one_way=True)),
    "left-hand": Kind("a random town of the left-hand side", random_town(*GUESSED, "--lefthand", "true")),
    "actuated-grid": Kind("a grid with actuated lights", with_lights(grid(*LIGHTS), "actuated")),
    "actuated-turn-lanes": Kind("turn-lanes with actuated lights", with_lights(TURN_LANES, "actuated")),
    "actuated-arterial": Kind("an arterial with actuated lights", with_lights(ARTERIAL, "actuated")),
    "actuated-town": Kind("a random town with actuated lights", with_lights(random_town(*GUESSED), "actuated")),
    "delay-town": Kind("a random town with delay-based lights", with_lights(random_town(*GUESSED), "delay_based")),
    "lone-light": Kind("a lone light with pockets, most left turns permissive", lone_light),
    "nema-cross": Kind("a lone NEMA light", with_lights(cross, "NEMA")),
    "nema-arterial": Kind("an arterial with NEMA lights", with_lights(ARTERIAL, "NEMA")),
    "lane-drop": Kind("a street whose second lane ends, behind a light or without", lane_drop),
    "zipper": Kind("two streets that become one by turns", zipper),
    "bus-lane": Kind("a street of two lights with lanes for buses alone", bus_lane),
    "limit": Kind("a lone street with any limit", limit),
    "types": Kind("a street of three lights and vehicles of a drawn type", types),
    "bus-arterial": Kind("an arterial with lines of buses that stop", with_buses(ARTERIAL)),
    "bus-town": Kind("a random town with lines of buses that stop", with_buses(random_town(*GUESSED))),
}
# With fixed lights at which left turns are permissive, or have arrows.
LIT: dict[str, Kind] = {
    "bus-stops": Kind("permissive-arterial with lines of buses that stop", with_buses(YIELDING)),
    "near-lights": Kind(
        "lights 60 to 100 m apart", replace(YIELDING, metres=(60, 101, 10), pockets=(0,), cycles=(50, 60, 70))
    ),
    "couplet": Kind("two one-way streets and those that cross both", couplet),
    "fast": Kind("a main street of 80 km/h", replace(YIELDING, kmh=80, metres=(400, 801, 50), pockets=(80, 120))),
    "two-lefts": Kind("a small grid where two lanes turn left", retimed(two_lefts, without_permissive)),
    "long-cycle": Kind("cycles of 110 to 140 s", replace(YIELDING, cycles=(110, 120, 140))),
    "short-pocket": Kind("lanes for left turns of 20 or 30 m", replace(YIELDING, pockets=(20, 30))),
    "poor-splits": Kind(
        "greens that do not fit", retimed(YIELDING, lambda one, draws: with_split(one, draws.uniform(*SPLITS)))
    ),
    "offset-tees": Kind("side streets one after another, some without a light", offset_tees),
    "walks": Kind(
        "red for all, for pedestrians", retimed(YIELDING, lambda one, draws: with_walk(one, draws.choice(WALK)))
    ),
    "short-cycle": Kind("cycles of 40 s", replace(YIELDING, cycles=(40,))),
    "three-lanes": Kind("a main street of three lanes", replace(YIELDING, lanes=3)),
    "lorries": Kind("15 % lorries", replace(YIELDING, trucks=0.15)),
    "banned-turns": Kind("a small grid, some of whose left turns are banned", banned_turns),
    "arrows": Kind("arrows of 10 s for left turns", replace(ARTERIAL, pockets=(50, 70, 100), arrow=10)),
    "morning-peak": Kind("a demand that grows to a peak", with_peak(YIELDING)),
    "bus-lanes": Kind(
        "a main street with lanes for buses alone, and lines that stop",
        with_buses(replace(YIELDING, lanes=3, inside=BUS_LANE, pockets=(0,), classes="passenger,bus")),
    ),
}
KINDS |= LIT
KINDS |= {
    "unlit-mains": Kind("main streets of one or two lanes, no light anywhere", mains((1, 2), 50, "priority")),
    "mixed": Kind("main streets and minor ones, each junction without a light of a kind of its own", mixed),
}
UNLIT = ("unlit-mains", "equal", "stops", "all-way", "roundabouts", "priority", "mixed")
# With fixed lights or none, and without buses.
USUAL = (
    *("town", "radial", "arterial", "grid", "turn-lanes", "one-way", "left-hand", "shared-legs", "right-on-red"),
    *("slow", "mains", "equal", "stops", "all-way", "roundabouts", "priority"),
)


# ---- what approaches can pass, reckoned from lanes, greens and who goes first

FULL = 1800  # vehicles an hour that a lane passes in a green without an end
PERMISSIVE = 0.35  # of it, where a green waits for others
LEAST_CAPACITY = 20  # vehicles an hour, below which no capacity falls
# Of those who give way without a light, by SUMO's states: the least gap that one takes, and what each further one
# takes of it, in seconds.
GAPS = {"m": (5.5, 3.0), "Z": (5.5, 3.0), "=": (5.0, 3.5), "s": (8.0, 7.0), "w": (5.0, 7.0)}

Movement = tuple[str, str]  # an edge and the next


@dataclass(frozen=True)
class Connection:
    """From a lane to the next edge."""

    lane: tuple[str, int]  # edge and index
    movement: Movement
    lanes: int  # of the movement
    green: float  # share of time
    gaps: tuple[float, float] | None  # of one that gives way without a light
    foes: dict[Movement, float]  # whose ways cross its own, and the share of them that goes first

    def capacity(self, hourly: dict[Movement, float]) -> float:
        """Vehicles an hour that pass, by those of each movement."""
        if not self.gaps:
            return max(LEAST_CAPACITY, FULL * self.green)
        flow = sum(share * hourly.get(one, 0.0) for one, share in self.foes.items()) / 3600 + 1e-6
        least, each = self.gaps
        return max(LEAST_CAPACITY, 3600 * flow * exp(-flow * least) / (1 - exp(-flow * each)))


def scale_for(net: Any, ways: Iterable[Sequence[str]], hours: float, level: float) -> float:
    """By what number of vehicles along some ways is to be multiplied, so that no lane before a junction has more than
    this share of what it can pass; net: of sumolib."""
    hourly = {pair: count / hours for pair, count in Counter(pair for way in ways for pair in pairwise(way)).items()}
    used = [one for one in connections_of(net) if one.movement in hourly]
    low, high = 0.0, 1000.0
    for _ in range(40):
        middle = (low + high) / 2
        few = busiest(used, {pair: middle * count for pair, count in hourly.items()}) < level
        low, high = (middle, high) if few else (low, middle)
    return low


def busiest(connections: Iterable[Connection], hourly: dict[Movement, float]) -> float:
    """The greatest share of what it can pass that a lane has. The vehicles of a movement are spread evenly over its
    lanes, and on a lane of several movements each takes its own time."""
    taken: Counter[tuple[str, int]] = Counter()
    for one in connections:
        taken[one.lane] += hourly[one.movement] / one.lanes / one.capacity(hourly)
    return max(taken.values(), default=0.0)


def connections_of(net: Any) -> list[Connection]:
    greens = {light.getID(): green_shares(light) for light in net.getTrafficLights()}
    return [
        connection_of(one, node, greens) for node in net.getNodes() for one in node.getConnections() if one.getFrom()
    ]


def connection_of(connection: Any, node: Any, greens: dict[str, list[float]]) -> Connection:
    begin, end = connection.getFrom(), connection.getTo()
    lane, movement = (begin.getID(), connection.getFromLane().getIndex()), (begin.getID(), end.getID())
    lanes = len(begin.getConnections(end))
    shares, at = greens.get(connection.getTLSID(), []), connection.getTLLinkIndex()
    if 0 <= at < len(shares):
        return Connection(lane, movement, lanes, shares[at], None, {})
    gaps, place = GAPS.get(connection.getState()), connection.getJunctionIndex()
    others = node.getConnections() if gaps else []
    foes = {
        (foe.getFrom().getID(), foe.getTo().getID()): 1.0 if foe.getState() == "M" else 0.5
        for foe in others
        if node.areFoes(place, foe.getJunctionIndex())
    }
    return Connection(lane, movement, lanes, 1.0, gaps, foes)


def green_shares(light: Any) -> list[float]:
    """The share of time in which each link of a light is green, by the first program of it."""
    program = next(iter(light.getPrograms().values()))
    phases = program.getPhases()
    rings = 2 if program.getType() == "NEMA" else 1  # whose phases run side by side
    whole = sum(phase.duration for phase in phases) / rings or 1.0
    shares = [0.0] * max((len(phase.state) for phase in phases), default=0)
    for phase in phases:
        for at, letter in enumerate(phase.state):
            weight = 1.0 if letter == "G" else PERMISSIVE if letter in "gs" else 0.0
            shares[at] += weight * phase.duration / whole
    return shares


# ---- lines of buses that stop, along ways of the demand

HEADWAYS = (300, 450, 600)  # seconds
LONG_ENOUGH = 120.0  # metres of an edge that has a stop
STOP = 20.0  # metres of a stop
FIRST_METRES = 30.0  # metres of an edge before a stop, at least


def write_buses(folder: Path, net: Any, ways: Sequence[Sequence[str]], lines: int, draws: Random) -> None:
    """Writes buses.rou.xml and stops.add.xml: each line has the longest way that shares least with those before."""
    taken: set[str] = set()
    stops: dict[str, str] = {}
    flows = []
    for number in range(lines):
        way = max(ways, key=lambda one: (sum(edge not in taken for edge in one), one))
        taken.update(way)
        served = [edge for edge in way[1:-1] if net.getEdge(edge).getLength() >= LONG_ENOUGH][::2]
        stops.update((edge, stop_of(net.getEdge(edge), draws)) for edge in served if edge not in stops)
        headway, dwell = draws.choice(HEADWAYS), draws.choice((15, 20, 30))
        halts = "".join(f'<stop busStop="stop.{edge}" duration="{dwell}"/>' for edge in served)
        flows.append(
            f'<flow id="line{number}" type="bus" line="{number}" begin="{draws.randrange(0, 120)}" end="3600" '
            f'period="{headway}" departLane="best" departSpeed="max"><route edges="{" ".join(way)}"/>{halts}</flow>'
        )
    kind = '<vType id="bus" vClass="bus" length="12"/>'
    (folder / "buses.rou.xml").write_text(f"<routes>{kind}{''.join(flows)}</routes>\n", encoding="utf-8")
    text = f"<additional>{''.join(stops.values())}</additional>\n"
    (folder / "stops.add.xml").write_text(text, encoding="utf-8")


def stop_of(edge: Any, draws: Random) -> str:
    """A stop on the lane at the edge's side."""
    name, begin = edge.getID(), draws.uniform(FIRST_METRES, edge.getLength() - STOP - FIRST_METRES)
    return f'<busStop id="stop.{name}" lane="{name}_0" startPos="{begin:.1f}" endPos="{begin + STOP:.1f}"/>'


# ---- trips between edges, by lanes, limits and lengths and whether they lead in or out

SECONDS = 3600  # in which vehicles depart, where nothing else is said
SAMPLE = 2000  # trips by which the number of vehicles is found
FRINGE = 8.0  # times as many begin and end at an edge that leads in or out as at another of 200 m
NEAR = 250.0  # metres: nobody drives less far
TYPES = (
    '<vType id="car"/>'
    '<vType id="truck" vClass="truck" length="12" accel="1.3"/>'
    '<vType id="trailer" vClass="trailer" length="18" accel="1.1"/>'
)


@dataclass(frozen=True)
class Amount:
    """How much drives: the share of what it can pass that the busiest approach has, or so many vehicles, that depart
    within so many seconds."""

    level: float
    vehicles: int | None
    seconds: int


@dataclass(frozen=True)
class Ends:
    """Edges at which trips begin, or end, and their weights."""

    edges: Sequence[Any]
    weights: Sequence[float]

    def draw(self, draws: Random) -> Any:
        return draws.choices(self.edges, self.weights)[0]


@dataclass(frozen=True)
class Trips:
    """Who drives on a network of sumolib's."""

    net: Any
    begins: Ends
    ends: Ends
    trucks: float
    peak: tuple[float, ...] = ()
    reachable: dict[str, set[str]] = field(default_factory=dict)  # edges to which one comes from an edge

    def write(self, path: Path, count: int, seconds: int, seed: int) -> None:
        """Writes so many trips of some seconds, in the order of departure."""
        draws, lines = Random(seed), []
        for number, depart in enumerate(sorted(self.departure(draws) * seconds for _ in range(count))):
            begin, end = self.pair(draws)
            kind = draws.choice(("truck", "trailer")) if draws.random() < self.trucks else "car"
            lines.append(
                f'<trip id="v{number}" type="{kind}" depart="{depart:.0f}" from="{begin.getID()}" to="{end.getID()}" '
                'departLane="best" departSpeed="max"/>'
            )
        path.write_text("<routes>" + TYPES + "\n".join(lines) + "</routes>\n", encoding="utf-8")

    def departure(self, draws: Random) -> float:
        """When one departs, as a share of the time."""
        part = draws.choices(range(len(self.peak)), self.peak)[0] if self.peak else 0
        return (part + draws.uniform(0, 1)) / max(1, len(self.peak))

    def pair(self, draws: Random) -> tuple[Any, Any]:
        """Where one begins and ends: with a way between, not near each other, and not there and back."""
        for _ in range(1000):
            begin, end = self.begins.draw(draws), self.ends.draw(draws)
            back = begin.getFromNode() is end.getToNode()
            far = begin is not end and not back and math.dist(middle(begin), middle(end)) >= NEAR
            if far and end.getID() in self.reached(begin):
                return begin, end
        raise SystemExit(f"no two edges of the network have a way of {NEAR:.0f} m between them")

    def reached(self, begin: Any) -> set[str]:
        """The edges to which one comes from an edge."""
        name = begin.getID()
        if name not in self.reachable:
            found, open_ = {name}, [begin]
            while open_:
                onward = [edge for edge in open_.pop().getOutgoing() if edge.getID() not in found]
                found.update(edge.getID() for edge in onward)
                open_ += onward
            self.reachable[name] = found
        return self.reachable[name]


def trips_on(net: Any, draft: Draft) -> Trips:
    return Trips(net, ends_of(net, "getFromNode"), ends_of(net, "getToNode"), draft.trucks, draft.peak)


def ends_of(net: Any, node: str) -> Ends:
    """Edges at which trips begin (node: getFromNode) or end."""
    edges = sorted(net.getEdges(), key=lambda edge: edge.getID())
    edges = [edge for edge in edges if edge.getLength() > 30]
    weights = [weight(edge, is_fringe(getattr(edge, node)())) for edge in edges]
    return Ends(edges, weights)


def weight(edge: Any, fringe: bool) -> float:
    return edge.getLaneNumber() * edge.getSpeed() * (FRINGE if fringe else edge.getLength() / 200)


def is_fringe(node: Any) -> bool:
    """Whether a street ends at a node."""
    around = {edge.getFromNode() for edge in node.getIncoming()} | {edge.getToNode() for edge in node.getOutgoing()}
    return len(around) <= 1


def middle(edge: Any) -> tuple[float, float]:
    (x, y), (to_x, to_y) = edge.getFromNode().getCoord(), edge.getToNode().getCoord()
    return (x + to_x) / 2, (y + to_y) / 2


def ways_of(path: Path) -> list[list[str]]:
    """The edges of each vehicle of a route file."""
    import sumolib

    return [route.edges.split() for route in sumolib.xml.parse_fast(str(path), "route", ["edges"])]


def find_ways(folder: Path, routes: str, seed: int) -> None:
    """Ways for the trips of trips.xml, that spread a little."""
    words = ["duarouter", "-n", "net.net.xml", "-r", "trips.xml", "-o", routes, "--seed", seed % (1 << 30)]
    words += ["--weights.random-factor", 1.4, "--ignore-errors", "--no-warnings", "--no-step-log"]
    run([*words, "--remove-loops"], folder)
    (folder / routes.replace(".rou.xml", ".rou.alt.xml")).unlink(missing_ok=True)


def write_flows(folder: Path, draft: Draft, seed: int, amount: Amount) -> int:
    """Writes demand.rou.xml of a draft's flows, so many times as many as the level says; gives their number."""
    draws, departures, hours = Random(seed), [], amount.seconds / 3600
    for flow in draft.flows:
        departs = (int(draws.uniform(0, amount.seconds)) for _ in range(round(flow.hourly * amount.level * hours)))
        departures += [(depart, f"{flow.name}.{at}", flow) for at, depart in enumerate(departs)]
    lines = [
        f'<vehicle id="{name}" type="{flow.kind}" depart="{depart}" departLane="best" departSpeed="max">'
        f'<route edges="{flow.edges}"/></vehicle>'
        for depart, name, flow in sorted(departures, key=lambda one: one[:2])
    ]
    text = "\n".join(lines)
    (folder / "demand.rou.xml").write_text(f"<routes>{TYPES}{draft.types}{text}</routes>\n", encoding="utf-8")
    return len(lines)


def write_demand(folder: Path, net: Any, seed: int, amount: Amount, draft: Draft) -> int:
    """Writes demand.rou.xml of trips between edges; gives their number. The level is that of the busiest part of the
    time."""
    trips, vehicles = trips_on(net, draft), amount.vehicles
    hours = amount.seconds / 3600 / (max(draft.peak) * len(draft.peak) / sum(draft.peak) if draft.peak else 1.0)
    if vehicles is None:
        trips.write(folder / "trips.xml", SAMPLE, amount.seconds, seed)
        find_ways(folder, "sample.rou.xml", seed)
        times = scale_for(net, ways_of(folder / "sample.rou.xml"), hours, amount.level)
        (folder / "sample.rou.xml").unlink()
        vehicles = max(1, round(SAMPLE * times))
    trips.write(folder / "trips.xml", vehicles, amount.seconds, seed + 1)
    find_ways(folder, "demand.rou.xml", seed)
    return len(ways_of(folder / "demand.rou.xml"))


# ---- a network and its demand, in a folder that keeps them

SUMOLIB = f"{SUMO_HOME}/tools"


@dataclass(frozen=True)
class MadeNetwork:
    """A network and its demand; `folder` holds net.net.xml, demand.rou.xml and, with buses, their files."""

    folder: Path
    kind: str
    seed: int
    level: float
    vehicles: int  # of the demand, without buses
    buses: bool = False
    drawn: dict[str, object] = field(default_factory=dict)  # what the seed gave
    words: tuple[str, ...] = ()  # for streetsim-import
    seconds: int = SECONDS  # in which the vehicles depart

    @property
    def name(self) -> str:
        return f"{self.kind}-{self.seed}"

    @property
    def net(self) -> Path:
        return self.folder / "net.net.xml"

    @property
    def routes(self) -> list[Path]:
        return [self.folder / name for name in ("demand.rou.xml", *(["buses.rou.xml"] if self.buses else []))]

    @property
    def additional(self) -> list[Path]:
        return [self.folder / "stops.add.xml"] if self.buses else []


def make(
    kind: str, seed: int, work: Path, level: float = 0.8, vehicles: int | None = None, seconds: int = SECONDS
) -> MadeNetwork:
    """A network and a demand, in a folder of their own below `work`; made where they are not there yet.

    level: the share of what it can pass that the busiest approach has; vehicles: so many instead; seconds: in which
    they depart.
    """
    if kind not in KINDS:
        raise SystemExit(f"no kind is called {kind}: {', '.join(KINDS)}")
    amount = f"{level:g}" if vehicles is None else f"{vehicles}v"
    length = "" if seconds == SECONDS else f"-{seconds}s"
    folder = work.resolve() / f"{kind}-{seed}-{amount}{length}"
    note = folder / "made.json"
    if note.exists():
        return MadeNetwork(folder, **json.loads(note.read_text(encoding="utf-8")))
    folder.mkdir(parents=True, exist_ok=True)
    draws = Random(f"{kind} {seed}")
    draft = KINDS[kind].build(draws, folder)
    run([*draft.maker_words, "--no-turnarounds", "true", "--no-warnings", "-o", "net.net.xml"], folder)
    if draft.change:
        draft.change(folder / "net.net.xml")
    net = read_net(folder / "net.net.xml")
    much = Amount(level, vehicles, seconds)
    if draft.flows:
        found = write_flows(folder, draft, seed, much)
    else:
        found = write_demand(folder, net, seed, much, draft)
    if draft.lines:
        write_buses(folder, net, ways_of(folder / "demand.rou.xml"), draft.lines, draws)
    made = MadeNetwork(folder, kind, seed, level, found, bool(draft.lines), draft.drawn, draft.importing, seconds)
    fields = {name: value for name, value in asdict(made).items() if name != "folder"}
    note.write_text(json.dumps(fields, indent=1) + "\n", encoding="utf-8")
    return made


def read_net(path: Path):
    """The network, by SUMO's own library."""
    sys.path.append(SUMOLIB)
    from sumolib.net import readNet

    return readNet(str(path), withPrograms=True)


def main_unseen_nets(argv: list[str]) -> int | None:
    """Makes networks and demands of many kinds from a seed.

    Takes seconds a network; needs sumo, sumo-tools.

    Prints a line for each: its folder, its vehicles, and what the seed gave. --list prints the kinds.
    """
    parser = shared.parser_of(main_unseen_nets, program=False)
    parser.add_argument("seed", type=int, nargs="?")
    parser.add_argument("--work", type=Path)
    shared.add_some(parser, "--kinds", KINDS)
    parser.add_argument("--level", type=float, default=0.8, help="the busiest approach's share of what it can pass")
    parser.add_argument("--vehicles", type=int, help="so many, instead of a level")
    parser.add_argument("--list", action="store_true", help="the kinds")
    args = parser.parse_args(argv)
    if args.list:
        print("\n".join(f"{name:20} {kind.about}" for name, kind in KINDS.items()))
        return
    if args.seed is None or args.work is None:
        parser.error("a seed and --work FOLDER are needed")
    for kind in args.kinds:
        made = make(kind, args.seed, args.work, args.level, args.vehicles)
        print(f"{made.folder}: {made.vehicles:,} vehicles, {made.drawn}", flush=True)
