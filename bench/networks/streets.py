"""Networks in SUMO's plain XML and of netgenerate, which all measurements draw by; streets and towns as a seed draws
them; and whether the networks that sumo-tools ships load."""

import math
import random
import re
import shlex
import sys
import time
from collections.abc import Callable
from dataclasses import dataclass, field
from itertools import accumulate, pairwise
from pathlib import Path
from random import Random

import shared
from streetsim.base.client import Client
from streetsim.base.files import Fault
from streetsim.base.report import Report
from streetsim.sumo.import_files import convert
from streetsim.sumo.network import Options

KMH = 1 / 3.6  # metres a second


@dataclass
class Plain:
    """A network in SUMO's plain XML."""

    nodes: list[str] = field(default_factory=list)
    edges: list[str] = field(default_factory=list)
    connections: list[str] = field(default_factory=list)

    def node(self, name: str, x: float, y: float, kind: str = "priority") -> None:
        """kind: of the junction; without one netconvert chooses it."""
        given = f' type="{kind}"' if kind else ""
        self.nodes.append(f'<node id="{name}" x="{x:.2f}" y="{y:.2f}"{given}/>')

    def named_edge(self, name: str, begin: str, end: str, inside: str = "", **attributes: object) -> None:
        """An edge from node to node; inside: what is said of its lanes."""
        given = "".join(f' {key}="{value}"' for key, value in attributes.items())
        self.edges.append(f'<edge id="{name}" from="{begin}" to="{end}"{given}>{inside}</edge>')

    def edge(
        self, begin: str, end: str, lanes: int, kmh: int, priority: int, pocket: int = 0, inside: str = "",
        pocket_lanes: int = 1,
    ) -> None:
        """An edge by the names of its nodes; pocket: metres of more lanes before its end, for those who turn left."""
        usual = {"speed": f"{kmh * KMH:.2f}", "priority": priority}
        if pocket:
            few, all_of_them = (" ".join(map(str, range(count))) for count in (lanes, lanes + pocket_lanes))
            inside = f'<split pos="0" lanes="{few}"/><split pos="-{pocket}" lanes="{all_of_them}"/>'
        self.named_edge(f"{begin}-{end}", begin, end, inside, **usual, numLanes=lanes + (pocket_lanes if pocket else 0))

    def street(self, one: str, other: str, lanes: int, kmh: int, priority: int) -> None:
        """Edges both ways."""
        self.edge(one, other, lanes, kmh, priority)
        self.edge(other, one, lanes, kmh, priority)

    def connect(self, begin: str, end: str, lanes: tuple[int, int] | None = None) -> None:
        """Where connections are told, an edge leads to those alone that are. lanes: from, to; netconvert's if none."""
        given = f' fromLane="{lanes[0]}" toLane="{lanes[1]}"' if lanes else ""
        self.connections.append(f'<connection from="{begin}" to="{end}"{given}/>')

    def ban(self, begin: str, end: str) -> None:
        """Nobody turns from one edge to the other."""
        self.connections.append(f'<delete from="{begin}" to="{end}"/>')

    def write(self, folder: Path) -> list[str]:
        """Writes the files; gives netconvert's words for them."""
        parts = {"nodes": self.nodes, "edges": self.edges, "connections": self.connections}
        words, options = ["netconvert"], dict(zip(parts, ("-n", "-e", "-x"), strict=True))
        for kind, lines in parts.items():
            if lines:
                (folder / f"plain.{kind}.xml").write_text(f"<{kind}>{''.join(lines)}</{kind}>\n", encoding="utf-8")
                words += [options[kind], f"plain.{kind}.xml"]
        return words

    def make(self, net: Path, *words: object) -> None:
        """Makes the network, with more words of netconvert."""
        shared.run([*self.write(net.parent), *words, "-o", net.name], net.parent)


def generate(net: Path, words: str) -> None:
    """Makes a network of netgenerate."""
    shared.run(["netgenerate", *shlex.split(words), "-o", net.name], net.parent)


def random_trips(net: Path, routes: Path, period: float, words: str, last: int = 3600) -> None:
    """Makes a demand of sumo-tools' randomTrips: one vehicle in so many seconds, up to the last."""
    often = ["-b", 0, "-e", last, "-p", f"{period:.6f}", *words.split(), "--validate"]
    shared.run([sys.executable, shared.RANDOM_TRIPS, "-n", net, *often, "-r", routes.name], routes.parent)


@dataclass(frozen=True)
class Flow:
    """Vehicles along a way, at random."""

    name: str
    edges: str
    hourly: float  # at level 1
    kind: str = "car"  # its type


@dataclass(frozen=True)
class Draft:
    """How a network is made, and what its demand is like."""

    maker_words: list[str]  # of netconvert or netgenerate, but for the output
    trucks: float = 0.0  # share of vehicles of 12 and 18 m
    lines: int = 0  # of buses that stop
    drawn: dict[str, object] = field(default_factory=dict)  # what the seed gave, for whoever reads a table
    flows: tuple[Flow, ...] = ()  # all that drives, in place of trips between edges
    types: str = ""  # more types of vehicles, in SUMO's words
    importing: tuple[str, ...] = ()  # more words for streetsim-import
    peak: tuple[float, ...] = ()  # how much departs in each of equal parts of the time; evenly where nothing is told
    change: Callable[[Path], None] | None = None  # what is done with the made network


# ---- streets on which one drives through

SIDE = 300  # metres of a side street


def street(draws: Random, folder: Path) -> Draft:
    """A main street both ways, of two to four pieces, for road works: with a light at one of its nodes, or none."""
    plain = Plain()
    lanes, kmh = draws.choice((2, 2, 3)), draws.choice((50, 50, 60, 80))
    lengths = [draws.randrange(300, 1201, 50) for _ in range(draws.randrange(2, 5))]
    light = draws.choice((None, *range(1, len(lengths))))
    pocket = draws.choice((0, 45, 60)) if light else 0
    trucks = draws.choice((0.0, 0.1, 0.2))
    for number, x in enumerate(accumulate(lengths, initial=0)):
        plain.node(f"m{number}", x, 0, "traffic_light" if number == light else "priority")
        if number == light:
            side_streets(plain, f"m{number}", x)
    for number in range(len(lengths)):
        begin, end = f"m{number}", f"m{number + 1}"
        plain.edge(begin, end, lanes, kmh, 8, pocket if number + 1 == light else 0)
        plain.edge(end, begin, lanes, kmh, 8, pocket if number == light else 0)
    drawn = {"lanes": lanes, "kmh": kmh, "metres": lengths, "light": light, "pocket": pocket, "trucks": trucks}
    return Draft([*plain.write(folder), *cycle(draws)], trucks, drawn=drawn)


def cross(draws: Random, folder: Path) -> Draft:
    """A lone light, two lanes on each arm and a pocket for left turns."""
    plain, pocket = Plain(), draws.choice((60, 80, 100))
    arms = {"w": (-1, 0), "e": (1, 0), "n": (0, 1), "s": (0, -1)}
    plain.node("c", 0, 0, "traffic_light")
    for arm, (x, y) in arms.items():
        plain.node(arm, 500 * x, 500 * y)
        plain.edge(arm, "c", 2, 50, 8, pocket)
        plain.edge("c", arm, 2, 50, 8)
    return Draft([*plain.write(folder), *cycle(draws)], drawn={"pocket": pocket})


def lone_light(draws: Random, folder: Path) -> Draft:
    """A lone light on a street of one or two lanes with pockets, whose side street has pockets or none; left turns wait
    for gaps, or have an arrow too."""
    plain, lanes, pocket = Plain(), draws.choice((1, 2, 2)), draws.choice((40, 60, 80))
    side_pocket, arrow = draws.choice((0, 40, 60)), draws.choice((0, 0, 6))
    plain.node("c", 0, 0, "traffic_light")
    for arm, x, y in (("w", -500, 0), ("e", 500, 0), ("n", 0, 400), ("s", 0, -400)):
        plain.node(arm, x, y)
        is_main = not y
        plain.edge(arm, "c", lanes if is_main else 1, 50, 8 if is_main else 4, pocket if is_main else side_pocket)
        plain.edge("c", arm, lanes if is_main else 1, 50, 8 if is_main else 4)
    drawn = {"lanes": lanes, "pocket": pocket, "side pocket": side_pocket, "arrow": arrow}
    return Draft([*plain.write(folder), *cycle(draws), "--tls.left-green.time", str(arrow)], drawn=drawn)


def side_streets(plain: Plain, node: str, x: float, lanes: int = 1) -> None:
    for name, y in (("n", SIDE), ("s", -SIDE)):
        plain.node(f"{node}{name}", x, y)
        plain.street(node, f"{node}{name}", lanes, 50, 4)


def cycle(draws: Random, seconds: tuple[int, ...] = (60, 70, 80, 90)) -> list[str]:
    return ["--tls.cycle.time", str(draws.choice(seconds))]


# ---- streets on which lanes end, become one or are for some alone

# Vehicles an hour that pass where a lane ends: by metres behind a light at most, and without one.
ENDS, ENDS_ALONE = {60: 790, 120: 1020, 240: 1200}, 1200
ZIPPED = 1730  # vehicles an hour that pass where two streets become one
IN_GREEN = 800  # vehicles an hour of a lane whose light is green for some 45 % of the time
LEAD = 500  # metres of an edge that leads to what is looked at
BUS_LANE = '<lane index="0" allow="bus"/>'


def lane_drop(draws: Random, folder: Path) -> Draft:
    plain, metres_behind = Plain(), draws.choice((0, 30, 60, 120, 240))
    names, metres, light = ["a", "b", "end", "out"], [LEAD, LEAD, LEAD], "b" if metres_behind else ""
    if metres_behind:
        metres[1] = metres_behind
    for name, x in zip(names, accumulate(metres, initial=0), strict=True):
        plain.node(name, x, 0, "traffic_light" if name == light else "priority")
    for begin, end in pairwise(names):
        plain.edge(begin, end, 1 if begin == "end" else 2, 50, 8)
    flows_behind = (flow for most, flow in ENDS.items() if metres_behind <= most)
    passing = next(flows_behind, ENDS_ALONE) if metres_behind else ENDS_ALONE
    flows = [Flow("main", "a-b b-end end-out", passing)]
    if light:
        side_streets(plain, light, LEAD)
        flows.append(Flow("side", f"{light}n-{light} {light}-{light}s", 200))
    drawn = {"metres behind a light": metres_behind or None}
    return Draft([*plain.write(folder), *cycle(draws)], drawn=drawn, flows=tuple(flows))


def zipper(draws: Random, folder: Path) -> Draft:
    plain, share, kmh = Plain(), draws.uniform(0.3, 0.7), draws.choice((50, 50, 60, 80))
    for name, x, y in (("a", -900, 100), ("b", -500, 60), ("c", -900, -100), ("d", -500, -60), ("out", 500, 0)):
        plain.node(name, x, y)
    plain.node("zip", 0, 0, "zipper")
    for begin, end in (("a", "b"), ("b", "zip"), ("c", "d"), ("d", "zip"), ("zip", "out")):
        plain.edge(begin, end, 1, kmh, 8)
    flows = Flow("one", "a-b b-zip zip-out", ZIPPED * share), Flow("other", "c-d d-zip zip-out", ZIPPED * (1 - share))
    return Draft(plain.write(folder), drawn={"share": round(share, 2), "kmh": kmh}, flows=flows)


def bus_lane(draws: Random, folder: Path) -> Draft:
    plain, metres = Plain(), [draws.randrange(300, 701, 50) for _ in range(3)]
    buses, turning = draws.choice((10, 20, 40)), draws.choice((0, 40))
    for number, x in enumerate(accumulate(metres, initial=0)):
        plain.node(f"m{number}", x, 0, "traffic_light" if number in (1, 2) else "priority")
        if number in (1, 2):
            side_streets(plain, f"m{number}", x)
    for begin, end in pairwise(f"m{number}" for number in range(4)):
        plain.edge(begin, end, 2, 50, 8, inside=BUS_LANE)
        plain.edge(end, begin, 2, 50, 8, inside=BUS_LANE)
    east, west = "m0-m1 m1-m2 m2-m3", "m3-m2 m2-m1 m1-m0"
    flows = [Flow(f"{kind}.{way}", edges, hourly, kind) for kind, hourly in (("car", IN_GREEN), ("bus", buses))
             for way, edges in (("e", east), ("w", west))]
    flows += [Flow(f"side{number}", f"m{number}n-m{number} m{number}-m{number}s", 200) for number in (1, 2)]
    flows += [Flow("right", "m0-m1 m1-m1s", turning), Flow("left", "m0-m1 m1-m2 m2-m2n", turning)]
    words = [*plain.write(folder), *cycle(draws), "--tls.left-green.time", "0"]
    drawn, importing = {"metres": metres, "buses": buses, "turning": turning}, ("--classes", "passenger,bus")
    return Draft(words, drawn=drawn, flows=tuple(flows), types='<vType id="bus" vClass="bus"/>', importing=importing)


def limit(draws: Random, folder: Path) -> Draft:
    plain, kmh, metres = Plain(), draws.randrange(20, 131), draws.randrange(500, 3001, 100)
    plain.node("a", 0, 0)
    plain.node("b", metres, 0)
    plain.edge("a", "b", 1, kmh, 8)
    flow = Flow("main", "a-b", draws.randrange(100, 401, 50))
    return Draft(plain.write(folder), drawn={"kmh": kmh, "metres": metres, "hourly": flow.hourly}, flows=(flow,))


def types(draws: Random, folder: Path) -> Draft:
    plain, metres = Plain(), [draws.randrange(200, 501, 50) for _ in range(4)]
    for number, x in enumerate(accumulate(metres, initial=0)):
        plain.node(f"m{number}", x, 0, "traffic_light" if 0 < number < 4 else "priority")
        if 0 < number < 4:
            side_streets(plain, f"m{number}", x)
    for begin, end in pairwise(f"m{number}" for number in range(5)):
        plain.street(begin, end, 1, 50, 8)
    attributes, share = type_of(draws), draws.choice((0.2, 0.5, 1.0))
    ways = [("e", " ".join(f"m{number}-m{number + 1}" for number in range(4)), 650)]
    ways += [("w", " ".join(f"m{number + 1}-m{number}" for number in reversed(range(4))), 500)]
    ways += [(f"side{number}", f"m{number}n-m{number} m{number}-m{number}s", 200) for number in (1, 2, 3)]
    shares = {"drawn": share, "car": 1 - share}
    flows = tuple(Flow(f"{kind}.{way}", edges, hourly * part, kind) for way, edges, hourly in ways
                  for kind, part in shares.items() if part)
    words = " ".join(f'{name}="{value}"' for name, value in attributes.items())
    drawn = {"metres": metres, "share": share, **attributes}
    made = [*plain.write(folder), *cycle(draws), "--tls.left-green.time", "0"]
    return Draft(made, drawn=drawn, flows=flows, types=f'<vType id="drawn" {words}/>')


def type_of(draws: Random) -> dict[str, object]:
    """One or two attributes of a type, other than usual."""
    values: dict[str, tuple[object, ...]] = {
        "accel": (0.8, 1.3, 2.0), "maxSpeed": (8.33, 10.0, 12.5), "speedFactor": (0.8, 0.9, 1.1), "sigma": (0, 0.8),
    }
    names = draws.sample(sorted(values), draws.choice((1, 2)))
    return {name: draws.choice(values[name]) for name in names}


# ---- a grid of streets whose crossings are rings of one lane

ACROSS = 5  # roundabouts in a row, and rows
RING = 8.33  # of a ring: metres a second
STREET_SPEED = 13.89  # of a street, metres a second
LENGTHS = (140, 240)  # metres from roundabout to roundabout
ARM = 150  # metres of a street that leads out of town
RING_SIDES = {"e": (1, 0), "n": (0, 1), "w": (-1, 0), "s": (0, -1)}  # in the order of driving


def write_town(folder: Path, seed: int, radius: int) -> list[str]:
    """Writes a town by a seed and the metres of its rings' radius; gives netconvert's words for it."""
    draws, plain = random.Random(seed), Plain()
    across, up = (list(accumulate(draws.uniform(*LENGTHS) for _ in range(ACROSS))) for _ in range(2))
    for column, x in enumerate(across):
        for row, y in enumerate(up):
            ring_nodes(plain, (column, row), x, y, radius)
            ring_edges(plain, (column, row), x, y, radius)
            ring_streets(plain, (column, row))
    return [*plain.write(folder), "--roundabouts.guess", "true"]


def ring_nodes(plain: Plain, place: tuple[int, int], x: float, y: float, radius: int) -> None:
    """The four nodes of a ring, and the far ends of the streets that lead out of town."""
    for side, (right, up) in RING_SIDES.items():
        plain.node(name_of(place, side), x + radius * right, y + radius * up)
        if not is_inside(beyond(place, side)):
            away = radius + ARM
            plain.node(other_end(place, side), x + away * right, y + away * up, "")


def ring_edges(plain: Plain, place: tuple[int, int], x: float, y: float, radius: int) -> None:
    """The four edges of a ring."""
    order = list(RING_SIDES)
    for at, side in enumerate(order):
        name, following = name_of(place, side), name_of(place, order[(at + 1) % 4])
        plain.named_edge(f"ring{name}", name, following, **quarter(x, y, radius, at))


def quarter(x: float, y: float, radius: int, number: int) -> dict[str, object]:
    """What is said of an edge of a ring, one of four from the east on."""
    angles = (number * math.pi / 2 + part * math.pi / 8 for part in range(5))
    shape = " ".join(f"{x + radius * math.cos(angle):.2f},{y + radius * math.sin(angle):.2f}" for angle in angles)
    return {"numLanes": 1, "speed": RING, "priority": 10, "shape": shape}


def ring_streets(plain: Plain, place: tuple[int, int]) -> None:
    """The streets that begin at a roundabout, and those that come from out of town."""
    for side in RING_SIDES:
        here, there = name_of(place, side), other_end(place, side)
        for begin, end in [(here, there)] + ([] if is_inside(beyond(place, side)) else [(there, here)]):
            plain.named_edge(f"{begin}-{end}", begin, end, numLanes=1, speed=STREET_SPEED, priority=5)


def beyond(place: tuple[int, int], side: str) -> tuple[int, int]:
    return place[0] + RING_SIDES[side][0], place[1] + RING_SIDES[side][1]


def is_inside(place: tuple[int, int]) -> bool:
    return all(0 <= at < ACROSS for at in place)


def name_of(place: tuple[int, int], side: str) -> str:
    return f"{place[0]}_{place[1]}{side}"


def other_end(place: tuple[int, int], side: str) -> str:
    """The node at the other end of a street: the next roundabout's, or one out of town."""
    if is_inside(beyond(place, side)):
        return name_of(beyond(place, side), list(RING_SIDES)[(list(RING_SIDES).index(side) + 2) % 4])
    return f"out{name_of(place, side)}"


# ---- towns

Build = Callable[[Random, Path], Draft]


def random_town(*more_words: str, least: int = 70, most: int = 130) -> Build:
    """A random network of netgenerate; more_words: of its."""

    def build(draws: Random, folder: Path) -> Draft:
        iterations, longest = draws.randrange(least, most), draws.randrange(230, 301, 10)
        size = ["--rand.iterations", str(iterations), "--rand.max-distance", str(longest), "--rand.min-distance", "110"]
        size += ["--rand.min-angle", "30", "--seed", str(draws.randrange(1, 1 << 30))]
        drawn = {"iterations": iterations, "longest": longest}
        return Draft(["netgenerate", "--rand", *size, *more_words], drawn=drawn)

    return build


def grid(*more_words: str, lanes: tuple[int, ...] = (1, 2)) -> Build:
    """A grid of netgenerate with streets that lead out of it."""

    def build(draws: Random, folder: Path) -> Draft:
        across, up = draws.randrange(3, 5), draws.randrange(3, 5)
        wide, high, count = draws.randrange(150, 281, 10), draws.randrange(150, 281, 10), draws.choice(lanes)
        size = ["--grid.x-number", across, "--grid.y-number", up, "--grid.x-length", wide, "--grid.y-length", high]
        size += ["--grid.attach-length", 200, "-L", count, "--tls.cycle.time", draws.choice((60, 70, 80, 90))]
        drawn = {"junctions": [across, up], "metres": [wide, high], "lanes": count}
        return Draft(["netgenerate", "--grid", *map(str, size), *more_words], drawn=drawn)

    return build


def radial(draws: Random, folder: Path) -> Draft:
    """Streets from a middle and rings around it, with lights."""
    arms, circles, apart = draws.randrange(5, 9), draws.randrange(3, 6), draws.randrange(150, 241, 10)
    size = ["--spider.arm-number", arms, "--spider.circle-number", circles, "--spider.space-radius", apart]
    size += ["-L", draws.choice((1, 2)), "--tls.cycle.time", draws.choice((70, 80, 90))]
    drawn = {"arms": arms, "circles": circles, "apart": apart}
    return Draft(["netgenerate", "--spider", *map(str, size), "-j", "traffic_light"], drawn=drawn)


def rings(draws: Random, folder: Path) -> Draft:
    """Roundabouts of one lane where streets cross."""
    seed, radius = draws.randrange(1, 10_000), draws.randrange(16, 29)
    return Draft(write_town(folder, seed, radius), drawn={"radius": radius})


def mains(main_lanes: tuple[int, ...], minor_kmh: int, crossing: str, one_way: bool = False) -> Build:
    """A town of main streets among minor ones, on a grid with unequal blocks; crossing: how two main streets meet."""

    def build(draws: Random, folder: Path) -> Draft:
        plain, lanes = Plain(), draws.choice(main_lanes)
        xs, ys = (list(accumulate(draws.randrange(120, 261, 10) for _ in range(draws.randrange(5, 7)))) for _ in "xy")
        main_xs, main_ys = (set(range(draws.randrange(1, 3), len(places) - 1, 3)) for places in (xs, ys))
        for column, x in enumerate(xs):
            for row, y in enumerate(ys):
                both = column in main_xs and row in main_ys
                plain.node(f"{column}.{row}", x, y, crossing if both or one_way else "priority")
        ways = [(column, column in main_xs, [f"{column}.{row}" for row in range(len(ys))]) for column in range(len(xs))]
        ways += [(row, row in main_ys, [f"{column}.{row}" for column in range(len(xs))]) for row in range(len(ys))]
        for number, is_main, names in ways:
            width, kmh, priority = (lanes, 50, 8) if is_main else (1, minor_kmh, 3)
            along = names if number % 2 else names[::-1]
            for begin, end in zip(along, along[1:]):
                plain.edge(begin, end, width, kmh, priority)
                if not one_way:
                    plain.edge(end, begin, width, kmh, priority)
        drawn = {"main lanes": lanes, "junctions": [len(xs), len(ys)], "minor kmh": minor_kmh}
        return Draft([*plain.write(folder), "--tls.cycle.time", str(draws.choice((60, 75, 90)))], drawn=drawn)

    return build


MIXED_TYPES = ("priority", "priority", "priority_stop", "allway_stop")  # of junctions on a main street


def mixed(draws: Random, folder: Path) -> Draft:
    """The same without lights, each junction of a kind of its own: minor streets meet right before left."""
    draft = mains((1, 2), 50, "priority")(draws, folder)
    path = folder / "plain.nodes.xml"
    edges = [line.split('"') for line in (folder / "plain.edges.xml").read_text(encoding="utf-8").split("<edge ")[1:]]
    on_main = {node for line in edges if line[9] == "8" for node in (line[3], line[5])}

    def with_kind(found: re.Match[str]) -> str:
        kind = draws.choice(MIXED_TYPES) if found[1] in on_main else "right_before_left"
        return f'id="{found[1]}"{found[2]}type="{kind}"'

    text = re.sub('id="([^"]*)"([^>]*)type="priority"', with_kind, path.read_text(encoding="utf-8"))
    path.write_text(text, encoding="utf-8")
    return draft


def timed(times, call):
    """What a call gives, and its least time."""
    best = float("inf")
    for _ in range(times):
        begun = time.perf_counter()
        given = call()
        best = min(best, time.perf_counter() - begun)
    return given, best


def load(program, commands):
    """The replies to load and signal lines, and the time from the first byte to the last reply."""
    with Client(program, calls=0) as sim:
        sim.batch([{"cmd": "count"}])  # so that the program has begun
        begun = time.perf_counter()
        replies = sim.batch(commands)
        spent = time.perf_counter() - begun
    return replies, spent


def loaded_row(program, path, times):
    """The cells of a network's row after its name."""
    try:
        (network, lights, commands, _), imported = timed(times, lambda: convert(path, [], [], Options(), Report()))
    except Fault as fault:
        return ["", "", "", "", "", f"refused: {str(fault).partition(': ')[2]}"]
    over = list(network.over_limits())
    if over:
        return ["", "", "", "", "", f"refused: {'; '.join(over)}"]
    runs = [load(program, commands) for _ in range(times)]
    refused = [reply for replies, _ in runs for reply in replies if isinstance(reply, Exception)]
    if refused:
        raise SystemExit(f"{path}: {refused[0]}")
    sizes = [len(network.nodes), len(network.links), len(network.turns), len(lights)]
    return [*(f"{size:,}" for size in sizes), f"{imported:.2f}", f"{min(spent for _, spent in runs):.3f}"]


def main_shipped(argv: list[str]) -> int | None:
    """Whether each network that sumo-tools ships loads, and how long that takes.

    Takes minutes; needs sumo, sumo-tools.

    Times are those of the clock on the wall, the best of three runs: of the import, and of the load and signal lines
    with their replies. It stops where one of these lines is refused.
    """
    parser = shared.parser_of(main_shipped)
    parser.add_argument("--folder", default="/usr/share/sumo")
    parser.add_argument("--times", type=int, default=3)
    args = parser.parse_args(argv)
    shared.print_heads("Network | nodes | links | turns | signals | import, s | load and signals, s")
    for path in sorted(Path(args.folder).rglob("*.net.xml")):
        cells = loaded_row(args.program, str(path), args.times)
        print(f"| {path.relative_to(args.folder)} | {' | '.join(cells)} |", flush=True)
