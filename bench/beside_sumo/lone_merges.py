"""Lone places beside SUMO at which lanes become one without a light: zippers, lanes that end, and ramps, with full and
half full streams."""

import random
from collections.abc import Callable, Iterator, Sequence
from dataclasses import dataclass
from itertools import product
from pathlib import Path
from statistics import fmean

import shared
from beside_sumo.junctions import Trips, run_here
from beside_sumo.rows import sumo_trips
from networks.streets import Plain
from streetsim.report.beside_sumo import read_tripinfo

FIRST, LAST = 600, 3000  # seconds of the count
FULL, HALF = 1800, 450  # vehicles an hour and lane: more than can pass, and few
APART = 1500  # metres from place to place
LEAD, RAMP, EXIT = 600, 400, 600  # metres of the main street, of what joins it, and of the street behind
MOST_OFF = 0.08  # of those who pass
STREET, FAST = 50, 80  # km/h


@dataclass(frozen=True)
class Stream:
    """Who comes from one side, and in how many lanes."""

    name: str
    edges: str
    lanes: int = 1


@dataclass(frozen=True)
class Place:
    """A place with a stream on the main street, and another one where one joins it."""

    kind: str
    loads: Sequence[int]  # vehicles an hour and lane, by stream
    streams: Sequence[Stream]
    number: int

    def name(self, stream: Stream) -> str:
        """With which the names of a stream's vehicles begin."""
        return f"p{self.number}.{stream.name}."


def zipper(plain: Plain, node: str, y: float) -> list[Stream]:
    """Two streets that become one by turns."""
    street(plain, node, y, STREET, 1, 1, "zipper")
    joining(plain, node, y, STREET, 8)
    return [main_stream(node), joining_stream(node)]


def lane_end(plain: Plain, node: str, y: float) -> list[Stream]:
    """A street of two lanes of which one ends."""
    street(plain, node, y, STREET, 2, 1)
    return [main_stream(node, 2)]


def ramp(plain: Plain, node: str, y: float, kmh: int = STREET, lanes: int = 1) -> list[Stream]:
    """A lane that gives way to those of a main street and joins them."""
    street(plain, node, y, kmh, lanes, lanes)
    joining(plain, node, y, STREET, 4)
    return [main_stream(node, lanes), joining_stream(node)]


def wide_ramp(plain: Plain, node: str, y: float) -> list[Stream]:
    return ramp(plain, node, y, STREET, 2)


def ramp_with_lane(plain: Plain, node: str, y: float) -> list[Stream]:
    """A lane that goes on beside the two of a fast street for 200 m, and ends."""
    plain.node(f"{node}in", -LEAD, y)
    plain.node(node, 0, y)
    plain.node(f"{node}end", 200, y)
    plain.node(f"{node}out", EXIT, y)
    plain.named_edge(f"{node}a", f"{node}in", node, numLanes=2, speed=f"{FAST / 3.6:.2f}", priority=8)
    plain.named_edge(f"{node}m", node, f"{node}end", numLanes=3, speed=f"{FAST / 3.6:.2f}", priority=8)
    plain.named_edge(f"{node}b", f"{node}end", f"{node}out", numLanes=2, speed=f"{FAST / 3.6:.2f}", priority=8)
    plain.connections += [
        f'<connection from="{node}a" to="{node}m" fromLane="{lane}" toLane="{lane + 1}"/>' for lane in (0, 1)
    ]
    joining(plain, node, y, FAST, 8)
    plain.connections.append(f'<connection from="{node}j" to="{node}m" fromLane="0" toLane="0"/>')
    return [Stream("main", f"{node}a {node}m {node}b", 2), Stream("joining", f"{node}j {node}m {node}b")]


def street(plain: Plain, node: str, y: float, kmh: int, lanes: int, lanes_behind: int, kind: str = "priority") -> None:
    """A street with a node at which something joins it, or a lane ends."""
    plain.node(f"{node}in", -LEAD, y)
    plain.node(node, 0, y, kind)
    plain.node(f"{node}out", EXIT, y)
    usual = {"speed": f"{kmh / 3.6:.2f}", "priority": 8}
    plain.named_edge(f"{node}a", f"{node}in", node, numLanes=lanes, **usual)
    plain.named_edge(f"{node}b", node, f"{node}out", numLanes=lanes_behind, **usual)


def joining(plain: Plain, node: str, y: float, kmh: int, priority: int) -> None:
    """The lane that comes from the right."""
    plain.node(f"{node}side", -RAMP, y - 120)
    plain.named_edge(f"{node}j", f"{node}side", node, numLanes=1, speed=f"{kmh / 3.6:.2f}", priority=priority)


def main_stream(node: str, lanes: int = 1) -> Stream:
    return Stream("main", f"{node}a {node}b", lanes)


def joining_stream(node: str) -> Stream:
    return Stream("joining", f"{node}j {node}b")


KINDS: dict[str, Callable[[Plain, str, float], list[Stream]]] = {
    "zipper": zipper, "one of two lanes ends": lane_end, "a lane joins one": ramp, "a lane joins two": wide_ramp,
    "a lane of 200 m beside two, 80 km/h": ramp_with_lane,
}  # fmt: skip


def places_of(plain: Plain) -> Iterator[Place]:
    """All kinds with all loads of their streams."""
    number = 0
    for kind, draw in KINDS.items():
        sides = 1 if draw is lane_end else 2
        for loads in product((FULL, HALF), repeat=sides):
            yield Place(kind, loads, draw(plain, f"p{number}", number * APART), number)
            number += 1


def demand(places: Sequence[Place], seed: int) -> str:
    """The routes: vehicles at random."""
    draws, vehicles = random.Random(seed), []
    for place in places:
        for stream, hourly in zip(place.streams, place.loads, strict=True):
            clock = 0.0
            while (clock := clock + draws.expovariate(hourly * stream.lanes / 3600)) < LAST:
                vehicles.append((clock, f"{place.name(stream)}{len(vehicles)}", stream.edges))
    lines = (
        f'<vehicle id="{name}" depart="{clock:.1f}" departLane="best" departSpeed="max"><route edges="{edges}"/>'
        "</vehicle>"
        for clock, name, edges in sorted(vehicles)
    )
    return f"<routes>{''.join(lines)}</routes>"


def passed_of(trips: Trips, begin: str) -> tuple[float, float]:
    """(vehicles an hour that arrived in the count, their mean trip in seconds), of those whose names begin so."""
    seconds = [to - at for name, (at, to) in trips.items() if name.startswith(begin) and FIRST <= to < LAST]
    return len(seconds) * 3600 / (LAST - FIRST), fmean(seconds) if seconds else 0.0


def cells_of(place: Place, sides: Sequence[Sequence[Trips]]) -> Iterator[str]:
    """What is printed of the streams of a place: who pass, and where no stream is full, the mean trip too."""
    for stream, hourly in zip(place.streams, place.loads, strict=True):
        found = [[passed_of(trips, place.name(stream)) for trips in side] for side in sides]
        (there, there_s), (here, here_s) = ([fmean(column) for column in zip(*own, strict=True)] for own in found)
        load = "full" if hourly == FULL else "half full"
        trip = "" if FULL in place.loads else f", {there_s:.0f} / {here_s:.0f} s"
        near = "yes" if abs(here / there - 1) <= MOST_OFF else "no"
        yield f"{stream.name}, {load} | {there:.0f} / {here:.0f} ({here / there - 1:+.1%}){trip} | {near}"


def prepare(folder: Path, seed: int) -> tuple[list[Place], Path, Path]:
    """The places, their network and the routes of a seed."""
    plain, net, routes = Plain(), folder / "net.net.xml", folder / f"demand-{seed}.rou.xml"
    places = [*places_of(plain)]
    if not net.exists():
        plain.make(net, "--no-turnarounds", "true")
    routes.write_text(demand(places, seed), encoding="utf-8")
    return places, net, routes


def main_lone_merges(argv: list[str]) -> int | None:
    """Who passes zippers, ends of lanes and ramps from full and half full streets, beside SUMO.

    Takes minutes; needs sumo.

    All places stand in one network that netconvert makes, each with each of its streams full and half full. A stream
    is near SUMO where as many pass within 8 %. What SUMO wrote is kept in the folder of --work.
    """
    parser = shared.parser_of(main_lone_merges, work=True)
    parser.add_argument("--seeds", default="1", type=shared.numbers, help="of departures, and of SUMO")
    parser.add_argument("--tools", default=shared.TOOLS, type=shared.whole_path, help="other tools than these")
    args = parser.parse_args(argv)
    folder, theirs, ours = shared.work_of(args), list[Trips](), list[Trips]()
    for seed in args.seeds:
        places, net, routes = prepare(folder, seed)
        words = ["-n", net, "-r", routes, "--end", LAST, "--seed", seed, "--time-to-teleport", -1]
        theirs.append(read_tripinfo(str(sumo_trips(folder / f"trips-{seed}.xml", words))))
        ours.append(run_here(net, routes, folder, args.program, args.tools, LAST))
    shared.print_heads("Place | stream | an hour, SUMO / here | near")
    for place in places:
        for cells in cells_of(place, (theirs, ours)):
            print(f"| {place.kind} | {cells} |")
