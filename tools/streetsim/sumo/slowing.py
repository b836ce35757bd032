"""A lower limit on a stretch of an edge, as along road works.

A limit is a link's own, for the whole run. So the edge is cut into up to three that follow each other, of which one has
the limit. The first keeps the edge's name; the others are called after it and the metre at which they begin.
"""
import re
from collections.abc import Iterable, Mapping, Sequence
from dataclasses import dataclass, replace
from itertools import accumulate, pairwise
from math import dist

from streetsim.base import limits
from streetsim.base.files import Fault
from streetsim.base.report import Report
from streetsim.model.detectors import E2
from streetsim.sumo.bus_stops import BusStop, begin_and_end_on_lane
from streetsim.sumo.demand import DemandVehicle
from streetsim.sumo.detectors import SumoDetector, tell_beyond
from streetsim.sumo.net import NetConnection, NetEdge, NetLane, Point, SumoNet

FORM = re.compile(r"(.+):(\d+)-(\d+):(\d+)")
KMH = 3.6  # of one metre a second
LEAST_METRES = 30  # metres, below which an edge has no part of its own before or behind the stretch


@dataclass(slots=True, frozen=True)
class SlowStretch:
    """A lower limit on a stretch of an edge, from begin to end in metres."""

    edge: str
    begin: int  # metres
    end: int
    kmh: int

    def text(self) -> str:
        """The limit as the text that slow_of reads."""
        return f"{self.edge}:{self.begin}-{self.end}:{self.kmh}"


@dataclass(slots=True, frozen=True)
class EdgePart:
    """A part of an edge, as it is cut for a lower limit."""

    name: str
    begin: float  # metres
    end: float
    slow: bool


def slow_of(text: str) -> SlowStretch:
    """The limit that a text EDGE:METRES-METRES:KMH asks for; Fault where it has another form, the metres do not rise,
    or the limit is not in limits.KMH."""
    found = FORM.fullmatch(text)
    if not found or int(found[2]) >= int(found[3]) or int(found[4]) not in limits.KMH:
        many = f"{limits.KMH[0]} to {limits.KMH[-1]}"
        raise Fault(f"--slow {text!r}: expected EDGE:METRES-METRES:KMH, metres that rise and {many} km/h")
    return SlowStretch(found[1], *map(int, found.groups()[1:]))


def parts_of(slow: SlowStretch, metres: float) -> list[EdgePart]:
    """The parts of an edge of some metres, on which the stretch begins; one before or behind the slow part that would
    be shorter than LEAST_METRES belongs to it."""
    begin = slow.begin if slow.begin >= LEAST_METRES else 0
    end = slow.end if metres - slow.end >= LEAST_METRES else metres
    places = list(dict.fromkeys((0, begin, end, metres)))
    return [EdgePart(f"{slow.edge}.{at}" if at else slow.edge, at, to, at == begin) for at, to in pairwise(places)]


def with_lower_limits(
    net: SumoNet, vehicles: Sequence[DemandVehicle], texts: Iterable[str], report: Report
) -> tuple[SumoNet, list[DemandVehicle]]:
    """(a new network with edges in parts, the vehicles with these parts in their routes); net and vehicles stay as they
    are. texts: EDGE:METRES-METRES:KMH; Fault where slow_of or refuse_limit raises it. Detectors that are cut are
    reported."""
    changed_net, parts_of_edge = net, dict[str, list[EdgePart]]()
    for slow in map(slow_of, texts):
        refuse_limit(slow, net, parts_of_edge)
        parts_of_edge[slow.edge] = parts_of(slow, net.edges[slow.edge].lanes[0].metres)
        changed_net = with_parts(changed_net, slow, parts_of_edge[slow.edge], report)
    stops = {name: stop_on_part(stop, parts_of_edge) for name, stop in net.bus_stops.items()}
    return replace(changed_net, bus_stops=stops), [vehicle_over_parts(one, parts_of_edge) for one in vehicles]


def refuse_limit(slow: SlowStretch, net: SumoNet, limited_edges: Iterable[str]) -> None:
    """Fault where a network cannot have a limit: no such edge, a stretch that does not begin on it or ends over 1 m
    beyond, a limit above its own, a second limit (limited_edges: with one), or a name of a part that is taken."""
    limit_label = f"{slow.kmh} km/h on {slow.edge}"
    if slow.edge not in net.edges:
        raise Fault(f"{limit_label}: the import has no edge {slow.edge!r}")
    if slow.edge in limited_edges:
        raise Fault(f"{limit_label}: it has another lower limit")
    lane = net.edges[slow.edge].lanes[0]
    if slow.begin >= lane.metres or slow.end > lane.metres + 1:
        raise Fault(f"{limit_label}: the edge ends at {lane.metres:g} m")
    if slow.kmh > round(KMH * lane.speed, 1):
        raise Fault(f"{limit_label}: its limit is {KMH * lane.speed:.0f} km/h, which is lower")
    if taken := [part.name for part in parts_of(slow, lane.metres)[1:] if {part.name} & {*net.edges, *net.junctions}]:
        raise Fault(f"{limit_label}: the network has a {taken[0]!r} already")


def vehicle_over_parts(vehicle: DemandVehicle, parts_of_edge: Mapping[str, Sequence[EdgePart]]) -> DemandVehicle:
    """The vehicle with the parts of edges, by edge, in place of these in its route, and with its stops on these."""
    if parts_of_edge.keys().isdisjoint(vehicle.edges):
        return vehicle
    names = {edge: [part.name for part in own] for edge, own in parts_of_edge.items()}
    stops = [
        replace(stop, bus_stop=stop_on_part(stop.bus_stop, parts_of_edge)) if stop.bus_stop else stop
        for stop in vehicle.stops
    ]
    edges = tuple(name for edge in vehicle.edges for name in names.get(edge, (edge,)))
    return replace(vehicle, edges=edges, stops=tuple(stops))


def stop_on_part(bus_stop: BusStop, parts_of_edge: Mapping[str, Sequence[EdgePart]]) -> BusStop:
    """A bus stop put on the part on which it ends, where its edge has parts (by edge); it begins with
    that part at the earliest."""
    edge, _, index = bus_stop.lane.rpartition("_")
    if edge not in parts_of_edge:
        return bus_stop
    begin, end = begin_and_end_on_lane(bus_stop, parts_of_edge[edge][-1].end, True, "")
    part = next(part for part in parts_of_edge[edge] if end <= part.end)
    return BusStop(f"{part.name}_{index}", max(0.0, begin - part.begin), end - part.begin)


def with_parts(net: SumoNet, slow: SlowStretch, edge_parts: Sequence[EdgePart], report: Report) -> SumoNet:
    """A new network with one edge (slow.edge) in parts, which are joined by connections. Detectors that are cut are
    reported."""
    whole_edge, last_name = net.edges[slow.edge], edge_parts[-1].name
    part_edges = {part.name: part_edge(part, edge_parts, whole_edge, slow) for part in edge_parts}
    edges: dict[str, NetEdge] = {}
    for name, edge in net.edges.items():
        edges |= part_edges if name == slow.edge else {name: edge}
    joining = [
        NetConnection(part.name, following_part.name, lane.index, lane.index, None, 0, "M", speed=lane.speed)
        for part, following_part in pairwise(edge_parts)
        for lane in whole_edge.lanes
    ]
    connections = [
        replace(connection, source=last_name) if connection.source == slow.edge else connection
        for connection in net.connections
    ]
    inner = {part.name: part_edges[part.name].lanes[0].shape[0] for part in edge_parts[1:]}
    names = {part.name for part in edge_parts}
    left_out = [name for name in net.closed_lanes if name.rpartition("_")[0] == slow.edge]
    return replace(
        net,
        junctions={**net.junctions, **inner},
        types={**net.types, **dict.fromkeys(inner, "priority")},
        yields={**net.yields, **{name: {} for name in inner}},
        edges=edges,
        connections=[*connections, *joining],
        closed_movements={
            (last_name if source == slow.edge else source, target) for source, target in net.closed_movements
        },
        closed_lanes=net.closed_lanes | {f"{part}_{name.rpartition('_')[2]}" for name in left_out for part in names},
        roundabouts=net.roundabouts | names if slow.edge in net.roundabouts else net.roundabouts,
        detectors=[detector_on_part(detector, slow.edge, edge_parts, report) for detector in net.detectors],
    )


def part_edge(edge_part: EdgePart, edge_parts: Sequence[EdgePart], whole_edge: NetEdge, slow: SlowStretch) -> NetEdge:
    """A part as an edge of its own; edge_parts: all of the edge, in order; whole_edge: the edge before it was cut."""
    begin = whole_edge.begin if edge_part == edge_parts[0] else edge_part.name
    end = whole_edge.end if edge_part == edge_parts[-1] else edge_parts[edge_parts.index(edge_part) + 1].name
    lanes = [part_lane(lane, edge_part, edge_parts[-1].end, slow) for lane in whole_edge.lanes]
    is_cut = edge_part != edge_parts[-1]
    return NetEdge(edge_part.name, begin, end, whole_edge.priority, lanes, whole_edge.street, is_cut, edge_part.slow)


def part_lane(lane: NetLane, edge_part: EdgePart, metres: float, slow: SlowStretch) -> NetLane:
    """The lane of a part, of a lane of the whole edge; metres: of the whole edge."""
    speed = min(lane.speed, slow.kmh / KMH) if edge_part.slow else lane.speed
    begin, end = edge_part.begin / metres, edge_part.end / metres
    return NetLane(lane.index, speed, (end - begin) * lane.metres, piece_of_line(lane.shape, begin, end), lane.closed)


def piece_of_line(shape: Sequence[Point], begin: float, end: float) -> list[Point]:
    """The piece of a line between two shares, begin and end (0 to 1), of its length."""
    ways = list(accumulate((dist(*pair) for pair in pairwise(shape)), initial=0.0))
    first, last = begin * ways[-1], end * ways[-1]
    inside = [point for point, way in zip(shape, ways, strict=True) if first < way < last]
    return [point_at(shape, ways, first), *inside, point_at(shape, ways, last)]


def point_at(shape: Sequence[Point], ways: Sequence[float], way: float) -> Point:
    """The point of a line after way metres of it; ways: the metres from its begin to each of its points."""
    at = next((at for at in range(1, len(ways)) if ways[at] >= way), len(ways) - 1)
    (x, y), (other_x, other_y), metres = shape[at - 1], shape[at], ways[at] - ways[at - 1]
    share = (way - ways[at - 1]) / metres if metres else 0.0
    return x + share * (other_x - x), y + share * (other_y - y)


def detector_on_part(detector: SumoDetector, edge: str, edge_parts: Sequence[EdgePart], report: Report) -> SumoDetector:
    """A detector, put on the part on which it begins where it lies on the edge; one that reaches beyond that part is
    cut, which is reported."""
    name, _, index = detector.lane.rpartition("_")
    if name != edge:
        return detector
    metres = edge_parts[-1].end
    begin = detector.begin + metres if detector.begin < 0 else detector.begin
    end = detector.end + metres if detector.end is not None and detector.end < 0 else detector.end
    edge_part = [edge_part for edge_part in edge_parts if edge_part.begin <= max(0.0, begin)][-1]
    lane, is_last = f"{edge_part.name}_{index}", edge_part == edge_parts[-1]
    if detector.kind == E2 and not is_last and (end is None or end > edge_part.end):
        tell_beyond(detector.name, lane, report)
        end = edge_part.end
    part_end = None if end is None else end - edge_part.begin
    return replace(detector, lane=lane, begin=begin - edge_part.begin, end=part_end)
