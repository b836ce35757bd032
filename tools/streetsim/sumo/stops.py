"""SUMO's stops: bus stops, which vehicle stops where and for how long, and their places on the cells of an import. All
that reads raises Fault, with file and element, where an attribute that it needs is absent, or one cannot be read."""
from __future__ import annotations

from collections import defaultdict
from collections.abc import Iterable, Sequence
from dataclasses import dataclass, field, replace
from xml.etree.ElementTree import Element

from streetsim.base.files import (
    Fault, FilePath, at_least_zero, attribute, attributes_of, element_told, filled, number, optional, seconds,
)
from streetsim.base.report import Report, first_few
from streetsim.model.stops import Visit
from streetsim.sumo.bus_stops import BusStop, begin_and_end_on_lane
from streetsim.sumo.detectors import TRUE
from streetsim.sumo.net import SumoNet
from streetsim.sumo.links import Link
from streetsim.sumo.network import Network
from streetsim.sumo.types import PACE, Kind, Types

BUS_STOPS = ("busStop", "trainStop")
ELSEWHERE = ("containerStop", "chargingStation", "parkingArea", "overheadWireSegment")
POINT = 0.2  # metres of a bus stop that tells its end alone
WAITS = ("triggered", "containerTriggered", "joinTriggered")
NO_SECONDS = "without duration and until, with which SUMO's vehicle stands for good"
IN_BAY = "in a bay beside the lane (parking)"
SHORT = "the lane is shorter than two cells"
NOT_ON_WAY = "not on the vehicle's way, behind its stops before"
OTHER_LANE = "another stop of the edge is on a lane from which nobody changes to this one"
LEFT_OUT = "its lane is left out, as it is closed to the classes"


@dataclass(slots=True, frozen=True)
class Stop:
    """A stop of a vehicle, as its file tells it: of duration seconds at least, ending at the clock until or later
    (None: not told)."""

    element_label: str  # file and element, for what is told
    name: str  # of the bus stop, or of what one that cannot be made names; else empty
    bus_stop: BusStop | None  # where the lane is told
    duration: int
    until: int | None
    reason: str = ""  # it cannot be made; empty where it can
    attributes: tuple[tuple[str, str], ...] = ()  # its attributes in the file

    def text(self) -> str:
        """Its element as XML text, as a file of routes has it."""
        until = {} if self.until is None else {"until": str(self.until)}
        return f"<stop{attributes_of({**dict(self.attributes), **until})}/>"

    def later(self, shift: float) -> Stop:
        """The stop with its until shift seconds later; without until it stays as it is."""
        return self if self.until is None else replace(self, until=self.until + round(shift))


@dataclass(slots=True, frozen=True)
class StopSpot:
    """Where a stop lies; begin and end in metres from the lane's begin."""

    position: int  # the edge's position in a route
    edge: str
    index: int  # of the lane
    begin: float
    end: float


@dataclass(slots=True)
class FoundStops:
    """The stops of a vehicle that lie on its way, each with its spot there."""

    stops: list[tuple[Stop, StopSpot]] = field(default_factory=list)

    def first_lanes(self) -> dict[int, tuple[str, int]]:
        """The lane, (edge, index), of the first stop on each edge with one, by the edge's position in the route."""
        found: dict[int, tuple[str, int]] = {}
        for _, spot in self.stops:
            found.setdefault(spot.position, (spot.edge, spot.index))
        return found


def read_bus_stop(path: FilePath, element: Element, net: SumoNet) -> None:
    """Adds a bus stop to the network (bus_stops); Fault where another has its name, or checked_bus_stop raises one."""
    name, lane = attribute(path, element, "id", filled), attribute(path, element, "lane", filled)
    if name in net.bus_stops:
        raise Fault(f"{element_told(path, element)}: a second stop of this name")
    ends = (optional(path, element, key, number, None) for key in ("startPos", "endPos"))
    net.bus_stops[name] = checked_bus_stop(BusStop(lane, *ends), element, net, element_told(path, element))


def metres_of_lane(lane: str, net: SumoNet, element_label: str) -> float:
    """The metres of a lane; 0 where it is left out, as it is not for the classes. Fault where the network has no lane
    of this name; element_label: the element, for the Fault."""
    edge, _, index = lane.rpartition("_")
    if lane in net.closed_lanes:
        return 0.0
    lanes = net.edges[edge].lanes if edge in net.edges else []
    metres = next((one.metres for one in lanes if str(one.index) == index), None)
    if metres is None:
        raise Fault(f"{element_label}: the network has no lane {lane!r}")
    return metres


def checked_bus_stop(bus_stop: BusStop, element: Element, net: SumoNet, element_label: str) -> BusStop:
    """The bus stop itself, which an element tells. Fault where the network has no such lane, or
    `begin_and_end_on_lane` raises one (not called where the lane is left out); element_label: for the Fault."""
    if length := metres_of_lane(bus_stop.lane, net, element_label):
        begin_and_end_on_lane(bus_stop, length, element.get("friendlyPos", "").lower() in TRUE, element_label)
    return bus_stop


def stops_in(path: FilePath, owner: Element, net: SumoNet) -> tuple[Stop, ...]:
    """The stops that stand directly in an element (owner), not those of a route inside it."""
    return tuple([stop_of(path, owner, one, net) for one in owner if one.tag == "stop"]) if len(owner) else ()


def stop_of(path: FilePath, owner: Element, element: Element, net: SumoNet) -> Stop:
    """The stop of a <stop> in an element (owner); one that cannot be made has the reason and no bus_stop. Its
    seconds are whole ones, a duration is 1 at least. Fault where unnamed_bus_stop raises one; whether there is a bus
    stop of its name is looked at later (Stops.bus_stop_of)."""
    element_label = f"{element_told(path, owner)}: <stop>"
    name = next((element.get(kind, "") for kind in BUS_STOPS if element.get(kind)), "")
    duration, until = (optional(path, element, key, at_least_zero(seconds), None) for key in ("duration", "until"))
    reason, bus_stop = why_cannot_be_made(element), None
    if duration is None and until is None:
        reason = reason or NO_SECONDS
    if reason:
        kinds = (*BUS_STOPS, *ELSEWHERE, "lane", "edge")
        name = next((element.get(kind, "") for kind in kinds if element.get(kind)), "")
    elif not name:
        bus_stop = unnamed_bus_stop(path, element, net, element_label)
    return Stop(
        element_label, name, bus_stop, max(1, round(duration or 0)), None if until is None else round(until), reason,
        tuple(element.items()),
    )  # fmt: skip


def why_cannot_be_made(element: Element) -> str:
    """Why a stop (its <stop> element) cannot be made, by its attributes other than times; empty where it can."""
    if element.get("parking", "false").lower() in (*TRUE, "opportunistic"):
        return IN_BAY
    if kind := next((kind for kind in ELSEWHERE if element.get(kind)), ""):
        return f"at a {kind}"
    if name := next((one for one in WAITS if element.get(one, "").lower() in TRUE), ""):
        return f"as long as others say ({name})"
    if element.get("onDemand", "").lower() in TRUE:
        return "where SUMO's vehicle stops for persons alone (onDemand)"
    if name := next((one for one in ("speed", "jump") if element.get(one)), ""):
        return f"with {name}, which streetsim does not have"
    return ""


def unnamed_bus_stop(path: FilePath, element: Element, net: SumoNet, element_label: str) -> BusStop:
    """The bus stop of a stop that names a lane, or an edge: then the first lane of it that is kept. An end that is not
    told (by endPos, or pos, its former name) is the lane's, a begin that is not told POINT before the end. Fault where
    it names neither, the network does not have the edge, or `checked_bus_stop` raises one; element_label: for the
    Fault."""
    lane, edge = element.get("lane", ""), element.get("edge", "")
    if not lane and not edge:
        raise Fault(f"{element_label}: without busStop, lane or edge")
    if not lane and edge not in net.edges and edge not in net.dropped:
        raise Fault(f"{element_label}: the network has no edge {edge!r}")
    lane = lane or f"{edge}_{net.edges[edge].lanes[0].index if edge in net.edges else 0}"
    end = optional(path, element, "endPos", number, optional(path, element, "pos", number, None))
    end = metres_of_lane(lane, net, element_label) if end is None else end
    begin = optional(path, element, "startPos", number, max(0.0, end - POINT) if end >= 0 else end - POINT)
    return checked_bus_stop(BusStop(lane, begin, end), element, net, element_label)


def edge_of(stop: Stop, net: SumoNet) -> str:
    """The name of the edge where a stop lies; empty where neither it nor its bus stop tells a lane or edge."""
    bus_stop, told = net.bus_stops.get(stop.name) if stop.name else stop.bus_stop, dict(stop.attributes)
    lane = bus_stop.lane if bus_stop else told.get("lane", "")
    return lane.rpartition("_")[0] or told.get("edge", "")


class Stops:
    """The stops of an import: gives those of each vehicle their cells, and reports those that cannot be made."""

    def __init__(self, net: SumoNet, types: Types, report: Report) -> None:
        """types: by which losses at stops are reckoned; report: gets what cannot be made."""
        self.net, self.types, self.report = net, types, report
        self.unmade: defaultdict[str, list[str]] = defaultdict(list)  # vehicle at stop, by reason
        self.visits: list[Visit] = []
        self.kinds: set[str] = set()  # types of the vehicles that make them

    def on_route(self, name: str, edges: Sequence[str], stops: Iterable[Stop]) -> FoundStops:
        """The stops of a vehicle (name) that lie on its route (edges), each behind the stop before it; the others are
        kept in unmade, by reason. Fault where `bus_stop_of` raises one."""
        route_stops, position, last_end = FoundStops(), 0, 0.0
        for stop in stops:
            bus_stop = self.bus_stop_of(stop)
            reason, edge = stop.reason, bus_stop.lane.rpartition("_")[0] if bus_stop else ""
            if bus_stop and not reason and bus_stop.lane in self.net.closed_lanes:
                reason = LEFT_OUT
            if bus_stop and not reason:
                begin, end = begin_and_end_on_lane(
                    bus_stop, metres_of_lane(bus_stop.lane, self.net, stop.element_label), True, stop.element_label
                )
                first = position + (end < last_end and position < len(edges) and edges[position] == edge)
                further = next((here for here in range(first, len(edges)) if edges[here] == edge), None)
                if further is None:
                    reason = NOT_ON_WAY
                else:
                    position, last_end = further, end
                    spot = StopSpot(position, edge, int(bus_stop.lane.rpartition("_")[2]), begin, end)
                    route_stops.stops.append((stop, spot))
            if reason:
                self.unmade[reason].append(f"{name} at {called(stop)}")
        return route_stops

    def bus_stop_of(self, stop: Stop) -> BusStop | None:
        """The bus stop of a stop, if any. Fault where it can be made, but no file has the bus stop that it names."""
        if stop.name and stop.name not in self.net.bus_stops and not stop.reason:
            raise Fault(f"{stop.element_label}: there is no busStop {stop.name!r}")
        return self.net.bus_stops.get(stop.name) if stop.name else stop.bus_stop

    def add_visits(
        self, vehicle: tuple[int, str, str], plan: Sequence[int], route_stops: FoundStops, net: Network
    ) -> None:
        """Adds to visits those of a vehicle (its number in the run file, name and type) on the links of its plan;
        route_stops: of on_route. Stops that these links do not reach, or on links of one cell, go to unmade."""
        number, name, kind = vehicle
        for stop, spot in route_stops.stops:
            link, lane = net.place_of[spot.edge, spot.index]
            cells = stopping_cells(net.links[link], spot)
            if cells and plan[spot.position] == link:
                losses = self.stop_losses(kind, net.links[link])
                seconds = stop.duration, stop.until
                visit = Visit(number, spot.position, called(stop), link, lane, *cells, *seconds, *losses)
                self.visits.append(visit)
                self.kinds.add(kind)
            else:
                self.unmade[SHORT if plan[spot.position] == link else OTHER_LANE].append(f"{name} at {called(stop)}")

    def stop_losses(self, kind: str, link: Link) -> tuple[float, float]:
        """(seconds that SUMO's vehicle of a type loses as it brakes on a link; seconds that it loses as it starts
        there, beyond one of streetsim's)."""
        speed = min(link.speed, self.types.kinds.get(kind, Kind()).speed or link.speed)
        accel, decel = self.types.pace.get(kind, PACE)
        return round(speed / 2 / decel, 2), max(0.0, round(speed / 2 / accel - (link.limit - 1) / 2, 2))

    def report_stops(self) -> None:
        """Reports, after all vehicles, how many stops are made, by reason those that are not, and accelerations that
        had no effect."""
        self.types.note_braking(self.kinds, self.report)
        for why, names in self.unmade.items():
            text = f"{len(names):,} stops of vehicles are not made, {why}: {first_few(names)}"
            self.report.warn(text, names, advice_on(why))
        if self.visits:
            count = len({one.vehicle for one in self.visits})
            self.report.notes.append(f"{len(self.visits):,} stops of {count:,} vehicles")


def advice_on(reason: str) -> str:
    """What the user can do where stops are not made for a reason."""
    if reason == LEFT_OUT:
        return "--classes NAMES keeps lanes of other classes too"
    return "a vehicle in others' way: streetsim-run --close, for as long"


def called(stop: Stop) -> str:
    """How a stop is named to the user: by its name, or by lane and metres."""
    if stop.name or stop.bus_stop is None:
        return stop.name or "a stop"
    return f"{stop.bus_stop.lane}:{stop.bus_stop.end:g}"


def stopping_cells(link: Link, spot: StopSpot) -> tuple[int, int] | None:
    """The (first, last) cell, from 0, both included, in which the front of a vehicle stands at a stop, short of the
    link's last one. None where the link has fewer than two cells."""
    size = link.metres / link.cells
    if link.cells < 2:
        return None
    last = min(link.cells - 2, max(0, round(spot.end / size) - 1))
    return min(last, int(spot.begin / size)), last
