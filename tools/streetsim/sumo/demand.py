"""Reads SUMO's vehicles, flows and routes (.rou.xml) and makes enter commands of them. All that reads raises Fault,
with file and element, where an attribute that it needs is absent, or one cannot be read."""
import math
import random
from collections import Counter
from collections.abc import Iterable, Mapping, Sequence, Set
from dataclasses import astuple, dataclass
from itertools import pairwise
from xml.etree.ElementTree import Element

from streetsim.base import limits
from streetsim.base.files import (
    Fault, FilePath, Json, at_least_zero, attribute, element_told, filled, optional, seconds,
)
from streetsim.base.report import Report, first_few
from streetsim.model.runs import Command
from streetsim.model.sources import sum_of_lines
from streetsim.sumo.flows import departs, route_elements
from streetsim.sumo.net import SumoNet
from streetsim.sumo.bundles import LaneKey
from streetsim.sumo.network import Network
from streetsim.sumo.stops import FoundStops, Stop, Stops, stops_in
from streetsim.sumo.types import DEFAULT, Mix, Sizes, Types, named_in, weight_of

READ = {"id", "type", "depart", "route", "edges", "begin", "end"}
READ |= {"number", "period", "probability", "vehsPerHour", "perHour", "repeat", "line"}
READ_INSIDE = {"route", "routeDistribution", "stop"}  # elements in a vehicle, flow or trip
USED_ATTRIBUTES = {"departSpeed"}  # of the further attributes, those that count
ENDS = {"from", "to", "fromTaz", "toTaz", "via"}
READ_OR_END = READ | ENDS
DEPARTS = {"vehicle": "depart", "trip": "depart", "flow": "begin"}  # by element, the attribute by which SUMO sorts
NO_TIMES = ("triggered", "containerTriggered", "now", "split", "begin")  # in place of a depart
NOT_DRIVEN = {
    "trip": "a trip",
    "person": "a person",
    "personFlow": "a flow of persons",
    "container": "a container",
    "containerFlow": "a flow of containers",
}
SECONDS = at_least_zero(seconds)  # reads a clock
MOST_READ = 1 << 16  # texts of routes whose edges are kept while files are read
NO_STOPS = FoundStops()
ROUTED_FIRST = "has no route: streetsim-import --trips FILE finds one for each, or streetsim-route"


class Unrouted(Fault):
    """A trip, or a vehicle or flow without a route, where routes are asked for."""


@dataclass(slots=True)
class DemandVehicle:
    """A vehicle as files tell it; its edges, type and stops are final once completed_vehicles has set them."""

    name: str
    depart: float  # seconds
    edges: tuple[str, ...]
    type: str
    route: str = ""  # the name of its route, as SUMO has it; none where the route stands in the vehicle
    stops: tuple[Stop, ...] = ()
    line: str = ""  # of public transport
    further_attributes: tuple[tuple[str, str], ...] = ()  # those of USED_ATTRIBUTES count, others have no effect here


class Demand:
    """The vehicles of route files, and the routes that these name."""

    roots: Sequence[str] = ("routes", "additional", "add")  # of its files

    def __init__(self, net: SumoNet, types: Types, seed: int, report: Report, end: float | None = None) -> None:
        """seed: of the draws of flows and of routes from distributions; end: of the run, seconds (None: not told)."""
        self.net, self.types, self.report, self.end = net, types, report, end
        self.draws, self.choices = random.Random(seed), random.Random(f"routes {seed}")
        self.routes: dict[str, tuple[str, ...]] = {}  # name: edges
        self.mixes: dict[str, Mix] = {}  # by distribution of routes
        self.vehicles: list[DemandVehicle] = []
        self.route_stops: dict[str, tuple[Stop, ...]] = {}  # by route, seconds from the departure on
        # (vehicle, file and element): routes may be told after the vehicles.
        self.later: list[tuple[DemandVehicle, str]] = []
        self.unsorted: list[str] = []  # vehicles and flows behind later ones in a file of routes
        self.known_edges = {name: name for name in (*net.edges, *net.dropped)}
        self.read_texts: dict[str, tuple[str, ...]] = {}  # edges by the text of a route
        self.readers = {
            "route": self.read_route, "routeDistribution": self.read_mix, "vehicle": self.read_vehicle,
            "flow": self.read_flow, "vType": types.read_element, "vTypeDistribution": types.read_element,
        }  # fmt: skip

    def read_file(self, path: FilePath) -> None:
        """Adds what a file of routes has; Fault where it cannot be read or read_element raises one."""
        latest = -math.inf
        for element in route_elements(path, self.roots):
            self.read_element(path, element)
            text = element.get(DEPARTS.get(element.tag, ""), "0")
            if element.tag in DEPARTS and text not in NO_TIMES:
                if (clock := self.vehicles[-1].depart if element.tag == "vehicle" else seconds(text)) < latest:
                    self.unsorted.append(element.get("id", ""))
                latest = max(latest, clock)

    def read_element(self, path: FilePath, element: Element) -> None:
        """Adds an element of a file of routes or an additional file. Unrouted for a trip, or a vehicle or flow without
        a route; persons and containers are reported as skipped, unknown elements as ignored."""
        if element.tag == "trip":
            raise Unrouted(f"{element_told(path, element)} {ROUTED_FIRST}")
        if element.tag in NOT_DRIVEN:
            self.report.skipped[f"{NOT_DRIVEN[element.tag]}, which streetsim does not have"] += 1
        elif element.tag in self.readers:
            self.readers[element.tag](path, element)
        else:
            self.report.ignored[f"<{element.tag}> of route files"] += 1

    def read_route(self, path: FilePath, element: Element) -> None:
        """Adds a route with its stops to routes and route_stops, and reports its attributes that are not in READ."""
        name = self.new_name(path, element)
        self.note_ignored(element)
        self.add_route(path, element, element, name)

    def read_mix(self, path: FilePath, element: Element) -> None:
        """Adds a distribution of routes, and the routes in it."""
        name = self.new_name(path, element)
        self.add_mix(path, element, element, name)

    def new_name(self, path: FilePath, element: Element) -> str:
        """The name of a route or a distribution; Fault where another one has it."""
        name = attribute(path, element, "id", filled)
        if name in self.routes or name in self.mixes:
            raise Fault(f"{element_told(path, element)}: a second route of this name")
        return name

    def add_route(self, path: FilePath, owner: Element, element: Element, name: str) -> None:
        """Adds a route (element) with its stops by a name. Fault where route_edges, of owner, or stops_in raises it."""
        self.routes[name] = self.route_edges(path, owner, element)
        self.route_stops[name] = stops_in(path, element, self.net)

    def add_mix(self, path: FilePath, owner: Element, element: Element, name: str) -> None:
        """Adds a distribution (element) by a name, and the routes in it, which are called after it and their position
        there, as in SUMO. Fault, of the element owner, for a route that was not read before, none at all, or weights
        that are all 0."""
        names, weights = named_in(path, element, "routes")
        for place, inner in enumerate(element.iter("route")):
            names.append(inner.get("refId") or f"{name}#{place}")
            weights.append(weight_of(path, inner))
            if not inner.get("refId"):
                self.add_route(path, owner, inner, names[-1])
        if unknown := [one for one in names if one not in self.routes]:
            raise Fault(f"{element_told(path, owner)}: there is no route {unknown[0]!r}")
        if not names or sum(weights) <= 0:
            raise Fault(f"{element_told(path, owner)}: a distribution without a route")
        self.mixes[name] = names, weights

    def draw_route(self, name: str) -> str:
        """The name of the route that a vehicle takes: the one that is named, or one drawn from the distribution."""
        return self.choices.choices(*self.mixes[name])[0] if name in self.mixes else name

    def route_edges(self, path: FilePath, owner: Element, route: Element) -> tuple[str, ...]:
        """The edges of a route (its element), once, and again as often as its repeat says, limits.PLAN times at most,
        as no vehicle drives so many. Fault, of the element owner, where it has no edges, or one that the network does
        not have; edges not for the classes pass."""
        text = attribute(path, route, "edges")
        if (edges := self.read_texts.get(text)) is None:
            if not (names := text.split()):
                raise Fault(f"{element_told(path, owner)}: a route without edges")
            if unknown := [name for name in names if name not in self.known_edges]:
                raise Fault(f"{element_told(path, owner)}: the network has no edge {unknown[0]!r}")
            if len(self.read_texts) == MOST_READ:
                self.read_texts.clear()
            edges = self.read_texts[text] = tuple([self.known_edges[name] for name in names])  # which share their names
        if route.get("repeat") is None:
            return edges
        return edges * (1 + min(limits.PLAN, attribute(path, route, "repeat", at_least_zero(int))))

    def add_vehicles(self, path: FilePath, element: Element, departures: Sequence[tuple[str, float]]) -> None:
        """Adds an element's vehicles, one for each (name, departure in seconds), and a distribution in it. Unrouted
        without a route, Fault where one in it, its type or a stop is wrong; one that it names may come later."""
        inner, mix = self.inner_route(path, element)
        if inner is None and mix is None and element.get("route") is None:
            raise Unrouted(f"{element_told(path, element)} {ROUTED_FIRST}")
        self.note_ignored(element)
        route, edges = element.get("route", ""), None
        if mix is not None or inner is not None and element.tag == "flow":
            route = f"!{element.get('id')}"
        if mix is not None:
            self.add_mix(path, element, mix, route)
        if inner is not None:
            edges = self.route_edges(path, element, inner)
        for departure in departures:
            vehicle = self.vehicle_of(path, element, departure, edges or (), route)
            self.vehicles.append(vehicle)
            if edges is None:
                self.later.append((vehicle, element_told(path, element)))

    def vehicle_of(
        self, path: FilePath, element: Element, departure: tuple[str, float], edges: tuple[str, ...], route: str = ""
    ) -> DemandVehicle:
        """A vehicle of an element, of a (name, departure in seconds), with the stops that stand in it and its own
        route, not in one that it names; of a flow these are told for a departure at its begin, and are moved. edges: ()
        for completed_vehicles; route: its route's name. Fault where its type is empty, or by stops_in."""
        name, depart = departure
        begin = optional(path, element, "begin", SECONDS, 0.0) if element.tag == "flow" else depart
        kind, inner = optional(path, element, "type", filled, DEFAULT), element.find("route")
        own = stops_in(path, inner, self.net) if inner is not None and element.get("route") is None else ()
        if own := (*own, *stops_in(path, element, self.net)):
            own = tuple([one.later(depart - begin) for one in own])
        line, more = element.get("line", ""), further_attributes(element)
        return DemandVehicle(name, depart, edges, kind, route, own, line, more)

    def inner_route(self, path: FilePath, element: Element) -> tuple[Element | None, Element | None]:
        """(route, distribution) that stand in an element, each None where it has no such element inside, or names a
        route, which then counts: those inside are reported as ignored. Fault where it has two."""
        routes = [inner for inner in element if inner.tag in ("route", "routeDistribution")]
        if element.get("route") is not None:
            self.report.ignored[f"routes in {element.tag}s that name another one"] += len(routes)
            return None, None
        if len(routes) > 1:
            raise Fault(f"{element_told(path, element)}: a second route")
        return element.find("route"), element.find("routeDistribution")

    def note_ignored(self, element: Element, read: Set[str] = READ) -> None:
        """Reports all attributes of an element that are not among those that are read, and all elements in it that are
        not in READ_INSIDE, as ignored."""
        if element.attrib.keys() <= read and all([one.tag in READ_INSIDE for one in element]):
            return
        inside = (f"<{one.tag}>" for one in element if one.tag not in READ_INSIDE)
        for name in [*(set(element.keys()) - read - USED_ATTRIBUTES), *inside]:
            self.report.ignored[f"{name} of {element.tag}s"] += 1

    def read_vehicle(self, path: FilePath, element: Element) -> None:
        """Adds a vehicle; one whose depart is one of SUMO's words instead of a time is reported as skipped."""
        text = attribute(path, element, "depart")
        if text in NO_TIMES:
            self.report.skipped[f"depart={text!r} is no time"] += 1
            return
        depart, name = attribute(path, element, "depart", SECONDS), attribute(path, element, "id", filled)
        if is_plain(element):
            self.vehicles.append(DemandVehicle(name, depart, self.route_edges(path, element, element[0]), DEFAULT))
        else:
            self.add_vehicles(path, element, [(name, depart)])

    def read_flow(self, path: FilePath, element: Element) -> None:
        """Adds the vehicles of a flow, called NAME.NUMBER from 0 on, at the seconds of flows.departs."""
        name, found = attribute(path, element, "id", filled), departs(path, element, self.draws, self.end)
        self.add_vehicles(path, element, [(f"{name}.{at}", depart) for at, depart in enumerate(found)])

    def completed_vehicles(self) -> list[DemandVehicle]:
        """All vehicles that depart before the end of the run, with routes and types, which are drawn, in order of
        departure and then of the files; how many are left out is noted. Called once, after all files, as it changes the
        vehicles. Fault where two have one name, or a route is named that no file has."""
        for vehicle, where in self.later:
            vehicle.route = self.draw_route(vehicle.route)
            if vehicle.route not in self.routes:
                raise Fault(f"{where}: there is no route {vehicle.route!r}")
            vehicle.edges = self.routes[vehicle.route]
            stops = self.route_stops[vehicle.route]
            vehicle.stops = (*(one.later(vehicle.depart) for one in stops), *vehicle.stops)
        names = Counter(vehicle.name for vehicle in self.vehicles)
        if double := [name for name, count in names.items() if count > 1]:
            raise Fault(f"two vehicles are named {double[0]!r}")
        for vehicle in self.vehicles:
            vehicle.type = self.types.draw_type(vehicle.type)
        if self.unsorted:
            count = f"{len(self.unsorted):,} vehicles or flows stand behind later ones in their file"
            text = f"{count}, and drive here, where SUMO leaves them out: {first_few(self.unsorted)}"
            self.report.warn(text, self.unsorted, "sort the file by departure")
        before = [vehicle for vehicle in self.vehicles if self.end is None or vehicle.depart < self.end]
        if after := len(self.vehicles) - len(before):
            told = f"{after:,} vehicles that depart at the end, {self.end:,} s, or later are left out"
            self.report.notes.append(told)
        return sorted(before, key=lambda vehicle: vehicle.depart)


def is_plain(element: Element) -> bool:
    """Whether a <vehicle> tells its name, its departure and the edges of a route alone, as most do."""
    if [*element.attrib] != ["id", "depart"] or len(element) != 1:
        return False
    (inner,) = element
    return inner.tag == "route" and [*inner.attrib] == ["edges"] and not len(inner)


def further_attributes(element: Element) -> tuple[tuple[str, str], ...]:
    """The attributes, (name, value), of a vehicle, trip or flow that are neither in READ nor in ENDS."""
    if element.attrib.keys() <= READ_OR_END:
        return ()
    return tuple((name, value) for name, value in element.items() if name not in READ_OR_END)


def enters(
    vehicles: Iterable[DemandVehicle], net: SumoNet, network: Network, types: Types, report: Report
) -> tuple[list[Command], list[DemandVehicle]]:
    """(the enter commands, with departures rounded up to whole seconds; the vehicles that they are of), in one order.
    Vehicles that cannot drive, and stops that cannot be made, are left out and reported by reason, and sizes are
    reported; the network gets the other stops (visits), and what assign_route adds. Fault where why_no_way or
    Stops.bus_stop_of raises one. vehicles: in order of departure."""
    sizes, stops = Sizes(types), Stops(net, types, report)
    commands: list[Command] = []
    driven: list[DemandVehicle] = []
    used: Counter[int] = Counter()
    for vehicle in vehicles:
        route_stops = stops.on_route(vehicle.name, vehicle.edges, vehicle.stops) if vehicle.stops else NO_STOPS
        vclass, stop_lanes = types.class_kept(vehicle.type, network.options.classes), route_stops.first_lanes()
        plan, why = plan_or_reason(vehicle, net, network, stop_lanes, vclass)
        if plan is None:
            report.skipped[why] += 1
            continue
        stops.add_visits((len(driven), vehicle.name, vehicle.type), plan, route_stops, network)
        lane, depart = entry_lane(plan, network, used, stop_lanes.get(0)), max(0, math.ceil(vehicle.depart))
        command: Command = {"cmd": "enter", "plan": list(plan), "lane": lane, "depart": depart}
        if network.options.sizes and (size := sizes.next_size(vehicle.type)) > 1:
            command["size"] = size
        commands.append(command)
        driven.append(vehicle)
    sizes.report_sizes(report)
    stops.report_stops()
    network.visits = stops.visits
    return commands, driven


def entry_lane(plan: Sequence[int], network: Network, used: Counter[int], stop_lane: LaneKey | None) -> int:
    """The lane (0 or 1 of its first link) where a vehicle enters: that of its stop on this link (stop_lane, None: it
    has none), else one of those that lead on, one after the other. used: how many entered each link so, to which it is
    added."""
    if stop_lane is not None:
        return network.place_of[stop_lane][1]
    lanes = network.serves(plan[0], plan[1]) if len(plan) > 1 else range(len(network.links[plan[0]].lanes))
    before = used[plan[0]]
    used[plan[0]] = before + 1
    return lanes[before % len(lanes)]


def kinds_of(driven: Sequence[DemandVehicle], types: Types) -> Json:
    """What a map keeps of vehicles: {"types": [[name, vclass, length, gap, speed]] as in Kind, "type": by vehicle its
    position in types (0, the usual type, where it is not among them), "route": by vehicle its route's name (empty where
    none has one), "line": the same, but no key where none has one, "ends": a sum over where all begin and end, by which
    the map of another demand is known}."""
    names = list(types.kinds)
    place = {name: at for at, name in enumerate(names)}
    return {
        "types": [[name, *astuple(types.kinds[name])] for name in names],
        "type": [place.get(vehicle.type, 0) for vehicle in driven],
        "route": [vehicle.route for vehicle in driven] if any(vehicle.route for vehicle in driven) else [],
        **({"line": [vehicle.line for vehicle in driven]} if any(vehicle.line for vehicle in driven) else {}),
        "ends": sum_of_lines(f"{vehicle.edges[0]} {vehicle.edges[-1]}" for vehicle in driven),
    }


def plan_or_reason(
    vehicle: DemandVehicle, net: SumoNet, network: Network, stops: Mapping[int, LaneKey], vclass: str
) -> tuple[tuple[int, ...] | None, str]:
    """(links of a vehicle, empty text), as Network.assign_route gives and counts them, or (None, why it cannot drive);
    Fault where why_no_way raises one. stops: the lane at which it stops, by the edge's position in its route; vclass:
    its class, of those that are kept."""
    if not net.dropped.isdisjoint(vehicle.edges):
        return None, "an edge of the route has no lane for the classes"
    if len(vehicle.edges) > limits.PLAN:
        return None, f"a route of more than {limits.PLAN:,} edges"
    if vehicle.depart < network.options.begin:
        return None, "departs before the begin"
    if vehicle.depart > limits.CLOCK:
        return None, f"departs after {limits.CLOCK:,} s"
    plan = network.assign_route(vehicle.edges, stops, vclass)
    if plan is None and all(pair in network.connections_between for pair in pairwise(vehicle.edges)):
        return None, "an edge of the route has no lane for its class"
    return plan, "" if plan else why_no_way(vehicle, net, network)


def why_no_way(vehicle: DemandVehicle, net: SumoNet, network: Network) -> str:
    """Why a route has no way here, where the network has one that is not for the classes, or --ignore-route-errors was
    given; else a Fault, as in SUMO."""
    pairs = pairwise(vehicle.edges)
    source, target = next(
        (pair for pair in pairs if pair not in network.connections_between and pair not in net.closed_movements),
        ("", ""),
    )
    if not source:
        return "two edges of the route have no connection for the classes"
    if network.options.ignore_route_errors:
        return "two edges of the route have no connection"
    raise Fault(
        f"vehicle {vehicle.name!r}: the network has no connection from edge {source!r} to edge {target!r}, "
        "which follow each other in its route (--ignore-route-errors leaves such vehicles out)"
    )
