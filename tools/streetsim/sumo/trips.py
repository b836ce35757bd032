"""Trips of SUMO's files: where each begins and ends, when, and the way that it has; and files of routes written of
them. All that reads raises Fault, with file and element, where an attribute is absent or cannot be read."""
from collections.abc import Iterable, Iterator, Sequence
from dataclasses import dataclass
from itertools import pairwise
from math import ceil
from xml.etree import ElementTree

from streetsim.base import limits
from streetsim.base.files import Fault, FilePath, attributes_of, element_told, quoteattr, whole_file
from streetsim.base.report import Report
from streetsim.sumo.demand import ENDS, READ, Demand, DemandVehicle
from streetsim.sumo.net import SumoNet
from streetsim.sumo.network import Options
from streetsim.sumo.router import Path
from streetsim.sumo.stops import Stop, edge_of, stops_in
from streetsim.sumo.types import DEFAULT, TAGS, Types
from streetsim.sumo.way_graph import Graph

ASIDE = {"departLane", "departSpeed", "departPos", "arrivalPos", "arrivalSpeed"}  # written again, and of no effect here
PERSONS = ("person", "personFlow")
DRIVEN = ("personTrip", "trip")  # of a person who may take a car; who rides does so in a vehicle that the files have
BY_STOPS = (
    "drives from stop to stop without from and to, and its first and last stop have no two edges here, as those of "
    "buses and taxis that are sent on their way while SUMO runs: take it out, or give it from and to"
)


@dataclass(slots=True)
class Trip:
    """A trip between two edges, by their numbers. path: empty where it has no way yet; entry: the mean clock at
    which it came on the road in the last runs, at first its departure."""

    name: str
    depart: float  # seconds
    origin: int
    target: int
    type: str
    path: Path
    entry: float
    changes: bool = True  # whether it may take another way; not where its way leads back to the edge where it begins
    route: str = ""  # the name of the route that it was given
    stops: tuple[Stop, ...] = ()
    line: str = ""  # of public transport
    further_attributes: tuple[tuple[str, str], ...] = ()  # further attributes that its file has, as departSpeed
    calls: tuple[tuple[str, str], ...] = ()  # (edge or, where it is not known, an empty text; element) of each stop


class TripDemand(Demand):
    """The vehicles of files of trips, flows and routes; the edges of one without a route are those of its two ends."""

    roots = (*Demand.roots, "trips")

    def __init__(self, net: SumoNet, types: Types, seed: int, report: Report, end: float | None = None) -> None:
        """As Demand takes them."""
        super().__init__(net, types, seed, report, end)
        self.without: set[str] = set()  # vehicles without a route
        self.told_types: list[str] = []  # vehicle types as they stand in the files

    def read_element(self, path: FilePath, element: ElementTree.Element) -> None:
        """Adds an element of a file of trips, flows or routes, as Demand does, but trips too; Fault where persons drive
        in it."""
        if element.tag in PERSONS and any(element.find(name) is not None for name in DRIVEN):
            raise Fault(
                f"{element_told(path, element)}: persons are not routed here; take them out, or compute their "
                "cars' trips with duarouter"
            )
        if element.tag in TAGS:
            self.told_types.append(ElementTree.tostring(element, encoding="unicode").strip())
        if element.tag == "trip":
            self.read_vehicle(path, element)
        else:
            super().read_element(path, element)

    def add_vehicles(
        self, path: FilePath, element: ElementTree.Element, departures: Sequence[tuple[str, float]]
    ) -> None:
        """Adds the vehicles of an element, one for each (name, departure in seconds), with its route or with the edges
        where it begins and ends (its name then goes into without). Fault where there are more vehicles than may enter a
        run, or the element is wrong."""
        count = len(self.vehicles) + len(departures)
        if count > limits.VEHICLES:
            raise Fault(f"{path}: {count:,} trips, and at most {limits.VEHICLES:,} vehicles enter in a run")
        routes = element.get("route"), element.find("route"), element.find("routeDistribution")
        if any(one is not None for one in routes):
            super().add_vehicles(path, element, departures)
            return
        ends = self.ends(path, element)
        self.note_ignored(element, READ | ENDS | ASIDE)
        self.vehicles += [self.vehicle_of(path, element, departure, ends) for departure in departures]
        self.without.update(name for name, _ in departures)

    def ends(self, path: FilePath, element: ElementTree.Element) -> tuple[str, str]:
        """(edge where a trip begins, edge where it ends); Fault where it does not name them (or, without them, stops),
        names a via, or the network does not have them."""
        if element.get("via"):
            raise Fault(f"{element_told(path, element)}: via is not routed here; compute this route with duarouter")
        ends = [element.get("from", ""), element.get("to", "")]
        if not all(ends):
            if element.find("stop") is not None and not element.get("fromTaz"):
                return self.by_stops(path, element, ends)
            taz = " (fromTaz and toTaz name districts: let od2trips or duarouter choose edges)"
            raise Fault(
                f"{element_told(path, element)}: a trip needs from and to{taz if element.get('fromTaz') else ''}"
            )
        if unknown := [name for name in ends if name not in self.net.edges and name not in self.net.dropped]:
            raise Fault(f"{element_told(path, element)}: the network has no edge {unknown[0]!r}")
        return ends[0], ends[1]

    def by_stops(self, path: FilePath, element: ElementTree.Element, ends: Sequence[str]) -> tuple[str, str]:
        """(edge where a trip from stop to stop begins, edge where it ends): those of its first and last stop, in place
        of an empty text in ends. Fault where these are one edge, or not kept."""
        edges = [edge_of(stop, self.net) for stop in stops_in(path, element, self.net)]
        found = ends[0] or edges[0], ends[1] or edges[-1]
        if found[0] == found[1] or not all(name in self.net.edges for name in found):
            raise Fault(f"{element_told(path, element)}: {BY_STOPS}")
        return found


@dataclass(slots=True)
class Trips:
    """All trips in order of departure, and the vehicle types of their files as XML texts."""

    trips: list[Trip]
    types: list[str]


def read_trips(
    paths: Iterable[str], net: SumoNet, graph: Graph, types: Types, options: Options, report: Report
) -> Trips:
    """The trips of files (their paths), in order of departure, and the types that these files tell, which `types` gets
    too. Left out and reported are those that reason_against gives a reason for, with options.begin, and those that
    depart at options.end or later. Fault where a file cannot be read or is wrong, or no trip is left. graph: of the
    net; options: also the seed of draws of flows and routes."""
    demand = TripDemand(net, types, options.seed, report, options.end)
    for path in paths:
        demand.read_file(path)
    trips = []
    for vehicle in demand.completed_vehicles():
        if reason := reason_against(vehicle, net, options.begin):
            report.skipped[reason] += 1
            continue
        way = () if vehicle.name in demand.without else tuple(graph.number[name] for name in vehicle.edges)
        ends = graph.number[vehicle.edges[0]], graph.number[vehicle.edges[-1]]
        back = ends[0] == ends[1] and len(way) > 1
        trip = Trip(
            vehicle.name, vehicle.depart, *ends, vehicle.type, way, vehicle.depart, not back, vehicle.route,
            vehicle.stops, vehicle.line,
        )  # fmt: skip
        trip.further_attributes = vehicle.further_attributes
        trip.calls = tuple((edge_of(stop, net), stop.text()) for stop in vehicle.stops)
        trips.append(trip)
    if not trips:
        left_out = "".join(f"; {count:,} left out: {reason}" for reason, count in sorted(report.skipped.items()))
        raise Fault(f"{', '.join(paths)}: no trip that can drive{left_out}")
    types.note_braking((), report)
    return Trips(trips, demand.told_types)


def connected_trips(trips: Sequence[Trip], net: SumoNet, graph: Graph, ignore: bool, report: Report) -> list[Trip]:
    """The trips whose routes have connections between all edges. Others are left out and reported where all that they
    lack are closed to the classes, or with ignore; else they are a Fault, as it is where no trip is left."""
    connected = []
    for trip in trips:
        ways = [way for way in pairwise(trip.path) if way not in graph.movement_of]
        if not ways:
            connected.append(trip)
            continue
        source, target = graph.names(
            next((way for way in ways if graph.names(way) not in net.closed_movements), ways[0])
        )
        if (source, target) in net.closed_movements:
            report.skipped["two edges of the route have no connection for the classes"] += 1
        elif ignore:
            report.skipped["two edges of the route have no connection"] += 1
        else:
            raise Fault(
                f"trip {trip.name!r}: the network has no connection from edge {source!r} to edge {target!r}, "
                "which follow each other in its route (--anew forgets routes, "
                "--ignore-route-errors leaves such trips out)"
            )
    if not connected:
        raise Fault(f"none of {len(trips):,} trips has a route whose edges are connected")
    return connected


def reason_against(vehicle: DemandVehicle, net: SumoNet, begin: int) -> str | None:
    """Why a vehicle cannot drive, as the report's words: an edge without a lane for the classes, or a departure before
    the begin or after the last clock; None where neither holds. Whether its edges are connected is not looked at:
    connected_trips does that. begin: the first clock of the run."""
    if any(edge in net.dropped for edge in vehicle.edges):
        return "an edge of the trip has no lane for the classes"
    if vehicle.depart < begin:
        return "departs before the begin"
    return f"departs after {limits.CLOCK:,} s" if vehicle.depart > limits.CLOCK else None


def vehicles_from_trips(trips: Iterable[Trip], graph: Graph) -> list[DemandVehicle]:
    """The trips, with their present ways and their stops, as vehicles of an import."""
    return [
        DemandVehicle(
            one.name, one.depart, graph.names(one.path), one.type, stops=one.stops, line=one.line,
            further_attributes=one.further_attributes,
        )
        for one in trips
    ]


def write_routes(path: str, trips: Trips, graph: Graph) -> None:
    """Writes a file of routes, with the trips' types, as SUMO and streetsim-import take it (gzip where the name ends
    with .gz); Fault where it cannot be written. Trips keep the attributes of their files, and those of their stops that
    lie on their ways, one after the other."""
    with whole_file(path) as file:
        file.write("<routes>\n" + "".join(f"    {one}\n" for one in trips.types))
        for trip in trips.trips:
            edges = graph.names(trip.path)
            inside = [f"<route edges={quoteattr(' '.join(edges))}/>", *calls_on(trip, edges)]
            file.write(f"    <vehicle{attributes_of(attributes_in(trip))}>{''.join(inside)}</vehicle>\n")
        file.write("</routes>\n")


def attributes_in(trip: Trip) -> dict[str, str]:
    """The attributes, {name: text}, of a trip in a file of routes; its departure in seconds with two decimals, up
    where down would be a whole second earlier for who departs at whole seconds; no type where it is the usual one
    (DEFAULT). It departs on the best lane where its own file tells none."""
    depart = round(trip.depart, 2)
    if ceil(depart) < trip.depart:
        depart += 0.01
    kind = {"type": trip.type} if trip.type != DEFAULT else {}
    line = {"line": trip.line} if trip.line else {}
    further = dict(trip.further_attributes)
    return {"id": trip.name, "depart": f"{depart:.2f}", **kind, "departLane": "best", **line, **further}


def calls_on(trip: Trip, edges: Sequence[str]) -> Iterator[str]:
    """The elements, XML texts, of a trip's stops that lie on a way (edges), each on the edge of the one before it or
    further on, or whose edge is not known; SUMO refuses others."""
    at = 0
    for edge, text in trip.calls:
        if edge in edges[at:]:
            at = edges.index(edge, at)
        if not edge or edge in edges[at:]:
            yield text
