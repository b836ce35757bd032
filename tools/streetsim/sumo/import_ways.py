"""Finds ways for the trips of an import, without a simulation."""
from collections.abc import Iterable, Sequence
from dataclasses import replace

from streetsim.base.report import Report
from streetsim.sumo.demand import DemandVehicle
from streetsim.sumo.net import SumoNet
from streetsim.sumo.network import Options
from streetsim.sumo.router import FoundPath, Router, Wish, by_target
from streetsim.sumo.trips import Trips, read_trips
from streetsim.sumo.types import Types
from streetsim.sumo.way_costs import Costs
from streetsim.sumo.way_graph import Graph, graph_of_net
from streetsim.sumo.way_start import first_ways
from streetsim.sumo.way_unloaded import times_and_capacities_without_routes

NO_WAY = "no way from where the trip begins to where it ends"


def vehicles_with_ways(
    net: SumoNet, types: Types, paths: Iterable[str], options: Options, report: Report
) -> list[DemandVehicle]:
    """The vehicles of files of trips, flows and routes, by departure, as trips_with_ways has them and fills `types`;
    Fault where it raises one."""
    graph = graph_of_net(net)
    return [
        DemandVehicle(
            trip.name, trip.depart, graph.names(trip.path), trip.type, trip.route, trip.stops, trip.line,
            trip.further_attributes,
        )
        for trip in trips_with_ways(net, graph, types, paths, options, report).trips
    ]


def trips_with_ways(
    net: SumoNet, graph: Graph, types: Types, paths: Iterable[str], options: Options, report: Report
) -> Trips:
    """The trips of files of trips, flows and routes, by departure, each with a way. Those without a route have the way
    that is shortest with free speed, the waits at signals and the delays that the volumes so far would make. Trips that
    cannot drive in this run, as read_trips has it, or have no way are left out and reported. Whether the edges of
    routes are connected is not looked at. Fault where read_trips or times_and_capacities_without_routes raises one.
    graph: of the net; types: gets those that the files tell. Works (options joint, led, slow) change none of the ways
    found.
    """
    trips = read_trips(paths, net, graph, types, options, report)
    lost: set[str] = set()
    if any(not trip.path for trip in trips.trips):
        free, capacity = times_and_capacities_without_routes(net, graph, replace(options, joint=(), led=(), slow=()))

        def search(wishes: Sequence[Wish], costs: Costs) -> list[FoundPath]:
            """What a router finds for each wish by some costs, sorted by target."""
            router = Router(graph, costs)
            return [router.best_path(wish) for wish in by_target(wishes)]

        lost = {trip.name for trip in first_ways(graph, trips.trips, free, capacity, options.seed, search)}
    if lost:
        report.skipped[NO_WAY] += len(lost)
    return Trips([trip for trip in trips.trips if trip.name not in lost], trips.types)
