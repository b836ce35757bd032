"""A network before any route is known: the map of its streets, and the times of its movements."""
from array import array

from streetsim.base.report import Report
from streetsim.model.mapping import Map
from streetsim.sumo.converting import map_of
from streetsim.sumo.net import SumoNet
from streetsim.sumo.network import Network, Options
from streetsim.sumo.signals import signal_commands
from streetsim.sumo.way_graph import Graph
from streetsim.sumo.way_seconds import capacities, free_seconds, whole_plans


def map_without_routes(net: SumoNet, options: Options) -> Map:
    """The map that an import without vehicles would make, but without lights and their programs, who gives way, and
    detectors: for its links and turns. Fault where Network raises one."""
    report = Report()
    return map_of(Network(net, options, report, {}), [], [], report)


def times_and_capacities_without_routes(net: SumoNet, graph: Graph, options: Options) -> tuple[array, list[float]]:
    """(seconds of each movement without traffic, with the mean wait at its signal; vehicles an hour that each lets
    pass), both by movement of the graph, before any route is known. Fault where Network or signals raises one."""
    report = Report()
    network = Network(net, options, report, {})
    commands = (command for _, command in signal_commands(net, network, report, {}))
    made = whole_plans((command.get("at", options.begin), command) for command in commands)
    mapping = map_of(network, [], [], report)
    return free_seconds(graph, mapping, made, options.dawdle / 1000), capacities(graph, mapping, made)
