"""A demand that nobody counted, for a network without routes: so many vehicles an hour between edges at its border.
streetsim-open makes it, and calls it invented wherever it shows."""
from bisect import bisect
from collections.abc import Sequence
from itertools import accumulate
from random import Random

from streetsim.base.files import Fault, attributes_of, whole_file
from streetsim.demand.candidates import entries_and_exits
from streetsim.model.mapping import INVENTED
from streetsim.sumo.net import SumoNet
from streetsim.sumo.way_graph import Graph, graph_of_net

HOUR = 3600  # seconds over which they depart
SEED = 1  # of the draws, so that equal networks have equal vehicles
TRIES = 100  # draws of an edge to begin on, before it is said that nothing leads anywhere


def reached_from(graph: Graph, edge: int) -> list[int]:
    """The numbers of the edges to which an edge leads, itself left out, rising."""
    reached, queue = {edge}, [edge]
    while queue:
        added = [following for following, _ in graph.outgoing[queue.pop()] if following not in reached]
        reached.update(added)
        queue += added
    return sorted(reached - {edge})


def invented_trips(net: SumoNet, hourly: int) -> list[tuple[str, str]]:
    """The (first, last) edge of each of so many trips, drawn by the number of lanes from edges at the border, or from
    all where the network has no border; the last one of those to which the first leads. Fault where none leads on."""
    graph, draws = graph_of_net(net), Random(SEED)
    entries, exits = entries_and_exits(graph)
    if not entries or not exits:
        entries = exits = list(range(len(graph.edges)))
    lanes = [len(net.edges[name].lanes) for name in graph.edges]
    ends: set[int] = {*exits}
    goals: dict[int, list[int]] = {}
    trips: list[tuple[str, str]] = []
    for _ in range(hourly * TRIES):
        if len(trips) == hourly:
            return trips
        begin = drawn(entries, lanes, draws)
        if begin not in goals:
            goals[begin] = [edge for edge in reached_from(graph, begin) if edge in ends]
        if goals[begin]:
            trips.append((graph.edges[begin], graph.edges[drawn(goals[begin], lanes, draws)]))
    if len(trips) < hourly:
        raise Fault("no demand can be invented: no edge at the border leads to another one")
    return trips


def drawn(edges: Sequence[int], lanes: Sequence[int], draws: Random) -> int:
    """One of some edges by number, drawn by how many lanes each has."""
    sums = list(accumulate(lanes[edge] for edge in edges))
    return edges[bisect(sums, draws.randrange(sums[-1]))]


def write_invented(path: str, net: SumoNet, hourly: int, begin: int) -> None:
    """Writes a file of trips, so many in the hour from a clock on. Fault as of invented_trips, and where it cannot be
    written."""
    trips = invented_trips(net, hourly)
    with whole_file(path) as file:
        file.write("<routes>\n")
        for number, (source, target) in enumerate(trips):
            depart = f"{begin + number * HOUR / hourly:.2f}"
            known = {"id": f"{INVENTED}{number}", "depart": depart, "departLane": "best", "from": source, "to": target}
            file.write(f"    <trip{attributes_of(known)}/>\n")
        file.write("</routes>\n")
