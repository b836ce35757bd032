"""Seconds of movements where nobody is in the way, and what their greens let pass. Signals are the signal commands of a
run, one for each node, of which the phases count and the offsets do not; edges and movements go by their numbers in the
graph."""
from array import array
from collections import defaultdict
from collections.abc import Iterable, Iterator
from itertools import pairwise, takewhile

from streetsim.model.freeflow import FreeFlow
from streetsim.model.mapping import Map
from streetsim.model.runs import Command, TimedCommand
from streetsim.model.timing import spans_of
from streetsim.sumo.way_graph import END, Graph

SATURATION = 1700.0  # vehicles an hour and lane in green, by and large
NO_GREEN_SECONDS = 3600.0  # seconds of a wait for a green that does not come
LEAST_CAPACITY = 100.0  # vehicles an hour that any movement lets pass


def whole_plans(sent_commands: Iterable[TimedCommand]) -> list[Command]:
    """One signal command, {"node", "phases"}, for each node of signal commands that are sent at clocks: the phases of
    the first that the node is sent; or where that has one phase, as of a program that is sent phase by phase, those of
    all up to one of several phases, each as long as until the next is sent: up to the last that is as the first, so
    that cycles are whole, or where none is up to the last of all."""
    by_node: defaultdict[int, list[tuple[int, list]]] = defaultdict(list)
    for clock, command in sent_commands:
        by_node[command["node"]].append((clock, command["phases"]))
    commands = []
    for node, plans in by_node.items():
        alone = list(takewhile(lambda plan: len(plan[1]) == 1, plans))
        last = max((at for at, (_, phases) in enumerate(alone) if phases == plans[0][1]), default=0) or len(alone)
        spans = [[later - clock, phases[0][1]] for (clock, phases), (later, _) in pairwise(alone[: last + 1])]
        commands.append({"node": node, "phases": spans or plans[0][1]})
    return commands


def free_seconds(graph: Graph, mapping: Map, signals: Iterable[dict], dawdle: float) -> array:
    """For each movement the seconds of its edge without traffic, with the crossing and the mean wait at its signal
    where it does not end a trip; of parallel links the last counts. dawdle: the chance, 0 to 1, of a cell less."""
    driving, waits = FreeFlow(mapping, dawdle), mean_waits(graph, mapping, signals)
    edge_of = {graph.number[link.edge]: at for at, link in enumerate(mapping.links)}
    seconds = array("d")
    for edge, following in graph.movements:
        link = edge_of[edge]
        crossing = 0.0 if following == END else driving.crossing[link] + waits.get((edge, following), 0.0)
        seconds.append(driving.driving[link] + crossing)
    return seconds


def mean_waits(graph: Graph, mapping: Map, signals: Iterable[dict]) -> dict[tuple[int, int], float]:
    """The mean seconds, by (edge, next edge), for which signals hold a vehicle that comes at any time; of parallel
    links the least, and NO_GREEN_SECONDS where the movement is never green. Movements at nodes without a signal are
    left out."""
    signals = list(signals)
    lit = {command["node"] for command in signals}
    at_signals = (turn for turn in mapping.turns if mapping.links[turn.link].end in lit)
    waits = {edge_numbers(graph, mapping, turn.link, turn.next): NO_GREEN_SECONDS for turn in at_signals}
    for command in signals:
        cycle = sum(duration for duration, _ in command["phases"])
        for way, green in green_bits(graph, mapping, command):
            wait = sum(red * (red + 1) / 2 for red in red_lengths(green, cycle)) / cycle
            waits[way] = min(waits.get(way, NO_GREEN_SECONDS), wait)
    return waits


def green_bits(graph: Graph, mapping: Map, command: dict) -> Iterator[tuple[tuple[int, int], int]]:
    """((edge, next edge), green seconds of the cycle as bits, second 0 the lowest) for each link and next link of which
    a signal command ever lets a lane go; a pair of edges comes more than once where links are parallel."""
    green_of_pair: dict[tuple[int, int], int] = defaultdict(int)
    clock = 0
    for duration, turns in command["phases"]:
        for link, _, following in turns:
            green_of_pair[link, following] |= ((1 << duration) - 1) << clock
        clock += duration
    for (link, following), green in green_of_pair.items():
        yield edge_numbers(graph, mapping, link, following), green


def edge_numbers(graph: Graph, mapping: Map, link: int, following: int) -> tuple[int, int]:
    """(edge of a link, edge of the link `following`, the next one), by their numbers in the graph."""
    return graph.number[mapping.links[link].edge], graph.number[mapping.links[following].edge]


def red_lengths(green: int, cycle: int) -> list[int]:
    """The lengths, seconds, of unbroken reds round a cycle; green: green seconds as bits, second 0 the lowest."""
    return [seconds for _, seconds in spans_of(f"{green:0{cycle}b}"[::-1], "0")]


def capacities(graph: Graph, mapping: Map, signals: Iterable[dict]) -> list[float]:
    """Vehicles an hour that each movement lets pass, a list by movement: at a signal SATURATION for each lane, times
    its share of green, and LEAST_CAPACITY at least; where no signal ever shows it green (as at none, or where it ends a
    trip) SATURATION, whatever its lanes."""
    vehicles_of_pair: dict[tuple[int, int], float] = defaultdict(float)
    for command in signals:
        cycle = sum(duration for duration, _ in command["phases"])
        for duration, turns in command["phases"]:
            for link, _, following in turns:
                vehicles_of_pair[edge_numbers(graph, mapping, link, following)] += SATURATION * duration / cycle
    return [max(LEAST_CAPACITY, vehicles_of_pair.get(way, SATURATION)) for way in graph.movements]
