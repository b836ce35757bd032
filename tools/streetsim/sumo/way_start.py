"""First ways without a simulation: shortest paths by seconds without traffic, waits at signals, and delays by the
volumes so far."""
import random
from collections import Counter, defaultdict
from collections.abc import Callable, Iterable, Sequence
from itertools import pairwise

from streetsim.sumo.router import FoundPath, Wish
from streetsim.sumo.trips import Trip
from streetsim.sumo.way_costs import Costs, flat_costs
from streetsim.sumo.way_graph import Graph

PARTS_OF_TRIPS = 5  # of the trips, each of which sees the delays that those before it make
# The delay is so much of the free seconds, times the load to that power (as of the Bureau of Public Roads).
STEEPNESS, POWER = 0.5, 4
MOST_DELAY = 300.0  # seconds
LEAST_HOURS = 0.25  # over which volumes are taken to be spread

Searching = Callable[[Sequence[Wish], Costs], Iterable[FoundPath]]


def first_ways(
    graph: Graph, trips: Sequence[Trip], free: Sequence[float], capacity: Sequence[float], seed: int, search: Searching
) -> list[Trip]:
    """Sets the path of each trip that has none; gives back the trips for which there is no way, their paths empty; they
    are in no order. trips: in order of departure, one at least; free: seconds, and capacity: vehicles an hour, of each
    movement; seed: of the order in which trips choose; search: finds a path for each wish by costs, in any order."""
    wanting = [index for index, trip in enumerate(trips) if not trip.path]
    random.Random(f"start {seed}").shuffle(wanting)
    hours = max(LEAST_HOURS, (trips[-1].depart - trips[0].depart) / 3600)
    given, volume, lost = volumes(graph, trips), [0] * len(graph.movements), []
    for part in range(PARTS_OF_TRIPS):
        mine = wanting[part::PARTS_OF_TRIPS]
        hourly = (
            (count + own * PARTS_OF_TRIPS / max(1, part)) / hours
            for count, own in zip(given, volume, strict=True)
        )
        seconds = delayed(graph, free, [flow / most for flow, most in zip(hourly, capacity, strict=True)])
        wishes = [Wish(index, trips[index].origin, trips[index].target, trips[index].depart, ()) for index in mine]
        for found in search(wishes, flat_costs(graph, seconds)):
            trip = trips[found.trip]
            trip.path = found.path
            if not found.path:
                lost.append(trip)
            for way in pairwise(found.path):
                volume[graph.movement_of[way]] += 1
    return lost


def volumes(graph: Graph, trips: Iterable[Trip]) -> list[int]:
    """How many trips have each movement on their ways, a list by movement. Pairs of edges that are no movement of the
    graph (changes between lanes that an import adds) are passed over."""
    found = Counter(way for trip in trips for way in pairwise(trip.path))
    return [found[way] for way in graph.movements]


def delayed(graph: Graph, free: Sequence[float], loads: Sequence[float]) -> list[float]:
    """The seconds of each movement under its load (volume by capacity): without traffic (free), and its own delay,
    MOST_DELAY at most, or the mean delay of the used movements of its edge where that is more."""
    delays = [min(MOST_DELAY, STEEPNESS * seconds * load**POWER) for seconds, load in zip(free, loads, strict=True)]
    of_edge = defaultdict(list)
    for (edge, _), delay, load in zip(graph.movements, delays, loads, strict=True):
        if load:
            of_edge[edge].append(delay)
    means = {edge: sum(values) / len(values) for edge, values in of_edge.items()}
    return [
        seconds + max(delay, means.get(edge, 0.0))
        for (edge, _), seconds, delay in zip(graph.movements, free, delays, strict=True)
    ]
