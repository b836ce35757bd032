"""Trips with their departures, drawn from how many vehicles each way and slice has after the fit."""
import random
from collections import defaultdict
from collections.abc import Sequence

from streetsim.demand.candidates import Way
from streetsim.demand.passing import Slices
from streetsim.demand.science import Array
from streetsim.sumo.trips import Trip
from streetsim.sumo.types import DEFAULT


def trips_of(vehicle_counts: Array, kinds: Sequence[str], ways: Sequence[Way], slices: Slices, seed: int) -> list[Trip]:
    """Trips by departure, with numbers as names. Those of a slice that begin on one edge are spread over all of it, one
    after another in random order, each at a random moment of its part. vehicle_counts: in one row, at
    index (class * ways + way) * slices + slice; kinds: the classes, an empty text for the usual one."""
    count = len(slices)
    departing: defaultdict[tuple[int, int], list[tuple[str, Way]]] = defaultdict(list)
    for index in vehicle_counts.nonzero()[0].tolist():
        kind, way = kinds[index // (len(ways) * count)], ways[index // count % len(ways)]
        departing[index % count, way.path[0]] += [(kind, way)] * int(vehicle_counts[index])
    draws = random.Random(f"departures {seed}")
    departures: list[tuple[float, str, Way]] = []
    for (slice_, _), group in sorted(departing.items()):
        draws.shuffle(group)
        width = (slices.bounds[slice_ + 1] - slices.bounds[slice_]) / len(group)
        for index, (kind, way) in enumerate(group):
            departures.append((slices.bounds[slice_] + width * (index + draws.random()), kind, way))
    departures.sort(key=lambda departure: departure[0])
    return [
        Trip(str(index), depart, way.path[0], way.path[-1], kind or DEFAULT, way.path, depart)
        for index, (depart, kind, way) in enumerate(departures)
    ]
