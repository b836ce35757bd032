"""Mean paces of the vehicles of a demand, by edge: how they drive alone in SUMO, lose seconds behind slower ones, and
start."""
from __future__ import annotations

import math
from collections import Counter, defaultdict
from collections.abc import Callable, Collection, Iterable, Mapping, Sequence
from itertools import pairwise
from types import MappingProxyType
from typing import Any

from streetsim.sumo.driving import USUAL, Driving, slownesses

LEAST_SECONDS = 900.0  # as which a demand counts that departs in fewer
BEGIN = 5.0  # metres from an edge's begin, where a vehicle departs in SUMO
AT_SPEED = ("max", "desired", "speedLimit", "last", "avg")  # departSpeed with which nobody has to gain speed
# Seconds, and metres, by which SUMO's usual vehicles keep apart on one lane: its tau; length and minGap.
APART_SECONDS, APART_METRES = 1.0, 7.5
LEAST_FREE = 0.1  # share of a lane's time that is counted as free of these at least

Started = tuple[Driving, str, str]  # how one drives, its class, its departSpeed


class Drivers:
    """Who drives on an edge, or on some lanes of it: how many in each way. Where nobody does, the usual way counts."""

    def __init__(self, counts: Mapping[Driving, int] | None = None) -> None:
        """counts: vehicles by how they drive."""
        self.counts = counts or {USUAL: 1}
        self.total = sum(counts.values()) if counts else 0
        self.mean_accel = self.mean(Driving.mean_accel)  # metres a second and second, with what is lost by chance
        self.accel = self.mean_accel * USUAL.accel / USUAL.mean_accel()  # of usual cars that gain speed as these do
        self.apart = self.mean(lambda one: one.apart)  # seconds more between two of a queue than between usual cars
        self.factor = self.mean(lambda one: one.factor)  # of a limit
        self.max_speed = self.mean(lambda one: one.max_speed)  # metres a second

    def mean(self, value: Callable[[Driving], float]) -> float:
        """The mean of a value over the vehicles."""
        return sum(count * value(one) for one, count in self.counts.items()) / sum(self.counts.values())

    def slowness(self, speed: float) -> float:
        """Mean seconds for a metre where speed is allowed (metres a second, above 0)."""
        return self.mean(lambda one: one.slowness(speed))

    def slownesses(self, speed: float) -> list[tuple[float, float]]:
        """(seconds for a metre, share of the vehicles) of those alone where speed is allowed, the slowest first."""
        vehicles = sum(self.counts.values())
        each = ((count, own) for one, count in self.counts.items() for own in slownesses(one, speed))
        return sorted(((seconds, count / vehicles * share) for count, (seconds, share) in each), reverse=True)


class Paces:
    """Who drives and departs on each edge of a demand."""

    def __init__(
        self, vehicles: Iterable[Any] = (), drivings: Mapping[str, Driving] = MappingProxyType({}),
        class_of: Callable[[str], str] = str,
    ) -> None:  # fmt: skip
        """vehicles: with edges, type, depart (seconds) and more, as sumo.demand has them; drivings: by type, usual ones
        where it has none; class_of: gives the class of a type."""
        journeys, first_depart, last_depart = Counter[tuple[tuple[str, ...], str]](), 0.0, 0.0
        departing = Counter[tuple[str, str, str]]()  # by edge, type and departSpeed
        for at, vehicle in enumerate(vehicles):
            journeys[vehicle.edges, vehicle.type] += 1
            first_depart = min(first_depart, vehicle.depart) if at else vehicle.depart
            last_depart = max(last_depart, vehicle.depart) if at else vehicle.depart
            attributes = vehicle.further_attributes
            speed = dict(attributes).get("departSpeed", "0") if attributes else "0"
            departing[vehicle.edges[0], vehicle.type, speed] += 1
        driving_of_type = {name: (drivings.get(name, USUAL), class_of(name)) for _, name in journeys}
        self.types_of: defaultdict[tuple[Driving, str], set[str]] = defaultdict(set)
        for name, driving_and_class in driving_of_type.items():
            self.types_of[driving_and_class].add(name)
        self.starts: defaultdict[str, Counter[Started]] = defaultdict(Counter)
        for (edge, name, speed), count in departing.items():
            self.starts[edge][*driving_of_type[name], speed] += count
        on_edge: defaultdict[str, dict[str, int]] = defaultdict(dict)  # by type
        for (edges, name), count in journeys.items():
            for edge in edges:
                counts = on_edge[edge]
                counts[name] = counts.get(name, 0) + count
        self.passing: defaultdict[str, Counter[tuple[Driving, str]]] = defaultdict(Counter)  # with their class
        for edge, counts in on_edge.items():
            for name, count in counts.items():
                self.passing[edge][driving_of_type[name]] += count
        self.seconds = max(LEAST_SECONDS, last_depart - first_depart)
        self.drivers_found: dict[tuple[str, frozenset[str] | None], Drivers] = {}

    def drivers_on(self, edge: str, classes: frozenset[str] | None = None) -> Drivers:
        """Who drives on an edge: of some classes, or all (None)."""
        if (edge, classes) not in self.drivers_found:
            counts = Counter[Driving]()
            for (one, own), count in self.passing.get(edge, {}).items():
                if classes is None or own in classes:
                    counts[one] += count
            self.drivers_found[edge, classes] = Drivers(counts)
        return self.drivers_found[edge, classes]

    def bunching(self, drivers: Drivers, metres: float, speed: float) -> float:
        """Mean seconds that vehicles lose behind slower ones on metres of one lane, where nobody overtakes and speed is
        allowed; what each keeps apart from the one before it makes the others come closer together."""
        if not drivers.total:
            return 0.0
        rate = drivers.total / self.seconds
        apart = APART_SECONDS + APART_METRES * drivers.slowness(speed)
        alone = [(metres * seconds, share) for seconds, share in drivers.slownesses(speed)]
        return lost_behind(rate / max(LEAST_FREE, 1 - rate * apart), alone)

    def at_start(
        self, edge: str, metres: float, speed: float, classes: Collection[str] | None = None
    ) -> tuple[float, float]:
        """(how many vehicles depart on an edge of some metres; mean seconds that these lose there, as they gain speed);
        of some classes, or all (None). speed: that is allowed, metres a second, above 0."""
        own = {key: count for key, count in self.starts.get(edge, {}).items() if classes is None or key[1] in classes}
        lost = sum(count * (gained(one, metres, speed, text) - BEGIN / speed) for (one, _, text), count in own.items())
        total = sum(own.values())
        return total, lost / total if total else 0.0


def lost_behind(rate: float, alone: Sequence[tuple[float, float]]) -> float:
    """Mean seconds lost by vehicles that come at random, rate a second (above 0), and of which none arrives before the
    one that came before it; alone: (seconds from begin to end, share of the vehicles), the slowest first. One has
    arrived by a second if it needs no more, and so has each before it: of these exp(-rate * later) have, later: the
    mean of the seconds beyond that second that one needs."""
    lost, slower, later = 0.0, 0.0, 0.0
    for (seconds, share), (fewer, _) in pairwise(alone):
        slower += share
        sooner, later = later, later + slower * (seconds - fewer)
        held_up = seconds - fewer - (math.exp(-rate * sooner) - math.exp(-rate * later)) / (rate * slower)
        lost += (1 - slower) * held_up
    return lost


def gained(driving: Driving, metres: float, speed: float, text: str) -> float:
    """Seconds that one loses on an edge of some metres who departs there, where speed is allowed (metres a second);
    text: its departSpeed."""
    if text in AT_SPEED:
        return 0.0
    try:
        first = max(0.0, float(text))
    except ValueError:
        first = speed / 2 if text == "random" else 0.0
    return driving.gaining(speed, first, max(0.0, metres - BEGIN))
