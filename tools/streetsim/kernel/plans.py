"""The plans of a run's vehicles as columns, with the seconds that a vehicle alone takes; `observe` reckons delays by
them."""

from streetsim.base.arrays import Array
from streetsim.base.arrays import numpy as np
from streetsim.model.freeflow import Alone
from streetsim.model.mapping import Map
from streetsim.model.runs import Run

PART = 1 << 19  # places of plans at once


class Plans:
    """The plans of all vehicles of the file, end to end: links, and by vehicle its first place and the one behind its
    last; a place is alone for the mean seconds of one on the link and in the junction behind it."""

    def __init__(self, run: Run, mapping: Map) -> None:
        """The plans of a run; each has a link at least."""
        self.links, self.lengths = run.plan_columns()
        self.end_places = np.cumsum(self.lengths)
        self.first_places = self.end_places - self.lengths
        alone, previous_links = Alone(mapping, run.load.command["dawdle"] / 1000), np.roll(self.links, 1)
        previous_links[self.first_places] = -1
        # By place the number of its pair of a link and the one before; by number the seconds.
        self.pair, pairs = np.zeros(len(self.links), np.int32), Pairs(alone)
        for begin in range(0, len(self.links), PART):
            part = slice(begin, begin + PART)
            self.pair[part] = pairs.numbers_of(self.links[part], previous_links[part])
        self.seconds = np.array(pairs.seconds, float)
        self.across = np.array([alone.across(link) for link in range(len(mapping.links))], float)

    def vehicles(self, first_vehicle: int, vehicle_behind: int) -> Array:
        """By place of the plans of some vehicles, from one number to another (not included), the vehicle's number."""
        return np.repeat(np.arange(first_vehicle, vehicle_behind), self.lengths[first_vehicle:vehicle_behind])

    def seconds_between(self, first_places: Array, last_places: Array) -> Array:
        """The sums of the seconds from some places to others, both included, each added in the plan's order."""
        total = np.zeros(len(first_places))
        for step in range(int((last_places - first_places).max(initial=-1)) + 1):
            plans_with_step = np.flatnonzero(first_places + step <= last_places)
            total[plans_with_step] += self.seconds[self.pair[first_places[plans_with_step] + step]]
        return total

    def alone_on_trips(self) -> Array:
        """By vehicle the mean seconds of its trip alone, from the wished departure to arrival; in the first of them it
        stands."""
        last_places = self.end_places - 1
        return 1 + self.seconds_between(self.first_places, last_places) - self.across[self.links[last_places]]


class Pairs:
    """Pairs of a link and the one before, by numbers, and the mean seconds of one alone there (seconds)."""

    def __init__(self, alone: Alone) -> None:
        """None is known."""
        self.alone, self.seconds = alone, list[float]()
        self.number: dict[int, int] = {}  # by link and the one before

    def numbers_of(self, links: Array, previous_links: Array) -> Array:
        """The numbers of pairs; previous_links: -1 for none."""
        keys, pair_of_place = np.unique(links.astype(np.int64) << 32 | previous_links + 1, return_inverse=True)
        for key in keys.tolist():
            if key not in self.number:
                self.number[key] = len(self.seconds)
                link, previous = key >> 32, (key & (1 << 32) - 1) - 1
                on_link = self.alone.on_link(link, previous if previous >= 0 else None)
                self.seconds.append(on_link + self.alone.across(link))
        return np.array([self.number[key] for key in keys.tolist()], np.int32)[pair_of_place]
