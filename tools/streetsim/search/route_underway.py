"""Ways round road works in a run under way, for those who have not departed and for those on the road."""
from collections.abc import Collection, Iterable, Mapping, Sequence
from dataclasses import dataclass, replace

from streetsim.model.freeflow import FreeFlow
from streetsim.model.mapping import Map, MapLink
from streetsim.sumo.router import FAR, FoundPath, Path, Router, Shut, Wish
from streetsim.sumo.trips import Trip
from streetsim.sumo.way_costs import Costs, flat_costs
from streetsim.sumo.way_graph import graph_of_map
from streetsim.sumo.way_seconds import capacities, free_seconds
from streetsim.sumo.way_start import first_ways


@dataclass(frozen=True, slots=True)
class PlannedVehicle:
    """A vehicle that counts for volumes and may get another way: one that has not departed, or one on the road, whose
    depart is now. plan: links, from the one where it is."""

    name: str
    depart: int
    plan: Path


@dataclass(slots=True)
class Diversion:
    """Another way of a vehicle on the road. links_ahead: those that it drives first; links_after: those after them;
    due: the clock before which it need not be looked at."""

    links_ahead: Path
    links_after: Path
    due: int

    def least_steps(self, links: Sequence[MapLink], link: int, cell: int | None) -> int:
        """The least steps, one at least, until a vehicle, at a cell of a link, is behind the links ahead. cell: None
        where it is at the link's end. ValueError where the link is none of these."""
        links_left = self.links_ahead[self.links_ahead.index(link) :]
        cells = sum(links[at].cells for at in links_left) - (links[link].cells if cell is None else cell + 1)
        return max(1, int(cells / max(links[at].limit for at in links_left)))


def turning_to(plan: Path, way: Path, clock: int) -> Diversion:
    """How a vehicle leaves its plan for another way, which begins on the same link or on one beside it: it first drives
    the links that both begin with, one at least. clock: from which on it is looked at."""
    both = enumerate(zip(plan, way))
    common = max(1, next((at for at, (planned, turned) in both if planned != turned), min(len(plan), len(way))))
    return Diversion(plan[:common], way[common:], clock)


class WaysRound:
    """Quickest ways over the links of a run's map, with the delays that the volumes of all given plans would make at
    free speed and the present signals. Links, not edges, are searched, as turns between parallel links cannot be added
    under way."""

    def __init__(self, mapping: Map, dawdle: float) -> None:
        """dawdle: the chance to go on by a cell less, 0 to 1."""
        links = [replace(link, edge=str(at)) for at, link in enumerate(mapping.links)]
        self.mapping, self.by_link, self.dawdle = mapping, replace(mapping, links=links), dawdle
        self.graph = graph_of_map(self.by_link)

    def new_plans(
        self, vehicles: Iterable[PlannedVehicle], signals: Collection[dict], edges: Collection[str],
        times: tuple[float, float], seed: int,
    ) -> dict[str, Path]:  # fmt: skip
        """{name: new plan, by links} of the vehicles that would come to some edges, which are shut, within times (from
        the first second to before the last). Vehicles that begin or end there, end where they began, have no way round,
        or keep their plan are left out. vehicles: all that count for the volumes; signals: the signal commands in
        force; seed: of the order in which vehicles choose."""
        free = free_seconds(self.graph, self.by_link, signals, self.dawdle)
        closed = self.shut_times(edges, times)
        trips = [
            Trip(car.name, float(car.depart), car.plan[0], car.plan[-1], "", tuple(car.plan), float(car.depart))
            for car in sorted(vehicles, key=lambda car: car.depart)
        ]
        router = Router(self.graph, flat_costs(self.graph, free), closed)
        open_ = closed.keys().isdisjoint
        through = (trip for trip in trips if open_((trip.origin, trip.target)) and not self.is_round_trip(trip))
        coming = [trip for trip in through if router.first_shut(trip.path, trip.depart) is not None]
        if not coming:
            return {}
        plans = {trip.name: trip.path for trip in coming}
        for trip in coming:
            trip.path = ()
        capacity = capacities(self.graph, self.by_link, signals)
        first_ways(self.graph, trips, free, capacity, seed, lambda wishes, costs: self.best_ways(wishes, costs, closed))
        return {trip.name: trip.path for trip in coming if trip.path and trip.path != plans[trip.name]}

    def is_round_trip(self, trip: Trip) -> bool:
        """Whether a trip ends on the edge where it begins: its way is then its purpose, and stays."""
        return self.mapping.links[trip.origin].edge == self.mapping.links[trip.target].edge

    def shut_times(self, edges: Collection[str], times: tuple[float, float]) -> Shut:
        """The seconds in which the links of edges are not to be entered, {link: [(first, last)]}, from first to before
        last: also so shortly before times that one would not come past the works."""
        begin, end = times
        driving = FreeFlow(self.mapping, self.dawdle).driving
        return {
            link: [(begin - driving[link], min(end, FAR))] for edge in edges for link in self.mapping.links_of[edge]
        }

    def best_ways(self, wishes: Sequence[Wish], costs: Costs, shut: Mapping) -> list[FoundPath]:
        """The best way of each wish, in their order, over all parallel links of the edges where it begins and ends; its
        path is empty where there is none. The seconds of own ways are not reckoned: FAR."""
        router = Router(self.graph, costs, shut)
        best = {wish.trip: FoundPath(wish.trip, (), FAR, FAR) for wish in wishes}
        for last, wish in sorted((last, wish) for wish in wishes for last in self.parallel_links(wish.target)):
            for first in self.parallel_links(wish.origin):
                path, seconds = router.search(first, last, wish.clock)
                if path and seconds < best[wish.trip].seconds:
                    best[wish.trip] = FoundPath(wish.trip, path, seconds, FAR)
        return list(best.values())

    def parallel_links(self, link: int) -> list[int]:
        """All links of the edge of a link, this link among them."""
        return self.mapping.links_of[self.mapping.links[link].edge]


def impassable_edges(
    mapping: Map, edges: Iterable[str], closed: Mapping[tuple[int, int], Sequence[tuple[int, int]]]
) -> list[str]:
    """The edges, among some, of which no link can be passed for its closed cells. closed: these, (first, last), by
    (link, lane)."""
    return [edge for edge in edges if all(is_impassable(mapping, link, closed) for link in mapping.links_of[edge])]


def is_impassable(mapping: Map, link: int, closed: Mapping[tuple[int, int], Sequence[tuple[int, int]]]) -> bool:
    """Whether nobody gets past the closed cells (first and last included) of a link: all its lanes are closed side by
    side, or without room to change lanes between. closed: as of impassable_edges."""
    stretches = [(0, 10**9)]
    for lane in range(len(mapping.links[link].lanes)):
        closed_cells = closed.get((link, lane), ())
        both = [(max(begin, first), min(end, last)) for begin, end in stretches for first, last in closed_cells]
        stretches = [(begin, end) for begin, end in both if begin <= end + 1]
    return bool(stretches)
