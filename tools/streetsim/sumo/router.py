"""Time-dependent shortest paths over edges."""
from array import array
from collections.abc import Mapping, Sequence
from heapq import heappop, heappush
from itertools import pairwise
from typing import NamedTuple

from streetsim.sumo.way_costs import Costs, Table
from streetsim.sumo.way_graph import END, Graph

FAR = 1e12  # seconds: no way; beyond all clocks

Path = tuple[int, ...]
EdgePair = tuple[int, int]  # an edge and the next
# By edge, or by movement: from when until when nobody can enter it, or come to the next edge by it.
Shut = Mapping[int | EdgePair, Sequence[tuple[float, float]]]


class Wish(NamedTuple):
    """What the router is asked: a trip, by its number, from an edge to another (by numbers of the graph) from a clock
    (seconds) on, and the path that it has (empty: none)."""

    trip: int
    origin: int
    target: int
    clock: float
    path: Path


class FoundPath(NamedTuple):
    """What the router found for a trip, by its number: the best path (empty: there is no way), its seconds, and those
    of the trip's own path (FAR: it has none)."""

    trip: int
    path: Path
    seconds: float
    own_seconds: float


class Router:
    """Finds shortest paths by A*. The least seconds to a target are kept until another one is asked for."""

    def __init__(self, graph: Graph, costs: Costs, shut: Shut | None = None) -> None:
        """costs: seconds of the graph's movements by time; shut: edges and movements, with the clocks (begin, end),
        begin included, between which they cannot be used; None: none."""
        self.graph, self.table, self.shut = graph, Table(costs), shut or {}
        pairs = [one for one in self.shut if isinstance(one, tuple)]
        # By edge: those to which one may not turn at times.
        self.barred = {edge: {after for before, after in pairs if before == edge} for edge, _ in pairs}
        self.least_seconds = [costs.least_seconds(movement) for movement in range(len(graph.movements))]
        self.arcs: list[list[tuple[int, array]] | None] = [None] * len(graph.edges)
        self.target, self.bounds = END, [FAR]

    def arcs_of(self, edge: int) -> list[tuple[int, array]]:
        """(next edge, the row of seconds of the movement to it, by Table.row) for each edge after an edge."""
        made = self.arcs[edge]
        if made is None:
            made = self.arcs[edge] = [
                (following, self.table.row(movement)) for following, movement in self.graph.outgoing[edge]
            ]
        return made

    def bounds_to(self, target: int) -> list[float]:
        """For each edge the least seconds from its begin to that of the target; FAR where no way leads there."""
        if self.target == target:
            return self.bounds
        least_seconds, into = self.least_seconds, self.graph.incoming
        bounds, heap = [FAR] * len(into), [(0.0, target)]
        bounds[target] = 0.0
        while heap:
            seconds, edge = heappop(heap)
            if seconds > bounds[edge]:
                continue
            for before, movement in into[edge]:
                through = seconds + least_seconds[movement]
                if through < bounds[before]:
                    bounds[before] = through
                    heappush(heap, (through, before))
        self.target, self.bounds = target, bounds
        return bounds

    def search(self, origin: int, target: int, clock: float) -> tuple[Path, float]:
        """(the path that is quickest from a clock on, its seconds to the end of the target); an empty path and FAR
        where there is no way. Nobody waits: an edge or movement that would be reached while it is shut is not used;
        whether the origin is shut is not looked at."""
        bounds, inverse, last_part, shut = self.bounds_to(target), self.table.inverse, self.table.last_part, self.shut
        best, previous_edges = {origin: clock}, dict[int, int]()
        # Of equal ones the farthest comes first.
        heap = [(clock + bounds[origin], -clock, origin)] if bounds[origin] < FAR else []
        while heap:
            _, edge_clock, edge = heappop(heap)
            edge_clock = -edge_clock
            if edge == target:
                end = edge_clock + self.table.seconds_at(self.graph.movement_of[target, END], edge_clock)
                return self.traced(previous_edges, origin, target), end - clock
            if edge_clock > best[edge]:
                continue
            cost_part = int(edge_clock * inverse)
            if cost_part > last_part:
                cost_part = last_part
            barred = self.barred.get(edge, ())
            for following, row in self.arcs_of(edge):
                arrival = edge_clock + row[cost_part]
                if arrival >= best.get(following, FAR):
                    continue
                if following in shut or following in barred:
                    if self.when_open(arrival, following, (edge, following)) > arrival:
                        continue
                best[following] = arrival
                previous_edges[following] = edge
                heappush(heap, (arrival + bounds[following], -arrival, following))
        return (), FAR

    @staticmethod
    def traced(previous_edges: dict[int, int], origin: int, target: int) -> Path:
        """The path that a search found; previous_edges: for each edge the one from which it was reached."""
        path = [target]
        while path[-1] != origin:
            path.append(previous_edges[path[-1]])
        return tuple(reversed(path))

    def clocks(self, path: Path, clock: float) -> list[float]:
        """The clocks at which one who begins a path at a clock reaches each of its edges, and at last the end of it;
        where an edge after the first, or a movement, is shut, one waits until it is open. Each pair of edges must be a
        movement of the graph, else KeyError."""
        found, movement_of = [clock], self.graph.movement_of
        for pair in pairwise((*path, END)):
            reached = found[-1] + self.table.seconds_at(movement_of[pair], found[-1])
            found.append(self.when_open(reached, pair[1], pair))
        return found

    def when_open(self, clock: float, *keys: int | EdgePair) -> float:
        """The first clock, from the given one on, at which none of some edges and movements is shut."""
        if self.shut:
            for begin, end in sorted(span for key in keys for span in self.shut.get(key, ())):
                if begin <= clock < end:
                    clock = end
        return clock

    def first_shut(self, path: Path, clock: float) -> int | None:
        """The index in a path, begun at a clock, of the first edge that is reached while it is shut, or by a movement
        that is shut; None where the whole path is open."""
        if self.shut.keys().isdisjoint((*path, *pairwise(path))):
            return None
        if self.when_open(clock, path[0]) != clock:
            return 0
        clocks, movement_of = self.clocks(path, clock), self.graph.movement_of
        for at, pair in enumerate(pairwise(path)):
            reached = clocks[at] + self.table.seconds_at(movement_of[pair], clocks[at])
            if self.when_open(reached, pair[1], pair) != reached:
                return at + 1
        return None

    def own_seconds(self, wish: Wish) -> float:
        """The seconds of the path that a trip has, with waits where it is shut; FAR where it has none."""
        return self.clocks(wish.path, wish.clock)[-1] - wish.clock if wish.path else FAR

    def best_path(self, wish: Wish) -> FoundPath:
        """The best path of a trip with its seconds, and the seconds of the trip's own path (FAR: it has none)."""
        path, least = self.search(wish.origin, wish.target, wish.clock)
        return FoundPath(wish.trip, path, least, self.own_seconds(wish))


def by_target(wishes: Sequence[Wish]) -> list[Wish]:
    """Wishes sorted by target, so that bounds are searched once for each."""
    return sorted(wishes, key=lambda wish: (wish.target, wish.trip))


def wish_parts(wishes: Sequence[Wish], count: int) -> list[list[Wish]]:
    """Wishes in `count` parts (1 or more) at most, sorted by target, so that few targets lie in two parts."""
    order = by_target(wishes)
    size = max(1, -(-len(order) // count))
    return [order[at : at + size] for at in range(0, len(order), size)]
