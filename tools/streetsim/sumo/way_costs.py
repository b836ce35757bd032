"""The seconds that movements take by time of day, as runs show them, and the costs that a router makes of them."""
from array import array
from collections.abc import Sequence
from dataclasses import dataclass

from streetsim.sumo.way_graph import Graph
from streetsim.sumo.way_minor import Minor

AS_MOVEMENT = 2.0  # vehicles for which the mean delay of the edge counts where few of a movement were seen
AS_EDGE = 1.0  # vehicles without delay that are added to those of an edge
TURN_BACK = 5.0  # seconds that a turn back costs the router besides
FALL = 0.9  # seconds a second by which costs fall at most: who sets out later should not arrive much sooner
PARTS_OF_SLICE = 5  # of a slice, in each of which a cost is constant
# Of a slice, from its middle to the middle of a part.
SHARES = [(part + 0.5) / PARTS_OF_SLICE - 0.5 for part in range(PARTS_OF_SLICE)]


@dataclass(slots=True)
class Observed:
    """What one run showed: for each movement in each slice of time the seconds of all vehicles together, and how many
    they were, at index movement * slices + slice."""

    slices: int
    seconds: array
    counts: array

    def add(self, movement: int, slice_: int, seconds: float) -> None:
        """Adds a vehicle, its seconds for a movement that it began in a slice; later slices count as the last."""
        place = movement * self.slices + min(slice_, self.slices - 1)
        self.seconds[place] += seconds
        self.counts[place] += 1


def nothing_observed(movements: int, slices: int) -> Observed:
    """An Observed with nothing in it, for so many movements and slices."""
    seconds, counts = (array("d", [0.0]) * (movements * slices) for _ in range(2))
    return Observed(slices, seconds, counts)


def mean_observed(runs: Sequence[Observed]) -> Observed:
    """The mean of what some runs of equal slices showed, one at least, where counts need not be whole."""
    seconds, counts = (
        array("d", [sum(values) / len(runs) for values in zip(*(getattr(run, name) for run in runs), strict=True)])
        for name in ("seconds", "counts")
    )
    return Observed(runs[0].slices, seconds, counts)


@dataclass(slots=True)
class Costs:
    """The seconds of movements by time: the mean of each in each slice, or one number for all times."""

    slice_seconds: float
    slices: int
    means: list[float | array]

    @property
    def part_seconds(self) -> float:
        """The seconds for which a cost is constant."""
        return self.slice_seconds / PARTS_OF_SLICE

    def row(self, movement: int) -> array:
        """The seconds of a movement in each part of all slices: from the middle of a slice to the middle of the next
        they change along a straight line."""
        means = self.means[movement]
        if isinstance(means, float):
            return array("d", [means]) * (PARTS_OF_SLICE * self.slices)
        before, after = [means[0], *means[:-1]], [*means[1:], means[-1]]
        return array("d", [
            own + ((later - own) * share if share >= 0 else (own - sooner) * share)
            for sooner, own, later in zip(before, means, after, strict=True)
            for share in SHARES
        ])  # fmt: skip

    def least_seconds(self, movement: int) -> float:
        """The least seconds that a movement takes at any time."""
        means = self.means[movement]
        return means if isinstance(means, float) else min(means)


class Table:
    """Costs by the clock; the row of a movement is made when it is first asked for."""

    def __init__(self, costs: Costs) -> None:
        """costs: of all movements of a graph."""
        self.costs = costs
        self.rows: list[array | None] = [None] * len(costs.means)
        self.inverse, self.last_part = 1 / costs.part_seconds, PARTS_OF_SLICE * costs.slices - 1

    def row(self, movement: int) -> array:
        """The seconds of a movement in each part of all slices; made at the first call."""
        made = self.rows[movement]
        if made is None:
            made = self.rows[movement] = self.costs.row(movement)
        return made

    def seconds_at(self, movement: int, clock: float) -> float:
        """The seconds of a movement that begins at a clock (seconds from 0, where the first slice begins); after the
        last slice those of its last part."""
        return self.row(movement)[min(self.last_part, int(clock * self.inverse))]


def costs_of(
    graph: Graph, free: Sequence[float], observed: Observed, width: float, minor: Minor | None = None
) -> Costs:
    """The costs that follow from what was observed. free: seconds of each movement without traffic; width: seconds of a
    slice; minor: who gives way, None: nobody. A movement has its free seconds, TURN_BACK more where it turns back, and
    the mean delay of its vehicles in a slice, together with AS_MOVEMENT further ones with the mean of its edge, or the
    wait of who gives way if more. Where no vehicle was seen on an edge, a movement that gives way to nobody costs the
    same at all times. Costs are half the free seconds at least, and fall by FALL seconds a second at most."""
    slices, counts = observed.slices, observed.counts
    delays = array("d", [
        seconds - counts[place] * free[place // slices] for place, seconds in enumerate(observed.seconds)
    ])  # fmt: skip
    of_edge, edge_counts = edge_sums(graph, slices, delays), edge_sums(graph, slices, counts)
    seen = [any(edge_counts[edge * slices : (edge + 1) * slices]) for edge in range(len(graph.edges))]
    means: list[float | array] = []
    for movement, (edge, _) in enumerate(graph.movements):
        base = free[movement] + TURN_BACK * graph.turns_back[movement]
        waits = minor is not None and movement in minor.foes
        if not seen[edge] and not waits:
            means.append(base)
            continue
        row, last_cost = array("d"), 0.0
        for slice_ in range(slices):
            place, there = movement * slices + slice_, edge * slices + slice_
            shared = of_edge[there] / (edge_counts[there] + AS_EDGE)
            if minor is not None and waits:
                shared = max(shared, minor.wait(movement, lambda foe: counts[foe * slices + slice_] * 3600 / width))
            delay = (delays[place] + AS_MOVEMENT * shared) / (counts[place] + AS_MOVEMENT)
            last_cost = max(0.5 * free[movement], base + delay, last_cost - FALL * width)
            row.append(last_cost)
        means.append(row)
    return Costs(width, slices, means)


def edge_sums(graph: Graph, slices: int, values: array) -> array:
    """Sums over each edge's movements, at index edge * slices + slice; values: at movement * slices + slice."""
    sums = array("d", [0.0]) * (len(graph.edges) * slices)
    for movement, (edge, _) in enumerate(graph.movements):
        for slice_ in range(slices):
            sums[edge * slices + slice_] += values[movement * slices + slice_]
    return sums


def flat_costs(graph: Graph, seconds: Sequence[float]) -> Costs:
    """Costs that are the same at all times; seconds: of each movement. Turning back costs TURN_BACK more."""
    means = [value + TURN_BACK * back for value, back in zip(seconds, graph.turns_back, strict=True)]
    return Costs(float("inf"), 1, [*means])
