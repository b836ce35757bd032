"""When vehicles of a way pass the places of counts: the matrix (counts by ways and slices) on which the fit stands."""
from bisect import bisect_right
from collections import defaultdict
from collections.abc import Iterable, Iterator, Sequence
from dataclasses import dataclass
from itertools import pairwise
from math import ceil

from streetsim.base.files import Fault
from streetsim.demand.candidates import Way
from streetsim.demand.science import Sparse, numpy_and_scipy
from streetsim.demand.values import Count
from streetsim.sumo.router import Path
from streetsim.sumo.way_costs import Costs, Table
from streetsim.sumo.way_graph import END, Graph

WIDEST_LEAD = 900  # seconds of the slice that leads in, at most
MOST_UNKNOWNS = 5_000_000


@dataclass(frozen=True, slots=True)
class Slices:
    """The periods in which vehicles depart, one after another, by their bounds in seconds. leads_in: whether the first
    one lies before the time of the counts."""

    bounds: tuple[int, ...]
    leads_in: bool

    def __len__(self) -> int:
        """How many periods there are."""
        return len(self.bounds) - 1

    def widths(self) -> list[int]:
        """The seconds of each period."""
        return [end - begin for begin, end in pairwise(self.bounds)]


def slices_of(bounds: Iterable[int], lead: float, begin: int) -> Slices:
    """Slices between bounds in seconds, two at least, and before them one that leads in, for those who are on their way
    when counting begins: as long as `lead` seconds need, in whole widths of the narrowest slice, a quarter of an hour
    at most, but not before the clock `begin`; none where this leaves it no second."""
    period_bounds = sorted(set(bounds))
    width = min(WIDEST_LEAD, *(later - sooner for sooner, later in pairwise(period_bounds)))
    early = max(begin, period_bounds[0] - min(WIDEST_LEAD, ceil(lead / width) * width))
    return Slices((early, *period_bounds), True) if early < period_bounds[0] else Slices(tuple(period_bounds), False)


class CountsByEdges:
    """Counts, found by the edges of a way. Counts are told by their index in the list."""

    def __init__(self, counts: Sequence[Count], graph: Graph) -> None:
        """counts: all of them, in the order by which others name them; those of the same edges and class must not
        overlap (check_periods)."""
        self.counts = counts
        groups: defaultdict[tuple[Path, str], list[int]] = defaultdict(list)
        for index in sorted(range(len(counts)), key=lambda index: counts[index].begin):
            groups[tuple(graph.number[name] for name in counts[index].edges), counts[index].kind].append(index)
        self.by_edges: defaultdict[Path, list[list[int]]] = defaultdict(list)  # by edges: of each class, by begin
        for (edges, _), indices in groups.items():
            self.by_edges[edges].append(indices)
        self.sizes = sorted({len(edges) for edges in self.by_edges})

    def counts_along(self, path: Path) -> Iterator[tuple[list[int], int]]:
        """(counts of the same edges and class, by their begins; index in the way of the edge at whose end they are
        counted) for all counted edges that a way passes, and each time that it does."""
        for size in self.sizes:
            for index in range(len(path) - size + 1):
                for indices in self.by_edges.get(path[index : index + size], ()):
                    yield indices, index + max(0, size - 2)

    def shares_in_periods(self, indices: Sequence[int], begin: float, end: float) -> Iterator[tuple[int, float]]:
        """Of some counts of the same edges and class (as `counts_along` gives them) those in whose period vehicles pass
        that go by evenly from one clock to another, for a second at least: (index of the count, share, 0 to 1, of these
        vehicles)."""
        end = max(end, begin + 1)
        for index in indices[bisect_right(indices, begin, key=lambda number: self.counts[number].end) :]:
            count = self.counts[index]
            if count.begin >= end:
                break
            yield index, (min(end, count.end) - max(begin, count.begin)) / (end - begin)


def end_clocks(graph: Graph, table: Table, path: Path, depart: float) -> list[float]:
    """For each edge of a way the clock at which a vehicle that departs at a clock passes its end; table: seconds of
    movements by time."""
    clocks, clock = [], depart
    for way in pairwise((*path, END)):
        clock += table.seconds_at(graph.movement_of[way], clock)
        clocks.append(clock)
    return clocks


def passing_matrix(graph: Graph, ways: Sequence[Way], slices: Slices, by_edges: CountsByEdges, costs: Costs) -> Sparse:
    """A sparse matrix with a row for each count and a column for each way and slice, ways first: the share of the
    vehicles that depart in the slice which pass the count's edges in its period, added up where a way passes them
    again; classes are not told apart. Fault where there are more than 5,000,000 columns."""
    if len(ways) * len(slices) > MOST_UNKNOWNS:
        raise Fault(
            f"{len(ways):,} ways times {len(slices):,} periods are more than {MOST_UNKNOWNS:,} unknowns: fewer --ways, "
            "a smaller --most, or longer periods"
        )
    _, scipy = numpy_and_scipy()
    table, count = Table(costs), len(slices)
    rows: list[int] = []
    columns: list[int] = []
    shares: list[float] = []
    for way_index, way in enumerate(ways):
        along = list(by_edges.counts_along(way.path))
        if not along:
            continue
        clocks = [end_clocks(graph, table, way.path, bound) for bound in slices.bounds]
        for slice_, (sooner, later) in enumerate(pairwise(clocks)):
            for indices, edge in along:
                for row, share in by_edges.shares_in_periods(indices, sooner[edge], later[edge]):
                    rows.append(row)
                    columns.append(way_index * count + slice_)
                    shares.append(share)
    shape = len(by_edges.counts), len(ways) * count
    return scipy.sparse.csr_matrix((shares, (rows, columns)), shape=shape)
