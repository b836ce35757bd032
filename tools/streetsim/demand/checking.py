"""Checks counts against the network (edges, connections, periods) and against each other (contradictions). Each Fault
names the line of the file."""
from collections import defaultdict
from collections.abc import Iterable, Iterator, Mapping, Sequence, Set
from difflib import get_close_matches
from itertools import pairwise
from typing import NamedTuple

from streetsim.base.files import Fault
from streetsim.base.report import first_few
from streetsim.demand.values import Count, overlapping_pairs
from streetsim.sumo.net import SumoNet
from streetsim.sumo.way_graph import Graph

APART = 0.1  # of the larger of two numbers that should be equal
LEAST_APART = 10.0  # vehicles: less is chance
MOST_LINES = 4  # of a file, that are named
MOST_A_LANE = 3600.0  # vehicles an hour: one a second

Key = tuple[int, int, str]  # begin and end in seconds, class


class Contradiction(NamedTuple):
    """Two numbers of vehicles in one period (begin and end in seconds) that should be about equal, and the lines of
    files that tell them. street: an edge or a junction, in words."""

    street: str
    begin: int
    end: int
    template: str  # what each number is, with {} for both
    first: float
    second: float
    location: str  # files and lines, as `locations_of` has them

    def line(self) -> str:
        """The contradiction in one line, with the lines of files that tell the numbers."""
        what = self.template.format(f"{self.first:g}", f"{self.second:g}")
        return f"{self.street}, {self.begin:,} to {self.end:,} s: {what} ({self.location})"


def check_edges(names: Iterable[str], location: str, net: SumoNet) -> None:
    """Fault, with where they stand, for names of edges that the network does not have, or on which none of the classes
    may drive."""
    for name in names:
        if name in net.edges:
            continue
        if name in net.dropped:
            raise Fault(f"{location}: edge {name!r} has no lane for the classes (--classes)")
        near = get_close_matches(name, net.edges, 1)
        raise Fault(f"{location}: the network has no edge {name!r}{f': {near[0]!r}?' if near else ''}")


def check_counts(counts: Sequence[Count], net: SumoNet, graph: Graph) -> None:
    """Fault for counts of edges or turns that the network does not have, of the same edges and class whose periods
    overlap, of more than a vehicle a second and lane of the edge with the fewest (and one vehicle beyond); and where
    all are 0. counts: one at least."""
    for count in counts:
        check_edges(count.edges, count.location, net)
        for source, target in pairwise(count.edges):
            if (graph.number[source], graph.number[target]) not in graph.movement_of:
                raise Fault(f"{count.location}: no connection leads from edge {source!r} to edge {target!r}")
        lanes = min(len(net.edges[edge].lanes) for edge in count.edges)
        if count.vehicles > MOST_A_LANE * lanes * count.hours + 1:
            vehicles = f"{count.vehicles:,.0f} vehicles in {count.end - count.begin:,} s"
            raise Fault(f"{count.location}: {vehicles} are more than one a second and lane")
    check_periods(counts)
    if not any(count.vehicles for count in counts):
        raise Fault(f"{counts[0].location} and {len(counts) - 1:,} more: all counts are 0")


def check_periods(counts: Sequence[Count]) -> None:
    """Fault for two counts of the same edges and class whose periods overlap."""
    for first, second in overlapping_pairs(counts, lambda count: (count.edges, count.kind)):
        same_period = (first.begin, first.end) == (second.begin, second.end)
        how = "counted a second time in this period" if same_period else f"counted already until {first.end:,} s"
        raise Fault(f"{second.location}: {second.edge_names()} is {how} (as {first.location})")


def contradictions(counts: Sequence[Count], graph: Graph, begins: Set[int], ends: Set[int]) -> list[Contradiction]:
    """Pairs of numbers, of one period and class, that should be equal and differ by more than a tenth (of the larger)
    and ten vehicles: of an edge its count, all its turns, and all turns into it; of a junction all that comes in and
    all that goes out; each as far as all of it is counted. begins, ends: numbers of edges on which trips begin, and
    end, where they may well differ."""
    sums: defaultdict[Key, dict[tuple[str, ...], Count]] = defaultdict(dict)
    for count in counts:
        sums[count.begin, count.end, count.kind][count.edges] = count
    found_pairs = []
    for (begin, end, _), by_edges in sums.items():
        sides = *sides_of_edges(by_edges, graph, begins, ends), *sides_of_junctions(by_edges, graph, begins, ends)
        for street, text, first, second in sides:
            first_sum, second_sum = sum(count.vehicles for count in first), sum(count.vehicles for count in second)
            if abs(first_sum - second_sum) > max(LEAST_APART, APART * max(first_sum, second_sum)):
                lines = locations_of([*first, *second])
                found_pairs.append(Contradiction(street, begin, end, text, first_sum, second_sum, lines))
    return found_pairs


Sides = tuple[str, str, list[Count], list[Count]]  # street, words with two {}, and counts whose sums should be equal
CountByEdges = Mapping[tuple[str, ...], Count]  # the counts of one period and class, by edges


def sides_of_edges(by_edges: CountByEdges, graph: Graph, begins: Set[int], ends: Set[int]) -> Iterator[Sides]:
    """Of each edge what should be equal: its count and all its turns, its count and all turns into it, or these two
    where it has no count; as far as all of a side are counted. begins, ends: as `contradictions` has them."""
    for edge, name in enumerate(graph.edges):
        turns_out = counts_of_all(by_edges, ((name, graph.edges[following]) for following, _ in graph.outgoing[edge]))
        into = counts_of_all(by_edges, ((graph.edges[before], name) for before, _ in graph.incoming[edge]))
        whole = [by_edges[(name,)]] if (name,) in by_edges else []
        if whole and turns_out and edge not in ends:
            yield f"edge {name}", "{} counted on it, {} turn at its end", whole, turns_out
        if whole and into and edge not in begins:
            yield f"edge {name}", "{} counted on it, {} turn into it", whole, into
        if into and turns_out and not whole and edge not in begins and edge not in ends:
            yield f"edge {name}", "{} turn into it, {} turn at its end", into, turns_out


def sides_of_junctions(by_edges: CountByEdges, graph: Graph, begins: Set[int], ends: Set[int]) -> Iterator[Sides]:
    """Of junctions all of whose edges are counted (by themselves, not by turns) what comes in and what goes out; those
    where trips end on an edge that comes in, or begin on one that goes out (ends, begins), are left out. A junction is
    known by the edges that lead to the same ones."""
    known_sources = set()
    for edge in range(len(graph.edges)):
        targets = {following for following, _ in graph.outgoing[edge]}
        sources = {before for target in targets for before, _ in graph.incoming[target]}
        targets = {following for source in sources for following, _ in graph.outgoing[source]}
        key = frozenset(sources)
        if not targets or key in known_sources or sources & ends or targets & begins:
            continue
        known_sources.add(key)
        names = (((graph.edges[number],) for number in sorted(edges)) for edges in (sources, targets))
        first, second = (counts_of_all(by_edges, edges) for edges in names)
        if first and second:
            yield f"junction of {graph.edges[min(sources)]}", "{} come in, {} go out", first, second


def counts_of_all(by_edges: CountByEdges, keys: Iterable[tuple[str, ...]]) -> list[Count]:
    """The counts of some keys, edges each; empty where one of them has no count, or there are none."""
    key_list = list(keys)
    return [by_edges[key] for key in key_list] if all(key in by_edges for key in key_list) else []


def locations_of(counts: Sequence[Count]) -> str:
    """Where some counts stand: each file once, with at most four of its lines and how many further ones there are."""
    lines_of: defaultdict[str, list[str]] = defaultdict(list)
    for count in counts:
        path, _, line = count.location.rpartition(": line ")
        lines_of[path].append(line)
    return "; ".join(
        f"{path}: line{'s' * (len(lines) > 1)} {first_few(lines, MOST_LINES)}" for path, lines in lines_of.items()
    )
