"""Candidate ways (routes) of a demand: the shortest by time between entries, exits or zones, several for each pair, and
routes of files. Called where the inputs of streetsim-demand are read (demanding)."""
import random
from collections import Counter, defaultdict
from collections.abc import Iterable, Iterator, Mapping, Sequence
from dataclasses import dataclass, replace
from itertools import pairwise

from streetsim.demand.science import Array, numpy_and_scipy
from streetsim.demand.values import Zone
from streetsim.sumo.net import SumoNet
from streetsim.sumo.router import Path
from streetsim.sumo.way_costs import flat_costs
from streetsim.sumo.way_graph import END, Graph

LONGEST = 1.5  # times the seconds of the shortest way of a pair
SPREAD = 0.25  # of the logarithm of seconds that are drawn to find further ways
DRAWS = 3  # draws of all seconds for each further way
BATCH = 200  # ends from which ways are searched at once


@dataclass(frozen=True, slots=True)
class End:
    """What is expected of an edge or a zone where trips begin or end, before counts are looked at: its weight beside
    others that lie as it does, outside (the network begins or ends there) or within."""

    weight: float = 1.0
    outside: bool = False


@dataclass(frozen=True, slots=True)
class Pair:
    """Where trips begin and end: names of zones or edges, the edges of both by number of the graph with their weights,
    and what is expected of both ends."""

    source: str
    target: str
    sources: Mapping[int, float]
    sinks: Mapping[int, float]
    begins: End = End()
    ends: End = End()


@dataclass(frozen=True, slots=True)
class Way:
    """A way of a pair, by its index among the pairs: edges by number; seconds with the mean waits at signals and
    without other traffic; the share of the pair's vehicles that would take it; seconds without the waits too (driven);
    and the share of the pair's vehicles that has its first and last edge (ends_share). Of a way that files give both of
    these are None: its share stays, whatever the habit of drivers."""

    pair: int
    path: Path
    seconds: float
    share: float
    driven: float | None = None
    ends_share: float | None = None


def entries_and_exits(graph: Graph) -> tuple[list[int], list[int]]:
    """(numbers of the edges that nothing leads to, numbers of those that lead nowhere), but by turning back."""
    back = graph.turns_back
    return (
        [edge for edge, into in enumerate(graph.incoming) if all(back[movement] for _, movement in into)],
        [edge for edge, out in enumerate(graph.outgoing) if all(back[movement] for _, movement in out)],
    )


def pairs_of_edges(graph: Graph, net: SumoNet, everywhere: bool) -> list[Pair]:
    """All pairs of an entry and an exit; of any two edges where the network has no entries or no exits, or where
    `everywhere` says that trips begin and end on any edge. Pairs of an edge with itself, and of two of which one turns
    back to the other, are left out."""
    entries, exits = entries_and_exits(graph)
    begins, ends = (expected_ends(graph, net, outside) for outside in (entries, exits))
    if everywhere or not entries or not exits:
        entries = exits = list(range(len(graph.edges)))
    back = graph.turns_back
    reverse = {way for movement, way in enumerate(graph.movements) if way[1] != END and back[movement]}
    return [
        Pair(graph.edges[source], graph.edges[sink], {source: 1.0}, {sink: 1.0}, begins[source], ends[sink])
        for source in entries for sink in exits
        if source != sink and (source, sink) not in reverse and (sink, source) not in reverse
    ]  # fmt: skip


def expected_ends(graph: Graph, net: SumoNet, outside: Iterable[int]) -> list[End]:
    """For each edge what is expected of it as an end, by the class of its street, which its lanes and limits tell. Of
    one of `outside` (edges by number) the metres a second of its lanes, as main streets lead in and out; of another the
    seconds that its lanes are long, as houses stand along slow streets."""
    outside_edges, lanes = set(outside), [net.edges[name].lanes for name in graph.edges]
    return [
        End(sum(lane.speed for lane in of_edge), True) if edge in outside_edges
        else End(sum(lane.metres / lane.speed for lane in of_edge))
        for edge, of_edge in enumerate(lanes)
    ]  # fmt: skip


def pairs_of_zones(graph: Graph, zones: Mapping[str, Zone], zone_pairs: Iterable[tuple[str, str]]) -> list[Pair]:
    """The pairs of zones that are wanted, (source, target) by name, in their order; edges of weight 0 are left out, so
    that a pair may have none."""

    def numbers(weights: Mapping[str, float]) -> dict[int, float]:
        """{number of an edge: its weight}."""
        return {graph.number[name]: weight for name, weight in weights.items() if weight}

    return [
        Pair(source, target, numbers(zones[source].sources), numbers(zones[target].sinks))
        for source, target in zone_pairs
    ]


def thinned_pairs(pairs: Sequence[Pair], most_each: int, most_ways: int, seed: int) -> tuple[list[Pair], int]:
    """(pairs to search, how many ways from each first to each last edge of a pair: at most `most_each`), so that there
    are about `most_ways` in all. First there are fewer ways of each, as pairs that are left out cost more; where even
    one way of each is too many, a seed draws some pairs. One pair of those given, and one way, are kept at least."""
    count = sum(len(pair.sources) * len(pair.sinks) for pair in pairs)
    number_each = max(1, min(most_each, most_ways // max(1, count)))
    if count <= most_ways:
        return list(pairs), number_each
    drawn = sorted(random.Random(f"pairs {seed}").sample(range(len(pairs)), max(1, most_ways * len(pairs) // count)))
    return [pairs[index] for index in drawn], number_each


@dataclass(frozen=True, slots=True)
class Times:
    """Seconds of each movement without other traffic, and without what turning back costs: with the mean waits at
    signals, and driven, without them."""

    with_waits: Sequence[float]
    driven: Sequence[float]


def ways_between(graph: Graph, pairs: Sequence[Pair], times: Times, most_ways: int, seed: int) -> list[Way]:
    """At most `most_ways` from each first to each last edge of the pairs, with their shares: the shortest by time with
    the waits at signals, then without, and further ones that draws (by the seed) of these seconds find. One that takes
    more than 1.5 times the seconds of the first, both with the waits, is left out. What turning back costs is in all
    seconds."""
    numpy, _ = numpy_and_scipy()
    mean_seconds = [numpy.array(flat_costs(graph, values).means) for values in (times.with_waits, times.driven)]
    paths_by_ends: dict[tuple[int, int], dict[Path, float]] = {}
    targets = ends_wanted(pairs)
    generator = numpy.random.default_rng(seed)
    for draw in range(1 + DRAWS * (most_ways - 1)):
        noise = numpy.exp(SPREAD * generator.standard_normal(len(graph.edges)))
        seconds = mean_seconds[draw % 2]
        drawn = seconds if draw < 2 else seconds * noise[[edge for edge, _ in graph.movements]]
        for origin, target, path in shortest_paths(graph, drawn, targets):
            paths = paths_by_ends.setdefault((origin, target), {})
            if path not in paths and len(paths) < most_ways:
                time = path_seconds(graph, mean_seconds[0], path)
                if not paths or time <= LONGEST * next(iter(paths.values())):
                    paths[path] = time
    ways = [way for index, pair in enumerate(pairs) for way in ways_of_pair(index, pair, paths_by_ends)]
    ways = [replace(way, driven=path_seconds(graph, mean_seconds[1], way.path)) for way in ways]
    shares = shares_by_habit(ways, HABITS[0])
    return [replace(way, share=float(share)) for way, share in zip(ways, shares, strict=True)]


@dataclass(frozen=True, slots=True)
class Habit:
    """How drivers choose between ways: the part, 0 to 1, of the waits at signals that they reckon with; and spread: a
    way that is longer by this part of the shortest one's seconds is taken by a part 1 / e of as many."""

    waits: float
    spread: float


HABITS = [Habit(waits, spread) for waits in (1.0, 0.5, 0.0) for spread in (0.1, 0.05, 0.3)]


def shares_by_habit(ways: Sequence[Way], habit: Habit) -> Array:
    """The share of its pair's vehicles that each way, none of which is of files, has by a habit, as an array in the
    ways' order. A spread of less than a second counts as one."""
    numpy, _ = numpy_and_scipy()
    groups: dict[tuple[int, int, int], int] = {}
    group = numpy.array([groups.setdefault((way.pair, way.path[0], way.path[-1]), len(groups)) for way in ways], int)
    driven = numpy.array([way.driven for way in ways])
    seconds = driven + habit.waits * (numpy.array([way.seconds for way in ways]) - driven)
    least = numpy.full(len(groups), numpy.inf)
    numpy.minimum.at(least, group, seconds)
    parts = numpy.exp(-(seconds - least[group]) / numpy.maximum(1.0, habit.spread * least[group]))
    return numpy.array([way.ends_share for way in ways]) * parts / numpy.bincount(group, parts, len(groups))[group]


def ends_wanted(pairs: Iterable[Pair]) -> dict[int, list[int]]:
    """{edge on which trips begin: edges on which they end, sorted}, by number; an edge is no end of itself."""
    targets: dict[int, set[int]] = {}
    for pair in pairs:
        for source in pair.sources:
            targets.setdefault(source, set()).update(pair.sinks)
    return {source: sorted(sinks - {source}) for source, sinks in sorted(targets.items())}


def shortest_paths(graph: Graph, costs: Array, targets: Mapping[int, Sequence[int]]) -> Iterator[tuple[int, int, Path]]:
    """The shortest path, (origin, target, path), from each edge to those wanted for it, all by number; pairs without a
    path are left out. costs: seconds of each movement, as an array."""
    numpy, scipy = numpy_and_scipy()
    turns = graph.movements[: len(graph.movements) - len(graph.edges)]
    ends = numpy.array(turns, int).reshape(-1, 2)
    size = len(graph.edges)
    table = scipy.sparse.csr_matrix((costs[: len(turns)], (ends[:, 0], ends[:, 1])), shape=(size, size))
    origins = list(targets)
    for start in range(0, len(origins), BATCH):
        batch = origins[start : start + BATCH]
        _, before = scipy.sparse.csgraph.dijkstra(table, indices=batch, return_predecessors=True)
        for origin, row in zip(batch, before.tolist(), strict=True):
            for target in targets[origin]:
                if path := traced_path(row, origin, target):
                    yield origin, target, path


def traced_path(edge_before: Sequence[int], origin: int, target: int) -> Path:
    """The path from origin to target, of the edge before each that a search found (below 0: none); empty where none
    leads there, or both are one edge."""
    path, edge = [target], edge_before[target]
    while edge >= 0:
        path.append(edge)
        edge = edge_before[edge]
    return tuple(reversed(path)) if path[-1] == origin and len(path) > 1 else ()


def path_seconds(graph: Graph, costs: Array, path: Path) -> float:
    """The seconds of a path, the way over its last edge included; costs: of each movement."""
    return float(sum(costs[graph.movement_of[way]] for way in pairwise((*path, END))))


def ways_of_pair(
    pair_index: int, pair: Pair, paths_by_ends: Mapping[tuple[int, int], Mapping[Path, float]]
) -> Iterator[Way]:
    """The ways of a pair, by its index among the pairs, with the share of its vehicles that their ends have
    (ends_share), among those ends alone that some way joins; their shares are still 0, their driven seconds None.
    paths_by_ends: by (first edge, last edge) seconds of each path."""
    ends = {
        (source, sink): weight * sink_weight
        for source, weight in pair.sources.items() for sink, sink_weight in pair.sinks.items()
        if (source, sink) in paths_by_ends
    }  # fmt: skip
    total = sum(ends.values())
    for key, weight in ends.items():
        for path, seconds in paths_by_ends[key].items():
            yield Way(pair_index, path, seconds, 0.0, None, weight / total)


def with_given_routes(
    graph: Graph, pairs: Sequence[Pair], ways: Sequence[Way], routes: Iterable[tuple[str, ...]], free: Sequence[float]
) -> tuple[list[Pair], list[Way]]:
    """(all pairs, all ways) with the routes of files (names of edges, all of the graph) as further candidates; one that
    is a way already is left out. A route belongs to the last pair that has its ends, else to a new pair with these. The
    routes of files have half of their pair's vehicles together, or all where it had no way: each in proportion to how
    often it stands in the files. free: seconds of each movement, without what turning back costs."""
    occurrences = Counter(tuple(graph.number[name] for name in edges) for edges in routes)
    all_pairs, known_paths = list(pairs), {way.path for way in ways}
    pair_of = {
        (source, sink): pair_index
        for pair_index, pair in enumerate(pairs) for source in pair.sources for sink in pair.sinks
    }  # fmt: skip
    routes_of_pair: defaultdict[int, list[tuple[Path, int]]] = defaultdict(list)
    for path, count in occurrences.items():
        ends = path[0], path[-1]
        if ends not in pair_of:
            pair_of[ends] = len(all_pairs)
            all_pairs.append(Pair(graph.edges[ends[0]], graph.edges[ends[1]], {ends[0]: 1.0}, {ends[1]: 1.0}))
        if path not in known_paths:
            routes_of_pair[pair_of[ends]].append((path, count))
    has, costs = {way.pair for way in ways}, flat_costs(graph, free).means
    halved = [replace(way, share=way.share / 2) if way.pair in routes_of_pair else way for way in ways]
    for pair_index, counted_paths in routes_of_pair.items():
        total = sum(count for _, count in counted_paths) * (2 if pair_index in has else 1)
        halved += [
            Way(pair_index, path, path_seconds(graph, costs, path), count / total) for path, count in counted_paths
        ]
    return all_pairs, halved
