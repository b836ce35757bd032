"""Makes one run of a demand: when its vehicles passed the counts, and how long movements took. The corrections by runs
(correcting) call it."""
from collections.abc import Sequence
from dataclasses import dataclass

from streetsim.demand.passing import CountsByEdges
from streetsim.search.route_loading import LoadedRun
from streetsim.search.route_watching import RunGround, run_with_gaps, seen_run
from streetsim.sumo.router import Path
from streetsim.sumo.way_costs import Observed
from streetsim.sumo.way_graph import Graph


@dataclass(frozen=True, slots=True)
class Ran:
    """What one run gave. exit_clocks: for each vehicle the clocks at which it left each edge of its way, as far as it
    came; arrivals: the clocks, none where it did not arrive; observed: seconds of movements by time; rescues: how many
    in all, also of one vehicle again; most_waiting: the most vehicles that waited to enter at once, and the clock;
    at_works: what speaks against the run, by what was seen before its works."""

    exit_clocks: list[list[int]]
    arrivals: list[int | None]
    observed: Observed
    rescues: int
    most_waiting: tuple[int, int]
    at_works: tuple[str, ...]


def run_demand(ground: RunGround, loaded: LoadedRun, seed: int) -> Ran:
    """Makes one run of a demand, after rounds of giving way as streetsim-run makes them; Fault where the program
    refuses one of them or ends before."""
    run = run_with_gaps(ground, loaded.run, loaded.mapping, seed)
    observed_run = seen_run(ground, run, loaded.mapping, seed, False)
    pairs = zip(observed_run.clocks, observed_run.arrivals, strict=True)
    exit_clocks = [[*clocks[1:], *([end] if end is not None else [])] for clocks, end in pairs]
    waiting, at_works = observed_run.most_waiting, observed_run.at_works
    return Ran(exit_clocks, observed_run.arrivals, observed_run.observed, observed_run.rescues, waiting, at_works)


def passed_by_count(
    by_edges: CountsByEdges, paths: Sequence[Path], kinds: Sequence[str], exit_clocks: Sequence[Sequence[float]]
) -> list[int]:
    """How many vehicles passed in each count's period (its end belongs to it, its begin does not), of its class, in the
    counts' order. paths, kinds, exit_clocks: the way, class and clocks (of leaving each edge) of each vehicle."""
    passed_counts = [0] * len(by_edges.counts)
    for path, kind, clocks in zip(paths, kinds, exit_clocks, strict=True):
        for indices, edge in by_edges.counts_along(path):
            if edge < len(clocks):
                for index in indices:
                    count = by_edges.counts[index]
                    passed_counts[index] += count.begin < clocks[edge] <= count.end and count.kind in ("", kind)
    return passed_counts


def movement_delays(graph: Graph, observed: Observed, free: Sequence[float]) -> list[float]:
    """For each movement how many seconds it took on the mean in the slowest of the slices of time of `observed`, beyond
    the free ones (less than 0 where it was quicker); 0 where nobody was seen. free: seconds of each movement."""
    delays = []
    for movement in range(len(graph.movements)):
        base = movement * observed.slices
        shown = (index for index in range(base, base + observed.slices) if observed.counts[index])
        means = [observed.seconds[index] / observed.counts[index] for index in shown]
        delays.append(max(means, default=free[movement]) - free[movement])
    return delays
