"""Draws the way of each vehicle by turn ratios, turn by turn until a sink, as SUMO's jtrrouter does. For streetsim-
demand --flows and --ratios."""
import random
from bisect import bisect_left, bisect_right
from collections import defaultdict
from collections.abc import Iterator, Sequence
from itertools import accumulate, pairwise

from streetsim.base import limits
from streetsim.base.files import Fault
from streetsim.demand.checking import check_edges
from streetsim.demand.values import Inflow, Ratio
from streetsim.sumo.net import SumoNet
from streetsim.sumo.router import Path
from streetsim.sumo.way_graph import Graph

Turning = tuple[list[int], list[float]]  # next edges, and their weights added up


class Turns:
    """By edge and time the next edges with their weights, and the edges at which ways end."""

    def __init__(self, ratios: Sequence[Ratio], sinks: set[str], net: SumoNet, graph: Graph) -> None:
        """ratios: of several for one turn and time the last holds; sinks: names of edges at which ways end. Fault
        where the network lacks an edge or a connection that is named."""
        by_source: defaultdict[int, list[Ratio]] = defaultdict(list)
        for ratio in ratios:
            check_edges([ratio.source, ratio.target], ratio.location, net)
            if (graph.number[ratio.source], graph.number[ratio.target]) not in graph.movement_of:
                ends = f"from edge {ratio.source!r} to edge {ratio.target!r}"
                raise Fault(f"{ratio.location}: no connection leads {ends}")
            by_source[graph.number[ratio.source]].append(ratio)
        check_edges(sinks, "<sink>", net)
        self.graph, self.sinks = graph, {graph.number[name] for name in sinks}
        self.by_edge: defaultdict[int, list[tuple[int, int, Turning]]] = defaultdict(list)
        for source, group in by_source.items():
            bounds = sorted({bound for ratio in group for bound in (ratio.begin, ratio.end)})
            weights: list[dict[int, float]] = [{} for _ in bounds]
            for ratio in group:
                for targets in weights[bisect_left(bounds, ratio.begin) : bisect_left(bounds, ratio.end)]:
                    targets[graph.number[ratio.target]] = ratio.weight
            self.by_edge[source] = [
                (begin, end, (list(targets), list(accumulate(targets.values()))))
                for (begin, end), targets in zip(pairwise(bounds), weights) if targets
            ]  # fmt: skip

    def next_edge(self, edge: int, clock: float, draws: random.Random) -> int | None:
        """The edge on which a vehicle goes on from an edge at a clock, drawn by the weights; none at a sink, where all
        weights that hold are 0, or where no ratio holds and nothing leads on but back. Fault where several edges follow
        and no ratio holds."""
        if edge in self.sinks:
            return None
        held = next((turning for begin, end, turning in self.by_edge[edge] if begin <= clock < end), None)
        if held is not None:
            following, sums = held
            return following[bisect_right(sums, draws.random() * sums[-1])] if sums[-1] else None
        targets = [target for target, movement in self.graph.outgoing[edge] if not self.graph.turns_back[movement]]
        if len(targets) > 1:
            raise Fault(
                f"edge {self.graph.edges[edge]!r} leads to {len(targets)} others, and no turn ratio holds there at "
                f"{clock:,.0f} s: give one, or name it as <sink edges=..>"
            )
        return targets[0] if targets else None


def walks_of(
    inflows: Sequence[Inflow], turns: Turns, seconds: Sequence[float], net: SumoNet, seed: int
) -> Iterator[tuple[float, Path]]:
    """The vehicles of flows, (departure in seconds, way by numbers of edges), flow by flow. Fault where a way has more
    edges than a plan may, the network lacks the edge of a flow, or no ratio holds where several edges follow. seconds:
    of each movement, by which it is known which ratio holds; seed: of the draws."""
    graph, draws = turns.graph, random.Random(f"ratios {seed}")
    for flow in inflows:
        check_edges([flow.edge], flow.location, net)
        for depart in flow.departs:
            path, clock = [graph.number[flow.edge]], depart
            while (following := turns.next_edge(path[-1], clock, draws)) is not None:
                clock += seconds[graph.movement_of[path[-1], following]]
                path.append(following)
                if len(path) > limits.PLAN:
                    raise Fault(f"{flow.location}: after {limits.PLAN:,} turns by the ratios no sink is reached")
            yield depart, tuple(path)
