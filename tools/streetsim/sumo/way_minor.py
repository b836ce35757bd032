"""How long those wait who give way without a light, by the vehicles that go first; for movements that no run has shown
yet."""
import math
from collections.abc import Callable

from streetsim.model.waiting import Gap
from streetsim.sumo.conflicts import gaps_by_movement
from streetsim.sumo.net import SumoNet
from streetsim.sumo.way_graph import Graph

MOST_WAIT = 150.0  # seconds; then one goes
MOST_HOURLY = 3600.0  # vehicles an hour that are reckoned with


class Minor:
    """The movements without a light that give way, by number, with those that go before each."""

    def __init__(self, graph: Graph, net: SumoNet) -> None:
        """graph: of the edges of net, whose connections say who gives way."""
        self.foes: dict[int, list[tuple[int, Gap]]] = {}
        for way, foes in gaps_by_movement(net).items():
            self.foes[number_of(graph, way)] = [(number_of(graph, foe), gap) for foe, gap in foes.items()]

    def wait(self, movement: int, hourly: Callable[[int], float]) -> float:
        """The mean seconds until a gap comes for a movement in traffic that comes at random, MOST_WAIT at most, 0 where
        nobody goes first; hourly: vehicles an hour of a movement, of which MOST_HOURLY count at most."""
        flows = [(min(MOST_HOURLY, hourly(foe)), gap) for foe, gap in self.foes.get(movement, ())]
        every = sum(flow for flow, _ in flows)
        if not every:
            return 0.0
        seconds = sum(flow * gap.seconds_needed(flow, flow, every) for flow, gap in flows) / every
        rate = every / 3600
        return min(MOST_WAIT, math.expm1(min(50.0, rate * seconds)) / rate - seconds)


def number_of(graph: Graph, way: tuple[str, str]) -> int:
    """The number of a movement in the graph; way: (edge, next edge), by their names."""
    edge, following = way
    return graph.movement_of[graph.number[edge], graph.number[following]]
