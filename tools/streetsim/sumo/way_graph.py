"""A network as a router sees it: edges and movements by number."""
from collections.abc import Iterable

from streetsim.model.mapping import Map
from streetsim.sumo.net import SumoNet

END = -1  # stands for the next edge of a movement that ends a trip


class Graph:
    """A network as a router sees it; edges go by number. A movement is a way from an edge to a next one, where the
    network has a connection, or to END, where a trip ends on the edge; those of END stand last."""

    def __init__(self, edges: Iterable[str], ways: Iterable[tuple[str, str]], ends: dict[str, tuple[str, str]]) -> None:
        """edges: names; ways: (edge, next edge), by names, of which each counts once; ends: for each edge the junctions
        where it begins and ends, by which it is known who turns back."""
        self.edges = list(edges)
        self.number = {name: index for index, name in enumerate(self.edges)}
        found = dict.fromkeys((self.number[edge], self.number[following]) for edge, following in ways)
        self.movements = [*found, *((edge, END) for edge in range(len(self.edges)))]
        self.movement_of = {way: index for index, way in enumerate(self.movements)}
        self.outgoing: list[list[tuple[int, int]]] = [[] for _ in self.edges]  # (next edge, movement)
        self.incoming: list[list[tuple[int, int]]] = [[] for _ in self.edges]  # (edge before, movement)
        for movement, (edge, following) in enumerate(found):
            self.outgoing[edge].append((following, movement))
            self.incoming[following].append((edge, movement))
        self.turns_back = [
            following != END and ends[self.edges[edge]] == ends[self.edges[following]][::-1]
            for edge, following in self.movements
        ]

    def names(self, path: Iterable[int]) -> tuple[str, ...]:
        """The names of the edges of a path, which has their numbers."""
        return tuple(self.edges[edge] for edge in path)


def graph_of_net(net: SumoNet) -> Graph:
    """The graph of the edges of a SUMO network, by the connections of its kept lanes."""
    ways = ((one.source, one.target) for one in net.connections)
    return Graph(net.edges, ways, {name: (edge.begin, edge.end) for name, edge in net.edges.items()})


def graph_of_map(mapping: Map) -> Graph:
    """The graph of the edges of a run's map, by its turns, those that the import added too."""
    links = mapping.links
    ways = ((links[turn.link].edge, links[turn.next].edge) for turn in mapping.turns)
    return Graph(mapping.links_of, ways, {link.edge: (str(link.begin), str(link.end)) for link in links})
