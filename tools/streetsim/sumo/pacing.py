"""How long a vehicle alone takes here: stays in nodes and cells of links by which these seconds are SUMO's."""
from collections import Counter, defaultdict
from collections.abc import Collection, Iterable, Sequence

from streetsim.base import limits
from streetsim.model.freeflow import SLOWEST, seconds_alone
from streetsim.sumo.across import mean_crossing
from streetsim.sumo.crossing import Flows
from streetsim.sumo.links import Link
from streetsim.sumo.net import NetConnection, SumoNet, connections_of
from streetsim.sumo.paces import Paces

# Seconds that one alone loses at a link's end, beside the stay in the node, by the link's limit: steps are whole, and
# the next link begins with its first cell. Found in chains of 5 to 20 links.
AT_LINE = (0.0, 0.25, 0.32, 0.33, 0.45)
MEAN_LINE = AT_LINE[1]
# Shares of its seconds that one loses on a lane for each 100 vehicles an hour on it, by the link's limit, as who is
# slow by chance holds up those behind. Found on streets of 267 cells with 100 to 600 an hour.
HELD_UP = (0.008, 0.0027, 0.0015, 0.001, 0.001)
LEAST_CELLS = 0.6  # of those of its length, that a link has at least
FAR = 60  # cells, in which everybody reaches the speed of its street
# Seconds more than the parts say that one alone loses in SUMO who comes through a ring, as its steps are whole: the
# mean of three ways over lone rings with radii of 16 to 28 m.
THROUGH_RING = 0.55
STANDING = 1  # second in which a vehicle stands that departs


def residences(
    net: SumoNet, nodes: Sequence[str], links: Iterable[Link], given_steps: int | None, dawdle: float, paces: Paces,
    flows: Flows,
) -> list[int]:  # fmt: skip
    """The steps that a vehicle takes in each node, in the order of nodes (names of junctions), limits.RESIDENCE at
    most: as one alone crosses it in SUMO, in the mean of its movements; in a ring so many that its edge and the
    junction behind it take together as long as in SUMO. given_steps: at lights and real junctions in place of that;
    dawdle: the chance, 0 to 1, to go on by a cell less."""
    at_junction, fixed = connections_of(net), real_or_lit(net) if given_steps else set[str]()
    into = {link.end: link for link in links if link.edge in net.roundabouts}
    steps = []
    for at, name in enumerate(nodes):
        connections, seconds = at_junction.get(name, []), 1.0
        if given_steps and name in fixed:
            seconds = given_steps
        elif at in into:
            seconds = seconds_in_ring(into[at], connections, net, paces, flows) - seconds_of_cells(into[at], dawdle)
        elif connections:
            seconds = mean_crossing(connections, net, paces.drivers_on, flows) - MEAN_LINE
        steps.append(min(limits.RESIDENCE, max(1, round(seconds))))
    return steps


def real_or_lit(net: SumoNet) -> set[str]:
    """The junctions with a light, and the real ones: with two edges in and two out at least, five in all."""
    into, out = (Counter(ends) for ends in zip(*((edge.end, edge.begin) for edge in net.edges.values()), strict=True))
    real = {name for name in into if into[name] >= 2 and out[name] >= 2 and into[name] + out[name] >= 5}
    return real | {net.edges[one.source].end for one in net.connections if one.light}


def seconds_in_ring(
    link: Link, at_end: Iterable[NetConnection], net: SumoNet, paces: Paces, flows: Flows
) -> float:  # fmt: skip
    """Mean seconds of one alone in SUMO on a link of a ring and over the junction at its end; at_end: the connections
    there."""
    drivers, own = paces.drivers_on(link.edge), [one for one in at_end if one.source == link.edge]
    crossing = mean_crossing(own, net, paces.drivers_on, flows) if own else 0.0
    return link.metres * drivers.slowness(link.speed) + crossing if link.speed else 0.0


def seconds_of_cells(link: Link, dawdle: float) -> float:
    """Mean seconds of one alone here on a link, with what it loses at its end; dawdle: the chance, 0 to 1, to go on by
    a cell less."""
    return link.cells / max(SLOWEST, link.limit - dawdle) + AT_LINE[link.limit - 1]


def owed_by_rings(
    net: SumoNet, links: Iterable[Link], residences: Sequence[int], dawdle: float, paces: Paces, flows: Flows
) -> dict[str, float]:
    """By edge that leads into a ring the mean seconds that those who come from it take longer on the ring's edges than
    in SUMO, as stays are whole seconds. links: all; residences: by node."""
    ring_of, at_junction = rings_by_edge(net), connections_of(net)
    longer, entering_flow, leaving_flow = (defaultdict[str, float](float) for _ in range(3))
    for (source, target), flow in flows.items():
        leaving_flow[source] += flow
        if target in ring_of and source not in ring_of:
            entering_flow[ring_of[target]] += flow
    for link in links:
        if ring := ring_of.get(link.edge):
            there = seconds_in_ring(link, at_junction.get(net.edges[link.edge].end, ()), net, paces, flows)
            here = seconds_of_cells(link, dawdle) + residences[link.end]
            longer[ring] += (here - there) * leaving_flow[link.edge]
    into = {one.source: ring_of[one.target] for one in net.connections if one.target in ring_of}
    outside = {edge: ring for edge, ring in into.items() if edge not in ring_of and entering_flow[ring]}
    return {edge: longer[ring] / entering_flow[ring] - THROUGH_RING for edge, ring in outside.items()}


def rings_by_edge(net: SumoNet) -> dict[str, str]:
    """By edge of a roundabout the name of one edge that all of its ring have in common."""
    edges_at_node = defaultdict[str, set[str]](set)
    for name in net.roundabouts & net.edges.keys():
        edges_at_node[net.edges[name].begin].add(name)
        edges_at_node[net.edges[name].end].add(name)
    ring_of_edge: dict[str, str] = {}
    for name in sorted(net.roundabouts & net.edges.keys()):
        open_ = [] if name in ring_of_edge else [name]
        while open_:
            edge = open_.pop()
            ring_of_edge[edge] = name
            open_ += (edges_at_node[net.edges[edge].begin] | edges_at_node[net.edges[edge].end]) - ring_of_edge.keys()
    return ring_of_edge


def street_metres(net: SumoNet, flows: Flows) -> dict[str, float]:
    """By edge of one lane the metres of its whole street: of the edges of one lane, in a row and without a light
    between, over which most go on from each to the next, and come from the one before."""
    outgoing, incoming = Counter[str](), Counter[str]()
    for (source, target), flow in flows.items():
        outgoing[source] += flow  # type: ignore[assignment]  # the stubs have whole counts alone
        incoming[target] += flow  # type: ignore[assignment]
    lit = {(one.source, one.target) for one in net.connections if one.light}
    single = {name for name, edge in net.edges.items() if len(edge.lanes) == 1}
    following = {
        source: target
        for (source, target), flow in flows.items()
        if {source, target} <= single
        and (source, target) not in lit
        and flow > 0.5 * max(outgoing[source], incoming[target])
    }
    metres_of_edge: dict[str, float] = {}
    begins = single - set(following.values())
    for first in [*sorted(begins), *sorted(single)]:  # the last are of rings
        street, at = dict.fromkeys(() if first in metres_of_edge else [first]), following.get(first)
        while street and at is not None and at not in street and at not in metres_of_edge:
            street[at], at = None, following.get(at)
        metres_of_edge |= dict.fromkeys(street, sum(net.edges[name].lanes[0].metres for name in street))
    return metres_of_edge


class Pacing:
    """Sets the cells of links so that a vehicle alone takes as long as in SUMO from the begin of an edge over the
    junction at its end, in the mean over those who do."""

    def __init__(
        self, net: SumoNet, links: Iterable[Link], flows: Flows, paces: Paces, residences: Sequence[int], dawdle: float
    ) -> None:
        """links: all; residences: by node; dawdle: the chance, 0 to 1, to go on by a cell less."""
        self.net, self.flows, self.paces = net, flows, paces
        self.residences, self.dawdle = residences, dawdle
        self.owed = owed_by_rings(net, links, residences, dawdle, paces, flows)
        self.into: defaultdict[str, list[NetConnection]] = defaultdict(list)
        for one in net.connections:
            self.into[one.source].append(one)
        self.metres_of_street = street_metres(net, flows)

    def set_cells(self, link: Link, classes: Collection[str] | None) -> None:
        """Sets cells and longer of a link, but in a ring or where nobody moves, with LEAST_CELLS of its length's at
        least. classes: of those who use it, of all who use its edge; None: all do."""
        free = max(SLOWEST, link.limit - self.dawdle)
        if link.edge not in self.net.roundabouts and link.speed:
            wished = self.seconds(link, classes) * free
            link.cells = max(1, round(max(LEAST_CELLS * limits.cells_of_length(link.metres), wished)))
            link.longer = (link.cells - wished) / free

    def seconds(self, link: Link, classes: Collection[str] | None) -> float:
        """The seconds that a vehicle alone is to take in a link's cells; classes: as in set_cells."""
        edge = self.net.edges[link.edge]
        drivers = self.paces.drivers_on(link.edge, None if classes is None else frozenset(classes))
        seconds = link.metres * drivers.slowness(link.speed)
        if sum(lane.closed == link.closed for lane in edge.lanes) == 1:  # nobody overtakes
            whole = self.metres_of_street.get(link.edge, link.metres)
            seconds /= 1 + HELD_UP[link.limit - 1] * 36 * drivers.total / self.paces.seconds
            seconds += link.metres / whole * self.paces.bunching(drivers, whole, link.speed)
        own = [one for one in self.into[link.edge] if one.source_lane in link.lanes] or self.into[link.edge]
        if own:
            crossing = mean_crossing(own, self.net, lambda _: drivers, self.flows)
            seconds += crossing - AT_LINE[link.limit - 1] - self.residences[link.end] - self.owed.get(link.edge, 0.0)
        count, lost = self.paces.at_start(link.edge, link.metres, link.speed, classes)
        if count:
            standing, going = (seconds_alone(FAR, link.limit, self.dawdle, speed) for speed in (0, link.limit))
            seconds += count / drivers.total * (lost - STANDING - (standing - going))
        return seconds
