"""Which of the parallel links of its edges a vehicle takes: those that cost least by what they carry so far."""
from __future__ import annotations

from collections import Counter, defaultdict
from collections.abc import Container, Iterable, Mapping, Sequence
from dataclasses import dataclass, field
from itertools import pairwise
from types import MappingProxyType

from streetsim.model.waiting import TurnKey
from streetsim.sumo.crossing import EdgePair
from streetsim.sumo.links import Link

MISSING_TURN = 0.5  # what a change between parallel links costs that SUMO has no connection for
WRONG_LANE = 100.0  # the same where others wait for a gap, to that edge or on these lanes
OTHERS_LANE = 0.3  # the same of lanes that are open to more classes than others of the edge, where one may use both
CROWDING = 0.2  # what a link costs each of whose lanes carries as much as its edge's links do on average
MOST_KNOWN = 1 << 16  # routes whose open links and steps are kept
CROWDING_BESIDE = 2.0  # the same where links of an edge lead to a common one and on some of them vehicles wait for gaps


@dataclass(slots=True, eq=False)
class OpenLinks:
    """The links of an edge that are open to a class."""

    edge: str
    # Rising; each with what it costs where it carries as much as its edge's links do on average, and with what it costs
    # more for those whom it is not for.
    links: Sequence[tuple[int, float, float]]
    beside: Sequence[int]  # all links of the edge
    steps: dict[OpenLinks, Step] = field(default_factory=dict)  # to open links of next edges


@dataclass(slots=True, eq=False)
class Step:
    """From the open links of an edge to those of the next one."""

    costs: Sequence[Sequence[float]]  # by link of the next edge, then by link of this one
    changes: bool  # whether any of them is above 0
    vehicles: float  # in how many others' place one counts here
    # Where both edges have two open links, and the next one no others: for each of these its entry of OpenLinks, with
    # twice the cost, and its costs.
    pair: tuple[int, float, float, float, float, int, float, float, float, float] | None = None


class LinkChoice:
    """The costs of links, by the vehicles that they carry so far."""

    def __init__(
        self, links: Sequence[Link], links_of: Mapping[str, Sequence[int]], users: Sequence[frozenset[str] | None],
        connected: Container[EdgePair], waiting: set[EdgePair], turns: Iterable[TurnKey],
    ) -> None:  # fmt: skip
        """links, links_of (by edge), users, waiting, turns: of a Network; connected: which edges lead to which."""
        self.connected = connected
        self.links, self.links_of, self.users, self.waiting = links, links_of, users, waiting
        # The lanes of a link that have a turn to a next link, by both; rising.
        self.lanes_to: defaultdict[tuple[int, int], list[int]] = defaultdict(list)
        for source, lane, behind in sorted(turns):
            self.lanes_to[source, behind].append(lane)
        self.leads = {(link, links[following].edge) for link, _, following in turns}
        targets = Counter((links[link].edge, target) for link, target in self.leads)
        shared = {edge for (edge, _), count in targets.items() if count > 1}  # several links lead to one next edge
        self.unlike = shared & {edge for edge, _ in waiting}
        self.with_waiting = {link for link, target in self.leads if (links[link].edge, target) in waiting}
        self.use: list[float] = [0] * len(links)  # vehicles that a link carries
        # (edge, next edge): in how many others' place a vehicle counts that waits for a gap
        self.weights: Mapping[EdgePair, float] = {}
        # By edges and class what ways_of gives, as routes come again.
        self.known_ways: dict[tuple[tuple[str, ...], str], tuple[list[OpenLinks], list[Step]]] = {}
        # By class, and where it must go over one link this one, then by edge.
        self.open_by_class: defaultdict[tuple[str, int | None], dict[str, OpenLinks]] = defaultdict(dict)

    def ways_of(
        self, edges: Sequence[str], vclass: str, only: Mapping[int, int] = MappingProxyType({})
    ) -> tuple[list[OpenLinks], list[Step]] | None:
        """The links of some edges that are open to a class, and the steps from each edge to the next; None as of
        steps_of. only: the one link over which it must go, by the edge's position."""
        key = tuple(edges), vclass
        if not only and key in self.known_ways:
            return self.known_ways[key]
        ways = self.open_links(edges, vclass)
        for at, link in only.items():
            (ways[at],) = self.open_links([edges[at]], vclass, link)
        if (steps := self.steps_of(ways)) is None:
            return None
        if len(self.known_ways) == MOST_KNOWN:
            self.known_ways.clear()
        if not only:
            self.known_ways[key] = ways, steps
        return ways, steps

    def open_links(self, edges: Iterable[str], vclass: str, only: int | None = None) -> list[OpenLinks]:
        """The links of some edges that are open to a class; only: the one over which it must go, else all of them."""
        by_edge = self.open_by_class[vclass, only]
        for edge in [edge for edge in edges if edge not in by_edge]:
            by_edge[edge] = self.found_links(edge, vclass, only)
        return [by_edge[edge] for edge in edges]

    def found_links(self, edge: str, vclass: str, only: int | None) -> OpenLinks:
        """What open_links gives of an edge."""
        beside, weight = self.links_of[edge], CROWDING_BESIDE if edge in self.unlike else CROWDING
        open_links = [
            (link, weight / len(self.links[link].lanes), 0.0 if users is None or vclass in users else OTHERS_LANE)
            for link in (beside if only is None else [only])
            for users in (self.users[link],)
            if vclass not in self.links[link].closed
        ]
        return OpenLinks(edge, open_links, beside)

    def steps_of(self, ways: Sequence[OpenLinks]) -> list[Step] | None:
        """The steps from each of a vehicle's edges to the next; None where two edges have no connection, or one of them
        no open link."""
        steps = [some.steps.get(following) for some, following in pairwise(ways)]
        if None in steps:
            steps = [step or self.step(*pair) for step, pair in zip(steps, pairwise(ways))]
        connected = [step for step in steps if step is not None]
        return connected if ways[0].links and len(connected) == len(steps) else None

    def step(self, open_links: OpenLinks, following: OpenLinks) -> Step | None:
        """The step from one edge to the next; None where they have no connection, or the next one no open link."""
        pair = open_links.edge, following.edge
        if pair not in self.connected or not following.links:
            return None
        costs = [[self.change_cost(link, to) for link, *_ in open_links.links] for to, *_ in following.links]
        step = open_links.steps[following] = Step(costs, any(map(any, costs)), self.weights.get(pair, 1))
        if len(open_links.links) == len(following.links) == len(following.beside) == 2:
            (link, cost, extra), (other, other_cost, other_extra) = following.links
            (own_change, from_other), (to_other, other_change) = costs
            of_link = link, 2 * cost, extra, own_change, from_other
            step.pair = *of_link, other, 2 * other_cost, other_extra, to_other, other_change
        return step

    def forget_steps(self, edge: str, next_edge: str) -> None:
        """Forgets what steps between two edges cost, between which there are new turns."""
        self.known_ways.clear()
        by_class = self.open_by_class.values()
        for open_links in filter(None, [by_edge.get(edge) for by_edge in by_class]):
            for following in filter(None, [by_edge.get(next_edge) for by_edge in by_class]):
                open_links.steps.pop(following, None)

    def change_cost(self, link: int, following: int) -> float:
        """The cost of going from a link to a next one to which it has no turn; 0 where it has one, added or not."""
        if (link, following) in self.lanes_to:
            return 0.0
        edge, target = self.links[link].edge, self.links[following].edge
        waits = (edge, target) in self.waiting or link in self.with_waiting
        return WRONG_LANE if waits and (link, target) not in self.leads else MISSING_TURN

    def cheapest(self, ways: Sequence[OpenLinks], steps: Sequence[Step]) -> tuple[int, ...]:
        """The links of least cost, one for each of a vehicle's edges; of equal ones the first in order. What a link
        costs is what each of its lanes carries so far, against the mean of its edge's links, and more where it is open
        to more classes than others of the edge. steps: of `ways`."""
        if all([len(edge_links.links) == 1 for edge_links in ways]):
            return tuple([edge_links.links[0][0] for edge_links in ways])
        use = self.use
        costs, orders, places = self.next_costs(ways[0], [[0.0]] * len(ways[0].links), (0.0,), (0,))
        places_before = [places]  # by edge and link the place of the best link of the edge before
        for edge_links, step in zip(ways[1:], steps):
            if step.pair is None:
                costs, orders, places = self.next_costs(edge_links, step.costs, costs, orders)
                places_before.append(places)
                continue
            # As next_costs does it, without loops: most edges of towns have two links.
            link, own, extra, change, from_other, other, other_own, other_extra, to_other, other_change = step.pair
            if total := use[link] + use[other]:
                extra += own * use[link] / total
                other_extra += other_own * use[other] / total
            (first, second), (order, second_order) = costs, orders
            place = other_place = 0
            cost, by_second = first + extra + change, second + extra + from_other
            if by_second < cost or by_second == cost and second_order < order:
                cost, place = by_second, 1
            other_cost, by_second = first + other_extra + to_other, second + other_extra + other_change
            if by_second < other_cost or by_second == other_cost and second_order < order:
                other_cost, other_place = by_second, 1
            costs, places = (cost, other_cost), (place, other_place)
            orders = (0, 1) if place == other_place else (orders[place], orders[other_place])
            places_before.append(places)
        best = min(range(len(costs)), key=lambda place: (costs[place], orders[place]))
        return links_back(ways, places_before, best)

    def next_costs(
        self, edge_links: OpenLinks, changes: Sequence[Sequence[float]], costs: Sequence[float], orders: Sequence[int]
    ) -> tuple[Sequence[float], Sequence[int], Sequence[int]]:
        """For each of an edge's links the least cost of a way that ends there, by the links of the edge before; numbers
        by which these ways are in order; and the place of the link before. changes: as the costs of a step; costs,
        orders: the same of the edge before."""
        use, count = self.use, len(edge_links.beside)
        total = sum([use[link] for link in edge_links.beside])
        costs_here: list[float] = []
        orders_here: list[int] = []
        places: list[int] = []
        for (link, own, extra), changes_to in zip(edge_links.links, changes):
            if total:
                extra += own * use[link] * count / total
            cost, place = costs[0] + extra + changes_to[0], 0
            for at in range(1, len(costs)):
                other = costs[at] + extra + changes_to[at]
                if other < cost or other == cost and orders[at] < orders[place]:
                    cost, place = other, at
            costs_here.append(cost)
            orders_here.append(len(edge_links.links) * orders[place] + len(places))
            places.append(place)
        return costs_here, orders_here, places


def links_back(ways: Sequence[OpenLinks], places_before: Sequence[Sequence[int]], last: int) -> tuple[int, ...]:
    """The links of a plan, by the place of its last link among those of its edge. places_before: by edge and link the
    place of the link before it."""
    plan, place = [], last
    for edge_links, places in zip(reversed(ways), reversed(places_before)):
        plan.append(edge_links.links[place][0])
        place = places[place]
    return tuple(plan[::-1])
