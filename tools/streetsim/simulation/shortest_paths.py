"""Shortest paths between edges in a session, by the travel times at its clock or by metres."""
from functools import cached_property
from math import inf
from operator import itemgetter

from streetsim.kernel.loop import Kernel
from streetsim.model.inside import Inside
from streetsim.simulation.errors import TraCIException
from streetsim.simulation.street_facts import Facts
from streetsim.simulation.view import View
from streetsim.sumo.router import Router
from streetsim.sumo.way_costs import Costs, flat_costs
from streetsim.sumo.way_graph import END, Graph

SLOWEST = 0.1  # metres a second that an edge counts with where all stand


class ShortestPaths:
    """Shortest ways over the links of a simulation's map, by the turns that its run has; no turn is added. Where an
    edge has parallel links, a way may begin and end on any of them."""

    def __init__(self, kernel: Kernel, inside: Inside, view: View, facts: Facts) -> None:
        """inside: metres inside junctions; view: whose speeds give the seconds; facts: with the limits of lanes."""
        self.kernel, self.map, self.facts = kernel, kernel.map, facts
        self.inside, self.view = inside, view
        self.adapted: dict[str, float] = {}  # seconds that a script has set, by edge
        self.at_clock: tuple[int, Router] | None = None  # a clock, and the search by its travel times

    @cached_property
    def graph(self) -> Graph:
        """The map's links and turns."""
        names = {str(number): (str(link.begin), str(link.end)) for number, link in enumerate(self.map.links)}
        return Graph(names, ((str(turn.link), str(turn.next)) for turn in self.map.turns), names)

    @cached_property
    def by_metres(self) -> Router:
        """The search by the metres of links and of the junctions between."""
        links, inside = self.map.links, self.inside
        inner = ((link, 0.0 if to == END else inside.metres(link, None, to)) for link, to in self.graph.movements)
        return Router(self.graph, Costs(inf, 1, [links[link].metres + metres for link, metres in inner]))

    def set_edge_seconds(self, edge: str, seconds: float | None) -> None:
        """Sets the seconds with which an edge counts; None: those of its traffic again."""
        if seconds is None:
            self.adapted.pop(edge, None)
        else:
            self.adapted[edge] = float(seconds)
        self.at_clock = None

    def quickest_path(self, origin: str, target: str) -> tuple[tuple[int, ...], float]:
        """(links of the quickest way from an edge to another, both whole, by the travel times at the clock; its
        seconds); TraCIException where there is none, or an edge is unknown."""
        clock, links_of = self.kernel.clock, self.map.links_of
        if unknown := [edge for edge in (origin, target) if edge not in links_of]:
            raise TraCIException(f"Edge '{unknown[0]}' is not known.")
        if self.at_clock is None or self.at_clock[0] != clock:
            costs = {edge: self.edge_seconds(edge) for edge in links_of}
            of_link = [costs[link.edge] for link in self.map.links]
            movement_seconds = flat_costs(self.graph, [of_link[link] for link, _ in self.graph.movements])
            self.at_clock = clock, Router(self.graph, movement_seconds)
        pairs = ((first_link, last_link) for last_link in links_of[target] for first_link in links_of[origin])
        path, least = min((self.at_clock[1].search(*pair, 0.0) for pair in pairs), key=itemgetter(1))
        if not path:
            raise TraCIException(f"No way from edge '{origin}' to edge '{target}'.")
        return path, least

    def shortest_metres(self, origin: str, target: str) -> float:
        """Metres of the shortest way from an edge to another, both whole, with the junctions between; from an edge to
        itself of the way round. TraCIException where there is none, KeyError for an unknown edge."""
        links_of, router = self.map.links_of, self.by_metres
        begins = [(0.0, link) for link in links_of[origin]]
        if origin == target:
            begins = [
                (router.least_seconds[movement], after)
                for _, link in begins
                for after, movement in self.graph.outgoing[link]
            ]
        ends = [(metres, router.search(link, end, 0.0)) for metres, link in begins for end in links_of[target]]
        metres_of_paths = [metres + least for metres, (path, least) in ends if path]
        if not metres_of_paths:
            raise TraCIException(f"No way from edge '{origin}' to edge '{target}'.")
        return min(metres_of_paths)

    def edge_seconds(self, edge: str) -> float:
        """The seconds of an edge: those that a script set, else by the mean speed of the vehicles on it, SLOWEST at
        least, or its limit where it is empty; KeyError for an unknown edge."""
        if edge in self.adapted:
            return self.adapted[edge]
        view, lanes = self.view, self.map.lanes(self.map.links_of[edge])
        positions = [view.positions[number] for lane in lanes for number in view.on_lane(lane)]
        speeds = [position.metres_a_second(self.map.links) for position in positions]
        limit = self.facts.lanes[self.map.lane_name(*lanes[0])].speed
        mean = sum(speeds) / len(speeds) if speeds else limit
        return self.map.links[lanes[0][0]].metres / max(SLOWEST, mean)
