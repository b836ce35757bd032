"""Which junctions, approaches and movements a map has, and what their signals show."""
from bisect import bisect_right
from collections import defaultdict
from collections.abc import Collection, Iterable, Mapping, Sequence
from dataclasses import dataclass, field
from itertools import accumulate
from math import atan2, degrees
from typing import Any

from streetsim.model.mapping import Map, MapTurn, Place, Shape
from streetsim.model.runs import TimedCommand
from streetsim.model.service import PRIORITY, ROUNDABOUT, SIGNALS
from streetsim.model.waiting import ALWAYS_STOP

STRAIGHT_DEGREES, TURNAROUND_DEGREES = 45, 150  # degrees: less is straight on, more is a turn back


@dataclass(slots=True)
class Approach:
    """The way to a junction: the edge that leads to it, and those before that this edge alone continues."""

    edge: str
    junction: str  # its name, of a roundabout that of its first node
    control: str  # SIGNALS, PRIORITY or ROUNDABOUT
    links: list[int]  # that the edge became
    metres: float  # of its edge
    lanes: list[Place] = field(default_factory=list)  # (link, lane) of its edge
    movements: dict[str, str] = field(default_factory=dict)  # next edge: L, T, R or U
    # Links of each edge before, the nearest first, turning back apart.
    edges_before: list[list[int]] = field(default_factory=list)
    whole_metres: float = 0.0  # metres, with the edges before
    rooms: dict[Place, float] = field(default_factory=dict)  # metres of its lanes, each as far back as it goes

    @property
    def all_links(self) -> list[int]:
        """The links of its edge, then those of the edges before, the nearest first."""
        return [*self.links, *(link for links in self.edges_before for link in links)]


def approaches_of(mapping: Map) -> dict[str, Approach]:
    """The approaches by edge: of junctions with signals, of others with at least two edges in, two out and five in all,
    and of roundabouts, each one junction whose approaches are its entries (and its own edges that lead to a node with
    two in, two out and five in all). Edges from which no turn leads are left out."""
    lit, rings = {node for _, node in mapping.signals}, rings_of(mapping)
    junctions = junction_nodes(mapping)
    approaches = {}
    for edge, links in mapping.links_of.items():
        node = mapping.links[links[0]].end
        in_ring = node in rings and node not in lit
        if node in lit or node in junctions or in_ring and edge not in mapping.rings:
            control = SIGNALS if node in lit else ROUNDABOUT if in_ring else PRIORITY
            name = mapping.nodes[rings[node] if in_ring else node][0]
            metres, lanes = mapping.links[links[0]].metres, mapping.lanes(links)
            approaches[edge] = Approach(edge, name, control, links, metres, lanes)
    for turn in mapping.turns:
        source, target = mapping.links[turn.link], mapping.links[turn.next]
        if source.edge in approaches:
            approaches[source.edge].movements[target.edge] = turn_name(source.shape, target.shape)
    with_turns = {edge: approach for edge, approach in approaches.items() if approach.movements}
    set_edges_before(mapping, with_turns, lit | junctions | rings.keys())
    set_rooms(mapping, with_turns)
    return with_turns


def junction_nodes(mapping: Map) -> set[int]:
    """The nodes with at least two edges in, two out and five in all."""
    ends, begins = defaultdict(set), defaultdict(set)
    for link in mapping.links:
        ends[link.end].add(link.edge)
        begins[link.begin].add(link.edge)
    both = {node for node in ends if len(ends[node]) >= 2 and len(begins[node]) >= 2}
    return {node for node in both if len(ends[node]) + len(begins[node]) >= 5}


def rings_of(mapping: Map) -> dict[int, int]:
    """By node of a roundabout the least number of a node of the same roundabout."""
    least_number: dict[int, int] = {}
    edges = [link for link in mapping.links if link.edge in mapping.rings]
    for link in edges:
        for node in (link.begin, link.end):
            least_number.setdefault(node, node)
    for _ in edges:  # as often as a ring may be long
        for link in edges:
            least_number[link.begin] = least_number[link.end] = min(least_number[link.begin], least_number[link.end])
    return least_number


def set_edges_before(mapping: Map, approaches: Mapping[str, Approach], junctions: Collection[int]) -> None:
    """Sets edges_before and whole_metres of new approaches; the edges go back at most to the next of some junctions
    (nodes)."""
    sources, targets = defaultdict(set), defaultdict(set)
    for turn in mapping.turns:
        source, target = mapping.links[turn.link], mapping.links[turn.next]
        if turn_name(source.shape, target.shape) != "U":
            sources[target.edge].add(source.edge)
            targets[source.edge].add(target.edge)
    for approach in approaches.values():
        edge, passed_edges = approach.edge, {approach.edge}
        approach.whole_metres = approach.metres
        while mapping.links[mapping.links_of[edge][0]].begin not in junctions and len(sources[edge]) == 1:
            (sooner,) = sources[edge]
            if targets[sooner] != {edge} or sooner in passed_edges:
                break
            approach.edges_before.append(mapping.links_of[sooner])
            approach.whole_metres += mapping.links[mapping.links_of[sooner][0]].metres
            edge, passed_edges = sooner, passed_edges | {sooner}


def set_rooms(mapping: Map, approaches: Mapping[str, Approach]) -> None:
    """Sets the rooms of new approaches, whose edges before are set. A lane goes back through these as far as a lane of
    the edge before leads to it alone, or leads to it as the first from the right that goes straight on: the others of
    those are pockets, which end there."""
    leads_to: defaultdict[Place, list[Place]] = defaultdict(list)
    comes_from: defaultdict[Place, list[Place]] = defaultdict(list)
    turns_of: defaultdict[int, list[MapTurn]] = defaultdict(list)
    for turn in mapping.turns:
        if not turn.added:
            turns_of[turn.link].append(turn)
            leads_to[turn.link, turn.lane].append((turn.next, turn.next_lane))
            comes_from[turn.next, turn.next_lane].append((turn.link, turn.lane))
    for approach in approaches.values():
        turns, ways = (turn for link in approach.links for turn in turns_of[link]), approach.movements
        straight = {(turn.link, turn.lane) for turn in turns if ways[mapping.links[turn.next].edge] == "T"}
        before = {link for links in approach.edges_before for link in links}
        for lane_key in approach.lanes:
            place, approach.rooms[lane_key] = lane_key, approach.metres
            while sources := [one for one in comes_from[place] if one[0] in before]:
                beside = {other for source in sources for other in leads_to[source]}
                if place != min(beside, key=lambda one: (one not in straight, one)):
                    break
                place = sources[0]
                approach.rooms[lane_key] += mapping.links[place[0]].metres


def movements_that_stop(mapping: Map) -> set[tuple[str, str]]:
    """The movements (edge, next edge) of those who always have to stop, as at a stop sign."""
    paced = [turn for yielding in mapping.yields if yielding.pace is not None for turn in yielding.turns]
    signed = (pair for one in mapping.open_ways for pair in zip(one.signs, one.ways))
    stopping = [turn for sign, way in signed if sign in ALWAYS_STOP for turn in way]
    return {(mapping.links[link].edge, mapping.links[following].edge) for link, _, following in paced + stopping}


def approaches_cut_short(mapping: Map, approaches: Mapping[str, Approach]) -> list[str]:
    """The edges of approaches to which further edges lead that no table has."""
    before = defaultdict(set)
    for turn in mapping.turns:
        before[mapping.links[turn.next].edge].add(mapping.links[turn.link].edge)
    known = {mapping.links[link].edge for approach in approaches.values() for link in approach.all_links}
    furthest_of = {edge: mapping.links[approach.all_links[-1]].edge for edge, approach in approaches.items()}
    return [edge for edge, furthest in furthest_of.items() if not before[furthest] - {edge} <= known]


def turn_name(source: Shape, target: Shape) -> str:
    """L (left), T (through), R (right) or U (back), by the lines, of two points at least, before and after a
    junction: T below STRAIGHT_DEGREES, U above TURNAROUND_DEGREES."""
    turned = (heading(*target[:2]) - heading(*source[-2:]) + 180) % 360 - 180
    if abs(turned) < STRAIGHT_DEGREES:
        return "T"
    return "U" if abs(turned) > TURNAROUND_DEGREES else "R" if turned > 0 else "L"


def heading(begin: Sequence[float], end: Sequence[float]) -> float:
    """The direction from one point (x, y) to another, degrees clockwise from north, -180 to 180."""
    return degrees(atan2(end[0] - begin[0], end[1] - begin[1]))


class Greens:
    """What the signals of a run show to each lane; steps are clocks at their begin. A node without a light always shows
    green to all."""

    def __init__(self, mapping: Map, signals: Iterable[TimedCommand]) -> None:
        """signals: (clock at which it is sent, command), in any order."""
        self.mapping = mapping
        # By node: (clock from which it holds, command).
        self.plans: dict[int, list[TimedCommand]] = {node: [] for _, node in mapping.signals}
        self.clocks: dict[int, list[int]] = {node: [] for node in self.plans}
        # By the list of a plan's phases, which its command keeps: the ends of these, and by lane what is green in each.
        self.greens_by_plan: dict[int, tuple[list[int], dict[Place, list[frozenset[int]]]]] = {}
        self.add(signals)

    def add(self, signals: Iterable[TimedCommand]) -> None:
        """Adds signals, in any order, none of which is sent before those that are known."""
        for clock, command in sorted(signals, key=lambda pair: pair[0]):
            if command["node"] in self.plans:
                self.plans[command["node"]].append((clock, command))
                self.clocks[command["node"]].append(clock)

    def has_one_plan(self, link: int) -> bool:
        """Whether the light at the end of a link has at most one plan; one that detectors drive has one a phase."""
        return len(self.clocks.get(self.mapping.links[link].end, ())) <= 1

    def green_and_cycle_at(self, link: int, lane: int, step: int) -> tuple[frozenset[int] | None, Any]:
        """(the links to which a lane has green in a step, None for all, as before the first plan; a value that is equal
        for all steps of one cycle, or of one minute where there is no signal)."""
        node = self.mapping.links[link].end
        number = bisect_right(self.clocks.get(node, ()), step) - 1
        if number < 0:
            return None, step // CYCLE
        ends, greens = self.phase_ends_and_greens(number, link, lane)
        cycle, second = divmod(step + self.plans[node][number][1]["offset"], ends[-1])
        return greens[bisect_right(ends, second)], (number, cycle)

    def begin_of(self, link: int, lane: int, step: int) -> int | None:
        """The step in which the green of a lane began that it has in a step; None where it has none then, or has had it
        for CYCLE_MOST steps, since before its first plan, or always. Before clock 0 nothing is green."""
        for back in range(step, step - CYCLE_MOST, -1):
            shown = self.green_and_cycle_at(link, lane, back)[0] if back >= 0 else frozenset()
            if not shown:
                return back + 1 if shown is not None and back < step else None
        return None

    def phase_ends_and_greens(self, number: int, link: int, lane: int) -> tuple[list[int], list[frozenset[int]]]:
        """(by phase of a plan the second of the cycle in which it ends, by phase the links to which a lane has green);
        number: of the plan among those of the node."""
        ends, greens = self.ends_and_greens_of(self.mapping.links[link].end, number)
        return ends, greens.get((link, lane)) or [frozenset()] * len(ends)

    def ends_and_greens_of(self, node: int, number: int) -> tuple[list[int], dict[Place, list[frozenset[int]]]]:
        """What `ends_and_greens` gives of a plan, by its number among those of the node."""
        phases = self.plans[node][number][1]["phases"]
        if id(phases) not in self.greens_by_plan:
            self.greens_by_plan[id(phases)] = ends_and_greens(phases)
        return self.greens_by_plan[id(phases)]


def lanes_that_give_way(mapping: Map, plans: Greens) -> set[Place]:
    """The lanes from which some give way at a light: they have green together with others that go before them."""
    giving_lanes: set[Place] = set()
    for one in mapping.lit_ways:
        shown = (green for _, command in plans.plans.get(one.node, ()) for _, green in command["phases"])
        phases = {frozenset((link, lane, to) for link, lane, to in green) for green in shown}
        for own, foe, _ in one.yields:
            if any(not green.isdisjoint(one.ways[own]) and not green.isdisjoint(one.ways[foe]) for green in phases):
                giving_lanes.update((link, lane) for link, lane, _ in one.ways[own])
    return giving_lanes


def ends_and_greens(phases: Sequence[Sequence[Any]]) -> tuple[list[int], dict[Place, list[frozenset[int]]]]:
    """(by phase the second of the cycle in which it ends, by lane with any green the links that are green in each
    phase) of a plan's phases."""
    green_links: dict[Place, list[set[int]]] = {}
    for number, (_, green) in enumerate(phases):
        for link, lane, following in green:
            if (link, lane) not in green_links:
                green_links[link, lane] = [set() for _ in phases]
            green_links[link, lane][number].add(following)
    ends = list(accumulate(duration for duration, _ in phases))
    return ends, {lane_key: [frozenset(links) for links in by_phase] for lane_key, by_phase in green_links.items()}


CYCLE_MOST = 600  # seconds that a green is looked back for
CYCLE = 60  # seconds by which queues are counted where no signal stands
