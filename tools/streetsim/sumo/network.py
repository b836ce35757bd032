"""Makes streetsim's nodes, links and turns of a SUMO network."""
from collections import Counter, defaultdict
from collections.abc import Callable, Iterable, Iterator, Mapping, Sequence
from dataclasses import dataclass, replace
from itertools import pairwise
from types import MappingProxyType

from streetsim.base import limits
from streetsim.base.files import Fault, Json
from streetsim.base.report import Report, first_few
from streetsim.model.fullness import Fullness
from streetsim.model.runs import Command
from streetsim.model.reserved import ReservedLanes
from streetsim.model.starting import SlowStarts
from streetsim.model.stops import Visit
from streetsim.model.waiting import GivingWay, NodeWays, TurnKey
from streetsim.sumo.bundles import LaneKey, bundles_of, closing_lanes, next_edges
from streetsim.sumo.crossing import Flows
from streetsim.sumo.driver_words import factor_of, refuse_unknown_edges, refuse_unknown_streets
from streetsim.sumo.import_options import Options
from streetsim.sumo.link_choice import LinkChoice
from streetsim.sumo.links import Link, link_of
from streetsim.sumo.net import FREE, MAJOR, NetConnection, NetEdge, SumoNet
from streetsim.sumo.paces import Drivers, Paces
from streetsim.sumo.pacing import Pacing, residences


@dataclass(slots=True)
class Turn:
    """What a turn from a lane of a link to a next link has; added: SUMO has no connection for it."""

    next_lane: int
    light: str | None
    index: int
    added: bool
    speed: float  # metres a second, inside the junction if that is known
    limit: int  # of its link, cells a step
    accel: float = 2.6  # metres a second and second of usual cars that start as its vehicles do, in the mean
    apart: float = 0.0  # seconds more between two of its queue than between usual cars
    inside: float = 0.0  # metres of the lanes in the junction


class Network:
    """Nodes, links and turns in the making; links and nodes go by number, their position in the load."""

    def __init__(
        self, net: SumoNet, options: Options, report: Report, flows: Flows, paces: Paces | None = None
    ) -> None:
        """flows: vehicles an hour by (edge, next edge); empty where no route is known. What is made otherwise than in
        SUMO is reported; Fault where a junction is absent, or closing_lanes raises one."""
        self.paces = paces or Paces()
        self.options, self.detectors, self.closed_lanes = options, net.detectors, net.closed_lanes
        dawdle = options.dawdle / 1000
        refuse_unknown_streets(options.speeds, (lane.speed for edge in net.edges.values() for lane in edge.lanes))
        refuse_unknown_edges(options.shares, net.edges)
        edges = edges_by_priority(net)
        ends = {name for edge in edges for name in (edge.begin, edge.end)}
        self.nodes = [name for name in net.junctions if name in ends]
        number = {name: position for position, name in enumerate(self.nodes)}
        if len(number) < len(ends):
            raise Fault(f"the network has no junction {min(ends - number.keys())!r}, where an edge begins or ends")
        self.points = [net.junctions[name] for name in self.nodes]
        self.location = net.location
        self.names = names_of(net, edges, self.nodes)
        self.links: list[Link] = []
        self.links_of: dict[str, list[int]] = {}
        self.place_of: dict[LaneKey, tuple[int, int]] = {}  # link and lane
        following, waiting = next_edges(net, flows)
        self.closing = closing_lanes(net, (*options.joint, *options.led))
        bundles = bundles_of(edges, following, waiting, closing_lanes(net, options.joint), report)
        for edge in edges:
            self.links_of[edge.name] = list(range(len(self.links), len(self.links) + len(bundles[edge.name])))
            for lanes in bundles[edge.name]:
                self.place_of |= {(edge.name, lane.index): (len(self.links), index) for index, lane in enumerate(lanes)}
                self.links.append(link_of(edge, lanes, number, dawdle, edge.name in net.roundabouts))
        self.users = [self.users_of(link) for link in range(len(self.links))]
        self.turns: dict[TurnKey, Turn] = {}
        # (edge, next edge) to which a signal lets go only when there is a gap.
        self.waiting = {(edge, target) for (edge, _), targets in waiting.items() for target in targets}
        # By (edge, next edge).
        self.connections_between: defaultdict[tuple[str, str], list[NetConnection]] = defaultdict(list)
        self.add_connections(net, report)
        if not options.strict_turns:
            self.open_both_lanes(report)
        self.choice = LinkChoice(
            self.links, self.links_of, self.users, self.connections_between, self.waiting, self.turns
        )
        self.residences = residences(net, self.nodes, self.links, options.residence, dawdle, self.paces, flows)
        pacing = Pacing(net, self.links, flows, self.paces, self.residences, dawdle)
        for link, users in zip(self.links, self.users, strict=True):
            pacing.set_cells(link, users)
            link.cells = max(1, round(link.cells / factor_of(options.speeds, link.speed)))
        self.buffers = buffer_sizes(self.links, self.residences, options)
        self.joined: set[tuple[int, int]] = set()
        self.yields: list[GivingWay] = []
        self.last_depart = options.begin  # departure
        self.kinds: Json = {}  # of the vehicles, as demand.kinds_of
        self.visits: list[Visit] = []  # of bus stops and other stops
        self.switches: list[tuple[int, str, str]] = []  # of lights by time of day: clock, light, program
        self.fixed: list[Json] = []  # programs of lights without detectors, that buses and others pass
        self.actuated: list[str] = []  # lights that SUMO times by detectors
        self.programs: list[Json] = []  # of these, as programs.kept_programs has them
        self.lit_ways: list[NodeWays] = []  # who gives way at lights
        self.open_ways: list[NodeWays] = []  # who gives way at other nodes
        self.timings: list[Json] = []  # of all lights, as timings.timings_of has them, written
        self.doubted_plans: dict[str, str] = {}  # by light, of those of searches that are not to be trusted, why
        self.full = Fullness()  # lanes that are nearly full by the demand
        self.starts: SlowStarts | None = None  # at lights
        self.reserved: ReservedLanes | None = None  # of classes beside the first
        self.rings = sorted(net.roundabouts & net.edges.keys())

    def users_of(self, link: int) -> frozenset[str] | None:
        """The classes whose vehicles take a link rather than others of its edge: where they may use several, those
        closed to most classes. None where all are open to the same classes, as nobody chooses by class."""
        beside = [self.links[other].closed for other in self.links_of[self.links[link].edge]]
        own = self.links[link].closed
        if len(set(beside)) == 1:
            return None
        usable = {one: [closed for closed in beside if one not in closed] for one in (*self.options.classes, FREE)}
        return frozenset(one for one, some in usable.items() if own in some and len(own) == max(map(len, some)))

    def drivers_on(self, link: int) -> Drivers:
        """Who drives on a link, by the demand."""
        return self.paces.drivers_on(self.links[link].edge, self.users[link])

    def add_connections(self, net: SumoNet, report: Report) -> None:
        """Adds the turns of all connections, and notes these in connections_between. Of several from one lane to one
        next link the one that leads to the lane of the same number is kept, else the one to the lowest lane; this is
        reported."""
        doubled = set()
        for connection in net.connections:
            self.connections_between[connection.source, connection.target].append(connection)
            link, lane = self.place_of[connection.source, connection.source_lane]
            following, next_lane = self.place_of[connection.target, connection.target_lane]
            turn = self.turn(link, next_lane, connection, False)
            held = self.turns.setdefault((link, lane, following), turn)
            if held is not turn:
                doubled.add(connection.source)
            if (next_lane != lane, next_lane) < (held.next_lane != lane, held.next_lane):
                self.turns[link, lane, following] = turn
        if doubled:
            told = "several connections from one lane to one next edge, of which one is kept: edges "
            report.warn(told + first_few(sorted(doubled)), sorted(doubled))

    def turn(self, link: int, next_lane: int, connection: NetConnection, added: bool) -> Turn:
        """The turn of a connection from a link to the lane next_lane of the next link; added: SUMO has no connection
        from this lane or link."""
        own, drivers = self.links[link], self.drivers_on(link)
        speed = min((connection.speed or own.speed) * drivers.factor, drivers.max_speed)
        accel, apart = round(drivers.accel, 2), round(drivers.apart, 2)
        light, inside = (connection.light, connection.index), round(connection.metres, 2)
        return Turn(next_lane, *light, added, speed, own.limit, accel, apart, inside)

    def open_both_lanes(self, report: Report) -> None:
        """Where one lane of two has a turn to a next link, the other gets it too, which is reported: else two vehicles
        side by side, each needing the other's lane, stand for ever."""
        added = {
            (link, 1 - lane, following): replace(turn, added=True)
            for (link, lane, following), turn in self.turns.items()
            if len(self.links[link].lanes) == 2 and (link, 1 - lane, following) not in self.turns
        }
        self.turns |= added
        if added:
            how = "both lanes of a link lead to each next link (--turns strict leaves them out)"
            report.warn(f"{len(added)} turns added, so that {how}", light=True)

    def serves(self, link: int, following: int) -> list[int]:
        """The lanes of a link that have a turn to a next link; empty where none has."""
        return self.choice.lanes_to.get((link, following), [])

    def connect_links(self, link: int, following: int) -> None:
        """Adds turns from all lanes of a link to a next link, of an edge that its edge leads to, each with the signal
        of the nearest connection between these edges, and notes the pair in joined; none where it has a turn there."""
        if (link, following) in self.choice.lanes_to:
            return
        pair = self.links[link].edge, self.links[following].edge
        connections = self.connections_between[pair]
        for lane, index in enumerate(self.links[link].lanes):
            nearest = min(connections, key=lambda connection: abs(connection.source_lane - index))
            next_lane = min(lane, len(self.links[following].lanes) - 1)
            self.turns[link, lane, following] = self.turn(link, next_lane, nearest, True)
            self.choice.lanes_to[link, following].append(lane)
        self.joined.add((link, following))
        self.choice.forget_steps(*pair)

    def open_beside_works(self) -> None:
        """Where a link has no lanes but ones that are to be closed, and its edge has other links, gives these the turns
        to it and from it that they lack, so that plans can go round it."""
        for name, closing in self.closing.items():
            shut = [link for link in self.links_of[name] if closing.issuperset(self.links[link].lanes)]
            beside = [link for link in self.links_of[name] if link not in shut]
            before = {link for link, _, following in self.turns if following in shut}
            after = {following for link, _, following in self.turns if link in shut}
            ways = [(link, other) for link in sorted(before) for other in beside]
            ways += [(other, following) for other in beside for following in sorted(after)]
            for link, following in ways:
                self.connect_links(link, following)

    def assign_route(
        self, edges: Sequence[str], stops: Mapping[int, LaneKey] = MappingProxyType({}), vclass: str = ""
    ) -> tuple[int, ...] | None:
        """The links of a route, by least cost over parallel links, and counts that they carry it; turns that are
        missing between them are added. None, and nothing is counted, where two edges that follow each other have no
        connection, or one has no link for its class. edges: kept ones, one at least; stops: the lane that it must go
        over, by the edge's position; vclass: its class, of the options' ones, FREE or empty: any."""
        choice = self.choice
        found = choice.ways_of(edges, vclass, {at: self.place_of[key][0] for at, key in stops.items()})
        if found is None:
            return None
        ways, steps = found
        plan = choice.cheapest(ways, steps)
        use, lanes_to = choice.use, choice.lanes_to
        use[plan[-1]] += 1
        for pair, step in zip(pairwise(plan), steps):
            use[pair[0]] += step.vehicles
            if step.changes and pair not in lanes_to:
                self.connect_links(*pair)
        return plan

    def load_command(self) -> Command:
        """The load command of this network."""
        options = self.options
        return {
            "cmd": "load",
            "nodes": [[at, *both] for at, both in enumerate(zip(self.residences, self.buffers, strict=True))],
            "links": [
                [at, link.begin, link.end, len(link.lanes), link.cells, link.limit]
                for at, link in enumerate(self.links)
            ],
            "turns": [[link, lane, following, turn.next_lane] for (link, lane, following), turn in self.turns.items()],
            "zone": options.zone,
            "dawdle": options.dawdle,
            "change": options.change,
            "seed": options.seed,
            "start": options.begin,
        }

    def over_limits(self) -> Iterator[str]:
        """The limits of nodes, links, turns and cells that this network is above, a text each; none where it fits."""
        for noun, count, limit in (
            ("nodes", len(self.nodes), limits.NODES),
            ("links", len(self.links), limits.LINKS),
            ("turns", len(self.turns), limits.TURNS),
        ):
            if count > limit:
                yield f"{count:,} {noun}, at most {limit:,}"
        if long := [link.edge for link in self.links if link.cells > limits.CELLS]:
            yield f"{len(long)} links above {limits.CELLS:,} cells of {limits.CELL_METRES} m: edges {first_few(long)}"


def edges_by_priority(net: SumoNet) -> list[NetEdge]:
    """Edges in the order of the load, which is the only priority at a node: roundabouts first, then those with the
    greatest share of main connections, of equal ones those of higher priority, then faster ones (by their first lane),
    then in the order of the net."""
    all_of = Counter(one.source for one in net.connections)
    major = Counter(one.source for one in net.connections if one.state == MAJOR)

    def key(edge: NetEdge) -> tuple[bool, float, int, float]:
        """By what edges are sorted: not of a roundabout, less its share of main connections, priority and speed."""
        share = major[edge.name] / max(1, all_of[edge.name])
        return edge.name not in net.roundabouts, -share, -edge.priority, -edge.lanes[0].speed

    return sorted(net.edges.values(), key=key)


def names_of(net: SumoNet, edges: Iterable[NetEdge], nodes: Iterable[str]) -> Json:
    """The names that the network tells, as a map keeps them, {"edges": streets by edge, "junctions": names by
    junction}; each is left out where it is empty."""
    streets = {edge.name: edge.street for edge in edges if edge.street}
    junctions = {name: net.called[name] for name in nodes if name in net.called}
    return {kind: names for kind, names in (("edges", streets), ("junctions", junctions)) if names}


def buffer_sizes(links: Sequence[Link], residences: Sequence[int], options: Options) -> list[int]:
    """For each node how many vehicles its buffer holds, limits.BUFFER at most: those of the options, or one more than
    its seconds where one street goes on as another one and nobody stands between them; and for each lane that leads
    there a share of the cells that links behind the node have fewer than their length. residences: seconds by node."""
    lanes, lacking = Counter[int](), Counter[int]()
    edges_into, edges_out_of = defaultdict[int, set[str]](set), defaultdict[int, set[str]](set)
    for link in links:
        lanes[link.end] += len(link.lanes)
        lacking[link.begin] += max(0, limits.cells_of_length(link.metres) - link.cells) * len(link.lanes)
        edges_into[link.end].add(link.edge)
        edges_out_of[link.begin].add(link.edge)
    sizes = []
    for node, seconds in enumerate(residences):
        goes_on = len(edges_into[node]) == len(edges_out_of[node]) == 1
        usual = min(options.buffer, seconds + 1) if goes_on else options.buffer
        sizes.append(min(limits.BUFFER, usual + (round(lacking[node] / lanes[node]) if lanes[node] else 0)))
    return sizes
