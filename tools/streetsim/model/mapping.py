"""The map file: which SUMO names the numbers of a run stand for.

A file of version 3, which is written, tells its version, and has each table as an object of columns by name; a column
that is not there has its usual values. Files of versions 1 and 2 do not say who gives way at lights, as their signals
show it; those of version 1 do not tell their version, and have rows as lists in the order of the fields. All are read.
"""
from collections.abc import Iterable, Sequence
from dataclasses import asdict, dataclass, field
from typing import NamedTuple

from streetsim.base import limits
from streetsim.base.files import Fault, FilePath, Json, read_json
from streetsim.model.detectors import Detector
from streetsim.model.fullness import Fullness, fullness_of
from streetsim.model.named import columns, columns_of, one_of, rows_of
from streetsim.model.reserved import ReservedLanes
from streetsim.model.starting import SlowStarts
from streetsim.model.stops import Visit
from streetsim.model.waiting import GivingWay, NodeWays, giving_way_of, node_ways_of

VERSION = WITH_LIT_WAYS = 3
Place = tuple[int, int]  # a link and a lane of it
Shape = Sequence[Sequence[float]]  # of (x, y)
KEYS = ("nodes", "links", "turns", "signals", "cars", "options", "warnings")
INVENTED = "invented."  # with which the names of vehicles begin that nobody counted
TOLD_INVENTED = "The demand is invented: vehicles that nobody counted drive from border to border of the network"
# Keys that a map's file has where there are any.
WHERE_ANY = ("rings", "programs", "names", "fixed", "end", "timings", "doubted_plans")


@dataclass(slots=True, frozen=True)
class MapLink:
    """A link of a run: one lane of an edge, or lanes of it side by side."""

    edge: str
    lanes: Sequence[int]  # SUMO's lane indexes
    begin: int  # node that it comes from
    end: int  # node that it leads to
    cells: int
    limit: int  # cells a step
    metres: float  # SUMO's length
    shape: Shape

    @property
    def cell_metres(self) -> float:
        """Metres of a cell for densities and speeds: 7.5, but where cells were chosen by the edge's speed."""
        usual = limits.cells_of_length(self.metres)
        return limits.CELL_METRES if self.cells == usual else self.metres / self.cells

    def cells_between(self, begin: float, end: float) -> tuple[int, int]:
        """The (first, last) cell, from 0, both included, from one point of the lane to another, in metres from its
        begin: from the cell in which the first point lies to the one whose end is nearest to the second; one cell at
        least. Points off the lane count as its ends."""
        size = self.metres / self.cells
        first = min(self.cells - 1, max(0, int(begin / size)))
        return first, min(self.cells - 1, max(first, round(end / size) - 1))

    def closed_between(self, begin: float, end: float) -> tuple[int, int]:
        """The (first, last) cell, from 0, both included, that works close from one point to another, in metres from the
        lane's begin. Where there is a lane beside, the first four cells stay open as far as the works allow: turns lead
        to this lane, and who comes by one leaves it there."""
        first, last = self.cells_between(begin, end)
        return (max(first, min(limits.SIZE, last)), last) if len(self.lanes) > 1 else (first, last)


@dataclass(slots=True, frozen=True)
class MapTurn:
    """From a lane of a link to a lane of the next, by numbers of the run; light: SUMO's id of the light that shows its
    signal, none where it has no light."""

    link: int
    lane: int
    next: int
    next_lane: int
    light: str | None
    index: int  # its position in the light's state
    added: bool  # it is none of SUMO's connections, but the import's
    speed: float = 13.9  # metres a second, inside the junction if that is known
    limit: int = 2  # of its link, cells a step
    accel: float = 2.6  # metres a second and second of usual cars that start as those do who start there, in the mean
    apart: float = 0.0  # seconds more between two of a queue there than between usual cars
    inside: float = 0.0  # metres of SUMO's lanes in the junction, on which nobody drives here


class MapNode(NamedTuple):
    """A node of a run: the junction that it is of, its point in metres, and the seconds that a vehicle stays in it."""

    junction: str
    x: float
    y: float
    residence: int


class MapSignal(NamedTuple):
    """A light, and a node at which it is."""

    light: str
    node: int


class Switch(NamedTuple):
    """A change of a light by time of day."""

    clock: int
    light: str
    program: str


@dataclass(slots=True)
class Map:
    """The names behind the numbers of a run: nodes, links and cars are lists by those numbers."""

    nodes: Sequence[tuple[str, float, float, int]]  # as MapNode
    links: list[MapLink]
    turns: list[MapTurn]
    signals: Sequence[tuple[str, int]]  # as MapSignal
    cars: list[str]  # SUMO's vehicle names, by number
    options: Json
    warnings: list[str]  # as the import said them
    detectors: list[Detector] = field(default_factory=list)  # of additional files
    warning_rows: list[list[str]] = field(default_factory=list)  # the same as a table, base.report.Report.rows
    yields: list[GivingWay] = field(default_factory=list)  # who gives way without a light
    links_of: dict[str, list[int]] = field(default_factory=dict, init=False)  # edge: links
    sources: Json = field(default_factory=dict)  # the files of the import, as model.sources keeps them
    kinds: Json = field(default_factory=dict)  # of the vehicles, as sumo.demand.kinds_of
    location: Json = field(default_factory=dict)  # where the network lies: offset, projection
    actuated: list[str] = field(default_factory=list)  # lights that SUMO times by detectors
    rings: list[str] = field(default_factory=list)  # edges of roundabouts
    programs: list[Json] = field(default_factory=list)  # of actuated lights, as sumo.programs.kept_programs
    # Of edges and junctions that have one: {"edges": {id: name}, "junctions": {id: name}}; model.names tells them.
    names: Json = field(default_factory=dict)
    fixed: list[Json] = field(default_factory=list)  # of other lights that buses and others pass, in the same form
    visits: list[Visit] = field(default_factory=list)  # stops that vehicles are to make
    # Changes of lights by time of day, as Switch, rising; the first of each is at the run's begin.
    switches: Sequence[tuple[int, str, str]] = field(default_factory=list)
    full: Fullness = field(default_factory=Fullness)  # lanes that are nearly full by the demand
    starts: SlowStarts | None = None  # at lights
    reserved: ReservedLanes | None = None  # of classes beside the first
    end: int = 0  # the clock at which SUMO's configuration ends a run, 0 where none does
    timings: list[Json] = field(default_factory=list)  # the programs of lights at the road, as of model.timing
    # By light, of those whose plan a search made that is not to be trusted, why it is not.
    doubted_plans: dict[str, str] = field(default_factory=dict)
    lit_ways: list[NodeWays] = field(default_factory=list)  # who gives way at lights
    open_ways: list[NodeWays] = field(default_factory=list)  # who gives way at other nodes
    version: int = VERSION  # of the file that it is of

    def __post_init__(self) -> None:
        """Finds the links of each edge."""
        for number, link in enumerate(self.links):
            self.links_of.setdefault(link.edge, []).append(number)

    @property
    def invented(self) -> str:
        """What is to be said where vehicles are invented; empty where none is."""
        return TOLD_INVENTED if any(name.startswith(INVENTED) for name in self.cars) else ""

    @property
    def ways(self) -> list[NodeWays]:
        """Who gives way by what happens, at all nodes."""
        return [*self.lit_ways, *self.open_ways]

    @property
    def says_who_gives_way(self) -> bool:
        """Whether it was made by an import that says who gives way at lights."""
        return self.version >= WITH_LIT_WAYS

    def lane_name(self, link: int, lane: int) -> str:
        """SUMO's id of a lane, EDGE_INDEX, by the numbers of the run."""
        return f"{self.links[link].edge}_{self.links[link].lanes[lane]}"

    def place_of(self, name: str) -> Place | None:
        """The (link, lane) of SUMO's id of a lane, EDGE_INDEX; none where the map does not have it."""
        return next((place for place in self.lanes() if self.lane_name(*place) == name), None)

    def lanes(self, links: Iterable[int] | None = None) -> list[Place]:
        """All (link, lane) of some links, by number, in their order; of all links where none are given (None)."""
        numbers = range(len(self.links)) if links is None else links
        return [(link, lane) for link in numbers for lane in range(len(self.links[link].lanes))]

    def load_links(self) -> list[list[int]]:
        """The links as the load of a run has them: [number, begin, end, lanes, cells, limit] of each."""
        return [[at, one.begin, one.end, len(one.lanes), one.cells, one.limit] for at, one in enumerate(self.links)]

    def written(self) -> Json:
        """The content of the map's file, a dict to be dumped as JSON, which `map_from` reads."""
        return {
            "version": self.version,
            "nodes": columns(MapNode._fields, self.nodes),
            "links": columns_of(MapLink, self.links),
            "turns": columns_of(MapTurn, self.turns),
            "signals": columns(MapSignal._fields, self.signals),
            "cars": self.cars,
            "options": self.options,
            "warnings": self.warnings,
            "told": self.warning_rows,
            "yields": [*map(asdict, self.yields)],
            "detectors": columns_of(Detector, self.detectors),
            "sources": self.sources,
            "vehicles": self.kinds,
            "location": self.location,
            "actuated": self.actuated,
            **{name: value for name in WHERE_ANY if (value := getattr(self, name))},
            **({"lit_ways": columns_of(NodeWays, self.lit_ways)} if self.lit_ways else {}),
            **({"open_ways": columns_of(NodeWays, self.open_ways)} if self.open_ways else {}),
            **({"full": asdict(self.full)} if self.full else {}),
            **({"starts": asdict(self.starts)} if self.starts else {}),
            **({"reserved": asdict(self.reserved)} if self.reserved else {}),
            **({"visits": columns_of(Visit, self.visits)} if self.visits else {}),
            **({"switches": columns(Switch._fields, self.switches)} if self.switches else {}),
        }


def read_map(path: FilePath) -> Map:
    """The map of a file that streetsim-import wrote; Fault for any other file."""
    return map_from(path, read_json(path, KEYS))


def refuse_outside(nodes: Sequence[Sequence[object]], links: Sequence[MapLink], turns: Sequence[MapTurn]) -> None:
    """ValueError where a node is none, or a link or turn names a node or link that is not there."""
    if any(len(node) != 4 for node in nodes):
        raise ValueError("a node has other than four values")
    if not all(0 <= node < len(nodes) for link in links for node in (link.begin, link.end)):
        raise ValueError("a link has a node that is not there")
    if not all(0 <= link < len(links) for turn in turns for link in (turn.link, turn.next)):
        raise ValueError("a turn has a link that is not there")


def refuse_ways_outside(node_ways: Iterable[NodeWays], nodes: int, links: int) -> None:
    """ValueError where one who gives way names a node, link, lane or way that is not there. nodes, links: how many
    there are."""
    for one in node_ways:
        turns = [turn for way in one.ways for turn in way]
        numbers = {*one.stops, *(way for own, foe, _ in one.yields for way in (own, foe))}
        is_known = 0 <= one.node < nodes and numbers <= {*range(len(one.ways))}
        are_there = (0 <= link < links and lane in (0, 1) and 0 <= to < links for link, lane, to in turns)
        if not is_known or not all(are_there):
            raise ValueError("a rule of giving way names what is not there")


def map_from(path: FilePath, content: Json) -> Map:
    """The map of the content of its file, as `Map.written` gives it; path: for the Fault where it is no map, or one of
    a later version."""
    if (version := content.get("version", 1)) not in (1, 2, VERSION):
        raise Fault(f"{path}: a map of version {version}, and these tools read 1 to {VERSION}: import the run anew")
    try:
        fields: Json = {"version": version} | {key: content[key] for key in ("cars", "options", "warnings")}
        fields["nodes"], fields["signals"] = rows_of(MapNode, content["nodes"]), rows_of(MapSignal, content["signals"])
        fields["links"], fields["turns"] = rows_of(MapLink, content["links"]), rows_of(MapTurn, content["turns"])
        fields |= {name: content.get(name, []) for name in ("actuated", "rings", "programs", "fixed", "timings")}
        fields["warning_rows"] = content.get("told", [])
        fields |= {name: content.get(name, {}) for name in ("location", "names", "sources", "doubted_plans")}
        fields |= {"kinds": content.get("vehicles", {}), "yields": giving_way_of(content.get("yields", ()))}
        fields |= {name: node_ways_of(content.get(name, {})) for name in ("lit_ways", "open_ways")}
        fields["full"] = fullness_of(content.get("full", {}))
        fields["end"] = content.get("end", 0)
        fields["starts"] = one_of(SlowStarts, content["starts"]) if "starts" in content else None
        fields["reserved"] = one_of(ReservedLanes, content["reserved"]) if "reserved" in content else None
        for name, kind in (("detectors", Detector), ("visits", Visit), ("switches", Switch)):
            fields[name] = rows_of(kind, content.get(name, ()))
        refuse_outside(fields["nodes"], fields["links"], fields["turns"])
        ways = [*fields["lit_ways"], *fields["open_ways"]]
        refuse_ways_outside(ways, len(fields["nodes"]), len(fields["links"]))
        return Map(**fields)
    except (AttributeError, KeyError, TypeError, ValueError) as fault:
        raise Fault(f"{path}: not a map that streetsim-import wrote: {fault}") from None
