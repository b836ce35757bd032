"""Reads SUMO's networks (.net.xml), and the signal programs of additional files. All that reads raises Fault, with file
and element, where an attribute that it needs is absent, or one cannot be read."""
from collections import defaultdict
from collections.abc import Collection, Iterable, Sequence
from dataclasses import dataclass, field, replace
from xml.etree.ElementTree import Element

from streetsim.base.files import (
    Fault, FilePath, Json, at_least_zero, attribute, element_told, elements, number, optional, seconds,
)
from streetsim.base.report import Report
from streetsim.model.doubts import DOUBTED
from streetsim.sumo.bus_stops import BusStop
from streetsim.sumo.detectors import SumoDetector

STATIC, NEMA = "static", "NEMA"  # kinds of signal programs: seconds alone, and two rings of phases
OFF_PROGRAM = "off"  # the program by which SUMO has a light blink
# What phases may have without more effect on actuated lights: type and targetLanes are of other kinds.
PHASE = ("duration", "state", "minDur", "maxDur", "next", "name", "vehext", "yellow", "red", "type", "targetLanes")
Point = tuple[float, float]
FREE = "ignoring"  # the class that may use every lane
INNER = ("internal", "walkingarea", "crossing")
# SUMO's states of connections: goes first, gives way, gives way after a stop, by turns.
MAJOR, MINOR, STOPS, ZIPPER = "M", "m", "s", "Z"


@dataclass(slots=True)
class NetLane:
    """A lane of an edge that one of the classes may use; index is SUMO's."""

    index: int
    speed: float  # metres a second
    metres: float
    shape: list[Point]  # metres
    closed: frozenset[str] = frozenset()  # those of the classes that may not use it


@dataclass(slots=True)
class NetEdge:
    """A street in one direction, between two junctions."""

    name: str
    begin: str
    end: str
    priority: int
    lanes: list[NetLane]  # those that one of the classes may use, from the right
    street: str = ""  # its name, or that of its first lane with one
    is_cut: bool = False  # whether it is a part, and the next one begins where it ends
    is_slow: bool = False  # whether it is a part with a lower limit


@dataclass(slots=True)
class NetConnection:
    """From a lane of an edge to a lane of the next, by SUMO's names and indexes; light: None where it has none, and its
    index is 0 then."""

    source: str
    target: str
    source_lane: int
    target_lane: int
    light: str | None
    index: int  # of its letter in the light's state
    state: str  # M: major, m: minor, ..
    request: int | None = None  # its position among the requests of its junction
    speed: float | None = None  # metres a second inside the junction
    direction: str = ""  # s: straight on, l: to the left, ..
    metres: float = 0.0  # inside the junction
    inner: str = ""  # its lane there
    reserved: bool = False  # whether its lane is closed to the first of the classes


@dataclass(slots=True)
class LightProgram:
    """A light's program; offset in seconds."""

    offset: float
    phases: list[tuple[float, str]]  # seconds and state
    kind: str  # static, actuated, ..
    # For each phase its minDur and maxDur in seconds; None: not written.
    bounds: list[tuple[float | None, float | None]] = field(default_factory=list)
    following: list[tuple[int, ...]] = field(default_factory=list)  # the phases that each names as its next
    parameters: dict[str, str] = field(default_factory=dict)
    further_names: tuple[str, ...] = ()  # what else its phases and it have, by name
    name: str = "0"
    # Of the phases of a NEMA light: name, extension, yellow and red, in seconds.
    timing: list[tuple[str, float, float, float]] = field(default_factory=list)


@dataclass(slots=True)
class Waut:
    """By which program lights go at which time of day: from a start program on, to others at clocks (seconds), over and
    over each period (seconds; 0: once)."""

    start: str
    switches: list[tuple[int, str]]  # clock, within the period, and program, rising
    period: int
    lights: list[str] = field(default_factory=list)


@dataclass(slots=True)
class SumoNet:
    """What was read of a network and of additional files, by SUMO's names."""

    junctions: dict[str, Point] = field(default_factory=dict)
    edges: dict[str, NetEdge] = field(default_factory=dict)  # by name
    dropped: set[str] = field(default_factory=set)  # edges without a lane for the classes
    closed_lanes: set[str] = field(default_factory=set)  # names of lanes that are not for the classes
    connections: list[NetConnection] = field(default_factory=list)  # between kept lanes
    # (edge, next edge) of connections that are not for the classes.
    closed_movements: set[tuple[str, str]] = field(default_factory=set)
    roundabouts: set[str] = field(default_factory=set)  # edges
    types: dict[str, str] = field(default_factory=dict)  # by junction
    # By light: the one in force, mostly the last loaded.
    programs: dict[str, LightProgram] = field(default_factory=dict)
    # By light its others, in the order in which they were loaded: scripts may choose them, or a WAUT.
    earlier: dict[str, list[LightProgram]] = field(default_factory=dict)
    wauts: dict[str, Waut] = field(default_factory=dict)  # by name
    changing: dict[str, list[LightProgram]] = field(default_factory=dict)  # by light: to which it changes in the run
    detectors: list[SumoDetector] = field(default_factory=list)  # of additional files
    bus_stops: dict[str, BusStop] = field(default_factory=dict)  # of these, by name
    # By junction: for each request those that it gives way to.
    yields: dict[str, dict[int, set[int]]] = field(default_factory=dict)
    foes: dict[str, dict[int, set[int]]] = field(default_factory=dict)  # by junction: for each request those it meets
    # By junction: for each request whose vehicles wait inside it, the requests that they wait for there.
    waits_inside: dict[str, dict[int, set[int]]] = field(default_factory=dict)
    inner_speeds: dict[str, float] = field(default_factory=dict)  # lane inside a junction: metres a second
    inner_metres: dict[str, float] = field(default_factory=dict)  # the same lanes: metres
    inner_next: dict[str, str] = field(default_factory=dict)  # the same: the one that goes on inside, where one does
    location: Json = field(default_factory=dict)  # where it lies on Earth, as read_location keeps it
    called: dict[str, str] = field(default_factory=dict)  # names of junctions that have one

    def programs_of(self, light: str) -> list[LightProgram]:
        """The programs of a light that has one: its others, as they were loaded, then the one in force."""
        return [*self.earlier.get(light, ()), self.programs[light]]

    def programs_in_run(self, light: str) -> list[LightProgram]:
        """The programs that a light shows in the run, its first one first; days_of goes before. Empty without one."""
        return [self.programs[light], *self.changing.get(light, ())] if light in self.programs else []

    def yields_of(self, connection: NetConnection) -> set[int]:
        """The requests of its junction that a connection gives way to; empty where its own request is not known."""
        at_junction = self.yields.get(self.edges[connection.source].end, {})
        return at_junction.get(connection.request, set()) if connection.request is not None else set()


def shape(text: str) -> list[Point]:
    """The points of a shape's text, two at least; ValueError otherwise."""
    points = [plane_point(point) for point in text.split()]
    if len(points) < 2:
        raise ValueError(text)
    return points


def allows(element: Element, classes: Collection[str]) -> bool:
    """Whether a lane or connection is open to at least one of the vehicle classes, by its allow, else by its
    disallow."""
    named = element.get("allow")
    if named is not None:
        allowed = named.split()
        return "all" in allowed or any(name in allowed for name in classes)
    closed = (element.get("disallow") or "").split()
    return "all" not in closed and any(name not in closed for name in classes)


def read_net(path: FilePath, classes: Sequence[str], report: Report) -> SumoNet:
    """The network of a .net.xml, with the lanes that at least one of the classes may use, after spare_main_streets;
    Fault where the file cannot be read or is wrong, or there are no such lanes. Elements that are not read are
    reported, but for <type> and <request>."""
    net = SumoNet()
    named_classes: set[str] = set()
    readers = {
        "edge": read_edge,
        "junction": read_junction,
        "connection": read_connection,
        "roundabout": read_roundabout,
        "tlLogic": read_program,
        "location": read_location,
    }
    for element in elements(path, ["net"]):
        if element.tag in readers:
            readers[element.tag](path, element, net, classes)
            if element.tag == "edge":
                named_classes.update(" ".join(lane.get("allow") or "" for lane in element.iter("lane")).split())
        elif element.tag not in ("type", "request"):
            report.ignored[f"<{element.tag}> of the network"] += 1
    if not net.edges:
        opened = ", ".join(sorted(named_classes)) or "none by name"
        raise Fault(f"{path}: no lane is open to {', '.join(classes)}; lanes are opened to: {opened}")
    spare_main_streets(net)
    wait_inside(net)
    go_side_by_side(net)
    measure_inside(net)
    return net


def measure_inside(net: SumoNet) -> None:
    """Sets the metres of connections inside their junctions, over all of their lanes there, in a row."""
    for one in net.connections:
        inner = one.inner
        while inner:
            one.metres += net.inner_metres.get(inner, 0.0)
            inner = net.inner_next.get(inner, "")


def wait_inside(net: SumoNet) -> None:
    """At lights, lets who turns across oncoming traffic give way to those of it who turn into the same street too,
    where SUMO has vehicles wait for them inside the junction, and neither gives way to the other: with exits of two
    lanes netconvert writes no request for it, but SUMO's vehicles wait."""
    for junction, connections in connections_of(net).items():
        inside, yields = net.waits_inside.get(junction, {}), net.yields.get(junction, {})
        of_request = {one.request: one for one in connections if one.light and one.request is not None}
        for request in sorted(inside.keys() & of_request.keys()):
            for foe in sorted(inside[request] & of_request.keys()):
                free = foe not in yields.get(request, ()) and request not in yields.get(foe, ())
                if free and turn_into_one(of_request[request], of_request[foe]):
                    yields.setdefault(request, set()).add(foe)


def go_side_by_side(net: SumoNet) -> None:
    """At lights, has lanes of one edge that become one lane of the next not give way to each other: netconvert writes
    so for one of them, but its vehicles go by turns, and do not wait for gaps as those who turn across others do."""
    for junction, connections in connections_of(net).items():
        yields, beside = net.yields.get(junction, {}), defaultdict[tuple[str, str], set[int]](set)
        lit = [one for one in connections if one.light and one.request is not None]
        for one in lit:
            beside[one.source, one.target].add(one.request or 0)
        for one in lit:
            if one.request in yields:
                yields[one.request] = yields[one.request] - beside[one.source, one.target]


def turn_into_one(connection: NetConnection, other_connection: NetConnection) -> bool:
    """Whether two connections turn into one street from two others, one to the left and one to the right."""
    turns = {connection.direction.lower(), other_connection.direction.lower()} == {"l", "r"}
    return turns and connection.source != other_connection.source and connection.target == other_connection.target


def spare_main_streets(net: SumoNet) -> None:
    """Lets nobody stop at a sign who turns off a main street, where no light is (state s becomes m): netconvert writes
    its left turns so, but in SUMO they give way without a stop."""
    for connections in connections_of(net).values():
        lit = any(one.light for one in connections)
        main = {one.source for one in connections if one.state == MAJOR and not lit}
        for one in connections:
            if one.source in main and one.state == STOPS:
                one.state = MINOR


def read_edge(path: FilePath, element: Element, net: SumoNet, classes: Collection[str]) -> None:
    """Adds an edge with the lanes that one of the classes may use (none: it is noted in dropped), and notes the names
    of its other lanes in closed_lanes; of an edge inside a junction it notes the speeds of lanes alone, in
    inner_speeds. Fault for a second edge of its name, or two lanes of one index."""
    if element.get("function") in INNER:
        for lane in element.iter("lane"):
            net.inner_speeds[attribute(path, lane, "id")] = attribute(path, lane, "speed", at_least_zero(number))
            net.inner_metres[attribute(path, lane, "id")] = optional(path, lane, "length", at_least_zero(number), 0.0)
        return
    name = attribute(path, element, "id")
    if name in net.edges or name in net.dropped:
        raise Fault(f"{element_told(path, element)}: a second edge of this name")
    lanes = [
        NetLane(
            attribute(path, lane, "index", at_least_zero(int)),
            attribute(path, lane, "speed", at_least_zero(number)),
            attribute(path, lane, "length", at_least_zero(number)),
            attribute(path, lane, "shape", shape),
            frozenset(name for name in classes if not allows(lane, [name])),
        )
        for lane in element.iter("lane")
        if allows(lane, classes)
    ]
    if len({lane.index for lane in lanes}) < len(lanes):
        raise Fault(f"{element_told(path, element)}: two lanes of one index")
    net.closed_lanes.update(f"{name}_{lane.get('index')}" for lane in element.iter("lane") if not allows(lane, classes))
    if not lanes:
        net.dropped.add(name)
        return
    begin, end = attribute(path, element, "from"), attribute(path, element, "to")
    priority = optional(path, element, "priority", int, -1)
    net.edges[name] = NetEdge(name, begin, end, priority, lanes, street_of(element))


def street_of(element: Element) -> str:
    """The street's name that an edge tells, else that of its first lane with one; empty where neither tells one."""
    own = (one.get("name", "").strip() for one in (element, *element.iter("lane")))
    return next(filter(None, own), "")


def read_location(path: FilePath, element: Element, net: SumoNet, _classes: Collection[str]) -> None:
    """Keeps in net.location where the network lies: {"projection": as SUMO writes it ("!": none), "offset": (x, y) that
    was added to its metres, (0, 0) where none is told}. Fault where plane_point cannot read it."""
    offset = optional(path, element, "netOffset", plane_point, (0.0, 0.0))
    net.location = {"offset": offset, "projection": element.get("projParameter", "!")}


def plane_point(text: str) -> Point:
    """The (x, y) of two numbers with a comma between; a height after them is left out. ValueError otherwise."""
    x, y, *_ = (number(part) for part in text.split(","))
    return x, y


def read_junction(path: FilePath, element: Element, net: SumoNet, _classes: Collection[str]) -> None:
    """Adds a junction: its point, type, name, and for each of its requests those that it gives way to and those that it
    meets; of those inside others it notes alone for whom one waits there, in waits_inside."""
    if element.get("type") == "internal":
        own, *_ = (element.get("incLanes") or "").split() or [""]
        waited = (request_of(lane) for lane in (element.get("intLanes") or "").split())
        if (request := request_of(own)) is not None:
            inside = net.waits_inside.setdefault(own.rsplit("_", 2)[0][1:], {})
            inside.setdefault(request, set()).update(foe for foe in waited if foe is not None)
    else:
        name = attribute(path, element, "id")
        net.junctions[name] = attribute(path, element, "x", number), attribute(path, element, "y", number)
        net.types[name] = element.get("type", "priority")
        if called := element.get("name", "").strip():
            net.called[name] = called
        requests = {attribute(path, one, "index", at_least_zero(int)): one for one in element.iter("request")}
        net.yields[name] = {at: bits_of(attribute(path, one, "response")) for at, one in requests.items()}
        net.foes[name] = {at: bits_of(one.get("foes", "")) for at, one in requests.items()}


def bits_of(text: str) -> set[int]:
    """The positions of the ones in a text of bits, counted from 0 from the right."""
    return {at for at, bit in enumerate(reversed(text)) if bit == "1"}


def read_connection(path: FilePath, element: Element, net: SumoNet, classes: Collection[str]) -> None:
    """Adds a connection between lanes that are kept; another one is noted in closed_movements, as not for the classes.
    Edges are read before. Fault where it names an unknown edge, or joins edges that do not meet."""
    source, target = attribute(path, element, "from"), attribute(path, element, "to")
    for edge in (source, target):
        if edge not in net.edges and edge not in net.dropped and not edge.startswith(":"):
            raise Fault(f"{element_told(path, element)}: the network has no edge {edge!r}")
    if source.startswith(":") and element.get("via"):
        net.inner_next[f"{source}_{element.get('fromLane')}"] = element.get("via", "")
    if source not in net.edges or target not in net.edges or not allows(element, classes):
        net.closed_movements.add((source, target))
        return
    if net.edges[source].end != net.edges[target].begin:
        raise Fault(f"{element_told(path, element)}: edge {target!r} does not begin where this one ends")
    source_lane, target_lane = (attribute(path, element, name, at_least_zero(int)) for name in ("fromLane", "toLane"))
    if not has_lane(net.edges[source], source_lane) or not has_lane(net.edges[target], target_lane):
        net.closed_movements.add((source, target))
        return
    light, inner = element.get("tl"), element.get("via", "")
    index = attribute(path, element, "linkIndex", at_least_zero(int)) if light else 0
    shown = light, index, element.get("state", MAJOR)
    inside = request_of(inner), net.inner_speeds.get(inner), element.get("dir", "")
    made = NetConnection(source, target, source_lane, target_lane, *shown, *inside, inner=inner)
    closed = next(lane.closed for lane in net.edges[source].lanes if lane.index == source_lane)
    net.connections.append(replace(made, reserved=next(iter(classes)) in closed))


def request_of(inner: str) -> int | None:
    """A connection's position among its junction's requests, by the name of its lane inside the junction,
    ":junction_N_LANE": N + LANE. None for a name of another form."""
    parts = inner.rsplit("_", 2)
    return int(parts[1]) + int(parts[2]) if len(parts) == 3 and all(map(str.isdecimal, parts[1:])) else None


def has_lane(edge: NetEdge, index: int) -> bool:
    """Whether an edge has a kept lane of SUMO's index."""
    return any(lane.index == index for lane in edge.lanes)


def read_roundabout(path: FilePath, element: Element, net: SumoNet, _classes: Collection[str]) -> None:
    """Notes the edges of a roundabout in net.roundabouts. Fault where they are not told."""
    net.roundabouts.update(attribute(path, element, "edges").split())


def read_program(path: FilePath, element: Element, net: SumoNet, _classes: Collection[str]) -> None:
    """Sets a light's program in net.programs; a later one replaces the one before, which `earlier` keeps. One without
    phases, as SUMO's tlsCoordinator writes it, gives the program of its name another offset alone (Fault where there is
    none of it); OFF, and one without phases of a light without a program, as railways have, are passed over."""
    light, name = attribute(path, element, "id"), element.get("programID", "0")
    offset = optional(path, element, "offset", seconds, 0.0)
    earlier_programs = net.programs_of(light) if light in net.programs else []
    phases = element.findall("phase")
    if name == OFF_PROGRAM or not phases and not earlier_programs:
        return
    if not phases:
        same = [program for program in earlier_programs if program.name == name]
        if not same:
            raise Fault(f"{element_told(path, element)}: program {name!r} has no phases")
        same[-1].offset = offset
        return
    span = at_least_zero(seconds)
    program = LightProgram(
        offset,
        [(attribute(path, phase, "duration", span), attribute(path, phase, "state")) for phase in phases],
        element.get("type", STATIC),
        [
            (optional(path, phase, "minDur", span, None), optional(path, phase, "maxDur", span, None))
            for phase in phases
        ],
        [tuple(optional(path, phase, "next", numbers, ())) for phase in phases],
        {param.get("key", ""): param.get("value", "") for param in element.findall("param")},
        more_of(element),
        name,
        [timing_of(path, phase) for phase in phases] if element.get("type") == NEMA else [],
    )
    if earlier_programs:
        net.earlier[light] = earlier_programs
    net.programs[light] = program


def timing_of(path: FilePath, phase: Element) -> tuple[str, float, float, float]:
    """(name, extension, yellow, red in seconds) of a phase of a NEMA light; 0 s for what is not written. Fault where
    one is no number from 0 on."""
    names = ("vehext", "yellow", "red")
    extension, yellow, red = (optional(path, phase, name, at_least_zero(seconds), 0.0) for name in names)
    return phase.get("name", ""), extension, yellow, red


def numbers(text: str) -> list[int]:
    """Whole numbers, of a text with spaces between, below 0 too; ValueError otherwise."""
    return list(map(int, text.split()))


def more_of(program: Element) -> tuple[str, ...]:
    """The names of a program's elements beside phases and parameters, and of attributes of phases beside PHASE."""
    found = {one.tag for one in program if one.tag not in ("phase", "param")}
    found.update(name for phase in program.iter("phase") for name in phase.keys() if name not in PHASE)
    return tuple(sorted(found))


def lights_not_static(net: SumoNet, lights: Iterable[str]) -> list[str]:
    """The names of lights, among some that have a program, whose program in force is not static."""
    return [light for light in dict.fromkeys(lights) if net.programs[light].kind != STATIC]


def doubted_plans(net: SumoNet) -> dict[str, str]:
    """By light, of those whose program was made by a search that is not to be trusted, why it is not."""
    programs = net.programs.items()
    return {light: why for light, program in programs if (why := program.parameters.get(DOUBTED))}


def connections_of(net: SumoNet) -> dict[str, list[NetConnection]]:
    """The connections of each junction, by its name: those of edges that end there (others have an empty list)."""
    found = defaultdict(list)
    for connection in net.connections:
        found[net.edges[connection.source].end].append(connection)
    return found


def connections_to_lanes(net: SumoNet) -> dict[tuple[str, int], list[NetConnection]]:
    """By lane, (edge, index), the connections that lead to it."""
    found = defaultdict(list)
    for one in net.connections:
        found[one.target, one.target_lane].append(one)
    return dict(found)
