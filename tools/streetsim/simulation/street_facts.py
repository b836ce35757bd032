"""What SUMO's files tell and a run's map does not: widths and classes of lanes, names of streets, connections,
junctions, programs of lights, routes by name."""
import os
from collections.abc import Container, Sequence
from dataclasses import dataclass, field
from math import inf
from typing import NamedTuple
from xml.etree.ElementTree import Element

from streetsim.base.files import at_least_zero, attribute, element_told, elements, number, optional, seconds
from streetsim.observe.sumo_kinds import OutputFile
from streetsim.simulation.lights import LightShow
from streetsim.sumo.bus_stops import BusStop, begin_and_end_on_lane
from streetsim.sumo.configuration import NOWHERE as NO_FILE
from streetsim.sumo.detectors import TRUE
from streetsim.sumo.net import OFF_PROGRAM

Point = tuple[float, float]
WIDTH = 3.2  # metres of a lane, where a file has none
INSIDE = "internal"  # the function of the edges in a junction
# Elements of additional files that have a file written: of which kind, or why it is not written here.
WRITTEN = {
    "edgeData": "edgedata", "inductionLoop": "e1", "e1Detector": "e1", "laneAreaDetector": "e2", "e2Detector": "e2",
}
UNWRITTEN = {
    **dict.fromkeys(
        ("entryExitDetector", "e3Detector"),
        "there are no e3 detectors; streetsim-run --junctions writes delays and queues of approaches",
    ),
    "laneData": "edgeData has the sums of edges, --fcd-output each vehicle",
    "instantInductionLoop": "an inductionLoop with a period of 1 s has each second",
    "routeProbe": "--vehroute-output has the route of each vehicle",
    "timedEvent": "a script writes what it reads",
}


@dataclass(slots=True)
class ConnectionFacts:
    """A way from a lane to a next one, as SUMO's lane.getLinks has it; direction and state are SUMO's letters. light,
    index: of its signal; empty and -1 where it has none."""

    target: str  # the next lane
    via: str  # the lane inside the junction
    direction: str
    state: str  # without a light
    light: str
    index: int


@dataclass(slots=True)
class LaneFacts:
    """What a network's file says of a lane; links: the connections from it."""
    speed: float  # metres a second
    metres: float
    width: float
    allowed_classes: tuple[str, ...]
    disallowed_classes: tuple[str, ...]
    shape: tuple[Point, ...]
    links: list[ConnectionFacts] = field(default_factory=list)


@dataclass(slots=True)
class JunctionFacts:
    """What a network's file says of a junction, in metres."""
    point: Point
    shape: tuple[Point, ...]  # closed


class StopFacts(NamedTuple):
    """A bus stop of an additional file: its lane, where on it, in metres, and what it is called."""

    lane: str
    begin: float
    end: float
    called: str


@dataclass(slots=True)
class Facts:
    """What the files of a run say; lanes, edges and junctions by SUMO's names, routes (their edges) by their own;
    metres, seconds. What reads gives a Fault where an attribute is malformed, or one is absent that must be there."""

    lanes: dict[str, LaneFacts] = field(default_factory=dict)
    inside: dict[str, float] = field(default_factory=dict)  # metres of the lanes inside junctions
    streets: dict[str, str] = field(default_factory=dict)  # by edge
    junctions: dict[str, JunctionFacts] = field(default_factory=dict)
    lights: dict[str, LightShow] = field(default_factory=dict)
    offsets: dict[tuple[str, str], float] = field(default_factory=dict)  # by light and program
    boundary: tuple[Point, Point] = ((0.0, 0.0), (0.0, 0.0))
    routes: dict[str, tuple[str, ...]] = field(default_factory=dict)
    types: dict[str, dict[str, str]] = field(default_factory=dict)  # by vehicle type its attributes
    stops: dict[str, StopFacts] = field(default_factory=dict)
    outputs: list[OutputFile] = field(default_factory=list)  # that additional files ask for
    unwritten: list[str] = field(default_factory=list)  # texts on those of them that are not written

    def read_edge(self, path: str, element: Element) -> None:
        """Notes the lanes of an edge and its street's name; of lanes inside a junction the metres alone."""
        edge = attribute(path, element, "id")
        for lane in element.iter("lane"):
            name, metres = attribute(path, lane, "id"), attribute(path, lane, "length", number)
            if element.get("function") == INSIDE:
                self.inside[name] = metres
                continue
            allowed, disallowed = (tuple((lane.get(name) or "").split()) for name in ("allow", "disallow"))
            speed, width = attribute(path, lane, "speed", number), optional(path, lane, "width", number, WIDTH)
            shape = optional(path, lane, "shape", points, ())
            self.lanes[name] = LaneFacts(speed, metres, width, allowed, disallowed, shape)
            self.streets[edge] = element.get("name") or ""

    def read_connection(self, path: str, element: Element) -> None:
        """Notes a connection from a lane that was read."""
        ends = ("from", "fromLane"), ("to", "toLane")
        source, target = (f"{element.get(edge)}_{element.get(lane)}" for edge, lane in ends)
        via, direction, state, light = (element.get(name) or "" for name in ("via", "dir", "state", "tl"))
        if source in self.lanes:
            index = optional(path, element, "linkIndex", int, -1)
            self.lanes[source].links.append(ConnectionFacts(target, via, direction, state, light, index))

    def read_light(self, path: str, element: Element) -> None:
        """Notes a program of a light, as the import takes it (read_program); the last one of a light runs, the others
        can be chosen. One without phases gives the program of its name another offset."""
        name, program = attribute(path, element, "id"), element.get("programID", "0")
        phase_elements, begin = list(element.iter("phase")), optional(path, element, "offset", seconds, 0.0)
        if program == OFF_PROGRAM or not phase_elements and (name, program) not in self.offsets:
            return
        self.offsets[name, program] = begin
        if not phase_elements:
            if self.lights[name].program == program:
                self.lights[name].begin = begin
            return
        phases = [
            (attribute(path, phase, "duration", seconds), attribute(path, phase, "state")) for phase in phase_elements
        ]
        names = [phase.get("name") or "" for phase in phase_elements]
        light = LightShow(phases, begin, program, names=names)
        light.programs = {**(self.lights[name].programs if name in self.lights else {}), program: (phases, names)}
        self.lights[name] = light

    def read_stop(self, path: str, element: Element) -> None:
        """Notes a bus stop; passes over one of a lane that is not there, as the import does."""
        lane = attribute(path, element, "lane")
        ends = (optional(path, element, name, number, None) for name in ("startPos", "endPos"))
        if lane in self.lanes:
            stop, friendly = BusStop(lane, *ends), element.get("friendlyPos", "false").lower() in TRUE
            begin, end = begin_and_end_on_lane(stop, self.lanes[lane].metres, friendly, element_told(path, element))
            self.stops[attribute(path, element, "id")] = StopFacts(lane, begin, end, element.get("name", ""))

    def read_output(self, path: str, element: Element) -> None:
        """Notes a file that an element asks for; its path is from the folder of the additional file, as in SUMO. Of
        detectors one file has those that name it."""
        file, kind = os.path.join(os.path.dirname(path), file_of(element)), WRITTEN.get(element.tag, "")
        measured = element.get("type", "performance")
        at_path = [output for output in self.outputs if output.path == file]
        if kind == "edgedata" and measured not in ("", "performance", "traffic"):
            self.leave_out(element, file, f"edgeData of type {measured} is not reckoned here")
        elif not kind:
            self.leave_out(element, file, UNWRITTEN[element.tag])
        elif at_path and (kind == "edgedata" or at_path[0].kind != kind):
            self.leave_out(element, file, "another element has this file: give it one of its own")
        elif kind == "edgedata":
            self.outputs.append(edge_output(path, element, file))
        else:
            name = attribute(path, element, "id")
            names = (*(at_path[0].detectors or ()), name) if at_path else (name,)
            others = [output for output in self.outputs if output not in at_path]
            self.outputs = [*others, OutputFile(kind, file, detectors=names, is_needed=False)]

    def leave_out(self, element: Element, file: str, why: str) -> None:
        """Notes that a file that an element asks for is not written."""
        self.unwritten.append(f"{file} of <{element.tag}> is not written: {why}")

    def lights_at(self, names: Container[str]) -> dict[str, LightShow]:
        """{name: light} of the lights among names; puts into each its connections by index, and how many letters its
        states have. All connections must have been read before."""
        links: dict[str, dict[int, tuple[str, str, str]]] = {}
        for lane, fact in self.lanes.items():
            for connection in fact.links:
                links.setdefault(connection.light, {})[connection.index] = (lane, connection.target, connection.via)
        lights = {name: light for name, light in self.lights.items() if name in names}
        for name, light in lights.items():
            light.states = len(light.phases[0][1])
            light.links = [links.get(name, {}).get(index) for index in range(light.states)]
        return lights


def points(text: str) -> tuple[Point, ...]:
    """The points (x, y) of a shape's text, in metres. ValueError for a malformed one."""
    return tuple((number(x), number(y)) for x, y, *_ in (part.split(",") for part in text.split()))


def file_of(element: Element) -> str:
    """The file that an element asks for; NO_FILE where it asks for none."""
    return element.get("file", element.get("dest", NO_FILE[0]))


def edge_output(path: str, element: Element, file: str) -> OutputFile:
    """The file of an element edgeData."""
    period, span = "period" if element.get("period") is not None else "freq", at_least_zero(seconds)
    return OutputFile(
        "edgedata", file, is_needed=False, name=attribute(path, element, "id"),
        period=optional(path, element, period, span, 0.0),
        begin=optional(path, element, "begin", span, 0.0), end=optional(path, element, "end", span, inf),
        has_empty=element.get("excludeEmpty", "false").lower() not in (*TRUE, "defaults"),
    )  # fmt: skip


def box(text: str) -> tuple[Point, Point]:
    """The lower left and the upper right corner, in metres, that a text names. ValueError for a malformed one."""
    left, low, right, high = map(number, text.split(","))
    return (left, low), (right, high)


def read_facts(net: str, additional: Sequence[str], routes: Sequence[str]) -> Facts:
    """The facts of a network and its additional files, and the named routes of route and additional files; all by
    paths. Fault where a file cannot be read, or an attribute is malformed, or one is absent that must be there."""
    facts = Facts()
    for path in (net, *additional):
        for element in elements(path):
            read_element(facts, path, element)
    for path in (*additional, *routes):
        for element in elements(path):
            name = element.get("id")
            if element.tag == "route" and name:
                facts.routes[name] = tuple((element.get("edges") or "").split())
            elif element.tag == "vType" and name:
                facts.types[name] = dict(element.items())
    return facts


def read_element(facts: Facts, path: str, element: Element) -> None:
    """Adds to the facts what an element of a network or an additional file tells; other elements are passed over."""
    if element.tag == "edge":
        facts.read_edge(path, element)
    elif element.tag == "connection":
        facts.read_connection(path, element)
    elif element.tag == "junction" and element.get("type") != INSIDE:
        point = attribute(path, element, "x", number), attribute(path, element, "y", number)
        shape = optional(path, element, "shape", points, ())
        closed = shape if shape[:1] == shape[-1:] else (*shape, shape[0])
        facts.junctions[attribute(path, element, "id")] = JunctionFacts(point, closed)
    elif element.tag == "tlLogic":
        facts.read_light(path, element)
    elif element.tag == "busStop":
        facts.read_stop(path, element)
    elif element.tag == "location":
        facts.boundary = optional(path, element, "convBoundary", box, facts.boundary)
    elif element.tag in (*WRITTEN, *UNWRITTEN) and file_of(element) not in NO_FILE:
        facts.read_output(path, element)
