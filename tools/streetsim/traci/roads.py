"""TraCI's lanes, edges, junctions and detectors."""
from collections.abc import Collection, Sequence
from typing import NoReturn

from streetsim.base.shapes import Line, Point, point_along
from streetsim.control.works_sites import why_parallel
from streetsim.model.detectors import Detector
from streetsim.model.mapping import Place
from streetsim.simulation.calls import GAP, METRES, LaneCalls, StretchCalls, TrafficCalls
from streetsim.simulation.columns import Column
from streetsim.simulation.errors import NotHere, TraCIException
from streetsim.simulation.street_facts import LaneFacts
from streetsim.traci import constants as tc
from streetsim.traci.domain import Outlined


class WithTraffic(Outlined, TrafficCalls):
    """A domain of lanes, edges or detectors, by the vehicles that are there."""

    default_variables = (tc.LAST_STEP_VEHICLE_NUMBER,)

    def speeds(self, name: str) -> list[float]:
        """Metres a second of the vehicles there, in the order of `numbers`."""
        positions, links = self.session().view.positions, self.session().map.links
        return [positions[number].metres_a_second(links) for number in self.numbers(name)]

    def lengths(self, name: str) -> list[float]:
        """The metres of each vehicle's cells without the gap ahead, in the order of `numbers`; not those of its
        type."""
        size = self.session().fleet.size
        return [size(number) * METRES - GAP for number in self.numbers(name)]

    def getLastStepLength(self, name: str) -> float:
        """The mean length of the vehicles there, metres; 0 where there is nobody (in SUMO -1 on an induction loop)."""
        lengths = self.lengths(name)
        return sum(lengths) / len(lengths) if lengths else 0.0


class Stretches(WithTraffic, StretchCalls):
    """A domain of what has a length, on which vehicles can stand."""

    def metres(self, name: str) -> float:
        """The metres of road that vehicles can cover there; each class below gives its own."""
        raise NotImplementedError

    def getLastStepOccupancy(self, name: str) -> float:
        """The share of its length that those cover whose front is there, as in SUMO; it may be above 1."""
        return sum(self.lengths(name)) / self.metres(name)


class LaneDomain(LaneCalls, Stretches):
    """As SUMO's traci.lane: metres, metres a second, seconds. TraCIException for one that is not imported."""

    kind, name = "Lane", "lane"

    def outline(self, name: str) -> Line:
        """The points (x, y) of its link's line, in metres, which the lanes of a joint link share."""
        return self.session().map.links[self.link_lanes(name)[0][0]].shape

    def subjects(self) -> Collection[str]:
        """The names of all."""
        return self.session().lane_of.keys()

    def speeds(self, name: str) -> list[float]:
        """Metres a second of the vehicles there, in the order of `numbers`."""
        view, links = self.session().view, self.session().map.links
        return [
            speed * links[link_lane[0]].cell_metres
            for link_lane in self.link_lanes(name) for speed in view.speeds_on(link_lane)
        ]

    def column(self, variable: int, names: Sequence[str]) -> Column:
        """As Domain does."""
        if variable not in COLUMNS:
            return super().column(variable, names)
        columns = self.session().lane_columns
        values: Column = getattr(columns, COLUMNS[variable])(columns.slots_of(tuple(names)))
        return values

    def getLastStepVehicleNumber(self, name: str) -> int:
        """How many vehicles are there."""
        view = self.session().view
        return sum(len(view.speeds_on(link_lane)) for link_lane in self.link_lanes(name))

    def getLastStepHaltingNumber(self, name: str) -> int:
        """How many vehicles there stand."""
        view = self.session().view
        return sum(view.speeds_on(link_lane).count(0) for link_lane in self.link_lanes(name))

    def getLastStepMeanSpeed(self, name: str) -> float:
        """The mean speed of the vehicles there, metres a second; its limit where there are none, as in SUMO."""
        [link_lane] = self.link_lanes(name)
        speeds = self.session().view.speeds_on(link_lane)
        metres = self.session().map.links[link_lane[0]].cell_metres
        return float(metres * sum(speeds) / len(speeds)) if speeds else self.speed_of_nobody(name)

    def speed_of_nobody(self, name: str) -> float:
        """The mean speed where nobody is on it: its limit, metres a second, as in SUMO."""
        return self.getMaxSpeed(name)

    def metres(self, name: str) -> float:
        """Metres of the lane; of an edge, of all its lanes together."""
        links = self.session().map.links
        return sum(links[link].metres for link, _ in self.link_lanes(name))

    def getWaitingTime(self, name: str) -> float:
        """Seconds for which the vehicles on it have stood without a break, summed over them."""
        return float(self.session().tally.waiting[self.numbers(name)].sum())

    def getTraveltime(self, name: str) -> float:
        """Seconds for its length at the mean speed, 0.1 m/s at least (in SUMO 1,000,000 of a lane where all stand)."""
        return self.getLength(name) / max(0.1, self.getLastStepMeanSpeed(name))

    def lane_facts(self, name: str) -> LaneFacts:
        """What the network's file says of a lane; TraCIException where the import has no such lane."""
        self.check_known(name, self.session().lane_of)
        return self.session().facts.lanes[name]

    def getMaxSpeed(self, name: str) -> float:
        """The limit of SUMO's file, metres a second."""
        return self.lane_facts(name).speed

    def getPendingVehicles(self, name: str) -> tuple[str, ...]:
        """The vehicles that should have departed on it before now and wait for room."""
        session, link_lanes, waiting = self.session(), set(self.link_lanes(name)), []
        for number in session.waiting_to_depart():
            command = session.fleet.enters[number]
            waiting += [number] if (command["plan"][0], command["lane"]) in link_lanes else []
        return session.names_of(waiting)

    def getShape(self, name: str) -> Sequence[Point]:
        """The points of its line in SUMO's file, metres."""
        return self.lane_facts(name).shape

    def getWidth(self, name: str) -> float:
        """Its width in SUMO's file, metres."""
        return self.lane_facts(name).width

    def getAllowed(self, name: str) -> tuple[str, ...]:
        """The vehicle classes that may drive there by the network's file, closed or not; empty: all."""
        return self.lane_facts(name).allowed_classes

    def getDisallowed(self, name: str) -> tuple[str, ...]:
        """The vehicle classes that may not drive there by the network's file, closed or not."""
        return self.lane_facts(name).disallowed_classes

    def getFriction(self, name: str) -> float:
        """1.0: all roads are dry."""
        self.link_lanes(name)
        return 1.0

    def getLinkNumber(self, name: str) -> int:
        """How many connections of SUMO's network lead from it."""
        return len(self.lane_facts(name).links)

    def getLinks(self, name: str, extended: bool = True) -> list[tuple[object, ...]]:
        """For each connection of SUMO's from it: next lane, has it the right of way, has it green (False without a
        light), False (foes are not known); and extended: lane in the junction, SUMO's letters of the state now and of
        the direction, metres inside."""
        control, inside = self.session().control, self.session().facts.inside
        connections: list[tuple[object, ...]] = []
        for connection in self.lane_facts(name).links:
            has_light, via = connection.light in control.lights, connection.via
            state = control.state(connection.light)[connection.index] if has_light else connection.state
            marks = state in "GM", state in "Gg", False
            connections.append((connection.target, *marks, via, state, connection.direction, inside.get(via, 0.0)))
        return connections if extended else [entry[:4] for entry in connections]

    def getEdgeID(self, name: str) -> str:
        """The name of its edge."""
        return self.session().map.links[self.link_lanes(name)[0][0]].edge

    def close(self, lane: str) -> None:
        """Closes the whole lane; TraCIException where its vehicles could not change to the lane beside it."""
        if why := why_parallel(self.session().map, lane):
            raise TraCIException(f"{why}: traci.start([.., '--joint', {lane!r}])")
        super().close(lane)


COLUMNS = {
    tc.LAST_STEP_VEHICLE_NUMBER: "count", tc.LAST_STEP_VEHICLE_HALTING_NUMBER: "halting",
    tc.LAST_STEP_MEAN_SPEED: "mean_speed", tc.LAST_STEP_OCCUPANCY: "occupancy", tc.VAR_WAITING_TIME: "waiting",
}  # of LaneColumns, by variable


class EdgeDomain(LaneDomain):
    """As SUMO's traci.edge, of all lanes of an edge together. TraCIException for an edge that is not imported."""

    kind, name = "Edge", "edge"

    def getIDList(self) -> tuple[str, ...]:
        """The edges that the import kept; those inside junctions are not among them."""
        return tuple(self.session().map.links_of)

    def subjects(self) -> Collection[str]:
        """The names of all."""
        return self.session().map.links_of.keys()

    def link_lanes(self, name: str) -> list[Place]:
        """All its lanes, (link, lane); TraCIException for an unknown edge."""
        self.check_known(name, self.session().map.links_of)
        return self.session().lanes_on(name)

    def getLastStepVehicleIDs(self, name: str) -> tuple[str, ...]:
        """The names of the vehicles on it, lane after lane, and on each the rearmost first, as in SUMO."""
        session, link_lanes = self.session(), self.link_lanes(name)
        on_lane = session.view.on_lane
        return session.names_of(number for link_lane in link_lanes for number in reversed(on_lane(link_lane)))

    def getLastStepMeanSpeed(self, name: str) -> float:
        """The mean speed of the vehicles on it, metres a second; each empty lane counts as one at its limit, as in
        SUMO."""
        session, speeds = self.session(), self.speeds(name)
        empty = [link_lane for link_lane in self.link_lanes(name) if not session.view.on_lane(link_lane)]
        speeds += [session.facts.lanes[session.map.lane_name(*link_lane)].speed for link_lane in empty]
        return sum(speeds) / len(speeds)

    def column(self, variable: int, names: Sequence[str]) -> Column:
        """As Domain does: of an edge there is no column of its lanes."""
        return Outlined.column(self, variable, names)

    def getLaneNumber(self, name: str) -> int:
        """How many of its lanes the import kept; their indexes need not begin at 0."""
        return len(self.link_lanes(name))

    def getMaxSpeed(self, name: str) -> float:
        """The limit of the first lane that the import kept, in SUMO's file, metres a second."""
        return self.session().facts.lanes[self.session().map.lane_name(*self.link_lanes(name)[0])].speed

    def getStreetName(self, name: str) -> str:
        """The name of its street; empty where the network tells none."""
        self.check_known(name, self.session().map.links_of)
        return self.session().facts.streets.get(name, "")

    def getLastStepPersonIDs(self, name: str) -> tuple[str, ...]:
        """Empty: there are no persons."""
        self.check_known(name, self.session().map.links_of)
        return ()

    def adaptTraveltime(
        self, name: str, time: float | None = None, begin: float | None = None, end: float | None = None
    ) -> None:
        """Sets the seconds with which the edge counts for ways; None: those of traffic. NotHere with begin or end."""
        self.check_known(name, self.session().map.links_of)
        if begin is not None or end is not None:
            raise NotHere("edge.adaptTraveltime: times of day are not here; set the seconds when they begin to count")
        self.session().adapt(name, time)

    def getAdaptedTraveltime(self, name: str, time: float) -> float:
        """The seconds that adaptTraveltime set; -1 where it set none. time has no effect."""
        self.check_known(name, self.session().map.links_of)
        return float(self.session().paths.adapted.get(name, -1.0))

    def not_of_edges(self, name: str) -> NoReturn:
        """NotHere: SUMO tells this of lanes alone."""
        raise NotHere("edge: shape, width, connections and classes are those of its lanes")

    getMeanFriction = LaneDomain.getFriction
    getEdgeID = getShape = getWidth = getAllowed = getDisallowed = getLinkNumber = not_of_edges
    getLinks = not_of_edges  # type: ignore[assignment]

    def close(self, lane: str) -> None:
        """Closes a lane of the edge, by its name; none beside it need stay open, as setDisallowed closes all."""
        self.session().close_lane(lane)


class DetectorDomain(WithTraffic):
    """Detectors of additional files. TraCIException for one that is unknown or of another sort."""

    sort = ""

    def getIDList(self) -> tuple[str, ...]:
        """The names of the detectors of this sort."""
        return tuple(name for name, detector in self.session().detectors.items() if detector.kind == self.sort)

    def detector(self, name: str) -> Detector:
        """A detector of this sort by its name; TraCIException where there is none."""
        found_detector = self.session().detectors.get(name)
        if found_detector is None or found_detector.kind != self.sort:
            raise TraCIException(f"{self.kind} '{name}' is not known.")
        return found_detector

    def is_subject(self, name: str) -> bool:
        """Whether a detector of this sort has a name."""
        detector = self.session().detectors.get(name)
        return detector is not None and detector.kind == self.sort

    def getLaneID(self, name: str) -> str:
        """The name of the lane where it lies."""
        detector = self.detector(name)
        return self.session().map.lane_name(detector.link, detector.lane)

    def outline(self, name: str) -> Line:
        """A line of one point, where it begins, in metres."""
        detector = self.detector(name)
        link = self.session().map.links[detector.link]
        return [point_along(link.shape, detector.first / link.cells)]

    def getPosition(self, name: str) -> float:
        """Metres from the lane's begin to that of its first cell, which may be before the file's pos."""
        detector = self.detector(name)
        link = self.session().map.links[detector.link]
        return detector.first * link.metres / link.cells

    def speeds(self, name: str) -> list[float]:
        """Metres a second of the vehicles that it saw, in the order of `numbers`; of those that have left, the last."""
        positions = {**self.session().view.positions_before, **self.session().view.positions}
        metres = self.session().map.links[self.detector(name).link].cell_metres
        return [positions[number].speed * metres for number in self.numbers(name) if number in positions]


class InductionLoopDomain(DetectorDomain):
    """As SUMO's traci.inductionloop (e1): of the last step."""

    kind, name, sort = "Induction loop", "inductionloop", "e1"

    def numbers(self, name: str) -> list[int]:
        """The numbers of the vehicles that stood on it or drove over it in the last step."""
        return self.session().loops.vehicles_on(self.detector(name).name)

    def getLastStepOccupancy(self, name: str) -> float:
        """The percentage of the last step in which a vehicle covered it: 100 where one stands there, else by the
        lengths and speeds of those who drove over it."""
        detector, positions = self.detector(name), self.session().view.positions
        passing = [positions[number] for number in self.numbers(name) if number in positions]
        detector_cell = detector.link, detector.lane, detector.first
        if any((position.link, position.lane, position.cell) == detector_cell for position in passing):
            return 100.0
        lengths_and_speeds = zip(self.lengths(name), self.speeds(name))
        return min(100.0, sum(100 * metres / max(METRES, speed) for metres, speed in lengths_and_speeds))

    getLastStepMeanLength = WithTraffic.getLastStepLength

    def getTimeSinceDetection(self, name: str) -> float:
        """Seconds since a vehicle was on it; the clock where none was."""
        session = self.session()
        if name not in session.loops.index_of:
            self.detector(name)  # which says that it is not known
        return float(session.clock - session.loops.last_clock(name))


class LaneAreaDomain(Stretches, DetectorDomain):
    """As SUMO's traci.lanearea (e2): of the last step."""

    kind, name, sort = "Lane area detector", "lanearea", "e2"
    default_variables = (tc.JAM_LENGTH_VEHICLE,)

    def numbers(self, name: str) -> list[int]:
        """The numbers of the vehicles whose front is in it, from the stop line."""
        detector, view = self.detector(name), self.session().view
        on_lane = view.on_lane((detector.link, detector.lane))
        return [number for number in on_lane if detector.first <= view.positions[number].front_cell <= detector.last]

    def getLength(self, name: str) -> float:
        """Its length on whole cells, metres."""
        detector = self.detector(name)
        link = self.session().map.links[detector.link]
        return (detector.last - detector.first + 1) * link.metres / link.cells

    metres = getLength

    def getLastStepOccupancy(self, name: str) -> float:
        """The percentage of its length that those cover whose front is in it; it may be above 100."""
        return 100 * super().getLastStepOccupancy(name)

    def longest_jam(self, name: str) -> list[int]:
        """The numbers of the vehicles of the longest jam: they stand one behind the other without a gap, and one alone
        is a jam too; of equally many the one nearest to the stop line."""
        fleet, positions, rear = self.session().fleet, self.session().view.positions, -1
        longest: list[int] = []
        jam: list[int] = []
        for number in self.numbers(name):
            position = positions[number]
            jam = [] if position.speed else [*jam, number] if jam and rear == position.front_cell + 1 else [number]
            rear = position.front_cell - fleet.size(number) + 1
            longest = max(longest, jam, key=len)
        return longest

    def getJamLengthVehicle(self, name: str) -> int:
        """How many vehicles stand in the longest jam."""
        return len(self.longest_jam(name))

    def getJamLengthMeters(self, name: str) -> float:
        """Metres of the vehicles of the longest jam, with the gaps ahead of them."""
        return sum(self.session().fleet.size(number) * METRES for number in self.longest_jam(name))


class JunctionDomain(Outlined):
    """As SUMO's traci.junction: names, points and shapes. TraCIException for an unknown junction."""

    kind, name = "Junction", "junction"
    default_variables = (tc.VAR_POSITION,)

    def getIDList(self) -> tuple[str, ...]:
        """The junctions of the network, without the inner ones, where vehicles wait to turn."""
        return tuple(self.session().facts.junctions)

    def is_subject(self, name: str) -> bool:
        """Whether the network has a junction of a name."""
        return name in self.session().facts.junctions

    def getPosition(self, name: str) -> Point:
        """Its point (x, y), metres."""
        self.check_known(name, self.session().facts.junctions)
        return self.session().facts.junctions[name].point

    def getShape(self, name: str) -> Sequence[Point]:
        """The points of its outline, metres; empty where the file has none."""
        self.check_known(name, self.session().facts.junctions)
        return self.session().facts.junctions[name].shape

    def outline(self, name: str) -> Line:
        """The points of its shape, in metres, or its one point where it has no shape."""
        return self.getShape(name) or [self.getPosition(name)]
