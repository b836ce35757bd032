"""TraCI's simulation and routes."""
import sys
from collections.abc import Iterable, Sequence
from dataclasses import dataclass
from math import hypot

from streetsim.base.files import seconds
from streetsim.base.shapes import Point, lengths, nearest, point_along
from streetsim.simulation.calls import SimulationCalls
from streetsim.simulation.errors import NotHere, TraCIException
from streetsim.simulation.saving import load_state, save_state
from streetsim.simulation.street_facts import LaneFacts
from streetsim.traci import constants as tc
from streetsim.traci.domain import Domain, VariableValues


@dataclass
class Stage:
    """A part of a way, as SUMO's scripts read it: seconds and metres; SUMO's value for "none" where nothing is told."""

    type: int = tc.INVALID_INT_VALUE
    vType: str = ""
    line: str = ""
    destStop: str = ""
    edges: tuple[str, ...] = ()
    travelTime: float = tc.INVALID_DOUBLE_VALUE
    cost: float = tc.INVALID_DOUBLE_VALUE
    length: float = tc.INVALID_DOUBLE_VALUE
    intended: str = ""
    depart: float = tc.INVALID_DOUBLE_VALUE
    departPos: float = tc.INVALID_DOUBLE_VALUE
    arrivalPos: float = tc.INVALID_DOUBLE_VALUE
    description: str = ""


class SimulationDomain(Domain, SimulationCalls):
    """As SUMO's traci.simulation: seconds, metres; lists and counts are of the steps of the last simulationStep."""

    kind, name = "Simulation", "simulation"
    default_variables = (tc.VAR_DEPARTED_VEHICLES_IDS,)

    def subjects(self) -> tuple[str, ...]:
        """The empty name that the one simulation has."""
        return ("",)

    def getIDCount(self) -> int:
        """1: there is one simulation."""
        return len(self.subjects())

    # Time and vehicles

    def getCurrentTime(self) -> int:
        """The clock in milliseconds."""
        return self.session().clock * 1000

    def getDeltaT(self) -> float:
        """1.0: the seconds of a step."""
        return 1.0

    def getEndTime(self) -> float:
        """The end that the words or the configuration name, seconds, and which ends nothing here; -1 without one."""
        return seconds(self.session().options.get("end", "-1"))

    def getScale(self) -> float:
        """1.0: the demand is as in the files."""
        return 1.0

    def getOption(self, option: str) -> str:
        """The text of an option that was given, by its long name without "--"; TraCIException for those left out."""
        if option not in self.session().options:
            raise TraCIException(f"Option '{option}' was not given.")
        return self.session().options[option]

    def getLoadedIDList(self) -> tuple[str, ...]:
        """The vehicles of the files that would depart in the last steps, and those that the script has added since."""
        return tuple(self.session().loaded)

    def getLoadedNumber(self) -> int:
        """How many vehicles getLoadedIDList names."""
        return len(self.session().loaded)

    def getDepartedIDList(self) -> tuple[str, ...]:
        """The vehicles that departed."""
        return self.session().departed

    def getDepartedNumber(self) -> int:
        """How many vehicles getDepartedIDList names."""
        return len(self.session().departed)

    def getArrivedIDList(self) -> tuple[str, ...]:
        """The vehicles that arrived."""
        return self.session().arrived

    def getArrivedNumber(self) -> int:
        """How many vehicles getArrivedIDList names."""
        return len(self.session().arrived)

    def getPendingVehicles(self) -> tuple[str, ...]:
        """The vehicles that should have departed before now and wait for room."""
        return self.session().names_of(self.session().waiting_to_depart())

    def getStopStartingVehiclesIDList(self) -> tuple[str, ...]:
        """The vehicles that came to stand at stops of theirs in the steps of the last simulationStep."""
        return self.session().names_of(sorted(self.session().began_stops))

    def getStopStartingVehiclesNumber(self) -> int:
        """How many vehicles getStopStartingVehiclesIDList names."""
        return len(self.session().began_stops)

    def getStopEndingVehiclesIDList(self) -> tuple[str, ...]:
        """The vehicles that left such stops in these steps."""
        return self.session().names_of(sorted(self.session().ended_stops))

    def getStopEndingVehiclesNumber(self) -> int:
        """How many vehicles getStopEndingVehiclesIDList names."""
        return len(self.session().ended_stops)

    def zero(self) -> int:
        """0, as nobody is moved away, collides, parks or walks under a script."""
        return 0

    def no_names(self) -> tuple[str, ...]:
        """An empty tuple, as `zero`."""
        return ()

    getStartingTeleportNumber = getEndingTeleportNumber = getCollidingVehiclesNumber = zero
    getEmergencyStoppingVehiclesNumber = getParkingStartingVehiclesNumber = getParkingEndingVehiclesNumber = zero
    getDepartedPersonNumber = getArrivedPersonNumber = zero
    getStartingTeleportIDList = getEndingTeleportIDList = getCollidingVehiclesIDList = getCollisions = no_names
    getEmergencyStoppingVehiclesIDList = getParkingStartingVehiclesIDList = getParkingEndingVehiclesIDList = no_names
    getDepartedPersonIDList = getArrivedPersonIDList = no_names

    # Places and ways

    def getNetBoundary(self) -> tuple[Point, Point]:
        """The lower left and the upper right corner of the network, (x, y) in metres."""
        return self.session().facts.boundary

    def convert2D(self, edgeID: str, pos: float, laneIndex: int = 0, toGeo: bool = False) -> Point:
        """The point (x, y) in metres of a place on a lane; pos: metres from its begin. TraCIException where there is no
        such lane or place, NotHere for degrees (toGeo)."""
        if toGeo:
            raise NotHere("simulation.convert2D: degrees are not here; streetsim-export writes them")
        lane = self.lane_with(edgeID, pos, laneIndex)
        return point_along(lane.shape, pos / lane.metres)

    def convertRoad(self, x: float, y: float, isGeo: bool = False, vClass: str = "ignoring") -> tuple[str, float, int]:
        """(edge, metres from its begin, index of the lane) of the place on any lane that is nearest to a point (x, y).
        NotHere for degrees (isGeo); vClass has no effect."""
        if isGeo:
            raise NotHere("simulation.convertRoad: degrees are not here")
        session = self.session()
        shapes = {name: session.facts.lanes[name].shape for name in session.lane_of}
        lane = min(shapes, key=lambda name: nearest((x, y), shapes[name])[0])
        edge, _, index = lane.rpartition("_")
        metres, drawn = session.facts.lanes[lane].metres, sum(lengths(shapes[lane])) or 1
        return edge, min(metres, nearest((x, y), shapes[lane])[1] * metres / drawn), int(index)

    def lane_with(self, edge: str, pos: float, index: int = 0) -> LaneFacts:
        """What the network's file says of a lane, imported or not, of an edge that is imported; TraCIException for any
        other, or if pos (metres) is not on it."""
        session, name = self.session(), f"{edge}_{index}"
        if edge not in session.map.links_of or name not in session.facts.lanes:
            raise TraCIException(f"Lane '{name}' is not known.")
        lane = session.facts.lanes[name]
        if not 0 <= pos <= lane.metres:
            raise TraCIException(f"Lane '{name}' has {lane.metres:g} m, and no place at {pos:g} m.")
        return lane

    def getDistance2D(
        self, x1: float, y1: float, x2: float, y2: float, isGeo: bool = False, isDriving: bool = False
    ) -> float:
        """Metres between two points in a straight line, or (isDriving) as of getDistanceRoad between the places on
        roads that are nearest to them. NotHere for degrees (isGeo)."""
        if isGeo:
            raise NotHere("simulation.getDistance2D: degrees are not here")
        if not isDriving:
            return hypot(x2 - x1, y2 - y1)
        (edge1, pos1, _), (edge2, pos2, _) = self.convertRoad(x1, y1), self.convertRoad(x2, y2)
        return self.getDistanceRoad(edge1, pos1, edge2, pos2, True)

    def getDistanceRoad(self, edgeID1: str, pos1: float, edgeID2: str, pos2: float, isDriving: bool = False) -> float:
        """Metres between two places on edges, metres (pos1, pos2) from the begins of their lanes 0: in a straight line,
        or (isDriving) on the shortest way, through its junctions, back along an edge by the way round. TraCIException
        where there is no way (in SUMO "nowhere"), or no such lane or place."""
        if not isDriving:
            return self.getDistance2D(*self.convert2D(edgeID1, pos1), *self.convert2D(edgeID2, pos2))
        self.lane_with(edgeID1, pos1)
        last_lane = self.lane_with(edgeID2, pos2)
        if edgeID1 == edgeID2 and pos1 <= pos2:
            return float(pos2 - pos1)
        return self.session().paths.shortest_metres(edgeID1, edgeID2) - pos1 - (last_lane.metres - pos2)

    def findRoute(
        self, fromEdge: str, toEdge: str, vType: str = "", depart: float = -1.0, routingMode: int = 0
    ) -> Stage:
        """The way between two edges that is quickest now, with the times of edge.adaptTraveltime; TraCIException where
        there is none (in SUMO an empty Stage). vType is only noted in it; depart and routingMode have no effect."""
        session = self.session()
        links, seconds = session.paths.quickest_path(fromEdge, toEdge)
        edges = session.edge_names(links)
        metres = sum(session.map.links[link].metres for link in links) + session.inside.metres_along(links)
        return Stage(tc.STAGE_DRIVING, vType, edges=edges, travelTime=seconds, cost=seconds, length=metres)

    # States

    def saveState(self, fileName: str) -> None:
        """Writes the state to a file, without parameters, colours and subscriptions; Fault (streetsim.files) where that
        fails. Merging before works begins anew from here."""
        save_state(self.session(), fileName)

    def loadState(self, fileName: str) -> None:
        """Brings the run to a state that saveState wrote in a run of the same files and words; output files are written
        anew up to there. TraCIException for other files; Fault (streetsim.files) for a file that was changed since."""
        load_state(self.session(), fileName)

    def writeMessage(self, msg: str) -> None:
        """Prints a text on standard error."""
        print(msg, file=sys.stderr)

    # Subscriptions

    def subscribe(  # type: ignore[override]  # there is one simulation, which has no name
        self, varIDs: Sequence[int] | None = None, begin: object = None, end: object = None
    ) -> None:
        """As of other domains, without a name."""
        self.note_subscription("", varIDs)

    def unsubscribe(self) -> None:  # type: ignore[override]
        """Ends the subscription to the simulation."""
        self.subscribed.clear()

    def getSubscriptionResults(self) -> VariableValues:  # type: ignore[override]
        """What was subscribed to, as it is now, by the variables' numbers; empty without a subscription."""
        return {variable: getattr(self, self.variables[variable])() for variable in self.subscribed.get("", ())}

    def getAllSubscriptionResults(self) -> dict[str, VariableValues]:
        """What getSubscriptionResults gives, under an empty name; empty without a subscription."""
        return {"": self.getSubscriptionResults()} if self.subscribed else {}


class RouteDomain(Domain):
    """As SUMO's traci.route: names and edges."""

    kind, name = "Route", "route"
    default_variables = (tc.VAR_EDGES,)

    def getIDList(self) -> tuple[str, ...]:
        """The routes of the files that have a name, and those that route.add named."""
        return tuple(dict.fromkeys((*self.session().facts.routes, *self.session().routes)))

    def add(self, name: str, edges: Iterable[str]) -> None:
        """Names a route along edges; TraCIException where the name is taken, or they are unknown or not connected."""
        session = self.session()
        if name in session.routes or name in session.facts.routes:
            raise TraCIException(f"Route '{name}' exists already.")
        try:
            session.name_route(name, session.connections.plan_along(list(edges)))
        except ValueError as fault:
            raise TraCIException(f"Route '{name}': {fault}") from None

    def getEdges(self, name: str) -> tuple[str, ...]:
        """The edges of a route; TraCIException for an unknown name."""
        self.check_known(name, self.getIDList())
        session = self.session()
        if name in session.facts.routes:
            return session.facts.routes[name]
        return session.edge_names(session.routes[name])
