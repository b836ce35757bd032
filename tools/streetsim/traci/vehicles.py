"""TraCI's vehicles and their types."""
from collections.abc import Callable, Collection, Iterable, Mapping, Sequence
from dataclasses import dataclass
from itertools import pairwise
from math import ceil

from streetsim.base import limits
from streetsim.base.files import only
from streetsim.base.shapes import Line
from streetsim.model.stops import Visit, bus_lines_of
from streetsim.simulation.calls import METRES, VehicleCalls
from streetsim.simulation.columns import Column
from streetsim.simulation.errors import NotHere, TraCIException
from streetsim.simulation.fleet import NOWHERE, OnRoad
from streetsim.simulation.rerouting import send_along
from streetsim.simulation.session import TraciSession
from streetsim.sumo.types import DEFAULT, Kind
from streetsim.traci import constants as tc
from streetsim.traci.advice import EFFORT
from streetsim.traci.domain import Outlined
from streetsim.traci.looks import Colour, LookDomain

COLUMNS = {
    tc.VAR_SPEED: "speed", tc.VAR_POSITION: "position", tc.VAR_ANGLE: "angle", tc.VAR_ROAD_ID: "road_name",
    tc.VAR_LANE_ID: "lane_name", tc.VAR_LANE_INDEX: "lane_index", tc.VAR_LANEPOSITION: "lane_position",
    tc.VAR_WAITING_TIME: "waiting", tc.VAR_ACCUMULATED_WAITING_TIME: "waited", tc.VAR_TIMELOSS: "lost",
}  # of VehicleColumns, by variable
FASTEST = 55.55555555555556  # metres a second of a type that tells no speed, as SUMO has it for cars
STOPPED_FLAG, AT_BUS_STOP = 1, 16  # SUMO's flags of one that stops
BRAKING = 4.5  # metres a second squared, of SUMO's usual vehicle: how far it looks ahead


@dataclass
class StopData:
    """A stop to come, as SUMO's scripts read it: metres, seconds, SUMO's flags of what it is; SUMO's value for "none"
    where there is no `until`."""

    lane: str
    startPos: float
    endPos: float
    stoppingPlaceID: str
    stopFlags: int
    duration: float
    until: float


class VehicleDomain(VehicleCalls, LookDomain, Outlined):
    """As SUMO's traci.vehicle: metres, metres a second, seconds; before it departs places and speeds are SUMO's value
    for "nowhere" (-1073741824). TraCIException for a vehicle that is not known or has ended."""

    kind, name = "Vehicle", "vehicle"
    default_variables, is_fixed = (tc.VAR_ROAD_ID, tc.VAR_LANEPOSITION), False

    def __init__(self, session: Callable[[], TraciSession]) -> None:
        """session: gives the session; FatalTraCIError where no run is under way."""
        super().__init__(session)
        self.colours: dict[str, tuple[int, ...]] = {}  # that scripts keep, by vehicle
        self.routing_modes: dict[str, int] = {}  # the same

    def forget(self) -> None:
        """Forgets subscriptions and what scripts keep, at the end of a run."""
        super().forget()
        self.colours.clear()
        self.routing_modes.clear()

    def forget_one(self, name: str) -> None:
        """Forgets subscriptions to a vehicle that has ended and what scripts keep of it, as its name is used again."""
        self.unsubscribe(name)
        self.contexts.pop(name, None)
        self.colours.pop(name, None)
        self.routing_modes.pop(name, None)
        self.forget_parameters(name)

    def getIDList(self) -> tuple[str, ...]:
        """The vehicles on lanes and in junctions, in no certain order (in SUMO sorted by name)."""
        return self.session().names_of(self.session().view.numbers)

    def subjects(self) -> Collection[str]:
        """The vehicles that have not ended, those that will depart among them."""
        ended = self.session().view.has_ended
        return [name for name, number in self.session().fleet.numbers.items() if not ended[number]]

    def is_subject(self, name: str) -> bool:
        """Whether a vehicle is known and has not ended."""
        return name in self.session().fleet.numbers and not self.session().has_ended(name)

    def existing(self, names: Iterable[str]) -> list[str]:
        """Of some vehicles those on the road, whose subscriptions are told."""
        numbers, rows = self.session().fleet.numbers, self.session().view.rows
        return [name for name in names if numbers.get(name) in rows]

    def columns(self, variables: Sequence[int], names: Sequence[str]) -> list[Column]:
        """As Domain does, of vehicles on the road."""
        columns, numbers = self.session().vehicle_columns, self.session().fleet.numbers
        rows = columns.rows_of([numbers[name] for name in names])
        return [
            getattr(columns, COLUMNS[variable])(rows) if variable in COLUMNS else self.column(variable, names)
            for variable in variables
        ]

    def look_up(self, name: str) -> tuple[int, OnRoad | None]:
        """(number in the fleet, where it is) of a vehicle; None before it departs. TraCIException where it has ended or
        is not known."""
        session = self.session()
        number = session.fleet.numbers.get(name, -1)
        position = session.view.position_of(number)
        if position is None and (number < 0 or session.view.has_ended[number]):
            raise TraCIException(f"Vehicle '{name}' is not known.")
        return number, position

    def on_road(self, name: str) -> OnRoad | None:
        """Where a vehicle is; None before it departs. TraCIException where it is not known or has ended."""
        return self.look_up(name)[1]

    def simulation_with(self, name: str) -> TraciSession:
        """The session, for a call on a vehicle; TraCIException where that is not known or has ended."""
        self.look_up(name)
        return self.session()

    def outline(self, name: str) -> Line:
        """A line of one point, that of its front, in metres."""
        return [self.getPosition(name)]

    # Where it is

    def getSpeedWithoutTraCI(self, name: str) -> float:
        """As getSpeed, metres a second: no call changes speeds."""
        return self.getSpeed(name)

    def getAcceleration(self, name: str) -> float:
        """Metres a second squared in the last step, in whole cells; 0 in the step in which it departed."""
        number, position = self.look_up(name)
        if position is None:
            return NOWHERE
        return (position.speed - self.session().view.positions_before.get(number, position).speed) * METRES

    def getPosition(self, name: str) -> tuple[float, float]:
        """The point (x, y) of its front on its link's line, which joint lanes share, or of its junction."""
        position = self.on_road(name)
        return (NOWHERE, NOWHERE) if position is None else self.session().vehicle_points.point(position)

    def getAngle(self, name: str) -> float:
        """Degrees clockwise from north; in a junction those at the end of the street from which it came."""
        position = self.on_road(name)
        return NOWHERE if position is None else self.session().vehicle_points.angle(position)

    def getDistance(self, name: str) -> float:
        """Metres driven since it departed."""
        number, position = self.look_up(name)
        if position is None:
            return NOWHERE
        first_link = self.session().map.links[self.session().fleet.plans[number][0]]
        travelled = float(self.session().tally.travelled[number])
        return travelled + self.metres_to_front(position) - first_link.metres / first_link.cells

    # How long it stands, and what it lost

    def getWaitingTime(self, name: str) -> float:
        """Seconds for which it has stood without a break."""
        return float(self.session().tally.waiting[self.look_up(name)[0]])

    def getAccumulatedWaitingTime(self, name: str) -> float:
        """Seconds for which it has stood in all (in SUMO in the last 100 s)."""
        return float(self.session().tally.waited[self.look_up(name)[0]])

    def getTimeLoss(self, name: str) -> float:
        """Seconds lost against free driving, 0 at least."""
        return max(0.0, float(self.session().tally.lost[self.look_up(name)[0]]))

    # Who it is

    def kind_of(self, name: str) -> Kind:
        """Its type, as SUMO's files have it."""
        return self.simulation_with(name).types.kind(name)

    def getTypeID(self, name: str) -> str:
        """The name of its type."""
        return self.simulation_with(name).types.type_name(name)

    def getVehicleClass(self, name: str) -> str:
        """SUMO's class of its type, as passenger or bus."""
        return self.kind_of(name).vclass

    def getMaxSpeed(self, name: str) -> float:
        """The greatest speed of its type in SUMO's files, metres a second; here the limit of its link alone counts."""
        return speed_of(self.kind_of(name))

    def getAllowedSpeed(self, name: str) -> float:
        """The limit of its lane (in SUMO times its speed factor), metres a second, or the greatest speed of its type
        where that is less; in a junction the latter alone, 55.6 at most."""
        position = self.on_road(name)
        if position is None:
            return NOWHERE
        limit = self.session().facts.lanes[self.getLaneID(name)].speed if position.cell is not None else FASTEST
        return min(limit, self.getMaxSpeed(name))

    def type_of(self, name: str) -> tuple[Kind, Mapping[str, str]]:
        """(its type, the attributes that the file of that has)."""
        kind = self.getTypeID(name)
        return self.kind_of(name), self.session().facts.types.get(kind, {})

    def getColor(self, name: str) -> Colour:
        """The colour (red, green, blue, opacity; 0 to 255) that a script set; else that of its type."""
        self.look_up(name)
        return self.colours.get(name) or self.colour_of_type(name)

    def getLine(self, name: str) -> str:
        """The line of public transport that it is of; empty where it is of none."""
        number, _ = self.look_up(name)
        lines = bus_lines_of(self.session().map.kinds, len(self.session().map.cars))
        return lines[number] if number < len(lines) else ""

    def getVia(self, name: str) -> tuple[str, ...]:
        """Empty: ways are whole."""
        self.look_up(name)
        return ()

    def getPersonIDList(self, name: str) -> tuple[str, ...]:
        """Empty: there are no persons."""
        self.look_up(name)
        return ()

    def getPersonNumber(self, name: str) -> int:
        """0: there are no persons."""
        self.look_up(name)
        return 0

    def getRoutingMode(self, name: str) -> int:
        """The mode that setRoutingMode set; else 0."""
        self.look_up(name)
        return self.routing_modes.get(name, tc.ROUTING_MODE_DEFAULT)

    def setRoutingMode(self, name: str, routingMode: int) -> None:
        """Keeps a mode, for getRoutingMode: ways are by the mean speeds of now, or by edge.adaptTraveltime, in each.
        NotHere for those by effort."""
        self.look_up(name)
        if routingMode in (tc.ROUTING_MODE_EFFORT, tc.ROUTING_MODE_COMBINED):
            raise NotHere(f"vehicle.setRoutingMode: {EFFORT}")
        self.routing_modes[name] = int(routingMode)

    def flat(self, name: str) -> float:
        """0.0: the plane is flat, and vehicles are in the middle of their lane."""
        self.look_up(name)
        return 0.0

    getSlope = getLateralLanePosition = getLateralSpeed = flat

    def setColor(self, name: str, color: Sequence[int]) -> None:
        """Keeps a colour, (red, green, blue, opacity; 0 to 255), for getColor; nothing shows it."""
        self.look_up(name)
        self.colours[name] = tuple(color)

    def highlight(self, name: str, *_: object, **__: object) -> None:
        """Does nothing: nothing shows it."""
        self.look_up(name)

    # Its way

    def getRouteIndex(self, name: str) -> int:
        """The position in its route, from 0, of the edge where it is or, in a junction, was; -1073741824 if none."""
        number, position = self.look_up(name)
        return tc.INVALID_INT_VALUE if position is None else self.session().tally.position(number)

    def getRouteID(self, name: str) -> str:
        """The name of its route; '!' and the vehicle's name where the route has none, or was changed."""
        return self.simulation_with(name).types.route_name(name)

    def isRouteValid(self, name: str) -> bool:
        """True: every vehicle's route can be driven, as others are refused."""
        self.look_up(name)
        return True

    def getNextTLS(self, name: str) -> tuple[tuple[str, int, float, str], ...]:
        """For each light ahead on its way (light, index of the signal, metres to the stop line, the signal's letter
        now), the nearest first; empty before it departs."""
        position, session, lights = self.on_road(name), self.session(), []
        if position is None:
            return ()
        metres = -self.metres_to_front(position)
        lane: int | None = position.lane
        for index, (link, following) in enumerate(pairwise(session.plan_ahead(name))):
            metres += session.map.links[link].metres
            turn = session.connections.turn_at_light(link, lane, following, session.control.lights)
            if turn and turn.light and (index or position.cell is not None):
                lights.append((turn.light, turn.index, metres, session.control.state(turn.light)[turn.index]))
            metres, lane = metres + session.inside.metres(link, lane, following), None
        return tuple(lights)

    def getDrivingDistance(self, name: str, edgeID: str, pos: float, laneIndex: int = 0) -> float:
        """Metres along its way to pos metres from an edge's begin; "nowhere" if that is not ahead, and before it
        departs. laneIndex has no effect. TraCIException for an unknown edge."""
        position, session = self.on_road(name), self.session()
        if position is None:
            return NOWHERE
        if edgeID not in session.map.links_of:
            raise TraCIException(f"Edge '{edgeID}' is not known.")
        metres, ahead = -self.metres_to_front(position), session.plan_ahead(name)
        lane: int | None = position.lane
        for link, following in zip(ahead, (*ahead[1:], None)):
            if session.map.links[link].edge == edgeID and metres + pos >= 0:
                return metres + pos
            if following is not None:
                metres += session.map.links[link].metres + session.inside.metres(link, lane, following)
                lane = None
        return NOWHERE

    # Who is before and behind it

    def getLeader(self, name: str, dist: float = 0.0) -> tuple[str, float] | None:
        """(vehicle, metres between the two, without the standing gap) of the next one ahead on its way: on its lane at
        any distance, further on within its braking distance or dist. None where there is nobody, before it departs, and
        where it is itself in a junction. One ahead in a junction counts as at its begin."""
        position = self.on_road(name)
        if position is None or position.cell is None:
            return None
        ahead = [number for number, spot in self.on_same_lane(position) if spot.front_cell > position.cell]
        if ahead:
            metres = self.metres_to_rear(ahead[-1], 0.0, self.metres_to_front(position))
            return self.session().fleet.names[ahead[-1]], metres
        reach = (position.speed * METRES) ** 2 / (2 * BRAKING) + position.speed * METRES
        return self.leader_further_on(name, position, max(dist, reach))

    def on_same_lane(self, position: OnRoad) -> list[tuple[int, OnRoad]]:
        """(number, where it is) of each vehicle on the lane of one (position), from the stop line."""
        view = self.session().view
        return [(number, view.positions[number]) for number in view.on_lane((position.link, position.lane))]

    def leader_further_on(self, name: str, position: OnRoad, reach: float) -> tuple[str, float] | None:
        """(vehicle, metres between the two) of the next one ahead, on the links of its way behind the one where a
        vehicle (name, position) is, within reach metres of its front; None where there is nobody."""
        session, lane = self.session(), position.lane
        metres = session.map.links[position.link].metres - self.metres_to_front(position)
        for link, following in pairwise(session.plan_ahead(name)):
            if metres > reach:
                return None
            if vehicles := session.view.in_buffer((link, lane)):
                return session.fleet.names[vehicles[-1]], metres
            metres += session.inside.metres(link, lane, following)
            lane = session.connections.next_lane(link, lane, following)
            if vehicles := session.view.on_lane((following, lane)):
                return session.fleet.names[vehicles[-1]], self.metres_to_rear(vehicles[-1], metres, 0.0)
            metres += session.map.links[following].metres
        return None

    def metres_to_rear(self, number: int, metres: float, front: float) -> float:
        """Metres, 0 at least, from a front, front metres along a link, to the rear of another vehicle (number: its
        number), whose link begins metres further on."""
        position = self.session().view.positions[number]
        link = self.session().map.links[position.link]
        rear = (position.front_cell + 1 - self.session().fleet.size(number)) * link.metres / link.cells
        return max(0.0, metres + rear - front)

    def getFollower(self, name: str, dist: float = 0.0) -> tuple[str, float]:
        """(vehicle, metres between the two, without the standing gap) of the next one behind it on its lane; ("", -1)
        where there is nobody, before it departs, and in a junction. dist has no effect."""
        number, position = self.look_up(name)
        if position is None or position.cell is None:
            return "", -1.0
        behind = [pair for pair in self.on_same_lane(position) if pair[1].front_cell < position.cell]
        if not behind:
            return "", -1.0
        follower, follower_position = behind[0]
        metres = self.metres_to_rear(number, 0.0, self.metres_to_front(follower_position))
        return self.session().fleet.names[follower], metres

    # Stops of the files

    def isStopped(self, name: str) -> bool:
        """Whether it stands at a stop of its own."""
        return self.session().stop_of(self.look_up(name)[0]) is not None

    def isAtBusStop(self, name: str) -> bool:
        """Whether it stands at a busStop or trainStop of its own."""
        return bool(self.getStopState(name) & AT_BUS_STOP)

    def getStopState(self, name: str) -> int:
        """SUMO's flags: 0 where it is at no stop of its own, 1 at a place of a lane, 17 at a busStop or trainStop."""
        stop = self.session().stop_of(self.look_up(name)[0])
        return 0 if stop is None else STOPPED_FLAG | self.place_flag(stop)

    def place_flag(self, stop: Visit) -> int:
        """SUMO's flag of a busStop or trainStop; 0 for a place of a lane."""
        return 0 if stop.stop.startswith(f"{self.session().map.lane_name(stop.link, stop.lane)}:") else AT_BUS_STOP

    def getStops(self, name: str, limit: int = 0) -> tuple[StopData, ...]:
        """Its stops to come, the one where it stands among them: so many (limit), 0: all. Empty for a limit below 0, by
        which SUMO tells those that are over."""
        visits = self.session().stops_to_come(self.look_up(name)[0])
        return tuple(map(self.stop_told, visits[: limit or None] if limit >= 0 else ()))

    def getNextStops(self, name: str) -> tuple[StopData, ...]:
        """All its stops to come (in SUMO six values of each)."""
        return self.getStops(name)

    def stop_told(self, visit: Visit) -> StopData:
        """A stop as scripts read it; its place is of whole cells."""
        link, flag = self.session().map.links[visit.link], self.place_flag(visit)
        size = link.metres / link.cells
        until = tc.INVALID_DOUBLE_VALUE if visit.until is None else float(visit.until)
        lane = self.session().map.lane_name(visit.link, visit.lane)
        begin, end = visit.first * size, (visit.last + 1) * size
        return StopData(lane, begin, end, visit.stop if flag else "", flag, float(visit.duration), until)

    def is_not(self, name: str) -> bool:
        """False: nobody parks, nor stands at a stop of another kind."""
        self.look_up(name)
        return False

    isStoppedParking = isStoppedTriggered = isAtContainerStop = is_not

    # In and out, and other ways

    def add(
        self, vehID: str, routeID: str, typeID: str = DEFAULT, depart: str | float | None = None,
        *_: object, **__: object,
    ) -> None:  # fmt: skip
        """Adds a vehicle on a route of the files or of route.add, in the first cell of a lane that leads on. depart:
        None, "now", "triggered", -2 and -3: now, else seconds (rounded up; at once where that is over). Further
        arguments, as departLane or departPos, have no effect. TraCIException where its name is taken, also by one of
        the file that is to come, route or type is unknown, its edges have no connection, or as of clock_of."""
        session = self.session()
        if typeID not in session.types.kinds:
            raise TraCIException(f"Vehicle type '{typeID}' is not known.")
        at_once = depart is None or depart in ("now", "triggered", -2, "-2", -3)
        if session.add(vehID, routeID, typeID, session.clock if at_once else clock_of(vehID, depart)):
            self.forget_one(vehID)

    addFull = add

    def remove(self, name: str, reason: object = None) -> None:
        """Takes a vehicle out; TraCIException before the program was told of it. reason has no effect."""
        self.look_up(name)
        if self.session().fleet.car(name) is None:
            raise TraCIException(f"Vehicle '{name}' has not departed yet.")
        self.session().remove(name)

    def setRoute(self, name: str, edgeList: Sequence[str]) -> None:
        """Sets another route, from the edge on where the vehicle is or will depart. One on the road takes it from the
        next node on: there it is taken out and entered anew, with another number and other random draws. TraCIException
        where the route begins elsewhere, or its edges have no connection."""
        send_along(self.session(), name, self.on_road(name), list(edgeList))

    def setRouteID(self, name: str, routeID: str) -> None:
        """As setRoute, with a named route from the edge on where it is, in a junction the whole route."""
        session = self.session()
        edges = session.edge_names(session.route_links(routeID))
        edge = self.getRoadID(name)
        ahead = edges[edges.index(edge) :] if edge in edges else edges
        send_along(session, name, self.on_road(name), ahead)
        session.note_route(name, routeID)

    def changeTarget(self, name: str, edgeID: str) -> None:
        """As setRoute, with the way to another edge that is quickest now, as findRoute has it."""
        session, position = self.session(), self.on_road(name)
        edges = self.getRoute(name)
        edge = edges[0] if position is None else session.map.links[position.link].edge
        send_along(session, name, position, session.edge_names(session.paths.quickest_path(edge, edgeID)[0]))

    def rerouteTraveltime(self, name: str, currentTravelTimes: bool = True) -> None:
        """As changeTarget, to its last edge; currentTravelTimes has no effect."""
        self.changeTarget(name, self.getRoute(name)[-1])


class VehicleTypeDomain(LookDomain):
    """As SUMO's traci.vehicletype, of the files' types: metres, metres a second. TraCIException for an unknown one."""

    kind, name = "Vehicle type", "vehicletype"
    default_variables = (tc.VAR_MAXSPEED,)

    def getIDList(self) -> tuple[str, ...]:
        """The names of the files' types, sorted, without those of SUMO's own that no file tells but DEFAULT_VEHTYPE."""
        return tuple(sorted(self.session().types.kinds))

    def kind_named(self, name: str) -> Kind:
        """A type by its name; TraCIException where there is none."""
        self.check_known(name, self.session().types.kinds)
        return self.session().types.kinds[name]

    def type_of(self, name: str) -> tuple[Kind, Mapping[str, str]]:
        """(the type, the attributes that its file has)."""
        return self.kind_named(name), self.session().facts.types.get(name, {})

    def getColor(self, name: str) -> Colour:
        """Its colour in the file, where that has numbers; else SUMO's yellow."""
        return self.colour_of_type(name)

    def getLength(self, name: str) -> float:
        """Its length in SUMO's files, metres; vehicles take whole cells here."""
        return self.kind_named(name).length

    def getMinGap(self, name: str) -> float:
        """The gap ahead of it when it stands, in SUMO's files, metres."""
        return self.kind_named(name).gap

    def getVehicleClass(self, name: str) -> str:
        """Its SUMO class, as passenger or bus."""
        return self.kind_named(name).vclass

    def getMaxSpeed(self, name: str) -> float:
        """Its greatest speed in SUMO's files, metres a second; 55.6 where they tell none."""
        return speed_of(self.kind_named(name))


def clock_of(name: str, depart: object) -> int:
    """The clock of a departure at seconds that a script says, rounded up; TraCIException but for 0 to limits.CLOCK."""
    try:
        return ceil(only(float, lambda time: 0 <= time <= limits.CLOCK)(str(depart)))
    except ValueError:
        raise TraCIException(f"Invalid departure time for vehicle '{name}': {depart!r}") from None


def speed_of(kind: Kind) -> float:
    """The greatest speed of a type, metres a second; 55.6, that of SUMO's cars, where the type tells none."""
    return FASTEST if kind.speed is None else kind.speed
