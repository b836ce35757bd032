"""Which call answers which command and variable of TraCI's protocol, and of what types its words and value are.

Types are those of `protocol`. A new call needs its method and a line here; it is then told, subscribed to, served."""
from collections.abc import Mapping
from typing import NamedTuple

from streetsim.traci import constants as tc
from streetsim.traci.absent import ABSENT


class Get(NamedTuple):
    """A call that tells something."""

    call: str
    gives: str  # type of its value
    takes: str = ""  # types of its words behind the name of the object


class Numbers(NamedTuple):
    """The numbers of the commands of a domain."""

    get: int
    set: int
    subscribe: int
    context: int


DOMAINS = {
    name: Numbers(*(getattr(tc, f"CMD_{text}") for text in (
        f"GET_{part}_VARIABLE", f"SET_{part}_VARIABLE", f"SUBSCRIBE_{part}_VARIABLE", f"SUBSCRIBE_{part}_CONTEXT"
    ))) for name, part in (
        ("inductionloop", "INDUCTIONLOOP"), ("multientryexit", "MULTIENTRYEXIT"), ("trafficlight", "TL"),
        ("lane", "LANE"), ("vehicle", "VEHICLE"), ("vehicletype", "VEHICLETYPE"), ("route", "ROUTE"), ("poi", "POI"),
        ("polygon", "POLYGON"), ("junction", "JUNCTION"), ("edge", "EDGE"), ("simulation", "SIM"), ("gui", "GUI"),
        ("lanearea", "LANEAREA"), ("person", "PERSON"), ("busstop", "BUSSTOP"), ("parkingarea", "PARKINGAREA"),
        ("chargingstation", "CHARGINGSTATION"), ("routeprobe", "ROUTEPROBE"), ("calibrator", "CALIBRATOR"),
        ("rerouter", "REROUTER"), ("variablespeedsign", "VARIABLESPEEDSIGN"), ("meandata", "MEANDATA"),
        ("overheadwire", "OVERHEADWIRE"),
    )
}  # fmt: skip

Table = Mapping[int, Get]
LISTED: Table = {tc.TRACI_ID_LIST: Get("getIDList", "l"), tc.ID_COUNT: Get("getIDCount", "i")}
WITH_PARAMETERS: Table = {
    **LISTED, tc.VAR_PARAMETER: Get("getParameter", "s", "s"),
    tc.VAR_PARAMETER_WITH_KEY: Get("getParameterWithKey", "pair", "s"),
}
TRAFFIC: Table = {
    **WITH_PARAMETERS, tc.LAST_STEP_VEHICLE_NUMBER: Get("getLastStepVehicleNumber", "i"),
    tc.LAST_STEP_MEAN_SPEED: Get("getLastStepMeanSpeed", "d"),
    tc.LAST_STEP_VEHICLE_ID_LIST: Get("getLastStepVehicleIDs", "l"),
    tc.LAST_STEP_OCCUPANCY: Get("getLastStepOccupancy", "d"), tc.LAST_STEP_LENGTH: Get("getLastStepLength", "d"),
}
STRETCH: Table = {**TRAFFIC, tc.LAST_STEP_VEHICLE_HALTING_NUMBER: Get("getLastStepHaltingNumber", "i")}
TYPE: Table = {
    tc.VAR_LENGTH: Get("getLength", "d"), tc.VAR_MAXSPEED: Get("getMaxSpeed", "d"),
    tc.VAR_VEHICLECLASS: Get("getVehicleClass", "s"), tc.VAR_MINGAP: Get("getMinGap", "d"),
    tc.VAR_COLOR: Get("getColor", "c"), tc.VAR_WIDTH: Get("getWidth", "d"), tc.VAR_HEIGHT: Get("getHeight", "d"),
    tc.VAR_EMISSIONCLASS: Get("getEmissionClass", "s"), tc.VAR_SHAPECLASS: Get("getShapeClass", "s"),
    tc.VAR_PERSON_CAPACITY: Get("getPersonCapacity", "i"), tc.VAR_ACTIONSTEPLENGTH: Get("getActionStepLength", "d"),
    tc.VAR_LATALIGNMENT: Get("getLateralAlignment", "s"),
}
LANE: Table = {
    **STRETCH, tc.VAR_MAXSPEED: Get("getMaxSpeed", "d"), tc.VAR_LENGTH: Get("getLength", "d"),
    tc.VAR_CURRENT_TRAVELTIME: Get("getTraveltime", "d"), tc.VAR_WAITING_TIME: Get("getWaitingTime", "d"),
    tc.VAR_PENDING_VEHICLES: Get("getPendingVehicles", "l"), tc.VAR_FRICTION: Get("getFriction", "d"),
    tc.VAR_WIDTH: Get("getWidth", "d"), tc.VAR_SHAPE: Get("getShape", "p"), tc.LANE_ALLOWED: Get("getAllowed", "l"),
    tc.LANE_DISALLOWED: Get("getDisallowed", "l"), tc.LANE_LINK_NUMBER: Get("getLinkNumber", "i"),
    tc.LANE_LINKS: Get("getLinks", "turns"), tc.LANE_EDGE_ID: Get("getEdgeID", "s"),
}
GETS: Mapping[str, Table] = {
    "vehicle": {
        **WITH_PARAMETERS, **TYPE, tc.VAR_SPEED: Get("getSpeed", "d"), tc.VAR_POSITION: Get("getPosition", "o"),
        tc.VAR_ANGLE: Get("getAngle", "d"), tc.VAR_TYPE: Get("getTypeID", "s"), tc.VAR_ROAD_ID: Get("getRoadID", "s"),
        tc.VAR_LANE_ID: Get("getLaneID", "s"), tc.VAR_LANE_INDEX: Get("getLaneIndex", "i"),
        tc.VAR_ROUTE_ID: Get("getRouteID", "s"), tc.VAR_ROUTE_INDEX: Get("getRouteIndex", "i"),
        tc.VAR_EDGES: Get("getRoute", "l"), tc.VAR_LANEPOSITION: Get("getLanePosition", "d"),
        tc.VAR_DISTANCE: Get("getDistance", "d"), tc.VAR_ALLOWED_SPEED: Get("getAllowedSpeed", "d"),
        tc.VAR_ACCELERATION: Get("getAcceleration", "d"), tc.VAR_NEXT_TLS: Get("getNextTLS", "lights"),
        tc.VAR_LEADER: Get("getLeader", "neighbour", "d"), tc.VAR_FOLLOWER: Get("getFollower", "neighbour", "d"),
        tc.VAR_WAITING_TIME: Get("getWaitingTime", "d"), tc.VAR_TIMELOSS: Get("getTimeLoss", "d"),
        tc.VAR_ACCUMULATED_WAITING_TIME: Get("getAccumulatedWaitingTime", "d"),
        tc.VAR_SPEED_WITHOUT_TRACI: Get("getSpeedWithoutTraCI", "d"), tc.VAR_ROUTE_VALID: Get("isRouteValid", "i"),
        tc.VAR_STOPSTATE: Get("getStopState", "i"), tc.VAR_NEXT_STOPS: Get("getNextStops", "next stops"),
        tc.VAR_NEXT_STOPS2: Get("getStops", "stops", "i"), tc.VAR_LINE: Get("getLine", "s"),
        tc.VAR_VIA: Get("getVia", "l"), tc.VAR_PERSON_NUMBER: Get("getPersonNumber", "i"),
        tc.LAST_STEP_PERSON_ID_LIST: Get("getPersonIDList", "l"), tc.VAR_SLOPE: Get("getSlope", "d"),
        tc.VAR_LANEPOSITION_LAT: Get("getLateralLanePosition", "d"), tc.VAR_SPEED_LAT: Get("getLateralSpeed", "d"),
        tc.VAR_ROUTING_MODE: Get("getRoutingMode", "i"),
    },
    "vehicletype": {**WITH_PARAMETERS, **TYPE},
    "lane": LANE,
    "edge": {
        **{variable: get for variable, get in LANE.items() if variable not in (
            tc.VAR_WIDTH, tc.VAR_SHAPE, tc.LANE_ALLOWED, tc.LANE_DISALLOWED, tc.LANE_LINK_NUMBER, tc.LANE_LINKS,
            tc.LANE_EDGE_ID, tc.VAR_FRICTION,
        )},
        tc.VAR_LANE_INDEX: Get("getLaneNumber", "i"), tc.VAR_NAME: Get("getStreetName", "s"),
        tc.LAST_STEP_PERSON_ID_LIST: Get("getLastStepPersonIDs", "l"), tc.VAR_FRICTION: Get("getMeanFriction", "d"),
        tc.VAR_EDGE_TRAVELTIME: Get("getAdaptedTraveltime", "d", "d"),
    },
    "junction": {**WITH_PARAMETERS, tc.VAR_POSITION: Get("getPosition", "o"), tc.VAR_SHAPE: Get("getShape", "p")},
    "trafficlight": {
        **WITH_PARAMETERS, tc.TL_RED_YELLOW_GREEN_STATE: Get("getRedYellowGreenState", "s"),
        tc.TL_PHASE_DURATION: Get("getPhaseDuration", "d"), tc.TL_CONTROLLED_LANES: Get("getControlledLanes", "l"),
        tc.TL_CONTROLLED_LINKS: Get("getControlledLinks", "signals"), tc.TL_CURRENT_PHASE: Get("getPhase", "i"),
        tc.TL_CURRENT_PROGRAM: Get("getProgram", "s"), tc.TL_NEXT_SWITCH: Get("getNextSwitch", "d"),
        tc.TL_COMPLETE_DEFINITION_RYG: Get("getAllProgramLogics", "logics"), tc.VAR_NAME: Get("getPhaseName", "s"),
        tc.VAR_PERSON_NUMBER: Get("getServedPersonCount", "i", "i"),
    },
    "inductionloop": {
        **TRAFFIC, tc.LAST_STEP_TIME_SINCE_DETECTION: Get("getTimeSinceDetection", "d"),
        tc.VAR_POSITION: Get("getPosition", "d"), tc.VAR_LANE_ID: Get("getLaneID", "s"),
        tc.LAST_STEP_LENGTH: Get("getLastStepMeanLength", "d"),
    },
    "lanearea": {
        **STRETCH, tc.JAM_LENGTH_VEHICLE: Get("getJamLengthVehicle", "i"),
        tc.JAM_LENGTH_METERS: Get("getJamLengthMeters", "d"), tc.VAR_POSITION: Get("getPosition", "d"),
        tc.VAR_LENGTH: Get("getLength", "d"), tc.VAR_LANE_ID: Get("getLaneID", "s"),
    },
    "route": {**WITH_PARAMETERS, tc.VAR_EDGES: Get("getEdges", "l")},
    "busstop": {
        **WITH_PARAMETERS, tc.VAR_LANE_ID: Get("getLaneID", "s"), tc.VAR_POSITION: Get("getStartPos", "d"),
        tc.VAR_LANEPOSITION: Get("getEndPos", "d"), tc.VAR_NAME: Get("getName", "s"),
        tc.VAR_STOP_STARTING_VEHICLES_NUMBER: Get("getVehicleCount", "i"),
        tc.VAR_STOP_STARTING_VEHICLES_IDS: Get("getVehicleIDs", "l"),
        tc.VAR_BUS_STOP_WAITING: Get("getPersonCount", "i"), tc.VAR_BUS_STOP_WAITING_IDS: Get("getPersonIDs", "l"),
    },
    **dict.fromkeys(ABSENT, LISTED),
    "person": {**LISTED, tc.VAR_TAXI_RESERVATIONS: Get("getTaxiReservations", "no parts", "i")},
    "simulation": {
        tc.ID_COUNT: Get("getIDCount", "i"), tc.VAR_TIME: Get("getTime", "d"),
        tc.VAR_TIME_STEP: Get("getCurrentTime", "i"),
        tc.VAR_DELTA_T: Get("getDeltaT", "d"), tc.VAR_END: Get("getEndTime", "d"), tc.VAR_SCALE: Get("getScale", "d"),
        tc.VAR_NET_BOUNDING_BOX: Get("getNetBoundary", "p"), tc.VAR_COLLISIONS: Get("getCollisions", "none"),
        tc.VAR_MIN_EXPECTED_VEHICLES: Get("getMinExpectedNumber", "i"),
        tc.VAR_PENDING_VEHICLES: Get("getPendingVehicles", "l"), tc.VAR_PARAMETER: Get("getParameter", "s", "s"),
        tc.VAR_PARAMETER_WITH_KEY: Get("getParameterWithKey", "pair", "s"),
        **{getattr(tc, f"VAR_{name}_{what}"): Get(f"get{call}{end}", letter) for name, call in (
            ("LOADED_VEHICLES", "Loaded"), ("DEPARTED_VEHICLES", "Departed"), ("ARRIVED_VEHICLES", "Arrived"),
            ("DEPARTED_PERSONS", "DepartedPerson"), ("ARRIVED_PERSONS", "ArrivedPerson"),
            ("PARKING_STARTING_VEHICLES", "ParkingStartingVehicles"),
            ("PARKING_ENDING_VEHICLES", "ParkingEndingVehicles"),
            ("STOP_STARTING_VEHICLES", "StopStartingVehicles"), ("STOP_ENDING_VEHICLES", "StopEndingVehicles"),
            ("COLLIDING_VEHICLES", "CollidingVehicles"), ("EMERGENCYSTOPPING_VEHICLES", "EmergencyStoppingVehicles"),
            ("TELEPORT_STARTING_VEHICLES", "StartingTeleport"), ("TELEPORT_ENDING_VEHICLES", "EndingTeleport"),
        ) for what, end, letter in (("NUMBER", "Number", "i"), ("IDS", "IDList", "l"))},
        tc.FIND_ROUTE: Get("findRoute", "stage", "tsssdi"),
    },
}  # fmt: skip

# By domain and variable: (call, types of its words behind the name of the object).
SETS: Mapping[str, Mapping[int, tuple[str, str]]] = {
    "vehicle": {
        tc.VAR_PARAMETER: ("setParameter", "tss"), tc.VAR_COLOR: ("setColor", "c"), tc.REMOVE: ("remove", "b"),
        tc.VAR_ROUTE: ("setRoute", "l"), tc.VAR_ROUTE_ID: ("setRouteID", "s"), tc.ADD_FULL: ("add", f"t{12 * 's'}ii"),
        tc.CMD_CHANGETARGET: ("changeTarget", "s"), tc.CMD_REROUTE_TRAVELTIME: ("rerouteTraveltime", "t"),
        tc.VAR_HIGHLIGHT: ("highlight", "*"), tc.VAR_ROUTING_MODE: ("setRoutingMode", "i"),
    },
    "vehicletype": {tc.VAR_PARAMETER: ("setParameter", "tss")},
    "lane": {
        tc.VAR_PARAMETER: ("setParameter", "tss"), tc.LANE_ALLOWED: ("setAllowed", "l"),
        tc.LANE_DISALLOWED: ("setDisallowed", "l"),
    },
    "edge": {
        tc.VAR_PARAMETER: ("setParameter", "tss"), tc.LANE_ALLOWED: ("setAllowed", "l"),
        tc.LANE_DISALLOWED: ("setDisallowed", "l"), tc.VAR_EDGE_TRAVELTIME: ("adaptTraveltime", "*"),
    },
    "junction": {tc.VAR_PARAMETER: ("setParameter", "tss")},
    "busstop": {tc.VAR_PARAMETER: ("setParameter", "tss")},
    "inductionloop": {tc.VAR_PARAMETER: ("setParameter", "tss")},
    "lanearea": {tc.VAR_PARAMETER: ("setParameter", "tss")},
    "trafficlight": {
        tc.VAR_PARAMETER: ("setParameter", "tss"), tc.TL_RED_YELLOW_GREEN_STATE: ("setRedYellowGreenState", "s"),
        tc.TL_PHASE_INDEX: ("setPhase", "i"), tc.TL_PROGRAM: ("setProgram", "s"), tc.VAR_NAME: ("setPhaseName", "s"),
        tc.TL_PHASE_DURATION: ("setPhaseDuration", "d"), tc.TL_COMPLETE_PROGRAM_RYG: ("setProgramLogic", "*"),
    },
    "route": {tc.VAR_PARAMETER: ("setParameter", "tss"), tc.ADD: ("add", "l")},
    "simulation": {
        tc.VAR_PARAMETER: ("setParameter", "tss"), tc.CMD_SAVE_SIMSTATE: ("saveState", "s"),
        tc.CMD_LOAD_SIMSTATE: ("loadState", "s"), tc.CMD_MESSAGE: ("writeMessage", "s"),
    },
}


NOT_SUBSCRIBED = ("getAdaptedTraveltime",)  # that cannot be subscribed to
OF_ALL = (tc.TRACI_ID_LIST, tc.ID_COUNT)  # variables of all objects of a domain


def calls_by_variable(domain: str) -> dict[int, str]:
    """By variable the call of a domain that tells it, without words or with one that may be left out."""
    gets = GETS[domain].items()
    return {variable: get.call for variable, get in gets if get.takes in ("", "d") and get.call not in NOT_SUBSCRIBED}
