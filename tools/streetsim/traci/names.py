"""SUMO's names of the calls that are not here, by the variables that they ask for or change."""
import re
from functools import cache

from streetsim.traci import constants as tc
from streetsim.traci.table import GETS, SETS

# By variable how its calls are named behind get or set, or wholly.
COMMON = """
TRACI_ID_LIST:IDList VAR_STOP_DELAY:StopDelay VAR_STOP_ARRIVALDELAY:StopArrivalDelay VAR_FOES:Foes
VAR_POSITION3D:Position3D VAR_ACCEL:Accel VAR_DECEL:Decel VAR_TAU:Tau VAR_ROAD_ID:EdgeID VAR_EDGE_EFFORT:Effort
VAR_STOP_PARAMETER:StopParameter VAR_SIGNALS:Signals VAR_IMPERFECTION:Imperfection VAR_SPEED_FACTOR:SpeedFactor
VAR_SPEED_DEVIATION:SpeedDeviation VAR_CO2EMISSION:CO2Emission VAR_COEMISSION:COEmission VAR_HCEMISSION:HCEmission
VAR_PMXEMISSION:PMxEmission VAR_NOXEMISSION:NOxEmission VAR_FUELCONSUMPTION:FuelConsumption
VAR_NOISEEMISSION:NoiseEmission VAR_ELECTRICITYCONSUMPTION:ElectricityConsumption VAR_BUS_STOP_WAITING:BusStopWaiting
VAR_EMERGENCY_DECEL:EmergencyDecel VAR_APPARENT_DECEL:ApparentDecel VAR_LASTACTIONTIME:LastActionTime
DISTANCE_REQUEST:DrivingDistance2D VAR_SCALE:Scale VAR_BUS_STOP_ID_LIST:BusStopIDList VAR_BEST_LANES:BestLanes
VAR_SPEEDSETMODE:SpeedMode VAR_LANECHANGE_MODE:LaneChangeMode VAR_MAXSPEED_LAT:MaxSpeedLat VAR_MINGAP_LAT:MinGapLat
VAR_NEIGHBORS:Neighbors VAR_BUS_STOP_WAITING_IDS:BusStopWaitingIDList CMD_STOP:Stop VAR_PREV_SPEED:PreviousSpeed
VAR_FRICTION:Friction VAR_SPEED:Speed VAR_MAXSPEED:MaxSpeed VAR_LENGTH:Length VAR_COLOR:Color VAR_HEIGHT:Height
VAR_VEHICLECLASS:VehicleClass VAR_EMISSIONCLASS:EmissionClass VAR_SHAPECLASS:ShapeClass VAR_MINGAP:MinGap
VAR_WIDTH:Width VAR_TYPE:Type VAR_EDGE_TRAVELTIME:AdaptedTraveltime VAR_ACCELERATION:Acceleration VAR_LINE:Line
VAR_ACTIONSTEPLENGTH:ActionStepLength VAR_LATALIGNMENT:LateralAlignment VAR_VIA:Via
"""
OF_DOMAIN = {
    "vehicle": """
CMD_CHANGELANE:LaneChangeState VAR_FOLLOW_SPEED:FollowSpeed VAR_STOP_SPEED:StopSpeed VAR_SECURE_GAP:SecureGap
VAR_TAXI_FLEET:TaxiFleet CMD_CHANGELANE:changeLane CMD_SLOWDOWN:slowDown CMD_CHANGESUBLANE:changeSublane
CMD_OPENGAP:openGap CMD_REPLACE_STOP:replaceStop CMD_INSERT_STOP:insertStop CMD_RESUME:resume
CMD_TAXI_DISPATCH:dispatchTaxi VAR_MOVE_TO:moveTo VAR_UPDATE_BESTLANES:updateBestLanes MOVE_TO_XY:moveToXY
CMD_REROUTE_EFFORT:rerouteEffort CMD_REROUTE_TO_PARKING:rerouteParkingArea""",
    "calibrator": """
VAR_VEHSPERHOUR:VehsPerHour VAR_PASSED:Passed VAR_INSERTED:Inserted VAR_REMOVED:Removed VAR_ROUTE_PROBE:RouteProbeID
VAR_BEGIN:Begin VAR_END:End VAR_VTYPES:VTypes VAR_TYPE:TypeID VAR_LANE_ID:LaneID VAR_ROUTE_ID:RouteID CMD_SET_FLOW:Flow
""",
    "inductionloop": "LAST_STEP_VEHICLE_DATA:VehicleData VAR_VIRTUAL_DETECTION:overrideTimeSinceDetection",
    "lanearea": "VAR_VIRTUAL_DETECTION:overrideVehicleNumber",
    "multientryexit": """
VAR_LAST_INTERVAL_MEAN_HALTING_NUMBER:LastIntervalMeanHaltsPerVehicle VAR_EXIT_POSITIONS:ExitPositions
VAR_LAST_INTERVAL_VEHICLE_NUMBER:LastIntervalVehicleSum VAR_LANES:EntryLanes VAR_EXIT_LANES:ExitLanes
VAR_POSITION:EntryPositions VAR_LAST_INTERVAL_TRAVELTIME:LastIntervalMeanTravelTime
VAR_TIMELOSS:LastIntervalMeanTimeLoss""",
    "person": """
VAR_EDGES:Edges VAR_STAGE:Stage VAR_NEXT_EDGE:NextEdge VAR_STAGES_REMAINING:RemainingStages VAR_VEHICLE:Vehicle
SPLIT_TAXI_RESERVATIONS:splitTaxiReservation VAR_MOVE_TO:moveTo ADD:add MOVE_TO_XY:moveToXY APPEND_STAGE:appendStage
REMOVE_STAGE:removeStage REPLACE_STAGE:replaceStage""",
    "routeprobe": "VAR_SAMPLE_LAST:sampleLastRouteID VAR_SAMPLE_CURRENT:sampleCurrentRouteID",
    "simulation": "POSITION_CONVERSION:convertGeo FIND_INTERMODAL_ROUTE:findIntermodalRoute "
    "CMD_CLEAR_PENDING_VEHICLES:clearPending",
    "trafficlight": """
TL_BLOCKING_VEHICLES:BlockingVehicles TL_RIVAL_VEHICLES:RivalVehicles TL_PRIORITY_VEHICLES:PriorityVehicles
TL_CONSTRAINT:Constraints TL_CONSTRAINT_BYFOE:ConstraintsByFoe TL_CONSTRAINT_SWAP:swapConstraints
TL_CONSTRAINT_REMOVE:removeConstraints TL_CONSTRAINT_UPDATE:updateConstraints""",
    "variablespeedsign": "VAR_LANES:Lanes",
    "vehicletype": "COPY:copy",
}
# A domain of which no run here has an object: one whose calls have the same names.
ALIKE = {
    "person": "vehicle", "multientryexit": "lanearea",
    **dict.fromkeys(("parkingarea", "chargingstation", "overheadwire"), "busstop"),
}


@cache
def names_in(text: str, how: str) -> dict[int, str]:
    """By variable the names of calls in a text as above; how: get or set."""
    pairs = (pair.split(":") for pair in text.split())
    found = [(getattr(tc, constant), f"{how}{name}" if name[0].isupper() else name) for constant, name in pairs]
    gets = re.compile("get|swap|split|sample|convert|find")
    return {variable: name for variable, name in found if bool(gets.match(name)) == (how == "get")}


def sumo_name(domain: str, variable: int, how: str) -> str:
    """SUMO's name of a call, by what it asks for or changes (how: get or set); empty for one that SUMO has not."""
    if name := names_in(OF_DOMAIN.get(domain, ""), how).get(variable):
        return name
    alike = ALIKE.get(domain, domain)
    tables = [GETS.get(alike, {}), GETS["lane"]] if how == "get" else []
    call = next((table[variable].call for table in tables if variable in table), "")
    if how == "set" and variable in SETS.get(alike, SETS["vehicle"]):
        call = SETS.get(alike, SETS["vehicle"])[variable][0]
    return call or names_in(COMMON, how).get(variable, "")
