"""What is said of SUMO's calls that are not here: why, and what to do instead."""
import re

GREENS = (
    "trafficlight.getNextSwitch and vehicle.getNextTLS tell when a light changes, and streetsim-signals coordinates "
    "lights"
)
PLATOONS = "all keep the gaps of the rules; --dawdle and --drivers (of streetsim-calibrate) say how closely all follow"
ALONE = (
    "speeds follow the rules alone; slow a road by its limit in the network, and hold vehicles by a signal "
    "or a closed lane"
)
BESIDE = "no call names the vehicles beside; lane.getLastStepVehicleIDs and vehicle.getLanePosition show them"
CONTEXT = (
    "it has no place around which vehicles are looked for; subscribe around a junction, an edge, a lane or a vehicle"
)
DRIVERS = "all vehicles drive by the same rules; --dawdle, --sizes and the limits of the network say how"
EFFORT = "ways are by travel times alone; use edge.adaptTraveltime"
EMISSIONS = "emissions are not reckoned; SUMO's emissionsDrivingCycle reads the file of --fcd-output"
LANES = "lanes are changed by the rules alone; lane.setDisallowed closes a lane"
LIMITS = "limits are the network's; change them there and start again"
MOVED = "nobody is moved; remove the vehicle and add it anew"
NEMA = "a script is the controller; set phases by setPhase or setProgramLogic"
PERSONS = "there are no persons; give them their time in the program of the light"
RAILWAYS = "there are no railways; lights follow their programs and the script"
STOPS = "stops are those of the files; write another stop there, or hold vehicles by a signal or a closed lane"
TYPES = "types are those of the files; write another vType there"
WINDOW = "there is no window; streetsim-live and streetsim-plot show runs"
NOTHING = "streetsim has nothing for it; see tools/PYTHON.md"

# The first that is found in 'domain.call' counts; a whole domain is 'domain.'.
SENTENCES = {
    r"[pP]erson|walking|Intermodal": PERSONS,
    r"Taxi": "there are no taxis; write their ways as vehicles of the route file",
    r"Noise": "noise is not reckoned; models of noise take the flows and speeds of --fcd-output",
    r"Emission|FuelConsumption|Electricity|^overheadwire": EMISSIONS,
    r"^(busstop|parkingarea|chargingstation)\.|Stop(?!Speed)|\.resume|Parking": STOPS,
    r"openGap|GapControl|^simpla": f"speeds and lanes follow the rules alone; {PLATOONS}",
    r"\.(setSpeed|slowDown|setSpeedMode|getSpeedMode|setPreviousSpeed|setAcceleration|requestToC)$": (
        f"{ALONE}; of speed advice before lights (GLOSA) {GREENS}"
    ),
    r"Lateral|Lat$": "vehicles fill their lane and have no place across it; getLaneID tells the lane",
    r"Neighbors|(Left|Right)(Leaders|Followers)": BESIDE,
    r"changeLane|ChangeLane|LaneChange|Sublane|BestLanes": LANES,
    r"SubscriptionFilter": "contexts are not filtered; choose of what a context subscription gives",
    r"\.subscribeLeader": "subscribe to VAR_LEADER for it",
    r"\.subscribeParameterWithKey": "parameters are the script's own; getParameter tells them",
    r"ubscribeContext|ContextSubscription": CONTEXT,
    r"^variablespeedsign|^(edge|lane|vehicle|vehicletype)\.setMaxSpeed$": LIMITS,
    r"^vehicletype\.set|\.copy$|vehicle\.(setType|setVehicleClass|setLength)$": TYPES,
    r"Accel|Decel|Tau$|Imperfection|SpeedFactor|SpeedDeviation|ActionStep|MinGap|SecureGap|FollowSpeed|"
    r"StopSpeed|ActionTime": DRIVERS,
    r"\.moveTo": MOVED,
    r"Via$": "ways are whole; name their edges by setRoute",
    r"Effort": EFFORT,
    r"vehicle\..*AdaptedTraveltime": "all vehicles know the same travel times; use edge.adaptTraveltime",
    r"Scale$": "the demand is the route files'; make the routes of the demand that is wanted",
    r"Nema": NEMA,
    r"onstraint|(Blocking|Rival|Priority)Vehicles": RAILWAYS,
    r"Foes": "no call says which vehicle gives way; the network's file does",
    r"Friction": "all roads are dry; --dawdle changes how vehicles drive",
    r"lane\.setLength": "lanes are the network's; change them there and start again",
    r"Geo$": "degrees are not here; streetsim-export writes them",
    r"3D$|Height|Slope|vehicle\w*\.[gs]etWidth|ShapeClass|Signals|\.[gs]etLine$|vehicletype\.getColor": (
        "vehicles are cells of a plane; getPosition, getAngle and getLength tell what there is"
    ),
    r"\.add(Full|Legacy)$": "use vehicle.add",
    r"DrivingDistance2D": "use simulation.convertRoad and getDrivingDistance",
    r"clearPending": "a vehicle that waits departs when there is room; do not add vehicles that you do not want",
    r"\.override": "detectors say what they saw; keep other counts in the script",
    r"^(poi|polygon)\.": "shapes are not kept; the files have them",
    r"^inductionloop\.": "use getLastStepVehicleIDs, and vehicle.getLength for each",
    r"^multientryexit": "there are no e3 detectors; streetsim-run --junctions writes delays and queues of approaches",
    r"^meandata": "the file of edgeData is written at traci.close; edge and lane tell the last step",
    r"^rerouter": "there are no rerouters; send vehicles another way by vehicle.setRoute",
    r"^routeprobe": "routes are not sampled; vehicle.getRoute tells each",
    r"^calibrator": "there are no calibrators; add and remove vehicles in the script",
    r"^simulation\.step$": "use traci.simulationStep",
    r"^simulation\.getIDList$": "there is one simulation; getTime tells its time",
}


def advice_on(call: str) -> str:
    """Why a call, named "domain.call", is not here, and what to do instead."""
    return next((text for pattern, text in SENTENCES.items() if re.search(pattern, call)), NOTHING)
