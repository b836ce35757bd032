"""What calls say of a network, of vehicles and of their ways, as lines of JSON."""
import json
import sys

import traci

traci.start(["sumo", *sys.argv[1:], "--no-step-log", "--no-warnings"])
for _ in range(20):
    traci.simulationStep()


def told(*values):
    print(json.dumps(values))


kept = [lane for lane in traci.lane.getIDList() if not lane.startswith(":")]
for lane in kept:
    links = [(link[0], link[4], link[6], round(link[7], 2)) for link in traci.lane.getLinks(lane)]
    told(lane, links, traci.lane.getLinkNumber(lane), traci.lane.getWidth(lane), traci.lane.getShape(lane))
    told(lane, traci.lane.getAllowed(lane), traci.lane.getDisallowed(lane), traci.lane.getPendingVehicles(lane))
for edge in sorted({traci.lane.getEdgeID(lane) for lane in kept}):
    told(
        edge, traci.edge.getStreetName(edge), traci.edge.getAdaptedTraveltime(edge, 0),
        traci.edge.getLastStepPersonIDs(edge), traci.edge.getPendingVehicles(edge),
    )
for junction in traci.junction.getIDList():
    if not junction.startswith(":"):
        told(
            junction,
            traci.junction.getPosition(junction),
            [[round(x, 1), round(y, 1)] for x, y in traci.junction.getShape(junction)],
        )
for kind in ("DEFAULT_VEHTYPE", "BUS", "CAR"):
    told(
        kind, traci.vehicletype.getVehicleClass(kind), traci.vehicletype.getLength(kind),
        traci.vehicletype.getMinGap(kind), traci.vehicletype.getMaxSpeed(kind),
    )
for vehicle in sorted(traci.vehicle.getIDList()):
    told(
        vehicle, traci.vehicle.getTypeID(vehicle), traci.vehicle.getVehicleClass(vehicle),
        traci.vehicle.getRouteID(vehicle), traci.vehicle.getMaxSpeed(vehicle),
    )
    told(vehicle, [entry[:2] for entry in traci.vehicle.getNextTLS(vehicle)], traci.vehicle.getAngle(vehicle))
    told(
        vehicle, traci.vehicle.isStopped(vehicle), traci.vehicle.isRouteValid(vehicle), traci.vehicle.getStops(vehicle),
        traci.vehicle.getColor(vehicle),
    )
    leader = traci.vehicle.getLeader(vehicle, 100)
    told(
        vehicle,
        leader and leader[0],
        traci.vehicle.getFollower(vehicle, 100)[0],
        traci.vehicle.getDrivingDistance(vehicle, "NJ", 1) if vehicle.startswith("east") else 0,
    )
simulation = traci.simulation
told(simulation.getNetBoundary(), simulation.getEndTime(), simulation.getScale(), simulation.getPendingVehicles())
told(
    simulation.getDistance2D(0, 0, 30, 40),
    simulation.convert2D("WJ", 10),
    simulation.convertRoad(20, 299),
    simulation.findRoute("WJ", "JE").edges,
)
told(simulation.getDistanceRoad("WJ", 10, "WJ", 25, True), simulation.getDistanceRoad("WJ", 10, "WJ", 25))
for target in ("JE", "JN", "JS"):
    told(
        target,
        round(simulation.getDistanceRoad("WJ", 10, target, 25, True), 2),
        round(simulation.findRoute("WJ", target).length, 2),
    )
told(
    simulation.getCollidingVehiclesNumber(),
    simulation.getEndingTeleportNumber(),
    simulation.getStopStartingVehiclesNumber(),
    simulation.getCollisions(),
)
traci.edge.adaptTraveltime("WJ", 77)
told(traci.edge.getAdaptedTraveltime("WJ", 20))
traci.vehicle.setParameter("east.0", "owner", "post")
told(
    traci.vehicle.getParameter("east.0", "owner"),
    traci.vehicle.getParameterWithKey("east.0", "owner"),
    traci.vehicle.getParameter("east.0", "none"),
)
traci.vehicle.setColor("east.0", (1, 2, 3, 255))
told(traci.vehicle.getColor("east.0"))
logic = traci.trafficlight.getAllProgramLogics("J")[0]
told(
    traci.trafficlight.getPhaseName("J"),
    [(phase.duration, phase.minDur, phase.maxDur, phase.state) for phase in logic.phases],
)
traci.trafficlight.setLinkState("J", 0, "r")
told(traci.trafficlight.getRedYellowGreenState("J"))
traci.trafficlight.setProgram("J", "0")
told(traci.trafficlight.getProgram("J"), traci.trafficlight.getPhase("J"), traci.trafficlight.getNextSwitch("J"))
traci.vehicle.changeTarget("east.0", "JN")
told(traci.vehicle.getRoute("east.0"))
traci.vehicle.setRoute("east.0", ["WJ", "JE"])
told(traci.vehicle.getRoute("east.0"))
time = simulation.getTime()
traci.simulationStep(time - 5)
told(simulation.getTime() - time, traci.getLabel(), traci.isLibsumo())
traci.close()
