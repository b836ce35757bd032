"""A green goes on, or comes sooner, where a bus is near."""
import sys

import traci

traci.start(["sumo", *sys.argv[1:], "--no-step-log", "--no-warnings"])
GREEN = {"NJ": 0, "SJ": 0, "WJ": 2, "EJ": 2}
departed, trips = {}, {"bus": [], "passenger": []}
while traci.simulation.getMinExpectedNumber() > 0:
    traci.simulationStep()
    now = traci.simulation.getTime()
    for vehicle in traci.simulation.getDepartedIDList():
        departed[vehicle] = now, traci.vehicle.getVehicleClass(vehicle)
    for vehicle in traci.simulation.getArrivedIDList():
        begin, kind = departed.pop(vehicle)
        trips[kind].append(now - begin)
    for vehicle in traci.vehicle.getIDList():
        road = traci.vehicle.getRoadID(vehicle)
        if traci.vehicle.getTypeID(vehicle) != "BUS" or road not in GREEN:
            continue
        lights = traci.vehicle.getNextTLS(vehicle)
        if not lights or lights[0][2] > 150:
            continue
        phase, left = traci.trafficlight.getPhase("J"), traci.trafficlight.getNextSwitch("J") - now
        if phase == GREEN[road] and left < 8:
            traci.trafficlight.setPhaseDuration("J", left + 5)
        elif phase == (GREEN[road] + 2) % 4 and left > 5:
            traci.trafficlight.setPhaseDuration("J", 5)
traci.close()
print(len(trips["passenger"]), sum(trips["passenger"]) / len(trips["passenger"]))
print(len(trips["bus"]), sum(trips["bus"]) / len(trips["bus"]))
