"""Vehicles before a red light are advised of a speed at which they come when it is green."""
import sys

import traci
import traci.constants as tc

traci.start(["sumo", *sys.argv[1:], "--no-step-log"])
departed, trips = {}, []
while traci.simulation.getMinExpectedNumber() > 0:
    traci.simulationStep()
    now = traci.simulation.getTime()
    for vehicle in traci.simulation.getDepartedIDList():
        departed[vehicle] = now
        traci.vehicle.setColor(vehicle, (0, 255, 0, 255))
        traci.vehicle.subscribe(vehicle, (tc.VAR_SPEED, tc.VAR_LANEPOSITION, tc.VAR_NEXT_TLS))
    trips += [now - departed[vehicle] for vehicle in traci.simulation.getArrivedIDList()]
    for vehicle, seen in traci.vehicle.getAllSubscriptionResults().items():
        for light, _, metres, state in seen[tc.VAR_NEXT_TLS][:1]:
            wait = traci.trafficlight.getNextSwitch(light) - now
            if state in "rRyY" and metres < 300 and wait > 0:
                traci.vehicle.setSpeed(
                    vehicle, max(5.0, min(metres / (wait + 2), traci.vehicle.getAllowedSpeed(vehicle)))
                )
traci.close()
print(len(trips), sum(trips) / len(trips))
