"""As SUMO's tutorial traci_tls: green for the main street until a loop of the minor one sees a vehicle."""
import sys
import xml.etree.ElementTree as ElementTree

import traci

traci.start(["sumo", *sys.argv[2:], "--tripinfo-output", sys.argv[1], "--no-step-log"])
traci.trafficlight.setPhase("J", 2)
while traci.simulation.getMinExpectedNumber() > 0:
    traci.simulationStep()
    if traci.trafficlight.getPhase("J") == 2:
        waits = any(traci.inductionloop.getLastStepVehicleNumber(loop) > 0 for loop in "NS")
        traci.trafficlight.setPhase("J", 3 if waits else 2)
traci.close()
durations = [float(trip.get("duration")) for trip in ElementTree.parse(sys.argv[1]).getroot()]
print(len(durations), sum(durations) / len(durations))
