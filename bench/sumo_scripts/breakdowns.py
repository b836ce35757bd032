"""Every five minutes the busiest street is slow for as long; every third driver looks for another way once a minute,
by the travel times of now."""
import sys

import traci

traci.start([sys.argv[1], *sys.argv[3:], "--no-step-log", "--no-warnings"])
edges = [edge for edge in traci.edge.getIDList() if not edge.startswith(":")]
slow, arrived = "", 0
while traci.simulation.getTime() < float(sys.argv[2]):
    traci.simulationStep()
    arrived += traci.simulation.getArrivedNumber()
    clock = int(traci.simulation.getTime())
    if clock % 300 == 0:
        if slow:
            traci.edge.adaptTraveltime(slow, traci.lane.getLength(f"{slow}_0") / traci.lane.getMaxSpeed(f"{slow}_0"))
        slow = max(edges, key=lambda edge: (traci.edge.getLastStepVehicleNumber(edge), edge))
        traci.edge.adaptTraveltime(slow, 600)
    if clock % 60 == 0:
        for name in traci.vehicle.getIDList():
            if name.endswith(("0", "4", "8")) and not traci.vehicle.getRoadID(name).startswith(":"):
                traci.vehicle.rerouteTraveltime(name)
traci.close()
print(arrived)
