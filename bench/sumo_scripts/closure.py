"""A street is closed for ten minutes; who would come there looks for another way."""
import sys

import traci

CLOSED, OPEN = 300, 900

traci.start([sys.argv[1], *sys.argv[3:], "--no-step-log", "--no-warnings"])
edges = [edge for edge in traci.edge.getIDList() if not edge.startswith(":")]
closed, arrived, turned = "", 0, set()
while traci.simulation.getTime() < float(sys.argv[2]):
    traci.simulationStep()
    arrived += traci.simulation.getArrivedNumber()
    clock = traci.simulation.getTime()
    if clock == CLOSED:
        counts = {}
        for name in traci.vehicle.getIDList():
            for edge in traci.vehicle.getRoute(name)[1:-1]:
                counts[edge] = counts.get(edge, 0) + 1
        closed = sorted(counts, key=lambda edge: (-counts[edge], edge))[3]
        traci.edge.adaptTraveltime(closed, 10000)
    if clock == OPEN:
        traci.edge.adaptTraveltime(closed, 20)
    if CLOSED <= clock < OPEN:
        for name in traci.vehicle.getIDList():
            route, index = traci.vehicle.getRoute(name), traci.vehicle.getRouteIndex(name)
            edges_ahead = route[index + 1 : -1]
            if name not in turned and closed in edges_ahead and route[index] != closed and not (
                traci.vehicle.getRoadID(name).startswith(":")
            ):
                try:
                    traci.vehicle.rerouteTraveltime(name, False)
                    turned.add(name)
                except traci.TraCIException:
                    pass
traci.close()
print(arrived, len(turned))
