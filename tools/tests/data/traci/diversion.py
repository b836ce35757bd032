"""A lane is closed at 300 s, and who would come by its edge takes another way."""
import sys

import traci

mode, closed, end = sys.argv[1:4]
traci.start(["sumo", *sys.argv[4:], "--no-step-log", "--no-warnings", "--time-to-teleport", "-1"])
departed, trips, calls = {}, [], 0
while traci.simulation.getMinExpectedNumber() > 0 and traci.simulation.getTime() < float(end):
    traci.simulationStep()
    now = traci.simulation.getTime()
    if now == 300:
        traci.lane.setDisallowed(f"{closed}_0", ["passenger"])
        traci.edge.adaptTraveltime(closed, 1e6)
    departed.update((vehicle, now) for vehicle in traci.simulation.getDepartedIDList())
    trips += [now - departed.pop(vehicle) for vehicle in traci.simulation.getArrivedIDList()]
    for vehicle in traci.vehicle.getIDList() if now >= 300 and now % 10 == 0 else ():
        route = traci.vehicle.getRoute(vehicle)
        here = traci.vehicle.getRoadID(vehicle)
        if closed not in route[traci.vehicle.getRouteIndex(vehicle) + 1 : -1] or here.startswith(":"):
            continue
        calls += 1
        if mode == "reroute":
            traci.vehicle.rerouteTraveltime(vehicle)
        elif mode == "target":
            traci.vehicle.changeTarget(vehicle, route[-1])
        else:
            traci.vehicle.setRoute(vehicle, traci.simulation.findRoute(here, route[-1]).edges)
traci.close()
print(len(trips), sum(trips) / len(trips))
