"""A script as TraCI users write them: the speed of each vehicle in each of 900 steps. Prints their mean.

speeds.py NET ROUTES
"""
import sys
from statistics import fmean

import streetsim.traci as traci


def main(net, routes):
    traci.start(["sumo", "-n", net, "-r", routes, "--no-step-log"])
    speeds = []
    for _ in range(900):
        traci.simulationStep()
        speeds += [traci.vehicle.getSpeed(vehicle) for vehicle in traci.vehicle.getIDList()]
    traci.close()
    print(f"{len(speeds)} speeds, {fmean(speeds):.2f} m/s")


main(*sys.argv[1:])
