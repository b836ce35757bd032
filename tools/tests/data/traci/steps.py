"""The clock after steps until a time: also one that is over, and parts of a second."""
import sys

import traci

traci.start(["sumo", *sys.argv[1:], "--no-step-log"])
for time in (600, 300, 600, 0, -5, 600.5, 602.4, 602.9, 1.5):
    traci.simulationStep(time)
    print(time, traci.simulation.getTime())
traci.close()
