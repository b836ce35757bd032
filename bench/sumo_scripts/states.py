"""A calibrator: from a state that is saved every ten minutes it tries three lengths of greens for five minutes each,
loads the state again, and goes on with the best."""
import os
import sys
import tempfile

import traci

UNTIL = float(sys.argv[2])
traci.start([sys.argv[1], *sys.argv[3:], "--no-step-log", "--no-warnings"])
lights = traci.trafficlight.getIDList()


def set_greens(seconds):
    for light in lights:
        logic = traci.trafficlight.getAllProgramLogics(light)[0]
        for phase in logic.phases:
            if "y" not in phase.state.lower():
                phase.duration = phase.minDur = phase.maxDur = seconds
        traci.trafficlight.setProgramLogic(light, logic)


def steps(until):
    """The names of the vehicles that arrive in the steps until a clock."""
    names = set()
    while traci.simulation.getTime() < until:
        traci.simulationStep()
        names.update(traci.simulation.getArrivedIDList())
    return names


arrived = set()
with tempfile.TemporaryDirectory() as folder:
    path = os.path.join(folder, "state.xml")
    while (clock := traci.simulation.getTime()) < UNTIL:
        traci.simulation.saveState(path)
        arrived_by_green = {}
        for seconds in (20, 30, 40):
            set_greens(seconds)
            arrived_by_green[seconds] = len(steps(min(UNTIL, clock + 300)))
            traci.simulation.loadState(path)
        set_greens(max(arrived_by_green, key=arrived_by_green.get))
        arrived |= steps(min(UNTIL, clock + 600))
traci.close()
print(len(arrived))
