"""Three episodes, each begun anew by load, with greens of another length."""
import sys

import traci

sumo_words = [*sys.argv[3:], "--no-step-log", "--no-warnings"]
traci.start([sys.argv[1], *sumo_words])
for episode, green in enumerate((20, 30, 40)):
    if episode:
        traci.load(sumo_words)
    for light in traci.trafficlight.getIDList():
        logic = traci.trafficlight.getAllProgramLogics(light)[0]
        for phase in logic.phases:
            if "y" not in phase.state.lower():
                phase.duration = phase.minDur = phase.maxDur = green
        traci.trafficlight.setProgramLogic(light, logic)
    arrived = trips = 0
    while traci.simulation.getTime() < float(sys.argv[2]):
        traci.simulationStep()
        arrived += traci.simulation.getArrivedNumber()
    print(arrived)
traci.close()
