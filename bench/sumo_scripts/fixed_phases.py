"""Each light goes through its phases by times of the script's own: 25 s of each green, 3 s of each yellow."""
import sys

import traci

traci.start([sys.argv[1], *sys.argv[3:], "--no-step-log", "--no-warnings"])
phases = {light: traci.trafficlight.getAllProgramLogics(light)[0].phases for light in traci.trafficlight.getIDList()}
until = dict.fromkeys(phases, 0)
arrived = 0
while traci.simulation.getTime() < float(sys.argv[2]):
    clock = traci.simulation.getTime()
    for light, light_phases in phases.items():
        if until[light] <= clock:
            following = (traci.trafficlight.getPhase(light) + 1) % len(light_phases) if clock else 0
            traci.trafficlight.setPhase(light, following)
            until[light] = clock + (3 if "y" in light_phases[following].state.lower() else 25)
    traci.simulationStep()
    arrived += traci.simulation.getArrivedNumber()
traci.close()
print(arrived)
