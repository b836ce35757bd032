"""A script as TraCI users write them: a green goes on while vehicles come, and ends when others wait.
Prints the mean trip."""
import sys
from pathlib import Path

import streetsim.traci as traci

HERE = Path(__file__).parent
CROSS = HERE.parent / "actuated"
COMING = {0: ("N", "S"), 2: ("W", "E")}  # loops of the approaches that are green in a phase
LEAST, MOST, GAP = 10, 50, 3  # seconds


def main(actuated=True):
    words = ["sumo", "-n", CROSS / "cross.net.xml.gz", "-r", CROSS / "cross.rou.xml", "-a", HERE / "cross.add.xml"]
    traci.start([*map(str, words), "--no-step-log"])
    departed, trips, begin, phase = {}, [], 0, None
    while traci.simulation.getMinExpectedNumber() > 0:
        traci.simulationStep()
        now = traci.simulation.getTime()
        departed.update((vehicle, now) for vehicle in traci.simulation.getDepartedIDList())
        trips += [now - departed[vehicle] for vehicle in traci.simulation.getArrivedIDList()]
        if traci.trafficlight.getPhase("J") != phase:
            phase, begin = traci.trafficlight.getPhase("J"), now
        if actuated and phase in COMING:
            quiet = min(traci.inductionloop.getTimeSinceDetection(loop) for loop in COMING[phase]) > GAP
            others = any(traci.edge.getLastStepHaltingNumber(f"{loop}J") for loop in COMING[2 - phase])
            if others and now - begin >= LEAST and (quiet or now - begin >= MOST):
                traci.trafficlight.setPhase("J", phase + 1)
            elif traci.trafficlight.getNextSwitch("J") - now <= 1:
                traci.trafficlight.setPhase("J", phase)
    traci.close()
    print(f"{len(trips)} vehicles, mean trip {sum(trips) / len(trips):.1f} s")


main(sys.argv[1:] != ["fixed"])
