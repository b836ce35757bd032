"""A script as TraCI users write them: how many vehicles come out of a junction, by an induction loop behind it,
each quarter of an hour, and how many stand before it."""
from pathlib import Path

import streetsim.traci as traci
from streetsim.traci import constants as tc

HERE = Path(__file__).parent
CROSS = HERE.parent / "actuated"


def main():
    words = ["sumo", "-n", CROSS / "cross.net.xml.gz", "-r", CROSS / "cross.rou.xml", "-a", HERE / "cross.add.xml"]
    traci.start([*map(str, words), "--no-step-log"])
    traci.inductionloop.subscribe("after", [tc.LAST_STEP_VEHICLE_ID_LIST])
    traci.edge.subscribe("WJ", [tc.LAST_STEP_VEHICLE_HALTING_NUMBER])
    for quarter in range(4):
        passed, standing = set(), 0
        for _ in range(900):
            traci.simulationStep()
            passed.update(traci.inductionloop.getSubscriptionResults("after")[tc.LAST_STEP_VEHICLE_ID_LIST])
            standing = max(standing, traci.edge.getSubscriptionResults("WJ")[tc.LAST_STEP_VEHICLE_HALTING_NUMBER])
        print(f"{len(passed)} vehicles, at most {standing} standing")
    traci.close()


main()
