"""The loop of a library for learning signal control, with its words: a seed that is drawn, labels, a first run that
only reads lights, programs that are set anew, densities, queues and waiting times of each lane; greens go in turn."""
import sys

import traci

LIBRARY_WORDS = [
    "--max-depart-delay", "100000", "--waiting-time-memory", "10000", "--time-to-teleport", "-1", "--random",
    "--no-warnings", "--no-step-log",
]
DELTA, YELLOW = 5, 2

traci.start([sys.argv[1], *sys.argv[3:], "--no-warnings", "--no-step-log"], label="init_connection0")
conn = traci.getConnection("init_connection0")
names = list(conn.trafficlight.getIDList())
conn.close()
traci.start([sys.argv[1], *sys.argv[3:], *LIBRARY_WORDS], label="0")
sumo = traci.getConnection("0")


class Signal:
    def __init__(self, name):
        self.name, self.green, self.waited = name, 0, 0.0
        phases = sumo.trafficlight.getAllProgramLogics(name)[0].phases
        self.greens = [one for one in phases if "y" not in one.state and one.state.count("r") < len(one.state)]
        logic = sumo.trafficlight.getAllProgramLogics(name)[0]
        logic.type, logic.phases = 0, self.greens
        sumo.trafficlight.setProgramLogic(name, logic)
        sumo.trafficlight.setRedYellowGreenState(name, self.greens[0].state)
        self.lanes = list(dict.fromkeys(sumo.trafficlight.getControlledLanes(name)))
        self.metres = {lane: sumo.lane.getLength(lane) for lane in self.lanes}

    def observe(self):
        density = [sumo.lane.getLastStepVehicleNumber(lane) * (2.5 + sumo.lane.getLastStepLength(lane)) / metres
                   for lane, metres in self.metres.items()]
        queues = [sumo.lane.getLastStepHaltingNumber(lane) for lane in self.lanes]
        waited = sum(sumo.vehicle.getAccumulatedWaitingTime(name)
                     for lane in self.lanes for name in sumo.lane.getLastStepVehicleIDs(lane))
        reward, self.waited = self.waited - waited, waited
        return density + queues, reward


signals, arrived, step = [Signal(name) for name in names], 0, 0
while sumo.simulation.getTime() < float(sys.argv[2]):
    for signal in signals if step % 6 == 5 else ():
        old_state, signal.green = signal.greens[signal.green].state, (signal.green + 1) % len(signal.greens)
        new_state = signal.greens[signal.green].state
        yellow = "".join("y" if one in "gG" and other not in "gG" else one for one, other in zip(old_state, new_state))
        sumo.trafficlight.setRedYellowGreenState(signal.name, yellow)
    for second in range(DELTA):
        if second == YELLOW:
            for signal in signals:
                sumo.trafficlight.setRedYellowGreenState(signal.name, signal.greens[signal.green].state)
        sumo.simulationStep()
        arrived += sumo.simulation.getArrivedNumber()
    for signal in signals:
        signal.observe()
    step += 1
sumo.close()
print(arrived)
