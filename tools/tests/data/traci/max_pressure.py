"""Each junction shows the green whose queues, less those behind the junction, are longest."""
import sys

import traci

YELLOW, LEAST = 3, 8  # seconds
end = float(sys.argv[1])
traci.start(["sumo", *sys.argv[2:], "--no-step-log", "--no-warnings", "--time-to-teleport", "-1"])


class Junction:
    def __init__(self, name):
        self.name, self.links = name, traci.trafficlight.getControlledLinks(name)
        self.states = [phase.state for phase in traci.trafficlight.getAllProgramLogics(name)[0].getPhases()]
        self.greens = [at for at, state in enumerate(self.states) if "y" not in state and set(state) & set("Gg")]
        self.now, self.since, self.until, self.next = self.greens[0], 0, None, None
        traci.trafficlight.setRedYellowGreenState(name, self.states[self.now])

    def pressure(self, phase):
        shown = zip(self.states[phase], self.links)
        halting = traci.lane.getLastStepHaltingNumber
        return sum(halting(one) - halting(other) for state, links in shown if state in "Gg" for one, other, _ in links)

    def step(self, time):
        if self.until is not None:
            if time >= self.until:
                self.now, self.until, self.since = self.next, None, time
                traci.trafficlight.setRedYellowGreenState(self.name, self.states[self.now])
        elif time - self.since >= LEAST:
            best = max(self.greens, key=self.pressure)
            if best != self.now and self.pressure(best) > self.pressure(self.now):
                pairs = zip(self.states[self.now], self.states[best])
                yellow = "".join("y" if one in "Gg" and other not in "Gg" else one for one, other in pairs)
                traci.trafficlight.setRedYellowGreenState(self.name, yellow)
                self.next, self.until = best, time + YELLOW


junctions = [Junction(name) for name in traci.trafficlight.getIDList()]
departed, trips = {}, []
while traci.simulation.getMinExpectedNumber() > 0 and traci.simulation.getTime() < end:
    traci.simulationStep()
    now = traci.simulation.getTime()
    departed.update((vehicle, now) for vehicle in traci.simulation.getDepartedIDList())
    trips += [now - departed.pop(vehicle) for vehicle in traci.simulation.getArrivedIDList()]
    for junction in junctions:
        junction.step(now)
traci.close()
print(len(trips), sum(trips) / len(trips))
