"""Max-pressure: each light shows the green whose lanes have most more halting vehicles than those behind, by
subscriptions to the lanes."""
import sys

import traci
import traci.constants as tc

LEAST_GREEN, YELLOW = 10, 3

traci.start([sys.argv[1], *sys.argv[3:], "--no-step-log", "--no-warnings", "--time-to-teleport", "-1"])


class Light:
    def __init__(self, name):
        self.name, self.links = name, traci.trafficlight.getControlledLinks(name)
        states = [phase.state for phase in traci.trafficlight.getAllProgramLogics(name)[0].phases]
        self.greens = [state for state in states if "y" not in state and set(state) & set("gG")]
        self.state, self.since, self.following = self.greens[0], 0, None
        traci.trafficlight.setRedYellowGreenState(name, self.state)

    def pressure(self, green, halting):
        ways = [link for state, links in zip(green, self.links) if state in "gG" for link in links]
        return sum(halting[into] - halting[out] for into, out, _ in ways)

    def step(self, clock, halting):
        if self.following and clock - self.since >= YELLOW:
            traci.trafficlight.setRedYellowGreenState(self.name, self.following)
            self.state, self.since, self.following = self.following, clock, None
        elif not self.following and clock - self.since >= LEAST_GREEN:
            best = max(self.greens, key=lambda green: self.pressure(green, halting))
            if self.pressure(best, halting) > self.pressure(self.state, halting):
                pairs = zip(self.state, best)
                yellow = "".join("y" if old in "gG" and new == "r" else old for old, new in pairs)
                traci.trafficlight.setRedYellowGreenState(self.name, yellow)
                self.since, self.following = clock, best


lights = [Light(name) for name in traci.trafficlight.getIDList()]
lanes = {lane for light in lights for links in light.links for link in links for lane in link[:2]}
for lane in lanes:
    traci.lane.subscribe(lane, [tc.LAST_STEP_VEHICLE_HALTING_NUMBER])
arrived = 0
while traci.simulation.getTime() < float(sys.argv[2]):
    traci.simulationStep()
    arrived += traci.simulation.getArrivedNumber()
    results_by_lane = traci.lane.getAllSubscriptionResults()
    halting = {lane: values[tc.LAST_STEP_VEHICLE_HALTING_NUMBER] for lane, values in results_by_lane.items()}
    for light in lights:
        light.step(traci.simulation.getTime(), halting)
traci.close()
print(arrived)
