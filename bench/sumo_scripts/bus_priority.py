"""Lights hold their green for buses that come within 60 m, and end a red early for them."""
import sys

import traci

traci.start([sys.argv[1], *sys.argv[3:], "--no-step-log", "--no-warnings"])
lights = traci.trafficlight.getIDList()
states = {light: [one.state for one in traci.trafficlight.getAllProgramLogics(light)[0].phases] for light in lights}
buses, arrived, helped = set(), 0, 0
while traci.simulation.getTime() < float(sys.argv[2]):
    traci.simulationStep()
    arrived += traci.simulation.getArrivedNumber()
    departed = traci.simulation.getDepartedIDList()
    buses.update(name for name in departed if traci.vehicle.getVehicleClass(name) == "bus")
    buses.difference_update(traci.simulation.getArrivedIDList())
    for bus in buses:
        for light, index, metres, state in traci.vehicle.getNextTLS(bus)[:1]:
            if metres > 60 or "y" in states[light][traci.trafficlight.getPhase(light)]:
                continue
            seconds_left = traci.trafficlight.getNextSwitch(light) - traci.simulation.getTime()
            if state in "gG" and seconds_left < 5:
                traci.trafficlight.setPhaseDuration(light, 5)
                helped += 1
            elif state == "r" and seconds_left > 5:
                traci.trafficlight.setPhaseDuration(light, 5)
                helped += 1
traci.close()
print(arrived, helped)
