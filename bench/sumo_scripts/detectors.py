"""A green goes on while the loops of its lanes see somebody, 10 s at least and 40 s at most."""
import sys

import traci

traci.start([sys.argv[1], *sys.argv[3:], "--no-step-log", "--no-warnings"])
loops = {traci.inductionloop.getLaneID(loop): loop for loop in traci.inductionloop.getIDList()}
lights = traci.trafficlight.getIDList()
lanes = {light: traci.trafficlight.getControlledLanes(light) for light in lights}
states = {light: [one.state for one in traci.trafficlight.getAllProgramLogics(light)[0].phases] for light in lights}
since, arrived = dict.fromkeys(lights, 0), 0
while traci.simulation.getTime() < float(sys.argv[2]):
    traci.simulationStep()
    arrived += traci.simulation.getArrivedNumber()
    clock = traci.simulation.getTime()
    for light in lights:
        phase = traci.trafficlight.getPhase(light)
        state, spent = states[light][phase], clock - since[light]
        if "y" in state.lower():
            is_over = spent >= 3
        else:
            green = {lane for lane, letter in zip(lanes[light], state) if letter in "gG" and lane in loops}
            is_occupied = any(traci.inductionloop.getTimeSinceDetection(loops[lane]) < 4 for lane in green)
            is_over = spent >= 40 or spent >= 10 and not is_occupied
        if is_over:
            traci.trafficlight.setPhase(light, (phase + 1) % len(states[light]))
            since[light] = clock
        else:
            traci.trafficlight.setPhaseDuration(light, 1000)
traci.close()
print(arrived)
