"""Each light looks at the vehicles around its junction by a context, and changes when most of them stand."""
import sys

import traci
import traci.constants as tc

traci.start([sys.argv[1], *sys.argv[3:], "--no-step-log", "--no-warnings"])
lights = traci.trafficlight.getIDList()
lanes = {light: set(traci.trafficlight.getControlledLanes(light)) for light in lights}
states = {light: [one.state for one in traci.trafficlight.getAllProgramLogics(light)[0].phases] for light in lights}
for light in lights:
    traci.junction.subscribeContext(light, tc.CMD_GET_VEHICLE_VARIABLE, 80, [tc.VAR_SPEED, tc.VAR_LANE_ID])
since, arrived = dict.fromkeys(lights, 0), 0
while traci.simulation.getTime() < float(sys.argv[2]):
    traci.simulationStep()
    arrived += traci.simulation.getArrivedNumber()
    clock = traci.simulation.getTime()
    for light in lights:
        around = traci.junction.getContextSubscriptionResults(light) or {}
        nearby = [one for one in around.values() if one[tc.VAR_LANE_ID] in lanes[light]]
        phase, spent = traci.trafficlight.getPhase(light), clock - since[light]
        yellow = "y" in states[light][phase].lower()
        stand = sum(one[tc.VAR_SPEED] < 0.1 for one in nearby) > len(nearby) / 2
        if spent >= 3 if yellow else spent >= 12 and (stand or spent >= 40):
            traci.trafficlight.setPhase(light, (phase + 1) % len(states[light]))
            since[light] = clock
        elif spent % 5 == 0:
            traci.trafficlight.setPhaseDuration(light, 1000)
traci.close()
print(arrived)
