"""As environments for learning drive a run: labels, phases as actions, densities, queues and waiting times."""
import sys

import traci
import traci.constants as tc

GAP, YELLOW, LEAST, EVERY = 2.5, 2, 5, 5
departed, trips = {}, []
for episode in range(2):
    traci.start(["sumo", *sys.argv[1:], "--waiting-time-memory", "10000", "--no-step-log"], label=f"episode {episode}")
    sumo = traci.getConnection(f"episode {episode}")
    [light] = sumo.trafficlight.getIDList()
    phases = sumo.trafficlight.getAllProgramLogics(light)[0].phases
    greens = [sumo.trafficlight.Phase(60, phase.state) for phase in phases if "y" not in phase.state]
    yellows = [
        "".join("y" if one in "Gg" and other in "rs" else one for one, other in zip(green.state, greens[1 - at].state))
        for at, green in enumerate(greens)
    ]
    sumo.trafficlight.setRedYellowGreenState(light, greens[0].state)
    lanes = list(dict.fromkeys(sumo.trafficlight.getControlledLanes(light)))
    controlled = sumo.trafficlight.getControlledLanes(light)
    sumo.junction.subscribeContext(light, tc.CMD_GET_VEHICLE_VARIABLE, 150, [tc.VAR_SPEED, tc.VAR_WAITING_TIME])
    now, since, speeds, near = 0, 0, [], 0
    while sumo.simulation.getTime() < 1800:
        room = {lane: sumo.lane.getLength(lane) / (GAP + sumo.lane.getLastStepLength(lane)) for lane in lanes}
        queues = {lane: min(1, sumo.lane.getLastStepHaltingNumber(lane) / room[lane]) for lane in lanes}
        pressed = [
            sum(queues[lane] for lane in set(controlled[at] for at, one in enumerate(green.state) if one in "Gg"))
            for green in greens
        ]
        best = max(range(2), key=pressed.__getitem__)
        changed = best != now and since >= YELLOW + LEAST
        if changed:
            sumo.trafficlight.setRedYellowGreenState(light, yellows[now])
            now, since = best, 0
        for second in range(EVERY):
            sumo.simulationStep()
            since += 1
            if changed and second + 1 == YELLOW:
                sumo.trafficlight.setRedYellowGreenState(light, greens[now].state)
            departed.update(
                ((episode, name), sumo.simulation.getTime()) for name in sumo.simulation.getDepartedIDList()
            )
            trips += [
                sumo.simulation.getTime() - departed[episode, name] for name in sumo.simulation.getArrivedIDList()
            ]
        near += len(sumo.junction.getContextSubscriptionResults(light) or {})
        for lane in lanes:
            for name in sumo.lane.getLastStepVehicleIDs(lane):
                speeds.append(sumo.vehicle.getSpeed(name) / sumo.vehicle.getAllowedSpeed(name))
                waited = sumo.vehicle.getAccumulatedWaitingTime(name)
    teleports = sumo.simulation.getStartingTeleportNumber()
    sumo.close()
print(len(trips), sum(trips) / len(trips))
print(near, sum(speeds) / len(speeds))
