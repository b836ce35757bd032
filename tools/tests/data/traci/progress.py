"""How far vehicles have come, who is before them, and what they have lost: a light holds two queues, and lets them go.

Four lines of JSON: what is equal over any simulator; metres of the queues; seconds lost by those who stood in them;
seconds lost in ten minutes of the light's own program.
"""
import json
import sys

import traci

TIME_LOSS = 0x8C
HELD, FREE = 12 * "r", "rrrrGrrrrrGr"  # straight on alone
traci.start(["sumo", *sys.argv[1:], "--no-step-log", "--no-warnings"])
vehicle, simulation = traci.vehicle, traci.simulation
first = [f"{way}.{number}" for number in range(4) for way in ("east", "west")]
ahead = {"e": "JE", "w": "JW"}
begun, lost, before, between, inside = {}, {}, {}, set(), set()


def passed(name):
    """Metres of edges and junctions behind it, and where it departed on its first one."""
    return vehicle.getDistance(name) - vehicle.getLanePosition(name)


def look():
    """At those of the queues that are on edges: what they have passed, and the gap to the leader beside
    the distances of both."""
    there = {name: vehicle.getRoadID(name) for name in first if name in vehicle.getIDList()}
    for name in [name for name, road in there.items() if not road.startswith(":")]:
        lost[name] = vehicle.getTimeLoss(name)
        begun.setdefault(name, passed(name))
        before.setdefault(name, {})[there[name]] = round(passed(name) - begun[name], 1)
        leader = vehicle.getLeader(name, 100)
        if leader and not there.get(leader[0], ":").startswith(":"):
            room = (
                vehicle.getDistance(leader[0])
                - vehicle.getDistance(name)
                - vehicle.getLength(name)
                - vehicle.getMinGap(name)
            )
            between.add(round(leader[1] - room, 1))
            inside.add(there[name] == there[leader[0]])


traci.trafficlight.setRedYellowGreenState("J", HELD)
simulation.subscribe()
while simulation.getTime() < 60:
    traci.simulationStep()
    if simulation.getTime() > 50:
        look()
queues = [
    [vehicle.getNextTLS(name)[0][2], (vehicle.getLeader(name, 100) or ("", 0))[1], vehicle.getDistance(name)]
    for name in first
]
driving = [
    round(vehicle.getDrivingDistance(name, ahead[name[0]], 100) - vehicle.getNextTLS(name)[0][2], 1) for name in first
]
leaders = [(vehicle.getLeader(name, 100) or ("",))[0] for name in first]
traci.trafficlight.setRedYellowGreenState("J", FREE)
while set(first) & set(vehicle.getIDList()):
    traci.simulationStep()
    look()
stood = [lost[name] for name in first]
traci.trafficlight.setProgram("J", "0")
total, begin = {}, simulation.getTime()
while simulation.getTime() < begin + 600:
    traci.simulationStep()
    for name in simulation.getDepartedIDList():
        vehicle.subscribe(name, [TIME_LOSS])
    total.update({name: values[TIME_LOSS] for name, values in vehicle.getAllSubscriptionResults().items()})
gone = [seconds for name, seconds in total.items() if name not in vehicle.getIDList()]
print(json.dumps([driving, leaders, [before[name] for name in first], sorted(between), sorted(inside)]))
print(json.dumps(queues))
print(json.dumps(stood))
print(json.dumps([len(gone), sum(gone) / len(gone)]))
traci.close()
