"""Makes calls of TraCI, each with words that make sense, over SUMO's own client, and prints as JSON what each said.

    every_call.py traci|libtraci CALLS BINARY WORDS ..      CALLS: a file with a JSON list of "domain.call"

The run has the cross of examples/actuated with every_call.add.xml and every_call.rou.xml: a bus stands at the first of
two stops, and there are a loop and an area."""
import importlib
import json
import sys

client, names, *command = sys.argv[1:]
traci = importlib.import_module(client)  # of libtraci the constants are an attribute
tc = traci.constants
traci.start(command)
traci.simulationStep(40)
ROUTE, EDGE, LANE, LIGHT, BUS = "way", "WJ", "WJ_0", "J", "bus"
cars = iter([name for name in traci.vehicle.getIDList() if traci.vehicle.getRoadID(name) == EDGE and name != BUS])
LOGIC = traci.trafficlight.getAllProgramLogics(LIGHT)[0]
FIRST = {
    "vehicle": BUS, "vehicletype": "bus", "route": ROUTE, "lane": LANE, "edge": EDGE, "junction": LIGHT,
    "trafficlight": LIGHT, "inductionloop": "loop", "lanearea": "area", "busstop": "first", "poi": "p", "polygon": "p",
    "gui": "View #0", "simulation": "",
}  # the object of a call
RED = (255, 0, 0, 255)
AFTER = {  # words behind the object, by "domain.call", else by the call
    "getParameter": ("key",), "getParameterWithKey": ("key",), "setParameter": ("key", "value"),
    "subscribeContext": (tc.CMD_GET_VEHICLE_VARIABLE, 100.0, [tc.VAR_SPEED]),
    "unsubscribeContext": (tc.CMD_GET_VEHICLE_VARIABLE, 100.0),
    "trafficlight.getServedPersonCount": (0,), "trafficlight.setCompleteRedYellowGreenDefinition": (LOGIC,),
    "trafficlight.setProgramLogic": (LOGIC,), "trafficlight.setLinkState": (0, "r"), "trafficlight.setPhase": (0,),
    "trafficlight.setPhaseDuration": (5.0,), "trafficlight.setPhaseName": ("name",),
    "trafficlight.setProgram": (LOGIC.programID,),
    "trafficlight.setRedYellowGreenState": (traci.trafficlight.getRedYellowGreenState(LIGHT),),
    "lane.setAllowed": ([],), "lane.setDisallowed": (["truck"],), "edge.setAllowed": ([],),
    "edge.setDisallowed": (["truck"],), "edge.adaptTraveltime": (60.0,), "edge.getAdaptedTraveltime": (0.0,),
    "vehicle.changeTarget": ("JN",), "vehicle.getDrivingDistance": ("JE", 10.0), "vehicle.setColor": (RED,),
    "vehicle.setRoute": ([EDGE, "JS"],), "vehicle.setRouteID": (ROUTE,),
    "vehicle.setRoutingMode": (tc.ROUTING_MODE_AGGREGATED,),
    "poi.add": (1.0, 2.0, RED), "poi.setAngle": (3.0,), "poi.setColor": (RED,), "poi.setHeight": (3.0,),
    "poi.setImageFile": ("x.png",), "poi.setPosition": (1.0, 2.0), "poi.setType": ("x",), "poi.setWidth": (3.0,),
    "polygon.add": ([(0, 0), (1, 0), (1, 1)], RED), "polygon.setColor": (RED,), "polygon.setFilled": (True,),
    "polygon.setLineWidth": (2.0,), "polygon.setShape": ([(0, 0), (1, 0), (1, 1)],), "polygon.setType": ("x",),
    "gui.setAngle": (1.0,), "gui.setBoundary": (0.0, 0.0, 1.0, 1.0), "gui.setOffset": (1.0, 2.0), "gui.setZoom": (9.0,),
    "gui.setSchema": ("standard",), "gui.trackVehicle": (BUS,),
}
NEW = {"vehicle.add": "new", "vehicle.addFull": "newer", "route.add": "other"}  # names of what is added
ADDED = {"vehicle.add": (ROUTE,), "vehicle.addFull": (ROUTE,), "route.add": ([EDGE, "JN"],)}
ALONE = {  # all words, of calls without an object
    "simulation.convert2D": (EDGE, 10.0), "simulation.convertRoad": (10.0, 10.0), "simulation.findRoute": (EDGE, "JS"),
    "simulation.getDistance2D": (0.0, 0.0, 10.0, 10.0), "simulation.getDistanceRoad": (EDGE, 1.0, "JE", 2.0),
    "simulation.subscribe": (), "simulation.getOption": ("net-file",), "simulation.saveState": ("state.json",),
    "simulation.loadState": ("state.json",), "simulation.writeMessage": ("said",), "gui.toggleSelection": (BUS,),
    "gui.track": (BUS,), "person.getTaxiReservations": (0,), "gui.addView": ("View #1",),
    "gui.removeView": ("View #1",), "simulation.unsubscribe": ("",),
}
ANOTHER = ("remove", "setRoute", "setRouteID", "changeTarget", "rerouteTraveltime")  # made of a car, not of the bus
NONE = ("getIDList", "getIDCount", "getAllSubscriptionResults", "getAllContextSubscriptionResults")
LAST = ("simulation.loadState", "vehicle.remove")


def words_of(name):
    """The words of a call."""
    domain, call = name.split(".")
    if name in ALONE or call in NONE:
        return ALONE.get(name, ())
    if name in ADDED:
        return (NEW[name], *ADDED[name])
    if domain == "simulation" and call not in ("getParameter", "getParameterWithKey", "setParameter"):
        return ()
    subject = next(cars) if domain == "vehicle" and call in ANOTHER else FIRST[domain]
    return (subject, *(AFTER[name] if name in AFTER else AFTER.get(call, ())))


with open(names) as file:
    calls = json.load(file)
told = {}
for name in sorted(calls, key=lambda name: (name in LAST, "unsubscribe" in name, name)):
    domain, call = name.split(".")
    try:
        told[name] = repr(getattr(getattr(traci, domain), call)(*words_of(name)))
    except Exception as fault:
        told[name] = f"{type(fault).__name__}: {fault}"
print("TOLD", json.dumps(told))
traci.close()
