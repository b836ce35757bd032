"""Reads SUMO's additional files: signal programs, vehicle types, detectors, bus stops, demand. All that reads raises
Fault, with file and element, where an attribute that it needs is absent, or one cannot be read."""
from collections import defaultdict
from xml.etree.ElementTree import Element

from streetsim.base.files import Fault, FilePath, attribute, element_told, elements
from streetsim.base.report import Report, first_few
from streetsim.sumo.demand import Demand
from streetsim.sumo.detectors import KINDS, read_detector
from streetsim.sumo.net import OFF_PROGRAM, SumoNet, read_program
from streetsim.sumo.stops import BUS_STOPS, read_bus_stop
from streetsim.sumo.types import TAGS, Types
from streetsim.sumo.wauts import read_waut, read_waut_junction

UNDONE = {  # elements of additional files that change traffic in SUMO: what to do here
    "rerouter": "ways round works: streetsim-route --close; closed lanes: streetsim-run --close",
    "calibrator": "give its flows as routes",
    "variableSpeedSign": "the lanes keep their speed: judge by SUMO",
}
DEMAND = ("route", "routeDistribution", "vehicle", "flow", "trip", "person", "personFlow", "container", "containerFlow")


def read_additional(path: FilePath, net: SumoNet, types: Types, report: Report, demand: Demand | None = None) -> None:
    """Reads an additional file, after the network: signal programs, WAUTs, detectors and bus stops go to the network,
    vehicle types to types, and elements of DEMAND to a demand (None: they are a Fault). Other elements, and programs
    that switch a light off, have no effect and are reported. Fault where the file cannot be read or an element is
    wrong; Unrouted where Demand.read_element raises it."""
    undone = defaultdict(list)
    for element in elements(path, ["additional", "add", "a", "routes", "tlLogics"]):
        if element.tag == "tlLogic":
            refuse_unknown_light(path, element, net)
            read_program(path, element, net, ())
            if element.get("programID") == OFF_PROGRAM:
                told_off = f"{element_told(path, element)} does nothing here, as it switches the light off"
                report.warn(told_off, [element.get("id", "")], "a network without the light is made by netconvert")
        elif element.tag in TAGS:
            types.read_element(path, element)
        elif element.tag == "WAUT":
            read_waut(path, element, net)
        elif element.tag == "wautJunction":
            read_waut_junction(path, element, net, report)
        elif element.tag in BUS_STOPS:
            read_bus_stop(path, element, net)
        elif element.tag in KINDS:
            net.detectors += filter(None, [read_detector(path, element, report)])
        elif element.tag in DEMAND and demand is not None:
            demand.read_element(path, element)
        elif element.tag in DEMAND:
            raise Fault(f"{element_told(path, element)} in an additional file: give files of routes after --routes")
        elif element.tag in UNDONE:
            undone[element.tag].append(element.get("id", "without a name"))
        else:
            report.ignored[f"<{element.tag}> of additional files"] += 1
    for tag, names in undone.items():
        report.warn(f"{path}: <{tag}> does nothing here: {first_few(names)}", names, UNDONE[tag])


def refuse_unknown_light(path: FilePath, element: Element, net: SumoNet) -> None:
    """Fault where a program is of a light that the network does not have, as in SUMO."""
    light = attribute(path, element, "id")
    if light not in net.programs and all(light != one.light for one in net.connections):
        raise Fault(f"{element_told(path, element)}: the network has no light of this name")
