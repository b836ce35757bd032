"""What a page needs beside the map: streets, outlines of junctions, and when vehicles would end if nobody were in their
way."""
import os

from streetsim.base.files import Fault, FilePath, elements
from streetsim.model.freeflow import Alone
from streetsim.model.mapping import Map
from streetsim.model.runs import Run

Area = list[list[float]]


def streets_and_areas(mapping: Map, map_path: FilePath) -> tuple[dict[str, str], dict[str, Area]]:
    """(names of streets by edge, outlines of junctions by name: points [x, y] in metres), of the map and of the
    imported network, from the folder of the map (map_path); without its file no outlines."""
    names: dict[str, str] = dict(mapping.names.get("edges", {}))
    areas: dict[str, Area] = {}
    if not mapping.sources:
        return names, areas
    path = os.path.join(os.path.dirname(os.path.realpath(map_path)), mapping.sources["net"])
    try:
        for element in elements(path, ["net"]):
            element_id, name, shape = element.get("id", ""), element.get("name", ""), element.get("shape", "")
            if element.tag == "edge" and name:
                names.setdefault(element_id, name)
            elif element.tag == "junction" and shape and not element_id.startswith(":"):
                areas[element_id] = [[float(value) for value in text.split(",")[:2]] for text in shape.split()]
    except (Fault, ValueError):
        return names, {}
    return names, areas


def departures_and_ends(run: Run, mapping: Map) -> tuple[list[int], list[int]]:
    """(the seconds at which vehicles wish to depart, those at which they would end alone and at green), each sorted."""
    alone, trip_seconds = Alone(mapping, run.load.command.get("dawdle", 0) / 1000), {}
    departs, ends = [], []
    for line in run.enters:
        depart, plan = line.command["depart"], tuple(line.command["plan"])
        if plan not in trip_seconds:
            trip_seconds[plan] = alone.trip(plan)
        departs.append(depart)
        ends.append(round(depart + trip_seconds[plan]))
    return sorted(departs), sorted(ends)


def nodes_giving_way(run: Run, mapping: Map) -> list[int]:
    """The nodes without a light at which the run has signal lines by which vehicles give way, sorted."""
    lit, yielding = {node for _, node in mapping.signals}, {yield_.node for yield_ in mapping.yields}
    return sorted({command["node"] for _, command in run.signals()} & yielding - lit)
