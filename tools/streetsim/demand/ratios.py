"""Reads flows without an end, and turn ratios by which they go on, as SUMO's jtrrouter takes them. All that reads
raises Fault, with file and line or element, where a value is absent or cannot be read."""
import random
from collections.abc import Iterable

from streetsim.base.files import Fault, FilePath, element_told
from streetsim.base.report import Report
from streetsim.demand.cells import MOST_SECONDS, clock_of, name_of, period_of, vehicle_number
from streetsim.demand.tags import Tag, read_tags
from streetsim.demand.values import Inflow, Ratio
from streetsim.sumo.flows import RATES, departs, route_elements
from streetsim.sumo.types import TAGS

FLOWS = ("routes", "additional", "add", "flows")
ENDS = ("to", "toTaz", "toJunction", "via", "route", "routeDistribution")  # of flows that do not go on by ratios
READ = {"id", "from", "begin", "end", "number", *RATES}  # of a flow
TURNS = ("turns", "edgeRelations", "turn-defs", "data")


def read_inflows(paths: Iterable[FilePath], seed: int, report: Report) -> list[Inflow]:
    """Flows that have a `from` alone, each with its departures; their attributes that are not in READ, and vehicle
    types, are reported as ignored. Fault where a file cannot be read or has no flow, for a flow with one of ENDS, and
    for another element. seed: of departures by chance."""
    inflows: list[Inflow] = []
    draws = random.Random(f"inflows {seed}")
    for path in paths:
        earlier_count = len(inflows)
        for element in route_elements(path, FLOWS):
            if element.tag in TAGS:
                report.ignored[f"<{element.tag}> of files of flows"] += 1
                continue
            if element.tag != "flow" or not element.get("from"):
                raise Fault(f"{element_told(path, element)}: expected a <flow> with from, which turn ratios lead on")
            if ends := [name for name in ENDS if element.get(name) or element.find(name) is not None]:
                reason = f"it has an end ({ends[0]}): give it to --candidates or streetsim-route --trips"
                raise Fault(f"{element_told(path, element)}: {reason}")
            for name in set(element.keys()) - READ:
                report.ignored[f"{name} of flows"] += 1
            times = departs(path, element, draws)
            inflows.append(Inflow(element.get("from", ""), times, element_told(path, element)))
        if len(inflows) == earlier_count:
            raise Fault(f"{path}: no flow is in it")
    return inflows


def read_ratios(paths: Iterable[FilePath]) -> tuple[list[Ratio], set[str]]:
    """(turn ratios, names of the edges that are said to be sinks, where vehicles end); Fault where a file cannot be
    read, has no ratio, or another element. Ratios in no interval hold at any time, as in SUMO's jtrrouter."""
    ratios: list[Ratio] = []
    sinks: set[str] = set()
    for path in paths:
        earlier_count = len(ratios)
        source = ""
        for tag in read_tags(path, TURNS):
            if "interval" not in tag.inside:
                begin, end = 0, MOST_SECONDS
            if tag.name == "interval":
                begin, end = period_of(tag.get("begin", clock_of), tag.get("end", clock_of), tag.location)
            elif tag.name == "fromEdge":
                source = tag.get("id", name_of)
            elif tag.name == "toEdge" and "fromEdge" in tag.inside:
                ratios.append(Ratio(begin, end, source, tag.get("id", name_of), weight_of(tag), tag.location))
            elif tag.name == "edgeRelation":
                ends = tag.get("from", name_of), tag.get("to", name_of)
                ratios.append(Ratio(begin, end, *ends, weight_of(tag), tag.location))
            elif tag.name == "sink":
                sinks.update(tag.get("edges", name_of).split())
            else:
                expected = "<edgeRelation>, or <toEdge> in a <fromEdge>"
                raise Fault(f"{tag.location}: <{tag.name}> is no turn ratio: {expected}")
        if len(ratios) == earlier_count:
            raise Fault(f"{path}: no turn ratio is in it")
    return ratios, sinks


def weight_of(tag: Tag) -> float:
    """The weight of a turn: its attribute probability, else count; any number from 0 on. Fault where it has neither, or
    it is no such number."""
    return tag.get("probability" if "probability" in tag.attributes else "count", vehicle_number)
