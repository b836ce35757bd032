"""A part of a network, with the vehicles that drive through it: each from where it begins there, or comes in, and when
it would without traffic."""
import re
from collections import Counter
from collections.abc import Container, Iterator, Mapping, Sequence
from dataclasses import replace
from itertools import accumulate, groupby, pairwise

from streetsim.base.files import Fault
from streetsim.base.report import Report
from streetsim.sumo.crossing import EdgePair
from streetsim.sumo.demand import DemandVehicle
from streetsim.sumo.net import SumoNet
from streetsim.sumo.network import Options
from streetsim.sumo.paces import AT_SPEED
from streetsim.sumo.stops import edge_of
from streetsim.sumo.way_graph import END, graph_of_net
from streetsim.sumo.way_unloaded import times_and_capacities_without_routes

NUMBER = re.compile(r"[-+]?\d+(\.\d*)?")
OF_BOX = 4  # numbers: x and y of two corners
CUT_NAME = "{}#{}"  # how a vehicle is called that does not stay inside: its name, and which of its stays in the part
DROPPED = "an edge of the route has no lane for the classes"
Seconds = Mapping[EdgePair, float]  # without traffic, over an edge and the junction to the next one


def with_part(
    net: SumoNet, vehicles: Sequence[DemandVehicle], options: Options, report: Report
) -> tuple[SumoNet, list[DemandVehicle]]:
    """(the part of a network that options.part names, its vehicles by departure); net and vehicles stay as they are.
    What is left out is reported. Fault as of part_edges and refuse_double."""
    inside = part_edges(net, options.part)
    part_net = net_of_part(net, inside, report)
    seconds_of = seconds_without_traffic(net, options)
    part_vehicles: list[DemandVehicle] = []
    counts = Counter[str]()
    for vehicle in vehicles:
        if why := why_not_driven(vehicle, net, options):
            report.skipped[why] += 1
            continue
        stays = list(stays_of(vehicle, inside, net, seconds_of))
        counts["whole" if stays == [vehicle] else "cut" if stays else "out"] += 1
        part_vehicles += stays
    refuse_double(part_vehicles)
    report.warn(
        f"a part of the network: {len(inside):,} of {len(net.edges):,} edges; {counts['whole']:,} vehicles stay "
        f"inside, {counts['cut']:,} are cut to their {len(part_vehicles) - counts['whole']:,} stays there "
        f"(called {CUT_NAME.format('NAME', 1)}, ..), {counts['out']:,} do not drive there",
        advice="vehicles from outside come as without traffic there: queues before the part are not known",
    )
    return part_net, sorted(part_vehicles, key=lambda vehicle: vehicle.depart)


def part_edges(net: SumoNet, names: Sequence[str]) -> set[str]:
    """The edges of a part: those that are named; or of a box, by x and y of two corners in metres of the network, those
    that begin or end at a junction in it. Fault for an edge that is not there, a box without a junction, and four
    numbers that are edges too."""
    is_box = len(names) == OF_BOX and all(NUMBER.fullmatch(name) for name in names)
    unknown = [name for name in names if name not in net.edges and name not in net.dropped]
    if is_box and not unknown:
        raise Fault(f"--part {','.join(names)}: four edges, or a box? Write a box with a point: {float(names[0])}")
    if not is_box:
        if unknown:
            raise Fault(f"--part: the import has no edge {unknown[0]!r}")
        return net.edges.keys() & names
    (west, east), (south, north) = (sorted(map(float, axis)) for axis in (names[::2], names[1::2]))
    within = {name for name, (x, y) in net.junctions.items() if west <= x <= east and south <= y <= north}
    if found := {edge.name for edge in net.edges.values() if edge.begin in within or edge.end in within}:
        return found
    xs, ys = zip(*net.junctions.values(), strict=True)
    whole = f"x {min(xs):g} to {max(xs):g}, y {min(ys):g} to {max(ys):g}"
    box = f"x {west:g} to {east:g}, y {south:g} to {north:g}"
    raise Fault(f"--part: no street has a junction in {box}; all have {whole}")


def net_of_part(net: SumoNet, inside: Container[str], report: Report) -> SumoNet:
    """A new network of some of the edges. Detectors that lie on others are reported."""
    connections = [one for one in net.connections if one.source in inside and one.target in inside]
    lit = {one.light for one in connections}
    detectors = [one for one in net.detectors if one.lane.rpartition("_")[0] in inside]
    if lost := [one.name for one in net.detectors if one not in detectors]:
        report.warn(f"{len(lost):,} detectors are not in the part", lost)
    wauts = {name: replace(one, lights=[at for at in one.lights if at in lit]) for name, one in net.wauts.items()}
    return replace(
        net,
        edges={name: edge for name, edge in net.edges.items() if name in inside},
        connections=connections,
        programs={light: program for light, program in net.programs.items() if light in lit},
        earlier={light: programs for light, programs in net.earlier.items() if light in lit},
        wauts=wauts,
        detectors=detectors,
    )


def seconds_without_traffic(net: SumoNet, options: Options) -> Seconds:
    """The seconds of each edge and next edge of a network without traffic, with the mean wait at its light, as
    streetsim-import --trips has them; of an edge and "" those where nothing follows. Fault as of Network."""
    graph = graph_of_net(net)
    seconds, _ = times_and_capacities_without_routes(net, graph, replace(options, part=(), joint=(), led=(), slow=()))
    return {
        (graph.edges[edge], "" if following == END else graph.edges[following]): seconds[at]
        for at, (edge, following) in enumerate(graph.movements)
    }


def why_not_driven(vehicle: DemandVehicle, net: SumoNet, options: Options) -> str:
    """Why a vehicle does not drive in the whole network either; empty where it does, as far as is known here."""
    if not net.dropped.isdisjoint(vehicle.edges):
        return DROPPED
    return "departs before the begin" if vehicle.depart < options.begin else ""


def stays_of(
    vehicle: DemandVehicle, inside: Container[str], net: SumoNet, seconds_of: Seconds
) -> Iterator[DemandVehicle]:
    """The stays of a vehicle in a part, each as a vehicle of its own: itself where it stays inside all the way."""
    runs = [(is_inside, len(list(run))) for is_inside, run in groupby(edge in inside for edge in vehicle.edges)]
    if runs == [(True, len(vehicle.edges))]:
        yield vehicle
        return
    ends = list(accumulate(length for _, length in runs))
    stays = [(end - length, end) for (is_inside, length), end in zip(runs, ends, strict=True) if is_inside]
    steps = (seconds_of.get(pair, seconds_of.get((pair[0], ""), 0.0)) for pair in pairwise(vehicle.edges))
    clocks = list(accumulate(steps, initial=vehicle.depart))
    for number, (begin, end) in enumerate(stays, 1):
        yield stay_of(vehicle, number, (begin, end), clocks[begin], net)


def stay_of(
    vehicle: DemandVehicle, number: int, stay: tuple[int, int], depart: float, net: SumoNet
) -> DemandVehicle:
    """A stay of a vehicle, by its number from 1 and the positions of its first edge and behind its last one. depart:
    seconds, without the stops before."""
    begin, end = stay
    edges, stops = vehicle.edges[begin:end], [(edge_of(stop, net), stop) for stop in vehicle.stops]
    waited = sum(stop.duration for edge, stop in stops if edge in vehicle.edges[:begin] and edge not in edges)
    attributes = vehicle.further_attributes
    if begin:  # it comes at its speed
        attributes = (*(one for one in attributes if one[0] != "departSpeed"), ("departSpeed", AT_SPEED[0]))
    return replace(
        vehicle, name=CUT_NAME.format(vehicle.name, number), depart=depart + waited, edges=edges, route="",
        stops=tuple(stop for edge, stop in stops if edge in edges), further_attributes=attributes,
    )  # fmt: skip


def refuse_double(vehicles: Sequence[DemandVehicle]) -> None:
    """Fault where two vehicles have one name."""
    counts = Counter(vehicle.name for vehicle in vehicles)
    if double := next((name for name, count in counts.items() if count > 1), ""):
        raise Fault(f"--part: two vehicles are named {double!r}, one of them as it is cut")
