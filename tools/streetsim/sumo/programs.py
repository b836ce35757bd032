"""What a map keeps of lights that SUMO times by detectors, and of lights that buses pass: their programs and the lanes
before them. The packages actuated and buses read it."""
from collections import defaultdict
from collections.abc import Container, Iterable
from itertools import pairwise
from typing import Any

from streetsim.base.files import Json
from streetsim.model.runs import Command
from streetsim.sumo.demand import DemandVehicle
from streetsim.sumo.net import STATIC, NetConnection, SumoNet, connections_to_lanes
from streetsim.sumo.network import Network
from streetsim.sumo.types import Kind, Types

MOST_BEFORE = 4  # lanes before one, on which its detector may lie


def kept_programs(net: SumoNet, lights: Iterable[tuple[str, int]]) -> list[Json]:
    """What a map keeps of each program that is not static: {"light", "program": its name, "idle": True where it is not
    in force (these come last), "kind", "offset": seconds, "phases": [[seconds, state, minDur, maxDur, [next phases]]],
    "parameters" and "more": as in LightProgram, "ways" and "lanes": lists of what connection_fields and lane_fields
    give, "nodes": those of the light, [{"node": number}], "timing": as in LightProgram, of NEMA lights alone}. lights:
    (light, node)."""
    nodes = nodes_by_light(lights)
    programs = [
        (kept_program is not net.programs[light], light, kept_program)
        for light in sorted(nodes)
        for kept_program in net.programs_of(light)
        if kept_program.kind != STATIC
    ]
    connections_into = connections_to_lanes(net) if programs else {}
    program_rows = []
    for is_idle, light, program in sorted(programs, key=lambda row: row[0]):
        connections = [connection for connection in net.connections if connection.light == light]
        lanes = sorted({(connection.source, connection.source_lane) for connection in connections})
        phases = zip(program.phases, program.bounds, program.following, strict=True)
        program_rows.append({
            "light": light,
            "program": program.name,
            **({"idle": True} if is_idle else {}),
            "kind": program.kind,
            "offset": program.offset,
            "phases": [[seconds, state, *bounds, list(then)] for (seconds, state), bounds, then in phases],
            "parameters": program.parameters,
            "more": list(program.further_names),
            "ways": [connection_fields(connection, net) for connection in connections],
            "lanes": [lane_fields(*key, net, connections_into) for key in lanes],
            "nodes": [{"node": node} for node in nodes[light]],
            **({"timing": [list(timing) for timing in program.timing]} if program.timing else {}),
        })
    return program_rows


def fixed_programs(
    net: SumoNet, lights: Iterable[tuple[str, int]], wanted_lights: Container[str]
) -> list[Json]:
    """What a map keeps of each of wanted_lights whose program in force is static, so that it can wait for buses:
    {"light", "program": its name, "offset": seconds, "phases": [[seconds, state, minDur, maxDur]], "nodes": as of
    kept_programs}. lights: (light, node)."""
    nodes = {light: own_nodes for light, own_nodes in nodes_by_light(lights).items() if light in wanted_lights}
    return [
        {
            "light": light,
            "program": program.name,
            "offset": program.offset,
            "phases": [[seconds, state, *bounds] for (seconds, state), bounds in zip(program.phases, program.bounds)],
            "nodes": [{"node": node} for node in own_nodes],
        }
        for light, own_nodes in sorted(nodes.items())
        for program in (net.programs[light],)
        if program.kind == STATIC
    ]


def nodes_by_light(lights: Iterable[tuple[str, int]]) -> dict[str, list[int]]:
    """The nodes of each light, of (light, node)."""
    nodes = defaultdict(list)
    for light, node in lights:
        nodes[light].append(node)
    return nodes


def lights_of_riders(
    entered: Iterable[Command], driven: Iterable[DemandVehicle], types: Types, network: Network
) -> set[str]:
    """The names of lights that vehicles pass which have a line of public transport, or another class than passenger.
    entered: the enter commands of the vehicles driven, in one order."""
    light_at = {(link, following): turn.light for (link, _, following), turn in network.turns.items() if turn.light}
    others = {name for name, kind in types.kinds.items() if kind.vclass != Kind().vclass}
    found: set[str] = set()
    for command, vehicle in zip(entered, driven, strict=True):
        if vehicle.line or vehicle.type in others:
            found.update(light for pair in pairwise(command["plan"]) if (light := light_at.get(pair)))
    return found


def connection_fields(connection: NetConnection, net: SumoNet) -> list[Any]:
    """[position in the light's state, lane, next lane, whether it turns back, SUMO's direction] of a connection."""
    back = net.edges[connection.source].begin == net.edges[connection.target].end
    lane = f"{connection.source}_{connection.source_lane}"
    next_lane = f"{connection.target}_{connection.target_lane}"
    return [connection.index, lane, next_lane, back, connection.direction]


def lane_fields(
    edge: str, index: int, net: SumoNet, connections_into: dict[tuple[str, int], list[NetConnection]]
) -> list[Any]:
    """[name, speed in metres a second, whether it is its edge's only lane, [[name, metres] of it and of those before
    it]] of a lane at a light; a lane before counts where it alone leads there, without a light, and MOST_BEFORE of them
    at most. connections_into: as connections_to_lanes gives it."""
    lane = next(one for one in net.edges[edge].lanes if one.index == index)
    stretches: list[list[Any]] = [[f"{edge}_{index}", lane.metres]]
    key = edge, index
    while len(stretches) <= MOST_BEFORE and len(into := connections_into.get(key, [])) == 1 and not into[0].light:
        key = into[0].source, into[0].source_lane
        metres = next(one.metres for one in net.edges[key[0]].lanes if one.index == key[1])
        stretches.append([f"{key[0]}_{key[1]}", metres])
    return [f"{edge}_{index}", lane.speed, len(net.edges[edge].lanes) == 1, stretches]
