"""Makes the lines of a run and the map of its names, of a network that was read and its vehicles."""
import json
from collections.abc import Iterable, Sequence
from dataclasses import asdict, fields

from streetsim.base import limits
from streetsim.base.files import Fault, Json
from streetsim.base.report import Report
from streetsim.model.mapping import Map, MapLink, MapTurn
from streetsim.model.runs import Command
from streetsim.model.waiting import TurnKey
from streetsim.sumo.conflicts import conflicts_of
from streetsim.sumo.constraints import warn_of_broken
from streetsim.sumo.crossing import Flows, hourly_flows
from streetsim.sumo.demand import DemandVehicle, enters, kinds_of
from streetsim.sumo.detectors import detectors_on_cells
from streetsim.sumo.full import fullness
from streetsim.sumo.lane_capacity import crossings_of, weights_of_waiting
from streetsim.sumo.lit_ways import lit_ways_of, open_ways_of
from streetsim.sumo.merges import merges_of
from streetsim.sumo.net import STATIC, SumoNet, doubted_plans, lights_not_static
from streetsim.sumo.network import Network, Options
from streetsim.sumo.paces import Paces
from streetsim.sumo.programs import fixed_programs, kept_programs, lights_of_riders
from streetsim.sumo.rules import warn_of_rules
from streetsim.sumo.signals import SECONDS_AFTER, signal_commands
from streetsim.sumo.slowing import with_lower_limits
from streetsim.sumo.reserved import reserved_lanes
from streetsim.sumo.starting import slow_starts
from streetsim.sumo.timings import timings_of, warn_of_clashes
from streetsim.sumo.types import Types
from streetsim.sumo.wauts import day_lines, days_of, programs_shown

# The network, its lights with their nodes, the commands of the run, the names of its vehicles.
ConvertedRun = tuple[Network, list[tuple[str, int]], list[Command], list[str]]


def run_and_map(converted_run: ConvertedRun, report: Report) -> tuple[list[str], Map]:
    """(the lines of a run as JSON texts; its map, with all that the report says), of what converted made. Fault where a
    limit of the simulator is passed, or `detectors_on_cells` raises one."""
    network, lights, commands, names = converted_run
    mapping = map_of(network, lights, names, report)
    mapping.detectors = detectors_on_cells(network.detectors, mapping, network.closed_lanes, report)
    mapping.warnings, mapping.warning_rows = list(report.lines()), report.rows()
    written = json.JSONEncoder(separators=(",", ":")).encode  # one for all, as `dumps` makes one for each
    lines = [written(command) for command in commands]
    refuse_over_limits(network, lines[0], names)
    return lines, mapping


def converted(
    net: SumoNet, types: Types, vehicles: Sequence[DemandVehicle], options: Options, report: Report,
    doubted: bool = True,
) -> ConvertedRun:
    """(the network, the lights with their nodes, the commands, the names of the vehicles that drive) of a run;
    vehicles: in order of departure. What is left out or made otherwise than in SUMO is reported. Fault for what cannot
    be made, as a route without a connection. In net, programs may become those of the run's begin (wauts.days_of).
    doubted: whether what may mislead is looked for, as nearly full lanes and programs that clash."""
    timings = [timing.written() for timing in timings_of(net)] if doubted else []
    if options.slow:
        net, vehicles = with_lower_limits(net, vehicles, options.slow, report)
    flows = hourly_flows(vehicles)
    driving = (round(vehicle.depart) for vehicle in vehicles if vehicle.depart <= limits.CLOCK)
    last = max(driving, default=options.begin) + SECONDS_AFTER
    days = days_of(net, options.begin, last, report)
    paces = Paces(vehicles, types.drivings, lambda name: types.class_kept(name, options.classes))
    network = Network(net, options, report, flows, paces)
    crossings = crossings_of(net) if flows else {}
    network.timings = timings
    movements = (movement for crossing in crossings.values() for movement in crossing.by_flows(flows).values())
    network.choice.weights = weights_of_waiting(movements)
    entered, driven = enters(vehicles, net, network, types, report)
    network.kinds = kinds_of(driven, types)
    network.starts = slow_starts(net, driven, types.drivings)
    network.reserved = reserved_lanes(network, driven, lambda name: types.class_kept(name, options.classes))
    network.last_depart = max((command["depart"] for command in entered), default=options.begin)
    network.open_beside_works()
    if doubted:
        warn_of_rules(net, network, programs_shown(net, days), report)
        warn_of_clashes(net, report)
        warn_of_broken(net, report)
    network.lit_ways, network.open_ways = lit_ways_of(net, network), open_ways_of(net, network)
    network.yields = conflicts_of(net, network, flows)
    ends = {light: day[1][0] - 1 for light, day in days.items() if len(day) > 1}
    signals = signal_commands(net, network, report, ends) + day_lines(net, network, days, report)
    lights = [(light, command["node"]) for light, command in signals if "at" not in command]
    sensing = (light for light, program in programs_shown(net, days) if light in days and program.kind != STATIC)
    network.actuated = list(dict.fromkeys([*lights_not_static(net, (light for light, _ in signals)), *sensing]))
    network.switches = sorted((clock, light, program) for light, day in days.items() for clock, program in day)
    network.doubted_plans = doubted_plans(net)
    network.programs = kept_programs(net, lights)
    network.fixed = fixed_programs(net, lights, lights_of_riders(entered, driven, types, network))
    giving_way = nodes_giving_way(network, flows)
    merges = [merge for merge in merges_of(net, network, flows) if merge.command["node"] not in giving_way]
    if doubted and flows:
        network.full = fullness(net, crossings, vehicles, merges, flows)
    turns = [command for _, command in signals] + [merge.command for merge in merges]
    commands = [network.load_command(), *turns, *entered]
    return network, lights, commands, [vehicle.name for vehicle in driven]


def nodes_giving_way(network: Network, flows: Flows) -> set[int]:
    """The nodes without a light where some of those who drive give way to others."""

    def is_used(way: Sequence[TurnKey]) -> bool:
        return any((network.links[link].edge, network.links[to].edge) in flows for link, _, to in way)

    return {giver.node for giver in network.yields} | {
        one.node for one in network.open_ways
        if any(is_used(one.ways[own]) and is_used(one.ways[foe]) for own, foe, _ in one.yields)
    }


def refuse_over_limits(network: Network, load: str, names: Sequence[str]) -> None:
    """Fault where a network, its load line (load, as text) or the number of vehicles (of names) is above the
    simulator's limits."""
    exceeded = list(network.over_limits())
    if len(names) > limits.VEHICLES:
        exceeded.append(f"{len(names):,} vehicles, at most {limits.VEHICLES:,}")
    if len(load) > limits.LINE:
        exceeded.append(f"a load line of {len(load):,} bytes, at most {limits.LINE:,}")
    if exceeded:
        smaller = "streetsim-import --part EDGES|X,Y,X,Y takes a part, with the vehicles that drive through it"
        raise Fault(f"too large for streetsim: {'; '.join(exceeded)}. Nothing was written: {smaller}")


def map_of(network: Network, lights: list[tuple[str, int]], names: list[str], report: Report) -> Map:
    """The map of an import, but for detectors and told, which run_and_map sets; lights: (light, node), one for each
    node with a light; names: of the vehicles, in order of their numbers; report: whose lines become its warnings."""
    nodes = zip(network.nodes, network.points, network.residences, strict=True)
    return Map(
        nodes=[(name, *place, residence) for name, place, residence in nodes],
        links=[
            MapLink(link.edge, link.lanes, link.begin, link.end, link.cells, link.limit, link.metres, tuple(link.shape))
            for link in network.links
        ],
        turns=[
            MapTurn(
                *key, turn.next_lane, turn.light, turn.index, turn.added, turn.speed, turn.limit, turn.accel,
                turn.apart, turn.inside,
            )  # fmt: skip
            for key, turn in network.turns.items()
        ],
        signals=lights,
        cars=names,
        yields=network.yields,
        options={name: value for name, value in asdict(network.options).items() if name != "part" or value},
        warnings=list(report.lines()),
        kinds=network.kinds,
        location=network.location,
        actuated=network.actuated,
        programs=network.programs,
        rings=network.rings,
        names=network.names,
        visits=network.visits,
        fixed=network.fixed,
        switches=network.switches,
        full=network.full,
        starts=network.starts,
        reserved=network.reserved,
        timings=network.timings,
        doubted_plans=network.doubted_plans,
        lit_ways=network.lit_ways,
        open_ways=network.open_ways,
    )


def options_again(mapping: Map, **further: Iterable[str]) -> Options:
    """The options of the import that made a map, with further values in those that are lists: joint, led, slow; without
    those of earlier tools that have no effect any more."""
    names = {one.name for one in fields(Options)}
    own = ((name, value) for name, value in mapping.options.items() if name in names)
    known: Json = {name: tuple(value) if isinstance(value, list) else value for name, value in own}
    return Options(**{**known, **{name: (*known.get(name, ()), *values) for name, values in further.items()}})
