"""Makes a run and its map of SUMO's files. Fault where a file cannot be read or is wrong, or the run cannot be made."""
import json
from collections.abc import Sequence

from streetsim.base.files import whole_file
from streetsim.base.report import Report
from streetsim.model.mapping import Map
from streetsim.model.names import read_own
from streetsim.model.sources import Sources
from streetsim.sumo.additional import read_additional
from streetsim.sumo.configuration import tell_options
from streetsim.sumo.converting import ConvertedRun, converted, run_and_map
from streetsim.sumo.demand import Demand, Unrouted
from streetsim.sumo.import_ways import vehicles_with_ways
from streetsim.sumo.net import read_net
from streetsim.sumo.network import Options
from streetsim.sumo.part import with_part
from streetsim.sumo.types import Types


def read_and_converted(sources: Sources, options: Options, report: Report, configured: dict[str, str]) -> ConvertedRun:
    """What `convert` makes of the sources. configured: the options of SUMO's configuration, empty where none was given.
    The routes that a configuration names may be trips without ways: then these get ways, the sources change to say so
    (routes empty, trips in their place), and the report begins anew. Unrouted where trips without ways come from
    elsewhere; Fault where `convert` raises one."""
    tell_options(configured, report)
    try:
        return convert(sources.net, sources.additional, sources.routes, options, report, sources.trips)
    except Unrouted:
        if not configured or sources.trips:
            raise
    report.clear()
    tell_options(configured, report)
    how = "shortest by free speed, signals and volumes, as by --trips (better ways: streetsim-route)"
    report.warn(f"trips have the ways that are {how}")
    sources.routes, sources.trips = [], sources.routes
    return convert(sources.net, sources.additional, [], options, report, sources.trips)


def write_run(
    output: str, map_output: str, converted_run: ConvertedRun, report: Report, sources: Sources | None = None,
    names: str | None = None, end: int = 0,
) -> Map:  # fmt: skip
    """Writes the run to `output` and its map to `map_output`, and gives the map. converted_run: of `convert`; sources:
    files that the map is to name, or none; names: path of a file of names of one's own, or none; end: the clock at
    which the configuration ends the run, or 0. Fault where a limit of the simulator is passed, or a file cannot be read
    or written."""
    lines, mapping = run_and_map(converted_run, report)
    if names:
        read_own(names, mapping)
    mapping.sources, mapping.end = sources.written(map_output, lines) if sources else {}, end
    with whole_file(output) as run, whole_file(map_output) as mapped:
        run.writelines(line + "\n" for line in lines)
        mapped.write(json.dumps(mapping.written(), separators=(",", ":")))  # which is faster than dump
    return mapping


def convert(
    net_path: str, additional: Sequence[str], routes: Sequence[str], options: Options, report: Report,
    trips: Sequence[str] = (),
) -> ConvertedRun:  # fmt: skip
    """(the network, its lights with their nodes, the commands of the run, the names of its vehicles), of files of SUMO;
    additional, routes, trips: paths. trips: files whose vehicles get ways; where there are some, those of `routes` are
    read with them. Unrouted where there are none and a vehicle has no route. What is left out or otherwise than in SUMO
    is said in the report. Fault where a file cannot be read or is not as SUMO has it, where an option names an edge or
    lane that is not there, and where why_no_way or with_part raises one; vehicles without a way are else left out."""
    net = read_net(net_path, options.classes, report)
    types = Types(options.seed, report)
    demand = None if trips else Demand(net, types, options.seed, report, options.end)
    for path in additional:
        read_additional(path, net, types, report, demand)
    if trips:
        vehicles = vehicles_with_ways(net, types, [*routes, *trips], options, report)
    else:
        assert demand is not None
        for path in routes:
            demand.read_file(path)
        vehicles = demand.completed_vehicles()
    if options.part:
        net, vehicles = with_part(net, vehicles, options, report)
    made = converted(net, types, vehicles, options, report)
    if not made[-1] and (routes or trips):
        report.warn("no vehicle drives")
    return made
