"""The run and map of trips with their present ways, as streetsim-import makes them of a file of routes."""
import json
from array import array
from collections.abc import Sequence
from dataclasses import dataclass, replace

from streetsim.base.files import Fault, FilePath, whole_file
from streetsim.base.report import Report
from streetsim.control.works_asked import works_of
from streetsim.control.works_sites import lanes_to_join, lanes_to_lead, with_closures
from streetsim.model.mapping import Map
from streetsim.model.runs import Line, Run, run_of
from streetsim.model.sources import Sources
from streetsim.sumo.additional import read_additional
from streetsim.sumo.converting import converted, map_of, refuse_over_limits
from streetsim.sumo.import_files import convert, write_run
from streetsim.sumo.net import SumoNet, read_net
from streetsim.sumo.network import Options
from streetsim.sumo.trips import Trip, vehicles_from_trips
from streetsim.sumo.types import Types
from streetsim.sumo.way_graph import Graph, graph_of_net
from streetsim.sumo.way_minor import Minor
from streetsim.sumo.way_seconds import free_seconds, whole_plans


@dataclass(slots=True)
class LoadedRun:
    """A run of trips with their present ways, and its map. free: seconds of each movement of the graph where nobody is
    in the way."""

    run: Run
    mapping: Map
    free: array


class RouteTown:
    """A network and its vehicle types, read once, with the works that its runs have."""

    def __init__(self, net: SumoNet, types: Types, options: Options, files: Sources) -> None:
        """options: of the import, which each run of the town is made with; files: the network's and additional ones."""
        self.net, self.types, self.options, self.files = net, types, options, files
        self.graph: Graph = graph_of_net(net)
        self.minor = Minor(self.graph, net)
        self.works: tuple[str, ...] = ()  # as streetsim-run --close takes them
        self.joint: tuple[str, ...] = ()  # lanes that are joint in each run, with works and without
        self.lost = "lead"  # what those do who lose their only lane by them, of works_movements.LOST

    @property
    def dawdle(self) -> float:
        """The chance, 0 to 1, that a vehicle goes on by a cell less in a step."""
        return self.options.dawdle / 1000

    def own_options(self) -> Options:
        """The options of the import of each run."""
        return replace(self.options, joint=(*self.options.joint, *self.joint))

    def loaded(self, trips: Sequence[Trip], doubted: bool = False) -> LoadedRun:
        """The run of trips that have ways, with the town's works. Permissive greens and the choice of lanes follow the
        routes, so it is imported anew. doubted: whether its map tells what may mislead. Fault as of with_works."""
        run, mapping = self.imported(trips, (), doubted=doubted)
        if self.works:
            run, mapping, _ = self.with_works(trips, run, mapping, doubted)
        free = free_seconds(self.graph, mapping, whole_plans(run.signals()), self.dawdle)
        return LoadedRun(run, mapping, free)

    def imported(
        self, trips: Sequence[Trip], joint: Sequence[str], led: Sequence[str] = (), doubted: bool = False
    ) -> tuple[Run, Map]:
        """(run, its map) without works. joint, led: names of lanes, beside those of the options: a joint lane is of one
        link with a lane beside it, and the links beside led lanes get their turns. doubted: as of `loaded`. Fault where
        the network has no such lane, a trip is skipped, or a limit of the program is passed."""
        report = Report()
        options = replace(self.own_options(), led=(*self.options.led, *led))
        options = replace(options, joint=tuple(dict.fromkeys((*options.joint, *joint))))
        vehicles = vehicles_from_trips(trips, self.graph)
        network, lights, commands, names = converted(self.net, self.types, vehicles, options, report, doubted)
        if report.skipped:
            skipped = ", ".join(f"{count} vehicles: {why}" for why, count in sorted(report.skipped.items()))
            raise Fault(f"skipped: {skipped}")
        lines = [Line(0, json.dumps(command, separators=(",", ":")), command) for command in commands]
        refuse_over_limits(network, lines[0].text, names)
        return run_of("the routes", lines), map_of(network, lights, names, report)

    def with_works(
        self, trips: Sequence[Trip], run: Run, mapping: Map, doubted: bool = False
    ) -> tuple[Run, Map, list[str]]:
        """(run, its map, texts on those who lose their only lane) with the town's works, imported anew where lanes must
        be joint or led from beside. doubted: as of `loaded`. Fault where the map has no such works, and as of
        `imported`."""
        works = [works_of(text, mapping) for text in self.works]
        led = lanes_to_lead(works, mapping) if self.lost == "lead" else []
        if (names := lanes_to_join(works, mapping)) or led:
            run, mapping = self.imported(trips, names, led, doubted)
        return with_closures(run, mapping, works, self.lost, searched=True)

    def told_of_lost(self, trips: Sequence[Trip]) -> list[str]:
        """The texts on those of some trips who lose their only lane by the town's works; empty where nobody does. Fault
        where with_works raises one."""
        return self.with_works(trips, *self.imported(trips, ()))[2]


def read_town(net_path: str, additional: Sequence[str], options: Options, report: Report) -> RouteTown:
    """The town of a network's file, with what additional files add to it and to the vehicle types. Fault where one
    cannot be read, and where the options cut edges in parts (--slow) or take a part of the network. report: gets what
    is to be told of the files."""
    if options.slow:
        raise Fault("ways are searched on whole edges: import the run without --slow")
    if options.part:
        raise Fault("ways are searched on whole networks: import the run without --part")
    net, types = read_net(net_path, options.classes, report), Types(options.seed, report)
    for path in additional:
        read_additional(path, net, types, report)
    return RouteTown(net, types, options, Sources(net_path, [*additional]))


def write_loaded(loaded: LoadedRun, town: RouteTown, routes: str, run_path: str, map_path: str) -> None:
    """Writes the run of a file of routes (routes: its path), which has the ways of `loaded`, and its map, both as
    streetsim-import makes them. Of a town with works `loaded` itself is written, with the lines of its works, which an
    import would lose, so that its map names no files of one. Fault where a file cannot be read or written."""
    if not town.works:
        files, report = replace(town.files, routes=[routes]), Report()
        imported = convert(files.net, files.additional, files.routes, town.own_options(), report)
        write_run(run_path, map_path, imported, report, files)
        return
    write_run_of(loaded.run, loaded.mapping, run_path, map_path)


def write_run_of(run: Run, mapping: Map, run_path: FilePath, map_path: FilePath) -> None:
    """Writes a run as it is, with its timed lines, and its map. Fault where a file cannot be written."""
    timed = [json.dumps({"at": clock, **line.command}, separators=(",", ":")) for clock, line in run.timed]
    texts = [run.load.text, *(line.text for line in run.first), *timed, *(line.text for line in run.enters)]
    with whole_file(run_path) as file, whole_file(map_path) as mapped:
        file.writelines(f"{text}\n" for text in texts)
        json.dump(mapping.written(), mapped, separators=(",", ":"))
