"""Plans of streetsim-signals in SUMO: the same files, demand and seeds, and trips reckoned as they are here."""
import os
import shutil
import subprocess
import tempfile
from collections.abc import Callable, Mapping, Sequence
from dataclasses import dataclass, replace
from itertools import count
from pathlib import Path
from statistics import fmean
from typing import Self

from streetsim.base.files import Fault, attribute, elements
from streetsim.base.jobs import side_by_side
from streetsim.base.progress import WorkProgress
from streetsim.base.report import Report
from streetsim.base.seeds import paired
from streetsim.model.mapping import Map
from streetsim.model.runs import Run
from streetsim.model.sources import Sources, sources_of
from streetsim.report.beside_sumo import Trip, read_tripinfo
from streetsim.search.signal_town import Reading, SignalTown
from streetsim.sumo.additional import read_additional
from streetsim.sumo.converting import options_again
from streetsim.sumo.import_ways import trips_with_ways
from streetsim.sumo.net import read_net
from streetsim.sumo.trips import write_routes
from streetsim.sumo.types import Types
from streetsim.sumo.way_graph import graph_of_net

PROGRAM_ID = "streetsim-verified"  # of the lights: no program of the files given may have the same


@dataclass(frozen=True, slots=True)
class Verified:
    """Mean trips in SUMO, seconds, of what was given (means_before) and what was found (means_after), one for each
    seed, and the teleports of all runs of each."""

    means_before: list[float]
    means_after: list[float]
    teleports: tuple[int, int]

    def difference_and_half(self) -> tuple[float, float]:
        """(mean difference, after less before; half the width of its 95 % interval), seconds; of two seeds or more."""
        mean, half = paired(self.means_before, self.means_after)
        assert half is not None
        return mean, half

    def summary(self) -> str:
        """Both means and their difference, as one line for the user."""
        difference, half = self.difference_and_half()
        moved = f", {self.teleports[0]:,} and {self.teleports[1]:,} teleports" if any(self.teleports) else ""
        seeds = f"the same {len(self.means_before)} seeds{moved}"
        return (
            f"in SUMO {fmean(self.means_before):.1f} s as given, {fmean(self.means_after):.1f} s as found: "
            f"{difference:+.1f} s ± {half:.1f} (95 % interval of the mean change, {seeds})"
        )


@dataclass(frozen=True, slots=True)
class InSumo:
    """SUMO, and what its runs are given: the path of the program, the files of the import, further additional files,
    and the first and last second."""

    program: str
    sources: Sources
    further_files: list[str]
    start: int
    until: int

    def command_words(self, plan: str, seed: int, trips: str, statistic: str) -> list[str]:
        """The words of the command of one run. plan: a file of signal programs that is read last; trips, statistic:
        files that SUMO writes."""
        files = self.sources
        return [
            *(self.program, "-n", files.net, "-a", ",".join([*files.additional, *self.further_files, plan])),
            *("-r", ",".join(files.routes), "--seed", str(seed), "--begin", str(self.start), "--end", str(self.until)),
            *("--tripinfo-output", trips, "--statistic-output", statistic, "--no-step-log", "--no-warnings"),
        ]

    def with_ways(self, mapping: Map, path: str) -> Self:
        """The same, with a file of routes, which it writes to path, in place of the files of an import with --trips:
        its vehicles, on the ways that the import found; itself where the import had no --trips. mapping: of the import.
        Fault where a file is wrong, or cannot be read or written."""
        sources = self.sources
        if not sources.trips:
            return self
        options, report = options_again(mapping), Report()
        net, types = read_net(sources.net, options.classes, report), Types(options.seed, report)
        for additional in sources.additional:
            read_additional(additional, net, types, report)
        graph = graph_of_net(net)
        paths = [*sources.routes, *sources.trips]
        write_routes(path, trips_with_ways(net, graph, types, paths, options, report), graph)
        return replace(self, sources=Sources(sources.net, sources.additional, [path]))

    def run_sumo(self, plan: str, seed: int) -> tuple[dict[str, Trip], int]:
        """Runs SUMO with a plan, a file of signal programs, and a seed; gives {vehicle: (wished departure, arrival)} in
        seconds, of those who arrived, and the number of teleports. Fault where SUMO fails."""
        with tempfile.TemporaryDirectory() as folder:
            trips, statistic = f"{folder}/trips.xml", f"{folder}/statistic.xml"
            command = self.command_words(plan, seed, trips, statistic)
            sumo = subprocess.run(command, cwd=folder, env=environment(), capture_output=True, text=True, check=False)
            if sumo.returncode:
                raise Fault(f"--verify-sumo: SUMO ended with status {sumo.returncode}: {first_error(sumo.stderr)}")
            return read_tripinfo(trips), teleports_of(statistic)


def environment() -> dict[str, str]:
    """This program's environment, for SUMO; with Debian's SUMO_HOME, by which SUMO checks files without the network,
    where it has none."""
    return {"SUMO_HOME": "/usr/share/sumo", **os.environ}


def first_error(text: str) -> str:
    """The first line of SUMO's standard error that begins with Error, else the first that is not blank, else that there
    is none."""
    lines = [line for line in text.splitlines() if line.strip()]
    return next((line for line in lines if line.startswith("Error")), [*lines, "nothing on standard error"][0])


def teleports_of(path: str) -> int:
    """How often SUMO moved a vehicle out of the way, one maybe more than once, of its statistic output at path."""
    counts = (element for element in elements(path, ["statistics"]) if element.tag == "teleports")
    return sum(attribute(path, element, "total", int) for element in counts)


def sumo_for(reading: Reading, mapping: Map, run: Run) -> InSumo:
    """SUMO with the files of the import, and the further files of --plans. Fault where SUMO is not installed, of a part
    of a network, where the map names no files or they are not those that were imported, or where the first of --plans
    is another network."""
    program = shutil.which("sumo")
    if program is None:
        raise Fault("--verify-sumo: SUMO is not installed here (Debian: apt install sumo)")
    if mapping.options.get("part"):
        raise Fault("--verify-sumo: SUMO drives the whole network, of which the run has a part (--part)")
    sources = sources_of(mapping.sources, reading.map, reading.run)
    if os.path.realpath(sources.net) != os.path.realpath(reading.plans[0]):
        raise Fault(
            f"--verify-sumo: {reading.run} was imported from {sources.net}, and --plans begins with {reading.plans[0]}"
        )
    known = {os.path.realpath(path) for path in sources.additional}
    more = [os.path.abspath(path) for path in reading.plans[1:] if os.path.realpath(path) not in known]
    lists = (list(map(os.path.abspath, paths)) for paths in (sources.additional, sources.routes, sources.trips))
    whole = Sources(os.path.abspath(sources.net), *lists)
    return InSumo(program, whole, more, run.start(), reading.until)


def verified(in_sumo: InSumo, town: SignalTown, texts: Sequence[str], seeds: Sequence[int], jobs: int) -> Verified:
    """What SUMO says of what was given and of what was found, by runs with each seed, whose progress is shown on the
    terminal. texts: of two additional files with signal programs, the one given and the one found; jobs: how many run
    side by side. Fault where SUMO fails, or the files that a map names cannot be read."""
    enters = zip(town.mapping.cars, (line.command["depart"] for line in town.run.enters), strict=True)
    departs = {name: depart for name, depart in enters if depart < in_sumo.until}

    def run(task: tuple[str, int], add_done: Callable[[int], object]) -> tuple[float, int]:
        """(mean trip in seconds, number of teleports) of one run, by its (file of programs, seed); then tells that one
        more is done."""
        trips, teleports = in_sumo.run_sumo(*task)
        add_done(1)
        return mean_trip(trips, departs, in_sumo.until), teleports

    with tempfile.TemporaryDirectory() as folder:
        in_sumo = in_sumo.with_ways(town.mapping, f"{folder}/ways.rou.xml")
        paths = [f"{folder}/{name}.add.xml" for name in ("given", "found")]
        for path, text in zip(paths, texts, strict=True):
            Path(path).write_text(text, encoding="utf-8")
        tasks = [(path, seed) for path in paths for seed in seeds]
        meanwhile, done = WorkProgress("runs of SUMO", len(tasks)), count(1)
        means, teleports = zip(*side_by_side(run, tasks, jobs, lambda *_: meanwhile.show(next(done))), strict=True)
    meanwhile.end()
    half = len(seeds)
    return Verified(list(means[:half]), list(means[half:]), (sum(teleports[:half]), sum(teleports[half:])))


def mean_trip(trips: Mapping[str, Trip], departs: Mapping[str, int], until: int) -> float:
    """The mean trip, in seconds, over the vehicles of departs, {vehicle: wished departure}, one at least; a vehicle
    that is not in trips, as InSumo.run_sumo gives them, counts until the end (until), as in streetsim."""
    return fmean(
        trips[name][1] - trips[name][0] if name in trips else until - depart for name, depart in departs.items()
    )
