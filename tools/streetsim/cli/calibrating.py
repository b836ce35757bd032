"""Fits the drivers of streetsim-calibrate, by its parsed arguments, and judges them."""
import argparse
import contextlib
import io
import os
import shutil
import tempfile
from collections.abc import Sequence

from streetsim.base import program
from streetsim.base.files import Fault, refuse_foreign, refuse_unwritable, whole_folder
from streetsim.base.jobs import side_by_side
from streetsim.base.program import program_digest
from streetsim.base.progress import Slow, WorkProgress
from streetsim.base.report import Report
from streetsim.base.seeds import seeds_of
from streetsim.base.words import Parser, names_in, paths_in
from streetsim.cli import demand as demanding
from streetsim.cli.given_words import given_words
from streetsim.cli.words import FREE_VALUES
from streetsim.cli.importing import options_of
from streetsim.cli.defaults import complete_outputs, name_of_network
from streetsim.demand.calibration_criteria import criteria_of
from streetsim.demand.calibration_field import (
    FieldDay, counts_as_demand, read_lanes, read_queues, read_times, refuse_unknown,
)
from streetsim.demand.calibration_fit import Fit, classes_of, lines_of, start_of, values_of
from streetsim.demand.calibration_model import FittedDrivers, MeasuredRun, StreetRuns, ways_of
from streetsim.demand.calibration_page import (
    CALIBRATED, FITTED_DAY, LAST_FILE, OTHER_DAY, UNCALIBRATED, Calibration, JudgedDay, criteria_lines,
    sum_of_input, write_calibration, write_drivers,
)
from streetsim.model.sources import Sources
from streetsim.sumo.driver_words import street_class
from streetsim.sumo.links import link_of
from streetsim.sumo.net import SumoNet, read_net

# Words of the import, which go to streetsim-demand too.
OWN_WORDS = {
    "net", "additional", "counts", "times", "saturation", "queues", "routes", "validate", "free", "runs", "seeds",
    "check_seeds", "output", "out", "force", "jobs", "rounds", "program",
}
# All files of its folder.
WRITTEN_FILES = {LAST_FILE, "segments.csv", "runs.csv", "report.html", f"{FITTED_DAY}.rou.xml", f"{OTHER_DAY}.rou.xml"}


def calibrate_by(args: argparse.Namespace, tool_parser: Parser) -> int:
    """Fits the drivers and judges them; gives status 0 where all criteria hold on the other day, else 1. tool_parser:
    of the words."""
    complete_outputs(args, out=f"{name_of_network(args)}-drivers")
    check_words(args)
    args.program = program.find_program(args.program)
    with tempfile.TemporaryDirectory() as folder:
        calibration = calibrate_street(args, given_words(tool_parser, args, OWN_WORDS), folder)
        with whole_folder(args.out, LAST_FILE, WRITTEN_FILES) as out:
            for name in {FITTED_DAY, OTHER_DAY} & {day.name for day in calibration.days}:
                if os.path.exists(path := f"{folder}/{name}.rou.xml"):
                    shutil.copy(path, out)
            write_calibration(out, calibration)
            write_drivers(args.output, calibration)
    print(*lines_of(calibration.fit_result, calibration.days[0].day), *criteria_lines(calibration), sep="\n")
    return 0 if calibration.is_valid() else 1


def check_words(args: argparse.Namespace) -> None:
    """Fault for words that do not fit to each other, before anything is read."""
    args.additional = paths_in(args.additional)
    for name in ("counts", "times", "routes", "validate"):
        setattr(args, name, paths_in(getattr(args, name)))
    if not args.times:
        raise Fault("--times: no travel times (what may be given: streetsim-calibrate --help)")
    if not (args.counts or args.routes):
        raise Fault("the demand: give --counts, of which it is made, or --routes")
    if args.validate and len(args.validate) not in (2, 3):
        raise Fault("--validate: the counts, the times, and maybe the queues of another day: two or three files")
    if unknown := [name for name in names_in(args.free) if name not in FREE_VALUES]:
        raise Fault(f"--free: {unknown[0]!r} is none of {', '.join(FREE_VALUES)}")
    if {*seeds_of(args.seeds, "--seeds")} & {*seeds_of(args.check_seeds, "--check-seeds")}:
        raise Fault(f"--seeds {args.seeds} and --check-seeds {args.check_seeds} overlap")
    refuse_unwritable(args.out, {"-o": args.output}, inputs_of(args))
    refuse_foreign(args.out, args.force, [args.output, *WRITTEN_FILES])


def inputs_of(args: argparse.Namespace) -> list[str]:
    """The paths of all files that are read."""
    more = [path for path in (args.saturation, args.queues, args.drivers) if path]
    return [args.net, *args.additional, *args.counts, *args.times, *args.routes, *args.validate, *more]


def calibrate_street(args: argparse.Namespace, options: list[str], folder: str) -> Calibration:
    """Reads, fits and judges; folder: for files in between. options: words of the import that were given."""
    notes: list[str] = []
    with Slow(f"reading {args.net}"):
        net = read_net(args.net, options_of(args).classes, Report())
    day = field_day(args, net, folder, notes)
    routes = args.routes or [demand_of(args, options, day.counts, folder, FITTED_DAY)]
    street = street_runs(args, day, routes)
    seeds, check = seeds_of(args.seeds, "--seeds"), seeds_of(args.check_seeds, "--check-seeds")
    meanwhile = WorkProgress("runs", args.runs)

    def measure(drivers_list: Sequence[FittedDrivers]) -> list[list[MeasuredRun]]:
        """The runs of some drivers by the common seeds."""
        runs = runs_of(args, street, drivers_list, seeds)
        meanwhile.show(fit.runs + len(seeds) * len(drivers_list))
        return runs

    fit = Fit(day, start_of(day), measure, args.runs, len(seeds))
    classes = classes_of(day, {name: street_class(edge.lanes[0].speed) for name, edge in net.edges.items()})
    solution = fit.solve(values_of(day, classes, names_in(args.free)))
    meanwhile.end()
    usual = FittedDrivers(dawdle=options_of(args).dawdle / 1000)
    named_drivers = {UNCALIBRATED: usual, CALIBRATED: solution.drivers}
    days = [judged_day(args, FITTED_DAY, day, street, named_drivers, seeds)]
    if args.validate:
        validation_day = other_day(args, net, folder, notes, day)
        other_demand = demand_of(args, options, validation_day.counts, folder, OTHER_DAY)
        other_street = street_runs(args, validation_day, [other_demand])
        days.append(judged_day(args, OTHER_DAY, validation_day, other_street, named_drivers, check))
    sums = {path: sum_of_input(path) for path in inputs_of(args)}
    digest = f"{program_digest(args.program) or 'unknown'}, {program.proof_words(args.program)}"
    shares = options_of(args).shares
    return Calibration(solution, days, args.seeds, args.check_seeds, digest, shares, notes, sums)


def field_day(args: argparse.Namespace, net: SumoNet, folder: str, notes: list[str]) -> FieldDay:
    """The day that is fitted; Fault where a file is wrong or names an edge that the network does not have."""
    os.mkdir(f"{folder}/{FITTED_DAY}")
    day = FieldDay(counts_as_demand(args.counts, f"{folder}/{FITTED_DAY}", notes), read_times(args.times, notes))
    dawdle = options_of(args).dawdle / 1000
    numbers = {name: 0 for edge in net.edges.values() for name in (edge.begin, edge.end)}
    limits = {name: link_of(edge, edge.lanes, numbers, dawdle, False).limit for name, edge in net.edges.items()}
    day.lanes = read_lanes(args.saturation, limits) if args.saturation else []
    day.queues = read_queues(args.queues) if args.queues else []
    refuse_unknown(day, net.edges, "--times and --queues")
    return day


def other_day(args: argparse.Namespace, net: SumoNet, folder: str, notes: list[str], fitted: FieldDay) -> FieldDay:
    """The day of --validate, with the survey of the fitted one; Fault as of field_day."""
    os.mkdir(f"{folder}/{OTHER_DAY}")
    counts, times, *queues = args.validate
    day = FieldDay(counts_as_demand([counts], f"{folder}/{OTHER_DAY}", notes), read_times([times], notes), fitted.lanes)
    day.queues = read_queues(queues[0]) if queues else []
    refuse_unknown(day, net.edges, "--validate")
    return day


def demand_of(args: argparse.Namespace, options: list[str], counts: Sequence[str], folder: str, name: str) -> str:
    """Makes the demand of a day of its counts, by streetsim-demand with two runs; gives the path of its vehicles."""
    vehicles_path = f"{folder}/{name}.rou.xml"
    arguments = [args.net, *args.additional, "--counts", *counts, "--runs", "2", "-o", vehicles_path]
    arguments += ["--out", f"{folder}/{name}-demand"]
    with Slow(f"making the demand of the {name} day"), contextlib.redirect_stdout(io.StringIO()):
        with contextlib.redirect_stderr(io.StringIO()):
            demanding.main([*arguments, "--rounds", str(args.rounds), "--program", args.program, *options])
    return vehicles_path


def street_runs(args: argparse.Namespace, day: FieldDay, routes: Sequence[str]) -> StreetRuns:
    """How the runs of a day are made."""
    sources = Sources(args.net, list(args.additional), list(routes))
    return StreetRuns(args.program, sources, options_of(args), args.rounds, day.window(), ways_of(day))


def runs_of(
    args: argparse.Namespace, street: StreetRuns, drivers_list: Sequence[FittedDrivers], seeds: Sequence[int]
) -> list[list[MeasuredRun]]:
    """The runs of some drivers with each of some seeds."""
    tasks = [(drivers, seed) for drivers in drivers_list for seed in seeds]
    runs = side_by_side(street.measured, tasks, args.jobs)
    return [runs[at : at + len(seeds)] for at in range(0, len(runs), len(seeds))]


def judged_day(
    args: argparse.Namespace, name: str, day: FieldDay, street: StreetRuns, named_drivers: dict[str, FittedDrivers],
    seeds: Sequence[int],
) -> JudgedDay:
    """A day with its runs, without and with calibration, and its criteria."""
    with Slow(f"judging the {name} day"):
        runs = dict(zip(named_drivers, runs_of(args, street, [*named_drivers.values()], seeds), strict=True))
    criteria = {drivers: list(criteria_of(day, runs[drivers], fitted)) for drivers, fitted in named_drivers.items()}
    return JudgedDay(name, day, runs, criteria)
__all__ = ["FitResult", "main", "parser"]
