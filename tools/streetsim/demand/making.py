"""Makes a demand from its Basis to its files: runs, the best of them, files, and lines for the terminal. streetsim-
demand calls these functions one after another."""
import sys
from collections.abc import Callable, Sequence
from dataclasses import asdict, dataclass

from streetsim.base import limits
from streetsim.base.files import Json, whole_folder, write_setting
from streetsim.base.folders import SETTING
from streetsim.demand import correcting, demanding
from streetsim.demand.correcting import Attempt
from streetsim.demand.demanding import Basis, DemandInputs, Fitted
from streetsim.demand.fitting import unreachable_counts
from streetsim.demand.judging import JudgedCounts, judge_counts
from streetsim.demand.pictures import draw_fit
from streetsim.demand.writing import write_demand, write_judged
from streetsim.model import trust
from streetsim.search.route_loading import write_loaded
from streetsim.search.route_watching import RunGround
from streetsim.search.run_prepared import program_digest
from streetsim.sumo.trips import Trip, Trips, write_routes

SLICE = 300  # seconds of a slice of time, over which the seconds of movements are means
MOST_TOLD = 5  # warnings of one sort
FEW_RUNS = 3  # of a demand by few counts, at most, where no word says how many


@dataclass(frozen=True, slots=True)
class DemandOutputs:
    """Where outputs go: paths of the vehicles, of the folder of tables, and of the run with its map; these two are none
    where they are not asked for."""

    routes: str
    folder: str
    run: str | None
    mapping: str | None


@dataclass(frozen=True, slots=True)
class DemandRuns:
    """How a demand is run: by which program, at most how many times, by how many rounds of giving way."""

    program: str
    runs: int
    rounds: int


@dataclass(frozen=True, slots=True)
class MadeDemand:
    """A demand, with all runs that were tried. judged: how it meets the counts, none where there are none; trips: its
    vehicles; best: the run that it is of, none where nothing was run."""

    basis: Basis
    fitted: Fitted
    tried: list[Attempt]
    judged: JudgedCounts | None
    trips: list[Trip]
    best: Attempt | None


def run_attempts(
    basis: Basis, inputs: DemandInputs, settings: DemandRuns, fitted: Fitted, ends: Callable[[], bool],
    report_stage: demanding.ReportStage,
) -> list[Attempt]:
    """Runs until the demand fits, all runs are used up, or the user asks for an end (which `ends` tells); prints a line
    on standard error after each, and gives them all. Each run ends correcting.AFTER seconds after the last slice at the
    latest. Fault where a run cannot be made."""
    until = min(limits.CLOCK, basis.slices.bounds[-1] + correcting.LONGEST_AFTER)
    digest = program_digest(settings.program)
    ground = RunGround(settings.program, digest, basis.town.graph, SLICE, until, settings.rounds)
    attempts: list[Attempt] = []
    for attempt in correcting.try_demands(basis, inputs, ground, settings.runs, fitted, report_stage):
        print(attempt.line(), file=sys.stderr, flush=True)
        attempts.append(attempt)
        if ends():
            break
    return attempts


def best_demand(basis: Basis, inputs: DemandInputs, fitted: Fitted, tried: list[Attempt]) -> MadeDemand:
    """The demand of the run that fits best, or of the fit on paper where nothing was run. Fault where that has no
    vehicle."""
    if tried:
        best = max(tried, key=Attempt.rank)  # the first of equal ones
        return MadeDemand(basis, best.fitted, tried, best.judged, best.trips, best)
    on_paper = judge_counts(basis.counts, fitted.passed_by_count()) if basis.counts else None
    return MadeDemand(basis, fitted, [], on_paper, demanding.trips_of_fit(basis, inputs, fitted), None)


def print_input_notes(basis: Basis, fitted: Fitted) -> None:
    """Prints on standard error what is noticed before anything runs: what is reported of the files, counts that
    contradict each other, counts that no way passes, pairs of a matrix without a way, and how many of the pairs were
    kept, where not all were."""
    for line in basis.town.types.report.lines():
        print(line, file=sys.stderr)
    apart = [f"counts contradict each other: {contradiction.line()}" for contradiction in basis.contradictions]
    warn(apart, "{:,} more contradictions: contradictions.csv")
    none = [
        f"no way passes {count.edge_names()} from {count.begin:,} to {count.end:,} s: {count.location}"
        for count in unreachable_counts(fitted.passing, basis.counts)
    ]
    warn(none, "no way passes {:,} more counts")
    joined = {way.pair for way in basis.ways}
    lost = [pair for index, pair in enumerate(basis.pairs) if basis.given_vehicles and index not in joined]
    warn(
        [f"no way leads from {pair.source} to {pair.target}: vehicles of the matrix are left out" for pair in lost],
        "no way leads from one to the other zone of {:,} more pairs",
    )
    kept_count, total = basis.kept_pairs
    if kept_count < total:
        print(f"{kept_count:,} of {total:,} pairs are drawn, for {len(basis.ways):,} ways (--most)", file=sys.stderr)


def print_few(ends_are_given: bool, is_run: bool) -> None:
    """Prints on standard error what is done with few counts where no word says it; ends_are_given: by --ends; is_run:
    whether runs judge the demand."""
    anywhere = "" if ends_are_given else ", trips begin and end on any edge, by the class of its street (--ends)"
    runs = f"at most {FEW_RUNS} runs judge it (--runs)" if is_run else "no simulator is there to see whether it locks"
    print(f"few edges are counted: most vehicles are what is expected{anywhere}; {runs}", file=sys.stderr)


def warn(texts: Sequence[str], more: str) -> None:
    """Prints warnings of one sort on standard error, five at most, and how many more there are by `more`."""
    further = [more.format(len(texts) - MOST_TOLD)] if len(texts) > MOST_TOLD else []
    for text in [*texts[:MOST_TOLD], *further]:
        print(f"warning: {text}", file=sys.stderr)


def write_result(paths: DemandOutputs, demand: MadeDemand, setting: Json) -> None:
    """Writes the vehicles, the tables and pictures, and the run with its map where they are asked for; setting: what
    goes into setting.json. Fault where a file cannot be written, and without runs as of RouteTown.loaded."""
    basis = demand.basis
    loaded = demand.best.loaded if demand.best else basis.town.loaded(demand.trips)
    types = [f'<vType id="{kind}" vClass="{kind}"/>' for kind in basis.kinds if kind]
    write_routes(paths.routes, Trips(list(demand.trips), types), basis.town.graph)
    if paths.run and paths.mapping:
        write_loaded(loaded, basis.town, paths.routes, paths.run, paths.mapping)
    with whole_folder(paths.folder, SETTING) as folder:
        write_demand(folder, basis, demand.fitted, demand.tried)
        if demand.judged:
            write_judged(folder, demand.judged)
            how_passed = "passed in the run" if demand.tried else "fitted on paper"
            draw_fit(folder, demand.judged, loaded.mapping.links, how_passed)
        write_setting(folder, setting)


def setting_of(inputs: DemandInputs, demand: MadeDemand, runs: int) -> Json:
    """What a demand was made of and came to, for setting.json; runs: how many were allowed."""
    return {
        **asdict(inputs),
        "runs": runs,
        "smallness": demand.best.smallness if demand.best else inputs.smallness,
        "close": [*demand.basis.town.works],
        "begin": demand.basis.slices.bounds[0],
        "vehicles": len(demand.trips),
        "not_trusted": correcting.doubts_of(demand.best) if demand.best else [],
    }


def print_result(demand: MadeDemand) -> int:
    """Prints what was made, how well it fits and why it is not to be trusted; gives the status: 1 where counts do not
    fit, else 0."""
    slices, ways = demand.basis.slices, demand.basis.ways
    print(
        f"{len(demand.trips):,} vehicles from {slices.bounds[0]:,} to {slices.bounds[-1]:,} s on "
        f"{len({trip.path for trip in demand.trips}):,} of {len(ways):,} ways of {len(demand.basis.pairs):,} pairs"
    )
    if not demand.judged:
        return 0
    if demand.best and (locked := [one for one in demand.tried if one.smallness < demand.best.smallness]):
        vehicles, smaller = len(locked[-1].trips), correcting.smallness_told(demand.best.smallness)
        print(f"a larger demand, of {vehicles:,} vehicles, locks here: this is {smaller} that meets the counts")
    if not demand.best:
        print("on paper, by seconds without other traffic (--runs N judges in the simulation):")
    print(*demand.judged.lines(), sep="\n")
    if demand.best:
        for line in correcting.misfit_lines(demand.basis, demand.best):
            print(line)
        if doubts := correcting.doubts_of(demand.best):
            print(trust.verdict(doubts))
    return 0 if demand.judged.meets_criteria else 1
