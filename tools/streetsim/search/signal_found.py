"""What streetsim-signals writes of a search: the plan, tables, pictures, and what is said of it."""
import sys
import tempfile
from bisect import bisect_right
from collections.abc import Callable, Iterator, Mapping, Sequence
from dataclasses import dataclass, replace
from statistics import fmean

from streetsim.base.files import whole_file, whole_folder
from streetsim.base.seeds import paired
from streetsim.model import trust
from streetsim.model.doubts import Doubt, places_told
from streetsim.model.folder import read_folder
from streetsim.model.freeflow import FreeFlow
from streetsim.model.tables import Entry, write_table
from streetsim.observe.doubted_places import doubt_of_lane
from streetsim.observe.run_making import RunOptions, make_run
from streetsim.report.picture_files import load_pyplot, save_picture
from streetsim.report.picture_plots import Corridor, draw_corridor
from streetsim.search.run_prepared import Outcome
from streetsim.search.signal_in_sumo import Verified
from streetsim.search.signal_lines import LightLines, full_lanes_under
from streetsim.search.signal_plans import Plan, plan_text
from streetsim.search.signal_search import PlanSearch, PlanTrial
from streetsim.search.signal_town import SignalTown

LAST = "before-after.csv"
BEFORE_AFTER = ("figure", "before", "after", "difference", "half_width_95", "runs")
LIGHTS = ("light", "cycle_before", "cycle_after", "offset_before", "offset_after", "greens_before", "greens_after")
TRIALS = ("simulations", "step", "mean_trip_s", "best_s", "estimate")


@dataclass(frozen=True, slots=True)
class BeforeAfter:
    """A row of before-after.csv: the means of a figure in runs of what was given and of what was found, and their
    difference with half the width of its 95 % interval."""

    figure: str
    mean_before: float
    mean_after: float
    difference: float
    half: float
    runs: int  # of each

    def change_told(self) -> str:
        """The difference, in seconds, and its interval: '-3.2 s ± 0.4'."""
        return f"{self.difference:+.1f} s ± {self.half:.1f}"


def before_after_rows(
    town: SignalTown, outcomes_before: Sequence[Outcome], outcomes_after: Sequence[Outcome], sumo: Verified | None
) -> list[BeforeAfter]:
    """The rows of before-after.csv, of runs of the plan given and the plan found with equal seeds, two or more: mean
    trip and mean loss, in seconds, of all who depart before the end (one that has not arrived counts until then); how
    many arrived, and how many waited to enter at the worst minute. With sumo a last row has SUMO's mean trips."""
    cars, free = len(town.session.departs), free_trip(town)
    figures: dict[str, Callable[[Outcome], float]] = {
        "mean_trip_s": lambda outcome: outcome.seconds / cars,
        "mean_loss_s": lambda outcome: outcome.seconds / cars - free,
        "arrived": lambda outcome: outcome.arrived,
        "waited_to_enter": lambda outcome: outcome.waiting,
    }
    both = outcomes_before, outcomes_after
    pairs = {name: [[figure(run) for run in runs] for runs in both] for name, figure in figures.items()}
    return [*(row_of(name, *pair) for name, pair in pairs.items()), *sumo_rows(sumo)]


def row_of(name: str, before: Sequence[float], after: Sequence[float]) -> BeforeAfter:
    """The row of before-after.csv of a figure, by its values in runs of both with equal seeds, two or more."""
    difference, half = paired(before, after)
    assert half is not None
    return BeforeAfter(name, fmean(before), fmean(after), difference, half, len(before))


def sumo_rows(sumo: Verified | None) -> list[BeforeAfter]:
    """The row of before-after.csv with SUMO's mean trips, in a list; an empty one where SUMO was not run (None)."""
    return [row_of("sumo_mean_trip_s", sumo.means_before, sumo.means_after)] if sumo else []


def free_trip(town: SignalTown) -> float:
    """The mean trip, in seconds, of all who depart before the end, were nobody and no red in the way, by FreeFlow."""
    free_flow, until = FreeFlow(town.mapping, town.run.load.command["dawdle"] / 1000), town.session.clocks[-1]
    return fmean(free_flow(line.command["plan"]) for line in town.run.enters if line.command["depart"] < until)


@dataclass(frozen=True, slots=True)
class PlanFiles:
    """Where what was found goes, and what is drawn of it: the corridor (None: nothing), by runs until a clock."""

    plan: str  # a file
    folder: str
    corridor: Corridor | None
    making: RunOptions  # of the runs that are drawn
    until: int


def write_found(
    target: PlanFiles, town: SignalTown, search: PlanSearch, rows: Sequence[BeforeAfter], doubts: Sequence[str]
) -> None:
    """Writes the plan to its file, and tables into the folder of the target; with a corridor also pictures of it, of
    runs that it makes. rows: of before-after.csv; doubts: why the result is not to be trusted, empty where it is."""
    plan = search.best[1]
    with whole_folder(target.folder, LAST) as folder:
        write_table(f"{folder}/lights.csv", LIGHTS, light_rows(town, plan))
        write_search(folder, rows, search, doubts, target.making.program)
        if corridor := target.corridor:
            for name, drawn in (("before", town.plan), ("after", plan)):
                draw_plan(target, corridor, town, drawn, f"{folder}/{name}.png")
        with whole_file(target.plan) as file:
            file.write(plan_text(town.lights, plan, doubts=doubts))


def write_search(
    folder: str, rows: Sequence[BeforeAfter], search: PlanSearch, doubts: Sequence[str], program: str
) -> None:
    """Writes before-after.csv, of its rows, search.csv and what speaks against the result (doubts), and against its
    program, into a folder."""
    figures = ((row.mean_before, row.mean_after, row.difference, row.half) for row in rows)
    cells = [
        (row.figure, *(f"{number:.3f}" for number in numbers), row.runs)
        for row, numbers in zip(rows, figures, strict=True)
    ]
    write_table(f"{folder}/{LAST}", BEFORE_AFTER, cells)
    write_table(f"{folder}/search.csv", TRIALS, map(trial_row, search.trials))
    trust.write_doubts(folder, doubts, program)


def trial_row(trial: PlanTrial) -> Entry:
    """A row of search.csv."""
    means = f"{trial.mean_trip:.3f}", f"{trial.best:.3f}"
    return trial.simulations, trial.step, *means, "yes" if trial.is_estimate else "no"


def light_rows(town: SignalTown, plan: Plan) -> Iterator[Entry]:
    """The rows of lights.csv, as LIGHTS has the columns: each light's cycle, offset and greens that may be stretched
    (one text with blanks between), seconds, as given and as found."""
    for name, light in sorted(town.lights.items()):
        pair = town.plan[name], plan[name]
        greens = (" ".join(str(timing.durations[at]) for at in light.free) for timing in pair)
        yield (name, *(timing.cycle for timing in pair), *(timing.offset for timing in pair), *greens)


def draw_plan(target: PlanFiles, corridor: Corridor, town: SignalTown, plan: Plan, path: str) -> None:
    """Runs a plan as the target says, and draws where the vehicles are along a corridor over time, with the signals, as
    a picture at path."""
    run = replace(town.run, first=town.first_lines(plan))
    until = min(corridor.last_second + 1, target.until)
    settings = replace(town.settings, until=until, every=1, edges=tuple(corridor.edges))
    with tempfile.TemporaryDirectory() as folder:
        make_run(target.making, run, town.mapping, settings, folder, lambda *_: None)
        save_picture(draw_corridor(load_pyplot(), read_folder(folder), corridor), path)


def tell_found(
    town: SignalTown, search: PlanSearch, rows: Sequence[BeforeAfter], ended_by_user: bool, doubts: Sequence[str],
    sumo: Verified | None,
) -> int:
    """Prints what was found, of the rows of before-after.csv, and warnings on standard error; gives the exit status, as
    tell_verdict. ended_by_user: whether the user ended the search; doubts, sumo: as there."""
    for text in warnings_of(town, search.best[1]):
        print(f"warning: {text}", file=sys.stderr)
    if ended_by_user:
        print("stopped: the best plan found so far is written")
    print(trips_told(rows[0], search))
    print(cycles_told(town.plan, search))
    places = doubted_places(town, search.best[1])
    return tell_verdict(rows[0], search, doubts, sumo, places_told(places, town.mapping))


def doubted_places(town: SignalTown, plan: Plan) -> list[Doubt]:
    """The doubts of lanes that are nearly full under a plan."""
    return [doubt_of_lane(lane) for lane in full_lanes_under(town.net_under(plan), town.run, town.mapping)]


def cycles_told(given_plan: Plan, search: PlanSearch) -> str:
    """The line on the cycles of the plan given and of the plan found, and on how many lights the found one is the
    shortest or the longest of those that were tried there."""
    best_plan, tried = search.best[1], search.cycles_tried()
    before, after = (span_told([timing.cycle for timing in plan.values()]) for plan in (given_plan, best_plan))
    line = f"cycle {before} as given, {after} as found"
    for which, end in (("shortest", min), ("longest", max)):
        at = [name for name, cycles in tried.items() if len(cycles) > 1 and best_plan[name].cycle == end(cycles)]
        if at:
            where = f"at {len(at)} of {len(best_plan)} lights " if len(at) < len(best_plan) else ""
            line += f", {where}the {which} that was tried (--cycle S-S tries others)"
    return line


def span_told(seconds: Sequence[int]) -> str:
    """The least and the greatest of some seconds as a text; one number where they are equal."""
    least, most = min(seconds), max(seconds)
    return f"{least} s" if least == most else f"{least} to {most} s"


def trips_told(row: BeforeAfter, search: PlanSearch) -> str:
    """The line on mean trips as given and as found, of the first row of before-after.csv, and on what the search
    took."""
    return (
        f"mean trip {row.mean_before:.1f} s as given, {row.mean_after:.1f} s as found: {row.change_told()} "
        f"(95 % interval of the mean change by dawdling alone, {row.runs} seeds that the search did not see); "
        f"{search.simulations:,} simulations{budget_ended(search)}"
    )


def tell_verdict(
    row: BeforeAfter, search: PlanSearch, doubts: Sequence[str], sumo: Verified | None, places: str = ""
) -> int:
    """Prints SUMO's figures, where it was run (None: it was not), and the last line; gives the exit status: 0 where
    what was found is shown to be better wherever it was run, else 1. row: the first of before-after.csv; doubts: why
    the result is not to be trusted, empty where it is; places: the worst doubted places, in words."""
    if sumo:
        print(sumo.summary())
    changes = {"here": (row.difference, row.half), **({"in SUMO": sumo.difference_and_half()} if sumo else {})}
    worse = [where for where, (mean, width) in changes.items() if mean + width >= 0]
    texts = verdict(changes, worse, search), trust.verdict(doubts) if doubts else "", places
    if text := "; ".join(filter(None, texts)):
        print(text)
    return 1 if worse else 0


def budget_ended(search: PlanSearch) -> str:
    """What a sentence on a search ends with where the budget ended it: after how many plans; nothing where it did
    not."""
    return f", where --budget ended the search after {len(search.value_by_key):,} plans" if search.spent else ""


def verdict(changes: Mapping[str, tuple[float, float]], worse: Sequence[str], search: PlanSearch) -> str:
    """The last line, before the doubts: whether what was found is shown to be better, and by how much where it was run
    in SUMO too; where it is not, also that the budget ended the search. Empty where it is, and was run here alone.
    changes: (difference, half width of its 95 % interval), seconds, by where it was run; worse: where it is not
    shown."""
    figures = ", ".join(f"{difference:+.1f} s ± {half:.1f} {where}" for where, (difference, half) in changes.items())
    if len(changes) == 1:
        return f"not shown to be better{budget_ended(search)}" if worse else ""
    if worse:
        return f"not shown to be better {' or '.join(worse)}: {figures}{budget_ended(search)}"
    return f"shown to be better here and in SUMO: {figures}"


def doubts_of(
    town: SignalTown, outcomes_before: Sequence[Outcome], outcomes_after: Sequence[Outcome]
) -> Iterator[str]:
    """Why a result is not to be trusted, of the runs of the plan given and the plan found; nothing where it is."""
    until = town.session.clocks[-1]
    yield from vehicle_doubts(town, outcomes_before, outcomes_after)
    yield from trust.length_doubts(until, town.run, town.mapping)
    yield from trust.actuated_doubts(
        until, town.run, town.mapping,
        [light for light in town.settings.lights.listed_lights(town.mapping) if light not in town.lights],
    )


def vehicle_doubts(
    town: SignalTown, outcomes_before: Sequence[Outcome], outcomes_after: Sequence[Outcome]
) -> Iterator[str]:
    """Doubts where vehicles that had the time to arrive have not, or many waited to enter, in runs of what was given
    and of what was found; nothing where neither is so."""
    named = {"as given": outcomes_before, "as found": outcomes_after}
    arrived = {name: fmean(outcome.arrived for outcome in runs) for name, runs in named.items()}
    due = bisect_right(trust.free_arrivals(town.run, town.mapping), town.session.clocks[-1])
    yield from trust.missing_doubts(arrived, due)
    waiting = {name: [(outcome.waiting, outcome.waiting_at) for outcome in runs] for name, runs in named.items()}
    yield from trust.waiting_doubts(waiting, len(town.session.departs))


def warnings_of(town: SignalTown, plan: Plan) -> Iterator[str]:
    """What is to be said of a found plan, a text each: where the simulator cannot show it whole, and where cycles are
    unequal, so that offsets mean nothing."""
    lines = LightLines(town.mapping)
    lines.signal_lines(plan, town.lights)
    yield from lines.report.warnings
    if len({timing.cycle for timing in plan.values()}) > 1:
        yield "lights have unequal cycles, between which offsets mean nothing"
