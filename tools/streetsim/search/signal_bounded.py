"""What streetsim-signals --bounds does: it finds bounds of actuated and NEMA lights, and the best plan of seconds
beside it."""
import sys
from collections.abc import Iterator, Sequence
from dataclasses import dataclass, replace

from streetsim.base.files import Fault, whole_file, whole_folder
from streetsim.base.report import first_few
from streetsim.base.seeds import seeds_for
from streetsim.control.actuated_lights import ActuatedLights, driven_lights
from streetsim.model import trust
from streetsim.model.tables import Entry, write_table
from streetsim.search.run_giving_way import giving_session
from streetsim.search.run_machines import Machines
from streetsim.search.run_prepared import Outcome, PreparedRun
from streetsim.search.signal_bounds import (
    Bounded, bounded_outcome, bounds_text, given_bounds, key_of, lowest_greens, search_bounds,
)
from streetsim.search.signal_found import (
    LAST, BeforeAfter, row_of, sumo_rows, tell_verdict, trips_told, vehicle_doubts, write_search,
)
from streetsim.search.signal_in_sumo import Verified
from streetsim.search.signal_planning import ended_search, refuse_budget
from streetsim.search.signal_search import PlanSearch
from streetsim.search.signal_town import CAREFUL, EXACT, Reading, SignalTown

LIGHTS = ("light", "phase", "least_before", "least_after", "most_before", "most_after", "gap_before", "gap_after")


@dataclass(frozen=True, slots=True)
class BoundsSettings:
    """How long is searched and with what: budget: simulations at most; seeds (empty: as many of the tried ones as their
    runs of the given bounds say); least: the lowest seconds that a search may give to a least green, None: those that
    it has, as they are a promise."""

    budget: int
    seeds: Sequence[int]
    lowest_green: int | None


@dataclass(frozen=True, slots=True)
class BoundsGround:
    """What a search for bounds stands on: the town, its lights that detectors drive, the bounds given, and the
    sessions."""

    town: SignalTown  # all its lights as of seconds
    lights: ActuatedLights
    given_bounds: Bounded
    sessions: list[PreparedRun]  # of the report, of the search


def ground_of(reading: Reading, town: SignalTown) -> BoundsGround:
    """The ground of a search for bounds. Names on standard error the lights that show their listed seconds, with the
    reasons, and those that detectors drive and whose bounds stay as they are; Fault where no light has bounds that may
    be changed."""
    lights = driven_lights(town.run, town.mapping)
    bounds = given_bounds(lights, reading.keep)
    print(*lights.notes(), sep="\n", end="\n" if lights.listed else "", file=sys.stderr)
    if unchanged := [light.name for light in lights.driven if light.name not in bounds]:
        why = "as they have no bounds of this kind or --fixed says so"
        print(f"not changed, {why}: {first_few(unchanged)}", file=sys.stderr)
    if not bounds:
        raise Fault(f"{reading.map}: detectors drive no light whose bounds may be changed")
    settings = replace(town.settings, lights=lights)
    dawdle = min(1000, town.run.load.command["dawdle"] + reading.reserve)
    session_args = reading.program, town.run, town.mapping, settings, reading.rounds
    sessions = [giving_session(*session_args), giving_session(*session_args, dawdle=dawdle)]
    return BoundsGround(town, lights, bounds, sessions)


def bounded_outcomes(
    workers: Machines, tried: Sequence[Bounded], seeds: Sequence[int], session_place: int = EXACT
) -> Iterator[Outcome]:
    """What runs under some bounds gave: the outcomes of the first bounds with each seed, then of the second, and so on.
    workers: with the sessions of a ground; session_place: of the session that runs them, EXACT or CAREFUL."""
    tasks = [
        (f"the run with seed {seed}", bounded_outcome, session_place, bounds, seed)
        for bounds in tried for seed in seeds
    ]  # fmt: skip
    return workers.ordered(tasks)


def searched_bounds(
    settings: BoundsSettings, workers: Machines, ground: BoundsGround, tried: Sequence[int]
) -> tuple[PlanSearch, bool]:
    """Searches for bounds; gives (search when it has ended, whether the user ended it). workers: with the sessions of
    the ground; tried: seeds for first runs of the given bounds, which say how many of them the search uses; used only
    where settings.seeds is empty. Fault where a run fails, or the budget does not reach for one run of each seed."""
    cars, seeds = len(ground.town.session.departs), settings.seeds
    if not seeds:
        outcomes = bounded_outcomes(workers, [ground.given_bounds], tried)
        seeds = tried[: seeds_for([outcome.seconds / cars for outcome in outcomes])]
    refuse_budget(settings.budget, seeds)

    def trips(tried: Sequence[Bounded]) -> Iterator[float]:
        """The mean trip, in seconds, under each of some bounds with each seed."""
        return (outcome.seconds / cars for outcome in bounded_outcomes(workers, tried, seeds, CAREFUL))

    def search_from_given(search: PlanSearch) -> None:
        """Searches from the given bounds."""
        lowest = lowest_greens(ground.town.mapping, ground.given_bounds, settings.lowest_green)
        search_bounds(search, ground.given_bounds, lowest)

    return ended_search(trips, settings.budget, len(seeds), search_from_given, key_of)


@dataclass(frozen=True, slots=True)
class FoundBounds:
    """What a search for bounds gave, and the runs by seeds that it did not see: under the bounds given (before), under
    those found (after), and under the best plan of seconds (fixed). sumo: None where SUMO was not run."""

    search: PlanSearch
    ended_by_user: bool
    outcomes_before: list[Outcome]
    outcomes_after: list[Outcome]
    fixed: list[Outcome]
    sumo: Verified | None

    def before_after_rows(self, cars: int) -> list[BeforeAfter]:
        """The rows of before-after.csv: mean trips (s) as given and as found, under the best plan of seconds and as
        found, and those of SUMO where it was run; of two seeds or more. cars: vehicles that depart before the end."""
        named = {
            "mean_trip_s": (self.outcomes_before, self.outcomes_after),
            "mean_trip_of_best_fixed_s": (self.fixed, self.outcomes_after),
        }
        pairs = {name: [[outcome.seconds / cars for outcome in runs] for runs in pair] for name, pair in named.items()}
        return [*(row_of(name, *pair) for name, pair in pairs.items()), *sumo_rows(self.sumo)]

    def doubts(self, ground: BoundsGround) -> Iterator[str]:
        """Why the bounds found are not to be trusted, a text each; nothing where they are."""
        town, lights = ground.town, ground.lights.listed_lights(ground.town.mapping)
        yield from vehicle_doubts(town, self.outcomes_before, self.outcomes_after)
        yield from trust.actuated_doubts(town.session.clocks[-1], town.run, town.mapping, lights)


def write_found_bounds(output: str, out: str, ground: BoundsGround, found_bounds: FoundBounds) -> int:
    """Writes bounds (to the file output) and tables (into the folder out), and prints what was found. Gives the exit
    status: 0 where the bounds are shown to be better wherever they were run, else 1."""
    best, doubts = found_bounds.search.best[1], [*found_bounds.doubts(ground)]
    rows = found_bounds.before_after_rows(len(ground.town.session.departs))
    with whole_folder(out, LAST) as folder:
        write_table(f"{folder}/lights.csv", LIGHTS, bound_rows(ground.given_bounds, best))
        write_search(folder, rows, found_bounds.search, doubts, ground.town.session.program)
        with whole_file(output) as file:
            file.write(bounds_text(ground.town.mapping, best, doubts=doubts))
    return tell_bounds(found_bounds, rows, doubts)


def bound_rows(before: Bounded, after: Bounded) -> Iterator[Entry]:
    """The rows of lights.csv, as LIGHTS has the columns, one for each green: bounds and gap as given and as found."""
    for name, bounds in sorted(before.items()):
        pairs = zip(bounds.greens, after[name].greens, strict=True)
        for at, ((phase, least, most), (_, low, high)) in enumerate(pairs):
            yield name, phase, least, low, most, high, f"{bounds.gap_of(at):g}", f"{after[name].gap_of(at):g}"


def tell_bounds(found_bounds: FoundBounds, rows: Sequence[BeforeAfter], doubts: Sequence[str]) -> int:
    """Prints what was found, of the rows of before-after.csv; gives the exit status, as tell_verdict."""
    fixed = rows[1]
    if found_bounds.ended_by_user:
        print("stopped: the best bounds found so far are written")
    print(trips_told(rows[0], found_bounds.search))
    change = fixed.change_told()
    print(f"the best plan of seconds: {fixed.mean_before:.1f} s; detectors with the bounds found: {change}")
    return tell_verdict(rows[0], found_bounds.search, doubts, found_bounds.sumo)
