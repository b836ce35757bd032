"""The search for routes from which nobody gains much by leaving them: router and runs in turn."""
from collections.abc import Callable, Sequence
from dataclasses import dataclass, field, replace
from statistics import fmean

from streetsim.base import limits
from streetsim.base.files import Fault
from streetsim.search.route_closing import Closing, turn_off
from streetsim.search.route_giving_way import PassingsByName
from streetsim.search.route_loading import LoadedRun, RouteTown
from streetsim.search.route_team import Team
from streetsim.search.route_watching import RunGround, WatchedOutcome
from streetsim.sumo.router import FAR, FoundPath, Path, Wish
from streetsim.sumo.trips import Trip
from streetsim.sumo.way_costs import Costs, costs_of, mean_observed
from streetsim.sumo.way_start import first_ways
from streetsim.sumo.way_unloaded import times_and_capacities_without_routes

LEAST_GAIN = 0.5  # seconds for which a trip changes its way
SLOWER = 0.9  # by which the share of those who change falls from iteration to iteration
TRUST = 1.3  # where the gap is above so many times the least, routes are taken back
LEAST_SHARE = 0.01
OWN_SEED = 0.5  # a search ends at this part of the gap asked for, since by its own seeds the gap is too good
STILL = 5  # iterations since the best one, of which is warned


@dataclass(frozen=True, slots=True)
class RouteSettings:
    """How a search goes. iterations: at most, after that of the first ways; gap: the relative gap that is wanted, a
    share of the seconds on shortest ways; share: of the trips that may change, at most so many (0 to 1), but one at
    least, change after the first iteration; seeds: of its runs."""

    iterations: int
    gap: float
    share: float
    seeds: Sequence[int]
    tried: int = 1  # shares in an iteration: this, half of it, ..


@dataclass(frozen=True, slots=True)
class SeenCosts:
    """What runs of some ways showed, and the best ways by the costs that they showed. passings_by_seed: when those who
    go first passed their stop lines."""

    ways: list[tuple[Path, float]]  # of all trips, with their entries
    outcomes: list[WatchedOutcome]
    costs: Costs
    best_paths: list[FoundPath]
    passings_by_seed: list[PassingsByName]
    gap: float
    lacking: int  # trips that did not arrive


@dataclass(frozen=True, slots=True)
class Iteration:
    """What was seen in an iteration. cost: mean seconds of the ways of those who may change, by the costs of this
    iteration; changed: trips that change after it."""

    number: int
    mean: float  # seconds of a trip
    arrived: int  # of the run in which the fewest did
    rescues: int  # of all runs
    gap: float
    cost: float
    may_change: int
    changed: int
    taken_back: bool

    def line(self, trips: int) -> str:
        """The line that tells of this iteration; trips: how many there are in all."""
        back = ", taken back" if self.taken_back else ""
        return (
            f"{self.number}: mean trip {self.mean:.1f} s, gap {100 * self.gap:.2f} %{back}, "
            f"{self.changed:,} of {trips:,} change, {self.rescues:,} rescues"
        )


@dataclass(slots=True)
class Best:
    """The best iteration so far: the ways and entries of its trips. An iteration is better where more trips arrive, and
    among those in which as many arrive, where the gap is less: a gap says nothing of trips that stand for ever."""

    lacking: int = limits.VEHICLES  # trips that did not arrive
    gap: float = FAR
    number: int = 0
    ways: list[tuple[Path, float]] = field(default_factory=list)
    passings_by_seed: list[PassingsByName] = field(default_factory=list)

    def is_below(self, lacking: int, gap: float, trust: float = 1.0) -> bool:
        """Whether it is better than an iteration in which lacking trips did not arrive, with the relative gap gap; its
        own gap counts trust times."""
        return (self.lacking, trust * self.gap) < (lacking, gap)


@dataclass(frozen=True, slots=True)
class RouteTrial:
    """The trips that change by a fraction, 1, a half, .., of the share of an iteration."""

    fraction: float
    trips: list[FoundPath]


@dataclass(frozen=True, slots=True)
class JudgedRoutes:
    """Routes, and the runs by which they are judged, with seeds that no search saw. costs: those that the runs
    showed."""

    loaded: LoadedRun
    seeds: Sequence[int]
    outcomes: list[WatchedOutcome]
    costs: Costs
    best_paths: list[FoundPath]
    gap: float


class RouteSearch:
    """A search for the ways of some trips in a town; the trips carry their present ways. on_iteration: gets each
    iteration, and gives whether the user asks for an end."""

    def __init__(
        self, town: RouteTown, ground: RunGround, trips: Sequence[Trip], team: Team,
        on_iteration: Callable[[Iteration], bool], closing: Closing | None = None,
    ) -> None:  # fmt: skip
        """trips: in order of departure, one at least; closing: the works of the town; None where it has none."""
        self.town, self.ground, self.trips = town, ground, trips
        self.team, self.on_iteration, self.closing = team, on_iteration, closing
        self.iterations: list[Iteration] = []
        self.best = Best()
        self.passings_by_seed: list[PassingsByName] = []  # by seed, when those passed who go first, in the last run

    def give_first_ways(self, seed: int) -> None:
        """Gives first ways to the trips that have none; Fault where there is no way for one. seed: of the order in
        which trips choose."""
        if any(not trip.path for trip in self.trips):
            free, capacity = times_and_capacities_without_routes(self.town.net, self.town.graph, self.town.options)
            if lost := first_ways(self.town.graph, self.trips, free, capacity, seed, self.team.search):
                trip, edges = lost[0], self.town.graph.edges
                raise Fault(f"trip {trip.name!r}: no way from {edges[trip.origin]} to {edges[trip.target]}")

    def improve(self, settings: RouteSettings) -> None:
        """Searches until settings.iterations are done, the gap is well below settings.gap (OWN_SEED of it) or
        on_iteration gives True; keeps each iteration, and the best one, whose ways the trips then have. Iteration 0
        comes before those asked for and shows the first ways: there the gap is enough only where nobody gains more than
        LEAST_GAIN. In no iteration after which some who may not change turn off before works is it enough. Fault where
        a run fails."""
        share = settings.share
        trials: list[RouteTrial] = [RouteTrial(1.0, [])]
        for number in range(settings.iterations + 1):
            seen_costs, fraction = self.run_best_trial(settings.seeds, trials)
            paths, share = seen_costs.best_paths, share * fraction
            taken_back = self.best.is_below(seen_costs.lacking, seen_costs.gap, TRUST)
            if not self.best.is_below(seen_costs.lacking, seen_costs.gap):
                passings = seen_costs.passings_by_seed
                self.best = Best(seen_costs.lacking, seen_costs.gap, number, seen_costs.ways, passings)
            worth = any(seconds_gained(path) > LEAST_GAIN for path in paths)
            near = seen_costs.gap <= OWN_SEED * settings.gap and (number or not worth)
            is_last = number == settings.iterations or near
            if taken_back and not is_last:
                give_ways(self.trips, self.best.ways)
                self.passings_by_seed = self.best.passings_by_seed
                paths = self.best_ways(seen_costs.costs)
            if number < settings.iterations and self.turn_off(seen_costs.costs):
                is_last = False
            share = max(LEAST_SHARE, share / 2 if taken_back else share)
            trials = [] if is_last else trials_of(paths, share, settings.tried)
            share = share if taken_back else share * SLOWER
            iteration = iteration_of(number, seen_costs, paths, len(trials[0].trips) if trials else 0, taken_back)
            self.iterations.append(iteration)
            if self.on_iteration(iteration) or is_last:
                break
        give_ways(self.trips, self.best.ways)

    def run_best_trial(self, seeds: Sequence[int], trials: Sequence[RouteTrial]) -> tuple[SeenCosts, float]:
        """Runs the present ways with each of some trials, side by side; gives (what the best trial showed, its fraction
        of the share). The trips then have its ways and entries, and its passings are kept for the next. Who gives way
        without a light waits for those whose passings are kept; in the first iteration for those who passed in a run in
        which nobody waits."""
        paths_by_trial = [paths_after(self.trips, trial.trips) for trial in trials]
        loads = [self.loaded(paths) for paths in paths_by_trial]
        if self.ground.rounds and loads[0].mapping.yields and not self.passings_by_seed:
            [outcomes] = self.team.run_cases(loads[:1], seeds, [None] * len(seeds))
            self.passings_by_seed = [outcome.passings for outcome in outcomes]
        passings_by_seed: list[PassingsByName | None] = [*self.passings_by_seed] or [None] * len(seeds)
        runs = self.team.run_cases(loads, seeds, passings_by_seed)
        results = [self.give_and_see(*case) for case in zip(paths_by_trial, loads, runs, strict=True)]
        best = min(range(len(results)), key=lambda at: (results[at].lacking, results[at].gap))
        seen_costs = results[best]
        self.passings_by_seed = seen_costs.passings_by_seed if self.passings_by_seed else []
        give_ways(self.trips, seen_costs.ways)
        return seen_costs, trials[best].fraction

    def loaded(self, paths: Sequence[Path]) -> LoadedRun:
        """The run of the trips with some ways, one path for each trip."""
        return self.town.loaded([replace(trip, path=path) for trip, path in zip(self.trips, paths, strict=True)])

    def give_and_see(self, paths: Sequence[Path], loaded: LoadedRun, outcomes: list[WatchedOutcome]) -> SeenCosts:
        """What runs of some ways showed; the trips then have these ways and their mean entries. outcomes: by seed."""
        give_ways(self.trips, [(path, trip.entry) for path, trip in zip(paths, self.trips, strict=True)])
        self.note_entries(outcomes)
        costs = self.costs_shown(loaded, outcomes)
        best, lacking = self.best_ways(costs), len(self.trips) - min(outcome.arrived for outcome in outcomes)
        ways = [(trip.path, trip.entry) for trip in self.trips]
        passings_by_seed = [outcome.passings for outcome in outcomes]
        return SeenCosts(ways, outcomes, costs, best, passings_by_seed, relative_gap(best), lacking)

    def note_entries(self, outcomes: Sequence[WatchedOutcome]) -> None:
        """Notes for each trip its mean entry, a clock, in some runs of the trips."""
        for at, trip in enumerate(self.trips):
            trip.entry = fmean(outcome.entries[at] for outcome in outcomes)

    def costs_shown(self, loaded: LoadedRun, outcomes: Sequence[WatchedOutcome]) -> Costs:
        """The costs that some runs of the trips showed."""
        observed = mean_observed([outcome.observed for outcome in outcomes])
        return costs_of(self.town.graph, loaded.free, observed, self.ground.width, self.town.minor)

    def best_ways(self, costs: Costs) -> list[FoundPath]:
        """The best ways of the trips that may change, by some costs, round what is shut; the trips keep theirs."""
        wishes = [
            Wish(at, trip.origin, trip.target, trip.entry, trip.path)
            for at, trip in enumerate(self.trips) if trip.changes
        ]
        return self.team.search(wishes, costs, self.closing.shut if self.closing else None)

    def turn_off(self, costs: Costs, strict: bool = False) -> int:
        """Gives ways round the works to trips that would wait before them: with strict to all such trips, and a Fault
        where one has no way round; else only to those who may not change, as the search finds ways for the others.
        Gives how many have other ways now; 0 without works."""
        if self.closing is None:
            return 0
        trips = self.trips if strict else [trip for trip in self.trips if not trip.changes]
        return turn_off(trips, self.closing, self.town.graph, costs, strict)

    def judged(self, seeds: Sequence[int]) -> JudgedRoutes:
        """What the present ways are worth, by runs with seeds that the search did not see; each run finds its own gaps
        for those who give way. The trips' mean entries are noted."""
        loaded = self.town.loaded(self.trips)
        outcomes = self.team.run_checks(loaded, seeds)
        self.note_entries(outcomes)
        costs = self.costs_shown(loaded, outcomes)
        best = self.best_ways(costs)
        return JudgedRoutes(loaded, seeds, outcomes, costs, best, relative_gap(best))


def has_stalled(search: RouteSearch) -> bool:
    """Whether the best iteration is STILL or more before the last one. The best is not by the gap alone: more trips
    arrive in it, or as many with a smaller gap (Best); of equal ones it is the last. False before any iteration."""
    return bool(search.iterations) and search.iterations[-1].number - search.best.number >= STILL


def give_ways(trips: Sequence[Trip], ways: Sequence[tuple[Path, float]]) -> None:
    """Gives each trip its way and entry, of ways in the order of the trips."""
    for trip, (path, entry) in zip(trips, ways, strict=True):
        trip.path, trip.entry = path, entry


def paths_after(trips: Sequence[Trip], changed: Sequence[FoundPath]) -> list[Path]:
    """The ways of all trips once some have changed to the ways found for them; the trips themselves stay."""
    paths = [trip.path for trip in trips]
    for found_path in changed:
        paths[found_path.trip] = found_path.path
    return paths


def seconds_gained(found_path: FoundPath) -> float:
    """The seconds that a trip would gain by its best way; 0 where no way was found."""
    return max(0.0, found_path.own_seconds - found_path.seconds) if found_path.path else 0.0


def relative_gap(paths: Sequence[FoundPath]) -> float:
    """The relative gap: what all could gain together, over the seconds of their shortest ways. 0 where nobody may
    change, or no way was found for any."""
    least = sum(path.seconds for path in paths if path.path)
    return sum(map(seconds_gained, paths)) / least if least else 0.0


def those_who_change(paths: Sequence[FoundPath], share: float) -> list[FoundPath]:
    """The trips that change, in order of trips: of those who gain more than LEAST_GAIN seconds the ones with the
    greatest relative loss, at most a share (0 to 1) of all found, but at least one. Empty where nobody gains so
    much."""
    worth = [path for path in paths if seconds_gained(path) > LEAST_GAIN]
    worth.sort(key=lambda path: (-seconds_gained(path) / max(1.0, path.seconds), path.trip))
    return sorted(worth[: max(1, int(len(paths) * share))], key=lambda path: path.trip)


def trials_of(paths: Sequence[FoundPath], share: float, tried: int) -> list[RouteTrial]:
    """Trials of trips that change: by the share (fraction 1), by half of it (fraction 0.5), and so on, tried of them;
    one with no fewer trips than the one before it is left out."""
    trials = [RouteTrial(1 / 2**at, those_who_change(paths, share / 2**at)) for at in range(tried)]
    return [trial for at, trial in enumerate(trials) if at == 0 or len(trial.trips) < len(trials[at - 1].trips)]


def iteration_of(
    number: int, seen_costs: SeenCosts, paths: Sequence[FoundPath], changed: int, taken_back: bool
) -> Iteration:
    """What is kept of an iteration: of what its runs showed, of its searches, and how many trips change next (changed);
    taken_back: whether its routes were."""
    return Iteration(
        number=number, mean=fmean(outcome.mean for outcome in seen_costs.outcomes),
        arrived=min(outcome.arrived for outcome in seen_costs.outcomes),
        rescues=sum(outcome.rescues for outcome in seen_costs.outcomes),
        gap=seen_costs.gap, cost=fmean(path.own_seconds for path in paths) if paths else 0.0, may_change=len(paths),
        changed=changed,
        taken_back=taken_back,
    )  # fmt: skip
