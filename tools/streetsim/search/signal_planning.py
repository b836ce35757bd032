"""What a search for signal plans tries, and with which seeds."""
from collections.abc import Callable, Generator, Iterator, Sequence
from itertools import islice
from statistics import fmean
from typing import Any

from streetsim.base.files import Fault
from streetsim.base.progress import Stopping, WorkProgress
from streetsim.search.signal_formulas import StreetFlows, critical_cycle
from streetsim.search.signal_search import PlanSearch, key_of
from streetsim.search.signal_town import SignalTown

STEP = 10  # seconds from one cycle that is proposed to the next
TRIED = 10  # runs of the given plan tell how many seeds a search needs


def tried_seeds(check: Sequence[int]) -> list[int]:
    """The TRIED seeds with which the given plan is run to tell how many seeds a search needs; seeds of the report
    (check) are passed over."""
    return [seed for seed in range(1, TRIED + len(check) + 1) if seed not in check][:TRIED]


def proposed_cycles(cycles: range, town: SignalTown, streets: StreetFlows) -> list[int]:
    """The cycles that are proposed, in seconds, rising: each STEP of the range and its end, and critical_cycle's where
    it lies within. cycles: a range by single seconds; empty: none is proposed."""
    proposed, critical = {*cycles[::STEP], *cycles[-1:]}, critical_cycle(town.lights, town.base, streets)
    return sorted(proposed | ({critical} if critical is not None and critical in cycles else set()))


def refuse_budget(budget: int, seeds: Sequence[int]) -> None:
    """Fault where --budget does not reach for one plan, which takes a simulation for each seed."""
    if budget < len(seeds):
        raise Fault(f"--budget {budget}: one plan takes {len(seeds)} simulations")


def ended_search(
    trips: Callable[[Sequence[Any]], Iterator[float]], budget: int, seeds: int,
    search_to_end: Callable[[PlanSearch], None], key: Callable[[Any], Any] = key_of, seconds_after: float = 0.0,
    estimates: bool = False,
) -> tuple[PlanSearch, bool]:
    """Makes a search, and shows on the terminal how far it is; gives (search when it has ended, whether the user ended
    it by Ctrl-C). trips: of plans, gives the mean trip (s) of each with each seed, plan by plan; budget, seeds, key: as
    PlanSearch has them (key_of); search_to_end: searches until the search has ended; seconds_after: those that what
    comes after it takes; estimates: as PlanSearch has it."""
    search_line = SearchShown(budget, seconds_after)

    def mean_trips(plans: Sequence[Any]) -> Generator[float, None, None]:
        """The mean trip, in seconds, of each plan over the seeds, in the plans' order."""
        trip_seconds = trips(plans)
        for _ in plans:
            yield fmean(islice(trip_seconds, seeds))

    with Stopping() as stopping:

        def show_progress(search: PlanSearch) -> bool:
            """Shows how far the search is; gives whether the user has asked for an end."""
            search_line.show(search)
            return stopping.end_asked

        search = PlanSearch(mean_trips, budget, seeds, show_progress, key_of=key, estimates=estimates)
        search_to_end(search)
        search_line.line.end()
        return search, stopping.end_asked


class SearchShown:
    """The line on a terminal that says how far a search is. Plans that formulas propose are run side by side, and those
    of climbs one after another: so the end goes by the first plan, which is alone, and by climbs."""

    def __init__(self, budget: int, seconds_after: float) -> None:
        """budget: simulations at most; seconds_after: as of ended_search."""
        self.line, self.seconds_after = WorkProgress("simulations", budget), seconds_after
        # Seconds: of the first plan, at the last one, as climbs began.
        self.first_plan_s, self.last_s, self.climbs_begin_s = 0.0, 0.0, 0.0

    def show(self, search: PlanSearch) -> None:
        """Writes the line where it is due, after a plan of a search."""
        elapsed = self.line.seconds()
        self.first_plan_s = self.first_plan_s or elapsed
        if search.climbed and not self.climbs_begin_s:
            self.climbs_begin_s = self.last_s
        self.last_s, self.line.total = elapsed, search.expected()
        self.line.show(search.simulations, best_line(search), self.seconds_left(search))

    def seconds_left(self, search: PlanSearch) -> float:
        """The seconds until the end of a search and of what comes after it."""
        plans = 1.0 + (search.simulations - search.climbed[0]) / search.seeds if search.climbed else 1.0
        per_plan = (self.first_plan_s + (self.last_s - self.climbs_begin_s if self.climbs_begin_s else 0.0)) / plans
        return per_plan * (search.expected() - search.simulations) / search.seeds + self.seconds_after


def best_line(search: PlanSearch) -> str:
    """For the line of progress: the mean trip of the best plan so far and how much it is above or below that of the
    given one, the first that was tried; empty where that is 0, as nobody drives."""
    best, given = search.best[0], search.trials[0].mean_trip
    if not given:
        return ""
    change = f"{100 * (best / given - 1):+.1f} %"
    return f"best {change} by estimate" if search.estimates else f"best {best:.1f} s ({change})"
