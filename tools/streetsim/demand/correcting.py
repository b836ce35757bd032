"""Runs a demand, corrects the counts that the next fit is to meet by what passed in the run, and so on, until a run
fits or no run is left. What streetsim-demand --runs does."""
from collections.abc import Iterator, Sequence
from dataclasses import dataclass, replace

from streetsim.base.report import first_few
from streetsim.demand.demanding import (
    Basis, DemandInputs, Fitted, ReportStage, fit_to_counts, passing_by_class, trips_of_fit,
)  # fmt: skip
from streetsim.demand.fitting import counted_vehicles
from streetsim.demand.judging import ComparedCount, JudgedCounts, judge_counts, worst_fits
from streetsim.demand.running import Ran, movement_delays, passed_by_count, run_demand
from streetsim.demand.science import Array, numpy_and_scipy
from streetsim.demand.values import Count
from streetsim.model import trust
from streetsim.search.route_loading import LoadedRun
from streetsim.search.route_watching import RunGround
from streetsim.sumo.trips import Trip
from streetsim.sumo.way_costs import Costs, costs_of
from streetsim.sumo.way_graph import Graph

HALF = 0.5  # of what a run and the fit differ by, that the next fit makes up for
FULL_DELAY_S = 120.0  # seconds of delay on an edge, from which on it is taken to be full: more than a cycle
LONGEST_AFTER = 7200  # seconds that a run may last after the last departure
LATE = 0.1  # of a count, that does not pass though the vehicles for it are there


@dataclass(frozen=True, slots=True)
class Attempt:
    """A demand and what its run gave. number: of the run, from 1; smallness: as DemandInputs has it; counts_passed:
    vehicles that passed, by count; full: the edges that were full in the run, as `full_edges` gives them."""

    number: int
    smallness: float
    trips: list[Trip]
    fitted: Fitted
    judged: JudgedCounts
    loaded: LoadedRun
    ran: Ran
    counts_passed: list[int]
    full: dict[int, float]

    @property
    def arrived(self) -> int:
        """How many of its vehicles have arrived."""
        return sum(end is not None for end in self.ran.arrivals)

    def line(self) -> str:
        """What is told of the run when it ends, in one line."""
        smaller = f", {smallness_told(self.smallness)}" if self.smallness else ""
        return (
            f"run {self.number}{smaller}: {len(self.trips):,} vehicles, {self.arrived:,} arrived, "
            f"{self.ran.rescues:,} rescues, "
            f"GEH below 5 for {100 * self.judged.good_share:.1f} % of the counts by hour, "
            f"totals within {100 * self.judged.greatest_difference:.1f} %"
        )

    def rank(self) -> tuple[bool, bool, float, float]:
        """What attempts are ranked by, the better one has the greater value: (whether it does not lock, whether it
        fits, share of counts with GEH below 5, 0 to 1 with three decimals, totals' difference, as a share, with a
        minus)."""
        judged = self.judged
        return not jams_of(self), judged.meets_criteria, round(judged.good_share, 3), -judged.greatest_difference


def try_demands(
    basis: Basis, inputs: DemandInputs, ground: RunGround, runs: int, fitted: Fitted, report_stage: ReportStage
) -> Iterator[Attempt]:
    """Runs a demand, of one count at least, at most `runs` times, and gives each attempt as it ends: the first of the
    fit on paper (fitted), the others of what the run before corrects; where counts alone tell the demand and the run
    before locked, of a smaller one. Ends after one that fits and does not lock. Fault where a fit has no vehicle, or a
    run cannot be made."""
    graph = basis.town.graph
    vehicles_counted = made_up = counted_vehicles(basis.counts)
    for number in range(1, runs + 1):
        report_stage(f"run {number} of {runs}")
        attempt = try_demand(basis, inputs, ground, number, fitted)
        yield attempt
        is_to_shrink = bool(jams_of(attempt)) and inputs.of_counts_alone and inputs.smallness < 1
        if attempt.judged.meets_criteria and not is_to_shrink or number == runs:
            return
        if is_to_shrink:
            inputs = replace(inputs, smallness=1.0 if number + 1 == runs else (1 + inputs.smallness) / 2)
            made_up = vehicles_counted
            report_stage(f"smaller fit after run {number} of {runs}")
            fitted = fit_to_counts(basis, inputs, basis.free_costs(), made_up)
            continue
        costs = costs_of(graph, list(attempt.loaded.free), attempt.ran.observed, ground.width)
        report_stage(f"fit after run {number} of {runs}")
        made_up = corrected_counts(basis, attempt, costs, vehicles_counted, made_up)
        fitted = fit_to_counts(basis, inputs, costs, made_up)


def try_demand(basis: Basis, inputs: DemandInputs, ground: RunGround, number: int, fitted: Fitted) -> Attempt:
    """Runs the vehicles of a fit, and judges by what passed; number: of the run, from 1. Fault where the fit has no
    vehicle, or the run cannot be made."""
    trips, town = trips_of_fit(basis, inputs, fitted), basis.town
    loaded = town.loaded(trips)
    ran = run_demand(ground, loaded, inputs.seed)
    kinds = [trip.type if trip.type in basis.kinds else "" for trip in trips]
    passed = passed_by_count(basis.by_edges, [trip.path for trip in trips], kinds, ran.exit_clocks)
    full = full_edges(town.graph, movement_delays(town.graph, ran.observed, loaded.free))
    judged = judge_counts(basis.counts, passed)
    return Attempt(number, inputs.smallness, trips, fitted, judged, loaded, ran, passed, full)


def smallness_told(smallness: float) -> str:
    """How near a demand is to the smallest one, in words."""
    return "the smallest demand" if smallness >= 1 else f"{100 * smallness:.0f} % of the way to the smallest demand"


def corrected_counts(
    basis: Basis, attempt: Attempt, costs: Costs, vehicles_counted: Array, earlier_target: Array
) -> Array:
    """What the next fit is to meet, an array by count: the mean of what the last fit was to meet, earlier_target, and
    of what was counted, less half of what passed in the run beyond what would pass by the seconds that it showed
    (costs); 0 at least. At full edges and next after them it is what was counted: more demand would only make the
    queue longer."""
    numpy, _ = numpy_and_scipy()
    shown = passing_by_class(basis, costs) @ attempt.fitted.whole_vehicles
    apart = numpy.array(attempt.counts_passed) - shown
    behind = numpy.array([is_at_or_after_full(count, attempt.full, basis.town.graph) for count in basis.counts])
    mean = 0.5 * (earlier_target + vehicles_counted)
    return numpy.where(behind, vehicles_counted, numpy.maximum(0.0, mean - HALF * apart))


def full_edges(graph: Graph, lost: Sequence[float]) -> dict[int, float]:
    """By number the edges that are full, with the most seconds that one of their movements loses, where these are more
    than 120. lost: seconds by movement, as `movement_delays` gives them."""
    delays: dict[int, float] = {}
    for (edge, _), seconds in zip(graph.movements, lost, strict=True):
        if seconds > FULL_DELAY_S:
            delays[edge] = max(seconds, delays.get(edge, 0.0))
    return delays


def is_at_or_after_full(count: Count, full: dict[int, float], graph: Graph) -> bool:
    """Whether a count, by the first of its edges, is at the end of a full edge, or on an edge that a full one leads to;
    full: by edge number."""
    edge = graph.number[count.edges[0]]
    return edge in full or any(before in full for before, _ in graph.incoming[edge])


def misfit_lines(basis: Basis, attempt: Attempt) -> Iterator[str]:
    """Sentences on the counts that fit worst (five at most), and why as far as the run shows it; and on counts at full
    edges, which do not tell how many want to pass."""
    graph = basis.town.graph
    for misfit in worst_fits(attempt.judged):
        figures = f"{misfit.vehicles_passed:,.0f} passed of {misfit.vehicles_counted:,.0f}, GEH {misfit.geh:.1f}"
        street = " to ".join((*misfit.edges[:1], *misfit.edges[1:][-1:]))
        yield f"{street}, {misfit.begin:,} to {misfit.end:,} s: {figures}{why_misfit(basis, attempt, misfit)}"
    if behind := [count for count in basis.counts if is_at_or_after_full(count, attempt.full, graph)]:
        places = len({count.edges for count in behind})
        edges = first_few((graph.edges[edge] for edge in sorted(attempt.full, key=lambda edge: -attempt.full[edge])), 3)
        yield (
            f"{places:,} counted places lie at or behind edges that are full in the run ({edges}): what was counted "
            "there is what these let pass, and more may want to"
        )


def why_misfit(basis: Basis, attempt: Attempt, misfit: ComparedCount) -> str:
    """How a sentence on a count that does not fit ends, from its colon on: a queue holds its vehicles, or other counts
    speak against it, or no way fits; empty where it is not known."""
    planned = sum(
        value
        for count, value in zip(basis.counts, attempt.fitted.passed_by_count(), strict=True)
        if count.edges == misfit.edges and count.kind == misfit.kind and misfit.begin <= count.begin < misfit.end
    )
    if misfit.vehicles_passed < misfit.vehicles_counted and planned > (1 + LATE) * misfit.vehicles_passed:
        return f": {planned:,.0f} were on their way there, and a queue holds them"
    if abs(planned - misfit.vehicles_counted) > abs(misfit.vehicles_passed - misfit.vehicles_counted) / 2:
        return ": other counts speak against it, or no way fits"
    return ""


def doubts_of(attempt: Attempt) -> list[str]:
    """Why the run of a demand is not to be trusted, each in some words; empty where it is."""
    return [*attempt.ran.at_works, *jams_of(attempt)]


def jams_of(attempt: Attempt) -> list[str]:
    """By what a run shows that its demand locks, each in some words; empty where it does not."""
    rescues, (waiting, clock) = attempt.ran.rescues, attempt.ran.most_waiting
    doubts = []
    if rescues > max(1, trust.MOST_RESCUES * len(attempt.trips)):
        doubts.append(f"{rescues:,} rescues of {len(attempt.trips):,} vehicles")
    if waiting > trust.MOST_WAITING * len(attempt.trips):
        doubts.append(f"{waiting:,} vehicles waited to enter at {clock:,} s")
    if attempt.arrived < (1 - trust.MOST_LATE) * len(attempt.trips):
        doubts.append(f"{len(attempt.trips) - attempt.arrived:,} of {len(attempt.trips):,} vehicles have not arrived")
    return doubts
