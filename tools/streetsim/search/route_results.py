"""The files of a search: its iterations, the check by other seeds, movements, trips and the setting."""
from collections import Counter
from collections.abc import Iterator, Sequence
from statistics import fmean

from streetsim.base.files import Json, write_setting
from streetsim.base.seeds import mean_and_half_width
from streetsim.model.tables import write_table
from streetsim.search.route_diverting import Diverted
from streetsim.search.route_search import Iteration, JudgedRoutes
from streetsim.search.route_watching import RunGround
from streetsim.sumo.trips import Trip
from streetsim.sumo.way_costs import mean_observed
from streetsim.sumo.way_graph import END, Graph

ITERATIONS = (
    *("iteration", "mean_trip_s", "arrived", "rescues", "relative_gap", "mean_way_s", "may_change", "changed"),
    "taken_back",
)
CHECK = ("seed", "mean_trip_s", "arrived", "rescues")
MOVEMENTS = ("begin", "end", "edge", "next_edge", "vehicles", "mean_s", "free_s")
FLOWS = ("edge", "case", "trips", "more_than_before")
TRIPS = ("id", "depart", "edges", "may_change", "mean_trip_s", "way_s", "shortest_s")


def write_results(folder: str, diverted: Diverted, setting: Json) -> None:
    """Writes iterations.csv, check.csv, movements.csv, trips.csv and setting.json of a search into a folder. setting:
    what setting.json has beside `check_figures`. Fault where one cannot be written."""
    write_table(f"{folder}/iterations.csv", ITERATIONS, iteration_rows(diverted.search.iterations))
    write_table(f"{folder}/check.csv", CHECK, check_rows(diverted.judged))
    write_table(f"{folder}/movements.csv", MOVEMENTS, movement_rows(diverted.search.ground, diverted.judged))
    write_table(f"{folder}/trips.csv", TRIPS, trip_rows(diverted.trips, diverted.judged))
    write_setting(folder, {**setting, **check_figures(diverted.judged)})


def iteration_rows(iterations: Sequence[Iteration]) -> Iterator[tuple]:
    """The rows of iterations.csv, as ITERATIONS has the columns, one for each iteration."""
    for iteration in iterations:
        ran = iteration.number, f"{iteration.mean:.2f}", iteration.arrived, iteration.rescues
        gap_and_cost = f"{iteration.gap:.5f}", f"{iteration.cost:.2f}"
        yield (*ran, *gap_and_cost, iteration.may_change, iteration.changed, int(iteration.taken_back))


def check_rows(judged: JudgedRoutes) -> Iterator[tuple]:
    """The rows of check.csv, as CHECK has the columns, one for each check seed."""
    for seed, outcome in zip(judged.seeds, judged.outcomes, strict=True):
        yield seed, f"{outcome.mean:.3f}", outcome.arrived, outcome.rescues


def movement_rows(ground: RunGround, judged: JudgedRoutes) -> Iterator[tuple]:
    """The rows of movements.csv, as MOVEMENTS has the columns: for each slice, from clock 0, the last a whole one
    too, and each movement seen in it, vehicles of a check run by the mean, mean seconds, and those without traffic."""
    graph, width = ground.graph, ground.width
    observed = mean_observed([outcome.observed for outcome in judged.outcomes])
    for slice_ in range(observed.slices):
        for movement, (edge, following) in enumerate(graph.movements):
            index = movement * observed.slices + slice_
            if count := observed.counts[index]:
                ends = graph.edges[edge], "" if following == END else graph.edges[following]
                mean, free = observed.seconds[index] / count, judged.loaded.free[movement]
                period = slice_ * width, (slice_ + 1) * width
                yield (*period, *ends, f"{count:.2f}", f"{mean:.1f}", f"{free:.1f}")


def trip_rows(trips: Sequence[Trip], judged: JudgedRoutes) -> Iterator[tuple]:
    """The rows of trips.csv, as TRIPS has the columns: each trip's mean seconds over the check runs (empty where it did
    not arrive in all of them), and the seconds of its way and of the shortest way by the costs of these runs (empty
    where its way was not searched, or none was found)."""
    searched = {found_path.trip: found_path for found_path in judged.best_paths}
    for at, trip in enumerate(trips):
        ends = [end for outcome in judged.outcomes if (end := outcome.arrivals[at]) is not None]
        mean = "" if len(ends) < len(judged.outcomes) else f"{fmean(ends) - trip.depart:.1f}"
        best = searched.get(at)
        ways = (f"{best.own_seconds:.1f}", f"{best.seconds:.1f}") if best and best.path else ("", "")
        yield trip.name, f"{trip.depart:.2f}", len(trip.path), int(trip.changes), mean, *ways


def flow_rows(graph: Graph, results: Sequence[Diverted]) -> Iterator[tuple]:
    """The rows of flows.csv, as FLOWS has the columns: for each edge how many trips have it on their ways, before and
    with each share of drivers who know of the works, and how many more than before."""
    flows = [Counter(edge for trip in result.trips for edge in set(trip.path)) for result in results]
    for edge, name in enumerate(graph.edges):
        for result, flow in zip(results, flows, strict=True):
            yield name, result.label, flow[edge], flow[edge] - flows[0][edge]


def check_figures(judged: JudgedRoutes) -> Json:
    """What the check runs gave, for setting.json: mean_trip_s and half_width_95_s of its interval (None for one run),
    relative_gap (a share), arrived (the fewest) and rescues (of each run)."""
    mean, half = mean_and_half_width([outcome.mean for outcome in judged.outcomes])
    return {
        "mean_trip_s": round(mean, 3),
        "half_width_95_s": None if half is None else round(half, 3),
        "relative_gap": round(judged.gap, 5),
        "arrived": min(outcome.arrived for outcome in judged.outcomes),
        "rescues": [outcome.rescues for outcome in judged.outcomes],
    }
