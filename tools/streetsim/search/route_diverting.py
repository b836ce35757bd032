"""Ways round road works: the ways without them, and for each share of drivers who know of the works those with them."""
import copy
import dataclasses
import os
from collections.abc import Callable, Iterator, Sequence
from dataclasses import dataclass
from functools import partial
from itertools import pairwise
from statistics import fmean

from streetsim.base.files import Fault
from streetsim.base.seeds import mean_and_half_width
from streetsim.control.works_asked import works_of
from streetsim.control.works_closures import closures_of
from streetsim.control.works_crowding import crowded_works, told_of_crowded
from streetsim.control.works_sites import lanes_to_join
from streetsim.control.works_watched import in_runs
from streetsim.model import trust
from streetsim.search.route_closing import (
    Closing, Shutting, Times, barred_ways, knows_of_works, shut_edges, why_edge_stops,
)
from streetsim.search.route_loading import RouteTown
from streetsim.search.route_search import Iteration, JudgedRoutes, RouteSearch, RouteSettings
from streetsim.search.run_prepared import when_all_arrived
from streetsim.sumo.router import EdgePair
from streetsim.sumo.trips import Trip, Trips
from streetsim.sumo.way_graph import Graph
from streetsim.sumo.way_unloaded import map_without_routes

SHARES = (
    *("knowing", "trips_that_know", "mean_trip_s", "difference_s", "half_width_95_s", "relative_gap", "arrived"),
    *("rescues", "trips_that_change"),
)


@dataclass(frozen=True, slots=True)
class Diverted:
    """What a search with a share (0 to 1) of drivers who know of the works gave; share is None for the ways without
    works."""

    share: float | None
    trips: Sequence[Trip]
    search: RouteSearch
    judged: JudgedRoutes

    @property
    def label(self) -> str:
        """Its name in tables and lines: "before" without works, else "knowing" and its share."""
        return "before" if self.share is None else f"knowing {self.share:g}"

    def mean_trips(self) -> list[float]:
        """The mean trips of its check runs, seconds, by seed."""
        return [outcome.mean for outcome in self.judged.outcomes]

    def doubts(self) -> Iterator[str]:
        """What speaks against the runs by which it is judged, a text each; nothing where they are to be trusted."""
        outcomes, count, until = self.judged.outcomes, len(self.trips), self.search.ground.until
        run, mapping = self.judged.loaded.run, self.judged.loaded.mapping
        arrived, rescues = min(outcome.arrived for outcome in outcomes), max(outcome.rescues for outcome in outcomes)
        if arrived < count:
            yield f"{count - arrived:,} of {count:,} trips have not arrived at {until:,} s (--until)"
        if rescues > trust.MOST_RESCUES * count:
            yield f"{rescues:,} rescues of {count:,} trips, so the network locks in part, and the gap says little"
        yield from trust.waiting_doubts({"": [outcome.most_waiting for outcome in outcomes]}, count)
        yield from trust.length_doubts(until, run, mapping)
        yield from trust.actuated_doubts(
            until, run, mapping, self.search.ground.lights(run, mapping).listed_lights(mapping)
        )
        works = [works_of(text, mapping) for text in self.search.town.works]
        yield from in_runs([outcome.at_works for outcome in outcomes])
        yield from told_of_crowded(crowded_works(run, mapping, closures_of(run, until)))
        if works:
            ends = [(until, when_all_arrived(outcome.arrivals, run.start())) for outcome in outcomes]
            yield from trust.works_doubts([(site.lane, site.begin) for site in works], ends)

    def named_doubts(self) -> list[str]:
        """The texts of doubts, each after the label where these runs have works; those of "before" stand alone."""
        return [f"{self.label}: {text}" if self.search.town.works else text for text in self.doubts()]


def path_for_share(path: str, share: float | None, many_shares: bool) -> str:
    """The path of an output for a share: where there are many_shares, with "-SHARE" before the first dot of its
    name, or at its end; else the path as it is. share: None only where there are not many."""
    if not many_shares:
        return path
    folder, name = os.path.split(path)
    stem, dot, ending = name.partition(".")
    return os.path.join(folder, f"{stem}-{share:g}{dot}{ending}")


def give_ways_of_file(trips: Sequence[Trip], routed_trips: Trips, graph: Graph, path: str) -> None:
    """Gives each trip the path of the trip of the same name in routed_trips, which were read from a file (path). Fault
    where there is none, it begins or ends on another edge than the trip, or two edges in a row have no connection."""
    ways = {trip.name: trip for trip in routed_trips.trips}
    for trip in trips:
        routed = ways.get(trip.name)
        if routed is None or not routed.path:
            raise Fault(f"{path}: no route of {trip.name!r}")
        if (routed.path[0], routed.path[-1]) != (trip.origin, trip.target):
            raise Fault(f"{path}: the route of {trip.name!r} does not go from where it begins to where it ends")
        if not all(way in graph.movement_of for way in pairwise(routed.path)):
            why = "has two edges that follow each other and have no connection"
            raise Fault(f"{path}: the route of {trip.name!r} {why}")
        trip.path = routed.path


def check_works(
    texts: Sequence[str], signs: Sequence[str], trips: Sequence[Trip], town: RouteTown, until: int
) -> tuple[str, ...]:
    """Gives the lanes that works make joint, so that runs without them have these joint too. Refuses by a Fault, before
    anything runs, works (texts, as --close takes them) that have another form or name no lane or metres of the network,
    end by the start or begin at until (a clock in seconds) or later, signs on unknown edges, and trips that begin on an
    edge while it is shut (shut_edges). Which trips end there is known only after the runs without works."""
    mapping = map_without_routes(town.net, town.options)
    works = [works_of(text, mapping) for text in texts]
    if over := [site.text for site in works if site.end <= town.options.begin]:
        raise Fault(f"--close {over[0]!r}: ends at the start, {town.options.begin:,} s, or earlier")
    if late := [site.text for site in works if site.begin >= until]:
        raise Fault(f"--close {late[0]!r}: begins after the end of the runs, {until:,} s")
    if unknown := [name for name in signs if name not in town.graph.number]:
        raise Fault(f"--sign: the network has no edge {unknown[0]!r}")
    shut = shut_edges(works, town.graph, mapping, town.dawdle)
    for trip in trips:
        if any(begin <= trip.depart < end for begin, end in shut.get(trip.origin, ())):
            raise Fault(f"trip {trip.name!r} {why_edge_stops((trip.origin,), 0, town.graph)}")
    return tuple(lanes_to_join(works, mapping))


def closing_of(shutting: Shutting, graph: Graph, search: RouteSearch, judged: JudgedRoutes) -> Closing:
    """Works as a router sees them; search, judged: that and the runs without works, from which free times come. Fault
    where the map has no such works; KeyError where the graph has no edge of a sign."""
    mapping = judged.loaded.mapping
    works = [works_of(text, mapping) for text in shutting.close]
    shut: dict[int | EdgePair, Sequence[Times]] = {}
    shut.update(shut_edges(works, graph, mapping, search.town.dawdle).items())
    if shutting.lost == "bar":
        shut.update(barred_ways(works, graph, mapping).items())
    return Closing(shut, frozenset(graph.number[name] for name in shutting.sign), judged.loaded.free, shutting)


def town_with_works(town: RouteTown, shutting: Shutting) -> RouteTown:
    """A copy of a town that has works; the town itself stays without."""
    closed_town = copy.copy(town)
    closed_town.works, closed_town.lost = tuple(shutting.close), shutting.lost
    return closed_town


def search_by_share(
    without_works: Diverted, closing: Closing, settings: RouteSettings, check: Sequence[int], shares: Sequence[float],
    on_iteration: Callable[[str, Iteration], bool],
) -> Iterator[Diverted]:  # fmt: skip
    """For each share (0 to 1) of drivers who know of the works, what a search of its own gives; each begins with the
    ways of `without_works` and is judged by the check seeds. on_iteration: gets a label and an iteration, and gives
    whether the user asks for an end. The trips are copies. Fault where a trip has no way round the works, or a run
    fails."""
    earlier = without_works.search
    town = town_with_works(earlier.town, closing.shutting)
    for share in shares:
        trips = [
            dataclasses.replace(trip, changes=trip.changes and knows_of_works(trip.name, share, settings.seeds[0]))
            for trip in earlier.trips
        ]
        on_labelled = partial(on_iteration, f"knowing {share:g}, ")
        search = RouteSearch(town, earlier.ground, trips, earlier.team, on_labelled, closing)
        search.turn_off(without_works.judged.costs, strict=True)
        search.improve(settings)
        yield Diverted(share, trips, search, search.judged(check))


def why_within_gap(diverted: Diverted, without_works: Diverted) -> str | None:
    """A warning where the works change the mean trip, up or down, by less than what all could gain by other ways,
    without the works or with them, whichever is more; None otherwise."""
    apart = fmean(diverted.mean_trips()) - fmean(without_works.mean_trips())
    cases = ("without", without_works), ("with", diverted)
    seconds = {case_name: case.judged.gap * fmean(case.mean_trips()) for case_name, case in cases}
    case_name = max(seconds, key=lambda case_name: seconds[case_name])
    if abs(apart) >= seconds[case_name]:
        return None
    return (
        f"what the works add ({apart:+.1f} s) is less than what all could gain by other ways {case_name} them "
        f"({seconds[case_name]:.1f} s), and says little: find ways with a smaller --gap"
    )


def share_rows(all_diverted: Sequence[Diverted]) -> Iterator[tuple]:
    """The rows of knowing.csv, as SHARES has the columns: the ways without works first, then each share, with its mean
    difference (s) to the first by equal seeds and half the width of its 95 % interval. Those that know are counted of
    the trips that may change alone; arrived is of the run with the fewest, rescues are of all runs."""
    without_works = all_diverted[0]
    for diverted in all_diverted:
        mean_trips = zip(without_works.mean_trips(), diverted.mean_trips(), strict=True)
        apart = [after_s - before_s for before_s, after_s in mean_trips]
        difference, half = (None, None) if diverted is without_works else mean_and_half_width(apart)
        changed = sum(trip.path != old.path for trip, old in zip(diverted.trips, without_works.trips, strict=True))
        who_know = sum(trip.changes for trip in diverted.trips)
        knowing = ("", "") if diverted is without_works else (f"{diverted.share:g}", who_know)
        figures = fmean(diverted.mean_trips()), difference, half
        seconds = ("" if figure is None else f"{figure:.3f}" for figure in figures)
        runs = diverted.judged.outcomes
        ended = min(run.arrived for run in runs), sum(run.rescues for run in runs)
        yield (*knowing, *seconds, f"{diverted.judged.gap:.5f}", *ended, changed)
