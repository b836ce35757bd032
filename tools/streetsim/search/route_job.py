"""A search of routes from its words to its files."""
import os
import sys
from collections.abc import Sequence
from dataclasses import asdict, dataclass
from functools import partial
from statistics import fmean

from streetsim.base.files import Json, whole_folder, write_setting
from streetsim.base.folders import SETTING
from streetsim.base.program import proof_note
from streetsim.base.progress import Stopping
from streetsim.model.tables import write_table
from streetsim.search.route_closing import Shutting
from streetsim.search.route_diverting import (
    SHARES, Diverted, closing_of, path_for_share, search_by_share, share_rows, town_with_works, why_within_gap,
)
from streetsim.search.route_drawing import draw_search
from streetsim.search.route_loading import RouteTown, write_loaded
from streetsim.search.route_results import FLOWS, check_figures, flow_rows, write_results
from streetsim.search.route_search import Iteration, RouteSearch, RouteSettings, has_stalled
from streetsim.search.route_team import Team
from streetsim.search.route_watching import RunGround
from streetsim.sumo.trips import Trips, write_routes


@dataclass(frozen=True, slots=True)
class RouteWorks(Shutting):
    """Road works as they are asked for, with the shares (0 to 1) of drivers who know of them, one search each.
    before_path: of a file of ways without the works; None: they are searched."""

    knowing: Sequence[float] = (1.0,)
    before_path: str | None = None


@dataclass(frozen=True, slots=True)
class RouteFiles:
    """The paths of what is written: the routes, the run and its map (None: neither is written), and the folder of
    tables."""

    routes: str
    run: str | None
    map: str | None
    folder: str


@dataclass(frozen=True, slots=True)
class Job:
    """What a command of streetsim-route asks for, read and checked. check: the seeds by which what is found is
    judged."""

    town: RouteTown
    trips: Trips
    ground: RunGround
    settings: RouteSettings
    check: Sequence[int]
    works: RouteWorks
    target: RouteFiles
    setting_words: dict[str, object]  # of the command, as its setting keeps them


def search_routes(job: Job, workers: Team, stopping: Stopping) -> list[Diverted]:
    """Searches, and judges what was found by the check seeds; gives the ways without works, and after them one result
    for each share of drivers who know of the works, if there are any. The trips of the job get the ways without works;
    with works, and where all have ways, these stay and are not improved. Iterations and warnings are printed on
    standard error. Fault where a trip has no way, or none round the works, or a run fails."""
    works, count = job.works, len(job.trips.trips)

    def print_iteration(label: str, iteration: Iteration) -> bool:
        """Prints an iteration on standard error, after the label of its search; gives whether the user has asked for an
        end."""
        print(f"{label}{iteration.line(count)}", file=sys.stderr, flush=True)
        return stopping.end_asked

    label = "before, " if works.close else ""
    search = RouteSearch(job.town, job.ground, job.trips.trips, workers, partial(print_iteration, label))
    have_ways = works.close and all(trip.path for trip in job.trips.trips)
    if not have_ways:
        search.give_first_ways(job.settings.seeds[0])
        search.improve(job.settings)
    judged = search.judged(job.check)
    without_works = Diverted(None, job.trips.trips, search, judged)
    if not works.close:
        return [without_works]
    for text in town_with_works(job.town, works).told_of_lost(job.trips.trips):
        print(f"warning: {text}", file=sys.stderr)
    closing = closing_of(works, job.town.graph, search, judged)
    seeds, shares = job.check, works.knowing
    return [without_works, *search_by_share(without_works, closing, job.settings, seeds, shares, print_iteration)]


def write_found(job: Job, all_diverted: Sequence[Diverted]) -> None:
    """Writes the routes, the run with its map where they are asked for, and the folder of tables and pictures, one
    after the other, each whole or not at all (Fault); several shares have routes, runs, tables and pictures each.
    all_diverted: as search_routes gives it."""
    target, many_shares, written = job.target, len(all_diverted) > 2, all_diverted[1:] or all_diverted
    for diverted in written:
        trips = Trips(list(diverted.trips), job.trips.types)
        routes = path_for_share(target.routes, diverted.share, many_shares)
        write_routes(routes, trips, job.town.graph)
        if target.run and target.map:
            paths = (path_for_share(path, diverted.share, many_shares) for path in (target.run, target.map))
            town = diverted.search.town
            write_loaded(town.loaded(diverted.trips, doubted=True), town, routes, *paths)
    with whole_folder(target.folder, SETTING) as folder:
        for diverted in written:
            subfolder = f"{folder}/{diverted.label.replace(' ', '-')}" if many_shares else folder
            os.makedirs(subfolder, exist_ok=True)
            write_results(subfolder, diverted, setting_of(job, diverted, all_diverted[0]))
            draw_search(subfolder, all_diverted[0], diverted)
        if job.works.close:
            write_routes(f"{folder}/before.rou.xml", job.trips, job.town.graph)
            write_table(f"{folder}/knowing.csv", SHARES, share_rows(all_diverted))
            write_table(f"{folder}/flows.csv", FLOWS, flow_rows(job.town.graph, all_diverted))
        if many_shares:
            write_setting(folder, setting_of(job, all_diverted[0], all_diverted[0]) | {"knowing": job.works.knowing})


def setting_of(job: Job, diverted: Diverted, without_works: Diverted) -> Json:
    """What setting.json has beside `check_figures` of the check runs: what was asked for, what the search came to, and
    why it is not to be trusted. without_works: the result without them."""
    works, setting = job.works, job.setting_words | {"import": asdict(job.town.options)}
    setting |= proof_note(job.ground.program)
    setting |= {"until": job.ground.until, "iteration": diverted.search.best.number}
    setting |= {"not_trusted": list(diverted.doubts())}
    if works.close:
        setting |= {"close": works.close, "knowing": diverted.share, "sign": works.sign, "before": works.before_path}
        setting |= {"lost": works.lost, "without_works": check_figures(without_works.judged)}
    return setting


def tell_found(job: Job, diverted: Diverted, without_works: Diverted) -> int:
    """Prints what was found, and warnings to standard error; gives the exit status: 0 where the gap that was asked for
    is reached, by the search without works too, else 1. without_works: the result without them, or diverted itself."""
    label = f"{diverted.label}: " * (diverted.share is not None)
    if has_stalled(diverted.search) and diverted.judged.gap > job.settings.gap:
        print(
            f"warning: {label}the ways get no better any more: the best were those of iteration "
            f"{diverted.search.best.number}",
            file=sys.stderr,
        )
    if diverted is not without_works and (why := why_within_gap(diverted, without_works)):
        print(f"warning: {label}{why}", file=sys.stderr)
    mean, runs = fmean(diverted.mean_trips()), len(diverted.judged.outcomes)
    added, missed = mean - fmean(without_works.mean_trips()), gap_missed(job, diverted, without_works)
    print(
        f"{label}mean trip {mean:.1f} s{f' ({added:+.1f} s by the works)' * bool(label)}, "
        f"gap {100 * diverted.judged.gap:.2f} % by {runs} seed{'s' * (runs > 1)} that the search did not see"
        f"{f': the gap of {100 * job.settings.gap:g} % is not reached{missed}' if missed is not None else ''}; "
        f"routes of iteration {diverted.search.best.number}"
    )
    return 0 if missed is None else 1


def tell_stops(job: Job, diverted: Diverted) -> None:
    """Prints on standard error which stops are not made in the runs by which routes are judged, and which lights wait
    for whom."""
    loaded = diverted.judged.loaded
    for text in job.ground.settings(loaded.run, loaded.mapping).buses.notes():
        print(f"{diverted.label}: {text}" if diverted.share is not None else text, file=sys.stderr)


def gap_missed(job: Job, diverted: Diverted, without_works: Diverted) -> str | None:
    """The words that say where the gap that was asked for is not reached: empty where only the result itself misses
    it. None where it is reached. Ways without works that were given in a file are not judged."""
    without = without_works.judged.gap if without_works.search.iterations and diverted is not without_works else 0.0
    if max(diverted.judged.gap, without) <= job.settings.gap:
        return None
    if without <= job.settings.gap:
        return ""
    return f"{', nor' * (diverted.judged.gap > job.settings.gap)} without works ({100 * without:.2f} %)"
