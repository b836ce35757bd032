"""A run of a study whose vehicles take other ways: by a search, or round the works of a variant."""
import sys
from collections.abc import Iterable, Iterator, Sequence
from dataclasses import dataclass, replace

from streetsim.base.jobs import CORES
from streetsim.base.program import program_digest
from streetsim.base.report import Report
from streetsim.model.mapping import Map
from streetsim.model.runs import Run
from streetsim.model.sources import sources_of
from streetsim.search.route_closing import Shutting
from streetsim.search.route_diverting import Diverted, closing_of, search_by_share
from streetsim.search.route_loading import read_town
from streetsim.search.route_search import Iteration, RouteSearch, RouteSettings
from streetsim.search.route_team import team
from streetsim.search.route_watching import RunGround
from streetsim.sumo.converting import options_again
from streetsim.sumo.trips import connected_trips, read_trips

SEARCH_SETTINGS = RouteSettings(iterations=10, gap=0.02, share=0.2, seeds=range(1, 2))
CHECK = range(101, 104)
SLICE = 300


@dataclass(frozen=True, slots=True)
class Wished:
    """What a variant of a study asks of the ways of its vehicles, and how its runs are made."""

    close: Sequence[str]  # works, as streetsim-run --close takes them
    knowing: float  # share of drivers who know of them, 0 to 1
    joint: Iterable[str]  # further lanes that are joint, as in the variants to compare with
    program: str
    until: int
    rounds: int  # by which vehicles give way
    seeds: Sequence[int]  # of the study
    driven: bool  # detectors drive lights
    lost: str = "lead"  # what those do who lose their only lane, of works_movements.LOST


def run_on_found_ways(
    run: Run, mapping: Map, map_path: str, wished: Wished, variant_label: str
) -> tuple[Run, Map, list[str]]:
    """The run, with the works of the variant if it has any, and its map, with ways that a search of ten iterations,
    printed on standard error, finds for the vehicles of its import; and the texts that speak against these ways.
    map_path: of the map's file; variant_label: in what is told. Fault where a file of the import is gone or has
    changed, a trip has no way, or a run fails."""
    sources = sources_of(mapping.sources, map_path, run.path)
    options = options_again(mapping, joint=wished.joint)
    town = read_town(sources.net, sources.additional, options, Report())
    trips = read_trips([*sources.routes, *sources.trips], town.net, town.graph, town.types, options, Report())
    trips.trips = connected_trips(trips.trips, town.net, town.graph, options.ignore_route_errors, Report())
    program, until = wished.program, wished.until
    ground = RunGround(program, program_digest(program), town.graph, SLICE, until, wished.rounds, wished.driven)

    def print_iteration(label: str, iteration: Iteration) -> bool:
        """Prints an iteration on standard error; gives False, as nobody ends this search."""
        print(f"{variant_label}: {label}{iteration.line(len(trips.trips))}", file=sys.stderr, flush=True)
        return False

    with team(ground, CORES, None) as workers:
        search = RouteSearch(town, ground, trips.trips, workers, lambda iteration: print_iteration("", iteration))
        search.give_first_ways(SEARCH_SETTINGS.seeds[0])
        if wished.close:
            without_works = Diverted(None, trips.trips, search, search.judged(CHECK))
            shutting = Shutting(wished.close, (), wished.lost)
            closing = closing_of(shutting, town.graph, search, without_works.judged)
            asked = without_works, closing, SEARCH_SETTINGS, CHECK, [wished.knowing]
            search = next(search_by_share(*asked, print_iteration)).search
        else:
            search.improve(SEARCH_SETTINGS)
    loaded = search.town.loaded(search.trips, doubted=True)
    return replace(loaded.run, path=run.path), loaded.mapping, list(doubts(search, wished.seeds))


def doubts(search: RouteSearch, seeds: Sequence[int]) -> Iterator[str]:
    """What speaks against ways that a search found, for runs with the seeds of a study, a text each: a gap above the
    one asked for, or seeds that the search used too."""
    if search.best.gap > SEARCH_SETTINGS.gap:
        yield (
            f"its ways have a gap of {100 * search.best.gap:.1f} % by the search's own seed, of "
            f"{100 * SEARCH_SETTINGS.gap:g} % that are asked for"
        )
    if shared_seeds := sorted(set(seeds) & set(SEARCH_SETTINGS.seeds)):
        yield f"its ways were found by seed {shared_seeds[0]}, which is one of the study's: give others"
