"""The tasks of a search, on processes of this machine or on a cluster: parts of the routing, and runs."""
import contextlib
from collections.abc import Iterator, Sequence

from streetsim.search.route_giving_way import PassingsByName
from streetsim.search.route_loading import LoadedRun
from streetsim.search.route_watching import RunGround, WatchedOutcome, check_outcome, trial_outcome
from streetsim.search.run_machines import Machines, machines
from streetsim.sumo.router import FoundPath, Router, Shut, Wish, wish_parts
from streetsim.sumo.way_costs import Costs

CLUSTER_PARTS = 16  # of a search


class Team:
    """The workers of a search; whatever their number, the results are the same."""

    def __init__(self, workers: Machines, parts: int) -> None:
        """parts: into how many tasks a routing is cut."""
        self.workers, self.parts = workers, parts

    def search(self, wishes: Sequence[Wish], costs: Costs, shut: Shut | None = None) -> list[FoundPath]:
        """What the router finds for wishes, in the order of trips; shut: (first, last) seconds, from first to before
        last, by edge or movement, None: nothing is shut. Fault where a worker is lost."""
        parts = wish_parts(wishes, self.parts)
        tasks = [(f"part {at} of a search", search_part, 0, part, costs, shut) for at, part in enumerate(parts, 1)]
        return sorted((path for part in self.workers.ordered(tasks) for path in part), key=lambda path: path.trip)

    def run_cases(
        self, cases: Sequence[LoadedRun], seeds: Sequence[int], passings_by_seed: Sequence[PassingsByName | None]
    ) -> list[list[WatchedOutcome]]:
        """What runs of some cases with each seed show, by case and then by seed. passings_by_seed: of those who go
        first, in the run before; None where nobody waits for them. Fault where a run fails or a worker is lost."""
        pairs = list(zip(seeds, passings_by_seed, strict=True))
        tasks = [
            (f"the run with seed {seed}", trial_outcome, 0, loaded.run, loaded.mapping, seed, passings)
            for loaded in cases for seed, passings in pairs
        ]  # fmt: skip
        outcomes = self.workers.ordered(tasks)
        return [[next(outcomes) for _ in seeds] for _ in cases]

    def run_checks(self, loaded: LoadedRun, seeds: Sequence[int]) -> list[WatchedOutcome]:
        """The outcomes of runs with each seed, each of which first finds its own gaps for those who give way without a
        light. Fault where a run fails or a worker is lost."""
        case = check_outcome, 0, loaded.run, loaded.mapping
        return list(self.workers.ordered([(f"the run with seed {seed}", *case, seed) for seed in seeds]))


@contextlib.contextmanager
def team(ground: RunGround, jobs: int, cluster: str | None) -> Iterator[Team]:
    """A team of so many processes of this machine (jobs), or of the workers of a cluster (HOST:PORT, or None). Fault
    where the cluster cannot be reached."""
    with machines(jobs, cluster, [ground]) as workers:
        yield Team(workers, CLUSTER_PARTS if cluster else jobs)


def search_part(ground: RunGround, wishes: Sequence[Wish], costs: Costs, shut: Shut | None) -> list[FoundPath]:
    """What the router finds for wishes; a task of a worker. shut: when edges and movements are closed, None: never."""
    router = Router(ground.graph, costs, shut)
    return [router.best_path(wish) for wish in wishes]
