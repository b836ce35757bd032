"""A run that is watched: when its vehicles came to their links, what movements took, and when those passed who go
first."""
from collections.abc import Iterable, Sequence
from dataclasses import dataclass
from functools import partial
from itertools import pairwise

from streetsim.base.words import ROUNDS
from streetsim.control.actuated_lights import NONE_DRIVEN, ActuatedLights, driven_lights
from streetsim.control.bus_planned import planned
from streetsim.control.bus_priority import prioritised
from streetsim.control.settings import Settings
from streetsim.control.steering import Steering
from streetsim.control.works_watched import doubts_of
from streetsim.kernel.loop import Kernel
from streetsim.kernel.serving import serving_program
from streetsim.model.mapping import Map
from streetsim.model.runs import Run, with_load
from streetsim.observe.giving_way_gaps import StopLinePassings
from streetsim.observe.giving_way_rounds import gaps_of, with_lines
from streetsim.observe.link_passings import Passings
from streetsim.observe.queues import Summary
from streetsim.observe.trips import TripsTable
from streetsim.observe.works import WorksTable
from streetsim.search.route_giving_way import PassingsByName, passed_by_name, waiting_lines
from streetsim.sumo.way_costs import Observed, nothing_observed
from streetsim.sumo.way_graph import END, Graph


@dataclass(frozen=True, slots=True)
class RunGround:
    """What all runs and searches of a network stand on. program: its path; digest: of that file, None: not checked;
    width: seconds of a slice; until: the last clock; rounds: by which vehicles give way without a light in check runs,
    0: nobody gives way; driven: whether detectors drive lights."""

    program: str
    digest: str | None
    graph: Graph
    width: int
    until: int
    rounds: int = ROUNDS
    driven: bool = True
    priority: tuple[str, ...] = ()  # classes of vehicles or lines for which lights wait
    seen_seconds: int | None = None  # seconds before a stop line at which lights see them; None: as usual

    def settings(self, run: Run, mapping: Map) -> Settings:
        """What each run is asked for: to its last clock, with stops, rescues, merging, lights that detectors drive and
        vehicles with priority. Fault where nobody is of a class or line that has priority."""
        lights, buses = self.lights(run, mapping), planned(run, mapping)
        if self.priority:
            lights, buses = prioritised(run, mapping, self.priority, self.seen_seconds, lights, buses)
        return Settings(self.until, 0, lights=lights, buses=buses)

    def lights(self, run: Run, mapping: Map) -> ActuatedLights:
        """The lights of a run that detectors drive; NONE_DRIVEN, without any, where they drive none, or are not to."""
        return driven_lights(run, mapping) if self.driven and mapping.actuated else NONE_DRIVEN

    @property
    def slices(self) -> int:
        """How many slices of width seconds there are from clock 0, wherever the run begins, to the last clock, that one
        included."""
        return self.until // self.width + 1


@dataclass(slots=True)
class WatchedOutcome:
    """What a run gave, trip by trip. A trip that has not arrived counts in the mean until the end of the run."""

    observed: Observed
    entries: list[float]  # when each came on the road, or its wished departure
    arrivals: list[int | None]  # when each arrived
    mean: float  # seconds from the wished departure
    rescues: int
    passings: PassingsByName  # when those passed who go first
    most_waiting: tuple[int, int]  # vehicles that waited to enter at the worst minute, and its clock
    at_works: tuple[str, ...] = ()  # what speaks against the run, by what was seen before its works

    @property
    def arrived(self) -> int:
        """How many trips have arrived."""
        return sum(end is not None for end in self.arrivals)


def trial_outcome(
    ground: RunGround, run: Run, mapping: Map, seed: int, passings_by_name: PassingsByName | None
) -> WatchedOutcome:
    """Makes one run with a seed and gives what it showed; a task of a worker. passings_by_name: of those who go first
    in the run before, None: nobody waits for them. Fault as of outcome_of_run."""
    lines = waiting_lines(passings_by_name, mapping, run.start()) if passings_by_name else []
    return outcome_of_run(ground, with_lines(with_load(run, seed=seed), lines), mapping, seed)


def check_outcome(ground: RunGround, run: Run, mapping: Map, seed: int) -> WatchedOutcome:
    """Makes one run with a seed, in which vehicles give way by rounds with this seed alone, as in streetsim-run, and
    gives what it showed; a task of a worker. Fault as of outcome_of_run and run_with_gaps."""
    return outcome_of_run(ground, run_with_gaps(ground, run, mapping, seed), mapping, seed)


def run_with_gaps(ground: RunGround, run: Run, mapping: Map, seed: int) -> Run:
    """The run with a seed and the signal lines by which its vehicles give way without a light, found by rounds with
    this seed alone, as in streetsim-run; no lines where ground.rounds is 0 or nobody gives way. Fault as of gaps_of."""
    run, serve = with_load(run, seed=seed), partial(serving_program, ground.program, run.path)
    lines, _ = gaps_of(run, mapping, ground.settings(run, mapping), ground.rounds, serve, lambda *_: None)
    return with_lines(run, lines)


def outcome_of_run(ground: RunGround, run: Run, mapping: Map, seed: int) -> WatchedOutcome:
    """Makes a run, of one vehicle at least, as it is and gives what it showed; Fault where the program refuses it or
    ends. seed: named in the Fault, no more."""
    watched = seen_run(ground, run, mapping, seed, bool(ground.rounds and mapping.yields))
    departs = [line.command["depart"] for line in run.enters]
    entries = [float(clocks[0] if clocks else depart) for clocks, depart in zip(watched.clocks, departs, strict=True)]
    ends = (ground.until if end is None else end for end in watched.arrivals)
    mean = sum(end - depart for end, depart in zip(ends, departs, strict=True)) / len(departs)
    ran = watched.rescues, passed_by_name(watched.passings, mapping), watched.most_waiting, watched.at_works
    return WatchedOutcome(watched.observed, entries, watched.arrivals, mean, *ran)


@dataclass(frozen=True, slots=True)
class SeenRun:
    """A run that was made. clocks: for each vehicle those at which it came to the links of its plan, as far as it did,
    the first of them a second sooner, when it departed; arrivals: the clocks, None where it did not arrive; observed:
    the seconds of movements by the time of their begin, those of one that has not ended up to the run's end; passings:
    of those who go first, empty where nobody gives way; most_waiting: how many vehicles waited to enter at the worst
    minute, and its clock, the first of equal ones; at_works: what speaks against the run, by what was seen there. """

    clocks: list[list[int]]
    arrivals: list[int | None]
    observed: Observed
    passings: StopLinePassings
    rescues: int
    most_waiting: tuple[int, int]
    at_works: tuple[str, ...]


def seen_run(ground: RunGround, run: Run, mapping: Map, seed: int, giving: bool) -> SeenRun:
    """Makes a run with rescues as it is, watched until all have ended or its last clock has come; Fault where the
    program refuses it or ends. seed: named in the Fault, no more; giving: whether vehicles give way without a light, so
    that it is told when those pass who go first."""
    steering, trips = Steering(run, mapping, ground.settings(run, mapping), True), TripsTable()
    passings = Passings()
    summary, works = Summary(trips), WorksTable(steering.closures)
    with serving_program(ground.program, f"a run with seed {seed}") as program:
        Kernel(program, run, mapping, steering.controllers, [trips, passings, summary, works]).go(ground.until)
    arrivals, clocks = [arrival for arrival, _ in trips.ends()], passings.link_arrivals()
    for vehicle_clocks in clocks:
        vehicle_clocks[:1] = [clock - 1 for clock in vehicle_clocks[:1]]
    worst = max(summary.censuses(), key=lambda census: census.waiting)
    return SeenRun(
        clocks=clocks, arrivals=arrivals, observed=observed_in(ground, run, mapping, clocks, arrivals),
        passings=passings.stop_line_passings() if giving else {}, rescues=steering.rescue.count.total(),
        most_waiting=(worst.waiting, worst.clock), at_works=tuple(doubts_of(works.watched, mapping)),
    )  # fmt: skip


def observed_in(
    ground: RunGround, run: Run, mapping: Map, clocks: Iterable[Sequence[int]], arrivals: Iterable[int | None]
) -> Observed:
    """The seconds of movements of a run, as SeenRun has them; clocks, arrivals: as there."""
    edges, movement_of = [ground.graph.number[link.edge] for link in mapping.links], ground.graph.movement_of
    observed = nothing_observed(len(ground.graph.movements), ground.slices)
    for line, vehicle_clocks, end in zip(run.enters, clocks, arrivals, strict=True):
        ways = pairwise([*(edges[link] for link in line.command["plan"]), END])
        link_clocks = [*vehicle_clocks, ground.until if end is None else end] if vehicle_clocks else []
        for way, (since, until) in zip(ways, pairwise(link_clocks)):
            observed.add(movement_of[way], since // ground.width, until - since)
    return observed
