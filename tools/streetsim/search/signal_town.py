"""A run as a search or a study sees it: its lights and their plans, and all as bytes that workers run."""
import json
import sys
from collections.abc import Collection, Iterable, Iterator, Mapping, Sequence
from dataclasses import dataclass, replace
from itertools import product
from statistics import fmean
from types import MappingProxyType
from typing import Any, NamedTuple

from streetsim.base.files import Fault
from streetsim.base.progress import WorkProgress
from streetsim.base.report import first_few
from streetsim.control.actuated_lights import ACTUATED, NEMA, driven_lights
from streetsim.control.bus_planned import planned
from streetsim.control.settings import Settings
from streetsim.model.mapping import Map
from streetsim.model.runs import Line, Run, read_with_map
from streetsim.search.run_giving_way import (
    acts_beside_lights, for_search, gap_lines, giving_session, live_trial, outcome_giving_way, seconds_of_run,
)
from streetsim.search.run_hidden import HiddenShares
from streetsim.search.run_machines import Function, Machines
from streetsim.search.run_prepared import Outcome, PreparedRun, vehicle_seconds
from streetsim.search.signal_lines import LightLines, read_plans
from streetsim.search.signal_plans import Plan, PlannedLight, light_and_timing, why_kept
from streetsim.search.signal_promises import Promises
from streetsim.search.signal_search import Key, key_of
from streetsim.sumo.net import STATIC, LightProgram, SumoNet

EXACT, CAREFUL = 0, 1  # places of sessions: that of the report, that of the search


class Reading(NamedTuple):
    """What the user says of a town: paths of its run, map and signal plans, and how it is searched."""

    run: str
    map: str
    plans: Sequence[str]
    until: int  # last second
    program: str
    least_green: int  # seconds of a green that may be stretched
    keep: Sequence[str]  # lights that are left as they are
    rounds: int = 0  # by which vehicles give way without a light
    reserve: int = 0  # of the search: of 1,000, by which its vehicles slow down more often
    fixed: bool = False  # plans of seconds are found for lights that detectors drive too
    constraints: str | None = None  # a file of what phases must keep
    mend: bool = False  # search also from a plan that breaks what its phases must keep


@dataclass(frozen=True, slots=True)
class SignalTown:
    """What a search for plans stands on: a run and its map, its lights, the plan given, and the sessions that workers
    run."""

    run: Run
    mapping: Map
    settings: Settings  # of each run
    lights: dict[str, PlannedLight]  # that are searched, by name
    plan: Plan  # the one given, of these
    lines: LightLines
    session: PreparedRun
    careful: PreparedRun  # of the search, whose vehicles slow down more often, so that what is found has room
    net: SumoNet

    def net_under(self, plan: Plan) -> SumoNet:
        """The network with the programs of a plan."""
        programs = {
            name: LightProgram(0.0, list(zip(timing.durations, self.lights[name].states, strict=True)), STATIC)
            for name, timing in plan.items()
        }
        return replace(self.net, programs={**self.net.programs, **programs})

    @property
    def base(self) -> Plan:
        """The plan given, mended where it breaks what its phases must keep: the one that a search begins with."""
        return {name: self.lights[name].mended(timing) for name, timing in self.plan.items()}

    @property
    def estimates(self) -> bool:
        """Whether most plans are run with seconds for which turns that give way at lights were hidden in another run:
        where nothing else acts while a run goes, so that this costs much less."""
        giving = self.session.giving
        return giving is not None and bool(self.mapping.lit_ways) and not acts_beside_lights(giving)

    def plan_lines(self, plan: Plan) -> bytes:
        """The signal lines of a plan, as bytes."""
        return self.lines.signal_lines(plan, self.lights)

    def first_lines(self, plan: Plan) -> list[Line]:
        """The lines before the first step of the run, with a plan's signals in place of its own at the same nodes."""
        plan_lines = [Line(0, text, json.loads(text)) for text in self.plan_lines(plan).decode().splitlines()]
        nodes = {line.command["node"] for line in plan_lines}
        return [line for line in self.run.first if signal_node(line) not in nodes] + plan_lines


def signal_node(line: Line) -> int | None:
    """The node of a signal line; None where the line is of another command."""
    return line.command["node"] if line.command["cmd"] == "signal" else None


def read_run_and_map(run_path: str, map_path: str, until: int | None = None) -> tuple[Run, Map]:
    """(run, map of its names), as read_with_map reads them, for a search or a study: Fault also where no vehicle
    departs, or with until (a clock in seconds) none before that, or where the run starts no earlier than until."""
    run, mapping = read_with_map(run_path, map_path)
    if until is not None and until <= run.start():
        raise Fault(f"{run_path}: starts at {run.start()} s, which is not before {until} s")
    if not any(until is None or line.command["depart"] < until for line in run.enters):
        raise Fault(f"{run_path}: no vehicle {'in it' if until is None else f'departs before {until} s'}")
    return run, mapping


def read_town(reading: Reading) -> SignalTown:
    """Reads the town of a search. Tells on standard error which lights stay as they are, and why; where signals of the
    run differ from those of the plans, which count; and which stops are not made. Fault where a file is wrong, nobody
    departs before the end, or no light may be changed."""
    run, mapping = read_run_and_map(reading.run, reading.map, reading.until)
    net = read_plans(reading.plans, mapping)
    lights, plan = searched_lights(reading, run, mapping, net)
    nodes = frozenset(node for light, node in mapping.signals if light in lights)
    settings = settings_of(reading, run, mapping, lights)
    session_args = reading.program, run, mapping, settings, reading.rounds, nodes
    session = careful = giving_session(*session_args)
    if reading.reserve:
        careful = giving_session(*session_args, dawdle=min(1000, run.load.command["dawdle"] + reading.reserve))
    town = SignalTown(run, mapping, settings, lights, plan, LightLines(mapping), session, careful, net)
    for text in (*settings.lights.notes(), *settings.buses.notes()):
        print(text, file=sys.stderr)
    warn_of_signals(reading, town)
    return town


def settings_of(reading: Reading, run: Run, mapping: Map, searched: Collection[str]) -> Settings:
    """What each run is asked for: its end, the stops of vehicles, merging, and the lights that detectors drive, but for
    those that are searched. Nobody is rescued, as that would reward a plan under which a network locks."""
    lights = driven_lights(run, mapping)
    driven = replace(
        lights,
        driven=tuple(light for light in lights.driven if light.name not in searched),
        listed={name: why for name, why in lights.listed.items() if name not in searched},
        idle=tuple(light for light in lights.idle if light.name not in searched),
        switches=tuple(switch for switch in lights.switches if switch[1] not in searched),
    )
    return Settings(reading.until, rescue=0, lights=driven, buses=planned(run, mapping))


def searched_lights(reading: Reading, run: Run, mapping: Map, net: SumoNet) -> tuple[dict[str, PlannedLight], Plan]:
    """({name: light that is searched}, their plan as given); which lights are left as they are, and why, is written to
    standard error. Fault where a light of the map has no program in the plans, --fixed names a light that the map does
    not have, or no light may be changed."""
    names, fixed_lights = lights_of(reading, mapping, net), set(reading.keep)
    if unknown := sorted(fixed_lights - set(names)):
        raise Fault(f"--fixed: the map has no light {unknown[0]!r}")
    timed_nodes = {signal_node(line) for _, line in run.timed}
    timed = {light for light, node in mapping.signals if node in timed_nodes}
    lights, plan = {}, {}
    reasons: dict[str, list[str]] = {}
    promises = Promises(reading, names)
    for name in names:
        program = net.programs[name]
        if reading.fixed and program.kind in (ACTUATED, NEMA):
            program = replace(program, kind=STATIC)
        if why := why_kept(name, program, fixed_lights, timed):
            reasons.setdefault(why, []).append(name)
        else:
            constraints = promises.constraints_for(name, program)
            lights[name], plan[name] = light_and_timing(name, program, reading.least_green, constraints)
    promises.tell_broken()
    for why, kept_names in reasons.items():
        print(f"not changed, {why}: {first_few(kept_names)}", file=sys.stderr)
    if not lights:
        raise Fault(f"{reading.map}: no light whose plan may be changed")
    return lights, plan


def lights_of(reading: Reading, mapping: Map, net: SumoNet) -> list[str]:
    """The names of all lights of the map, sorted; Fault where one, to be kept or not, has no program in the plans."""
    names = sorted({light for light, _ in mapping.signals})
    if lacking := [name for name in names if name not in net.programs or not net.programs[name].phases]:
        raise Fault(f"{' '.join(reading.plans)}: no program of light {lacking[0]!r}, which {reading.map} has")
    return names


def warn_of_signals(reading: Reading, town: SignalTown) -> None:
    """Warns on standard error where signals of the run differ from those of the plans given, which count."""
    run_signals = [line.command for line in town.run.first if signal_node(line) is not None]
    plan_signals = [json.loads(text) for text in town.plan_lines(town.plan).splitlines()]
    differing = [command for command in plan_signals if command not in run_signals]
    if differing:
        count = f"{len(differing)} of {len(plan_signals)} signals of {reading.run}"
        print(f"warning: {count} are others than those of the plans given, which count", file=sys.stderr)


class Runner:
    """Runs plans of a town with seeds on some workers, and gives what the runs gave; Fault where one fails or a worker
    is lost."""

    def __init__(self, workers: Machines, town: SignalTown, giving: Mapping[int, int] = MappingProxyType({})) -> None:
        """workers: that have the sessions of sessions_of, or the first for outcomes and gaps alone; town: whose plans
        are run; giving: by seed the place of its session, as sessions_of gives it."""
        self.workers, self.town, self.giving, self.cars = workers, town, giving, len(town.session.departs)
        self.hidden_lines = town.lines  # of the plans of estimates
        self.known_trips: dict[tuple[Key, int], float] = {}  # of live_trips, by plan and seed

    def mean_trips(self, plans: Iterable[Plan], seeds: Sequence[int]) -> Iterator[float]:
        """For each plan with each seed, in this order, the mean trip in seconds by the session of the search; where
        vehicles give way, without a light by the gaps that were found under the given plan, and in estimates of the
        town at lights by the seconds that hide_as took."""
        function = vehicle_seconds if self.town.estimates else seconds_of_run
        for seconds in self.ordered(function, plans, seeds, self.giving, CAREFUL, self.hidden_lines):
            yield seconds / self.cars

    def live_trips(self, plans: Sequence[Plan], seeds: Sequence[int]) -> Iterator[HiddenShares]:
        """Takes into known_trips the mean trips of plans with each seed, where who gives way at lights does so by who
        comes; gives for each run for how long they were hidden."""
        runs = self.ordered(live_trial, plans, seeds, self.giving, CAREFUL)
        for (plan, seed), (seconds, shares) in zip(product(plans, seeds), runs):
            self.known_trips[key_of(plan), seed] = seconds / self.cars
            yield shares

    def live_means(self, plans: Sequence[Plan], seeds: Sequence[int]) -> list[float]:
        """The mean trips of plans over seeds, as live_trips has them; of runs that were made already none is made."""
        new_plans = [plan for plan in plans if any((key_of(plan), seed) not in self.known_trips for seed in seeds)]
        for _ in self.live_trips(new_plans, seeds):
            pass
        return [fmean(self.known_trips[key_of(plan), seed] for seed in seeds) for plan in plans]

    def hide_as(self, plan: Plan, seed: int) -> None:
        """Has estimates hide turns that give way at lights as they are under a plan in a run with a seed."""
        [shares] = self.live_trips([plan], [seed])
        self.hidden_lines = self.town.lines.hiding(shares)

    def outcomes(self, plans: Sequence[Plan], seeds: Sequence[int], jobs: int) -> list[list[Outcome]]:
        """For each plan and each seed, what the plan gives by the session of the report, with gaps found under it;
        shows on the terminal how many of the runs, so many side by side (jobs), are done."""
        shown, results = WorkProgress("runs by other seeds", len(plans) * len(seeds), abreast=jobs), []
        for outcome in self.ordered(outcome_giving_way, plans, seeds):
            results.append(outcome)
            shown.show(len(results))
        shown.end()
        return [results[begin : begin + len(seeds)] for begin in range(0, len(results), len(seeds))]

    def gaps_by_seed(self, seeds: Sequence[int]) -> list[Any]:
        """For each seed (signal lines, (clock, line), by which vehicles give way without a light under the given plan;
        at how many junctions and by how many lines)."""
        return list(self.ordered(gap_lines, [self.town.plan], seeds))

    def ordered(
        self,
        function: Function,
        plans: Iterable[Plan],
        seeds: Sequence[int],
        sessions: Mapping[int, int] = MappingProxyType({}),
        session: int = EXACT,
        lines: LightLines | None = None,
    ) -> Iterator[Any]:
        """What a function of a worker, of (session, signal lines of a plan as bytes, seed), gives for each plan with
        each seed, in this order. A seed is run by the session at sessions[seed], or at session where sessions does not
        have the seed; lines: that make the signal lines, None: the town's."""
        made, lights = lines or self.town.lines, self.town.lights
        return self.workers.ordered([
            (f"the run with seed {seed}", function, sessions.get(seed, session), made.signal_lines(plan, lights), seed)
            for plan in plans for seed in seeds
        ])  # fmt: skip


def sessions_of(town: SignalTown, seeds: Sequence[int], runner: Runner) -> tuple[list[PreparedRun], dict[int, int]]:
    """(the sessions that workers get: that of the report, that of the search, and where vehicles give way without a
    light one for each seed, with the gaps of the given plan; by seed the places of these). How many give way is said on
    standard error. runner: by whose runs, of the session of the report, these gaps are found."""
    session_of_seed: dict[int, int] = {}
    sessions = [town.session, town.careful]
    if town.session.giving is None:
        return sessions, session_of_seed
    for seed, (lines, yielding) in zip(seeds, runner.gaps_by_seed(seeds), strict=True):
        session_of_seed[seed] = len(sessions)
        sessions.append(for_search(town.careful, lines))
    if not yielding.junctions:
        return sessions, session_of_seed
    note = f"{yielding.junctions:,} junctions without a light give way by {yielding.lines:,} signal lines"
    print(f"{note} under the given plan; for the plan found these are made anew", file=sys.stderr)
    return sessions, session_of_seed
