"""Imports and runs the street with the drivers of one trial, and measures the run as the field is measured. The fit and
the criteria of streetsim-calibrate ask it."""
from __future__ import annotations

import json
from collections import defaultdict
from collections.abc import Iterable, Iterator, Mapping, Sequence
from dataclasses import dataclass, replace
from functools import partial

from streetsim.base.arrays import Array
from streetsim.base.arrays import numpy as np
from streetsim.base.files import Json
from streetsim.base.report import Report
from streetsim.control.actuated_lights import NONE_DRIVEN, driven_lights
from streetsim.control.bus_planned import planned
from streetsim.control.settings import Settings
from streetsim.control.steering import Steering
from streetsim.demand.calibration_field import TRIP, FieldDay
from streetsim.kernel.loop import Kernel
from streetsim.kernel.serving import serving_program
from streetsim.model.mapping import Map
from streetsim.model.runs import Run, run_of_texts, with_load
from streetsim.model.sources import Sources
from streetsim.observe.giving_way_rounds import giving_way
from streetsim.observe.queues import Queues
from streetsim.observe.segments import SegmentEnds, Segments
from streetsim.observe.trips import TripsTable
from streetsim.sumo.converting import run_and_map
from streetsim.sumo.driver_words import ALL_STREETS
from streetsim.sumo.import_files import convert
from streetsim.sumo.network import Options

EVERY = 5  # seconds between looks at queues
CYCLE = 90  # seconds, of a light that is not known
FIRST_QUEUE = 60  # seconds of a run before which no cycle counts


@dataclass(frozen=True, slots=True)
class FittedDrivers:
    """The values that a calibration finds."""

    dawdle: float = 0.17  # chance of slowing down
    cut: float = 0.0  # seconds of each green
    speeds: tuple[tuple[str, float], ...] = ((ALL_STREETS, 1.0),)  # factors by class of street

    def options(self, options: Options) -> Options:
        """The options of an import with them; factors of 1 are left out."""
        speeds = tuple((name, factor) for name, factor in self.speeds if name or factor != 1.0)
        return replace(options, dawdle=round(1000 * self.dawdle), cut=self.cut, speeds=speeds)

    def written(self) -> Json:
        """As the file of --drivers has them."""
        speeds = {name: round(factor, 3) for name, factor in self.speeds}
        return {"dawdle": round(1000 * self.dawdle), "cut": round(self.cut, 2), "speeds": speeds}


@dataclass(slots=True)
class MeasuredRun:
    """What a run gave, measured as the field is."""

    # By way: seconds of all vehicles, their squares, vehicles; over all periods.
    times: dict[tuple[str, ...], tuple[float, float, int]]
    counts: dict[tuple[str, ...], int]  # by edges, of the window
    queues: dict[str, tuple[float, float]]  # by edge: mean over cycles of the longest, the longest; m
    mean_trip: float  # seconds, of who departed in the window and arrived
    vehicles: int


@dataclass(frozen=True, slots=True)
class StreetRuns:
    """How runs of a day are made. sources: of the import; window: seconds that are measured, (begin, end)."""

    program: str
    sources: Sources
    options: Options
    rounds: int
    window: tuple[int, int]
    ways: tuple[tuple[str, ...], ...]  # that are measured

    def imported(self, drivers: FittedDrivers) -> tuple[Run, Map]:
        """The run and map with some drivers."""
        report, options = Report(), drivers.options(self.options)
        sources = self.sources
        lines, mapping = run_and_map(
            convert(sources.net, sources.additional, sources.routes, options, report, sources.trips), report
        )
        return run_of_texts(sources.net, lines), mapping

    def measured(self, task: tuple[FittedDrivers, int], progress: object = None) -> MeasuredRun:
        """What a run with (drivers, seed) gives."""
        run, mapping = self.imported(task[0])
        run = with_load(run, seed=task[1])
        lights = driven_lights(run, mapping) if mapping.actuated else NONE_DRIVEN
        settings = Settings(self.window[1], every=0, lights=lights, buses=planned(run, mapping))
        start = partial(serving_program, self.program, run.path)
        run, _ = giving_way(run, mapping, settings, self.rounds, start, lambda *_: None)
        segments, trips, queues = Segments(), TripsTable(), Queues(EVERY)
        steering = Steering(run, mapping, settings)
        with start() as program:
            Kernel(program, run, mapping, steering.controllers, [trips, segments, queues]).go(settings.until)
        return self.measures(run, mapping, segments, trips, queues)

    def measures(self, run: Run, mapping: Map, segments: Segments, trips: TripsTable, queues: Queues) -> MeasuredRun:
        """What observers of a run saw, as the field is measured."""
        ends, number = segments.ends(), {edge: index for index, edge in enumerate(mapping.links_of)}
        departs = np.array([line.command["depart"] for line in run.enters], np.int64)
        begin, end = self.window
        has_arrived = trips.arrival > 0
        judged = has_arrived & (departs >= begin)
        mean = float((trips.arrival - departs)[judged].mean()) if judged.any() else 0.0
        times = dict(times_by_way(ends, number, self.ways, self.window))
        times |= dict(trip_times(run, mapping, trips.arrival, departs, self.ways, self.window))
        queue_lengths = dict(longest_queues(queues, run, mapping, self.window))
        return MeasuredRun(times, turn_counts(ends, list(number), self.window), queue_lengths, mean, int(judged.sum()))


def sums_of(seconds: Array) -> tuple[float, float, int]:
    """(sum, sum of squares, number) of seconds."""
    return float(seconds.sum()), float((seconds.astype(float) ** 2).sum()), len(seconds)


def times_by_way(
    ends: SegmentEnds, number: Mapping[str, int], ways: Iterable[Sequence[str]], window: tuple[int, int]
) -> Iterator[tuple[tuple[str, ...], tuple[float, float, int]]]:
    """By way that somebody drove (way, as of sums_of): from the stop line of its first edge to that of its last, of
    those who pass that in the window; trips are left out."""
    for way in ways:
        if way[0] == TRIP:
            continue
        last_row = np.arange(len(way) - 1, len(ends.owner))
        first_row = last_row - (len(way) - 1)
        fits = (ends.clock[last_row] >= window[0]) & (ends.clock[last_row] < window[1])
        fits &= ends.owner[first_row] == ends.owner[last_row]
        for step, edge in enumerate(way):
            fits &= ends.edge[first_row + step] == number[edge]
        if fits.any():
            yield tuple(way), sums_of((ends.clock[last_row] - ends.clock[first_row])[fits])


def trip_times(
    run: Run, mapping: Map, arrival: Array, departs: Array, ways: Iterable[Sequence[str]], window: tuple[int, int]
) -> Iterator[tuple[tuple[str, ...], tuple[float, float, int]]]:
    """By trip, from an edge to another, that somebody made ((TRIP, edge, edge), as of sums_of), of those who arrived
    in the window."""
    trip_keys = {tuple(way) for way in ways if way[0] == TRIP}
    seconds_by_trip: defaultdict[tuple[str, ...], list[int]] = defaultdict(list)
    for vehicle in np.flatnonzero((arrival >= window[0]) & (arrival < window[1]) & (arrival > 0)).tolist():
        plan = run.enters[vehicle].command["plan"]
        key = (TRIP, mapping.links[plan[0]].edge, mapping.links[plan[-1]].edge)
        if key in trip_keys:
            seconds_by_trip[key].append(int(arrival[vehicle] - departs[vehicle]))
    yield from ((key, sums_of(np.array(seconds))) for key, seconds in seconds_by_trip.items())


def turn_counts(ends: SegmentEnds, edges: Sequence[str], window: tuple[int, int]) -> dict[tuple[str, ...], int]:
    """Vehicles that passed the stop line of an edge in the window, by edge (one name), and by edge and the next one."""
    inside = (ends.clock >= window[0]) & (ends.clock < window[1]) & (ends.edge >= 0)
    counts: dict[tuple[str, ...], int] = {}
    for edge, count in enumerate(np.bincount(ends.edge[inside], minlength=len(edges)).tolist()):
        counts[edges[edge],] = count
    rows = np.flatnonzero(inside[:-1] & (ends.owner[1:] == ends.owner[:-1]) & (ends.edge[1:] >= 0))
    pairs = ends.edge[rows].astype(np.int64) * len(edges) + ends.edge[rows + 1]
    for pair, count in zip(*(values.tolist() for values in np.unique(pairs, return_counts=True)), strict=True):
        counts[edges[pair // len(edges)], edges[pair % len(edges)]] = count
    return counts


def longest_queues(
    queues: Queues, run: Run, mapping: Map, window: tuple[int, int]
) -> Iterator[tuple[str, tuple[float, float]]]:
    """By edge (edge, (mean over the cycles of its light of the longest queue of a lane, the longest)), m."""
    cycles = {command["node"]: sum(phase[0] for phase in command["phases"]) for _, command in run.signals()}
    longest: defaultdict[str, dict[int, float]] = defaultdict(dict)
    nodes = {edge: mapping.links[links[0]].end for edge, links in mapping.links_of.items()}
    cycle_of = {edge: max(1, cycles.get(node, CYCLE)) for edge, node in nodes.items()}
    for clock, edge, _, _, metres, *_ in queues.rows():
        if window[0] <= clock < window[1]:
            by_cycle, cycle = longest[edge], int(clock // cycle_of[edge])
            by_cycle[cycle] = max(by_cycle.get(cycle, 0.0), metres)
    for edge, by_cycle in longest.items():
        count = max(1.0, (window[1] - window[0]) / cycle_of[edge])
        yield edge, (sum(by_cycle.values()) / count, max(by_cycle.values()))


def pooled_runs(runs: Iterable[MeasuredRun]) -> dict[tuple[str, ...], tuple[float, float, int]]:
    """By way (mean, standard deviation of one vehicle, vehicles) over runs."""
    sums: dict[tuple[str, ...], Array] = {}
    for run in runs:
        for key, values in run.times.items():
            sums[key] = sums.get(key, 0) + np.array(values)
    return {
        key: (total / count, float(np.sqrt(max(0.0, square / count - (total / count) ** 2))), int(count))
        for key, (total, square, count) in sums.items()
    }


def ways_of(day: FieldDay) -> tuple[tuple[str, ...], ...]:
    """The ways of a day's times."""
    return tuple(sorted({time.key for time in day.times}))
