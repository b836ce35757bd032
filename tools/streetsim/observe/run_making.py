"""Makes a run, and writes its folder: tables, setting.json, SUMO's output files and junction tables. Called by
streetsim-run, and by searches for the runs of the plan that they found."""
from __future__ import annotations

import contextlib
import json
import os
from collections import defaultdict
from collections.abc import Collection, Iterable, Iterator, Sequence
from dataclasses import asdict, dataclass, field, replace
from functools import partial
from heapq import merge
from operator import itemgetter
from statistics import fmean

from streetsim.base.client import Census
from streetsim.base.files import Json, whole_file
from streetsim.base.program import proof_note, program_digest
from streetsim.base.report import COLUMNS, first_few
from streetsim.control import works_figures
from streetsim.control.bus_fleet import StopOutcome
from streetsim.control.settings import Settings
from streetsim.control.steering import Steering
from streetsim.control.works_crowding import crowded_works, told_of_crowded
from streetsim.control.works_watched import doubts_of
from streetsim.kernel.loop import Kernel, Observer, SentLine
from streetsim.kernel.progress import ProgressReports, ReportProgress
from streetsim.kernel.serving import serving_program
from streetsim.model import tables, trust
from streetsim.model.doubts import Doubt, doubt_rows
from streetsim.model.folder import NAME, POLLS
from streetsim.model.knots import knots_of, rescues_in_knots
from streetsim.model.mapping import Map
from streetsim.model.names import Names, open_named, write_named
from streetsim.model.rows import NAME as ROWS
from streetsim.model.runs import Line, Run
from streetsim.model.stops import MISSED, OTHER_LANE, vehicle_classes_of
from streetsim.model.tables import Entry, write_table
from streetsim.observe.counts import Counts
from streetsim.observe.detectors import Detectors
from streetsim.observe.doubted_places import (
    doubts_of_import, doubts_of_rescues, doubts_of_streets, doubts_of_works_seen,
)
from streetsim.observe.giving_way_rounds import Yielding, giving_way, with_lines
from streetsim.observe.junctions import Junctions
from streetsim.observe.polls import Polls, RowsWriter
from streetsim.observe.queues import Queues, Summary
from streetsim.observe.sampling import samples_of
from streetsim.observe.segments import Segments
from streetsim.observe.trips import TripsTable, stop_rows
from streetsim.observe.works import WorksTable


POLL_EVERY_S = 10  # seconds between polls, where no others are asked for


def first_poll(every: int | None, start: int) -> int:
    """The clock at which lanes are polled first: the first multiple of `every` seconds after the start; the start where
    they are not polled (0 or none)."""
    return (start // every + 1) * every if every else start


@dataclass(frozen=True, slots=True)
class RunOptions:
    """How a run is made, and what is written of it beside its tables."""

    program: str
    rounds: int  # by which vehicles give way without a light
    workers: int = 1  # of the program
    kinds: Sequence[str] = ()  # of SUMO's output files
    # Seconds of the rows of the junction tables; 0: the period of the counts; none: no such tables.
    junctions: int | None = None
    polls: bool = False  # as text too
    along: Sequence[Sequence[str]] = ()  # routes, each by its edges, whose travel times are told
    again: Json = field(default_factory=dict)  # by what it is made again, as kept.remake_setting has it
    keep: str | None = None  # the file in which the session of the program is kept
    listed: Json = field(default_factory=dict)  # of drawn departures, as listed_in_map has it


@dataclass(frozen=True, slots=True)
class Figures:
    """What a run gave, in a few numbers and words."""

    vehicles: int
    arrived: int
    mean_trip_s: float | None  # none where nobody arrived
    rescues: int
    notes: list[str]  # sentences for the terminal, on what is not as asked for or not in the tables
    summary: str  # what its last line says
    doubts: list[str]  # why it is not to be trusted
    places: list[Doubt]  # and where
    last_line: str  # both in words
    by_class: str = ""  # of a run with stops or priority, the trips of each class of vehicles


class RunTables:
    """The observers of a run that make its tables, and the tables that they make."""

    def __init__(self, options: RunOptions, run: Run, mapping: Map, settings: Settings, steering: Steering) -> None:
        """options, settings: what is asked for; steering: of the same run."""
        self.run, self.mapping, self.settings, self.steering = run, mapping, settings, steering
        every = POLL_EVERY_S if settings.every is None else settings.every
        edges = set(settings.edges)
        lanes = mapping.lanes()
        self.polled = [lane_key for lane_key in lanes if mapping.links[lane_key[0]].edge in edges] if edges else None
        rich = every if self.polled is None or len(self.polled) == len(lanes) else 0
        samples = samples_of(run.start(), settings.period, rich)
        self.every, self.trips, self.counts = every, TripsTable(), Counts(settings.period, samples)
        self.queues = Queues(every, self.polled)
        self.summary = Summary(self.trips, steering.ending.looks)
        self.segments, self.along = Segments(), options.along
        self.detectors, self.works = Detectors(samples), WorksTable(steering.closures, every)
        self.junctions = None if options.junctions is None else Junctions(options.junctions or settings.period)

    def observers(self, options: RunOptions, folder: str, files: contextlib.ExitStack) -> Iterator[Observer]:
        """All of them; folder: of the run, in which files are opened as blocks of `files`."""
        yield from (self.trips, self.counts, self.queues, self.summary, self.segments, self.detectors, self.works)
        if self.junctions is not None:
            yield self.junctions
        if self.every:
            yield RowsWriter(files.enter_context(open(f"{folder}/{ROWS}", "wb")), self.polled)
        if self.every and options.polls:
            yield Polls(files.enter_context(whole_file(f"{folder}/{POLLS}")), self.every, self.polled)
        if options.kinds:
            yield self.sumo_files(options.kinds, folder, files)

    def sumo_files(self, kinds: Iterable[str], folder: str, blocks: contextlib.ExitStack) -> Observer:
        """What writes SUMO's output files of some kinds to a new folder sumo in the run's, opened as a block of
        `blocks`."""
        from streetsim.observe.sumo_files import SumoFiles
        from streetsim.observe.sumo_kinds import OutputFile
        from streetsim.observe.sumo_writing import Outputs

        os.mkdir(f"{folder}/sumo")
        details, period = frozenset({"vehroute-output.exit-times"}), self.settings.period
        files = [OutputFile(kind, f"{folder}/sumo/{kind}.xml", details, period=period) for kind in kinds]
        dawdle, rescued = self.run.load.command["dawdle"] / 1000, self.steering.rescue.clocks
        outputs = Outputs(files, self.mapping, dawdle, period, self.run.start(), rescued)
        return SumoFiles(blocks.enter_context(outputs), self.steering.buses)

    def write(self, folder: str, trips: Collection[Entry], clock: int) -> None:
        """Writes the tables, but for those of junctions, to the folder of a run; those of phases, stops and works where
        there were any. trips: rows of trips.csv; clock: at the end."""
        run, mapping, names = self.run, self.mapping, Names(self.mapping)
        write_named(f"{folder}/counts.csv", tables.COUNTS, self.counts.count_rows(), names)
        write_table(f"{folder}/trips.csv", tables.TRIPS, trips)
        write_named(f"{folder}/edges.csv", tables.EDGES, self.counts.edge_rows(), names)
        write_table(f"{folder}/detectors.csv", tables.LOOPS, self.detectors.loop_rows())
        write_table(f"{folder}/areas.csv", tables.AREAS, self.detectors.area_rows())
        with open_named(f"{folder}/queues.csv", tables.QUEUES, names) as table:
            if before_works := list(self.works.queue_rows()):
                rows: Iterable[Entry] = merge(self.queues.rows(), before_works, key=itemgetter(0))
                table.write_rows(rows)
            else:
                for columns in self.queues.columns():
                    table.write_columns(columns)
        write_table(f"{folder}/summary.csv", tables.SUMMARY, map(summary_row, self.summary.censuses()))
        of_segments = self.segments.segment_rows(self.settings.period)
        write_named(f"{folder}/segments.csv", tables.SEGMENTS, of_segments, names)
        if self.along:
            of_routes = self.segments.route_rows(self.along, self.settings.period)
            write_table(f"{folder}/{tables.ROUTES_FILE}", tables.ROUTES, of_routes)
        write_table(f"{folder}/warnings.csv", COLUMNS, mapping.warning_rows)
        if phases := self.steering.phases(clock):
            write_table(f"{folder}/{tables.PHASES_FILE}", tables.PHASES, phases)
        if stops := self.steering.stops():
            write_named(f"{folder}/{tables.STOPS_FILE}", tables.STOPS, stop_rows(stops, run, mapping), names)
        if watched := self.works.watched:
            rows = works_figures.works_rows(watched, mapping, run.start(), self.settings.period)
            write_named(f"{folder}/{tables.WORKS_FILE}", tables.WORKS, rows, names)


def make_run(
    options: RunOptions, run: Run, mapping: Map, settings: Settings, folder: str, report_progress: ReportProgress
) -> Figures:
    """Makes one run, after the rounds by which its vehicles give way, writes all that was asked for into a folder that
    is there, and gives its figures. report_progress: gets the clock and a count while it goes. Fault where the program
    refuses a command, or a file cannot be written."""
    given_run, start_program = run, partial(serving_program, options.program, run.path, options.workers)
    run, yielding = giving_way(run, mapping, settings, options.rounds, start_program, report_progress)
    steering = Steering(run, mapping, settings)
    run_tables = RunTables(options, run, mapping, settings, steering)
    with contextlib.ExitStack() as files:
        observers = [*run_tables.observers(options, folder, files), ProgressReports(report_progress)]
        program = files.enter_context(start_program(keep=options.keep))
        kernel = Kernel(program, run, mapping, steering.controllers, observers)
        kernel.go(settings.until)
    return figures_of(options, given_run, yielding, run_tables, kernel, folder)


def figures_of(
    options: RunOptions, given_run: Run, yielding: Yielding, run_tables: RunTables, kernel: Kernel, folder: str
) -> Figures:
    """Writes the tables and the setting of a run that was made to its folder, and gives its figures. given_run: the run
    without the signals by which its vehicles give way, as yielding tells. Fault where a file cannot be written."""
    run, mapping, settings, steering = run_tables.run, run_tables.mapping, run_tables.settings, run_tables.steering
    stops, clock = steering.stops(), kernel.clock
    notes = [*settings.lights.notes(), *settings.buses.notes(), *stop_notes(stops, mapping)]
    notes += run_notes(run_tables, clock)
    listed = settings.lights.listed_lights(mapping)
    crowded = crowded_works(run, mapping, steering.closures)
    full, nearly_full = steering.yielding.full_passages()
    yielding.crowded = {**yielding.crowded, **nearly_full}
    places = [*doubts_of_places(run_tables, yielding, listed), *crowded]
    beyond: list[str] = []
    if run_tables.junctions is not None:
        more, beyond, of_rows = run_tables.junctions.write(folder, stops, places)
        notes, places = [*notes, *more], of_rows
    trips = run_tables.trips.rows(steering.rescue.count, stops)
    run_tables.write(folder, trips, clock)
    driven, rescues = trust.trips_at(clock, run.start(), trips), steering.rescue.count.total()
    knots = knots_of(steering.rescue.rescued, mapping)
    censuses = list(run_tables.summary.censuses())
    doubts = [
        *trust.doubts(driven, (rescues, knots), censuses, run, mapping, listed),
        *trust.crowding_doubts(driven.vehicles, yielding.crowded),
        *trust.gap_doubts(driven.vehicles, full),
        *beyond,
        *doubts_of(run_tables.works.watched, mapping),
        *told_of_crowded(crowded),
    ]
    given_run = with_lines(given_run, list(lit_lines(kernel.sent_lines, mapping)))
    write_setting(options, given_run, run_tables, yielding, (doubts, places), folder, clock)
    rescued = f"{rescues:,} rescues{rescues_in_knots(knots)}"
    parts = driven.in_words(), rescued, yielding.summary(), steering.ending.end_reason
    return Figures(
        vehicles=driven.vehicles,
        arrived=len(driven.durations),
        mean_trip_s=fmean(driven.durations) if driven.durations else None,
        rescues=rescues,
        notes=notes,
        summary=", ".join(filter(None, parts)),
        doubts=doubts,
        places=places,
        last_line=trust.last_line(doubts, places, mapping),
        by_class=class_trips_line(trips, mapping) if settings.buses.visits or settings.buses.lights_ahead else "",
    )


def doubts_of_places(run_tables: RunTables, yielding: Yielding, listed: Sequence[str]) -> Iterator[Doubt]:
    """The doubts of a run with their places, but for those of its junction tables and of who comes to works. listed:
    lights that SUMO times by detectors and that show their listed seconds."""
    mapping = run_tables.mapping
    yield from doubts_of_import(mapping)
    yield from doubts_of_streets(mapping, yielding.crowded, listed)
    yield from doubts_of_rescues(run_tables.steering.rescue.rescued, mapping)
    yield from doubts_of_works_seen(run_tables.works.watched, mapping)


def summary_row(census: Census) -> Entry:
    """The row of summary.csv of a count."""
    return census.clock, census.admitted, census.waiting, census.cells, census.buffers, census.arrived, census.taken


def class_trips_line(trips: Collection[Entry], mapping: Map) -> str:
    """How many of each vehicle class arrived and their mean trip, as one line; empty where all vehicles are of one.
    trips: rows of trips.csv, in the order of the vehicles' numbers."""
    durations: defaultdict[str, list[int | None]] = defaultdict(list)
    for vclass, (_, _, arrival, duration, *_) in zip(vehicle_classes_of(mapping.kinds, len(trips)), trips, strict=True):
        durations[vclass].append(duration if arrival != "" else None)
    texts = []
    for vclass, class_durations in sorted(durations.items()):
        arrived = [seconds for seconds in class_durations if seconds is not None]
        mean = f", mean trip {fmean(arrived):.1f} s" if arrived else ""
        texts.append(f"{vclass}: {len(arrived):,} of {len(class_durations):,} arrived{mean}")
    return "; ".join(texts) if len(texts) > 1 else ""


def lit_lines(sent: Iterable[SentLine], mapping: Map) -> Iterator[tuple[int, Line]]:
    """Of the lines that a run sent, as (clock, line), those with the signal plans that the tools made for nodes with a
    light; the setting tells them as signals of the run."""
    lit = {node for _, node in mapping.signals}
    for clock, line, _, for_a_gap in sent:
        if line.number < 0 and not for_a_gap and line.command["cmd"] == "signal" and line.command["node"] in lit:
            yield clock, line


def run_notes(run_tables: RunTables, clock: int) -> Iterator[str]:
    """What was not polled or not sent, a sentence each, for the terminal; clock: at the end."""
    if (first := first_poll(run_tables.every, run_tables.run.start())) > clock:
        yield f"lanes were never polled: the run ended at {clock:,} s, and the first poll is at {first:,} s"
    if unsent := run_tables.steering.timed.unsent():
        yield f"{unsent:,} lines were not sent, as their clock is after --until"


def stop_notes(stops: Sequence[StopOutcome], mapping: Map) -> Iterator[str]:
    """Sentences on how many stops were made on the lane beside, or passed without one, and which; nothing where none
    were."""
    for state, text in ((OTHER_LANE, "were made on the lane beside"), (MISSED, "were passed: no lane had room")):
        names = [f"{mapping.cars[stop.visit.vehicle]} at {stop.visit.stop}" for stop in stops if stop.state == state]
        if names:
            yield f"{len(names):,} of {len(stops):,} stops {text}: {first_few(names)}"


def write_setting(
    options: RunOptions, given_run: Run, run_tables: RunTables, yielding: Yielding,
    doubts: tuple[Sequence[str], Sequence[Doubt]], folder: str, clock: int,
) -> None:
    """Writes setting.json: what a run was made of. given_run: the run without the signals by which its vehicles give
    way; doubts: why it is not to be trusted, and those with places; clock: at the end."""
    command, settings = given_run.load.command, run_tables.settings
    made_of = {"run": os.path.basename(given_run.path), "seed": command.get("seed", 0), "start": given_run.start()}
    made_of.update(until=clock, rescue=settings.rescue, vehicles=len(given_run.enters))
    made_of.update(program=program_digest(options.program), **proof_note(options.program), **options.again)
    content = {
        "map": replace(run_tables.mapping, timings=[]).written(),  # which lights.json has
        "signals": given_run.signals(),
        "dawdle": command["dawdle"],
        "every": run_tables.every,
        "period": settings.period,
        "yielding": {**asdict(yielding), "lit_lines": run_tables.steering.yielding.line_count},
        "not_trusted": doubts[0],
        "doubts": doubt_rows(doubts[1]),
        "made": made_of,
        **({"listed": options.listed} if options.listed else {}),
    }
    with whole_file(f"{folder}/{NAME}") as file:
        file.write(json.dumps(content, separators=(",", ":")))
