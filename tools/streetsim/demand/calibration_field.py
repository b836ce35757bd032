"""Reads what a planner measured on a day: tables of travel times (also SUMO's tripinfo and vehroute), saturation
surveys, queues and counts, in the column names of usual files. Fault, one line, for what cannot be read."""
from __future__ import annotations

import csv
import io
from collections import defaultdict
from collections.abc import Callable, Collection, Iterable, Iterator, Mapping, Sequence
from dataclasses import dataclass, field
from math import sqrt
from pathlib import Path
from statistics import fmean

from streetsim.base.files import Fault, FilePath, attribute, elements, number, open_text, optional, reading, seconds
from streetsim.demand.calibration_survey import SurveyedLane
from streetsim.demand.cells import TableRow, begins_with, clock_of, name_of, vehicle_number, values_in
from streetsim.demand.reading import COLUMNS as COUNT_COLUMNS

QUARTER = 900  # seconds of a period that a file does not end
TRIP = "trip from and to"  # before the edges of a trip, where ways have names; no edge is called so
TIME = ("time", "begin", "start", "from_time", "timestamp", "interval", "interval_begin")
ENDS = ("end", "until", "to_time", "interval_end")
SEGMENT = ("segment", "route", "section", "path")
FROM = ("from", "from_edge", "origin", "start_reader", "reader_from", "from_reader")
TO_EDGE = ("to", "to_edge", "destination", "end_reader", "reader_to", "to_reader", "next_edge")
MEAN = ("mean", "mean_s", "travel_time", "travel_time_s", "tt", "tt_s", "seconds", "duration", "duration_s")
MINUTES = ("mean_min", "travel_time_min", "tt_min", "minutes", "duration_min")
DEVIATION = ("sd", "sd_s", "std", "stdev", "std_dev")
NUMBER = ("n", "matches", "samples", "count", "vehicles", "trips")
EDGE = ("edge", "link", "detector", "station", "from", "from_edge")
COUNT = ("count", "vehicles", "volume", "veh", "n", "q_veh")
HOURLY = ("flow", "vehicles_per_hour", "veh_per_hour", "veh/h", "vph", "q")
SUMO_COUNTS = ("meandata", "data", "edgeRelations", "turns", "edgeData")


@dataclass(frozen=True, slots=True)
class TravelTime:
    """What a quarter of an hour (or another period) saw of a way: from the stop line of its first edge to that of its
    last, by the clock there; of a trip, from the wish to depart on its first edge to the arrival on its last."""

    edges: tuple[str, ...]
    begin: int  # seconds
    end: int
    mean: float  # seconds
    deviation: float  # of one vehicle, seconds; 0: not known
    vehicles: int
    is_trip: bool = False

    @property
    def key(self) -> tuple[str, ...]:
        """By what it is pooled with those of other periods."""
        return (TRIP, *self.edges) if self.is_trip else self.edges


@dataclass(frozen=True, slots=True)
class FieldQueue:
    """Queues of an edge: the mean over cycles of the longest (m), and the longest of all."""

    edge: str
    mean: float
    longest: float


@dataclass(slots=True)
class FieldDay:
    """All that was measured on a day. counts: paths; notes: how files were read."""

    counts: list[str]
    times: list[TravelTime]
    lanes: list[SurveyedLane] = field(default_factory=list)
    queues: list[FieldQueue] = field(default_factory=list)
    notes: list[str] = field(default_factory=list)

    def window(self) -> tuple[int, int]:
        """The (begin, end) of the times, in seconds."""
        return min(time.begin for time in self.times), max(time.end for time in self.times)


def read_times(paths: Iterable[str], notes: list[str]) -> list[TravelTime]:
    """The travel times of files: tables, and SUMO's tripinfo and vehroute output (with exit times). notes: gets how
    columns were read."""
    travel_times: list[TravelTime] = []
    for path in paths:
        if begins_with(path, "<"):
            file_times = list(grouped(records_of_sumo(path)))
        else:
            file_times = times_of_table(path, notes)
        if not file_times:
            raise Fault(f"{path}: no travel time is in it")
        travel_times += file_times
    return travel_times


class Columns:
    """The columns of a table by what they are, whichever way they are spelt."""

    def __init__(self, path: FilePath) -> None:
        """Reads a table; Fault where it has no rows, or one is shorter or longer than the first."""
        self.path = path
        with reading(path), open_text(path) as file:
            rows = list(values_in(path, file))
        if not rows:
            raise Fault(f"{path}: nothing is in it")
        self.names = [name.strip().lower().replace(" ", "_") for name in rows[0][1]]
        if len(set(self.names)) < len(self.names):
            raise Fault(f"{path}: a column twice")
        for line, values in rows[1:]:
            if len(values) != len(self.names):
                fault = f"{len(values)} values, and the first line has {len(self.names)} columns"
                raise Fault(f"{path}: line {line}: {fault}")
        self.rows = [TableRow(path, line, dict(zip(self.names, values, strict=True))) for line, values in rows[1:]]

    def find(self, *spellings: Sequence[str]) -> str | None:
        """The first column that is there, of some spellings; none where no one is."""
        return next((name for some in spellings for name in some if name in self.names), None)

    def need(self, quantity: str, *spellings: Sequence[str]) -> str:
        """As find; Fault where there is none; quantity: what it holds."""
        if (column := self.find(*spellings)) is None:
            examples = ", ".join(name for spelling in spellings for name in spelling[:3])
            raise Fault(f"{self.path}: no column of {quantity} (as {examples}); it has {','.join(self.names)}")
        return column


def times_of_table(path: str, notes: list[str]) -> list[TravelTime]:
    """The travel times of a table: means of periods where it says how many vehicles, else of single vehicles, whose
    time is that at the end of the way."""
    table = Columns(path)
    time, mean = table.need("time", TIME), table.need("travel time", MEAN, MINUTES)
    edges_in = way_of(table)
    scale = 60.0 if mean in MINUTES else 1.0
    deviation, count, ends = table.find(DEVIATION), table.find(NUMBER), table.find(ENDS)
    unit = "minutes" if scale > 1 else "seconds"
    notes.append(f"{path}: {mean} in {unit}, {f'of {count} vehicles' if count else 'of single vehicles'}")
    if count is None:
        ends_and_means = ((row, row.get(time, clock_of), scale * row.get(mean, positive)) for row in table.rows)
        return list(grouped((edges_in(row), end, seconds, False) for row, end, seconds in ends_and_means))
    period = period_in([row.get(time, clock_of) for row in table.rows])
    travel_times = []
    for row in table.rows:
        begin = row.get(time, clock_of)
        end = row.get(ends, clock_of) if ends else begin + period
        if end <= begin:
            raise Fault(f"{row.location}: the period ends at {end:,} s, and begins at {begin:,} s")
        spread = scale * row.get(deviation, not_negative) if deviation else 0.0
        vehicles = row.get(count, whole_number)
        if vehicles:
            seconds = scale * row.get(mean, positive)
            travel_times.append(TravelTime(edges_in(row), begin, end, seconds, spread, vehicles))
    return travel_times


def way_of(table: Columns) -> Callable[[TableRow], tuple[str, ...]]:
    """What gives the edges of a row: of a column as a>b, or of two columns."""
    if (column := table.find(SEGMENT)) is not None:
        named: str = column
        return lambda row: row.get(named, edges_of)
    source, target = table.need("a segment", SEGMENT, FROM), table.need("a segment", TO_EDGE)
    return lambda row: (row.get(source, name_of), row.get(target, name_of))


def edges_of(text: str) -> tuple[str, ...]:
    """The edges of a>b, two or more; ValueError otherwise."""
    edges = tuple(part.strip() for part in text.split(">"))
    if len(edges) < 2 or not all(edges):
        raise ValueError("is no segment as EDGE>EDGE, or route with > between its edges")
    return edges


def positive(text: str) -> float:
    """A number above 0; ValueError otherwise."""
    value = number(text)
    if value <= 0:
        raise ValueError("is not above 0")
    return value


def not_negative(text: str) -> float:
    """A number from 0 on; 0 where the text is empty; ValueError otherwise."""
    value = number(text) if text else 0.0
    if value < 0:
        raise ValueError("is below 0")
    return value


def whole_number(text: str) -> int:
    """A whole number from 0 on; ValueError otherwise."""
    value = number(text)
    if value < 0 or value != int(value):
        raise ValueError("is no whole number from 0 on")
    return int(value)


def period_in(times: Iterable[int]) -> int:
    """The seconds of the periods of a table: the least between its times, QUARTER where it has one alone."""
    clocks = sorted({*times})
    return min((later - sooner for sooner, later in zip(clocks, clocks[1:])), default=QUARTER)


Single = tuple[tuple[str, ...], float, float, bool]  # edges, clock at the end, seconds, whether it is a trip


def grouped(singles: Iterable[Single]) -> Iterator[TravelTime]:
    """The travel times of single vehicles, by quarters of an hour."""
    durations_of: defaultdict[tuple[tuple[str, ...], bool, int], list[float]] = defaultdict(list)
    for edges, clock, duration, is_trip in singles:
        durations_of[edges, is_trip, int(clock // QUARTER)].append(duration)
    for (edges, is_trip, quarter), durations in sorted(durations_of.items()):
        mean = fmean(durations)
        squares = sum((value - mean) ** 2 for value in durations)
        spread = sqrt(squares / (len(durations) - 1)) if len(durations) > 1 else 0.0
        yield TravelTime(edges, QUARTER * quarter, QUARTER * (quarter + 1), mean, spread, len(durations), is_trip)


def records_of_sumo(path: str) -> Iterator[Single]:
    """The single vehicles of SUMO's tripinfo, as trips, or of its vehroute output with exit times, as segments."""
    for element in elements(path, ["tripinfos", "routes"]):
        if element.tag == "tripinfo":
            if (arrival := attribute(path, element, "arrival", seconds)) >= 0:
                delay = optional(path, element, "departDelay", seconds, 0.0)
                ends = (attribute(path, element, name).rpartition("_")[0] for name in ("departLane", "arrivalLane"))
                yield tuple(ends), arrival, arrival - attribute(path, element, "depart", seconds) + delay, True
        elif element.tag == "vehicle" and (route := element.find("route")) is not None:
            edges = attribute(path, route, "edges").split()
            clocks = [seconds(text) for text in attribute(path, route, "exitTimes").split()]
            for pair, (sooner, later) in zip(zip(edges, edges[1:]), zip(clocks, clocks[1:])):
                if later > sooner > 0:
                    yield pair, later, later - sooner, False


def read_lanes(path: str, limits_of: Mapping[str, int]) -> list[SurveyedLane]:
    """The lanes of a survey: street, flow, vehicles_per_green, green, greens. limits_of: cells a step by edge, of
    streets that are edges."""
    table = Columns(path)
    street, flow = table.need("a street", ("street", "edge", "lane")), table.need("a flow", ("flow", "saturation_flow"))
    full = table.need("vehicles a green", ("vehicles_per_green", "veh_per_green"))
    green, greens = table.need("seconds of green", ("green", "green_s")), table.need("greens", ("greens", "cycles"))
    lanes = []
    for row in table.rows:
        name = row.get(street, name_of)
        lane = SurveyedLane(
            name, row.get(flow, positive), row.get(full, positive), row.get(green, positive),
            row.get(greens, whole_number),
            limits_of.get(name, 2),
        )
        if not 300 <= lane.flow <= 3600:
            raise Fault(f"{row.location}: a lane has no saturation flow of {lane.flow:g} vehicles an hour")
        if lane.per_green > lane.green:
            raise Fault(f"{row.location}: {lane.per_green:g} vehicles in a green of {lane.green:g} s")
        lanes.append(lane)
    if not lanes:
        raise Fault(f"{path}: no lane is in it")
    return lanes


def read_queues(path: str) -> list[FieldQueue]:
    """The queues of a table: edge, mean_of_cycles, max (m)."""
    table = Columns(path)
    edge, mean = table.need("an edge", ("edge", "link")), table.need("a mean", ("mean_of_cycles", "mean", "mean_m"))
    most = table.find(("max", "max_m", "longest"))
    queues = []
    for row in table.rows:
        longest = row.get(most, not_negative) if most else 0.0
        queues.append(FieldQueue(row.get(edge, name_of), row.get(mean, not_negative), longest))
    return queues


def counts_as_demand(paths: Iterable[str], folder: str, notes: list[str]) -> list[str]:
    """Paths of counts as streetsim-demand reads them: files of its own columns, and SUMO's, as they are; tables in
    other spellings anew, in a folder. notes: gets how columns were read."""
    demand_paths = []
    for index, path in enumerate(paths):
        if begins_with(path, "<"):
            demand_paths.append(path)
            continue
        table = Columns(path)
        if {*COUNT_COLUMNS} <= {*table.names}:
            demand_paths.append(path)
        else:
            table_path = Path(folder) / f"counts-{index}.csv"
            table_path.write_text(rewritten_counts(table, notes), encoding="utf-8")
            demand_paths.append(str(table_path))
    return demand_paths


def rewritten_counts(table: Columns, notes: list[str]) -> str:
    """A table of counts as text, with the columns of streetsim-demand."""
    time, edge, ends = table.need("time", TIME), table.need("an edge", EDGE), table.find(ENDS)
    to_column, count = table.find(TO_EDGE), table.need("a count", COUNT, HOURLY)
    hourly = count in HOURLY
    notes.append(f"{table.path}: {count} as vehicles {'an hour' if hourly else 'of a period'}")
    period = period_in([row.get(time, clock_of) for row in table.rows])
    text = io.StringIO()
    write = csv.writer(text, lineterminator="\n").writerow
    write(COUNT_COLUMNS)
    for row in table.rows:
        begin = row.get(time, clock_of)
        end = row.get(ends, clock_of) if ends else begin + period
        if end <= begin:
            raise Fault(f"{row.location}: the period ends at {end:,} s, and begins at {begin:,} s")
        vehicles = row.get(count, vehicle_number) * ((end - begin) / 3600 if hourly else 1)
        write([begin, end, row.get(edge, name_of), row.text(to_column) if to_column else "", f"{vehicles:g}"])
    return text.getvalue()


def pooled(times: Iterable[TravelTime]) -> dict[tuple[str, ...], tuple[float, float, int]]:
    """By way (mean, standard deviation of one vehicle, vehicles) over all periods."""
    groups: defaultdict[tuple[str, ...], list[TravelTime]] = defaultdict(list)
    for time in times:
        groups[time.key].append(time)
    pooled_times = {}
    for key, group in groups.items():
        vehicles = sum(time.vehicles for time in group)
        mean = sum(time.mean * time.vehicles for time in group) / vehicles
        square = sum(time.vehicles * (time.deviation**2 + (time.mean - mean) ** 2) for time in group) / vehicles
        pooled_times[key] = mean, sqrt(square), vehicles
    return pooled_times


def refuse_unknown(day: FieldDay, edges: Collection[str], day_name: str) -> None:
    """Fault where a way or a queue is of an edge that the network does not have; day_name: of which day."""
    of_times = [name for travel_time in day.times for name in travel_time.edges]
    named = of_times + [queue.edge for queue in day.queues]
    if unknown := next((name for name in named if name not in edges), None):
        raise Fault(f"{day_name}: the network has no edge {unknown!r}")
