"""Compares travel times in the folder of a run with those of the field, or of SUMO: segments, routes, trips and edges.
streetsim-compare --times calls it."""
from __future__ import annotations

from collections import defaultdict
from collections.abc import Collection, Iterable, Iterator
from dataclasses import dataclass
from pathlib import Path
from statistics import fmean

from streetsim.base.files import Fault, attribute, elements, number, optional, read_json, seconds
from streetsim.demand.calibration_field import TRIP, TravelTime, pooled, read_times
from streetsim.demand.calibration_page import way_name
from streetsim.demand.cells import begins_with
from streetsim.model.folder import RUN_LINES, NAME, Folder
from streetsim.model.runs import read_run
from streetsim.model.tables import ROUTES, ROUTES_FILE, SEGMENTS, read_table

MARK, MINUTE, SHARE = 0.15, 60.0, 0.85
SEGMENT, ROUTE, OF_TRIP, EDGE = "segments", "routes", "trips", "edges, without waits to depart and junctions"
MOST_TOLD = 5  # ways that are named


@dataclass(frozen=True, slots=True)
class ComparedTime:
    """Mean seconds of a way, in the run and in the field, and how many vehicles were measured in the field."""

    key: tuple[str, ...]
    model_seconds: float
    field_seconds: float
    vehicles: int

    @property
    def kind(self) -> str:
        """What the way is."""
        if self.key[0] == TRIP:
            return OF_TRIP
        return {1: EDGE, 2: SEGMENT}.get(len(self.key), ROUTE)

    @property
    def deviation(self) -> float:
        """By which share the run is off."""
        return self.model_seconds / self.field_seconds - 1


def read_compared(paths: Iterable[str], notes: list[str]) -> list[TravelTime]:
    """The travel times of files, as read_times reads them, and those of edges in SUMO's edgeData, a way of one edge."""
    travel_times: list[TravelTime] = []
    for path in paths:
        travel_times += (begins_with(path, "<") and list(edge_times(path))) or read_times([path], notes)
    return travel_times


def edge_times(path: str) -> Iterator[TravelTime]:
    """The travel times of SUMO's edgeData, of edges that somebody left or arrived on; none of another file of XML."""
    for interval in elements(path):
        if interval.tag == "interval":
            begin, end = (round(attribute(path, interval, name, seconds)) for name in ("begin", "end"))
            for edge in interval.iter("edge"):
                vehicles = optional(path, edge, "left", int, 0) + optional(path, edge, "arrived", int, 0)
                mean = optional(path, edge, "traveltime", number, 0.0)
                if vehicles and mean > 0:
                    yield TravelTime((attribute(path, edge, "id"),), begin, end, mean, 0.0, vehicles)


def compared_times(folder: Folder, times: Iterable[TravelTime]) -> list[ComparedTime]:
    """The ways that both have, over the periods of the field, by their vehicles; the run's from segments.csv,
    routes.csv, trips.csv and edges.csv. Fault where a table is missing, or nothing is in common."""
    times = list(times)
    model, field = dict(times_of_folder(folder, times)), sorted(pooled(times).items())
    compared = [ComparedTime(key, model[key], mean, count) for key, (mean, _, count) in field if key in model]
    if not compared:
        raise Fault(f"{folder.path}: no way and period is common to the run and the times (routes need --along)")
    return compared


def times_of_folder(folder: Folder, times: list[TravelTime]) -> Iterator[tuple[tuple[str, ...], float]]:
    """By way of some times (way, mean seconds in the run in the periods that were measured)."""
    begin, end = min(time.begin for time in times), max(time.end for time in times)
    sums: defaultdict[tuple[str, ...], list[float]] = defaultdict(lambda: [0.0, 0.0])
    for key, clock, seconds, vehicles in rows_of_folder(folder, {time.key for time in times}):
        if begin <= clock < end:
            sums[key][0] += seconds * vehicles
            sums[key][1] += vehicles
    yield from ((key, total / count) for key, (total, count) in sums.items())


def rows_of_folder(folder: Folder, way_keys: set[tuple[str, ...]]) -> Iterator[tuple[tuple[str, ...], int, float, int]]:
    """(way, clock of its period or arrival, mean seconds, vehicles) of the tables of a run, of ways that are wanted."""
    for row in read_table(f"{folder.path}/segments.csv", SEGMENTS):
        if (key := (row["from"], row["to"])) in way_keys:
            yield key, int(row["begin"]), float(row["mean_s"]), int(row["vehicles"])
    if Path(f"{folder.path}/{ROUTES_FILE}").exists():
        for row in read_table(f"{folder.path}/{ROUTES_FILE}", ROUTES):
            if (way := tuple(row["route"].split())) in way_keys:
                yield way, int(row["begin"]), float(row["mean_s"]), int(row["vehicles"])
    if any(len(way) == 1 for way in way_keys):
        for row in folder.edges():
            if (row["edge"],) in way_keys and row["travel_time_s"] and int(row["left"]):
                yield (row["edge"],), int(row["begin"]), float(row["travel_time_s"]), int(row["left"])
    if any(way[0] == TRIP for way in way_keys):
        yield from trips_of_folder(folder, way_keys)


def trips_of_folder(
    folder: Folder, way_keys: Collection[tuple[str, ...]]
) -> Iterator[tuple[tuple[str, ...], int, float, int]]:
    """(way, clock of its arrival, seconds, 1) of each trip that is wanted, from its first edge to its last. Fault where
    the folder does not keep the lines of its run."""
    above = Path(folder.path).resolve().parent
    run_path = next((path for path in (Path(folder.path) / RUN_LINES, above / RUN_LINES) if path.exists()), None)
    if run_path is None:
        raise Fault(f"{folder.path}: keeps no {RUN_LINES}, which tells from where to where trips go")
    listed = read_json(f"{folder.path}/{NAME}", ()).get("listed", {})  # of drawn departures the vehicles of the file
    names, ends = listed.get("cars") or folder.mapping.cars, dict[str, tuple[str, ...]]()
    for name, line in zip(names, read_run(str(run_path)).enters):
        plan = [folder.mapping.links[link].edge for link in line.command["plan"]]
        ends[name] = TRIP, plan[0], plan[-1]
    for row in folder.trips():
        way = ends.get(row["id"]) or ends.get(row["id"].rpartition("#")[0])
        if way and way in way_keys and row["duration"]:
            yield way, int(row["arrival"]), float(row["duration"]), 1


def lines_of_times(times: list[ComparedTime]) -> Iterator[str]:
    """How close the times are, by kind of way, and those that are off most."""
    for name, minute in ((SEGMENT, 0.0), (ROUTE, MINUTE), (OF_TRIP, MINUTE), (EDGE, 0.0)):
        if of_kind := [time for time in times if time.kind == name]:
            pairs = [(time.model_seconds, time.field_seconds) for time in of_kind]
            good = fmean(abs(model - field) <= max(MARK * field, minute) for model, field in pairs)
            mark = "within 15 %" + (" or a minute" if minute else "")
            held = "held" if good >= SHARE else "not held"
            rms = fmean(time.deviation**2 for time in of_kind) ** 0.5
            within = f"{100 * good:.0f} % of {len(of_kind):,} {mark} ({held} by 85 %)"
            yield f"{name}: {within}, off by {100 * rms:.1f} % (rms)"
    worst = sorted(times, key=lambda time: -abs(time.deviation))[:MOST_TOLD]
    for time in worst:
        both = f"{time.model_seconds:.1f} s here, {time.field_seconds:.1f} s there"
        yield f"{way_name(time.key)}: {both} ({100 * time.deviation:+.1f} %)"


def are_close(times: list[ComparedTime]) -> bool:
    """Whether 85 % of the ways of each kind are within its mark."""
    return all("not held" not in line for line in lines_of_times(times))
