"""trips.csv and stops.csv: when each vehicle arrived, where the others are at the end, and what became of stops."""
from __future__ import annotations

from collections import Counter
from collections.abc import Collection, Iterable, Iterator, Mapping
from itertools import islice

from streetsim.base.arrays import numpy as np
from streetsim.control.bus_fleet import StopOutcome, dwells
from streetsim.kernel.loop import Kernel, Observer
from streetsim.kernel.seconds import Seconds
from streetsim.model.mapping import Map
from streetsim.model.runs import Run
from streetsim.model.stops import bus_lines_of
from streetsim.model.tables import AT_ONCE, Entry


End = tuple[int | None, str]  # the clock of a vehicle's arrival, None: it has not arrived; and where it is


class TripsTable(Observer):
    """Notes when vehicles arrive (arrival, by number in the file; 0: not), and where the others are at the end."""

    def begin(self, kernel: Kernel) -> None:
        """Nobody has arrived."""
        self.kernel = kernel
        self.arrival = np.zeros(len(kernel.run.enters), np.int64)
        self.states: dict[int, str] = {}

    def see(self, seconds: Seconds) -> None:
        """Takes some seconds."""
        over = seconds.arrivals
        self.arrival[seconds.vehicles.owner[over.car]] = seconds.clocks[over.second]

    def end(self, clock: int) -> None:
        """Notes where those are who are on the road."""
        last_second, owner = self.kernel.last_second, self.kernel.vehicles.owner
        states = np.where(last_second.cell >= 0, "cell", "buffer").tolist()
        self.states = dict(zip(owner[last_second.car].tolist(), states, strict=True))

    def rows(self, rescues: Mapping[int, int], stops: Iterable[StopOutcome]) -> TripRows:
        """The rows of trips.csv; rescues: by vehicle; stops: what became of them."""
        return TripRows(self, rescues, seconds_at_stops(stops))

    def ends(self) -> Iterator[End]:
        """How each vehicle ended."""
        for at, arrival in enumerate(self.arrival.tolist()):
            if arrival:
                yield arrival, "arrived"
            else:
                yield None, self.states.get(at, "waiting") if at < self.kernel.entered else "not departed"


class TripRows(Collection[Entry]):
    """The rows of trips.csv, as `trip_rows` gives them, made anew each time, as a day has a million."""

    def __init__(self, table: TripsTable, rescues: Mapping[int, int], stood: Mapping[int, int]) -> None:
        """rescues, stood: by vehicle how many, and the seconds at its stops."""
        run = table.kernel.run
        self.table, self.rescues, self.stood = table, rescues, stood
        self.names, self.departs = vehicle_names(run, table.kernel.map), run.departs()
        self.alone, self.lengths = table.kernel.plans.alone_on_trips(), table.kernel.plans.lengths

    def __iter__(self) -> Iterator[Entry]:
        """All of them."""
        get_rescues, get_stood, ends = self.rescues.get, self.stood.get, self.table.ends()
        for begin in range(0, len(self), AT_ONCE):
            part = slice(begin, begin + AT_ONCE)
            alone = enumerate(self.alone[part].tolist(), begin)
            extras = [(free, get_stood(at, 0), get_rescues(at, 0)) for at, free in alone]
            planned = zip(self.departs[part].tolist(), self.lengths[part].tolist(), strict=True)
            yield from trip_rows(zip(self.names[part], planned, islice(ends, len(extras)), extras, strict=True))

    def __len__(self) -> int:
        """How many there are."""
        return len(self.names)

    def __contains__(self, row: object) -> bool:
        """Whether one is there."""
        return any(row == other for other in self)


def trip_rows(trips: Iterable[tuple[str, tuple[int, int], End, tuple[float, int, int]]]) -> Iterator[Entry]:
    """The rows of trips.csv, (name, wished departure, arrival, seconds, seconds alone, seconds lost, how many links its
    plan has, rescues, state), one for each vehicle, as in SUMO's tripinfo. A trip lasts from the wished departure to
    arrival; seconds lost are those beyond seconds alone and at its stops. Arrival, seconds and seconds lost are empty
    where it has not arrived. trips: name, (wished departure, how many links), end, and (seconds alone, seconds at
    stops, rescues)."""
    for name, (depart, links), (arrival, state), (free, stood, rescues) in trips:
        alone = f"{free:.1f}"
        trip: Entry = ("", "", alone, "")
        if arrival is not None:
            trip = arrival, arrival - depart, alone, f"{arrival - depart - free - stood:.1f}"
        yield (name, depart, *trip, links, rescues, state)


def seconds_at_stops(stops: Iterable[StopOutcome]) -> Counter[int]:
    """The seconds that vehicles stood at their stops, by their number in the file; stops not left do not count."""
    return Counter({vehicle: sum(stop.seconds for stop in stops_of) for vehicle, stops_of in dwells(stops).items()})


def stop_rows(stops: Iterable[StopOutcome], run: Run, mapping: Map) -> Iterator[Entry]:
    """The rows of stops.csv, (vehicle, line, stop, edge, lane, arrived, left, seconds, until, seconds late, state):
    each stop of each vehicle, vehicle by vehicle; clocks and seconds are empty where they did not come about."""
    vehicles, lines = vehicle_names(run, mapping), bus_lines_of(mapping.kinds, len(run.enters))
    for stop in sorted(stops, key=lambda stop: (stop.visit.vehicle, stop.visit.at)):
        visit, link = stop.visit, mapping.links[stop.visit.link]
        lane = link.lanes[visit.lane if stop.lane is None else stop.lane]
        dwell = late = None
        if stop.departed is not None and stop.arrived is not None:
            dwell, late = stop.departed - stop.arrived, None if visit.until is None else stop.departed - visit.until
        times = ["" if time is None else time for time in (stop.arrived, stop.departed, dwell, visit.until, late)]
        yield vehicles[visit.vehicle], lines[visit.vehicle], visit.stop, link.edge, lane, *times, stop.state


def vehicle_names(run: Run, mapping: Map) -> list[str]:
    """SUMO's names of the run's vehicles; those that were added to the run file by hand are # and their number."""
    return [*mapping.cars, *(f"#{number}" for number in range(len(mapping.cars), len(run.enters)))][: len(run.enters)]
