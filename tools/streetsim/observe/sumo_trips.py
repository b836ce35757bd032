"""SUMO's output files that have rows of vehicles: tripinfo, vehroute, stop, lanechange, and statistic, which has the
means of all. Each class writes one."""
from bisect import bisect_right
from collections.abc import Collection, Mapping, Sequence
from statistics import fmean
from typing import NamedTuple

from streetsim.base.files import TextFile
from streetsim.control.bus_fleet import Dwell, StopOutcome
from streetsim.observe.sumo_formats import SummaryOutput, XmlFile, attributes
from streetsim.observe.sumo_places import LanePlaces
from streetsim.observe.sumo_seconds import DEFAULT, Second, TripUnderWay


class TripFigures(NamedTuple):
    """What SUMO tells of a trip: metres, seconds and halts; those at stops of its own are in stop_seconds alone."""

    metres: float
    duration: float
    waiting: float
    halts: int
    stop_seconds: float
    loss: float
    delay: float  # since the wished departure


def figures_of(trip: TripUnderWay, clock: int, stops: Sequence[Dwell]) -> TripFigures:
    """The figures of a trip that has come to an end, or to a clock; stops: of its own that it has left."""
    duration, stopped = clock - trip.depart, sum(stop.seconds for stop in stops)
    return TripFigures(
        trip.metres, float(duration), float(max(0, trip.waiting - sum(stop.stood for stop in stops))),
        max(0, trip.stops - len(stops)), float(stopped), max(0.0, duration - trip.free - stopped),
        float(trip.depart - trip.wished),
    )  # fmt: skip


class Tripinfo(XmlFile):
    """tripinfo: a row for each vehicle that arrived, and where it is asked for of the others. It departs in the second
    in which it is first seen; `departDelay` is since the wished departure, so that it and `duration` add up to the
    duration of trips.csv. Seconds at stops are in `stopTime`, and neither in `waitingTime` nor in `timeLoss`."""

    root, schema = "tripinfos", "tripinfo_file"

    def __init__(
        self, file: TextFile, lane_places: LanePlaces, dwells: Mapping[int, Sequence[Dwell]], details: Collection[str]
    ) -> None:  # fmt: skip
        """dwells: by the vehicle's number in looks its stops; those of one that arrives are known by then; details:
        those of DETAILS that are asked for."""
        super().__init__(file, lane_places)
        self.dwells, self.is_whole = dwells, "tripinfo-output.write-unfinished" in details
        self.clock, self.under_way = 0, dict[int, TripUnderWay]()

    def add_second(self, second: Second) -> None:
        """Writes a row for each vehicle that arrived in a second."""
        self.clock, self.under_way = second.clock, second.trips
        for car, trip in second.arrived:
            self.write_trip(car, trip, True)

    def write_end(self) -> None:
        """Writes the rows of those who are under way, where these are asked for, and the end of the root."""
        for car, trip in self.under_way.items() if self.is_whole else ():
            self.write_trip(car, trip, False)
        super().write_end()

    def write_trip(self, car: int, trip: TripUnderWay, has_arrived: bool) -> None:
        """Writes the row of a trip that has come to the clock, in SUMO's order."""
        names, figures = self.lane_places.names, figures_of(trip, self.clock, self.dwells.get(car, ()))
        links, last, metres = self.lane_places.mapping.links, trip.last_position, figures.metres
        arrival = {"arrival": -1.0, "arrivalLane": "", "arrivalPos": -1.0, "arrivalSpeed": -1.0}
        if not has_arrived:
            metres += self.lane_places.metres_on_lane(last) - links[last.link].metres
        else:
            arrival = {
                "arrival": float(self.clock),
                "arrivalLane": names[last.link, last.lane],
                "arrivalPos": links[last.link].metres,
                "arrivalSpeed": self.lane_places.metres_per_second(last),
            }
        row = attributes(
            id=trip.name,
            depart=float(trip.depart),
            departLane=names[trip.first_position.link, trip.first_position.lane],
            departPos=self.lane_places.metres_on_lane(trip.first_position),
            departSpeed=self.lane_places.metres_per_second(trip.first_position),
            departDelay=figures.delay,
            **arrival,
            duration=figures.duration,
            routeLength=metres,
            waitingTime=figures.waiting,
            waitingCount=figures.halts,
            stopTime=figures.stop_seconds,
            timeLoss=figures.loss,
            rerouteNo=0,
            devices="",
            vType=trip.kind,
            speedFactor=1.0,
            vaporized="" if has_arrived else "end",
        )
        self.file.write(f"    <tripinfo {row}/>\n")


class VehicleRoutes(XmlFile):
    """vehroute: for each vehicle that arrived the edges along which it drove, which of one that was sent another way
    are those of both."""

    root, schema = "routes", "routes_file"

    def __init__(self, file: TextFile, lane_places: LanePlaces, details: Collection[str]) -> None:
        """details: those of DETAILS that are asked for."""
        super().__init__(file, lane_places)
        self.details = {detail.removeprefix("vehroute-output.") for detail in details}
        self.kept_texts: list[tuple[int, str]] = []  # (departure, text) of vehicles, where they are to be sorted
        self.under_way: Mapping[int, TripUnderWay] = {}

    def add_second(self, second: Second) -> None:
        """Writes the vehicles that arrived in a second, or keeps them."""
        self.under_way = second.trips
        for _, trip in second.arrived:
            self.write_vehicle(trip, {"arrival": float(second.clock)}, [*trip.exits, second.clock])

    def write_vehicle(self, trip: TripUnderWay, arrival: Mapping[str, float], exits: Sequence[int]) -> None:
        """Writes a vehicle, or keeps it; exits: the clocks at which it left its links."""
        edges: list[str] = []
        times: list[int] = []
        for place, link in enumerate(trip.links):
            edge, left = self.lane_places.mapping.links[link].edge, exits[place] if place < len(exits) else -1
            if edges[-1:] == [edge]:  # which has several links in a row
                times[-1] = left
            else:
                edges, times = [*edges, edge], [*times, left]
        kind = {} if trip.kind == DEFAULT else {"type": trip.kind}
        depart = trip.wished if "intended-depart" in self.details else trip.depart
        head = attributes(id=trip.name, **kind, depart=float(depart), **arrival)
        if "route-length" in self.details:
            head += " " + attributes(routeLength=trip.metres)
        route = {"edges": " ".join(edges)}
        if "exit-times" in self.details:
            route["exitTimes"] = " ".join(f"{clock:.2f}" if clock >= 0 else "-1" for clock in times)
        text = f"    <vehicle {head}>\n        <route {attributes(**route)}/>\n    </vehicle>\n"
        if "sorted" in self.details:
            self.kept_texts.append((trip.depart, text))
        else:
            self.file.write(text)

    def write_end(self) -> None:
        """Writes the vehicles under way, where these are asked for, those that were kept, and the end of the root."""
        for trip in self.under_way.values() if "write-unfinished" in self.details else ():
            self.write_vehicle(trip, {}, trip.exits)
        self.file.writelines(text for _, text in sorted(self.kept_texts))
        super().write_end()


class StopOutput(XmlFile):
    """stop: a row for each stop of its own that a vehicle has left, at the run's end."""

    root, schema = "stops", "stopinfo_file"
    NOBODY = {f"{what}{who}": 0 for who in ("Persons", "Containers") for what in ("initial", "loaded", "unloaded")}

    def __init__(self, file: TextFile, lane_places: LanePlaces, outcomes: Sequence[StopOutcome]) -> None:
        """outcomes: what became of all stops, as far as it is known."""
        super().__init__(file, lane_places)
        self.outcomes = outcomes
        self.names: dict[int, tuple[str, str]] = {}  # of vehicles and their types

    def add_second(self, second: Second) -> None:
        """Notes the names of those who departed in a second."""
        self.names.update((car, (second.trips[car].name, second.trips[car].kind)) for car in second.departed)

    def write_end(self) -> None:
        """Writes the rows, by the clock at which doors closed, and the end of the root."""
        left = [(one.departed, one.visit.vehicle, one) for one in self.outcomes if one.departed is not None]
        for departed, car, outcome in sorted(left, key=lambda row: row[:2]):
            visit, (name, kind) = outcome.visit, self.names[car]
            lane = self.lane_places.names[visit.link, visit.lane]
            is_named = not visit.stop.startswith(f"{lane}:")
            row = attributes(
                id=name,
                type=kind,
                lane=lane,
                pos=(visit.last + 1) * self.lane_places.cell_metres[visit.link],
                parking=0,
                started=float(outcome.arrived or 0),
                ended=float(departed),
                **({} if visit.until is None else {"delay": float(departed - visit.until)}),
                **self.NOBODY,
                **({"busStop": visit.stop} if is_named else {}),
            )
            self.file.write(f"    <stopinfo {row}/>\n")
        super().write_end()


class LaneChanges(XmlFile):
    """lanechange: a row for each change from a lane to the one beside it, without SUMO's reasons and gaps."""

    root, schema = "lanechanges", "lanechange_file"

    def add_second(self, second: Second) -> None:
        """Writes those of a second."""
        for car, spot in second.positions.items():
            previous = second.earlier_positions.get(car)
            if previous is None or previous.link != spot.link or previous.lane == spot.lane:
                continue
            names, trip = self.lane_places.names, second.trips[car]
            lanes = self.lane_places.mapping.links[spot.link].lanes
            row = attributes(
                id=trip.name,
                type=trip.kind,
                time=float(second.time),
                **{"from": names[previous.link, previous.lane], "to": names[spot.link, spot.lane]},
                dir=lanes[spot.lane] - lanes[previous.lane],
                speed=self.lane_places.metres_per_second(spot),
                pos=self.lane_places.metres_on_lane(spot),
            )
            self.file.write(f"    <change {row}/>\n")


class StatisticOutput(SummaryOutput):
    """statistic: the counts and the means of a whole run, of the same figures as those of a tripinfo file."""

    root, schema = "statistics", "statistic_file"

    def __init__(
        self, file: TextFile, lane_places: LanePlaces, wished: Sequence[int], rescued: Sequence[int],
        dwells: Mapping[int, Sequence[Dwell]],
    ) -> None:  # fmt: skip
        """As SummaryOutput; dwells: as of Tripinfo."""
        super().__init__(file, lane_places, wished, rescued)
        self.dwells, self.clock, self.running, self.wished_sum = dwells, 0, 0, 0
        self.figures: list[TripFigures] = []

    def add_second(self, second: Second) -> None:
        """Adds a second to the counts, and the trips that ended in it."""
        self.loaded, self.running = bisect_right(self.wished, second.time), len(second.positions)
        self.clock = second.clock
        self.count_changes(second)
        self.wished_sum += sum(second.trips[car].wished for car in second.departed)
        self.figures += [figures_of(trip, second.clock, self.dwells.get(car, ())) for car, trip in second.arrived]

    def write_end(self) -> None:
        """Writes all of it, and the end of the root."""
        waiting, loaded = max(0, self.loaded - self.inserted), max(self.loaded, self.inserted)
        delay = self.clock * waiting - sum(self.wished[: self.loaded]) + self.wished_sum
        teleports = max(self.teleports, bisect_right(self.rescued, self.clock - 1))
        rows: dict[str, dict[str, object]] = {
            "vehicles": dict(loaded=loaded, inserted=self.inserted, running=self.running, waiting=waiting),
            "teleports": {"total": teleports, "jam": teleports, "yield": 0, "wrongLane": 0},
            "safety": {"collisions": 0, "emergencyStops": 0},
            "persons": {"loaded": 0, "running": 0, "jammed": 0},
            "vehicleTripStatistics": self.means(delay / waiting if waiting else -1.0),
        }
        for tag, values in rows.items():
            self.file.write(f"    <{tag} {attributes(**values)}/>\n")
        super().write_end()

    def means(self, delay_of_waiting: float) -> dict[str, object]:
        """What is told of the trips that ended: means, but for the sums at the end; delay_of_waiting: seconds."""
        rows = {
            "routeLength": [one.metres for one in self.figures],
            "speed": [one.metres / one.duration for one in self.figures],
            "duration": [one.duration for one in self.figures],
            "waitingTime": [one.waiting for one in self.figures],
            "timeLoss": [one.loss for one in self.figures],
            "departDelay": [one.delay for one in self.figures],
        }
        means = {name: fmean(values) if values else 0.0 for name, values in rows.items()}
        sums = dict(totalTravelTime=sum(rows["duration"]), totalDepartDelay=sum(rows["departDelay"]))
        return {"count": len(self.figures), **means, "departDelayWaiting": delay_of_waiting, **sums}
