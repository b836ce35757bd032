"""SUMO's output files that are sums over intervals: edgeData, e1, e2."""
from collections.abc import Collection, Sequence
from dataclasses import dataclass, field, replace
from math import inf
from typing import Any

from streetsim.base.files import TextFile
from streetsim.model.detectors import E1, E2, Detector, longest_jam
from streetsim.observe.sumo_formats import XmlFile, attributes, vehicle_metres
from streetsim.observe.sumo_kinds import OutputFile
from streetsim.observe.sumo_places import LanePlaces
from streetsim.observe.sumo_seconds import Spot, Second

Sums = Any  # of a kind of detector: its own


@dataclass(slots=True)
class EdgeSums:
    """What was seen of an edge in an interval, all vehicles and seconds added up."""

    seconds: int = 0  # of vehicles on it
    metres: float = 0.0  # driven
    waiting: int = 0  # seconds of standing
    loss: float = 0.0  # seconds
    covered: float = 0.0  # metres of vehicles, summed over seconds
    departed: int = 0
    arrived: int = 0
    entered: int = 0
    left: int = 0
    teleported: int = 0


class Edgedata(XmlFile):
    """edgedata: a row for each interval and edge. Who is in a junction is on no edge, as in SUMO."""

    root, schema = "meandata", "meandata_file"

    def __init__(self, file: TextFile, lane_places: LanePlaces, wished: OutputFile, start: int) -> None:
        """wished: what is asked for; start: the clock at the run's begin."""
        super().__init__(file, lane_places)
        self.wished, self.period, self.begin = wished, int(wished.period) or inf, max(start, int(wished.begin))
        self.clock = self.begin
        self.links = lane_places.mapping.links
        self.sums: dict[str, EdgeSums] = {}  # by edge

    def sums_of(self, link: int) -> EdgeSums:
        """The sums of a link's edge in the interval under way."""
        return self.sums.setdefault(self.links[link].edge, EdgeSums())

    def add_second(self, second: Second) -> None:
        """Adds a second, where it is asked for; first writes the interval before it where that has ended."""
        if not self.begin < second.clock <= self.wished.end:
            return
        if second.clock > self.begin + self.period:
            self.write_interval()
        self.clock = second.clock
        for link, cars in second.by_link().items():
            if on_cells := [spot for _, spot in cars if spot.cell is not None]:
                self.add_vehicles(link, on_cells)
        for car in second.departed:
            self.sums_of(second.positions[car].link).departed += 1
        for _, link in second.entered:
            self.sums_of(link).entered += 1
        for _, spot in second.exited:
            self.sums_of(spot.link).left += 1
        for spot in second.teleported.values():
            self.sums_of(spot.link).teleported += 1
        for _, trip in second.arrived:
            self.sums_of(trip.last_position.link).arrived += 1

    def add_vehicles(self, link: int, spots: Sequence[Spot]) -> None:
        """Adds the vehicles in the cells of a link for one second."""
        sums, limit, speeds = self.sums_of(link), self.links[link].limit, [spot.speed for spot in spots]
        sums.seconds += len(spots)
        sums.metres += sum(speeds) * self.lane_places.cell_metres[link]
        sums.waiting += speeds.count(0)
        sums.loss += len(spots) - sum(min(speed, limit) for speed in speeds) / limit
        sums.covered += sum(map(vehicle_metres, spots))

    def write_interval(self) -> None:
        """Writes the interval that has ended, all edges of the map or those where anybody was, and begins the next."""
        end, edges = int(min(self.clock, self.begin + self.period)), self.lane_places.mapping.links_of
        interval = attributes(begin=float(self.begin), end=float(end), id=self.wished.name)
        self.file.write(f"    <interval {interval}>\n")
        for edge in edges if self.wished.has_empty else (edge for edge in edges if edge in self.sums):
            row = self.attributes_of(edge, self.sums.get(edge, EdgeSums()), end - self.begin)
            self.file.write(f"        <edge {row}/>\n")
        self.file.write("    </interval>\n")
        self.begin, self.sums = end, {}

    def attributes_of(self, edge: str, sums: EdgeSums, seconds: int) -> str:
        """The attributes of an edge over an interval; seconds: its length. Where nobody was on it there are only
        the counts and sampledSeconds, and no travel time where nobody moved."""
        links = [self.links[link] for link in self.lane_places.mapping.links_of[edge]]
        lanes, metres = sum(len(link.lanes) for link in links), links[0].metres
        means = {}
        if sums.seconds:
            speed, density = sums.metres / sums.seconds, sums.seconds / seconds / metres * 1000
            means = {
                **({"traveltime": metres / speed} if speed else {}),
                "density": density,
                "laneDensity": density / lanes,
                "occupancy": sums.covered / seconds / metres / lanes * 100,
                "waitingTime": float(sums.waiting),
                "timeLoss": sums.loss,
                "speed": speed,
                "speedRelative": speed / (links[0].limit * metres / links[0].cells),
            }
        names = ("departed", "arrived", "entered", "left", "teleported")
        counts = {name: getattr(sums, name) for name in names}
        return attributes(id=edge, sampledSeconds=float(sums.seconds), **means, **counts)

    def write_end(self) -> None:
        """Writes the last interval, which may be shorter, and the end of the root."""
        if self.clock > self.begin:
            self.write_interval()
        super().write_end()


class DetectorOutput(XmlFile):
    """A row for each interval of each detector of one kind; each class below says what is summed, by sums_at_begin,
    note_second and attributes_of, which raise NotImplementedError here."""

    root, kind = "detector", ""

    def __init__(self, file: TextFile, lane_places: LanePlaces, start: int, names: Collection[str] | None) -> None:
        """start: the clock at which the first interval of each detector begins; names: of detectors, None: all."""
        super().__init__(file, lane_places)
        of_kind = (detector for detector in lane_places.mapping.detectors if detector.kind == self.kind)
        self.detectors = [detector for detector in of_kind if names is None or detector.name in names]
        self.begins, self.clock = {detector.name: start for detector in self.detectors}, start
        self.sums: dict[str, Sums] = {detector.name: self.sums_at_begin(detector, None) for detector in self.detectors}

    def sums_at_begin(self, detector: Detector, before: Sums) -> Sums:
        """The sums with which an interval begins; before: those of the interval that has ended, None of the first."""
        raise NotImplementedError

    def note_second(self, detector: Detector, sums: Sums, second: Second, vehicles: Sequence[tuple[int, Spot]]) -> None:
        """Adds a second to the sums of a detector; vehicles: (car, where it is) of those on its lane in it, and of
        those in the junction behind that."""
        raise NotImplementedError

    def attributes_of(self, detector: Detector, sums: Sums, seconds: int) -> str:
        """The attributes of an interval; seconds: its length."""
        raise NotImplementedError

    def add_second(self, second: Second) -> None:
        """Adds a second to all detectors; first writes those intervals that have ended."""
        for detector in self.detectors:
            if second.clock > self.begins[detector.name] + detector.period:
                self.write_interval(detector)
        self.clock = second.clock
        for detector in self.detectors:
            vehicles = [one for one in second.by_link().get(detector.link, ()) if one[1].lane == detector.lane]
            self.note_second(detector, self.sums[detector.name], second, vehicles)

    def write_interval(self, detector: Detector) -> None:
        """Writes a detector's interval that has ended, and begins the next."""
        begin, sums = self.begins[detector.name], self.sums[detector.name]
        end = min(self.clock, begin + detector.period)
        row = self.attributes_of(detector, sums, end - begin)
        self.file.write(f"    <interval {attributes(begin=float(begin), end=float(end), id=detector.name)} {row}/>\n")
        self.begins[detector.name], self.sums[detector.name] = end, self.sums_at_begin(detector, sums)

    def write_end(self) -> None:
        """Writes the last intervals, which may be shorter, and the end of the root."""
        for detector in self.detectors:
            if self.clock > self.begins[detector.name]:
                self.write_interval(detector)
        super().write_end()


@dataclass(slots=True)
class LoopSums:
    """What an e1 saw in an interval."""

    speeds: list[float] = field(default_factory=list)  # metres a second of those that passed
    metres: list[float] = field(default_factory=list)  # of these vehicles
    occupied: int = 0  # seconds


class InductionLoopOutput(DetectorOutput):
    """e1, induction loops: who drove over a cell in a second, as detectors.csv counts them. Who leaves the edge in that
    second has the speed of the second before, a cell a second where it stood."""

    schema, kind = "det_e1_file", E1

    def sums_at_begin(self, detector: Detector, _before: LoopSums | None) -> LoopSums:
        """The sums of an e1 with which an interval begins: nothing."""
        return LoopSums()

    def note_second(
        self, detector: Detector, sums: LoopSums, second: Second, vehicles: Sequence[tuple[int, Spot]]
    ) -> None:
        """Adds a second to the sums of an e1: whether its cell is covered, and who has passed it."""
        first = detector.first
        spots = [spot for _, spot in vehicles]
        sums.occupied += any(spot.cell is not None and spot.cell - spot.size < first <= spot.cell for spot in spots)
        for car, previous in second.by_link(is_earlier=True).get(detector.link, ()):
            if car not in second.teleported and previous.cell is not None and previous.cell <= detector.first:
                self.note_pass(detector, sums, previous, second.positions.get(car, replace(previous, cell=None)))

    def note_pass(self, detector: Detector, sums: LoopSums, previous: Spot, current: Spot) -> None:
        """Adds to the sums of an e1 a vehicle that was on the loop or before it in the second before (previous), if it
        is beyond it now: in the cells of its lane or, in the junction or as one that has arrived, without a cell."""
        if current.lane == detector.lane and (current.cell is None or current.cell > detector.first):
            speed = previous.speed or 1.0 if current.cell is None else current.speed
            sums.speeds.append(speed * self.lane_places.cell_metres[detector.link])
            sums.metres.append(vehicle_metres(previous))

    def attributes_of(self, detector: Detector, sums: LoopSums, seconds: int) -> str:
        """The attributes of an e1's interval; means are -1 where nobody passed, as SUMO writes."""
        count = len(sums.speeds)
        return attributes(
            nVehContrib=count,
            flow=count * 3600 / seconds,
            occupancy=sums.occupied / seconds * 100,
            speed=sum(sums.speeds) / count if count else -1.0,
            harmonicMeanSpeed=count / sum(1 / speed for speed in sums.speeds) if count else -1.0,
            length=sum(sums.metres) / count if count else -1.0,
            nVehEntered=count,
        )


@dataclass(slots=True)
class AreaSums:
    """What an e2 saw in an interval; halts are by car."""

    inside: dict[int, Spot] = field(default_factory=dict)  # by car, of the last second
    vehicles_seen: set[int] = field(default_factory=set)
    entered: int = 0
    exited: int = 0
    seconds: int = 0
    metres: float = 0.0  # driven
    loss: float = 0.0
    most_vehicles: int = 0  # in one second
    covered: list[float] = field(default_factory=list)  # share of the area, by second
    jams: list[int] = field(default_factory=list)  # vehicles in the longest jam, by second
    standing: int = 0  # vehicles, summed over seconds
    halts: dict[int, int] = field(default_factory=dict)  # going on: seconds in all
    interval_halts: dict[int, int] = field(default_factory=dict)  # going on: seconds of this interval
    ended_halts: list[tuple[int, int]] = field(default_factory=list)  # (seconds in all, of this interval)
    started: int = 0


class LaneAreaOutput(DetectorOutput):
    """e2, lane areas: the vehicles whose front is in them. A jam is of vehicles that stand without a gap."""

    schema, kind = "det_e2_file", E2

    def sums_at_begin(self, detector: Detector, before: AreaSums | None) -> AreaSums:
        """The sums of an e2 with which an interval begins: vehicles inside and halts that go on are taken over."""
        if before is None:
            return AreaSums()
        return AreaSums(inside=before.inside, halts=before.halts, interval_halts=dict.fromkeys(before.halts, 0))

    def note_second(
        self, detector: Detector, sums: AreaSums, second: Second, vehicles: Sequence[tuple[int, Spot]]
    ) -> None:
        """Adds a second to the sums of an e2."""
        on_cells = ((car, spot) for car, spot in vehicles if spot.cell is not None)
        inside = {car: spot for car, spot in on_cells if detector.first <= spot.front <= detector.last}
        sums.entered += len(inside.keys() - sums.inside.keys())
        sums.exited += len(sums.inside.keys() - inside.keys())
        sums.vehicles_seen.update(inside)
        sums.seconds += len(inside)
        sums.most_vehicles = max(sums.most_vehicles, len(inside))
        sums.metres += sum(self.lane_places.metres_per_second(spot) for spot in inside.values())
        links = self.lane_places.mapping.links
        sums.loss += sum(max(0.0, 1 - spot.speed / links[spot.link].limit) for spot in inside.values())
        area = (detector.last - detector.first + 1) * self.lane_places.cell_metres[detector.link]
        sums.covered.append(min(1.0, sum(map(vehicle_metres, inside.values())) / area))
        ranked = sorted(inside.values(), key=lambda spot: -spot.front)
        sums.jams.append(longest_jam([(0, spot.front, bool(spot.speed), spot.size) for spot in ranked]))
        sums.inside = inside
        self.note_halts(sums, {car for car, spot in inside.items() if not spot.speed})

    def note_halts(self, sums: AreaSums, standing: set[int]) -> None:
        """Adds to the sums of an e2 the halts of a second; standing: the cars that stand in it."""
        for car in sums.halts.keys() - standing:
            sums.ended_halts.append((sums.halts.pop(car), sums.interval_halts.pop(car)))
        sums.started += len(standing - sums.halts.keys())
        sums.standing += len(standing)
        for car in standing:
            sums.halts[car] = sums.halts.get(car, 0) + 1
            sums.interval_halts[car] = sums.interval_halts.get(car, 0) + 1

    def attributes_of(self, detector: Detector, sums: AreaSums, seconds: int) -> str:
        """The attributes of an e2's interval; the mean speed and loss of nobody are -1, as SUMO writes."""
        car_metres = self.lane_places.cell_metres[detector.link]
        halts = [halt for halt, _ in sums.ended_halts] + list(sums.halts.values())
        within = [halt for _, halt in sums.ended_halts] + list(sums.interval_halts.values())
        vehicles = len(sums.vehicles_seen)
        return attributes(
            sampledSeconds=float(sums.seconds),
            nVehEntered=sums.entered,
            nVehLeft=sums.exited,
            nVehSeen=vehicles,
            meanSpeed=sums.metres / sums.seconds if sums.seconds else -1.0,
            meanTimeLoss=sums.loss / vehicles if vehicles else -1.0,
            meanOccupancy=sum(sums.covered) / seconds * 100,
            maxOccupancy=max(sums.covered, default=0.0) * 100,
            meanMaxJamLengthInVehicles=sum(sums.jams) / seconds,
            meanMaxJamLengthInMeters=sum(sums.jams) * car_metres / seconds,
            maxJamLengthInVehicles=max(sums.jams, default=0),
            maxJamLengthInMeters=max(sums.jams, default=0) * car_metres,
            jamLengthInVehiclesSum=sum(sums.jams),
            jamLengthInMetersSum=sum(sums.jams) * car_metres,
            meanHaltingDuration=sum(halts) / len(halts) if halts else 0.0,
            maxHaltingDuration=float(max(halts, default=0)),
            haltingDurationSum=float(sum(halts)),
            meanIntervalHaltingDuration=sum(within) / len(within) if within else 0.0,
            maxIntervalHaltingDuration=float(max(within, default=0)),
            intervalHaltingDurationSum=float(sum(within)),
            startedHalts=float(sums.started),
            meanVehicleNumber=sums.seconds / seconds,
            maxVehicleNumber=sums.most_vehicles,
        )
