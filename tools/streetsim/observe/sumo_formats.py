"""SUMO's output files that have rows of each second: summary, fcd, queue. Each class writes one."""
from bisect import bisect_right
from collections.abc import Sequence

from streetsim.base import limits
from streetsim.base.files import TextFile, quoteattr
from streetsim.model.mapping import Place
from streetsim.observe.sumo_places import LanePlaces
from streetsim.observe.sumo_seconds import Spot, Second

SCHEMAS = "http://sumo.dlr.de/xsd/"
HALTING = 0.1  # metres a second, SUMO's: below it a vehicle stands


class XmlFile:
    """A file with a root element and SUMO's schema of it, written second by second; each kind has its own class."""

    root, schema = "", ""

    def __init__(self, file: TextFile, lane_places: LanePlaces) -> None:
        """Writes the begin of the root element; lane_places: where cells lie in metres."""
        self.file, self.lane_places = file, lane_places
        self.file.write(
            '<?xml version="1.0" encoding="UTF-8"?>\n\n'
            f'<{self.root} xmlns:xsi="http://www.w3.org/2001/XMLSchema-instance" '
            f'xsi:noNamespaceSchemaLocation="{SCHEMAS}{self.schema}.xsd">\n'
        )

    def add_second(self, second: Second) -> None:
        """Takes the next second of a run, each of them, rising; here nothing is done."""

    def write_end(self) -> None:
        """Writes what is left, and the end of the root; the file is closed by who opened it."""
        self.file.write(f"</{self.root}>\n")


def attributes(**values: object) -> str:
    """The attributes of an element as XML, name="value" with blanks between, escaped here: float numbers (seconds,
    metres) with two decimals, others as str gives them."""
    texts = (f"{value:.2f}" if isinstance(value, float) else str(value) for value in values.values())
    return " ".join(f"{name}={quoteattr(text)}" for name, text in zip(values, texts, strict=True))


class SummaryOutput(XmlFile):
    """summary: a row for each second, with how many vehicles are where."""

    root, schema = "summary", "summary_file"

    def __init__(self, file: TextFile, lane_places: LanePlaces, wished: Sequence[int], rescued: Sequence[int]) -> None:
        """wished: the seconds, sorted, at which vehicles would depart, as far as they are known; rescued: the clocks,
        rising, of rescues, as looks at the lanes do not show those out of a junction."""
        super().__init__(file, lane_places)
        self.wished, self.rescued = wished, rescued
        self.loaded = self.inserted = self.arrived = self.delays = self.durations = self.teleports = 0

    def add_second(self, second: Second) -> None:
        """Adds a second to the sums, and writes its row; those in junctions count there, and in its speeds, too."""
        self.loaded = bisect_right(self.wished, second.time)
        self.count_changes(second)
        speeds = [self.lane_places.metres_per_second(spot) for spot in second.positions.values()]
        free = [spot.speed / self.lane_places.mapping.links[spot.link].limit for spot in second.positions.values()]
        row = attributes(
            time=float(second.time),
            loaded=max(self.loaded, self.inserted),
            inserted=self.inserted,
            running=len(second.positions),
            waiting=max(0, self.loaded - self.inserted),
            ended=self.arrived,
            arrived=self.arrived,
            collisions=0,
            teleports=max(self.teleports, bisect_right(self.rescued, second.time)),
            halting=sum(speed < HALTING for speed in speeds),
            stopped=0,
            meanWaitingTime=self.delays / self.inserted if self.inserted else -1.0,
            meanTravelTime=self.durations / self.arrived if self.arrived else -1.0,
            meanSpeed=sum(speeds) / len(speeds) if speeds else -1.0,
            meanSpeedRelative=sum(free) / len(free) if free else -1.0,
        )
        self.file.write(f"    <step {row}/>\n")

    def count_changes(self, second: Second) -> None:
        """Adds to the sums those who departed, arrived and were taken out in a second."""
        self.inserted += len(second.departed)
        self.delays += sum(second.trips[car].depart - second.trips[car].wished for car in second.departed)
        self.arrived += len(second.arrived)
        self.durations += sum(second.clock - trip.depart for _, trip in second.arrived)
        self.teleports += len(second.teleported)


class Fcd(XmlFile):
    """fcd: where each vehicle is and how fast, in each second; of one in a junction the end of the lane before it."""

    root, schema = "fcd-export", "fcd_file"

    def __init__(self, file: TextFile, lane_places: LanePlaces) -> None:
        """lane_places: where cells lie in metres."""
        super().__init__(file, lane_places)
        self.texts: dict[Spot, tuple[str, str]] = {}  # many vehicles come to each
        self.names: dict[int, tuple[str, str]] = {}  # of vehicles and their types, quoted

    def add_second(self, second: Second) -> None:
        """Writes the rows of all vehicles in a second."""
        trips = ((car, second.trips[car]) for car in second.departed)
        self.names.update((car, (quoteattr(trip.name), quoteattr(trip.kind))) for car, trip in trips)
        rows = [f'    <timestep time="{second.time:.2f}">\n']
        for car, spot in second.positions.items():
            before, after = self.texts.get(spot) or self.texts_at(spot)
            name, kind = self.names[car]
            rows.append(f"        <vehicle id={name} {before} type={kind} {after}/>\n")
        self.file.write("".join([*rows, "    </timestep>\n"]))

    def texts_at(self, spot: Spot) -> tuple[str, str]:
        """The attributes of where a vehicle is, (those that stand before its type, those after it); made once and then
        kept."""
        x, y, angle = self.lane_places.point_and_angle(spot)
        lane = self.lane_places.names[spot.link, spot.lane]
        speed, along = self.lane_places.metres_per_second(spot), self.lane_places.metres_on_lane(spot)
        after = attributes(speed=speed, pos=along, lane=lane, slope=0.0)
        self.texts[spot] = attributes(x=x, y=y, angle=angle), after
        return self.texts[spot]


class QueueOutput(XmlFile):
    """queue: for each second and lane on which vehicles stand, the longest time of standing, and metres from the stop
    line to the rear of the last one's cells."""

    root, schema = "queue-export", "queue_file"

    def __init__(self, file: TextFile, lane_places: LanePlaces) -> None:
        """lane_places: where cells lie in metres."""
        super().__init__(file, lane_places)
        self.standing: dict[int, int] = {}  # car: seconds

    def add_second(self, second: Second) -> None:
        """Adds a second to the time of those who stand in cells, and writes the lanes on which any do."""
        cars = [(car, spot) for car, spot in second.positions.items() if spot.cell is not None and not spot.speed]
        self.standing = {car: self.standing.get(car, 0) + 1 for car, _ in cars}
        lengths: dict[Place, float] = {}
        waits: dict[Place, int] = {}
        for car, spot in cars:
            lane_key, link = (spot.link, spot.lane), self.lane_places.mapping.links[spot.link]
            length = link.metres - max(0, spot.front + 1 - spot.size) * self.lane_places.cell_metres[spot.link]
            lengths[lane_key] = max(length, lengths.get(lane_key, 0.0))
            waits[lane_key] = max(self.standing[car], waits.get(lane_key, 0))
        self.file.write(f'    <data timestep="{second.time:.2f}">\n        <lanes>\n')
        for lane_key, length in sorted(lengths.items()):
            texts = {"id": self.lane_places.names[lane_key], "queueing_time": float(waits[lane_key])}
            row = attributes(**texts, queueing_length=length, queueing_length_experimental=length)
            self.file.write(f"            <lane {row}/>\n")
        self.file.write("        </lanes>\n    </data>\n")


def vehicle_metres(spot: Spot) -> float:
    """Metres of a vehicle itself: of its cells, as if each had 7.5 m, without the gap to another one."""
    return spot.size * limits.CELL_METRES - limits.GAP_METRES
