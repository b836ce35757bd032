"""Follows vehicles from second to second for SUMO's output files: who departed, entered an edge, left it, was
teleported, arrived."""
from collections.abc import Iterable, Mapping, Sequence
from dataclasses import dataclass, field
from typing import Any

from streetsim.model.detectors import size_of
from streetsim.model.freeflow import Alone
from streetsim.model.inside import Inside
from streetsim.model.mapping import Map

DEFAULT = "DEFAULT_VEHTYPE"  # SUMO's type of vehicles that tell none


@dataclass(slots=True, frozen=True)
class Spot:
    """Where a vehicle is: in a cell of a lane, or in the junction behind it (no cell)."""

    link: int
    lane: int
    cell: int | None  # of its front
    speed: float  # cells a second
    size: int = 1  # cells

    @property
    def front(self) -> int:
        """The cell of its front; only of one that is in a cell (AssertionError in a junction)."""
        assert self.cell is not None
        return self.cell


@dataclass(slots=True)
class TripUnderWay:
    """A vehicle on its way, with what it has done so far."""

    name: str
    wished: int  # second at which it would depart
    depart: int  # the second in which it departed
    first_position: Spot
    last_position: Spot
    metres: float = 0.0  # of its links and SUMO's lanes in the junctions between, from the front of the first cell on
    links: list[int] = field(default_factory=list)  # that it has been on
    exits: list[int] = field(default_factory=list)  # the clocks at which it left those before the last
    free: float = 0.0  # seconds of these where nobody is in the way, without the last junction
    waiting: int = 0  # seconds of standing
    stops: int = 0
    standing: int = 0  # seconds for which it has stood by now
    crossing: float = 0.0  # seconds of the junction behind its link
    kind: str = DEFAULT


CarsByLink = dict[int, list[tuple[int, Spot]]]


def cars_by_link(positions: Mapping[int, Spot]) -> CarsByLink:
    """Where cars are, by link."""
    found: CarsByLink = {}
    for car, spot in positions.items():
        found.setdefault(spot.link, []).append((car, spot))
    return found


@dataclass(slots=True)
class Second:
    """What the lanes show at a clock, and what has changed since the second before."""

    clock: int
    trips: dict[int, TripUnderWay]  # by car, of those on their way
    positions: dict[int, Spot] = field(default_factory=dict)  # by car
    departed: list[int] = field(default_factory=list)  # cars
    entered: list[tuple[int, int]] = field(default_factory=list)  # (car, link): onto the cells of an edge from another
    # Out of the cells of an edge into the junction behind it.
    exited: list[tuple[int, Spot]] = field(default_factory=list)
    teleported: dict[int, Spot] = field(default_factory=dict)  # by car, out of which cells it was taken
    arrived: list[tuple[int, TripUnderWay]] = field(default_factory=list)
    earlier_positions: dict[int, Spot] = field(default_factory=dict)  # by car, of the second before
    grouped: dict[bool, CarsByLink] = field(default_factory=dict)  # positions, and earlier ones, that were asked for

    def by_link(self, is_earlier: bool = False) -> CarsByLink:
        """(car, where it is) of those on each link and in the junction behind it; is_earlier: where they were a second
        before."""
        if is_earlier not in self.grouped:
            self.grouped[is_earlier] = cars_by_link(self.earlier_positions if is_earlier else self.positions)
        return self.grouped[is_earlier]

    @property
    def time(self) -> int:
        """SUMO's time of this second, that of its begin: the clock, which is that of its end, less 1."""
        return self.clock - 1


class Follower:
    """Follows the vehicles of a run from second to second, and says what changed in each."""

    def __init__(self, mapping: Map, dawdle: float) -> None:
        """dawdle: the chance, 0 to 1, to go on by a cell a step less."""
        self.mapping, self.alone, self.inside = mapping, Alone(mapping, dawdle), Inside(mapping)
        self.trips: dict[int, TripUnderWay] = {}
        self.expected: dict[int, tuple[str, int, str]] = {}  # name, wished second, type
        self.earlier_positions: dict[int, Spot] = {}
        self.entered_at: dict[int, int] = {}  # car: the clock since which it is in a junction

    def expect_vehicle(self, car: int, name: str, wished: int, kind: str = DEFAULT) -> None:
        """Tells of a vehicle before it is seen: the second at which it would depart, its name and its type. One that
        was not told of is called # and its number."""
        self.expected[car] = name, wished, kind

    def see_second(self, clock: int, lanes: Iterable[Sequence[Any]], arrived: Iterable[int]) -> Second:
        """Takes the second that ends at a clock, and gives what it shows; called for every second, rising. Its trips,
        without those who arrived, change with the next call. lanes: [link, lane, cells, cars in the buffer, ..] as a
        folder's polls have them, empty lanes left out; arrived: cars."""
        second = Second(clock, self.trips, earlier_positions=self.earlier_positions)
        for link, lane, cells, buffer, *_ in lanes:
            for entry in cells:
                second.positions[entry[0]] = Spot(link, lane, entry[1], entry[2], size_of(entry))
            for car in buffer:
                second.positions[car] = self.follow_in_junction(car, link, lane, clock)
        for car, spot in second.positions.items():
            self.follow_vehicle(second, car, spot)
        arrived_cars = dict.fromkeys(arrived)
        lost = (
            (car, spot) for car, spot in self.earlier_positions.items()
            if car not in second.positions and car not in arrived_cars
        )  # fmt: skip
        second.teleported.update((car, spot) for car, spot in lost if spot.cell is not None)
        second.arrived = [(car, self.trips.pop(car)) for car in arrived_cars if car in self.trips]
        self.earlier_positions = second.positions
        return second

    def follow_in_junction(self, car: int, link: int, lane: int, clock: int) -> Spot:
        """Notes since when a vehicle is in the buffer of a lane, and gives where it is. It drives, at a cell a second,
        for the least time that the junction takes, but one second in any case, and then stands."""
        previous = self.earlier_positions.get(car)
        if previous is None or previous.cell is not None or previous.link != link:
            self.entered_at[car] = clock
        residence = self.mapping.nodes[self.mapping.links[link].end][3]
        driving = clock - self.entered_at[car] < max(1, residence)
        return Spot(link, lane, None, 1.0 if driving else 0.0, previous.size if previous else 1)

    def follow_vehicle(self, second: Second, car: int, spot: Spot) -> None:
        """Begins the trip of a vehicle, or goes on with it, and notes in `second` what it did since the second before;
        spot: where it is now."""
        previous, trip = self.earlier_positions.get(car), self.trips.get(car)
        if trip is None:
            name, wished, kind = self.expected.get(car, (f"#{car}", second.clock - 1, DEFAULT))
            trip = self.trips[car] = TripUnderWay(name, wished, second.clock - 1, spot, spot, kind=kind)
            second.departed.append(car)
            self.add_link(trip, spot.link)
            trip.metres -= self.mapping.links[spot.link].metres / self.mapping.links[spot.link].cells
        elif previous is None or previous.link != spot.link or (previous.cell is None and spot.cell is not None):
            if previous is not None and previous.cell is not None:
                second.teleported[car] = previous
            second.entered.append((car, spot.link))
            trip.exits.append(second.clock)
            self.add_link(trip, spot.link)
        elif spot.cell is None and previous.cell is not None:
            second.exited.append((car, previous))
        note_standing(trip, spot)
        trip.last_position = spot

    def add_link(self, trip: TripUnderWay, link: int) -> None:
        """Adds to a trip the metres and free seconds of a link that it comes to, and of the junction before. SUMO
        counts as lost what a vehicle loses by gaining speed, so it comes at the link's own limit."""
        trip.free += trip.crossing + self.alone.on_link(link, link)
        trip.crossing = self.alone.across(link)
        trip.links.append(link)
        last = trip.last_position
        trip.metres += self.mapping.links[link].metres + self.inside.metres(last.link, last.lane, link)


def note_standing(trip: TripUnderWay, spot: Spot) -> None:
    """Adds to a trip a second of standing, and a halt where that begins, if it stands where it is now (spot); else its
    standing is over."""
    if spot.speed:
        trip.standing = 0
        return
    trip.stops += trip.standing == 0
    trip.standing += 1
    trip.waiting += 1
