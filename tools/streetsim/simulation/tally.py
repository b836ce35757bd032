"""What is noted of each second: how long vehicles have stood, how far they have come, and who passed induction
loops."""
from collections.abc import Iterable, Sequence
from typing import NamedTuple

from streetsim.base import limits
from streetsim.base.arrays import Array, numpy as np
from streetsim.model.detectors import Detector
from streetsim.model.inside import Inside
from streetsim.model.mapping import MapLink
from streetsim.simulation.fleet import Fleet
from streetsim.simulation.view import FleetSecond, SecondObserver, View

MOST_SECONDS = 512  # seconds that are kept before they are summed up
BEYOND = limits.CELLS  # a cell that no lane has


class SecondRows(NamedTuple):
    """The vehicles of a second, as columns."""

    number: Array
    slot: Array
    speed: Array


class Tally(SecondObserver):
    """Standing, lost time and distance of vehicles, by the numbers of the fleet. Seconds are kept as they come, and
    summed up when it is asked for what they say: most scripts ask for some of it, or for nothing."""

    def __init__(
        self, view: View, fleet: Fleet, links: Sequence[MapLink], inside: Inside, dawdle: float
    ) -> None:  # fmt: skip
        """view: of the same run, which knows who enters anew, and sees each second after this; links: of its map;
        dawdle: the chance, 0 to 1, to go on by a cell less."""
        self.view, self.fleet, self.inside, self.links = view, fleet, inside, links
        self.free = np.repeat([link.limit - dawdle for link in self.links], 2)
        self.standing_now, self.standing_ever = (np.zeros(limits.VEHICLES, np.int64) for _ in range(2))  # seconds
        self.lost_so_far, self.metres_behind = (np.zeros(limits.VEHICLES) for _ in range(2))  # seconds; metres
        self.reached = np.zeros(limits.VEHICLES, np.int64)  # 1 more than the position in the plan of the link
        self.slot = np.zeros(limits.VEHICLES, np.int64)  # 1 more than that of a second ago; 0: not seen
        self.seconds: list[SecondRows] = []  # the seconds that are not all summed up yet
        self.summed = dict.fromkeys(("now", "ever", "lost", "lanes"), 0)  # how many of them are, by what they sum up to

    def note_second(self, second: FleetSecond) -> None:
        """Takes the next second."""
        number, slot, speed = second.number, second.slot, second.speed
        if self.view.reentry_lanes:
            seen = set(number.tolist())
            held = np.array([pair for pair in self.view.reentry_lanes.items() if pair[0] not in seen], int)
            held = held.reshape(-1, 2)
            number, slot = np.append(number, held[:, 0]), np.append(slot, held[:, 1])
            speed = np.append(speed, np.zeros(len(held), int))
        self.seconds.append(SecondRows(number, slot, speed))
        if len(self.seconds) >= MOST_SECONDS:
            self.sum_all()

    def sum_all(self) -> None:
        """Sums up all that is kept."""
        for sum_up in (self.sum_now, self.sum_ever, self.sum_lost, self.sum_lanes):
            sum_up()
        self.seconds, self.summed = [], dict.fromkeys(self.summed, 0)

    def is_due(self, name: str) -> bool:
        """Whether seconds are kept that are not summed up to something."""
        return self.summed[name] < len(self.seconds)

    def rows_to_sum(self, name: str) -> SecondRows:
        """The seconds that are not summed up to something, behind each other; now they count as summed up."""
        rows, self.summed[name] = self.seconds[self.summed[name] :], len(self.seconds)
        return rows[0] if len(rows) == 1 else SecondRows(*map(np.concatenate, zip(*rows)))

    def sum_now(self) -> None:
        """Sums up for how long each has stood without a break."""
        if self.is_due("now"):
            number, _, speed = self.rows_to_sum("now")
            order = np.argsort(number, kind="stable")
            number, moves = number[order], speed[order] != 0
            begins = np.append(0, (number[1:] != number[:-1]).nonzero()[0] + 1) if len(number) else order
            ends, row = np.append(begins[1:], len(number)), np.arange(len(number))
            last_move = np.maximum.reduceat(np.where(moves, row, -1), begins) if len(number) else order
            vehicles = number[begins]
            still = self.standing_now[vehicles] + ends - begins  # of those that have not moved
            self.standing_now[vehicles] = np.where(last_move >= begins, ends - 1 - last_move, still)

    def sum_ever(self) -> None:
        """Sums up for how long each has stood in all."""
        if self.is_due("ever"):
            number, _, speed = self.rows_to_sum("ever")
            standing = np.bincount(number[speed == 0])
            self.standing_ever[: len(standing)] += standing

    def sum_lost(self) -> None:
        """Sums up what was lost, second by second, so that it does not hang on when it is asked for."""
        if self.is_due("lost"):
            alone = self.summed["lost"] == len(self.seconds) - 1
            number, slot, speed = self.rows_to_sum("lost")
            if alone:  # each vehicle has one row
                self.lost_so_far[number] += 1 - speed / self.free[slot]
            else:
                np.add.at(self.lost_so_far, number, 1 - speed / self.free[slot])

    def sum_lanes(self) -> None:
        """Sums up who came to another lane."""
        if self.summed["lanes"] == len(self.seconds) - 1:  # one second alone, in which each vehicle has one row
            number, slot, _ = self.rows_to_sum("lanes")
            previous_slot = self.slot[number] - 1
            self.slot[number] = slot + 1
            self.note_lane_changes(number, previous_slot, slot)
        elif self.is_due("lanes"):
            number, slot, _ = self.rows_to_sum("lanes")
            order = np.argsort(number, kind="stable")
            number, slot = number[order], slot[order]
            is_first = np.append(True, number[1:] != number[:-1])[: len(number)]
            previous_slot = np.where(is_first, self.slot[number] - 1, np.append(0, slot[:-1])[: len(slot)])
            self.slot[number] = slot + 1  # of each vehicle the last one counts
            self.note_lane_changes(number, previous_slot, slot)

    def note_lane_changes(self, number: Array, previous_slot: Array, slot: Array) -> None:
        """Notes which vehicles came to another lane, by rows of the lanes where they were and are; as of enter_lane."""
        rows = (previous_slot >> 1 != slot >> 1).nonzero()[0]
        for lane_change in zip(number[rows].tolist(), previous_slot[rows].tolist(), slot[rows].tolist()):
            self.enter_lane(*lane_change)

    @property
    def waiting(self) -> Array:
        """Seconds for which each has stood without a break."""
        self.sum_now()
        return self.standing_now

    @property
    def waited(self) -> Array:
        """Seconds for which each has stood in all."""
        self.sum_ever()
        return self.standing_ever

    @property
    def lost(self) -> Array:
        """Seconds that each has lost against free driving."""
        self.sum_lost()
        return self.lost_so_far

    @property
    def travelled(self) -> Array:
        """Metres of the links and junctions that each has left behind."""
        self.sum_lanes()
        return self.metres_behind

    def position(self, number: int) -> int:
        """The position in its plan of the link where a vehicle is; -1 where it was not seen."""
        self.sum_lanes()
        return int(self.reached[number]) - 1

    def enter_lane(self, number: int, previous_slot: int, slot: int) -> None:
        """Notes that a vehicle came from a lane (as twice the link and the lane; below 0: it departed) to another."""
        link, previous_link = slot >> 1, previous_slot >> 1
        self.reached[number] = self.fleet.plans[number].index(link, self.reached[number]) + 1
        if previous_slot >= 0:
            inside = self.inside.metres(previous_link, previous_slot & 1, link)
            self.metres_behind[number] += self.links[previous_link].metres + inside


class LoopTally(SecondObserver):
    """Who was on induction loops in the last second, and when anybody was last. Seconds are kept as they come, and
    looked at when it is asked for."""

    def __init__(self, detectors: Sequence[Detector]) -> None:
        """detectors: the loops, by cells."""
        self.detectors = sorted(detectors, key=key_of)
        self.keys = np.array([key_of(detector) for detector in self.detectors], np.int64)
        self.index_of = {detector.name: index for index, detector in enumerate(self.detectors)}
        self.last_clocks = np.zeros(len(detectors), np.int64)  # by index the clock at which one was last on it; 0: none
        self.clocks: dict[str, int] | None = None  # the same by name, once it was asked for
        self.passing: dict[str, list[int]] = {}  # vehicles of the last second, by the fleet's numbers, by loop
        self.seconds: list[FleetSecond] = []
        # By vehicle where it was a second ago: 1 more than its lane, as twice the link and the lane, 0: on none; cell.
        self.slot, self.cell = (np.zeros(limits.VEHICLES, np.int64) for _ in range(2))

    def note_second(self, second: FleetSecond) -> None:
        """Takes the next second."""
        if self.detectors:
            self.seconds.append(second)
            if len(self.seconds) >= MOST_SECONDS:
                self.sum_up()

    def vehicles_on(self, name: str) -> list[int]:
        """The vehicles, by the fleet's numbers, that were on a loop in the last second."""
        self.sum_up()
        return self.passing.get(name, [])

    def last_clock(self, name: str) -> int:
        """The clock at which anybody was last on a loop; 0 where nobody was."""
        if self.seconds:
            self.sum_up()
        if self.clocks is None:
            self.clocks = dict(zip(self.index_of, self.last_clocks.tolist()))
        return self.clocks[name]

    def sum_up(self) -> None:
        """Looks at the seconds that are kept."""
        if self.seconds:
            seconds, self.seconds, self.passing, self.clocks = self.seconds, [], {}, None
            number, slot, cell = (np.concatenate(parts) for parts in zip(*map(rows_with_arrivals, seconds)))
            rows_of_each = [len(second.number) + len(second.arrived) for second in seconds]
            clocks = np.repeat([second.clock for second in seconds], rows_of_each)
            order, low, high = self.loops_passed(number, slot, cell)
            for row, loop in self.passed_last(order, low, high, clocks) if len(clocks) else ():
                if clocks[row] == seconds[-1].clock:
                    self.passing.setdefault(self.detectors[loop].name, []).append(int(number[row]))

    def loops_passed(self, number: Array, slot: Array, cell: Array) -> tuple[Array, Array, Array]:
        """(the order of rows by vehicle and clock; in this order the first loop on which each stands or over which it
        drove in the second before, and the one behind the last). Rows: of where vehicles are, by clock; a cell below 0
        is behind the stop line."""
        order = np.argsort(number, kind="stable")
        number, slot, cell, is_on_lane = number[order], slot[order], cell[order], cell[order] >= 0
        is_same_vehicle = np.append(False, number[1:] == number[:-1])[: len(number)]
        known_slot = np.where(is_on_lane, slot + 1, 0)
        old_slot = np.where(is_same_vehicle, np.append(0, known_slot[:-1])[: len(known_slot)], self.slot[number])
        old_cell = np.where(is_same_vehicle, np.append(0, cell[:-1])[: len(cell)], self.cell[number])
        self.slot[number], self.cell[number] = known_slot, cell  # of each vehicle the last row counts
        previous_cell = np.where((old_slot - 1) >> 1 == slot >> 1, old_cell, BEYOND)
        front = np.where(is_on_lane, cell, BEYOND - 1)
        begin = slot * BEYOND + np.minimum(previous_cell, front + ~is_on_lane)
        low, high = np.searchsorted(self.keys, begin), np.searchsorted(self.keys, slot * BEYOND + front, side="right")
        return order, low, high

    def passed_last(self, order: Array, low: Array, high: Array, clocks: Array) -> Iterable[tuple[int, int]]:
        """Notes when loops were passed, by what loops_passed gives and the clock of each row, one at least; gives
        (row, a loop that it passed) of the last clock, by rows."""
        passing = np.flatnonzero(low < high)
        passing = passing[np.argsort(order[passing])]
        counts, rows = (high - low)[passing], order[passing]
        loops = np.repeat(low[passing] - np.cumsum(counts) + counts, counts) + np.arange(counts.sum())
        rows = np.repeat(rows, counts)
        np.maximum.at(self.last_clocks, loops, clocks[rows])
        is_last_clock = clocks[rows] == clocks[-1]
        return zip(rows[is_last_clock].tolist(), loops[is_last_clock].tolist())


def rows_with_arrivals(second: FleetSecond) -> tuple[Array, Array, Array]:
    """(vehicles, lanes, cells) of a second, those among them that arrived, who are behind their stop line."""
    if not len(second.arrived):
        return second.number, second.slot, second.cell
    number, slot = np.append(second.number, second.arrived), np.append(second.slot, second.slots_left)
    return number, slot, np.append(second.cell, np.full(len(second.arrived), -1))


def key_of(detector: Detector) -> int:
    """The key of a detector's cell, by lanes and on each by cells."""
    return (2 * detector.link + detector.lane) * BEYOND + detector.first
