"""Lights that detectors drive, whose detectors are reckoned from the record."""
from __future__ import annotations

from collections.abc import Iterable
from functools import partial

from streetsim.base import limits
from streetsim.base.arrays import Array, numpy as np
from streetsim.control.actuated_driver import Driver, Senses
from streetsim.kernel.loop import NEVER, Controller, Kernel
from streetsim.kernel.seconds import Block, Vehicles
from streetsim.model.runs import Command

LENGTH = limits.CELLS + 1  # cells of a lane, and one beyond them


class Lights(Controller):
    """Lights that detectors drive. With detectors it sees each second."""

    def __init__(self, driver: Driver) -> None:
        """driver: of the lights of the run."""
        self.driver = driver

    def begin(self, kernel: Kernel) -> None:
        """Sends what the lights show at the begin."""
        self.kernel, self.clock = kernel, kernel.start + 1
        if cells := self.driver.cells:
            self.sensors = Sensors([(one.link, one.lane, one.cell) for one in cells], kernel.vehicles)
        kernel.send(self.driver.begin_lights(kernel.start))

    def next_clock(self) -> int:
        """The next second; without detectors that at which a light is to be looked at."""
        if not self.driver.controllers:
            return NEVER
        return self.clock if self.driver.cells else max(self.clock, self.driver.next_clock())

    def commands_before_line(self, clock: int, command: Command) -> list[Command]:
        """Leaves a light alone that has a plan of the run's own."""
        if command["cmd"] == "signal":
            self.driver.stop(command["node"], clock)
        return []

    def act(self, clock: int, now: Block) -> None:
        """Notes what detectors show, and sends what the lights show that are due."""
        self.clock = clock + 1
        if self.driver.cells:
            self.sensors.note_second(clock, now)
        if self.driver.next_clock() <= clock:
            senses = Senses(partial(self.gap, clock), self.kernel.lane_now)
            self.kernel.send(self.driver.commands_after_look(clock, senses))

    def gap(self, clock: int, detector: int) -> float:
        """The seconds since a detector last had anybody; those since the run's begin, 32 at most, where it had nobody
        since: as in SUMO it is as if somebody had left then."""
        return clock - max(self.sensors.last_clock[detector], self.kernel.start, clock - limits.ROWS)


class Sensors:
    """When detectors last had anybody: by detector the clock from which its gap counts, half a second sooner where a
    vehicle passed within a second."""

    def __init__(self, detectors: Iterable[tuple[int, int, int]], vehicles: Vehicles) -> None:
        """detectors: (link, lane, cell) of each."""
        keys = np.array([(2 * link + lane) * LENGTH + cell for link, lane, cell in detectors], np.int64)
        self.order = np.argsort(keys, kind="stable")
        self.keys, self.vehicles = np.append(keys[self.order], np.iinfo(np.int64).max), vehicles
        self.last_clock = np.full(len(keys), -np.inf)
        # By car: its link and cell a second ago.
        self.link, self.cell = np.full(limits.VEHICLES, -1), np.zeros(limits.VEHICLES, np.int64)

    def note_second(self, clock: int, block: Block) -> None:
        """Takes each second. A detector counts who passed in the second, and who covers its cell at its end."""
        columns = zip((block.car, block.slot, block.cell), block.arrived, strict=True)
        car, slot, cell = (np.concatenate([one, more]) for one, more in columns)
        is_on_cells = cell >= 0
        front = np.where(is_on_cells, cell, LENGTH - 1)  # who has left is beyond all cells
        base = slot * np.int64(LENGTH)
        stayed = self.link[car] == slot // 2
        self.mark(stayed, base + self.cell[car], base + front, clock - 0.5)
        rear = np.maximum(0, cell - self.vehicles.size[car] + 1)
        self.mark(is_on_cells, base + rear, base + cell + 1, clock)
        self.link[car], self.cell[car] = np.where(is_on_cells, slot // 2, -1), cell

    def mark(self, rows: Array, begin: Array, end: Array, clock: float) -> None:
        """Marks the detectors from one key to another, by row, that one left out; few rows have any."""
        low = np.searchsorted(self.keys, begin)
        for row in np.flatnonzero(rows & (self.keys[low] < end)).tolist():
            self.last_clock[self.order[low[row] : np.searchsorted(self.keys, end[row])]] = clock
