"""Rescues of vehicles that stand for too long."""
from collections import Counter

from streetsim.base.arrays import numpy as np
from streetsim.kernel.loop import NEVER, Controller, Kernel
from streetsim.kernel.seconds import READY, Block
from streetsim.model.knots import Rescued

MINUTE = 60  # seconds between looks at who stands


class Rescue(Controller):
    """At full minutes takes out each vehicle that stands at a stop line, or is first in a buffer, for so many seconds,
    and enters it anew on the rest of its plan; one on its last link stays. The seconds count, at a stop line, from the
    first of the looks in a row that showed it there; in a buffer from the clock from which it may go on, though others
    were before it."""

    def __init__(self, seconds: int) -> None:
        """seconds: of standing; 0: nobody is rescued."""
        self.seconds = seconds
        self.standing: dict[tuple[int, int], int] = {}  # by (car, link): the clock since which it stands there
        self.count: Counter[int] = Counter()  # rescues, by vehicle of the file
        self.clocks: list[int] = []  # of rescues, rising
        self.rescued: list[Rescued] = []  # the same, with their places

    def begin(self, kernel: Kernel) -> None:
        """Nobody stands yet."""
        self.kernel, self.due = kernel, (kernel.start // MINUTE + 1) * MINUTE if self.seconds else NEVER
        self.last_cell = np.repeat([link.cells - 1 for link in kernel.map.links], 2)

    def next_clock(self) -> int:
        """The next full minute."""
        return self.due

    def act(self, clock: int, now: Block) -> None:
        """Notes who stands, and rescues those who have for long enough; at the run's last clock nobody is rescued."""
        self.due = clock + MINUTE
        car, slot, cell, on = now.car, now.slot, now.cell, now.cell >= 0
        begins = np.append(True, (slot[1:] != slot[:-1]) | (on[1:] != on[:-1]))[: len(car)]
        fronts = np.flatnonzero(begins & (~on | ((cell == self.last_cell[slot]) & (now.speed == 0))))
        found = sorted(zip(*(one[fronts].tolist() for one in (slot, on, car, cell))))  # of a lane the buffer first
        known, self.standing = self.standing, {}
        for lane, here, number, spot in found:
            key = number, lane // 2
            self.standing[key] = known.get(key, clock) if here else spot & READY
        if clock < self.kernel.until:
            for key in [key for key, since in self.standing.items() if clock - since >= self.seconds]:
                self.take_and_enter(clock, key[0], self.standing.pop(key))

    def take_and_enter(self, clock: int, car: int, since: int) -> None:
        """Takes a car, by its number in the program, out and enters its vehicle anew on the next link of its plan;
        nothing where it is on its last link. since: the clock from which on it stood."""
        kernel = self.kernel
        [vehicle] = kernel.ask_vehicles([car])
        rest = list(vehicle.plan[1:])
        if not rest:
            return
        lane = next((turn.lane for turn in kernel.map.turns if [turn.link, turn.next] == rest[:2]), 0)
        command = {"cmd": "enter", "plan": rest, "lane": lane, "depart": clock}
        if vehicle.size > 1:
            command["size"] = vehicle.size
        kernel.reenter(car, command)
        self.clocks.append(clock)
        takeout = kernel.vehicles.takeouts[-1]
        self.rescued.append(Rescued(clock, since, takeout.slot // 2, not takeout.on_lane))
        self.count[int(kernel.vehicles.owner[car])] += 1
