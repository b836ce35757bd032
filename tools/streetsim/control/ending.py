"""When a run ends that was given no last second: all have arrived, or nobody moves any more."""
import json
from bisect import bisect_left
from functools import cached_property

from streetsim.base import limits
from streetsim.base.arrays import Array
from streetsim.base.arrays import numpy as np
from streetsim.control.buses import Buses
from streetsim.control.timed import Timed
from streetsim.kernel.loop import NEVER, Controller, Kernel
from streetsim.kernel.seconds import Block
from streetsim.model.runs import Run

MINUTE = 60  # seconds between looks
ALL_ARRIVED = "all have arrived"
HOUR = 3600  # seconds: how far the end is put off
USUAL = 7200  # seconds from the last departure to the first guess of the end


def after_departures(run: Run, seconds: int = USUAL) -> int:
    """The clock so many seconds after a run's last departure, or after its start where that is later; the greatest
    clock at most."""
    last = int(run.departs().max(initial=0))
    return min(limits.CLOCK, max(last, run.start()) + seconds)


def census_of(kernel: Kernel, block: Block) -> tuple[int, int, int]:
    """(vehicles that arrived, that were taken out, and that wished to depart by now, those entered anew among them) of
    a run whose last second is given."""
    early = kernel.entered - bisect_left(kernel.departs, kernel.clock)
    return block.arrived_count, len(kernel.vehicles.takeouts), kernel.vehicles.entered - early


def all_ended(kernel: Kernel, block: Block) -> bool:
    """Whether all vehicles of a run, whose last second is given, have departed and arrived or been taken out."""
    arrived, taken, admitted = census_of(kernel, block)
    return not kernel.is_to_come(kernel.clock) and admitted == arrived + taken


class WhenAllEnded(Controller):
    """Ends a run at the first full minute at which all vehicles have ended, if that is before its last clock."""

    def begin(self, kernel: Kernel) -> None:
        """Nobody has departed."""
        self.kernel, self.due = kernel, (kernel.start // MINUTE + 1) * MINUTE

    def next_clock(self) -> int:
        """The next full minute."""
        return self.due

    def act(self, clock: int, block: Block) -> None:
        """Looks whether all have ended."""
        self.due = clock + MINUTE
        if all_ended(self.kernel, block):
            self.kernel.until = clock


class Ending(Controller):
    """Decides, at full minutes and where its end has come, whether a run is over, and then has it end."""

    def __init__(self, buses: Buses, timed: Timed, longest: int) -> None:
        """buses, timed: of the same run; longest: seconds of the longest cycle of a light that detectors drive."""
        self.buses, self.timed, self.longest = buses, timed, longest
        self.end_reason = ""  # why the run ended, as it is told
        self.looks: list[int] = []  # clocks at which it looked, but for full minutes
        self.figures: tuple[int, ...] = ()  # of the last census that differed from the one before it
        self.since = 0  # its clock
        self.stand: Array | None = None  # who stood where at `stand_clock`, with one census for a cycle
        self.stand_clock = 0

    def begin(self, kernel: Kernel) -> None:
        """Nothing is known yet."""
        self.kernel, self.due = kernel, kernel.start

    def next_clock(self) -> int:
        """The next full minute, or the end that the run has now."""
        return min(self.due // MINUTE * MINUTE + MINUTE, self.kernel.until) if not self.end_reason else NEVER

    @cached_property
    def cycle(self) -> int:
        """The seconds of the longest signal cycle among the run's lines; 0 where it has no signals."""
        run = self.kernel.run
        lines = (*run.first, *(line for _, line in run.timed))
        signals = [json.loads(line.text) for line in lines if line.command["cmd"] == "signal"]
        return max((sum(duration for duration, _ in one["phases"]) for one in signals), default=0)

    def act(self, clock: int, block: Block) -> None:
        """Ends the run where it is over, or puts its end off by an hour where that has come, as far as the clock
        goes."""
        kernel, longest = self.kernel, max(self.cycle, self.longest)
        self.due = clock
        if clock % MINUTE:
            self.looks.append(clock)
        if all_ended(kernel, block):
            self.end(clock, ALL_ARRIVED)
        elif self.is_still(clock, block, longest):
            still = f"no vehicle has changed its cell for {clock - self.stand_clock:,} s"
            self.end(clock, f"{still}, longer than the longest cycle, {longest:,} s")
        elif clock == kernel.until and clock + HOUR > limits.CLOCK:
            self.end(clock, "the clock goes no further")
        elif clock == kernel.until:
            kernel.until = clock + HOUR

    def is_still(self, clock: int, block: Block, longest: int) -> bool:
        """Whether no vehicle has changed its cell for longer than the longest cycle of any light, none stands at a stop
        of its own, and no vehicle or line is still to come; notes what it saw, so it is asked once at each look."""
        figures = *census_of(self.kernel, block), int(np.count_nonzero(block.cell >= 0)), len(block.car)
        waits = self.kernel.is_to_come(clock) or self.timed.next_clock() < NEVER
        if waits or self.buses.fleet.is_holding or figures != self.figures:
            self.figures, self.since, self.stand = figures, clock, None
            return False
        if clock - self.since <= longest:
            return False
        stand = np.stack([block.car, block.slot, np.maximum(-1, block.cell)])
        if self.stand is None or not np.array_equal(stand, self.stand):
            self.stand, self.stand_clock = stand, clock
            return False
        return clock - self.stand_clock > longest

    def end(self, clock: int, why: str) -> None:
        """Has the run end at a clock, and keeps why."""
        self.kernel.until, self.end_reason = clock, f"ended at {clock:,} s: {why}"
