"""The seconds at which lanes are sampled, for means of vehicles and speeds: those of polls, where there are enough."""
from dataclasses import dataclass
from math import floor

from streetsim.base.arrays import Array
from streetsim.base.arrays import numpy as np

SAMPLES = 30  # samples of a lane in a period are enough for its mean speed and density
RICH = 10  # so many polls of all lanes in a period do as well
GOLDEN = 0.6180339887498949


@dataclass(frozen=True, slots=True)
class Samples:
    """The clocks at which lanes are sampled: those of polls each `every` seconds, or `count` in each period of so many
    seconds, spread evenly but not at equal intervals, which could fall in with a signal's cycle."""

    start: int  # the run's first clock
    period: int  # seconds
    every: int  # seconds between polls of all lanes; 0: they are not those of polls
    count: int  # samples in a period, where they are not those of polls; 0: none ever

    def clocks_in(self, at: int) -> list[int]:
        """The clocks of the samples in a period, by its number from 0, where they are not those of polls; they rise,
        and lie after its begin."""
        size = self.period / max(1, self.count)
        shares = ((number + at * self.count) * GOLDEN % 1 for number in range(self.count))
        first = self.start + at * self.period + 1
        return [first + floor((number + share) * size) for number, share in enumerate(shares)]

    def among(self, clocks: Array) -> Array:
        """By second, but for second 0, whether lanes are sampled; clocks: as of Seconds."""
        if self.every:
            is_sampled = clocks % self.every == 0
        else:
            first, last = ((clock - self.start) // self.period for clock in (int(clocks[0]), int(clocks[-1])))
            samples = [sample for at in range(first, last + 1) for sample in self.clocks_in(at)]
            is_sampled = np.isin(clocks, samples)
        is_sampled[0] = False
        return is_sampled

    @property
    def has_samples(self) -> bool:
        """Whether lanes are sampled at all."""
        return bool(self.every or self.count)


def samples_of(start: int, period: int, every: int) -> Samples:
    """The samples of a run; every: seconds between polls of all lanes, 0: there are none."""
    if every and period >= RICH * every:
        return Samples(start, period, every, 0)
    return Samples(start, period, 0, min(SAMPLES, period // 2))
