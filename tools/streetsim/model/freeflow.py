"""How long a plan takes where nobody is in the way."""
from __future__ import annotations

from array import array
from collections.abc import Sequence
from functools import lru_cache

from streetsim.model.mapping import Map

FAR = 1_000  # cells, after which a vehicle alone has its mean speed
SLOWEST = 0.001  # cells a step: the least mean speed, also where nobody ever moves (a limit of 1, dawdle 1,000)


class FreeFlow:
    """Seconds of plans: cells at the free speed (driving, by link), and the residence at each node crossed (crossing,
    by the link before it). It leaves out lights, the part of a second that is lost at a link's end, and how a vehicle
    gains speed."""

    def __init__(self, mapping: Map, dawdle: float) -> None:
        """dawdle: the chance, 0 to 1, to go on by a cell a step less; mean speeds are SLOWEST at least."""
        self.driving = [link.cells / max(SLOWEST, link.limit - dawdle) for link in mapping.links]
        self.crossing = [mapping.nodes[link.end][3] for link in mapping.links]

    def __call__(self, plan: Sequence[int]) -> float:
        """Seconds of a plan, one link at least, from the begin of its first link to the end of its last."""
        driving, crossing = self.driving, self.crossing
        return sum(driving[link] for link in plan) + sum(crossing[link] for link in plan[:-1])


class Alone:
    """Mean seconds of vehicles alone on their way, all lights green: what delays and losses are counted from."""

    def __init__(self, mapping: Map, dawdle: float) -> None:
        """dawdle: the chance, 0 to 1, to go on by a cell a step less; above 0.999 it counts as 0.999."""
        self.mapping, self.slower = mapping, min(dawdle, 0.999)

    def on_link(self, link: int, before: int | None) -> float:
        """Mean seconds in a link's cells, of one who comes from `before` at its limit, or departs here (none)."""
        links = self.mapping.links
        speed = 0 if before is None else links[before].limit
        return seconds_alone(links[link].cells, links[link].limit, self.slower, speed)

    def across(self, link: int) -> float:
        """Seconds in the junction at the end of a link: the least that a vehicle stays in it."""
        return self.mapping.nodes[self.mapping.links[link].end][3]

    def approach(self, plan: Sequence[int], at: int) -> float:
        """Mean seconds on the link at a position of a plan, from 0, and in the junction behind it."""
        return self.on_link(plan[at], plan[at - 1] if at else None) + self.across(plan[at])

    def trip(self, plan: Sequence[int]) -> float:
        """Mean seconds of a plan from the wished departure to arrival; in the first of them a vehicle stands."""
        return 1 + sum(self.approach(plan, at) for at in range(len(plan))) - self.across(plan[-1])


def seconds_alone(cells: int, limit: int, slower: float, speed: int) -> float:
    """The mean steps of a vehicle alone, which begins with a speed, until it has left `cells` cells behind; limit,
    speed: cells a step, beyond the limit as at it; slower: the chance, 0 to below 1, to go on by a cell less."""
    found = steps_by_cells(limit, slower)[min(speed, limit)]
    return found[min(cells, FAR)] + max(0, cells - FAR) / (limit - slower)


@lru_cache(maxsize=1_000)
def steps_by_cells(limit: int, slower: float) -> list[array[float]]:
    """By speed, and then by cells (0 to 1,000) that are to be left behind: the mean steps of a vehicle alone that gains
    a cell a step in each step, up to the limit, and with the chance `slower` goes on by one less."""
    steps_by_speed = [array("d", [0.0]) for _ in range(limit + 1)]
    for cells in range(1, FAR + 1):
        for speed, steps in enumerate(steps_by_speed):
            fast = min(limit, speed + 1)
            if fast == 1:  # who goes on by one less stands, and tries again
                steps.append(1 / (1 - slower) + steps_by_speed[1][cells - 1])
            else:
                behind, less = (steps_by_speed[gone][max(0, cells - gone)] for gone in (fast, fast - 1))
                steps.append(1 + (1 - slower) * behind + slower * less)
    return steps_by_speed
