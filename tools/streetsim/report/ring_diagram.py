"""Measures the fundamental diagram of the rules themselves: one lane in a ring."""
from dataclasses import dataclass

from streetsim.base import limits
from streetsim.base.client import Client

CELLS = 1_000  # of the ring
LAPS = 1_000  # of each vehicle's plan
WARM_UP = 4_000  # steps before anything is measured
PERIOD = 300  # steps of a row
ROWS = 10


@dataclass(slots=True, frozen=True)
class Point:
    """One density in a ring, and the flow and speed that were measured there."""

    density: float  # vehicles a cell, of the whole ring
    flow: float  # vehicles a step, at a detector
    speed: float  # cells a step, of those who passed it

    @property
    def per_km(self) -> float:
        """Its density as vehicles a kilometre."""
        return self.density / limits.CELL_METRES * 1000

    @property
    def per_hour(self) -> float:
        """Its flow as vehicles an hour."""
        return self.flow * 3600


def measure_ring(program: str | None, vehicles: int, limit: int = 5, dawdle: int = 0) -> Point:
    """A point of the diagram, for which the program runs: a ring of 1,000 cells with so many vehicles (CELLS at most,
    as all have to enter), over ten rows of 300 steps; program: its path, None: as Client finds it; limit: cells a step;
    dawdle: of 1,000. Fault where it cannot be started."""
    with Client(program) as sim:
        sim.load(nodes=[[0, 1, 2]], links=[[0, 0, 0, 1, CELLS, limit]], turns=[[0, 0, 0, 0]], dawdle=dawdle, seed=1)
        sim.signal(0, [[600, []]])
        for _ in range(vehicles):
            sim.enter([0] * LAPS)
        for _ in range(10 * CELLS):  # red until all have entered
            if not sim.count().waiting:
                break
            sim.advance(20)
        sim.signal(0, [[600, [[0, 0, 0]]]])
        sim.advance(WARM_UP)
        meter = sim.meter(0, 0, CELLS // 2, PERIOD)
        sim.advance(PERIOD * ROWS)
        rows = sim.read(meter).rows
    passes, steps, speeds = (sum(getattr(row, name) for row in rows) for name in ("passes", "steps", "speeds"))
    return Point(vehicles / CELLS, passes / steps, speeds / max(1, passes))
