"""What a lane of the machine that is always full passes, by how its vehicles dawdle and by its limit."""
from __future__ import annotations

from streetsim.base.arrays import Array
from streetsim.base.arrays import numpy as np

GREEN = 36  # seconds of the greens of the table
DAWDLES = (0.0, 0.05, 0.1, 0.15, 0.17, 0.2, 0.25, 0.3, 0.35, 0.4, 0.45)
# By the limit of a link (cells a step): of a lane that is always full, the mean headway from the 4th vehicle on (s) and
# the vehicles of a green of 36 s, for each of DAWDLES. Made by bench/run saturation.
FULL_LANES: dict[int, tuple[tuple[float, float], ...]] = {
    1: (
        (2.0000, 18.00), (2.3567, 15.77), (2.6231, 14.32), (2.8667, 13.18), (2.9839, 12.71), (3.1150, 12.11),
        (3.3968, 11.21), (3.7082, 10.32), (4.0676, 9.53), (4.5211, 8.71), (4.8120, 7.97),
    ),
    2: (
        (1.5000, 24.00), (1.6788, 21.46), (1.8087, 20.03), (1.9650, 18.59), (2.0156, 18.18), (2.1075, 17.43),
        (2.2697, 16.26), (2.4218, 15.22), (2.6384, 14.14), (2.8056, 13.31), (3.0424, 12.27),
    ),
    3: (
        (1.5263, 23.00), (1.5609, 22.77), (1.6376, 21.73), (1.7415, 20.52), (1.7971, 19.91), (1.8687, 19.18),
        (2.0109, 17.88), (2.1632, 16.77), (2.3521, 15.52), (2.5408, 14.33), (2.7641, 13.27),
    ),
    4: (
        (1.4286, 25.00), (1.4783, 23.90), (1.5789, 22.48), (1.6968, 21.02), (1.7424, 20.48), (1.8249, 19.64),
        (1.9697, 18.24), (2.1200, 16.96), (2.3072, 15.77), (2.5074, 14.51), (2.7262, 13.44),
    ),
    5: (
        (1.4286, 25.00), (1.4637, 24.13), (1.5653, 22.66), (1.6709, 21.27), (1.7266, 20.62), (1.8157, 19.71),
        (1.9575, 18.34), (2.1063, 17.02), (2.2992, 15.79), (2.5051, 14.51), (2.7248, 13.44),
    ),
}


def table_of(limit: int) -> Array:
    """The rows of FULL_LANES of a limit, as an array; those of the nearest one where there is none."""
    return np.array(FULL_LANES[min(FULL_LANES, key=lambda one: abs(one - limit))])


def headway_here(dawdle: float, limit: int) -> float:
    """The mean headway (s) of a full lane here, from the 4th vehicle on."""
    return float(np.interp(dawdle, DAWDLES, table_of(limit)[:, 0]))


def flow_here(dawdle: float, limit: int) -> float:
    """Vehicles an hour of a full lane here, by headways from the 4th vehicle on."""
    return 3600 / headway_here(dawdle, limit)
