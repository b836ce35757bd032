"""How SUMO's vehicles drive alone, by what their types tell: how fast on a street, and how they gain speed.

A vehicle of SUMO's usual model drives at its own factor times the limit, and loses sigma / 2 of its accel, or of its
speed where that is less, by chance.
"""
import math
import re
from collections.abc import Callable
from dataclasses import dataclass
from functools import cache
from xml.etree.ElementTree import Element

from streetsim.base.files import FilePath, above_zero, at_least_zero, number, optional

# A normal distribution as a few points: deviations from the mean, and weights.
POINTS = ((-1.9, 0.07), (-1.2, 0.15), (-0.6, 0.2), (0.0, 0.16), (0.6, 0.2), (1.2, 0.15), (1.9, 0.07))
LEAST_FACTOR, MOST_FACTOR = 0.2, 2.0  # of a limit
SLOWEST = 0.3  # metres a second
FACTOR = re.compile(r"(?:normc?\()?\s*([-+0-9.eE]+)\s*(?:,\s*([-+0-9.eE]+)[^)]*)?\)?")
# Seconds between two of a queue that passes a light, by the square of sigma: measured in SUMO from 0 to 1.0.
BY_SIGMA = 0.83
KRAUSS = "Krauss"  # in the names of the models that have a sigma
# Measured in SUMO 1.15 with one type of each class alone; others have Driving's.
DEVIATIONS = dict.fromkeys(("taxi", "coach", "delivery", "truck", "trailer"), 0.05)
DEVIATIONS |= dict.fromkeys(("emergency", "authority", "army", "bus", "tram"), 0.0)
DEVIATIONS |= dict.fromkeys(("rail_urban", "rail", "rail_electric", "rail_fast"), 0.0)
MOST_SPEEDS = {
    **{"pedestrian": 1.39, "wheelchair": 1.39, "bicycle": 5.56, "moped": 16.67, "tram": 22.22, "bus": 27.78},
    **{"coach": 27.78, "rail_urban": 27.78, "truck": 36.11, "trailer": 36.11, "ship": 4.12},
}


@dataclass(slots=True, frozen=True)
class Driving:
    """How vehicles of a type drive, as far as it is kept; what is not told is as SUMO's usual cars have it."""

    accel: float = 2.6  # metres a second and second
    sigma: float = 0.5
    factor: float = 1.0  # of the limit, in the mean
    deviation: float = 0.1  # of the factor
    max_speed: float = 55.56  # metres a second
    apart: float = 0.0  # seconds more between two of a queue that passes a light than between usual cars

    def slowness(self, speed: float) -> float:
        """Mean seconds for a metre where speed is allowed (metres a second, above 0)."""
        return mean_slowness(self, speed)

    def lost(self, speed: float) -> float:
        """What is lost of a speed by chance, in the mean; metres a second."""
        return self.sigma / 2 * min(self.accel, speed)

    def gaining(self, speed: float, begin_speed: float = 0.0, metres: float = math.inf) -> float:
        """Seconds lost, on a street of some metres, from a first speed on until the own one where speed is allowed is
        reached; both metres a second."""
        own_speed, accel = min(self.max_speed, self.factor * speed), self.mean_accel()
        if not own_speed:
            return 0.0
        end_speed = min(max(begin_speed, own_speed), math.sqrt(begin_speed**2 + 2 * accel * metres))
        driven = (end_speed**2 - begin_speed**2) / (2 * accel)
        return max(0.0, (end_speed - begin_speed) / accel - driven / own_speed)

    def mean_accel(self) -> float:
        """Metres a second and second with which one gains speed in the mean."""
        return self.accel * (1 - self.sigma / 2)


USUAL = Driving()


@cache
def slownesses(driving: Driving, speed: float) -> tuple[tuple[float, float], ...]:
    """(seconds for a metre, share) of the vehicles of a type where speed is allowed (metres a second, above 0)."""
    shares = []
    for deviations, weight in POINTS:
        own_speed = speed * min(MOST_FACTOR, max(LEAST_FACTOR, driving.factor + deviations * driving.deviation))
        shares.append((1 / max(SLOWEST, min(driving.max_speed, own_speed) - driving.lost(own_speed)), weight))
    return tuple(shares)


@cache
def mean_slowness(driving: Driving, speed: float) -> float:
    """Mean seconds for a metre, as Driving.slowness says."""
    return sum(seconds * share for seconds, share in slownesses(driving, speed))


def driving_of(path: FilePath, element: Element, accel: float, vclass: str) -> Driving:
    """How vehicles of a type drive, by its element; accel: its own (metres a second and second), vclass: its class,
    whose defaults count otherwise. Fault where an attribute is no number."""
    factor, deviation = optional(path, element, "speedFactor", factor_and_deviation, (1.0, None))
    if deviation is None:
        deviation = DEVIATIONS.get(vclass, USUAL.deviation)
    deviation = optional(path, element, "speedDev", at_least_zero(number), deviation)
    sigma = optional(path, element, "sigma", at_least_zero(number), USUAL.sigma)
    most = optional(path, element, "maxSpeed", above_zero(number), MOST_SPEEDS.get(vclass, USUAL.max_speed))
    has_sigma = KRAUSS in element.get("carFollowModel", KRAUSS)
    if not has_sigma:
        return Driving(accel, 0.0, factor, deviation, most)
    sigma = min(1.0, sigma)
    return Driving(accel, sigma, factor, deviation, most, round(BY_SIGMA * (sigma**2 - USUAL.sigma**2), 3))


def factor_and_deviation(text: str) -> tuple[float, float | None]:
    """The mean of a speedFactor and its deviation, None where it tells none: a number, or one of SUMO's normal
    distributions, as normc(1,0.1,0.2,2). ValueError otherwise."""
    found = FACTOR.fullmatch(text.strip())
    if not found:
        raise ValueError(text)
    positive: Callable[[str], float] = above_zero(number)
    return positive(found[1]), at_least_zero(number)(found[2]) if found[2] else None
