"""Drivers (dawdle and lost seconds) by a saturation survey of lanes; the prior of the calibration's fit."""
from __future__ import annotations

from collections.abc import Iterable, Sequence
from dataclasses import dataclass

from streetsim.base.arrays import numpy as np
from streetsim.model.saturation import DAWDLES, GREEN, table_of

SKIPPED = 3  # vehicles of a green, from behind which on headways count
LEAST_VEHICLES = 6  # vehicles of a green whose headways count


@dataclass(frozen=True, slots=True)
class SurveyedLane:
    """A through lane that stayed full: vehicles an hour by headways from the 4th on, vehicles a green, its seconds of
    green, and how many greens were seen. limit: of its link here, cells a step."""

    street: str
    flow: float
    per_green: float
    green: float
    greens: int
    limit: int = 2


def discharge(times: Iterable[float], begins: Iterable[float], cycle: float) -> tuple[float, float]:
    """(mean headway from the 4th vehicle on, s; vehicles a green) of the times at which vehicles of a lane that is
    always full passed its stop line, in the cycles that begin at some seconds; (nan, nan) where no green has six."""
    passed, heads, full = np.sort(np.array(list(times), float)), [], []
    for begin in begins:
        passages = passed[(passed >= begin - 1) & (passed < begin + cycle - 1)]
        if len(passages) >= LEAST_VEHICLES:
            full.append(len(passages))
            heads.append((passages[-1] - passages[SKIPPED]) / (len(passages) - SKIPPED - 1))
    return (float(np.mean(heads)), float(np.mean(full))) if full else (float("nan"), float("nan"))


def drivers_of(lane: SurveyedLane) -> tuple[float, float]:
    """(dawdle, 0 to 0.45; seconds of green's begin to cut, below 0: of yellow to drive at) by which a lane passes here
    as many in a green, at the same headways."""
    table, headway = table_of(lane.limit), 3600 / lane.flow
    dawdle = float(np.interp(headway, table[:, 0], DAWDLES))
    per_green = np.interp(dawdle, DAWDLES, table[:, 0]) * np.interp(dawdle, DAWDLES, table[:, 1])
    return dawdle, float(lane.green - lane.per_green * headway - (GREEN - per_green))


def surveyed_drivers(lanes: Sequence[SurveyedLane]) -> tuple[float, float]:
    """The mean of what lanes tell, as of drivers_of; one lane at least."""
    values = np.array([drivers_of(lane) for lane in lanes])
    return float(values[:, 0].mean()), float(values[:, 1].mean())
