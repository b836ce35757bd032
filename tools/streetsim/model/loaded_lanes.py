"""What speaks against a forecast by how full lanes are in it: lefts that give way and were not surveyed, and growth
near capacity."""
from __future__ import annotations

from collections.abc import Iterator, Mapping, Sequence

from streetsim.base.report import first_few
from streetsim.model.fullness import LEFT_TURN, MERGING, FullLane
from streetsim.model.mapping import Map

LOADED = 0.85  # of what a lane passes whose lefts give way, above which they want a survey
NEARLY_FULL = 0.9  # the same of any lane, above which growth is doubted
GROWTH = 1.02  # times as many vehicles are growth


def loaded_lanes(mapping: Map, at_lights: Sequence[FullLane] | None = None) -> dict[str, FullLane]:
    """By lane the nearly full ones of a demand, without approaches whose share of permissive greens was surveyed.
    at_lights: those at lights, where these show other plans than those of the import."""
    surveyed, lanes = {edge for edge, _ in mapping.options.get("shares", ())}, list(mapping.full.lanes)
    if at_lights is not None:
        lanes = [one for one in lanes if one.way == MERGING] + list(at_lights)
    return {one.lane: one for one in lanes if one.source not in surveyed}


def forecast_doubts(
    variant_lanes: Mapping[str, FullLane], base_lanes: Mapping[str, FullLane], growth: float
) -> Iterator[str]:
    """What speaks against a variant by its nearly full lanes and those of the base: lefts that it loads above LOADED
    and the base does not, and growth (times the vehicles of the base) where lanes are above NEARLY_FULL."""
    lefts = [
        full_lane for lane, full_lane in variant_lanes.items()
        if full_lane.way == LEFT_TURN and full_lane.demand > LOADED
        and (lane not in base_lanes or base_lanes[lane].demand <= LOADED)
    ]
    if lefts:
        told = first_few([full_lane.in_words() for full_lane in lefts], 3)
        yield f"lefts that give way, without a survey (streetsim-import --permissive EDGE=SHARE): {told}"
    full = [full_lane for full_lane in variant_lanes.values() if full_lane.demand > NEARLY_FULL]
    if growth > GROWTH and full:
        told = first_few([full_lane.in_words() for full_lane in full], 3)
        yield f"growth above 0.9 of what passes, where forecasts came out too small: {told}"
