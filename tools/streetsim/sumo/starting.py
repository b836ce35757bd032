"""Vehicles that start slowly at lights: in SUMO those behind them wait too, and here all start alike."""
from collections import Counter
from collections.abc import Mapping, Sequence
from itertools import pairwise
from statistics import fmean

from streetsim.model.starting import SlowStarts
from streetsim.sumo.demand import DemandVehicle
from streetsim.sumo.driving import USUAL, Driving
from streetsim.sumo.greens import USUAL_SPEED
from streetsim.sumo.net import SumoNet

LONGER = 2.0  # seconds that a start takes longer than one of usual cars, from which on it is slow


def slow_starts(net: SumoNet, vehicles: Sequence[DemandVehicle], drivings: Mapping[str, Driving]) -> SlowStarts | None:
    """Who of a demand starts slowly and passes lights; None where nobody does. drivings: by type, usual ones where it
    has none."""
    lit = {(one.source, one.target): net.edges[one.source].end for one in net.connections if one.light}
    longer = {name: one.gaining(USUAL_SPEED) - USUAL.gaining(USUAL_SPEED) for name, one in drivings.items()}
    slow = (vehicle for vehicle in vehicles if longer.get(vehicle.type, 0.0) >= LONGER)
    met = [(one.type, pairs) for one in slow if (pairs := lit.keys() & set(pairwise(one.edges)))]
    if not met:
        return None
    passed = Counter(pair for _, pairs in met for pair in pairs)
    most = min(passed, key=lambda pair: (-passed[pair], pair))
    seconds = fmean(longer[kind] for kind, _ in met)
    return SlowStarts(lit[most], *most, round(seconds, 1), len(met), len(vehicles))
