"""Gaps in random traffic: how many vehicles find one.

As in the Highway Capacity Manual (2010, signalized intersections: permitted left turns), with its critical headway of
4.5 s and its follow-up headway of 2.5 s, which are cited from memory.
"""
import math

CRITICAL_GAP = 4.5  # seconds
FOLLOW_UP = 2.5  # seconds between two that use one gap


def gap_capacity(flow: float) -> float:
    """Vehicles an hour that find a gap in a stream of flow vehicles an hour; infinite where that is 0."""
    if flow <= 0:
        return math.inf
    return flow * math.exp(-flow * CRITICAL_GAP / 3600) / -math.expm1(-flow * FOLLOW_UP / 3600)


def until_first(vehicles: float, share: float) -> float:
    """How many of some vehicles pass before the first one that waits, on average; share: that waits, above 0 to 1."""
    return (1 - share) * (1 - (1 - share) ** vehicles) / share
