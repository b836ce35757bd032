"""Lanes that are nearly full by the demand, at lights and where lanes become one: SUMO's queues grow there, and may
grow otherwise here."""
from collections import Counter, defaultdict
from collections.abc import Collection, Iterable, Iterator, Mapping, Sequence
from dataclasses import replace
from itertools import chain, pairwise
from typing import Protocol

from streetsim.model.fullness import (
    LEFT_TURN, MERGING, RIGHT_TURN, STRAIGHT, TURNAROUND, FullLane, Fullness, filled,
)  # fmt: skip
from streetsim.sumo.crossing import Crossing, CrossingMovement, EdgePair, Flows, hourly_flows
from streetsim.sumo.demand import DemandVehicle
from streetsim.sumo.lane_capacity import capacity, crossings_of, least_capacity
from streetsim.sumo.merges import Merge
from streetsim.sumo.net import SumoNet

PART_SECONDS, LEAST_PART = 900, 1 / 8  # that are looked at alone; share of the vehicles, below which these are not
LEAST_FLOW = 30.0  # vehicles an hour of a lane
# Shares of what can pass, from which on a lane at a light is nearly full: where some wait for gaps, and where none do.
FULL, FULL_IN_TURN = 0.8, 1.0
WAYS = {"l": LEFT_TURN, "r": RIGHT_TURN, "t": TURNAROUND}  # by SUMO's directions; others are STRAIGHT
LaneAndPairs = tuple[FullLane, Collection[EdgePair]]  # and the edge pairs of those who pass it
Times = tuple[int, int]  # begin and end, seconds
WHOLE_DEMAND = 0, 0  # times of the whole demand


class OnWay(Protocol):
    """A vehicle of a demand, or of a run."""

    @property
    def edges(self) -> Sequence[str]:
        """Its way."""

    @property
    def depart(self) -> float:
        """When it departs, seconds."""


def fullness(
    net: SumoNet, crossings: Mapping[str, Crossing], vehicles: Sequence[DemandVehicle], merges: Sequence[Merge],
    flows: Flows,
) -> Fullness:  # fmt: skip
    """The nearly full lanes of a demand, by its flows and by those of each quarter of an hour in which more than
    LEAST_PART of the vehicles depart. The flow of an edge is split evenly over the lanes that lead on, as vehicles of
    SUMO do not see who turns ahead. crossings: by junction with a light; flows: of the whole demand."""
    ways, worst = ways_of(net), dict[str, LaneAndPairs]()
    for times, own in chain([(WHOLE_DEMAND, flows)], flows_of_parts(vehicles)):
        note_worst(worst, chain(full_at_lights(crossings, own, ways), full_merges(merges, own)), times)
    return count_passing(worst, vehicles)


def full_lanes_at_lights(net: SumoNet, vehicles: Sequence[OnWay]) -> list[FullLane]:
    """The nearly full lanes at lights under the programs of a network, as `fullness` finds them."""
    ways, worst, crossings = ways_of(net), dict[str, LaneAndPairs](), crossings_of(net)
    for times, flows in chain([(WHOLE_DEMAND, hourly_flows(vehicles))], flows_of_parts(vehicles)):
        note_worst(worst, full_at_lights(crossings, flows, ways), times)
    return [one for one, _ in worst.values()]


def ways_of(net: SumoNet) -> dict[EdgePair, str]:
    """How one turns, by edge pair."""
    return {(one.source, one.target): WAYS.get(one.direction.lower(), STRAIGHT) for one in net.connections}


def note_worst(worst: dict[str, LaneAndPairs], full_lanes: Iterable[LaneAndPairs], times: Times) -> None:
    """Keeps of each lane what is fullest of what was known and what was found at some times, and from when to when it
    was nearly full."""
    for full_lane, pairs in full_lanes:
        known, (begin, end) = worst.get(full_lane.lane), times
        if known and known[0].end:
            begin, end = min(known[0].begin, begin), max(known[0].end, end)
        fullest = (full_lane, pairs) if known is None or known[0].demand < full_lane.demand else known
        worst[full_lane.lane] = replace(fullest[0], begin=begin, end=end), fullest[1]


def full_at_lights(
    crossings: Mapping[str, Crossing], flows: Flows, ways: Mapping[EdgePair, str]
) -> Iterator[LaneAndPairs]:
    """The nearly full lanes of all junctions with lights by some flows."""
    for name, crossing in crossings.items():
        yield from full_at_light(name, crossing.by_flows(flows).values(), ways)


def flows_of_parts(vehicles: Sequence[OnWay]) -> Iterator[tuple[Times, Flows]]:
    """The flows of the parts of a demand that are looked at alone, beside the whole, and their times."""
    parts: defaultdict[int, list[OnWay]] = defaultdict(list)
    for vehicle in vehicles:
        parts[int(vehicle.depart // PART_SECONDS)].append(vehicle)
    if len(parts) > 1:
        for number, own in sorted(parts.items()):
            if len(own) >= LEAST_PART * len(vehicles):
                yield (number * PART_SECONDS, (number + 1) * PART_SECONDS), hourly_flows(own)


def full_at_light(
    junction: str, at_junction: Iterable[CrossingMovement], ways: Mapping[EdgePair, str]
) -> Iterator[LaneAndPairs]:
    """The nearly full lanes of a junction with a light, by its movements; ways: by edge pair."""
    lanes: defaultdict[tuple[str, int], list[CrossingMovement]] = defaultdict(list)
    for movement in at_junction:
        lanes[movement.lane].append(movement)
    for (edge, index), sharing in lanes.items():
        wish = sum(movement.flow for movement in sharing)
        if wish < LEAST_FLOW or filled(wish, least_capacity(sharing, wish)) < FULL:
            continue
        demand = filled(wish, capacity(sharing, wish))
        waiting = [movement for movement in sharing if movement.waits and movement.flow]
        if demand >= (FULL if waiting else FULL_IN_TURN):
            source, target = max(waiting or sharing, key=lambda movement: movement.flow).pair
            where = junction, f"{edge}_{index}", ways[source, target], source, target
            yield FullLane(*where, round(demand, 2), waits=bool(waiting)), [movement.pair for movement in sharing]


def full_merges(merges: Iterable[Merge], flows: Flows) -> Iterator[LaneAndPairs]:
    """Where lanes become one and nearly as many vehicles wish to pass as can."""
    for one in merges:
        pairs = {pair: flow for pair, flow in flows.items() if pair[0] in one.edges}
        demand = filled(sum(pairs.values()), one.capacity)
        if demand >= one.nearly_full:
            source, target = max(pairs, key=lambda pair: pairs[pair])
            yield FullLane(one.junction, source, MERGING, source, target, round(demand, 2)), pairs


def count_passing(worst: Mapping[str, LaneAndPairs], vehicles: Iterable[DemandVehicle]) -> Fullness:
    """The lanes with the vehicles that pass them, the fullest first; worst: by lane."""
    lanes_of: defaultdict[EdgePair, list[str]] = defaultdict(list)
    for lane, (_, pairs) in worst.items():
        for pair in pairs:
            lanes_of[pair].append(lane)
    passing, total, everybody = Counter[str](), 0, 0
    for edges, count in Counter(vehicle.edges for vehicle in vehicles).items():
        met = {lane for pair in pairwise(edges) for lane in lanes_of.get(pair, ())}
        passing.update(dict.fromkeys(met, count))
        total, everybody = total + (count if met else 0), everybody + count
    lanes = (replace(one, vehicles=passing[lane]) for lane, (one, _) in worst.items())
    return Fullness(tuple(sorted(lanes, key=lambda one: -one.demand)), total, everybody)
