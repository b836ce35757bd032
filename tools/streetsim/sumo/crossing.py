"""The movements of a junction over one cycle of its light: when each has green, to whom it gives way, by which lane.

The seconds of a cycle are bits of a number, second 0 the lowest.
"""
from __future__ import annotations

from collections import Counter, defaultdict
from collections.abc import Collection, Iterable, Mapping, Sequence
from dataclasses import dataclass, field
from functools import lru_cache
from itertools import chain, pairwise
from typing import Any, NamedTuple

from streetsim.model.timing import spans_of
from streetsim.sumo.greens import USUAL_SPEED, headway
from streetsim.sumo.net import NetConnection

EdgePair = tuple[str, str]  # an edge and the next one
Flows = Mapping[EdgePair, float]  # vehicles an hour
GREEN, OPEN, STOPS_FIRST = "GO", "go", "s"  # goes first; when there is a gap; the same after a stop, as right on red
PERMISSIVE, ANY_GREEN = OPEN + STOPS_FIRST, GREEN + OPEN


def hourly_flows(vehicles: Collection[Any]) -> dict[EdgePair, float]:
    """Vehicles an hour by (edge, next edge), over the time in which vehicles depart, which counts as 900 s at least.
    vehicles: anything with edges and depart (seconds)."""
    flows = Counter(chain.from_iterable([pairwise(vehicle.edges) for vehicle in vehicles]))
    departs = [vehicle.depart for vehicle in vehicles]
    hours = max(900.0, max(departs) - min(departs)) / 3600 if departs else 1.0
    return {pair: count / hours for pair, count in flows.items()}


@dataclass(slots=True, eq=False)
class CrossingMovement:
    """A connection over one cycle of its light: when it has green, to whom it gives way, and how many wish to pass."""

    pair: EdgePair
    lane: tuple[str, int]  # edge, lane
    target: tuple[str, int]  # the next edge, lane
    cycle: int  # seconds
    sure: int  # the seconds in which it goes first
    green: int  # these and those in which it gives way
    begins: list[tuple[int, int]]  # of the greens: (second, seconds of red before it)
    flow: float  # vehicles an hour that wish to pass
    headway: float  # seconds between vehicles of a queue, in SUMO
    runs: dict[int, int]  # first second of a permissive green: its length
    foes: list[CrossingMovement] = field(default_factory=list)  # that it gives way to

    @property
    def waits(self) -> bool:
        """Whether its vehicles wait for gaps in a permissive green."""
        return bool(self.runs and self.foes)


class Crossing:
    """The movements of a junction over a cycle of its light, but for what hangs on the flows: `by_flows` gives the
    rest, as often as it is asked."""

    def __init__(
        self, connections: Sequence[NetConnection], states: Sequence[str], yields: Mapping[int, Iterable[int]]
    ) -> None:
        """connections: of which no request is None; states: of the light, one for each second; yields: by request those
        that it gives way to."""
        signs = ["".join(each) for each in zip(*states)]  # by index
        self.fixed = {
            one.request: movement_of(one, signs, len(states)) for one in connections if one.request is not None
        }
        self.shares = flow_shares(connections)
        self.goes_before = {
            request: [
                foe
                for foe in sorted(yields.get(request, ()))
                if foe in self.fixed and not wait_together(request, foe, self.fixed, yields)
            ]
            for request in self.fixed
        }

    def by_flows(self, flows: Flows) -> dict[int, CrossingMovement]:
        """The movements by request. Connections of the same edges share their flow equally, but reserved ones have none
        beside others; of those that one gives way to, foes are those with a flow that do not wait together with it.
        flows: vehicles an hour by (edge, next edge)."""
        by_request = {
            request: with_flow(movement, flows.get(movement.pair, 0.0) / share if share else 0.0)
            for (request, movement), share in zip(self.fixed.items(), self.shares.values(), strict=True)
        }
        for request, movement in by_request.items():
            movement.foes = [by_request[foe] for foe in self.goes_before[request] if by_request[foe].flow]
        return by_request


def flow_shares(connections: Sequence[NetConnection]) -> dict[int, int]:
    """By request how many connections share the flow of its edges; 0 for a reserved one beside others, which has
    none."""
    least_reserved: defaultdict[EdgePair, list[NetConnection]] = defaultdict(list)
    for connection in sorted(connections, key=lambda one: one.reserved):
        group = least_reserved[connection.source, connection.target]
        if not group or group[0].reserved == connection.reserved:
            group.append(connection)
    return {
        one.request: len(group) if one in (group := least_reserved[one.source, one.target]) else 0
        for one in connections
        if one.request is not None
    }


def wait_together(
    request: int, facing: int, movements: Mapping[int, CrossingMovement], yields: Mapping[int, Iterable[int]]
) -> bool:
    """Whether two requests have permissive greens and each gives way to others of the other's edge, as left turns that
    face each other do: they stand inside the junction and wait for those, not for each other."""
    return all(
        movements[own].runs
        and any(
            foe != its and foe in movements and movements[foe].pair[0] == movements[its].pair[0]
            for foe in yields.get(own, ())
        )
        for own, its in ((request, facing), (facing, request))
    )


class SignTimes(NamedTuple):
    """What the letters of a connection over a cycle say; fields: as of CrossingMovement."""

    sure: int
    green: int
    begins: list[tuple[int, int]]
    runs: dict[int, int]


@lru_cache(1 << 12)
def times_of(signs: str) -> SignTimes:
    """The times of a connection by its letters, one for each second of a cycle. Nobody may change them."""
    return SignTimes(
        sure=bits_of_states(signs, GREEN),
        green=bits_of_states(signs, ANY_GREEN),
        begins=[(at, red_before(signs, at)) for at, _ in spans_of(signs, ANY_GREEN) if signs[at - 1] not in ANY_GREEN],
        runs=dict(spans_of(signs, OPEN)),
    )


def movement_of(connection: NetConnection, signs: Sequence[str], cycle: int) -> CrossingMovement:
    """The movement of one connection, still without flow and others. signs: by index in the light's state the letter in
    each second of the cycle, of so many seconds; one without a light is green throughout."""
    light_seconds = times_of(GREEN[0] * cycle if connection.light is None else signs[connection.index])
    return CrossingMovement(
        pair=(connection.source, connection.target),
        lane=(connection.source, connection.source_lane),
        target=(connection.target, connection.target_lane),
        cycle=cycle,
        sure=light_seconds.sure,
        green=light_seconds.green,
        begins=light_seconds.begins,
        flow=0.0,
        headway=headway(connection.speed or USUAL_SPEED),
        runs=light_seconds.runs,
    )


def with_flow(movement: CrossingMovement, flow: float) -> CrossingMovement:
    """A movement as movement_of gives it, with a flow, vehicles an hour."""
    return CrossingMovement(
        movement.pair, movement.lane, movement.target, movement.cycle, movement.sure, movement.green, movement.begins,
        flow, movement.headway, movement.runs,
    )  # fmt: skip


def bits_of_states(states: str, letters: str) -> int:
    """The seconds of a cycle, as bits, whose state is one of letters; states: a letter for each second."""
    return sum(1 << second for second, state in enumerate(states) if state in letters)


def red_before(states: str, start: int) -> int:
    """How many seconds without green end where a green begins, at start."""
    return next(steps for steps in range(len(states)) if states[start - steps - 1] in ANY_GREEN)
