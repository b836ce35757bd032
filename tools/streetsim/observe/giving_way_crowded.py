"""Which edges that give way without a light are nearly full in a run, by the seconds that are green to their lanes;
asked for by giving_way_rounds, told as a doubt of the run."""
from collections import Counter, defaultdict
from collections.abc import Iterable, Iterator, Sequence
from itertools import groupby

from streetsim.model.mapping import Map, Place
from streetsim.model.waiting import GivingWay, TurnKey
from streetsim.observe.giving_way_gaps import StopLinePassings
from streetsim.sumo.greens import passing_here

PART_S = 900  # seconds, of which each is looked at alone
QUEUE_LIMIT = 2  # cells a step of the links whose queues are reckoned with
FREE_S = 2.0  # seconds that one takes of its lane who need not wait
# Of a lane's time, from which on two in three trips are more than an eighth off SUMO's, at lone crosses.
FULL_SHARE = 0.4
LEAST_VEHICLES = 15  # vehicles that pass a lane in a part, below which nobody is told of it

Reds = Iterable[tuple[GivingWay, Sequence[int]]]  # who gives way, and for each second whether they are red


def crowded_edges(mapping: Map, reds: Reds, passed: StopLinePassings, start: int) -> dict[str, int]:
    """{edge: how many vehicles pass these lanes then}, of edges of which lanes that give way are used for a share
    FULL_SHARE of their time or more, by LEAST_VEHICLES or more, in some parts of PART_S. reds: for each GivingWay a
    byte for each second from start, 1: red; passed: when vehicles passed."""
    vehicles_of: Counter[str] = Counter()
    for (link, _), vehicles, share in used_shares(reds, passed, start):
        if share >= FULL_SHARE and vehicles >= LEAST_VEHICLES:
            vehicles_of[mapping.links[link].edge] += vehicles
    return dict(vehicles_of)


def used_shares(reds: Reds, passings: StopLinePassings, start: int) -> Iterator[tuple[Place, int, float]]:
    """(lane, how many vehicles pass, the share of the lane's time that they take) for each lane that gives way and each
    part of PART_S in which any pass; above 1: more than a queue could. Arguments: as of crowded_edges."""
    room: dict[TurnKey, list[float]] = {}
    for yielding, red in reds:
        room.update(dict.fromkeys(yielding.turns, list(could_pass(red))))
    lanes: defaultdict[tuple[Place, int], Counter[int]] = defaultdict(Counter)
    for lane_key in {(link, lane) for link, lane, _ in room} & passings.keys():
        for second, following, _ in passings[lane_key]:
            lanes[lane_key, int(second - start) // PART_S][following] += 1
    for (lane_key, part), counts in sorted(lanes.items()):
        shares = (share_taken(count, room.get((*lane_key, following)), part) for following, count in counts.items())
        yield lane_key, sum(counts.values()), sum(shares)


def share_taken(vehicles: int, room: Sequence[float] | None, part: int) -> float:
    """The share of a lane's time, in a part by its number, that so many vehicles of one turn take; room: how many could
    pass in each part, None: they need not wait."""
    return vehicles * FREE_S / PART_S if room is None else vehicles / max(1.0, room[part])


def could_pass(red: Sequence[int]) -> Iterator[float]:
    """How many vehicles of a queue could pass in each part of PART_S, the last one, which may be shorter, too;
    red: for each second whether it is red."""
    for begin in range(0, len(red), PART_S):
        runs = (sum(1 for _ in run) for hidden, run in groupby(red[begin : begin + PART_S]) if not hidden)
        yield sum(passing_here(seconds, QUEUE_LIMIT) for seconds in runs)
