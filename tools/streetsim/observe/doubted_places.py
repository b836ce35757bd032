"""The doubts of a run with their places: of the import, and of what was seen while it went."""
from collections import Counter
from collections.abc import Iterable, Iterator, Mapping, Sequence

from streetsim.control.works_watched import LONG, Watched
from streetsim.model.doubts import ADDED, ALL, APPROACH, JUNCTION, LANE, OF_WORKS, QUEUES, Doubt
from streetsim.model.fullness import MERGING, FullLane
from streetsim.model.knots import Rescued, knots_of
from streetsim.model.mapping import Map

LEAST_RESCUES = 2  # at one edge, from which on it is doubted


def doubt_of_lane(lane: FullLane) -> Doubt:
    """The doubt of a lane that is nearly full by the demand."""
    kind, edge = (APPROACH, lane.source) if lane.way == MERGING else (LANE, lane.lane.rpartition("_")[0])
    why = f"demand {lane.demand:.2f} of what passes"
    times = lane.begin, lane.end, lane.demand, lane.vehicles
    return Doubt(kind, lane.junction, edge, why, ALL, lane.lane if kind == LANE else "", lane.target, *times)


def doubts_of_import(mapping: Map) -> Iterator[Doubt]:
    """The doubts of lanes that are nearly full by the demand."""
    yield from map(doubt_of_lane, mapping.full.lanes)


def doubts_of_streets(mapping: Map, crowded: Mapping[str, int], listed: Iterable[str]) -> Iterator[Doubt]:
    """The doubts of streets that give way without a light and were nearly full (crowded: by edge the vehicles that pass
    it then), and of junctions whose lights SUMO times by detectors and that show their listed seconds (listed)."""
    for edge, vehicles in crowded.items():
        node, why = junction_of(edge, mapping), "it gives way and was nearly full"
        yield Doubt(APPROACH, node, edge, why, ALL, vehicles=vehicles)
    lights = {*listed}
    for node in dict.fromkeys(mapping.nodes[node][0] for light, node in mapping.signals if light in lights):
        yield Doubt(JUNCTION, node, "", "its light is actuated in SUMO and shows its listed seconds here", ALL)


def doubts_of_rescues(rescued: Sequence[Rescued], mapping: Map) -> Iterator[Doubt]:
    """The doubts of edges in knots, while these last, and of others from which vehicles were taken that stood too
    long; rescued: all of them."""
    alone = Counter(mapping.links[one.link].edge for one in rescued)
    for knot in knots_of(rescued, mapping):
        alone.subtract(knot.edges)
        for edge, count in knot.edges.items():
            why = f"{count:,} rescues in a knot, as where SUMO teleports: what is lost there is no delay of a queue"
            node, times = junction_of(edge, mapping), (knot.begin, knot.end)
            yield Doubt(APPROACH, node, edge, why, ALL, "", "", *times, vehicles=count)
    for edge, count in alone.items():
        if count >= LEAST_RESCUES:
            why = f"{count:,} rescues of vehicles that stood too long"
            yield Doubt(APPROACH, junction_of(edge, mapping), edge, why, ALL, vehicles=count)


def junction_of(edge: str, mapping: Map) -> str:
    """SUMO's id of the node to which an edge leads."""
    return mapping.nodes[mapping.links[mapping.links_of[edge][0]].end][0]


def doubts_of_works_seen(watched: Iterable[Watched], mapping: Map) -> Iterator[Doubt]:
    """The doubts of works by what was seen before them."""
    for works in watched:
        edge, times = mapping.links[works.closure.link].edge, (works.closure.begin, works.closure.end)
        if works.long:
            why = f"{len(works.long):,} stood for more than {LONG} s in one cell"
            yield Doubt(OF_WORKS, "", edge, why, ADDED, "", "", *times, vehicles=len(works.long))
        if works.left_network is not None:
            why = "the queue left the network: vehicles that wait beyond are in no queue or delay"
            yield Doubt(OF_WORKS, "", edge, why, QUEUES, "", "", works.left_network, times[1])
