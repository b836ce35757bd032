"""Which lanes of an edge become one link, by where they lead, who waits on them and who may use them."""
from collections import defaultdict
from collections.abc import Collection, Iterable, Mapping, Sequence

from streetsim.base import limits
from streetsim.base.files import Fault
from streetsim.base.report import Report
from streetsim.sumo.crossing import Flows
from streetsim.sumo.net import NetConnection, NetEdge, NetLane, SumoNet

LaneKey = tuple[str, int]  # an edge and SUMO's index of a lane of it
Targets = Mapping[LaneKey, set[str]]  # the next edges to which a lane leads


def next_edges(net: SumoNet, flows: Flows) -> tuple[Targets, Targets]:
    """(the next edges that each lane leads to; those of them to which a signal, in some green, lets it go only when
    there is a gap), by lane. Of a lane from which routes go anywhere, only the edges to which routes go."""
    used = {(one.source, one.source_lane) for one in net.connections if has_route(one, flows)}
    following, waiting = defaultdict(set), defaultdict(set)
    for connection in net.connections:
        lane = connection.source, connection.source_lane
        if lane not in used or has_route(connection, flows):
            following[lane].add(connection.target)
            if may_wait(connection, net):
                waiting[lane].add(connection.target)
    return following, waiting


def has_route(connection: NetConnection, flows: Flows) -> bool:
    """Whether a route goes from a connection's edge to its next edge."""
    return bool(flows.get((connection.source, connection.target)))


def may_wait(connection: NetConnection, net: SumoNet) -> bool:
    """Whether a connection's light shows it, in any program of the run, a green in which it gives way to others."""
    states = (state for one in net.programs_in_run(connection.light or "") for _, state in one.phases)
    shown = {state[connection.index : connection.index + 1] for state in states}
    return bool(net.yields_of(connection)) and not shown.isdisjoint("go")


def closing_lanes(net: SumoNet, names: Iterable[str]) -> dict[str, set[int]]:
    """The lanes that are named, or all lanes of an edge that is named, {edge: SUMO's indexes}. Fault where the import
    has no such name, or the edge has one lane."""
    lanes_of_edge = defaultdict(set)
    for name in names:
        edge = name if name in net.edges else name.rpartition("_")[0]
        lanes = [lane.index for lane in net.edges[edge].lanes] if edge in net.edges else []
        named = [lane for lane in lanes if name in (edge, f"{edge}_{lane}")]
        if not named:
            raise Fault(f"--joint: the import has no edge or lane {name!r}")
        if len(lanes) == 1:
            raise Fault(f"--joint: edge {edge!r} has one lane, and none beside it")
        lanes_of_edge[edge].update(named)
    return lanes_of_edge


def bundles_of(
    edges: Sequence[NetEdge], following: Targets, waiting: Targets, closing: Mapping[str, Collection[int]],
    report: Report,
) -> dict[str, list[list[NetLane]]]:
    """By edge its lanes in groups of one or two, which become links. Where turn lanes as links of their own would make
    too many, they are joined with the lanes beside them, which is reported. following, waiting: as next_edges gives
    them; closing: as closing_lanes does."""
    bundles = {edge.name: bundles_of_edge(edge, following, waiting, closing.get(edge.name, ())) for edge in edges}
    if sum(map(len, bundles.values())) <= limits.LINKS:
        return bundles
    report.warn(f"turn lanes are joined with the lanes beside them, as there may be {limits.LINKS:,} links at most")
    return {edge.name: bundles_of_edge(edge, following, None, closing.get(edge.name, ())) for edge in edges}


def bundles_of_edge(
    edge: NetEdge, following: Targets, waiting: Targets | None, closing: Collection[int]
) -> list[list[NetLane]]:
    """The lanes of one edge in groups of one or two, from the right, which are open to the same classes: first with as
    few closing lanes as possible that have no open one beside them, then as few groups, then those whose lanes share
    most next edges. closing: SUMO's indexes of lanes to be closed; waiting: None: any two may be a group."""
    # For the first lanes: those without an open one, groups, less their shared edges.
    best: list[tuple[int, int, int, list[list[NetLane]]]] = [(0, 0, 0, [])]
    for end in range(1, len(edge.lanes) + 1):
        candidates = []
        for lanes in (edge.lanes[end - size : end] for size in (1, 2) if size <= end):
            keys, shut = [(edge.name, lane.index) for lane in lanes], [lane for lane in lanes if lane.index in closing]
            alike = all(lane.closed == lanes[0].closed for lane in lanes)
            if len(lanes) == 1 or alike and (shut or may_share(keys[0], keys[1], following, waiting)):
                alone, groups, shared, bundles = best[end - len(lanes)]
                alone += len(shut) if len(shut) == len(lanes) else 0
                common = len(following[keys[0]] & following[keys[1]]) if len(lanes) == 2 else 0
                candidates.append((alone, groups + 1, shared - common, [*bundles, lanes]))
        best.append(min(candidates, key=lambda way: way[:3]))
    return best[-1][3]


def may_share(right_lane: LaneKey, left_lane: LaneKey, following: Targets, waiting: Targets | None) -> bool:
    """Whether two lanes side by side may be one link: not where they lead to no common edge, or where they wait for
    gaps to different edges. Always where one of them leads nowhere, or waiting is None."""
    if waiting is None or not following[right_lane] or not following[left_lane]:
        return True
    return bool(following[right_lane] & following[left_lane]) and waiting[right_lane] == waiting[left_lane]
