"""Works so near before a junction that those who turn there from the closed lane wait before them in SUMO."""
from collections import defaultdict
from collections.abc import Collection, Mapping, Sequence
from typing import NamedTuple

from streetsim.control.works_closures import Closure
from streetsim.model.doubts import ADDED, OF_WORKS, Doubt
from streetsim.model.freeflow import FreeFlow
from streetsim.model.mapping import Map, Place
from streetsim.model.runs import Run

# Metres from works to a junction up to which SUMO's vehicles that turn there from the closed lane stay on it and wait
# before the works, so that these cost 130 to 1,170 s a trip on one street of two lanes; 400 m before, 7 to 26 s.
NEAR = 300.0
LEAST_HOURLY = 20.0  # vehicles an hour that turn so
MOST_EDGES = 4  # without a fork behind works, that are looked at


class Fork(NamedTuple):
    """The first junction behind an edge at which there is a choice."""

    metres: float  # from the edge's end
    exits: Mapping[Place, frozenset[str]]  # by lane of the edge the edges to which it leads there


def doubt_of_turning(run: Run, mapping: Map, closures: Sequence[Closure]) -> Doubt | None:
    """The doubt of works on one link (closures: one at least) that end NEAR before a junction where LEAST_HOURLY need
    the closed lanes to turn; none where they do not, or no lane is open."""
    edge = mapping.links[closures[0].link].edge
    fork = fork_behind(mapping, edge)
    closed = {(closure.link, closure.lane) for closure in closures}
    if fork.exits.keys() <= closed:  # nobody drives past the works, from whatever lane
        return None
    metres = fork.metres + min(
        mapping.links[closure.link].metres - closure.metres(mapping)[1] for closure in closures
    )
    if metres > NEAR:
        return None
    of_closed, of_open = set[str](), set[str]()
    for place, exits in fork.exits.items():
        (of_closed if place in closed else of_open).update(exits)
    begin = min(closure.begin for closure in closures)
    end = min(max(closure.end for closure in closures), last_coming(run, begin))
    count = turning(run, mapping, edge, of_closed - of_open, range(begin, end))
    if not count or count * 3600 < LEAST_HOURLY * (end - begin):
        return None
    why = f"{count:,} turn off {metres:.0f} m behind them from the closed lane, and wait before the works in SUMO"
    return Doubt(OF_WORKS, "", edge, why, ADDED, "", "", begin, end, vehicles=count)


def last_coming(run: Run, begin: int) -> int:
    """The second behind the last departure, or behind a clock where that is later."""
    return int(run.departs().max(initial=begin)) + 1


def fork_behind(mapping: Map, edge: str) -> Fork:
    """The first fork behind an edge, over MOST_EDGES at most; without exits where there is none."""
    leads_to: defaultdict[Place, set[Place]] = defaultdict(set)
    for turn in mapping.turns:
        if not turn.added:
            leads_to[turn.link, turn.lane].add((turn.next, turn.next_lane))
    reached: dict[Place, set[Place]] = {place: {place} for place in mapping.lanes(mapping.links_of[edge])}
    metres = 0.0
    for _ in range(MOST_EDGES):
        reached = {place: set().union(*(leads_to[one] for one in now)) for place, now in reached.items()}
        edges = {mapping.links[link].edge for now in reached.values() for link, _ in now}
        if len(edges) != 1:
            exits = {place: frozenset(mapping.links[link].edge for link, _ in now) for place, now in reached.items()}
            return Fork(metres, exits)
        metres += mapping.links[mapping.links_of[edges.pop()][0]].metres
    return Fork(metres, {})


def turning(run: Run, mapping: Map, edge: str, targets: Collection[str], seconds: range) -> int:
    """How many vehicles would come to an edge in some seconds, if nobody were in their way, and go to one of some
    targets at the fork behind it."""
    links, free_flow = {*mapping.links_of[edge]}, FreeFlow(mapping, run.load.command.get("dawdle", 0) / 1000)
    ends = {link for target in targets for link in mapping.links_of[target]}
    count = 0
    for line in run.enters if ends else ():
        plan = line.command["plan"]
        for at, link in enumerate(plan):
            if link in links and not ends.isdisjoint(plan[at + 1 : at + 1 + MOST_EDGES]):
                count += int(line.command["depart"] + free_flow(plan[:at])) in seconds
                break
    return count
