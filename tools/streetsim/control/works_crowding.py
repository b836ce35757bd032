"""Works to which more vehicles come than the open lanes pass, by plans alone."""
from bisect import bisect_left
from collections import defaultdict
from collections.abc import Collection, Iterable, Iterator, Sequence
from itertools import pairwise
from typing import NamedTuple

from streetsim.control.works_closures import Closure
from streetsim.control.works_returning import doubt_of_turning
from streetsim.model.doubts import ADDED, OF_WORKS, Doubt
from streetsim.model.freeflow import FreeFlow
from streetsim.model.mapping import Map
from streetsim.model.runs import Run

PASSES = 1_600  # vehicles an hour of one open lane beside works
# Metres behind a light up to which fewer of SUMO's vehicles pass works, as they come in groups, and how many do: on a
# street with a light 150 m before them 1,200 an hour pass without a queue and 1,500 do not.
BEHIND_LIGHT, PASSES_BEHIND_LIGHT = 400.0, 1_300
# Share of that, from which on what works add may be far from SUMO's: 6 to 304 s in four drawn networks.
NEARLY = 0.75
HOUR, QUARTER = 3600, 900  # seconds
SHORT = 300  # seconds: lanes that are closed together for less count only where none are for as long
BESIDE = "nobody changes to the edge's other lanes, so delays may be far too long (judge by SUMO)"

Times = tuple[int, int]  # from the first second to before the last


def told_of_crowding(run: Run, mapping: Map, closures: Sequence[Closure]) -> Iterator[str]:
    """Says, a text for each link, where more vehicles come to works by their plans than the open lanes pass
    meanwhile."""
    for link in sorted({one.link for one in closures}):
        edge = mapping.links[link].edge
        if told := too_many(run, mapping, [one for one in closures if one.link == link]):
            alone = len(mapping.links_of[edge]) == 1
            yield f"edge {edge}: {told}{': a queue grows before them' if alone else f'; {BESIDE}'}"


def crowded_works(run: Run, mapping: Map, closures: Sequence[Closure]) -> list[Doubt]:
    """What doubts what works add, one for each link with works: how full the open lanes are in the worst hour where
    that is NEARLY or more of what they pass in SUMO, which is less behind a light; a junction near behind them; and,
    with the text of told_of_crowding, of edges with further links, to which nobody changes."""
    doubts = []
    for link in sorted({one.link for one in closures}):
        link_works, edge = [one for one in closures if one.link == link], mapping.links[link].edge
        hour = worst(run, mapping, link_works)
        passes, behind = passes_beside(mapping, min(link_works, key=lambda one: one.first_cell))
        share = hour.hourly / hour.open_lanes / passes if hour.open_lanes else 0.0
        if share >= NEARLY:
            open_ = "the open lane passes" if hour.open_lanes == 1 else f"the {hour.open_lanes} open lanes pass"
            why = f"demand {share:.2f} of what {open_}{behind} in the worst hour"
            vehicles = round(hour.hourly * (hour.end - hour.begin) / 3600)
            times = hour.begin, hour.end, round(share, 2), vehicles
            doubts.append(Doubt(OF_WORKS, "", edge, why, ADDED, "", "", *times))
        if turning := doubt_of_turning(run, mapping, link_works):
            doubts.append(turning)
        told = too_many(run, mapping, link_works)
        if told and len(mapping.links_of[edge]) > 1:
            doubts.append(Doubt(OF_WORKS, "", edge, f"{told}; {BESIDE}", ADDED, "", "", hour.begin, hour.end))
    return doubts


def told_of_crowded(doubts: Iterable[Doubt]) -> Iterator[str]:
    """What crowded works speak against a whole run, a text each."""
    for one in doubts:
        far = ", and what they add may be far from SUMO's" if one.size else ""
        yield f"works on {one.edge}: {one.why}{far}"


def passes_beside(mapping: Map, closure: Closure) -> tuple[float, str]:
    """(vehicles an hour that pass an open lane beside works in SUMO, words that say why it is less than PASSES)."""
    lit, metres = {node for _, node in mapping.signals}, closure.metres(mapping)[0]
    links, edges = [closure.link], {mapping.links[closure.link].edge}
    while metres <= BEHIND_LIGHT and not any(mapping.links[link].begin in lit for link in links):
        before = {turn.link for turn in mapping.turns if turn.next in links}
        links = [link for link in sorted(before) if mapping.links[link].edge not in edges]
        edges |= {mapping.links[link].edge for link in links}
        if not links:
            return PASSES, ""
        metres += mapping.links[links[0]].metres
    if metres > BEHIND_LIGHT:
        return PASSES, ""
    return PASSES_BEHIND_LIGHT, f", {metres:.0f} m behind a light,"


def too_many(run: Run, mapping: Map, closures: Sequence[Closure]) -> str:
    """The text on the works on one link (closures: one at least) at their worst; empty where these leave no lane,
    or the open ones let all pass."""
    lanes, hour = len(mapping.links[closures[0].link].lanes), worst(run, mapping, closures)
    if hour.hourly <= PASSES * hour.open_lanes:
        return ""
    return (
        f"some {hour.hourly:,.0f} vehicles an hour come to works that leave {hour.open_lanes} of {lanes} lanes, and a "
        f"lane passes some {PASSES:,}"
    )


class WorstHour(NamedTuple):
    """When most vehicles come to works for each lane that is left; all 0 where works leave none."""

    hourly: float = 0.0  # vehicles an hour that come by their plans
    open_lanes: int = 0
    begin: int = 0
    end: int = 0


def worst(run: Run, mapping: Map, closures: Sequence[Closure]) -> WorstHour:
    """The worst hour, or the whole time of shorter works, of the works on one link (closures: one at least), by the
    lanes that are closed together for SHORT at least, or else longest."""
    link, hours = closures[0].link, [WorstHour()]
    lanes, together = len(mapping.links[link].lanes), closed_together(closures)
    clocks = arrivals(run, mapping, [(link,)])
    lasting = {closed: sum(end - begin for begin, end in times) for closed, times in together.items()}
    least = min(SHORT, max(lasting.values()))
    for closed, times in together.items():
        left = lanes - len(closed)
        if left and lasting[closed] >= least:
            whole = sum(between(clocks, span) for span in times) * 3600 / lasting[closed]
            hours.append(WorstHour(whole, left, times[0][0], times[-1][1]))
            spans = ((begin, min(end, int(max(clocks, default=0)) + HOUR)) for begin, end in times)
            hours += [WorstHour(between(clocks, hour), left, *hour) for span in spans for hour in hours_of(span)]
    return max(hours, key=lambda hour: hour.hourly / max(1, hour.open_lanes))


def hours_of(span: Times) -> Iterator[Times]:
    """The whole hours in a time, which begin QUARTER after QUARTER."""
    for begin in range(span[0], span[1] - HOUR + 1, QUARTER):
        yield begin, begin + HOUR


def closed_together(closures: Sequence[Closure]) -> dict[frozenset[int], list[Times]]:
    """By lanes of a link that works close at the same time, one at least: when they do, rising."""
    found: defaultdict[frozenset[int], list[Times]] = defaultdict(list)
    for begin, end in pairwise(sorted({clock for one in closures for clock in (one.begin, one.end)})):
        if closed := frozenset(one.lane for one in closures if one.begin <= begin and end <= one.end):
            found[closed].append((begin, end))
    return dict(found)


def coming(run: Run, mapping: Map, paths: Iterable[tuple[int, ...]], times: Collection[Times]) -> int:
    """How often vehicles would come to the begin of one of some paths (links that stand one after the other in their
    plan) at some times, if nobody were in their way."""
    clocks = arrivals(run, mapping, paths)
    return sum(any(first <= clock < last for first, last in times) for clock in clocks)


def between(clocks: Sequence[float], span: Times) -> int:
    """How many of some rising clocks lie in a time."""
    return bisect_left(clocks, span[1]) - bisect_left(clocks, span[0])


def arrivals(run: Run, mapping: Map, paths: Iterable[tuple[int, ...]]) -> list[float]:
    """The clocks, rising, at which vehicles would come to the begin of one of some paths, if nobody were in their
    way."""
    free_flow, clocks, paths = FreeFlow(mapping, run.load.command.get("dawdle", 0) / 1000), list[float](), {*paths}
    firsts = {path[0] for path in paths if path}
    for line in run.enters:
        plan, depart = line.command["plan"], line.command["depart"]
        for at, link in enumerate(plan):
            if link in firsts and any(tuple(plan[at : at + len(path)]) == path for path in paths):
                clocks.append(depart + free_flow(plan[:at]))
    return sorted(clocks)
