"""A lower limit along works: their edges are imported anew as links in series, of which one has the limit.

Vehicles merge on the first of these, where the works begin; the next one, with the limit for the whole run, begins
shortly behind that and ends with them, so that the queue before them stands where all is as it was.
"""
from collections import defaultdict
from collections.abc import Iterable, Iterator, Sequence
from dataclasses import replace

from streetsim.base import limits
from streetsim.base.files import Fault
from streetsim.control.works_asked import AskedWorks
from streetsim.model.mapping import Map
from streetsim.sumo.slowing import EdgePart, SlowStretch, parts_of

FIRST = 15  # metres of works without the limit: two cells, in which vehicles see that the lane is closed
OPEN = round(limits.SIZE * limits.CELL_METRES)  # metres that stay open where works begin with the edge


def limits_of(works: Iterable[AskedWorks], mapping: Map, kmh: int) -> list[SlowStretch]:
    """The lower limit (kmh) along works, one for each edge. Fault where an edge has works on several stretches, another
    lower limit already, or works that are too short for one."""
    stretches: defaultdict[str, dict[tuple[int, int], None]] = defaultdict(dict)
    slowed_edges = {text.partition(":")[0] for text in mapping.options.get("slow", ())}
    for one in works:
        stretches[edge_of(one, mapping)][one.from_metres, one.to_metres] = None
    slow_stretches = []
    for edge, places in stretches.items():
        subject, (begin, end) = f"--works-limit {kmh}: edge {edge!r}", next(iter(places))
        limit_begin = max(begin, OPEN) + FIRST
        if len(places) > 1:
            raise Fault(f"{subject} has works on several stretches, and can have one limit on one of them")
        if slowed_edges & {edge, edge.rpartition(".")[0]}:
            raise Fault(f"{subject} has another lower limit since its import (--slow)")
        if end < limit_begin + FIRST:
            raise Fault(f"{subject}: works to {end} m are too short for a limit, which would begin at {limit_begin} m")
        slow_stretches.append(SlowStretch(edge, limit_begin, end, kmh))
    return slow_stretches


def edge_of(works: AskedWorks, mapping: Map) -> str:
    """The edge of works; the map must have their lane."""
    place = mapping.place_of(works.lane)
    assert place is not None
    return mapping.links[place[0]].edge


def parts_on(slow: SlowStretch, mapping: Map) -> list[EdgePart]:
    """The parts that an edge with a lower limit is cut into; mapping: from before the cut."""
    return parts_of(slow, mapping.links[mapping.links_of[slow.edge][0]].metres)


def works_on_parts(works: Iterable[AskedWorks], slow: Sequence[SlowStretch], mapping: Map) -> Iterator[AskedWorks]:
    """The works on the parts of their edges: each as one that begins before the limit, and one that goes on along it.
    slow: one for each edge with works, as limits_of gives them; mapping: from before the cut."""
    limited = {stretch.edge: stretch for stretch in slow}
    for whole in works:
        limit = limited[edge_of(whole, mapping)]
        index, part = whole.lane.rpartition("_")[2], next(part for part in parts_on(limit, mapping) if part.slow)
        yield replace(whole, to_metres=limit.begin)
        name, to_metres = f"{part.name}_{index}", whole.to_metres - limit.begin
        yield replace(whole, lane=name, from_metres=0, to_metres=to_metres, goes_on=True)


def told_of_limits(slow: Iterable[SlowStretch], mapping: Map) -> Iterator[str]:
    """Says, a text each, which limit holds where; mapping: from before the cut."""
    for one in slow:
        parts = parts_on(one, mapping)
        part = next(part for part in parts if part.slow)
        yield (
            f"edge {one.edge}: {one.kmh} km/h from {part.begin:.0f} to {part.end:.0f} m for the whole run, as a limit "
            f"cannot change in a run; its parts are {', '.join(other.name for other in parts)}"
        )
