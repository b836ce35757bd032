"""Finds minor streets that face each other at a junction without a light, and wait for each other: the delays of both
come out too small."""
from collections import Counter, defaultdict
from collections.abc import Iterable, Sequence
from itertools import pairwise

from streetsim.model.mapping import Map
from streetsim.model.waiting import GivingWay

LEAST_VEH_H = 30  # vehicles an hour that wait, and that are waited for, from which on it is told


def junctions_with_facing_streets(mapping: Map, plans: Iterable[Sequence[int]], hours: float) -> list[str]:
    """The names, sorted, of junctions where vehicles of a minor street, left turns mostly, wait for those of another
    minor one that they cross, 30 an hour of both at least. When these pass is taken from the run before, so delays of
    both are too small. plans: links of each vehicle; hours: over which they depart."""
    flows = Counter(pair for plan in plans for pair in pairwise(plan))
    edges = [link.edge for link in mapping.links]
    waits = {(link, following) for yielding in mapping.yields for link, _, following in yielding.turns}
    used = defaultdict(set)
    for link, following in flows:
        used[edges[link]].add((link, following))
    minor = {edge for edge, pairs in used.items() if pairs <= waits}

    def hourly(yielding: GivingWay) -> float:
        """The vehicles an hour that wait, or those that are waited for, whichever are fewer."""
        waiting = {(link, following) for link, _, following in yielding.turns if edges[link] in minor}
        targets = {edges[following] for _, following in waiting}
        foes = (foe for foe in yielding.foes if edges[foe.link] in minor and edges[foe.next] not in targets)
        waited_for = {(foe.link, foe.next) for foe in foes}
        return min(sum(flows[pair] for pair in pairs) for pairs in (waiting, waited_for)) / hours

    return sorted({mapping.nodes[yielding.node][0] for yielding in mapping.yields if hourly(yielding) >= LEAST_VEH_H})
