"""Road works as a router sees them: when edges are shut, who knows of it, and where those who do not know turn off."""
import random
from collections.abc import Collection, Iterable, Sequence
from dataclasses import dataclass

from streetsim.base.files import Fault
from streetsim.control.works_asked import AskedWorks, sites_of
from streetsim.control.works_movements import closures_at, in_common, lost_times
from streetsim.control.works_sites import shut_links
from streetsim.model.freeflow import FreeFlow
from streetsim.model.mapping import Map
from streetsim.sumo.router import FAR, Path, Router, Shut
from streetsim.sumo.trips import Trip
from streetsim.sumo.way_costs import Costs, flat_costs
from streetsim.sumo.way_graph import Graph

Times = tuple[float, float]  # from the first second to before the last


@dataclass(frozen=True, slots=True)
class Shutting:
    """Works as they are asked for. close: as streetsim-run --close takes them; sign: names of edges on which those who
    do not know of the works are told of them; lost: what those do who lose their only lane, of works_movements.LOST."""

    close: Sequence[str]
    sign: Sequence[str]
    lost: str = "lead"


@dataclass(frozen=True, slots=True)
class Closing:
    """Works as the router sees them. shut: (first, last) seconds, from first to before last, by edge, and by movement
    where these are barred; signs: edges on which those who do not know of the works are told of them; free: seconds of
    each movement without traffic."""

    shut: Shut
    signs: frozenset[int]
    free: Sequence[float]
    shutting: Shutting = Shutting((), ())


def shut_edges(
    works: Iterable[AskedWorks], graph: Graph, mapping: Map, dawdle: float
) -> dict[int, list[Times]]:
    """{number of an edge in the graph: the (first, last) seconds, from first to before last, in which it is not to be
    entered}: while all its lanes are closed, and so shortly before that one would not come past the works; edges that
    keep an open lane are left out. dawdle: the chance, 0 to 1, to go on by a cell less."""
    driving, links = FreeFlow(mapping, dawdle).driving, shut_links(sites_of(works, mapping), mapping)
    closed_times: dict[int, list[Times]] = {}
    for edge in dict.fromkeys(mapping.links[link].edge for link in links):
        times = list(in_common(links.get(link, []) for link in mapping.links_of[edge]))
        before = max(driving[link] for link in mapping.links_of[edge])
        if times:
            closed_times[graph.number[edge]] = [(first - before, last) for first, last in times]
    return closed_times


def barred_ways(works: Iterable[AskedWorks], graph: Graph, mapping: Map) -> dict[tuple[int, int], list[Times]]:
    """{(edge, next edge), by numbers in the graph: the (first, last) seconds, from first to before last, in which works
    have closed the only lanes of this movement}; edges of which works close the end of every lane are left out."""
    lost = lost_times(closures_at(sites_of(works, mapping)), mapping)
    return {(graph.number[edge], graph.number[after]): list(times) for (edge, after), times in lost.items()}


def knows_of_works(name: str, share: float, seed: int) -> bool:
    """Whether the driver of a trip knows of the works, where a share (0 to 1) of all drivers do. The same seed and name
    give the same answer, and a driver who knows of them at a share does at each greater one."""
    return random.Random(f"knowing {seed} {name}").random() < share


def turn_off(trips: Iterable[Trip], closing: Closing, graph: Graph, costs: Costs, strict: bool) -> int:
    """Gives other ways to trips that would come to something shut: they turn off before it and go on by the way that is
    quickest without traffic. Gives how many trips have other ways now. costs: by which it is reckoned when a trip comes
    where; strict: Fault where a trip has no such way, and all trips keep theirs; without it that trip alone keeps its
    way and waits."""
    router, without, turned = Router(graph, costs, closing.shut), flat_costs(graph, closing.free), []
    free = {part: Router(graph, without, {**closing.shut, part: [(-FAR, FAR)]}) for part in closing.shut}
    for trip in trips:
        index = router.first_shut(trip.path, trip.entry)
        if index is None:
            continue
        edge, way = trip.path[index], (trip.path[index - 1], trip.path[index])
        path = way_round(trip, index, closing.signs, router, free[edge if edge in free else way])
        if not path and strict:
            why = (why_edge_stops if edge in free else why_turn_stops)(trip.path, index, graph)
            raise Fault(f"trip {trip.name!r} {why}")
        if path and path != trip.path:
            turned.append((trip, path))
    for trip, path in turned:
        trip.path = path
    return len(turned)


def way_round(trip: Trip, index: int, signs: Collection[int], router: Router, free: Router) -> Path:
    """The way of a trip that turns off on its first edge with a sign, or else at the last crossing before what is shut:
    the edge at index of its path, or the movement to it. From where none leads on that keeps off the edges driven
    so far, the next sign, and then the crossing before, is tried. Empty where there is no way. router: gives the clocks
    at which it drives; free: one for which this is shut at all times, as who takes a detour may come to it later."""
    clocks = router.clocks(trip.path[:index], trip.entry)
    signed = (at for at in range(index) if trip.path[at] in signs)
    for at in (*signed, *reversed(range(index))):
        onward, _ = free.search(trip.path[at], trip.target, clocks[at])
        if onward and not set(onward[1:]) & set(trip.path[:at]):
            return trip.path[:at] + onward
    return ()


def why_edge_stops(path: Path, index: int, graph: Graph) -> str:
    """Why a trip cannot drive whose path has a shut edge at an index: the end of a sentence."""
    edge = graph.edges[path[index]]
    if index == 0 or index == len(path) - 1:
        return (
            f"{'ends' if index else 'begins'} on edge {edge!r} while it is closed: take it out, "
            "or change the times of the works"
        )
    return f"has no way round edge {edge!r} while it is closed"


def why_turn_stops(path: Path, index: int, graph: Graph) -> str:
    """Why a trip cannot drive that has no way but over a barred movement, to the edge at an index of its path: the end
    of a sentence."""
    edge, after = (graph.edges[path[at]] for at in (index - 1, index))
    return (
        f"has no way but to turn from edge {edge!r} to {after!r}, whose lane is closed: take it out, or have --lost "
        "lead or wait"
    )
