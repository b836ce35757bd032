"""How far the queue before works reaches, over the links upstream."""
from collections import defaultdict
from collections.abc import Collection, Iterable, Mapping
from dataclasses import dataclass, field

from streetsim.base.client import Lane
from streetsim.model.mapping import Map, Place

APART = 10  # cells: further up nobody belongs to the queue


@dataclass(slots=True, frozen=True)
class UpstreamStreets:
    """What lies upstream of each link, by its number. scale: metres of a cell; across: the least seconds in the
    junction at its end; feeders: the links with a turn to it, each with the lanes from which the turn leads."""

    cells: tuple[int, ...]
    scale: tuple[float, ...]
    across: tuple[int, ...]
    feeders: Mapping[int, Mapping[int, frozenset[int]]]


def streets_of(mapping: Map) -> UpstreamStreets:
    """What lies upstream of each link of a map."""
    lanes: defaultdict[tuple[int, int], set[int]] = defaultdict(set)
    for turn in mapping.turns:
        lanes[turn.next, turn.link].add(turn.lane)
    feeders: defaultdict[int, dict[int, frozenset[int]]] = defaultdict(dict)
    for (link, feeder), found in lanes.items():
        feeders[link][feeder] = frozenset(found)
    scale = tuple(link.metres / link.cells for link in mapping.links)
    across = tuple(mapping.nodes[link.end][3] for link in mapping.links)
    return UpstreamStreets(tuple(link.cells for link in mapping.links), scale, across, feeders)


@dataclass(slots=True)
class Reach:
    """A queue: from the works to the rear of the last who stands."""

    metres: float = 0.0
    vehicles: int = 0  # that stand in it
    full: list[int] = field(default_factory=list)  # links near whose begin it came


@dataclass(slots=True, frozen=True)
class Piece:
    """A link that the queue may reach, seen from a cell upstream of the works. end: the cell before which vehicles
    count; last_cell: where the last one stands so far, on this link; metres_to_works: from its cell end; begin: the
    cell from which on vehicles count, above 0 where other works begin there."""

    link: int
    lanes: Collection[int]
    end: int
    last_cell: int
    metres_to_works: float
    begin: int = 0


def reach_of(
    lanes: Mapping[Place, Lane], streets: UpstreamStreets, link: int, first_cell: int, begin: int = 0
) -> Reach:
    """The queue before works that begin in first_cell of a link: all who stand, each at most APART cells behind the
    one before it, on lanes that lead to the works. lanes: replies on lanes of the link and upstream, those without one
    are empty; begin: the first cell of other works upstream on the link, whose queue begins there, else 0."""
    reach, reached_links = Reach(), {link}
    pieces = [Piece(link, [lane for other, lane in lanes if other == link], first_cell, first_cell, 0.0, begin)]
    while pieces:
        piece = pieces.pop()
        last_cell = add_standing(piece, lanes, streets.scale[piece.link], reach)
        if last_cell > APART or piece.begin:
            continue
        reach.full.append(piece.link)
        metres_to_works = piece.metres_to_works + piece.end * streets.scale[piece.link]
        for feeder, leading in streets.feeders.get(piece.link, {}).items():
            if feeder not in reached_links:
                reached_links.add(feeder)
                cells = streets.cells[feeder]
                pieces.append(Piece(feeder, leading, cells, cells + last_cell, metres_to_works))
    return reach


def add_standing(piece: Piece, lanes: Mapping[Place, Lane], scale: float, reach: Reach) -> int:
    """Adds those who stand on a piece to the queue (reach); gives the cell of the last one, `last_cell` of the piece
    where nobody is added. scale: metres of a cell."""
    last_cell = piece.last_cell
    for cell, speed, size in vehicles_on(piece, lanes):
        if last_cell - cell > APART or cell < piece.begin:
            break
        if speed == 0:
            last_cell = cell
            reach.vehicles += 1
            rear = max(0, cell - size + 1)
            reach.metres = max(reach.metres, piece.metres_to_works + (piece.end - rear) * scale)
    return last_cell


def vehicles_on(piece: Piece, lanes: Mapping[Place, Lane]) -> Iterable[tuple[int, int, int]]:
    """(cell, speed in cells a step, size in cells) of the vehicles on a piece before its end, by falling cell."""
    seen = [lanes[piece.link, lane].cells for lane in piece.lanes if (piece.link, lane) in lanes]
    found = [(cell, speed, size[0] if size else 1) for cells in seen for _, cell, speed, *size in cells]
    return sorted((one for one in found if one[0] < piece.end), reverse=True)
