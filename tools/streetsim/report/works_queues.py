"""What stood before the works of a run, over time and place, by its table of works and its polls."""
from collections import Counter
from collections.abc import Sequence
from dataclasses import dataclass

from streetsim.base.arrays import numpy as np
from streetsim.base.files import Fault
from streetsim.model import tables
from streetsim.model.folder import Folder

ROOM = 60.0  # metres shown beyond the longest queue
LEAST_METRES = 150.0  # metres shown at least
PLACE_COLUMNS = ("edge", "lane", "from_m")  # columns by which a queue is that before some works


@dataclass(slots=True, frozen=True)
class LinkOnWay:
    """A link, whole, on the way to works: metres from them back to its end (below 0: they lie on it) and its begin."""

    link: int
    near: float
    far: float


@dataclass(slots=True)
class WorksPlace:
    """Works at one place. lengths: metres of the queue before them, by clock, without clocks at which nobody queued;
    standing: (clock, metres before the works) of each vehicle that stands at a poll."""

    edge: str
    lane: str
    metres: tuple[float, float]  # from where to where it is closed
    begin: int  # clock
    end: int  # clock
    vehicles: int  # that passed
    capacity: str  # vehicles an hour in the worst quarter hour with a queue; empty where there is none
    way: list[LinkOnWay]
    lengths: dict[int, float]
    standing: list[tuple[int, float]]

    @property
    def room(self) -> float:
        """How many metres before the works are shown."""
        return min(self.way[-1].far, max(LEAST_METRES, ROOM + max(self.lengths.values(), default=0.0)))


def works_places_of(folder: Folder) -> list[WorksPlace]:
    """The works of a run, in the order of its table works.csv; Fault where it had none, or ended before them."""
    vehicles_seen = Counter[int]()
    for part, _ in folder.polled_parts():
        vehicles_seen.update(part.link[part.is_on_cells].tolist())
    grouped: dict[tuple[str, ...], list[dict[str, str]]] = {}
    for row in folder.works():
        grouped.setdefault((row["edge"], row["lane"], row["from_m"], row["to_m"]), []).append(row)
    if not grouped:
        raise Fault(f"{folder.path}: the run ended before its works")
    found = [works_place_of(folder, rows, vehicles_seen) for rows in grouped.values()]
    note_standing(folder, found)
    return found


def works_place_of(folder: Folder, rows: Sequence[dict[str, str]], vehicles_seen: Counter[int]) -> WorksPlace:
    """The works of one place, of its rows of works.csv, without who stands there. vehicles_seen: by polls, on each
    link. Fault where queues.csv cannot be read, or the map does not have the lane."""
    edge, lane = rows[0]["edge"], rows[0]["lane"]
    begin, end = float(rows[0]["from_m"]), float(rows[0]["to_m"])
    lengths = {
        int(row["time"]): float(row["metres"])
        for row in folder.queues_before_works()
        if all(row[name] == rows[0][name] for name in PLACE_COLUMNS)
    }
    capacity = min((row["capacity_per_hour"] for row in rows if row["capacity_per_hour"]), key=float, default="")
    if (place := folder.mapping.place_of(f"{edge}_{lane}")) is None:
        raise Fault(f"{folder.path}/{tables.WORKS_FILE}: the map has no lane {edge}_{lane}")
    way = way_to(folder, place[0], begin, vehicles_seen)
    vehicles = sum(int(row["vehicles"]) for row in rows)
    times = int(rows[0]["begin"]), int(rows[-1]["end"])
    return WorksPlace(edge, lane, (begin, end), *times, vehicles, capacity, way, lengths, [])


def way_to(folder: Folder, link: int, begin: float, vehicles_seen: Counter[int]) -> list[LinkOnWay]:
    """The way to works, from them on against the traffic: the link on which they lie, `begin` metres from its begin,
    and of the links before each the one on which most vehicles were seen, until no further one leads there."""
    links, way = folder.mapping.links, [LinkOnWay(link, begin - folder.mapping.links[link].metres, begin)]
    known = {link}
    while feeders := {turn.link for turn in folder.mapping.turns if turn.next == way[-1].link} - known:
        best = max(sorted(feeders), key=lambda one: vehicles_seen[one])
        known.add(best)
        way.append(LinkOnWay(best, way[-1].far, way[-1].far + links[best].metres))
    return way


def note_standing(folder: Folder, works_places: Sequence[WorksPlace]) -> None:
    """Adds to each place who stands on a cell before its works while they last (both clocks included), at each poll, on
    all lanes of the way to it. Fault where the polls cannot be read."""
    links = folder.mapping.links
    for part, _ in folder.polled_parts():
        standing = part.chosen(part.is_on_cells & (part.speed == 0))
        clocks, links_of_rows = standing.clocks[standing.clock_place], standing.link
        for place in works_places:
            is_during = (place.begin <= clocks) & (clocks <= place.end)
            for piece in place.way:
                size = links[piece.link].metres / links[piece.link].cells
                rows = np.flatnonzero(is_during & (links_of_rows == piece.link))
                away = piece.far - (standing.cell[rows] + 1) * size
                place.standing += [spot for spot in zip(clocks[rows].tolist(), away.tolist()) if 0 <= spot[1]]
