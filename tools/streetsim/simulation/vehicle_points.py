"""Points and angles of vehicles in the plane, and the vehicles near a point or line, for TraCI's calls."""
from collections.abc import Hashable
from functools import cached_property, lru_cache

from streetsim.base.arrays import Array
from streetsim.base.arrays import numpy as np
from streetsim.base.shapes import Line, Point, heading_at, point_along
from streetsim.model.mapping import Map
from streetsim.simulation.fleet import OnRoad
from streetsim.simulation.view import View

MOST_POINTS = 1 << 18  # cells whose points are kept


class VehiclePoints:
    """The points of vehicles, in metres."""

    def __init__(self, view: View, mapping: Map) -> None:
        """view: of a run on the map."""
        self.view, self.links, self.nodes = view, mapping.links, mapping.nodes
        self.in_cell = lru_cache(MOST_POINTS)(self.point_in_cell)
        self.cells = np.array([link.cells for link in self.links], np.int64)
        self.first_keys = np.append(0, np.cumsum(self.cells + 1))  # by link the place of its first cell in what follows
        count = self.first_keys[-1]
        self.known_points, self.known_angles = np.full((count, 2), np.nan), np.full(count, np.nan)
        self.stretches_of = lru_cache(MOST_POINTS >> 4)(self.stretches)  # of lines that do not move
        # Of groups of objects that do not move: begins and ends of their stretches, and how many of each.
        self.joined: dict[Hashable, tuple[Array, Array, Array]] = {}
        self.rising_numbers: object = None  # the view's numbers of which `rising` is
        self.rising: tuple[Array, Array] = np.zeros((2, 0), np.int64)  # rows by rising place; places

    def point(self, position: OnRoad) -> Point:
        """The point (x, y) of the front of a vehicle on its link's line, or of its junction."""
        return self.in_cell(position.link, position.cell)

    def point_in_cell(self, link: int, cell: int | None) -> Point:
        """What `point` gives for a front in a cell of a link; None: in the junction behind it."""
        map_link = self.links[link]
        if cell is None:
            x, y = self.nodes[map_link.end][1:3]
            return float(x), float(y)
        return point_along(map_link.shape, (cell + 1) / map_link.cells)

    def angle(self, position: OnRoad) -> float:
        """Degrees clockwise from north; in a junction those at the end of the street from which it came."""
        return self.angle_in_cell(position.link, position.cell)

    def angle_in_cell(self, link: int, cell: int | None) -> float:
        """What `angle` gives for a front in a cell of a link; None: in the junction behind it."""
        map_link = self.links[link]
        return heading_at(map_link.shape, (cell + 1) / map_link.cells if cell is not None else 1.0)

    def points(self, link: Array, cell: Array) -> Array:
        """By row the point (x, y) of a front in a cell of a link; cell below 0: in the junction behind it."""
        keys = self.first_keys[link] + np.where(cell < 0, self.cells[link], cell)
        points_by_row = self.known_points[keys]
        if len(unknown := np.unique(keys[np.isnan(points_by_row[:, 0])])):
            link_cells = self.link_cells_at(unknown)
            self.known_points[unknown] = [self.point_in_cell(*link_cell) for link_cell in link_cells]
            points_by_row = self.known_points[keys]
        return points_by_row

    def angles(self, link: Array, cell: Array) -> Array:
        """By row what `angle` gives; link, cell: as `points` has them."""
        keys = self.first_keys[link] + np.where(cell < 0, self.cells[link], cell)
        if len(unknown := np.unique(keys[np.isnan(self.known_angles[keys])])):
            self.known_angles[unknown] = [self.angle_in_cell(*link_cell) for link_cell in self.link_cells_at(unknown)]
        return self.known_angles[keys]

    def link_cells_at(self, keys: Array) -> list[tuple[int, int | None]]:
        """(link, cell; None in the junction behind it) of places in known_points."""
        link = np.searchsorted(self.first_keys, keys, side="right") - 1
        pairs = zip(link.tolist(), (keys - self.first_keys[link]).tolist(), strict=True)
        return [(number, cell if cell < self.links[number].cells else None) for number, cell in pairs]

    @cached_property
    def boxes(self) -> Array:
        """By link the least x and y and the greatest x and y of its line and of the junction behind it, metres."""
        ends = [[*link.shape, self.nodes[link.end][1:3]] for link in self.links]
        return np.array([[*np.min(line, axis=0)[:2], *np.max(line, axis=0)[:2]] for line in ends])

    def near(self, line: Line, metres: float) -> list[int]:
        """The vehicles at most some metres from a line, or from its single point, by their numbers."""
        return self.view.number[self.rows_near(line, metres)].tolist()

    def rows_near(self, line: Line, metres: float) -> Array:
        """The rows in the view of the vehicles at most some metres from a line, or from its single point."""
        return self.rows_in(*self.stretches(tuple((point[0], point[1]) for point in line), metres))[0]

    def rows_in(self, begins: Array, ends: Array) -> tuple[Array, Array]:
        """(the rows in the view of the vehicles in stretches of places, stretch by stretch; by stretch the number of
        those in it and in all before it). begins, ends: as `stretches` gives them."""
        if self.rising_numbers is not self.view.number:
            link, cell = self.view.slot >> 1, self.view.cell
            rising_keys = self.first_keys[link] + np.where(cell < 0, self.cells[link], cell)
            order = np.argsort(rising_keys, kind="stable")
            self.rising_numbers, self.rising = self.view.number, (order, rising_keys[order])
        order, rising_keys = self.rising
        first_rows, rows_behind = np.searchsorted(rising_keys, begins), np.searchsorted(rising_keys, ends)
        counts = rows_behind - first_rows
        through = np.cumsum(counts)
        rows = np.arange(through[-1] if len(through) else 0) + np.repeat(first_rows - through + counts, counts)
        return order[rows], through

    def stretches(self, line: tuple[Point, ...], metres: float) -> tuple[Array, Array]:
        """(begins, ends behind the last) of the unbroken stretches of places in known_points that are at most some
        metres from a line."""
        x, y = zip(*line)
        left, low, right, high = self.boxes.T
        meets = (left <= max(x) + metres) & (right >= min(x) - metres)
        meets &= (low <= max(y) + metres) & (high >= min(y) - metres)
        links = np.flatnonzero(meets).tolist()
        keys_by_link = [np.arange(self.first_keys[link], self.first_keys[link + 1]) for link in links]
        if not keys_by_link:
            return np.zeros(0, np.int64), np.zeros(0, np.int64)
        keys = np.concatenate(keys_by_link)
        link = np.searchsorted(self.first_keys, keys, side="right") - 1
        points = self.points(link, keys - self.first_keys[link])
        near_keys = keys[distances(points, np.array(line, float)) <= metres]
        if not len(near_keys):
            return near_keys, near_keys
        breaks = np.flatnonzero(np.diff(near_keys) != 1)
        return near_keys[np.append(0, breaks + 1)], near_keys[np.append(breaks, -1)] + 1


def distances(points: Array, line: Array) -> Array:
    """Metres from each of some points (x, y) to a line of points, or to its single point."""
    begin, step = (line[:-1], np.diff(line, axis=0)) if len(line) > 1 else (line, np.zeros((1, 2)))
    squares = (step**2).sum(axis=1)
    ahead = ((points[:, None] - begin) * step).sum(axis=2) / np.where(squares, squares, 1.0)
    offsets = points[:, None] - (begin + np.clip(ahead, 0, 1)[..., None] * step)
    return np.hypot(offsets[..., 0], offsets[..., 1]).min(axis=1)
