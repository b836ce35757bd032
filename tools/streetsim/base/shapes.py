"""Geometry of lines of points, in metres: lengths, points and headings along a line. Pages and the TraCI module use
it."""
from bisect import bisect_right
from collections.abc import Sequence
from itertools import accumulate, pairwise
from math import atan2, degrees, dist, hypot

Point = tuple[float, float]
Line = Sequence[Sequence[float]]  # of points


def lengths(line: Line) -> list[float]:
    """Metres of each part of a line."""
    return [hypot(bx - ax, by - ay) for (ax, ay), (bx, by) in pairwise(line)]


def point_along(line: Line, share: float) -> Point:
    """The point at a share (0 to 1) of the length of a line, of one point at least."""
    at, rest = segment_at(line, share)
    if at is None:
        return float(line[-1][0]), float(line[-1][1])
    (ax, ay), (bx, by) = line[at], line[at + 1]
    return ax + (bx - ax) * rest, ay + (by - ay) * rest


def heading_at(line: Line, share: float) -> float:
    """Degrees clockwise from north of a line of two points or more, at a share (0 to 1) of its length."""
    at, _ = segment_at(line, share)
    (ax, ay), (bx, by) = line[at if at is not None else -2], line[at + 1 if at is not None else -1]
    return degrees(atan2(bx - ax, by - ay)) % 360


def segment_at(line: Line, share: float) -> tuple[int | None, float]:
    """(number, from 0, of the part of a line, from point to point, in which a share (0 to 1) of its length lies, share
    of that part); (None, 0.0) behind the line's end, and where it has no length."""
    left = share * sum(lengths(line))
    for at, size in enumerate(lengths(line)):
        if left <= size and size:
            return at, left / size
        left -= size
    return None, 0.0


def nearest(point: Point, line: Line) -> tuple[float, float]:
    """(metres from a point to a line, or to its single point; metres along the line to the nearest place)."""
    (x, y), metres_before, best = point, 0.0, (hypot(point[0] - line[0][0], point[1] - line[0][1]), 0.0)
    for ((ax, ay), (bx, by)), size in zip(pairwise(line), lengths(line), strict=True):
        if size:
            share = min(1.0, max(0.0, ((x - ax) * (bx - ax) + (y - ay) * (by - ay)) / size**2))
            far = hypot(ax + (bx - ax) * share - x, ay + (by - ay) * share - y)
            best = min(best, (far, metres_before + share * size))
        metres_before += size
    return best


def distance(point: Point, line: Line) -> float:
    """Metres from a point to a line, or to its single point."""
    return nearest(point, line)[0]


class Polyline:
    """A line through two or more points (x, y), in metres."""

    def __init__(self, points: Line) -> None:
        """points: (x, y) in metres, two at least."""
        self.points = points
        self.sizes = [dist(begin, end) for begin, end in zip(points, points[1:])]
        self.ends = list(accumulate(self.sizes))

    def point_and_angle(self, share: float, side: float = 0.0) -> tuple[float, float, float]:
        """(x, y, angle) at a share, 0 to 1, of the length, `side` metres to the right of the line: metres, and the
        angle of the line there in degrees clockwise from north."""
        metres = share * self.ends[-1]
        piece = min(bisect_right(self.ends, metres), len(self.sizes) - 1)
        (x, y), (following_x, following_y) = self.points[piece : piece + 2]
        size = self.sizes[piece] or 1.0
        east, north = (following_x - x) / size, (following_y - y) / size
        along = metres - (self.ends[piece] - self.sizes[piece])
        return x + east * along + north * side, y + north * along - east * side, degrees(atan2(east, north)) % 360
