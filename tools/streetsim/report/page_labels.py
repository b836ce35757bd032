"""Where the names of streets and junctions have room in a picture, and their texts as SVG. All is in pixels."""
from collections.abc import Iterable, Iterator, Mapping, Sequence
from html import escape
from itertools import pairwise
from math import atan2, degrees, hypot
from unicodedata import east_asian_width

from streetsim.base.shapes import Point, distance, point_along

SQUARE = 3  # of what is taken
LETTER, WIDE_LETTER, HALF = 7, 13, 6  # the width of a letter, of a Chinese one, and half the height of a text
LABEL_GAP = 4  # from the border of a line to the text
BENT = 3.0  # by which a street may leave the straight line along its name
SHARES = (0.5, 0.3, 0.7)  # of a street, at which its name may be
Line = Sequence[Point]


class Room:
    """What is taken of a picture, by squares."""

    def __init__(self, wide: float, high: float) -> None:
        """Nothing is taken of a picture of a width and a height."""
        self.wide, self.high = wide, high
        self.taken_squares: set[tuple[int, int]] = set()

    def take_around(self, line: Line, half: float) -> None:
        """Takes all that is up to `half` from a line."""
        self.taken_squares.update(squares(line, half))

    def took(self, line: Line, half: float) -> bool:
        """Takes it where all of it is free and in the picture; gives whether that is so."""
        if not all(half <= x <= self.wide - half and half <= y <= self.high - half for x, y in line):
            return False
        if not self.taken_squares.isdisjoint(squares(line, half)):  # which ends at the first that is taken
            return False
        self.take_around(line, half)
        return True


def squares(line: Line, half: float) -> Iterator[tuple[int, int]]:
    """The squares whose middle is up to `half` from a line."""
    reach = range(-int(half // SQUARE) - 1, int(half // SQUARE) + 2)
    for x, y in steps(line):
        column, row = int(x // SQUARE), int(y // SQUARE)
        left, top = x - (column + 0.5) * SQUARE, y - (row + 0.5) * SQUARE
        for across in reach:
            for down in reach:
                if (across * SQUARE - left) ** 2 + (down * SQUARE - top) ** 2 <= half**2:
                    yield column + across, row + down


def steps(line: Line) -> Iterator[Point]:
    """Points of a line, a square from one another at most."""
    yield line[0]
    for (ax, ay), (bx, by) in pairwise(line):
        count = int(hypot(bx - ax, by - ay) // SQUARE) + 1
        for step in range(1, count + 1):
            yield ax + (bx - ax) * step / count, ay + (by - ay) * step / count


def text_width(text: str) -> float:
    """How wide a text is, about."""
    return sum(WIDE_LETTER if east_asian_width(sign) in "WF" else LETTER for sign in text)


def length(line: Line) -> float:
    """The length of a line."""
    return sum(hypot(bx - ax, by - ay) for (ax, ay), (bx, by) in pairwise(line))


def street_labels(edges: Mapping[str, tuple[str, Line, float]], room: Room) -> Iterator[str]:
    """The name of each street that has room for it somewhere beside its line, once, as SVG; the longest streets first.
    edges: {id: (name, empty where it has none, line, width)}."""
    streets: dict[str, list[tuple[float, Line, float]]] = {}
    for name, line, width in edges.values():
        if name and len(line) > 1:
            streets.setdefault(name, []).append((length(line), line, width))
    ranked = sorted(streets.items(), key=lambda item: (-round(sum(one[0] for one in item[1])), item[0]))
    for name, lines in ranked:
        need = text_width(name)
        long = sorted((one for one in lines if one[0] >= need), key=lambda one: -round(one[0]))
        bases = (base for _, line, width in long for base in bases_beside(line, need, width / 2 + LABEL_GAP + HALF))
        if (base := next((one for one in bases if room.took(one, HALF)), None)) is not None:
            yield label_along(name, base)


def bases_beside(line: Line, text_length: float, offset: float) -> Iterator[Line]:
    """Straight lines of a length beside one that is longer, at a distance from it, where that is about straight: to its
    right and to its left."""
    half = text_length / 2 / length(line)
    for share in SHARES:
        if half <= share <= 1 - half:
            begin, end = (point_along(line, share + sign * half) for sign in (-1, 1))
            between = (point_along(line, share + part * half) for part in (-0.5, 0, 0.5))
            size = hypot(end[0] - begin[0], end[1] - begin[1])
            if size > 0.9 * text_length and all(distance(one, (begin, end)) <= BENT for one in between):
                across, down = -(end[1] - begin[1]) / size * offset, (end[0] - begin[0]) / size * offset
                for sign in (1, -1):
                    yield [(x + sign * across, y + sign * down) for x, y in (begin, end)]


def label_along(name: str, base: Line) -> str:
    """A name along a straight line, never upside down, as SVG."""
    (ax, ay), (bx, by) = base
    turn = degrees(atan2(by - ay, bx - ax))
    turn = turn - 180 if turn > 90.05 else turn + 180 if turn <= -89.95 else turn
    x, y = f"{(ax + bx) / 2:.1f}", f"{(ay + by) / 2:.1f}"
    return f'<text x="{x}" y="{y}" dy="4" transform="rotate({turn:.1f} {x} {y})" class="label">{escape(name)}</text>'


def junction_labels(junctions: Iterable[tuple[str, Point]], room: Room) -> Iterator[str]:
    """The names of junctions beside them, where there is room, as SVG. junctions: (name, empty where it is not to be
    told, place)."""
    for name, (x, y) in junctions:
        half, off = text_width(name) / 2, 21
        middles = [(x + off + half, y), (x - off - half, y), (x, y - off), (x, y + off)]
        middles += [(x + across * (off - 3 + half), y + down * (off - 3)) for across in (1, -1) for down in (-1, 1)]
        for across, down in middles if name else ():
            if room.took([(across - half, down), (across + half, down)], HALF):
                yield f'<text x="{across:.1f}" y="{down:.1f}" dy="4" class="label">{escape(name)}</text>'
                break
