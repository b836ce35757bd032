"""The map of a page, as SVG: both directions of a street apart, names where there is room, a bar of metres, north."""
from collections.abc import Iterator, Mapping, Sequence
from dataclasses import dataclass
from html import escape
from itertools import pairwise
from math import hypot

from streetsim.base.shapes import Point, nearest, point_along
from streetsim.model.mapping import Map, Shape
from streetsim.model.names import Names
from streetsim.report.page_labels import Room, junction_labels, street_labels
from streetsim.report.run_series import length_told, round_length

WIDE, MOST_HIGH, MARGIN, STRIP = 900, 640, 36, 34  # pixels; the last are of the strip below the streets
LINE_GAP = 1.5  # pixels between the lines of two directions
MARK = 13  # pixels from the middle of a junction's mark to where names may be
Way = list[Point]  # of pixels across and down


@dataclass(slots=True, frozen=True)
class Stroke:
    """How an edge is drawn."""

    colour: str
    width: float  # pixels
    text: str  # what it says when pointed at
    rimmed: bool = False  # with a dark rim
    broken: bool = False  # with white dashes on it
    gaps: bool = False  # of dashes, with gaps between them


class Plane:
    """Where the points of a map lie in its picture."""

    def __init__(self, mapping: Map) -> None:
        """All streets of a map fit into the picture, which is as high as they need."""
        points = [point for link in mapping.links for point in link.shape]
        (self.min_x, right), (low, self.max_y) = ((min(one), max(one)) for one in zip(*points, strict=True))
        wide, high = max(1.0, right - self.min_x), max(1.0, self.max_y - low)
        self.scale = min((WIDE - 2 * MARGIN) / wide, (MOST_HIGH - 2 * MARGIN) / high)  # pixels a metre
        self.aside = (WIDE - wide * self.scale) / 2
        self.tall = (self.max_y - low) * self.scale + 2 * MARGIN

    def pixels_of(self, point: Sequence[float]) -> Point:
        """The pixels across and down of a point (x, y)."""
        return (point[0] - self.min_x) * self.scale + self.aside, (self.max_y - point[1]) * self.scale + MARGIN

    def way(self, shape: Shape) -> Way:
        """A shape in pixels, without points that lie on one another."""
        found = [self.pixels_of(shape[0])]
        for point in map(self.pixels_of, shape[1:]):
            if hypot(point[0] - found[-1][0], point[1] - found[-1][1]) > 0.01:
                found.append(point)
        return found


def street_map(
    mapping: Map, strokes: Mapping[str, Stroke], label: str, marks: Mapping[str, Sequence[str]] | None = None,
    works: Sequence[tuple[str, Shape]] = (),
) -> str:
    """The streets of a map, as SVG, which every map of a page is.

    strokes: of each edge; label: what the picture is, for those who hear the page; marks: {junction: parts (SVG) drawn
    around 0, 0, on its place}; works: (edge, shape) of what is closed. Where no junction has a mark, those with lights
    have their names.
    """
    plane, marks = Plane(mapping), marks or {}
    shapes = {edge: plane.way(middle_shape(mapping, edge)) for edge in mapping.links_of}
    shifts = shifts_of(mapping, shapes, strokes)
    ways = {edge: moved(way, shifts[edge]) for edge, way in shapes.items()}
    svg_parts = [stroke_drawn(ways[edge], strokes[edge]) for edge in shapes]
    for edge, shape in works:
        way = moved(plane.way(shape), shifts[edge])
        svg_parts.append(f'<polyline points="{points_told(way)}" class="works"><title>road works</title></polyline>')
    lit = {node for _, node in mapping.signals}
    point_of_junction = {
        name: plane.pixels_of((x, y)) for at, (name, x, y, _) in enumerate(mapping.nodes) if name in marks or at in lit
    }
    for name, own in marks.items():
        x, y = point_of_junction[name]
        svg_parts.append(f'<g transform="translate({x:.1f} {y:.1f})">{"".join(own)}</g>')
    labelled = {name: at for name, at in point_of_junction.items() if name in marks or not marks}
    svg_parts += labels_drawn(Names(mapping), ways, strokes, labelled)
    tall = plane.tall + STRIP
    head = f'<svg class="map" viewBox="0 0 {WIDE} {tall:.0f}" role="img" aria-label="{escape(label)}">'
    return "".join([head, *svg_parts, bar_drawn(plane), "</svg>"])


def middle_shape(mapping: Map, edge: str) -> Shape:
    """The shape of the middle one of an edge's links."""
    links = mapping.links_of[edge]
    return mapping.links[links[len(links) // 2]].shape


def shifts_of(mapping: Map, shapes: Mapping[str, Way], strokes: Mapping[str, Stroke]) -> dict[str, float]:
    """By how many pixels each edge is moved to its right, so that its line does not lie on that of the way back."""
    firsts = {edge: mapping.links[links[0]] for edge, links in mapping.links_of.items()}
    ends = {edge: (link.begin, link.end) for edge, link in firsts.items()}
    between: dict[tuple[int, int], list[str]] = {}
    for edge, pair in ends.items():
        between.setdefault(pair, []).append(edge)
    found = {}
    for edge, (begin, end) in ends.items():
        backs = [(shapes[one], strokes[one].width) for one in between.get((end, begin), ()) if one != edge]
        found[edge] = shift_from(shapes[edge], strokes[edge].width, backs)
    return found


def shift_from(way: Way, width: float, backs: Sequence[tuple[Way, float]]) -> float:
    """By how many pixels a line of a width is moved to its right, as of shifts_of; backs: (line, width) of the ways
    back."""
    if len(way) < 2 or not backs:
        return 0.0
    middle, (right, down) = point_along(way, 0.5), right_of(point_along(way, 0.49), point_along(way, 0.51))
    back, other = min(backs, key=lambda one: nearest(middle, one[0])[0])
    apart, along = nearest(middle, back)
    total = sum(hypot(bx - ax, by - ay) for (ax, ay), (bx, by) in pairwise(back)) or 1.0
    x, y = point_along(back, min(1.0, along / total))
    side = -1 if right * (x - middle[0]) + down * (y - middle[1]) > 0.5 else 1  # where one drives on the left
    return side * max(0.0, (width + other) / 2 + LINE_GAP - apart) / 2


def right_of(begin: Point, end: Point) -> Point:
    """What lies to the right of a way from one point to another, one pixel off; (0, 0) for equal points."""
    dx, dy = end[0] - begin[0], end[1] - begin[1]
    size = hypot(dx, dy) or 1.0
    return -dy / size, dx / size


def moved(way: Way, shift: float) -> Way:
    """A line moved to its right by some pixels, at bends too, but for those that turn back."""
    if len(way) < 2 or not shift:
        return way
    sides = [right_of(*pair) for pair in pairwise(way)]
    points = []
    for (x, y), (ax, ay), (bx, by) in zip(way, [sides[0], *sides], [*sides, sides[-1]]):
        across, down = ax + bx, ay + by
        size = (across**2 + down**2) / 2
        if size < 0.5:
            across, down, size = bx, by, 1.0
        points.append((x + shift * across / size, y + shift * down / size))
    return points


def points_told(way: Way) -> str:
    """A line as SVG has it."""
    return " ".join(f"{x:.1f},{y:.1f}" for x, y in way)


def stroke_drawn(way: Way, stroke: Stroke) -> str:
    """An edge's line, as SVG."""
    points = points_told(way)
    line = f'<polyline points="{points_told(way)}" class='
    rim = f'{line}"edge-line" stroke="#666" stroke-width="{stroke.width + 2:g}"/>' if stroke.rimmed else ""
    told = f"><title>{escape(stroke.text)}</title></polyline>"
    gaps = f' stroke-dasharray="{stroke.width:.1f} {2 * stroke.width:.1f}"' if stroke.gaps else ""
    own = f'{line}"edge-line" stroke="{stroke.colour}" stroke-width="{stroke.width:.3g}"{gaps}{told}'
    return rim + own + (f'{line}"over"/>' if stroke.broken else "")


def labels_drawn(
    names: Names, ways: Mapping[str, Way], strokes: Mapping[str, Stroke], point_of_junction: Mapping[str, Point]
) -> Iterator[str]:
    """The names of streets, and of the junctions at points, where there is room, as SVG. Where streets have names,
    junctions have those that are their own; elsewhere they have their ids."""
    room = Room(WIDE, MOST_HIGH)
    for edge, way in ways.items():
        room.take_around(way, strokes[edge].width / 2)
    for place in point_of_junction.values():
        room.take_around([place], MARK)
    yield from street_labels({edge: (names.street(edge), way, strokes[edge].width) for edge, way in ways.items()}, room)
    own = {name: names.junctions.get(name, "" if names.edges else name) for name in point_of_junction}
    yield from junction_labels([(own[name], place) for name, place in point_of_junction.items()], room)


def bar_drawn(plane: Plane) -> str:
    """A bar of a round number of metres, and behind it an arrow to the north, below the streets, as SVG."""
    metres = round_length(WIDE / 5 / plane.scale)
    right, y = MARGIN + metres * plane.scale, plane.tall + STRIP - 10
    line = f'<polyline points="{MARGIN},{y - 6:.1f} {MARGIN},{y:.1f} {right:.1f},{y:.1f} {right:.1f},{y - 6:.1f}"'
    told = f'<text x="{(MARGIN + right) / 2:.1f}" y="{y - 4:.1f}" text-anchor="middle">{length_told(metres)}</text>'
    x = right + 30
    arrow = f'<polygon points="{x:.1f},{y - 22:.1f} {x - 6:.1f},{y:.1f} {x:.1f},{y - 5:.1f} {x + 6:.1f},{y:.1f}"/>'
    return f'<g class="bar">{line}/>{told}{arrow}<text x="{x + 10:.1f}" y="{y - 6:.1f}">N</text></g>'


def key(drawn: str, text: str) -> str:
    """What something of a map means, as HTML: how it is drawn (SVG), and its words in plain text."""
    picture = f'<svg class="key" viewBox="0 0 34 14" aria-hidden="true">{drawn}</svg>'
    return f'<span class="ids">{picture} {escape(text)}</span>'


def line_key(stroke: Stroke, text: str) -> str:
    """What a line of a map means, as HTML, with its words in plain text."""
    return key(stroke_drawn([(4, 7), (30, 7)], stroke), text)


def works_key() -> str:
    """What black dashes of a map mean, as HTML."""
    return key('<polyline points="4,7 30,7" class="works"/>', "road works")


def map_figure(picture: str, caption: str, keys: Sequence[str]) -> str:
    """A map with its caption and its legend below it, all HTML; keys: of the legend, as line_key gives them."""
    legend = f'<p class="legend">{" ".join(keys)}</p>'
    return f'<figure><div class="picture">{picture}</div><figcaption>{caption}{legend}</figcaption></figure>'
