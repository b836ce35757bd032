"""Draws the ways of vehicles along a path, over time, as SVG: a page has the same bytes wherever it is made."""
from collections.abc import Callable, Iterable, Iterator, Sequence
from html import escape

from streetsim.base.words import time_of_day
from streetsim.model.folder import Folder
from streetsim.model.names import Names
from streetsim.report import run_series
from streetsim.report.picture_plots import SPEEDS, refuse_undrawn
from streetsim.report.run_series import TrackPiece, Spot

WIDE, LEFT_MARGIN, RIGHT_MARGIN = 900, 64, 150  # pixels: of the picture, and beside its panels
TOP_MARGIN, HIGH, BOTTOM_MARGIN = 26, 300, 46  # of a panel: above it, it, below it
ToPixels = Callable[[float, float], str]  # of a second and metres, where they are: "across,down", pixels


def corridor_picture(
    folder: Folder, ways: Sequence[Sequence[str]], first_second: int, last_second: int, label: str
) -> str:
    """Where each vehicle is along paths (metres) over time (seconds), one panel a path, as SVG. ways: of each path its
    edges; label: what the picture shows. Fault as of refuse_undrawn."""
    for way in ways:
        refuse_undrawn(folder, way, first_second, last_second)
    tall = len(ways) * (TOP_MARGIN + HIGH + BOTTOM_MARGIN) + 26
    svg_parts = [f'<svg class="corridor" viewBox="0 0 {WIDE} {tall}" role="img" aria-label="{escape(label)}">']
    classes = {0}
    for index, way in enumerate(ways):
        track_pieces = run_series.trajectories(folder, way, first_second, last_second)
        classes |= {class_of(piece) for piece in track_pieces}
        top = index * (TOP_MARGIN + HIGH + BOTTOM_MARGIN) + TOP_MARGIN
        svg_parts.append(panel(folder, way, (first_second, last_second), track_pieces, top))
    return "".join([*svg_parts, legend(sorted(classes), tall - 12), "</svg>"])


def class_of(track_piece: TrackPiece) -> int:
    """The place in SPEEDS of a piece's speed."""
    return min(track_piece[2], len(SPEEDS) - 1)


def panel(folder: Folder, way: Sequence[str], span: Spot, track_pieces: Sequence[TrackPiece], top: int) -> str:
    """One direction of a path, as SVG: its vehicles, red signals, green band (in the title) and the names of junctions
    beside it. span: first and last second; top: pixels from the picture's top."""
    (first_second, last_second), length = span, run_series.links_and_length(folder, way)[1]
    across, down = (WIDE - LEFT_MARGIN - RIGHT_MARGIN) / (last_second - first_second), HIGH / (length * 1.01)

    def pixels_at(second: float, metres: float) -> str:
        """Where a second and metres are, in pixels."""
        return f"{LEFT_MARGIN + (second - first_second) * across:.1f},{top + HIGH - metres * down:.1f}"

    width = WIDE - LEFT_MARGIN - RIGHT_MARGIN
    frame = f'<rect x="{LEFT_MARGIN}" y="{top}" width="{width}" height="{HIGH}" fill="none" stroke="#555"/>'
    svg_parts = [*grid(pixels_at, span, length), frame]
    for place in range(len(SPEEDS) - 1, -1, -1):
        svg_parts += vehicles(pixels_at, [piece for piece in track_pieces if class_of(piece) == place], place)
    for metres, begin, end in run_series.red_times(folder, way, int(first_second), int(last_second)):
        line = f"M{pixels_at(begin, metres)}L{pixels_at(end, metres)}"
        svg_parts.append(f'<path d="{line}" stroke="#000" stroke-width="4"/>')
    for metres, name in run_series.junctions_along(folder, way):
        level = pixels_at(last_second, metres).split(",")[1]
        svg_parts.append(f'<text x="{WIDE - RIGHT_MARGIN + 6}" y="{level}" dy="4">{escape(name)}</text>')
    title = escape(title_of(folder, way, int(first_second)))
    title = f'<text x="{LEFT_MARGIN}" y="{top - 8}" font-weight="bold">{title}</text>'
    return f"<g>{title}{''.join(svg_parts)}</g>"


def title_of(folder: Folder, way: Sequence[str], first_second: int) -> str:
    """What a panel shows: the streets of a path and its green band from a second on."""
    streets, band = Names(folder.mapping), run_series.green_band(folder, way, first_second)
    begin, end = (streets.street(edge) or edge for edge in (way[0], way[-1]))
    where = f"Along {begin}" if begin == end else f"From {begin} to {end}"
    return f"{where}: each line is a vehicle" + (f"; green band {band[0]} of {band[1]} s" if band else "")


def grid(pixels_at: ToPixels, span: Spot, length: float) -> Iterator[str]:
    """Lines and numbers of the axes of a panel, as SVG. span: first and last second; length: metres."""
    (first_second, last_second), places = span, steps(0, length)
    for second in steps(first_second, last_second):
        x, y = pixels_at(second, 0).split(",")
        yield f'<path d="M{pixels_at(second, 0)}L{pixels_at(second, length)}" stroke="#ddd"/>'
        yield f'<text x="{x}" y="{y}" dy="16" text-anchor="middle">{time_of_day(int(second))}</text>'
    for metres in places:
        x, y = pixels_at(first_second, metres).split(",")
        yield f'<path d="M{pixels_at(first_second, metres)}L{pixels_at(last_second, metres)}" stroke="#ddd"/>'
        yield f'<text x="{x}" y="{y}" dx="-6" dy="4" text-anchor="end">{metres:g} m</text>'


def steps(low: float, high: float) -> list[float]:
    """Round numbers from low to high, some six of them."""
    step = run_series.round_length(max(1.0, (high - low) / 5))
    begin = -(-low // step) * step
    return [begin + step * index for index in range(int((high - begin) // step) + 1)]


def vehicles(pixels_at: ToPixels, track_pieces: Iterable[TrackPiece], speed_class: int) -> Iterator[str]:
    """The ways of vehicles of one class of speed, by its place in SPEEDS, as SVG; nothing where there are none."""
    track_pieces, (_, label, colour, width) = list(track_pieces), SPEEDS[speed_class]
    long = run_series.long_vehicle_strips(track_pieces)
    if strips := "".join(f"M{'L'.join(pixels_at(*corner) for corner in one)}Z" for one in long):
        yield f'<path d="{strips}" fill="{colour}" fill-opacity="0.6"/>'
    if lines := "".join(f"M{'L'.join(pixels_at(*spot) for spot in one)}" for one in joined(track_pieces)):
        line = f'<path d="{lines}" fill="none" stroke="{colour}" stroke-width="{width}">'
        yield f"{line}<title>{label}</title></path>"


def joined(track_pieces: Iterable[TrackPiece]) -> list[list[Spot]]:
    """Pieces of ways as lines through as many points as they need: those that go on where another ends are joined, and
    are one straight line where they are equally steep."""
    lines: list[list[Spot]] = []
    ends: dict[Spot, list[Spot]] = {}
    for begin, end, _, _ in track_pieces:
        line = ends.pop(begin, None)
        if line is None:
            lines.append(line := [begin])
        elif is_straight(line[-2], begin, end):
            line.pop()
        line.append(end)
        ends[end] = line
    return lines


def is_straight(begin: Spot, middle: Spot, end: Spot) -> bool:
    """Whether three places are on a line."""
    return (middle[1] - begin[1]) * (end[0] - middle[0]) == (end[1] - middle[1]) * (middle[0] - begin[0])


def legend(classes: Sequence[int], down: int) -> str:
    """What the lines mean, as SVG, at so many pixels down: those of the classes of speed that there are, and red."""
    entries = [(label, colour, width + 1) for _, label, colour, width in (SPEEDS[one] for one in classes)]
    parts = []
    for index, (label, colour, width) in enumerate([*entries, ("red signal", "#000", 4)]):
        x = LEFT_MARGIN + 160 * index
        parts.append(f'<path d="M{x},{down - 4}h28" stroke="{colour}" stroke-width="{width}"/>')
        parts.append(f'<text x="{x + 34}" y="{down}">{label}</text>')
    return "".join(parts)
