"""Draws the pictures of a page as SVG: maps by level of service or by differences, and queues beside their room."""
from collections.abc import Collection, Mapping, Sequence
from html import escape
from typing import NamedTuple

from streetsim.base.colours import DECREASE, INCREASE, STREET
from streetsim.model.mapping import Map, Shape
from streetsim.model.service import COLOURS, WHITE_LETTERS, fills
from streetsim.report.page_choice import NOTICED_SECONDS
from streetsim.report.page_labels import text_width
from streetsim.report.page_map import WIDE, Stroke, line_key, street_map, works_key


def letter_mark(letter: str) -> str:
    """A letter of the level of service on its colour, as HTML."""
    return f'<span class="los los-{letter}">{letter}</span>'


def service_map(
    mapping: Map, approaches: Mapping[str, tuple[str, str]], junctions: Mapping[str, tuple[str, str, bool]],
    signs: Mapping[str, float], works: Sequence[tuple[str, Shape]],
) -> str:
    """The streets of a map, as SVG; approaches by the colour of their level of service, junctions as marks with theirs.

    approaches: {edge: (letter, text)}; junctions: {name: (letter, text, whether the page tells it in detail)}; signs:
    {junction: change of its delay in seconds}, of those that change; works: (edge, shape) of what is closed.
    """
    strokes = {edge: service_stroke(*approaches.get(edge, ("", edge))) for edge in mapping.links_of}
    marks = {}
    for name, *_ in mapping.nodes:
        if name in junctions:
            letter, text, linked = junctions[name]
            mark = junction_mark(letter, text)
            marks[name] = [f'<a href="#{anchor(name)}">{mark}</a>' if linked else mark]
            if change := signs.get(name):
                marks[name].append(change_mark(change))
    return street_map(mapping, strokes, "Map by delay", marks, works)


def service_stroke(letter: str, text: str) -> Stroke:
    """How an approach is drawn by the letter of its level of service, wider where that is worse; thin and grey where it
    has none. text: what it says when pointed at."""
    if not letter:
        return Stroke(STREET, 2, text)
    return Stroke(COLOURS[letter], 4 + "ABCDEF".index(letter), text, rimmed=True, broken=letter == "F")


def service_keys(letters: Collection[str], closed: bool) -> list[str]:
    """The legend of a map by level of service, as HTML: of the letters that it has, of streets without one, and where
    something is closed of that."""
    keys = [line_key(service_stroke(letter, ""), letter) for letter in COLOURS if letter in letters]
    return [*keys, line_key(service_stroke("", ""), "no approach, or nobody came"), *([works_key()] if closed else [])]


def difference_map(mapping: Map, differences: Mapping[str, float]) -> str:
    """The streets, as SVG; edges with a value red above 0 and blue and broken below, but dark grey within 0.5 of it,
    wider where it is farther from 0; others thin and light grey. differences: by edge, shown in whole numbers without a
    unit."""
    most = max([1.0, *(abs(difference) for difference in differences.values())])
    strokes = {}
    for edge in mapping.links_of:
        difference = differences.get(edge)
        text = edge if difference is None else f"{edge}: {difference:+.0f}"
        strokes[edge] = difference_stroke(difference, most, text)
    return street_map(mapping, strokes, "Map of differences")


def difference_stroke(difference: float | None, greatest: float, text: str) -> Stroke:
    """How an edge with a value is drawn, none where it has none; greatest: value that there is, up or down; text: what
    it says when pointed at."""
    if difference is None:
        return Stroke(STREET, 1.5, text)
    colour = "#777" if abs(difference) < 0.5 else INCREASE if difference > 0 else DECREASE
    return Stroke(colour, 2 + 6 * abs(difference) / greatest, text, gaps=difference <= -0.5)


def junction_mark(letter: str, text: str) -> str:
    """A circle (SVG) around 0, 0 with a letter of the level of service; text: what it says when pointed at."""
    colour = "#fff" if letter in WHITE_LETTERS else "#000"
    circle = f'<circle r="11" fill="{COLOURS[letter]}" stroke="#000"/>'
    write = f'<text dy="4" text-anchor="middle" fill="{colour}" class="letter">{letter}</text>'
    return f"<g><title>{escape(text)}</title>{circle}{write}</g>"


def change_mark(change: float) -> str:
    """A triangle (SVG) to the right of a junction at 0, 0, up where it waits more and down where less, small below 5 s;
    change: of its delay, seconds."""
    half = 5.5 if abs(change) >= NOTICED_SECONDS else 4.0
    tall = half if change < 0 else -half
    points = f"14,{-tall:.1f} {14 + 2 * half:.1f},{-tall:.1f} {14 + half:.1f},{tall:.1f}"
    fill = "#b00" if change > 0 else "#06c"
    return f'<polygon points="{points}" fill="{fill}" stroke="#fff"><title>{change:+.1f} s</title></polygon>'


def anchor(name: str) -> str:
    """The id by which links of the page find a junction's section."""
    return "junction-" + "".join(sign if sign.isalnum() else f"-{ord(sign):x}-" for sign in name)


class QueueBar(NamedTuple):
    """The queues of a lane, in metres, and the room for them."""

    name: str
    half: float  # what half of the cycles do not exceed
    usual: float  # what 95 % of them do not exceed
    greatest: float
    room: float
    spills: str = ""  # how often it is full or blocked, in words


def queue_picture(bars: Sequence[QueueBar]) -> str:
    """A bar (SVG) for each lane: its room, the 95 % queue in it, the 50 % queue, and a line at the greatest."""
    most = max((max(one.greatest, one.room) for one in bars), default=0.0) or 1.0
    bars_left = max(150.0, *(text_width(one.name) for one in bars), 0.0)  # of the bars; names stand before them
    scale = (500 - bars_left) / most
    svg_parts = [queue_bar_drawn(one, bars_left, 8 + 26 * place, scale) for place, one in enumerate(bars)]
    shape = f'viewBox="0 0 {WIDE} {12 + 26 * len(bars)}" role="img" aria-label="Queues"'
    return f'<svg class="queues" {shape}>{"".join(svg_parts)}</svg>'


def queue_bar_drawn(bar: QueueBar, x: float, y: float, scale: float) -> str:
    """A bar as SVG, from x pixels on, so many pixels (scale) a metre; its name stands before it."""
    metres = f"{bar.half:.0f}, {bar.usual:.0f}, {bar.greatest:.0f} of {bar.room:.0f} m"
    title = f"{bar.name}: 50 % {bar.half:.0f} m, 95 % {bar.usual:.0f} m, "
    title += f"greatest {bar.greatest:.0f} m of {bar.room:.0f} m"
    spills = bar.spills or ("filled once" if bar.greatest > 0 and fills(bar.greatest, bar.room) else "")
    return (
        f'<g><title>{escape(title)}</title>'
        f'<text x="{x:g}" y="{y + 13:g}" text-anchor="end">{escape(bar.name)}</text>'
        f'<g transform="translate({x + 6:g} {y:g})">'
        f'<rect width="{bar.room * scale:.1f}" height="18" fill="#fff" stroke="#666"/>'
        f'<rect y="3" width="{bar.usual * scale:.1f}" height="12" fill="#9ecae1"/>'
        f'<rect y="3" width="{bar.half * scale:.1f}" height="12" fill="#3182bd"/>'
        f'<line x1="{bar.greatest * scale:.1f}" x2="{bar.greatest * scale:.1f}" y2="18" class="greatest"/></g>'
        f'<text x="516" y="{y + 13:g}">{metres}{f", {spills}" if spills else ""}</text></g>'
    )
