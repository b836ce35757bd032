"""The picture of what was understood of a sheet, as SVG: each junction to scale with its lanes, arrows, pockets and
streets, the vehicles of its busiest hour, and the phases of its plans."""
from collections import defaultdict
from collections.abc import Iterator, Sequence
from html import escape
from math import atan2, cos, hypot, radians, sin

from streetsim.base.words import time_of_day
from streetsim.sheet.layout import TURN_ORDER, SheetArm, Junction, SheetLayout, Movement, letter_of, turn_degrees
from streetsim.sheet.network import BuiltNetwork
from streetsim.sheet.picture_phases import PHASE_HIGH, phases_drawn
from streetsim.sheet.plain import PlainFiles, Point

SIDE, WIDE, LINE = 760, 1180, 18  # pixels: of a junction's drawing, of the picture, of a line of text
LEAST_SEEN, MOST_SEEN, BEYOND = 45.0, 160.0, 25.0  # metres from the middle
LANE_WIDTH = 3.0  # metres
ASPHALT, PAINT, INK = "#6b6f76", "#ffffff", "#20242a"
HOUR, QUARTER = 3600, 900  # seconds
LEGEND = (
    "", "Legend", "    L left, T straight on, R right, U back; > and an arm where several lead to one side",
    "    lane 1 is at the kerb; arrows: where a lane leads; white bars: stop lines",
    "    numbers behind turns: vehicles of the busiest hour",
    "    phases: green ways go first, dashed orange ones wait for gaps; green dashes: pedestrians;",
    "    below: green + yellow + red for all, in seconds",
)


def picture_of(layout: SheetLayout, files: PlainFiles, network: BuiltNetwork) -> str:
    """The picture of a layout."""
    parts, top = [], 0.0
    for junction in layout.junctions.values():
        rows = [*lines_of(junction), *LEGEND]
        high = max(SIDE, LINE * (len(rows) + 3))
        parts.append(f'<g transform="translate(0 {top:.0f})">{junction_drawn(layout, junction, files, network)}</g>')
        parts.append(text_block(rows, SIDE + 20, top + 2 * LINE))
        top += high + LINE
        for name, plan in junction.plans.items():
            parts.append(f'<g transform="translate(0 {top:.0f})">{phases_drawn(junction, name, plan)}</g>')
            top += PHASE_HIGH
    style = "<style>text{font:14px sans-serif;fill:#20242a}.small{font-size:12px}.head{font-weight:bold}</style>"
    head = f'<svg xmlns="http://www.w3.org/2000/svg" viewBox="0 0 {WIDE} {top:.0f}" width="{WIDE}" height="{top:.0f}">'
    return f'{head}{style}<rect width="100%" height="100%" fill="#ffffff"/>{"".join(parts)}</svg>\n'


def text_block(lines: Sequence[str], left: float, top: float) -> str:
    """Lines of text below each other; the first is a head, and blanks at the begin of one move it to the right."""
    parts = []
    for number, line in enumerate(lines):
        indent = left + 5 * (len(line) - len(line.lstrip()))
        kind = "" if number else ' class="head"'
        parts.append(f'<text x="{indent:.0f}" y="{top + LINE * number:.0f}"{kind}>{escape(line.strip())}</text>')
    return "".join(parts)


def lines_of(junction: Junction) -> list[str]:
    """What the picture says of a junction beside its drawing."""
    lines = [f"{junction.name}: {junction.control}"]
    hour, flows = busiest_hour(junction)
    for arm in junction.arms.values():
        rank = ", minor" if arm.is_minor else ""
        lines.append(f"{arm.name}  {arm.street}  {arm.speed:g} km/h, {arm.length:g} m, {arm.lanes_out} out{rank}")
        for number, lane in enumerate(arm.lanes, 1):
            turns = " ".join(letter_of(junction.arms, (arm.name, target)) for target in lane.targets)
            pocket = f", pocket of {lane.pocket:g} m" if lane.pocket else ""
            lines.append(f"    lane {number}: {turns}{pocket}")
        own = {movement: flow for movement, flow in flows.items() if movement[0] == arm.name}
        if own:
            told = ", ".join(f"{letter_of(junction.arms, movement)} {flow:,.0f}" for movement, flow in own.items())
            lines.append(f"    {told}")
    if flows:
        lines.append(f"vehicles of the busiest hour, {time_of_day(hour)} to {time_of_day(hour + HOUR)}: "
                     f"{sum(flows.values()):,.0f}")
    return lines


def busiest_hour(junction: Junction) -> tuple[int, dict[Movement, float]]:
    """(begin of the hour with the most vehicles, vehicles of each movement in it)."""
    best: tuple[float, int, dict[Movement, float]] = (-1.0, 0, {})
    for begin in sorted({count.begin for count in junction.counts}):
        flows: defaultdict[Movement, float] = defaultdict(float)
        for count in junction.counts:
            inside = max(0, min(count.end, begin + HOUR) - max(count.begin, begin))
            flows[count.movement] += count.vehicles * inside / (count.end - count.begin)
        if (total := sum(flows.values())) > best[0]:
            best = total, begin, dict(sorted(flows.items(), key=lambda one: turn_order(junction, one[0])))
    return best[1], best[2]


def turn_order(junction: Junction, movement: Movement) -> tuple[str, int]:
    """Where a movement stands among those of its arm: left, through, right, back."""
    return movement[0], TURN_ORDER.find(letter_of(junction.arms, movement)[0])


class DrawingScale:
    """From metres of the network to pixels of a junction's drawing."""

    def __init__(self, middle: Point, radius: float) -> None:
        """middle: of the junction; radius: metres from it to the edge of the drawing."""
        self.middle, self.radius, self.factor = middle, radius, SIDE / (2 * radius)

    def point(self, place: Point) -> Point:
        """The pixels of a place."""
        x, y = place[0] - self.middle[0], place[1] - self.middle[1]
        return SIDE / 2 + x * self.factor, SIDE / 2 - y * self.factor

    def path(self, places: Sequence[Point]) -> str:
        """The points of a line through places."""
        return " ".join("{:.1f},{:.1f}".format(*self.point(place)) for place in places)


def middle_in(junction: Junction, files: PlainFiles, network: BuiltNetwork) -> Point:
    """The middle of a junction in its network: its node, or that of a roundabout's nodes."""
    if junction.name in network.middles:
        return network.middles[junction.name]
    ends = {str(edge["id"]): str(edge["to"]) for edge in files.edges}
    edges = [files.approaches[junction.name, arm.name] for arm in junction.arms.values() if arm.lanes]
    arms = [arm for arm in junction.arms.values() if arm.lanes]
    x, y = network.middles[ends[edges[0]]]
    turned = radians(arms[0].bearing)
    return x - junction.radius * sin(turned), y - junction.radius * cos(turned)


def junction_drawn(layout: SheetLayout, junction: Junction, files: PlainFiles, network: BuiltNetwork) -> str:
    """The drawing of a junction with what is around it."""
    pockets = [lane.pocket for arm in junction.arms.values() for lane in arm.lanes]
    ring = junction.radius if junction.name not in network.middles else 0.0
    radius = min(MOST_SEEN, max(LEAST_SEEN + ring, max(pockets, default=0) + BEYOND + ring))
    scale = DrawingScale(middle_in(junction, files, network), radius)
    clip = f"clip-{junction.name}"
    parts = [f'<clipPath id="{clip}"><rect width="{SIDE}" height="{SIDE}"/></clipPath><g clip-path="url(#{clip})">']
    parts.append(f'<rect width="{SIDE}" height="{SIDE}" fill="#eef3ea"/>')
    wide = LANE_WIDTH * scale.factor
    for name, shapes in sorted(network.shapes.items(), key=lambda one: not one[0].startswith(":")):
        for shape in shapes:
            joint = "round" if name.startswith(":") else "butt"
            parts.append(f'<polyline points="{scale.path(shape)}" fill="none" stroke="{ASPHALT}" '
                         f'stroke-width="{wide:.1f}" stroke-linecap="{joint}"/>')
    for arm in junction.arms.values():
        parts += arm_drawn(junction, arm, files, network, scale)
    parts.append("</g>")
    parts += labels_of(junction, scale)
    parts.append(f'<text x="{SIDE - 60}" y="30">N &#8593;</text>{metres_drawn(scale)}')
    return "".join(parts)


def metres_drawn(scale: DrawingScale) -> str:
    """A bar of twenty metres."""
    wide, y = 20 * scale.factor, SIDE - 14
    return (f'<line x1="14" y1="{y}" x2="{14 + wide:.0f}" y2="{y}" stroke="{INK}" stroke-width="2"/>'
            f'<text class="small" x="18" y="{y - 5}">20 m</text>')


def arm_drawn(
    junction: Junction, arm: SheetArm, files: PlainFiles, network: BuiltNetwork, scale: DrawingScale
) -> Iterator[str]:
    """The stop line and the arrows of an approach."""
    if not arm.lanes:
        return
    for lane, shape in zip(arm.lanes, network.shapes[files.approaches[junction.name, arm.name]]):
        (x, y), (before_x, before_y) = shape[-1], shape[-2]
        heading = atan2(y - before_y, x - before_x)
        direction, aside = (cos(heading), sin(heading)), (-sin(heading), cos(heading))
        half = LANE_WIDTH / 2 - 0.2
        ends = [(x + side * half * aside[0], y + side * half * aside[1]) for side in (-1, 1)]
        yield f'<polyline points="{scale.path(ends)}" stroke="{PAINT}" stroke-width="3"/>'
        for target in lane.targets:
            turned = 180.0 if target == arm.name else turn_degrees(arm, junction.arms[target])
            yield arrow((x - 3 * direction[0], y - 3 * direction[1]), heading, turned, scale)


def arrow(place: Point, heading: float, turned: float, scale: DrawingScale) -> str:
    """A painted arrow that ends at a place, for who comes in a direction and turns so many degrees to the right."""
    bent = heading - radians(max(-135.0, min(135.0, turned)))
    foot = place[0] - 7 * cos(heading), place[1] - 7 * sin(heading)
    knee = place[0] - 3 * cos(heading), place[1] - 3 * sin(heading)
    reach = 3.0 if abs(turned) < 20 else 1.7
    tip = knee[0] + reach * cos(bent), knee[1] + reach * sin(bent)
    left, right = ((tip[0] - 1.1 * cos(bent + side), tip[1] - 1.1 * sin(bent + side)) for side in (-0.5, 0.5))
    line = f'fill="none" stroke="{PAINT}" stroke-width="{0.28 * scale.factor:.1f}"'
    strokes = [foot, knee, tip], [left, tip, right]
    return "".join(f'<polyline points="{scale.path(points)}" {line}/>' for points in strokes)


def labels_of(junction: Junction, scale: DrawingScale) -> Iterator[str]:
    """The names of arms at the edge of the drawing."""
    for arm in junction.arms.values():
        turned = radians(arm.bearing)
        x, y = sin(turned), -cos(turned)
        reach = (SIDE / 2 - 24) / max(abs(x), abs(y))
        place = SIDE / 2 + x * reach, SIDE / 2 + y * reach
        anchor = "middle" if abs(x) < 0.7 else "end" if x > 0 else "start"
        aside = 26 if hypot(x, y) and abs(x) >= 0.7 else 0
        text = escape(f"{arm.name} {arm.street}".strip())
        yield (f'<text class="head" x="{place[0]:.0f}" y="{place[1] - aside + 4:.0f}" text-anchor="{anchor}" '
               f'stroke="#ffffff" stroke-width="4" paint-order="stroke">{text}</text>')
