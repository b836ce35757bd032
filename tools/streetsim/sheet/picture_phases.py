"""Draws the phases of a plan: a small junction for each, with the movements that have green."""
from collections.abc import Iterator
from html import escape
from math import cos, radians, sin

from streetsim.sheet.layout import SheetArm, Junction, Movement, PlanPhase, Plan

BOX, PHASE_HIGH, TOP = 140, 220, 40  # pixels: a phase's side, the height of a plan's row, and of its title
REACH, ASIDE = 56.0, 7.0  # pixels from the middle to the ends of arms, and of ways from their middles
STRAIGHT = 20.0  # degrees, below which a way is drawn straight on
GREEN, LIGHT, GREY = "#1b8a3a", "#e08a00", "#c9ccd1"
Point = tuple[float, float]


def phases_drawn(junction: Junction, name: str, plan: Plan) -> str:
    """The row of a plan: its title, and a drawing of each phase with its seconds."""
    title = f"Plan {name} of {junction.name}: cycle {plan.cycle} s, offset {plan.offset} s"
    parts = [f'<text class="head" x="20" y="24">{escape(title)}</text>']
    for number, phase in enumerate(plan.phases):
        parts.append(f'<g transform="translate({20 + number * BOX} {TOP})">{phase_drawn(junction, phase)}')
        told = f"{number + 1}: {phase.seconds} + {phase.yellow} + {phase.all_red} s"
        parts.append(f'<text class="small" x="0" y="{BOX + 12}">{told}</text></g>')
    return "".join(parts)


def phase_drawn(junction: Junction, phase: PlanPhase) -> str:
    """A phase: grey arms, green ways, dashed ones that give way, dashes where pedestrians have green."""
    lines = [line([middle(), end_of(arm, REACH, 0)], GREY, 16) for arm in junction.arms.values()]
    for movements, colour in ((phase.green, GREEN), (phase.permissive, LIGHT)):
        lines += [part for movement in movements for part in way_drawn(junction, movement, colour)]
    for name in phase.walking:
        if arm := junction.arms.get(name):
            across = [end_of(arm, REACH * 0.8, side * 12) for side in (-1, 1)]
            lines.append(line(across, GREEN, 3, ' stroke-dasharray="4 3"'))
    return "".join(lines)


def middle() -> Point:
    """The middle of a phase's drawing."""
    return BOX / 2, BOX / 2


def end_of(arm: SheetArm, away: float, aside: float) -> Point:
    """A point so many pixels along an arm, and so many to the right of who drives outwards."""
    x, y = sin(radians(arm.bearing)), -cos(radians(arm.bearing))
    return BOX / 2 + x * away - y * aside, BOX / 2 + y * away + x * aside


def line(points: list[Point], colour: str, width: float, more: str = "") -> str:
    """A line through points."""
    told = " ".join(f"{x:.1f},{y:.1f}" for x, y in points)
    return f'<polyline points="{told}" fill="none" stroke="{colour}" stroke-width="{width}"{more}/>'


def way_drawn(junction: Junction, movement: Movement, colour: str) -> Iterator[str]:
    """The way of a movement, with its head; dashed where it gives way."""
    side = -1 if junction.drives_left else 1
    source, target = junction.arms[movement[0]], junction.arms[movement[1]]
    begin, end = end_of(source, REACH, -side * ASIDE), end_of(target, REACH, side * ASIDE)
    is_straight = source is not target and abs((source.bearing - target.bearing) % 360 - 180) < STRAIGHT
    told = f"M{begin[0]:.1f},{begin[1]:.1f}"
    if not is_straight:
        enter, leave = end_of(source, 14, -side * ASIDE), end_of(target, 14, side * ASIDE)
        told += f" L{enter[0]:.1f},{enter[1]:.1f} Q{BOX / 2},{BOX / 2} {leave[0]:.1f},{leave[1]:.1f}"
    dashes = ' stroke-dasharray="5 3"' if colour == LIGHT else ""
    yield f'<path d="{told} L{end[0]:.1f},{end[1]:.1f}" fill="none" stroke="{colour}" stroke-width="3"{dashes}/>'
    head = [end_of(target, REACH - 8, side * ASIDE + turn) for turn in (-4, 4)]
    yield line([head[0], end, head[1]], colour, 3)
