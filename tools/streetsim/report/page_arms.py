"""A junction as engineers draw it, as SVG: its arms with their lanes to scale of each other, turning flows as bands of
their width, and at each arm the street, and of each movement flow, delay, letter, queue and doubt."""
from collections.abc import Iterator, Sequence
from dataclasses import dataclass, field
from html import escape
from math import atan2, cos, sin

from streetsim.model.mapping import Map
from streetsim.model.service import COLOURS
from streetsim.report.run_tables import ResultRow, Runs

SIDE, MIDDLE = 760, 380.0  # pixels of the picture, and of its middle
INNER, OUTER = 70.0, 175.0  # pixels from the middle to stop lines, and to the ends of arms
LANE, LINE = 15.0, 17.0  # pixels of the width of a lane, and of a line of text
MOST_NAME = 22  # letters of a street's name
SIDEWAYS = 0.7  # of an arm's length, from which on to a side its texts stand beside its end
WIDEST, LEAST_BAND = 26.0, 1.5  # pixels of the greatest flow and of the least
KEY = (
    "Pictures: lanes with the movements that they lead to (L left, T straight on, R right, U back); bands as wide as "
    "flows that pass, of the colour of their letter; blue, and queue: the 95 % queue of any lane, as a share of the "
    "room."
)
Point = tuple[float, float]


@dataclass(slots=True)
class Arm:
    """The approach of a junction along an edge: its direction outwards, lanes, and rows."""

    edge: str
    turn: float  # outwards, radians from the east, in the picture's direction
    lanes: list[str]  # by lane from the right the movements that it leads to, as LT
    row: ResultRow | None = None  # of the approach
    movements: list[ResultRow] = field(default_factory=list)

    def point(self, away: float, aside: float = 0.0) -> Point:
        """The point so many pixels from the middle along the arm, and so many to the right of who drives inwards."""
        x, y = cos(self.turn), sin(self.turn)
        return MIDDLE + away * x + aside * y, MIDDLE + away * y - aside * x


def junction_picture(runs: Runs, name: str, interval: tuple[int, int]) -> str:
    """The picture of a junction in an interval (begin, end) of the tables; empty where it has no rows."""
    arms = arms_of(runs, name, interval)
    if not arms:
        return ""
    side = right_of(runs.first_folder.mapping, arms)
    greatest = max((row.means["vehicles_per_hour"] for arm in arms for row in arm.movements), default=0.0) or 1.0
    bands = [band for arm in arms for row in arm.movements for band in band_of(runs, arm, arms, row, greatest, side)]
    parts = [*bands, *(part for arm in arms for part in lanes_drawn(arm, side))]
    parts += [part for arm in arms for part in texts_of(runs, arm)]
    title = escape(f"{runs.names.junction_told(name)}: arms, flows, delays and queues")
    top, high = seen_heights(arms)
    shape = f'viewBox="0 {top:.0f} {SIDE} {high:.0f}" role="img" aria-label="{title}"'
    return f'<svg class="arms" {shape}><title>{title}</title>{"".join(parts)}</svg>'


def arms_of(runs: Runs, name: str, interval: tuple[int, int]) -> list[Arm]:
    """The arms of a junction that have a row in an interval."""
    mapping, arms = runs.first_folder.mapping, []
    movements = runs.rows.get(("movements", *interval), {})
    for key, row in sorted(runs.rows.get(("approaches", *interval), {}).items()):
        if key[0] == name and key[1] in mapping.links_of:
            own = [one for other, one in sorted(movements.items()) if other[:2] == key]
            arms.append(Arm(key[1], direction(mapping, key[1], -1, -2), lanes_of(mapping, key[1], own), row, own))
    return arms


def direction(mapping: Map, edge: str, begin: int, end: int) -> float:
    """The direction from a point of an edge's line to another, by their places in it, as of Arm.turn."""
    shape = mapping.links[mapping.links_of[edge][0]].shape
    return atan2(shape[begin][1] - shape[end][1], shape[end][0] - shape[begin][0])


def lanes_of(mapping: Map, edge: str, movements: Sequence[ResultRow]) -> list[str]:
    """By lane of an edge from the right the movements that SUMO's connections lead to from it, as LT."""
    letter = {row.key[2]: row.movement for row in movements}
    letters_by_lane: dict[int, set[str]] = {}
    for link in mapping.links_of[edge]:
        for lane in mapping.links[link].lanes:
            letters_by_lane.setdefault(lane, set())
    for turn in mapping.turns:
        own, target = mapping.links[turn.link], mapping.links[turn.next].edge
        if own.edge == edge and not turn.added and target in letter:
            letters_by_lane[own.lanes[turn.lane]].add(letter[target])
    return ["".join(sorted(letters_by_lane[lane], key="ULTR".index)) for lane in sorted(letters_by_lane)]


def right_of(mapping: Map, arms: Sequence[Arm]) -> int:
    """1 where one drives on the right, -1 on the left: by where edges end and begin beside each other."""
    total = 0.0
    for arm in arms:
        link = mapping.links[mapping.links_of[arm.edge][0]]
        back = [one for one in mapping.links if (one.begin, one.end) == (link.end, link.begin)]
        for other in back[:1]:
            across = other.shape[0][0] - link.shape[-1][0], link.shape[-1][1] - other.shape[0][1]
            total += across[0] * sin(arm.turn) - across[1] * cos(arm.turn)
    return -1 if total > 1.0 else 1


def band_of(
    runs: Runs, arm: Arm, arms: Sequence[Arm], row: ResultRow, greatest: float, side: int
) -> Iterator[str]:
    """A movement's flow as a band from its arm to where it goes, of the colour of its letter."""
    target, flow = row.key[2], row.means["vehicles_per_hour"]
    target_arm = Arm(target, direction(runs.first_folder.mapping, target, 0, 1), [])
    begin = arm.point(INNER, side * LANE * len(arm.lanes) / 2)
    lanes = len(runs.first_folder.mapping.links[runs.first_folder.mapping.links_of[target][0]].lanes)
    end = target_arm.point(INNER, -side * LANE * lanes / 2)
    width, middle = max(LEAST_BAND, WIDEST * flow / greatest), f"{MIDDLE:.0f} {MIDDLE:.0f}"
    told = f"{runs.names.movement(arm.edge, target)}: {flow:.0f} vehicles an hour, {row.delay:.0f} s, {row.letter()}"
    yield (
        f'<path d="M{begin[0]:.1f} {begin[1]:.1f} Q{middle} {end[0]:.1f} {end[1]:.1f}" fill="none" opacity="0.85" '
        f'stroke="{COLOURS[row.letter()]}" stroke-width="{width:.1f}"><title>{escape(told)}</title></path>'
    )
    if target_arm.edge not in {one.edge for one in arms}:
        yield quad([target_arm.point(away, -side * aside) for away, aside in box(0.0, LANE * lanes)], "#e8e8e8")


def box(low: float, high: float, begin: float = INNER, end: float = OUTER) -> list[tuple[float, float]]:
    """The corners (pixels from the middle, pixels aside) of a strip along an arm."""
    return [(begin, low), (end, low), (end, high), (begin, high)]


def quad(corners: Sequence[Point], fill: str, more: str = "") -> str:
    """A polygon of corners, as SVG."""
    points = " ".join(f"{x:.1f},{y:.1f}" for x, y in corners)
    return f'<polygon points="{points}" fill="{fill}" stroke="#555"{more}/>'


def lanes_drawn(arm: Arm, side: int) -> Iterator[str]:
    """The lanes of an arm, that of the kerb outermost, with the letters of their movements at the stop line, and the
    95 % queue in them as a share of the room."""
    count = len(arm.lanes)
    for at, letters in enumerate(arm.lanes):
        low = side * LANE * (count - 1 - at)
        corners = [arm.point(*corner) for corner in box(low, low + side * LANE)]
        yield quad(corners, "#e8e8e8")
        x, y = arm.point(INNER + 14, low + side * LANE / 2)
        yield f'<text x="{x:.1f}" y="{y + 5:.1f}" text-anchor="middle" class="lane">{letters}</text>'
    if arm.row and (queue := arm.row.means.get("queue_95_m", 0.0)):
        share = min(1.0, queue / max(1.0, arm.row.means.get("storage_m", queue)))
        ends = box(side * (LANE * count + 2), side * (LANE * count + 8), INNER, INNER + share * (OUTER - INNER))
        yield quad([arm.point(*corner) for corner in ends], "#3182bd")


def texts_top(arm: Arm, count: int) -> float:
    """The pixels from the top of the picture to the first line of the texts at an arm; count: of its lines."""
    high = LINE * (count - 1)
    _, y = arm.point(OUTER + (10 if anchor_of(arm) != "middle" else 20 + high / 2))
    return min(SIDE - high - 6, max(16.0, y - high / 2 + 5))


def anchor_of(arm: Arm) -> str:
    """On which side of their place the texts at an arm stand, as SVG calls it."""
    across = cos(arm.turn)
    return "start" if across > SIDEWAYS else "end" if across < -SIDEWAYS else "middle"


def count_of_lines(arm: Arm) -> int:
    """How many lines of text stand at an arm: street, movements, and queue and delay of its row."""
    return 1 + len(arm.movements) + (2 if arm.row else 0)


def seen_heights(arms: Sequence[Arm]) -> tuple[float, float]:
    """(the pixels from the top above which nothing is drawn, the pixels from there to the last that is drawn)."""
    tops = [(texts_top(arm, count), LINE * (count - 1)) for arm, count in ((arm, count_of_lines(arm)) for arm in arms)]
    first = max(0.0, min(MIDDLE - OUTER - LINE, *(top - LINE for top, _ in tops)))
    last = min(SIDE, max(MIDDLE + OUTER + LINE, *(top + high + 6 for top, high in tops)))
    return first, last - first


def texts_of(runs: Runs, arm: Arm) -> Iterator[str]:
    """The texts at an arm: the street, its movements with flow, delay and letter, the queue, and whether it is
    doubted."""
    street = runs.names.street(arm.edge) or runs.names.coming_from(arm.edge)
    lines = [(shortened(street), "bold")]
    for row in sorted(arm.movements, key=lambda one: "ULTR".index(one.movement)):
        told = f"{row.movement} {row.means['vehicles_per_hour']:.0f}/h {row.delay:.0f} s {row.letter()}"
        lines.append((told + (" doubted" if row.doubt else ""), ""))
    if arm.row:
        queue, room = (arm.row.means.get(name, 0.0) for name in ("queue_95_m", "storage_m"))
        lines.append((f"queue {queue:.0f} of {room:.0f} m", ""))
        lines.append((f"{arm.row.delay:.0f} s {arm.row.letter()}{' doubted' if arm.row.doubt else ''}", "bold"))
    anchor, high, top = anchor_of(arm), LINE * (len(lines) - 1), texts_top(arm, len(lines))
    x, _ = arm.point(OUTER + (10 if anchor != "middle" else 20 + high / 2))
    for at, (text, style) in enumerate(lines):
        kind = f' class="{style}"' if style else ""
        yield f'<text x="{x:.1f}" y="{top + LINE * at:.1f}" text-anchor="{anchor}"{kind}>{escape(text)}</text>'


def shortened(text: str) -> str:
    """A text of MOST_NAME letters at most."""
    return text if len(text) <= MOST_NAME else text[: MOST_NAME - 2] + ".."
