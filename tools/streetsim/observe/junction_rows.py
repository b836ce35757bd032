"""Makes and writes the rows of the tables movements.csv, approaches.csv and junctions.csv."""
import contextlib
from collections import Counter, defaultdict
from collections.abc import Collection, Iterable, Iterator, Mapping, Sequence
from dataclasses import dataclass, replace

from streetsim.model.doubts import ALL, APPROACH, LANE, MOVEMENT, SPREAD, Doubt, DoubtsByPlace, why_of
from streetsim.model.fullness import filled
from streetsim.model.mapping import Map, Place
from streetsim.model.names import Names, open_named
from streetsim.model.service import fills, level, percentile
from streetsim.model.tables import APPROACHES, JUNCTIONS, MOVEMENTS, Entry
from streetsim.observe.junction_layout import Approach
from streetsim.observe.junction_measures import Interval, Losses, weighted_mean_losses

# v/c of a movement from which on its delay and queue may be other than in SUMO: where all on its lanes turn and wait
# for gaps at a light, where some do, and where nobody does; in an interval, and in a part of one, in which few pass
# (chosen on lone lights, bench/run doubted-rows 51937 and 60211).
NEARLY_FULL, NEARLY_FULL_IN_PART = (0.6, 0.85, 0.9), (0.6, 1.0, 1.0)
SEEN_FULL = 0.85  # v/c of a lane in a run, from which on the demand's doubt of it holds
# v/c, and share of cycles in which a lane is full: from there on its queue stands beyond (chosen on the same lights).
OVERFULL, SPILLS = 1.0, 0.45
SPILLING = 0.6  # v/c of a movement from which on such a queue is of its whole approach
MOVEMENT_SHARE = 0.05  # of a movement's vehicles, from which on a lane counts for its queue
Queues = Mapping[Place, tuple[float, float, float]]  # by lane what queue_figures has


@dataclass(slots=True)
class MovementRow:
    """A movement of an approach in an interval: its row but for the doubt, and what its approach is reckoned from."""

    target: str  # the next edge
    lost: Losses
    ratio: float  # v/c, 0 where its capacity is not known
    lanes: list[Place]  # that count for its queue
    spills: bool  # these are overfull, or full as far back as they go in SPILLS of the cycles
    cells: Entry


class JunctionTables:
    """The rows of the three tables, by interval; what nobody used in an interval has none. filled: the edges of the
    approaches that a queue filled in any interval; found: the doubts of rows by their own values; held: those of lanes
    that are full by the demand and were seen to be in any interval, with their greatest v/c."""

    def __init__(
        self, approaches: Mapping[str, Approach], mapping: Map, doubts: Iterable[Doubt] = (),
        cut: Iterable[str] = (), giving: Iterable[Place] = (), in_parts: bool = False,
    ) -> None:  # fmt: skip
        """approaches: by edge, as `approaches_of` gives them, of a map; doubts: with places; cut: edges of approaches
        to which further edges lead that no table has; giving: lanes from which some wait for gaps at lights; in_parts:
        whether the intervals are parts of those of the tables, so that few pass in one."""
        self.mapping, self.giving = mapping, {*giving}
        self.bounds = NEARLY_FULL_IN_PART if in_parts else NEARLY_FULL
        self.full = {one.lane for one in mapping.full.lanes}  # where lanes become one, the edge
        self.doubts, self.cut = DoubtsByPlace(doubts), {*cut}
        self.by_junction: defaultdict[str, list[Approach]] = defaultdict(list)
        for approach in approaches.values():
            self.by_junction[approach.junction].append(approach)
        self.movements_of = {edge: sorted(approach.movements.items()) for edge, approach in approaches.items()}
        self.movements: list[Entry] = []
        self.approaches: list[Entry] = []
        self.junctions: list[Entry] = []
        self.filled: set[str] = set()
        self.doubts_found: list[Doubt] = []
        self.doubts_held: dict[Doubt, float] = {}
        self.doubts_before: dict[str, list[Doubt]] = {}  # by approach what its rows of the interval before said
        lanes = (lane_key for approach in approaches.values() for lane_key in approach.lanes)
        self.names = {lane_key: mapping.lane_name(*lane_key) for lane_key in lanes}

    def add(self, interval: Interval) -> None:
        """Adds the rows of an interval to all three tables."""
        queues = {lane_key: queue_figures(lane_queues) for lane_key, lane_queues in interval.queues.items()}
        for junction, approaches in sorted(self.by_junction.items()):
            added = [self.add_approach(interval, queues, approach) for approach in approaches]
            measures = [values for values in added if values]
            if measures:
                parts, longest, ratios, filling, doubts = zip(*measures, strict=True)
                lost, control = weighted_mean_losses(parts), approaches[0].control
                full = f"{max(filling):.2f}" if any(filling) else ""
                doubt = spread_doubt(zip(parts, doubts, strict=True))
                junction_columns = f"{max(longest):.1f}", f"{max(ratios):.2f}", level(lost.delay, control), full, doubt
                head = interval.begin, interval.end, junction, control
                self.junctions.append((*head, *loss_columns(lost, interval), *junction_columns))

    def add_approach(
        self, interval: Interval, queues: Queues, approach: Approach
    ) -> tuple[Losses, float, float, float, str] | None:
        """Adds the rows of an approach and of its movements; gives (what its vehicles lost, metres of its longest
        queue, the greatest v/c of its movements, the same of those on lanes that the demand nearly fills or 0, its
        doubt); None where nobody used it."""
        used = [pair for pair in self.movements_of[approach.edge] if (approach.edge, pair[0]) in interval.lost]
        if not used:
            return None
        rows = [self.movement_row(interval, queues, approach, *pair) for pair in used]
        lost, ratio = weighted_mean_losses(row.lost for row in rows), max(row.ratio for row in rows)
        lane_queues = [queues[lane_key] for lane_key in approach.lanes]
        head = interval.begin, interval.end, approach.junction, approach.control, approach.edge
        queued = queue_columns(lane_queues, approach.whole_metres)
        fills_it = fills(float(queued[2]), float(queued[3]))
        if fills_it:
            self.filled.add(approach.edge)
        known = [*self.seen_doubts(interval, approach, rows), *self.own_doubts(interval, approach, rows, fills_it)]
        own = DoubtsByPlace(known)
        doubts = [self.movement_doubt(interval, approach, row, own) if known else "" for row in rows]
        self.movements += [(*row.cells, doubt) for row, doubt in zip(rows, doubts, strict=True)]
        place = (interval.begin, interval.end), approach.junction, approach.edge
        whole = why_of(own.of_approach(*place))
        doubt = whole or spread_doubt(zip((row.lost for row in rows), doubts, strict=True))
        ratio_columns = f"{ratio:.2f}", level(lost.delay, approach.control), doubt
        self.approaches.append((*head, *loss_columns(lost, interval), *queued, *ratio_columns))
        greatest = max((greatest for _, greatest, _ in lane_queues), default=0.0)
        filling = max((row.ratio for row in rows if self.is_filled(approach, row)), default=0.0)
        return lost, greatest, ratio, filling, doubt

    def is_filled(self, approach: Approach, row: MovementRow) -> bool:
        """Whether the demand nearly fills a lane of a movement, or its edge, where lanes become one."""
        return not self.full.isdisjoint([approach.edge, *(self.names[lane] for lane in row.lanes)])

    def seen_doubts(self, interval: Interval, approach: Approach, rows: Sequence[MovementRow]) -> list[Doubt]:
        """The given doubts of an approach in an interval; of lanes that are full by the demand those whose v/c in the
        run, the greatest of their movements, is SEEN_FULL or more, with that v/c; and, where any is, what its rows of
        the interval before said, whose queues still end."""
        doubts = list(self.doubts.around((interval.begin, interval.end), approach.junction, approach.edge))
        ratios, spilling = dict[str, float](), set[str]()
        for row in rows if doubts else ():
            for name in (self.names[lane] for lane in row.lanes):
                ratios[name] = max(row.ratio, ratios.get(name, 0.0))
                spilling |= {name} if row.spills else set()
        full = max((row.ratio for row in rows), default=0.0) >= SEEN_FULL
        before = self.doubts_before.pop(approach.edge, []) if full else []
        return [
            *(doubt for doubt in doubts if doubt.kind != LANE),
            *self.lanes_seen_full((doubt for doubt in doubts if doubt.kind == LANE), ratios, spilling),
            *(replace(doubt, why=f"{doubt.why} in the interval before", end=interval.end) for doubt in before),
        ]

    def lanes_seen_full(
        self, known: Iterable[Doubt], ratios: Mapping[str, float], spilling: Collection[str]
    ) -> Iterator[Doubt]:
        """Of known doubts of lanes those whose v/c is SEEN_FULL or more, with it, which are noted. ratios: v/c by lane;
        spilling: lanes whose queue stands before the lanes beside."""
        for lane_doubt in known:
            if (ratio := ratios.get(lane_doubt.lane, 0.0)) >= SEEN_FULL:
                self.doubts_held[lane_doubt] = max(ratio, self.doubts_held.get(lane_doubt, 0.0))
                spills = lane_doubt.lane in spilling
                yield replace(as_seen(lane_doubt, ratio), spills=spills)

    def bound_of(self, row: MovementRow, users: Mapping[Place, int]) -> float:
        """The v/c from which on a movement is doubted; users: how many movements count for the queue of a lane."""
        turning, shared, without_gaps = self.bounds
        if self.giving.isdisjoint(row.lanes):
            return without_gaps
        is_alone = self.giving.issuperset(row.lanes) and all(users[lane] == 1 for lane in row.lanes)
        return turning if is_alone else shared

    def own_doubts(
        self, interval: Interval, approach: Approach, rows: Sequence[MovementRow], fills_it: bool
    ) -> list[Doubt]:
        """What the rows of an approach say against themselves, which is noted: movements whose v/c is their bound or
        more, and a queue that fills the approach (fills_it) and goes on in edges that no table has."""
        at, users = (approach.junction, approach.edge), Counter(lane for row in rows for lane in row.lanes)
        usual = Doubt(MOVEMENT, *at, "", ALL, begin=interval.begin, end=interval.end)
        doubts = [
            replace(
                usual, target=row.target, why=f"v/c {row.ratio:.2f}", size=round(row.ratio, 2),
                vehicles=row.lost.vehicles, spills=row.spills and row.ratio >= SPILLING,
            )
            for row in rows
            if row.ratio >= self.bound_of(row, users)
        ]
        if fills_it and approach.edge in self.cut:
            why = "its queue goes on in the edges before, which no table has"
            doubts.append(replace(usual, kind=APPROACH, why=why))
        self.doubts_found += doubts
        self.doubts_before[approach.edge] = doubts
        return doubts

    def movement_doubt(self, interval: Interval, approach: Approach, row: MovementRow, own: DoubtsByPlace) -> str:
        """What speaks against a movement's row, of the doubts of its approach (own)."""
        lanes = [self.names[lane_key] for lane_key in row.lanes]
        place = (interval.begin, interval.end), approach.junction, approach.edge, row.target, lanes
        return why_of(own.of_movement(*place))

    def movement_row(
        self, interval: Interval, queues: Queues, approach: Approach, target: str, name: str
    ) -> MovementRow:
        """The row of a movement of an approach, to the edge target; name: L, T, R or U."""
        lost, lanes = interval.lost[approach.edge, target], interval.lanes[approach.edge, target]
        count = max(1, sum(lanes.values()))
        hours = (interval.end - interval.begin) / 3600
        # A lane passes as many of the movement as it does, over how far it is used.
        uses = interval.uses
        capacity = sum(vehicles / hours / uses[lane_key] for lane_key, vehicles in lanes.items() if uses[lane_key])
        wished = sum(vehicles * max(1.0, interval.wishes.get(lane_key, 1.0)) for lane_key, vehicles in lanes.items())
        wished += max(0, interval.entering_more.get((approach.edge, target), 0))
        ratio = filled(wished / hours, capacity)
        flow = sum(vehicles * interval.flows[lane_key] for lane_key, vehicles in lanes.items()) / count
        used = [lane_key for lane_key, vehicles in lanes.items() if vehicles >= MOVEMENT_SHARE * count]
        room = min((approach.rooms.get(lane_key, approach.whole_metres) for lane_key in used), default=0.0)
        head = interval.begin, interval.end, approach.junction, approach.control, approach.edge, target, name
        flow_columns = f"{flow:.0f}", f"{capacity:.0f}" if capacity else "", f"{ratio:.2f}"
        letter, spills = level(lost.delay, approach.control, ratio), spill_columns(interval, approach, used)
        columns = *loss_columns(lost, interval), *queue_columns([queues[lane_key] for lane_key in used], room)
        overflows = ratio >= OVERFULL or float(spills[0]) >= 100 * SPILLS
        return MovementRow(target, lost, ratio, used, overflows, (*head, *columns, *flow_columns, letter, *spills))

    def write(self, folder: str, names: Names, intervals: Iterable[Interval]) -> None:
        """Adds intervals, and writes the rows of each to movements.csv, approaches.csv and junctions.csv in a folder,
        and keeps none; names: for the columns of names. Fault where one cannot be written."""
        with contextlib.ExitStack() as files:
            tables = [
                (files.enter_context(open_named(f"{folder}/{name}.csv", header, names)), rows)
                for name, header, rows in (
                    ("movements", MOVEMENTS, self.movements),
                    ("approaches", APPROACHES, self.approaches),
                    ("junctions", JUNCTIONS, self.junctions),
                )
            ]
            for interval in intervals:
                self.add(interval)
                for table, rows in tables:
                    table.write_rows(rows)
                self.clear()

    def clear(self) -> None:
        """Lets the rows go that were added."""
        for rows in (self.movements, self.approaches, self.junctions):
            rows.clear()


def as_seen(doubt: Doubt, ratio: float) -> Doubt:
    """The doubt of a lane that is full by the demand, with the v/c of the run in place of the import's estimate."""
    return replace(doubt, why=f"v/c {ratio:.2f}", size=round(ratio, 2))


def spread_doubt(parts: Iterable[tuple[Losses, str]]) -> str:
    """The doubt of what some parts make up together, by what their vehicles lost and the doubts of each: that of the
    part that lost most, where those that are doubted lost SPREAD of all that is lost, else none."""
    parts = list(parts)
    lost = [part.vehicles * part.delay for part, _ in parts]
    doubted = sum(seconds for seconds, (_, doubt) in zip(lost, parts, strict=True) if doubt)
    if doubted < SPREAD * sum(lost) or not doubted:
        return ""
    return max(zip(lost, (doubt for _, doubt in parts), strict=True), key=lambda one: (bool(one[1]), one[0]))[1]


def spill_columns(interval: Interval, approach: Approach, lanes: Sequence[Place]) -> tuple[str, str]:
    """The columns full_percent and blocked_percent of a movement, by the lanes that count for its queue: of the cycles
    of the worst of these the share in which it is full as far back as it goes, and that in which the queue of a lane
    beside it that goes on further back blocks its begin; the second is empty where none does."""
    full, blocked = 0.0, list[float]()
    for lane_key in lanes:
        room = approach.rooms.get(lane_key, approach.whole_metres)
        full = max(full, interval.full_share(lane_key, room))
        further = (beside for beside in approach.lanes if approach.rooms.get(beside, 0.0) > room)
        blocked += [interval.full_share(beside, room) for beside in further]
    return f"{100 * full:.0f}", f"{100 * max(blocked):.0f}" if blocked else ""


def loss_columns(lost: Losses, interval: Interval) -> tuple:
    """The columns LOST of a row (vehicles, an hour, delay, its error, standing, stops); as every second was looked at,
    the error is left empty."""
    hourly = lost.vehicles * 3600 / (interval.end - interval.begin)
    return lost.vehicles, f"{hourly:.0f}", f"{lost.delay:.1f}", "", f"{lost.stood:.1f}", f"{lost.stops:.2f}"


def queue_figures(queues: Sequence[float]) -> tuple[float, float, float]:
    """The (95 % value, greatest, 50 % value) of a lane's queues, in metres; 0 of none."""
    ranked = sorted(queues)
    return (percentile(ranked, 0.95), ranked[-1], percentile(ranked, 0.5)) if any(queues) else (0.0, 0.0, 0.0)


def queue_columns(lanes: Iterable[tuple[float, float, float]], metres: float) -> tuple:
    """The columns QUEUED of a row (50 %, 95 %, greatest, room), of the lane whose queues have the greatest 95 % value,
    of equal ones that of the greatest queue, and then of the greatest 50 % value; lanes: of each as queue_figures has
    them; metres: the room."""
    often, greatest, half = max(lanes, default=(0.0, 0.0, 0.0))
    return tuple(f"{value:.1f}" for value in (half, often, greatest, metres))
