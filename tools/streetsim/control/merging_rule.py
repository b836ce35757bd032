"""Merging before works by turns, by closures alone: no rule of the simulator changes.

Who stands at the head of a closed lane seldom finds the gap behind that the rule for lane changing wants. So where the
same vehicle has stood first for PATIENCE seconds, the lane beside is held: it is closed beside those who stand in the
last PLATOON cells before the works, and GAP_BEHIND cells further up. Who is there drives out. Once nobody is there, nor
in the GAP_AHEAD cells after it, the lane is opened again, and in the next step all who stood change lane by the
simulator's own rule.

`MergingRule` is of one link of two lanes. It is told what both have, and says what to close and to reopen before the
next step. It draws nothing and has no clock of its own, so equal states give equal commands. The constants are the
first guess, tried on one street of two lanes at 50 km/h with 200 m of works.
"""
from collections.abc import Iterable, Iterator, Sequence
from dataclasses import dataclass, field

from streetsim.model.rows import Stretch, unbroken_stretches

GAP_BEHIND, GAP_AHEAD = 6, 2  # cells: the least gaps on the other lane that the rule wants of one who stands
PATIENCE = 10  # seconds for which the same one stands first before the other lane is held
PLATOON = 8  # cells
NEAR = 2  # cells before the works in which one stands first
MOST_WAIT = 60  # seconds for which the same one stands first, those before the hold among them, until it ends
EVERY = 5  # seconds between being told, while no lane is held

Cells = tuple[set[int], set[int]]  # by lane


def no_cells() -> Cells:
    """An empty set of cells for each of the two lanes."""
    return set(), set()


@dataclass(slots=True, frozen=True)
class SeenVehicle:
    """A vehicle on a lane, as a look shows it."""

    car: int
    cell: int  # of its front
    speed: int  # cells a step
    size: int = 1  # cells

    @property
    def rear(self) -> int:
        """The cell of its rear, the last one that it takes."""
        return self.cell - self.size + 1


@dataclass(slots=True, frozen=True)
class Side:
    """One lane of the link: its vehicles, the one with the greatest cell first, and the stretches that are closed."""

    vehicles: Sequence[SeenVehicle]
    closed: Sequence[Stretch]


@dataclass(slots=True, frozen=True)
class Change:
    """A close or reopen to send before the next step."""

    command: str  # close or reopen
    lane: int
    first_cell: int
    last_cell: int

    def command_on(self, link: int) -> dict[str, str | int]:
        """The command for a link, {"cmd", "link", "lane", "first", "last"}: close or reopen."""
        return {"cmd": self.command, "link": link, "lane": self.lane, "first": self.first_cell, "last": self.last_cell}


@dataclass(slots=True, frozen=True)
class MergePoint:
    """Where one may merge: before works on a lane, beside which the other lane is open."""

    lane: int
    low: int  # the first cell from which one comes to the works
    works_cell: int  # the first of the works


@dataclass(slots=True)
class MergeTurn:
    """A turn to merge at one point: who waits, since when, and which cells of the other lane are held for it."""

    head: int | None = None  # who stands first
    since: int = 0  # clock
    held_stretch: Stretch | None = None  # of the other lane

    def update_hold(self, clock: int, point: MergePoint, sides: Sequence[Side]) -> None:
        """Begins or ends the hold of the other lane at a point, by what stands on both lanes (sides) at a clock. A hold
        begins when the same one has stood first for PATIENCE seconds; it ends when nobody is on the held cells or the
        GAP_AHEAD ones after them, when nobody stands first, or when the same one has for more than MOST_WAIT
        seconds."""
        vehicles = sides[point.lane].vehicles
        approaching = [vehicle for vehicle in vehicles if point.low <= vehicle.cell < point.works_cell]
        front = approaching[0] if approaching else None
        head = front.car if front and front.speed == 0 and front.cell >= point.works_cell - NEAR else None
        if head != self.head:
            self.head, self.since = head, clock
        waited = clock - self.since
        if self.held_stretch:
            beside = {cell for one in sides[1 - point.lane].vehicles for cell in range(one.rear, one.cell + 1)}
            is_free = beside.isdisjoint(range(self.held_stretch[0], self.held_stretch[1] + GAP_AHEAD + 1))
            if head is None or waited > MOST_WAIT or is_free:
                self.held_stretch, self.since = None, clock
        elif front and head is not None and waited >= PATIENCE:
            rears = [vehicle.rear for vehicle in approaching if vehicle.speed == 0]
            rear = min(rears[0], *(cell for cell in rears if cell >= point.works_cell - PLATOON))
            self.held_stretch = max(point.low, rear - GAP_BEHIND), front.cell


@dataclass(slots=True)
class MergingRule:
    """Merging on one link of two lanes."""

    cells: int  # of the link
    held_cells: Cells = field(default_factory=no_cells)  # what it has closed
    turns: dict[tuple[int, int], MergeTurn] = field(default_factory=dict)  # by lane and first cell of the works

    def changes_by_turns(self, clock: int, sides: Sequence[Side]) -> list[Change]:
        """What to close and reopen before the next step, by what stands on both lanes at a clock, which then counts as
        done; sides: by lane."""
        cells = no_cells()
        known, self.turns = self.turns, {}
        for point in self.merge_points([side.closed for side in sides]):
            turn = known.get((point.lane, point.works_cell)) or MergeTurn()
            self.turns[point.lane, point.works_cell] = turn
            turn.update_hold(clock, point, sides)
            if turn.held_stretch:
                cells[1 - point.lane].update(range(turn.held_stretch[0], turn.held_stretch[1] + 1))
        return self.changes_to(cells)

    def seconds_to_next_look(self) -> int:
        """In how many seconds it must be told again: 1 while a lane is held, else EVERY."""
        return 1 if any(turn.held_stretch for turn in self.turns.values()) else EVERY

    def reopening_changes(self) -> list[Change]:
        """The reopens for the caller to send, after which nothing of its own is closed; they count as done, and who
        waits is forgotten. It goes on when told again. Needed before a close or reopen of others on the link."""
        self.turns = {}
        return self.changes_to(no_cells())

    def merge_points(self, closed: Sequence[Iterable[Stretch]]) -> Iterator[MergePoint]:
        """The places where vehicles may merge, by lane and then rising; closed: all closed stretches by lane. Works are
        what is closed but for what it has closed itself."""
        works = [all_cells(closed[lane]) - self.held_cells[lane] for lane in (0, 1)]
        for lane in (0, 1):
            low = 0
            for first, last in unbroken_stretches(works[lane]):
                low = max(low, 1 + max((cell for cell in works[1 - lane] if cell <= last), default=-1))
                if low < first:
                    yield MergePoint(lane, low, first)
                low = last + 1

    def changes_to(self, cells: Cells) -> list[Change]:
        """What to close and reopen so that of its own just these cells are closed; they count as done."""
        changes = []
        for name, more, less in (("reopen", self.held_cells, cells), ("close", cells, self.held_cells)):
            for lane in (0, 1):
                changes += [Change(name, lane, *one) for one in unbroken_stretches(more[lane] - less[lane])]
        self.held_cells = cells
        return changes


def all_cells(stretches: Iterable[Stretch]) -> set[int]:
    """All cells of some stretches."""
    return {cell for first, last in stretches for cell in range(first, last + 1)}
