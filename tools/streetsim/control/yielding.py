"""Giving way by what happens: each turn that is green together with others that go before it, at a light or without
one, is shown green in the next second where the vehicles that are there leave a gap, and red where they do not.

The constants of lights were chosen on lone crosses alone, beside SUMO (one cross each, 50 km/h, lefts on their own lane
and on a shared one, greens of 14 to 57 s, 0 to 1,000 vehicles an hour against them): the gaps are SUMO's own,
AFTER_STAND and SNEAK_SECONDS stand for what vehicles do inside a junction, as here they wait at the line. At lone
streets with lefts against right turns one that waits 1 or 2 s longer behind whom it joins is nearer to SUMO; this locks
the sample town. Those without a light began from SUMO's seconds at lone junctions with one that goes first, then were
chosen on lone junctions with all streams (bench/run all-streams: 200 and 400 vehicles an hour, seed 1; 100 to 400, seed
11, who stands for long before minor ones that face it; lone-trips) and on 14 networks (bench/run unlit, seed 4102, one
run each), those of ramps by lone-merges, seed 5. In a red after a stop the seconds are those of stop signs.
"""
from __future__ import annotations

from collections import Counter, defaultdict
from collections.abc import Mapping, Sequence
from dataclasses import dataclass
from itertools import takewhile

from streetsim.base.arrays import Array, numpy as np
from streetsim.control.yielding_fronts import LONG_STAND, NOBODY, Fronts, LaneHeads
from streetsim.control.yielding_fullness import LitFullness
from streetsim.control.yielding_plans import AS_PLANNED, CLOSED, OPENED, PlansInForce, ShownPhase
from streetsim.control.yielding_sight import LinksAhead, LanesSeen
from streetsim.control.yielding_ways import ALL_WAY, AT_SIGN, NO_CELL, NO_TURN, Lanes, MeetingTurn, Ways
from streetsim.kernel.loop import NEVER, Controller, Kernel, SentLine
from streetsim.kernel.seconds import READY, Block
from streetsim.model.mapping import Map
from streetsim.model.runs import Command

STANDING_GAP, ROLLING_GAP = 3.5, 3.0  # seconds that are free before one who stands or follows, and who rolls alone
LONGER = 0.9  # seconds more for each cell more of a vehicle, which it drives at the speed of a turn
FOLLOWING = 3  # seconds after another one left, in which one follows
AFTER_STAND = 1.5  # seconds more between two, the first of which stood for LONG_STAND
SNEAK_SECONDS = 5  # after the end of a green, in which one goes that stood there
HALF = 0.5  # of a second, to which clocks are compared
SURE = 0.9  # of the seconds in which one comes who goes first: before that it has not passed
QUEUED = 8  # seconds for which others on the lane of one that gave way keep its distance
LONG_AGO = -99  # a clock
AFTER_OPEN_STAND = 0.4  # the same of AFTER_STAND without a light
CROSSED = 4  # seconds for which those stay without a light before whom one went who stood for long
OPEN_CYCLE = 60  # seconds of the plan of a node without a light, which has all green


@dataclass(slots=True)
class Front:
    """One that is the first of its lane, may pass its stop line in the next second, and looks for a gap."""

    car: int
    slot: int
    turn: int
    way: MeetingTurn
    since: int  # the clock since which it stands at the stop line, NEVER where it does not
    after_stop: bool = False  # it goes in a red, as it may after a stop

    @property
    def stands(self) -> bool:
        """Whether it stands at the stop line."""
        return self.since != NEVER


@dataclass(slots=True)
class Blocked:
    """One that has no gap before a clock: until then one who goes first comes, and has not passed."""

    car: int
    turn: int
    until: int
    phase: ShownPhase  # in which that holds

    def is_of(self, front: Front, clock: int, phase: ShownPhase) -> bool:
        """Whether it is one that is first now, at a clock and in a phase of its light."""
        return clock < self.until and self.car == front.car and self.turn == front.turn and self.phase is phase


class YieldingTurns(Controller):
    """Has turns give way to those who come."""

    shows_alone = True

    def __init__(self, mapping: Map) -> None:
        """mapping: with who gives way."""
        self.mapping, self.line_count = mapping, 0
        open_slots = {2 * link + lane for one in mapping.open_ways for way in one.ways for link, lane, _ in way}
        self.fullness = LitFullness(2 * len(mapping.links), 0, open_slots)

    def begin(self, kernel: Kernel) -> None:
        """Nobody waits yet."""
        self.kernel, self.clock, self.acted_at = kernel, kernel.start, kernel.start - 1
        self.last_sent: SentLine | None = None
        self.ways = Ways(self.mapping)
        self.lanes = Lanes(self.mapping, self.ways, kernel.run.load.command["nodes"])
        self.plans, self.links_ahead = PlansInForce(self.ways, self.lanes), LinksAhead(kernel.vehicles, self.ways)
        for command in [*self.open_plans(), *(line.command for line in kernel.run.first)]:
            self.plans.note(kernel.start, command)
        self.fullness.end += kernel.start
        self.heads, lanes = LaneHeads(self.lanes, self.links_ahead), len(self.lanes.length)
        self.left_at: dict[int, int] = {}  # by turn the clock at which one left by it
        self.free_at = np.full(lanes, float(LONG_AGO))  # by lane the clock from which on the next one may go
        self.stop_free_at: dict[int, float] = {}  # the same of one that goes in a red after a stop
        self.held_cars: dict[int, int] = {}  # by lane who stood there in the last second and was to wait
        # By lane who waited there last, and until when.
        self.waited, self.waited_until = np.full(lanes, NOBODY, np.int32), np.full(lanes, LONG_AGO)
        self.let_go: list[Front] = []  # in the last second
        self.blocked: dict[int, Blocked] = {}  # by lane
        self.fronts: dict[int, tuple[int, int]] = {}  # by lane in this second the turn, and since when one stands

    def open_plans(self) -> list[Command]:
        """Plans of the nodes without a light: all is green."""
        turns_at = defaultdict[int, list[list[int]]](list)
        nodes = {one.node for one in self.mapping.open_ways}
        for turn in self.mapping.turns:
            if (node := self.mapping.links[turn.link].end) in nodes:
                turns_at[node].append([turn.link, turn.lane, turn.next])
        return [
            {"cmd": "signal", "node": node, "offset": 0, "phases": [[OPEN_CYCLE, turns]]}
            for node, turns in sorted(turns_at.items())
        ]

    def next_clock(self) -> int:
        """The next second in which somebody may have to give way; the one after the last where a plan was sent."""
        sent = self.kernel.sent_lines
        return self.clock if not sent or sent[-1] is self.last_sent else self.acted_at + 1

    def act(self, clock: int, block: Block) -> None:
        """Closes and opens turns for the next seconds."""
        self.fullness.note_seconds(clock - self.acted_at)
        self.acted_at = clock
        self.note_lines(clock)
        self.plans.advance(clock)
        self.note_left(clock, block)
        cells_to_come = self.cells_to_come(clock, block)
        near = self.heads.find(clock, block, cells_to_come)
        self.fullness.note_fronts(clock, self.plans.alert_cell != NO_CELL, near.first.slot, near.first.car)
        fronts = near.first.chosen(self.are_decided(clock, near.first))
        self.held_cars, held_before, self.let_go = {}, self.held_cars, []
        until = NEVER
        if len(fronts.car) and clock < self.kernel.until:
            until = self.decide(clock, block, fronts, held_before)
        self.clock = clock + 1
        if until > self.clock and not self.let_go and near.stay_first(fronts):
            until = min(until, self.plans.next_change())
            if until > self.clock:
                self.clock = min(until, clock + self.idle_seconds(cells_to_come, block))

    def full_passages(self) -> tuple[dict[str, int], dict[str, int]]:
        """(by edge with lanes that were full, from which some give way at lights: vehicles that passed these then; the
        same of edges without a light that were nearly full); the part under way is judged."""
        self.fullness.end_part()
        by_edge = Counter[str](), Counter[str]()
        for found, lanes in zip(by_edge, (self.fullness.passages, self.fullness.crowded)):
            for slot, passages in lanes.items():
                found[self.mapping.links[slot >> 1].edge] += passages
        return dict(by_edge[0]), dict(by_edge[1])

    def note_lines(self, clock: int) -> None:
        """Takes the plans that were sent since the last second."""
        sent = self.kernel.sent_lines
        new = [*takewhile(lambda line: line is not self.last_sent, reversed(sent))]
        for line in reversed(new):
            if not line.for_a_gap:
                self.plans.note(clock, line.line.command)
        self.last_sent = sent[-1] if sent else None

    def note_left(self, clock: int, block: Block) -> None:
        """Notes of those who were let go in the last second who went, and when the next ones may."""
        slots = np.array([front.slot for front in self.let_go], np.int32)
        rows = block.slot.searchsorted(slots, "right") - 1  # who joined a buffer last
        for front, row in zip(self.let_go, rows.tolist()):
            if row >= 0 and block.car[row] == front.car and (cell := int(block.cell[row])) < 0:
                if cell & READY == clock - 1 + self.lanes.residence[front.slot]:
                    self.note_gone(clock, front)

    def note_gone(self, clock: int, front: Front) -> None:
        """Notes that one went in the last second, and when the next one of its lane may."""
        free_at = self.free_from(front)
        begin = free_at if clock - 1 - free_at < 1 else clock - 1
        self.heads.forget(front.slot)
        after_stand = AFTER_OPEN_STAND if front.way.sign else AFTER_STAND
        more = after_stand if clock - 1 - front.since >= LONG_STAND else 0.0
        self.free_at[front.slot] = begin + front.way.headway + more
        if front.after_stop:
            self.stop_free_at[front.slot] = begin + AT_SIGN
        self.left_at[front.turn] = clock

    def lively_lanes(self, clock: int) -> Array:
        """By lane whether it is looked at though none of its turns meets others now."""
        waits, is_left = self.waited_until >= clock - SNEAK_SECONDS, self.free_at > clock - QUEUED
        return waits | is_left | (self.plans.changed > 0) | self.lanes.may_stop

    def cells_to_come(self, clock: int, block: Block) -> Array:
        """By row of a second the cells until it may pass its line in the next one, 0 and less where it may; beyond all
        on lanes that are not looked at."""
        cells = np.where(self.lively_lanes(clock), self.lanes.line_cell, self.plans.alert_cell)
        return cells[block.slot] - block.cell

    def are_decided(self, clock: int, first: Fronts) -> Array:
        """Of those who are first whether it is to be decided if they go: they give way, or come behind one that did, or
        their lane is not shown as planned."""
        is_left = self.free_at[first.slot] > clock - QUEUED
        return self.ways.gives[first.turn] | is_left | (self.plans.changed[first.slot] > 0)

    def idle_seconds(self, cells_to_come: Array, block: Block) -> int:
        """The seconds in which nobody comes near a stop line who is not there yet; cells_to_come: as found."""
        seconds = -(-cells_to_come // self.lanes.limits[block.slot])
        return int(seconds[seconds > 0].min(initial=self.lanes.least_drive))

    def decide(self, clock: int, block: Block, fronts: Fronts, held_before: Mapping[int, int]) -> int:
        """Decides of each of those who are first, in their ranks, whether it goes, and shows it; gives the clock until
        which that stays. held_before: by lane who stood there in the last second and was to wait."""
        plans, looks, may_go = self.plans, self.look_for_gaps(clock, fronts), self.go_as_planned(clock, fronts)
        looking = self.made_fronts(fronts.chosen(looks))
        urgent = {front.turn: self.is_urgent(clock, front) for front in looking}
        looking.sort(key=lambda front: (not urgent[front.turn], front.way.rank, front.since, front.slot))
        self.fronts = fronts.by_lane() if any(front.way.sign == ALL_WAY for front in looking) else {}
        awake = {front.slot for front in looking if not self.is_blocked(clock, front)}
        seen_slots = frozenset[int]().union(*(plans.seen_lanes(front.turn) for front in looking if front.slot in awake))
        seen = LanesSeen(clock, block, seen_slots, self.links_ahead, plans, held_before)
        going: set[int] = set()
        for front in looking:
            if front.slot in awake and self.has_gap(clock, front, seen, going):
                going.add(front.turn)
                self.let_go.append(front)
                if urgent[front.turn]:
                    self.hold_crossed(clock, front)
            elif front.stands and plans.is_green(front.turn):
                self.held_cars[front.slot] = self.waited[front.slot] = front.car
                self.waited_until[front.slot] = clock
            elif self.waits_inside(clock, front):
                self.waited_until[front.slot] = clock
        may_go[looks] = [turn in going for turn in fronts.turn[looks].tolist()]
        self.show(fronts.turn, may_go)
        if bool((looks & fronts.stand).all()) and all(self.is_blocked(clock, front) for front in looking):
            return min(self.blocked[front.slot].until for front in looking)
        return clock

    def is_urgent(self, clock: int, front: Front) -> bool:
        """Whether one stood for so long without a light that it goes before those who give way too."""
        return front.stands and clock - front.since >= front.way.urgent_after

    def hold_crossed(self, clock: int, front: Front) -> None:
        """Has those stay who give way too, and before whom one goes."""
        for slot in {self.ways.all[foe].slot for foe, gap in front.way.foes.items() if gap.gives_too}:
            self.free_at[slot] = max(self.free_at[slot], clock + CROSSED)

    def is_blocked(self, clock: int, front: Front) -> bool:
        """Whether one has no gap as long as one does not pass who goes first."""
        blocked = self.blocked.get(front.slot)
        return blocked is not None and blocked.is_of(front, clock, self.plans.phase(front.turn))

    def look_for_gaps(self, clock: int, fronts: Fronts) -> Array:
        """Whether those who are first need a gap to go: they meet others, or stand and go though their light is red, as
        soon as there is one, since they waited there in the green, or may go after a stop."""
        slot, turn = fronts.slot, fronts.turn
        late = (self.waited[slot] == fronts.car) & (self.waited_until[slot] >= clock - SNEAK_SECONDS)
        stopped = self.ways.may_stop[turn] & (fronts.since <= clock - 1)
        return self.plans.meets[turn] | (fronts.stand & ~self.plans.green[turn] & (late | stopped))

    def waits_inside(self, clock: int, front: Front) -> bool:
        """Whether one that waited in its green, which is over, still waits for those who go first and have green."""
        is_late = self.waited[front.slot] == front.car and self.waited_until[front.slot] >= clock - SNEAK_SECONDS
        return bool(is_late) and not self.plans.phase(front.turn).coming.isdisjoint(front.way.foes)

    def go_as_planned(self, clock: int, fronts: Fronts) -> Array:
        """Whether those who need not look for a gap are shown green; behind one that gave way they keep their
        distance."""
        is_free = self.plans.gives[fronts.turn] | (self.free_at[fronts.slot] <= clock + HALF)
        return self.plans.green[fronts.turn] & is_free

    def made_fronts(self, fronts: Fronts) -> list[Front]:
        """Some that are first, each by itself."""
        columns = (column.tolist() for column in (fronts.car, fronts.slot, fronts.turn, fronts.since))
        after_stop = (self.ways.may_stop[fronts.turn] & ~self.plans.green[fronts.turn]).tolist()
        return [
            Front(car, slot, turn, self.ways.all[turn], since, stopped)
            for car, slot, turn, since, stopped in zip(*columns, after_stop)
        ]

    def has_gap(self, clock: int, front: Front, lanes_seen: LanesSeen, going: set[int]) -> bool:
        """Whether one may go. going: the turns by which some are let go in this second."""
        if not self.may_leave(clock, front, lanes_seen):
            return False
        if front.way.sign == ALL_WAY:
            return not any(foe in going or self.came_before(clock, foe, front) for foe in front.way.foes)
        if lanes_seen.seconds.keys().isdisjoint(front.way.foes):
            return True
        gap_needed, is_urgent = self.gap_needed(clock, front), self.is_urgent(clock, front)
        for foe, gap in front.way.foes.items():
            more = gap.after_stop if front.after_stop else gap.seconds_more
            seconds, needed = lanes_seen.seconds.get(foe, NEVER), gap_needed + more
            if not gap.is_met or seconds >= needed or (is_urgent and gap.gives_too and foe not in going):
                continue
            if front.way.sign and self.goes_before(clock, front, foe, needed - seconds, lanes_seen):
                continue
            if not front.way.sign and self.waits(foe, lanes_seen, going):
                continue
            if not self.plans.gives[foe] and self.plans.is_green(front.turn):
                until, phase = clock + int(SURE * seconds), self.plans.phase(front.turn)
                self.blocked[front.slot] = Blocked(front.car, front.turn, until, phase)
            return False
        return True

    def free_from(self, front: Front) -> float:
        """The clock from which on one keeps its distance to who went before it."""
        free_at = float(self.free_at[front.slot])
        return max(free_at, self.stop_free_at.get(front.slot, LONG_AGO)) if front.after_stop else free_at

    def may_leave(self, clock: int, front: Front, lanes_seen: LanesSeen) -> bool:
        """Whether one may go where nobody comes: it keeps its distance, has stopped where it must, and nobody is in its
        way who passed."""
        way = front.way
        if self.free_from(front) > clock + HALF or (way.always_stops and not front.stands):
            return False
        if front.after_stop and self.plans.may_come(front.turn):
            return False
        since_passed, foes = lanes_seen.since_passed, way.foes
        return not any(since_passed[foe] < foes[foe].passing for foe in foes.keys() & since_passed.keys())

    def gap_needed(self, clock: int, front: Front) -> float:
        """Seconds that have to be free at a light before one goes."""
        follows = clock - self.left_at.get(front.turn, LONG_AGO) <= FOLLOWING
        gap_needed = STANDING_GAP if front.stands or follows else ROLLING_GAP
        return gap_needed + LONGER * (int(self.links_ahead.vehicles.size[front.car]) - 1)

    def came_before(self, clock: int, foe: int, front: Front) -> bool:
        """Whether another one stands at its line for longer, where all stop, and may go."""
        slot = self.ways.all[foe].slot
        turn, since = self.fronts.get(slot, (NO_TURN, NEVER))
        if turn != foe or since == NEVER:
            return False
        return bool(self.free_at[slot] <= clock + HALF) and (since, slot) < (front.since, front.slot)

    def goes_before(self, clock: int, front: Front, foe: int, lacking: float, lanes_seen: LanesSeen) -> bool:
        """Whether one goes without a light though seconds are lacking before another one comes: it stood for so long
        that those brake for it who come; who stands at its own line stays in the way."""
        stood = clock - front.since if front.stands else 0
        return stood >= front.way.foes[foe].patience * lacking and foe not in lanes_seen.comes_on

    def waits(self, foe: int, seen: LanesSeen, going: set[int]) -> bool:
        """Whether one that goes first waits itself."""
        slot = self.ways.all[foe].slot
        return self.plans.gives[foe] and (slot in self.held_cars or (slot in seen.held_cars and foe not in going))

    def show(self, turns: Array, may_go: Array) -> None:
        """Shows turns green or not in the next second, where they are not shown so already."""
        plans = self.plans
        is_changed = plans.are_shown(turns) != may_go
        if changed := turns[is_changed].tolist():
            for turn, is_green in zip(changed, may_go[is_changed].tolist()):
                as_planned = plans.is_green(turn) == is_green
                plans.set_mode(turn, AS_PLANNED if as_planned else OPENED if is_green else CLOSED)
            lines = plans.lines(changed)
            self.line_count += len(lines)
            self.kernel.send_now(lines, False, True)
