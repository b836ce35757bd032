"""The plans of lights in force, as turns see them that give way: which turns are green, and for which of them somebody
may come; and the lines that show a plan with some turns closed or opened."""
from __future__ import annotations

import heapq
import json
from bisect import bisect_right
from collections import defaultdict
from collections.abc import Iterable, Mapping, Sequence
from dataclasses import dataclass, field
from functools import lru_cache
from itertools import compress, groupby

from streetsim.base.arrays import Array, numpy as np
from streetsim.control.yielding_ways import NO_CELL, Lanes, Ways
from streetsim.kernel.loop import NEVER, own_line
from streetsim.model.runs import Command, Line

# Seconds of red between two greens of a turn, and at the begin of a green, by which the import has its queue leave as
# slowly as in SUMO: who gives way sees it green.
HELD_BACK, HELD_AT_BEGIN = 8, 3
MOST_HELD, ROUNDED = 0.4, 2.0  # share of a green that is held back from its half on, at most; seconds of rounding
MOST_LINES = 100  # of a plan that are kept
MOST_SHOWN = 100  # columns of what nodes show that change at one clock that are kept
TEXT_OF = json.JSONEncoder(separators=(",", ":")).encode  # of a turn as a command has it
Greens = tuple[tuple[bool, ...], ...]  # by phase and turn
AS_PLANNED, CLOSED, OPENED = 0, 1, 2  # what a turn shows beside its plan


@dataclass(slots=True, eq=False)
class ShownPhase:
    """A phase of a node's plan, by numbers of turns that are looked at."""

    greens: frozenset[int]
    coming: frozenset[int]  # by which somebody may come
    # By place of a turn in the node's plan, whether it is green; the same of green ones, where somebody may come before
    # whom they give way.
    green_row: Array
    meets_row: Array
    slots: frozenset[int]  # the lanes of those
    # By place of a lane in the node's plan the cell from which on one may pass the line in the next second, NO_CELL
    # where none meet others.
    alert_cells: Array
    seen_lanes: dict[int, frozenset[int]] = field(default_factory=dict)  # by turn, as far as it was asked for


class NodePlan:
    """A plan of a node, for those of its turns that are looked at."""

    def __init__(self, command: Command, turns: Sequence[int], ways: Ways, lanes: Lanes) -> None:
        """command: the signal command; turns: numbers of the turns that lead there."""
        self.command, self.turns, self.names = command, np.array(turns), [ways.all[turn].name for turn in turns]
        self.slots = np.array(sorted({ways.all[turn].slot for turn in turns}))
        seconds = [length for length, _ in command["phases"]]
        shown_turns = [{tuple(turn) for turn in green} for _, green in command["phases"]]
        foes = [ways.all[turn].foes for turn in turns]
        goes_before = np.array([[foe in own for foe in turns] for own in foes], np.int64)
        greens = np.array([[name in green for name in self.names] for green in shown_turns], bool)
        comes = np.array(who_may_come(tuple(map(tuple, greens.tolist())), tuple(seconds), goes_before.tobytes()))
        stops = np.array([ways.all[turn].always_stops for turn in turns], bool)
        meets = greens & ((comes.astype(np.int64) @ goes_before.T > 0) | stops)
        self.phases = [self.phase_of(ways, lanes, *rows) for rows in zip(greens, comes, meets)]
        self.by_second = [phase for phase, length in zip(self.phases, seconds) for _ in range(length)]
        # By second those that are left of its phase.
        self.seconds_left = [count for length in seconds for count in range(length, 0, -1)]
        # Seconds of the cycle at which the lanes change on which some meet others.
        self.changes = [at for at, one in enumerate(self.by_second) if one.slots != self.by_second[at - 1].slots]
        self.giving = meets.any(axis=0)  # by place of a turn, whether it meets others in any phase
        self.greens = greens  # by phase and turn
        self.lines: dict[tuple[int, bytes], Line] = {}
        self.heads: dict[int, tuple[Command, str]] = {}  # by offset the plan without phases, and the text of it
        self.shown_phases: dict[tuple[int, bytes], tuple[list[object], str]] = {}  # by place and by turn, as `greens`
        names = {*self.names}.union(*shown_turns)
        self.texts = {name: TEXT_OF(name) for name in names}

    def phase_of(self, ways: Ways, lanes: Lanes, *rows: Array) -> ShownPhase:
        """A phase, by whether each turn is green, somebody may come by it, and it meets others."""
        greens, comes, meets = (frozenset(self.turns[row].tolist()) for row in rows)
        slots = frozenset(ways.all[turn].slot for turn in meets)
        alert_cells = np.array([lanes.line_cell[slot] if slot in slots else NO_CELL for slot in self.slots.tolist()])
        return ShownPhase(greens, comes, rows[0], rows[2], slots, alert_cells)

    def next_change(self, clock: int, offset: int) -> int | None:
        """The next clock at which the lanes change on which some meet others; None where they never do."""
        if not self.changes:
            return None
        cycle = len(self.by_second)
        second = (clock + offset) % cycle
        at = bisect_right(self.changes, second)
        return clock + (self.changes[at] if at < len(self.changes) else self.changes[0] + cycle) - second

    def line(self, offset: int, modes: bytes) -> Line:
        """The line that shows the plan from its offset on, with turns closed or opened by their modes."""
        if (line := self.lines.get((offset, modes))) is None:
            if len(self.lines) >= MOST_LINES:  # of a long run
                self.lines.clear()
                self.shown_phases.clear()
            mode = np.frombuffer(modes, np.int8)
            rows = (self.greens & (mode != CLOSED)) | (mode == OPENED)
            phases, texts = zip(*(self.shown_phase(at, row) for at, row in enumerate(rows)))
            if offset not in self.heads:
                own = own_line({**self.command, "offset": offset, "phases": []})
                self.heads[offset] = own.command, own.text
            command, text = self.heads[offset]
            text = text.replace('"phases":[]', f'"phases":[{",".join(texts)}]')
            line = self.lines[offset, modes] = Line(-1, text, {**command, "phases": [*phases]})
        return line

    def shown_phase(self, at: int, is_green: Array) -> tuple[list[object], str]:
        """A phase of the plan as a command has it, and the text of it; is_green: by turn."""
        key = at, is_green.tobytes()
        if key not in self.shown_phases:
            length, green = self.command["phases"][at]
            turns = {tuple(turn) for turn in green}.difference(self.names)
            shown = sorted(turns.union(compress(self.names, is_green.tolist())))
            text = f"[{length},[{','.join([self.texts[turn] for turn in shown])}]]"
            self.shown_phases[key] = [length, [[*turn] for turn in shown]], text
        return self.shown_phases[key]


@lru_cache
def who_may_come(greens: Greens, seconds: tuple[int, ...], goes_before: bytes) -> Greens:
    """What with_held_back gives, as many lights of a town show the same; goes_before: as bytes, of 64-bit numbers."""
    turns = len(greens[0])
    before = np.frombuffer(goes_before, np.int64).reshape(turns, turns)
    found = with_held_back(np.array(greens, bool), np.array(seconds), before)
    return tuple(map(tuple, found.tolist()))


def with_held_back(greens: Array, seconds: Array, goes_before: Array) -> Array:
    """By phase and turn whether somebody may come by it: where it is green or held back, and in reds of HELD_AT_BEGIN
    before one, where a turn that gives way to it has begun. greens: by phase and turn; goes_before: by turn and another
    one 1 where that goes first, else 0."""
    may_come = np.array([held_back(tuple(turn), tuple(seconds.tolist())) for turn in greens.T.tolist()]).T
    is_short = (seconds <= HELD_AT_BEGIN)[:, None]
    begun = greens & ~np.roll(greens, 1, axis=0)
    begun |= greens & np.roll(begun & is_short, 1, axis=0)
    is_met = begun.astype(np.int64) @ goes_before > 0
    for _ in range(2):
        may_come |= is_short & is_met & np.roll(may_come, -1, axis=0)
    return may_come


@lru_cache
def held_back(greens: tuple[bool, ...], seconds: tuple[int, ...]) -> tuple[bool, ...]:
    """By phase whether a turn is green, or red for HELD_BACK seconds, or red from the half of a longer green on, as the
    import holds queues back. greens, seconds: by phase of a cycle."""
    if all(greens) or not any(greens):
        return greens
    begin = next(phase for phase in range(len(greens)) if greens[phase] and not greens[phase - 1])
    order = [(begin + phase) % len(greens) for phase in range(len(greens))]
    # Green and red by turns.
    runs = [(green, [*phases]) for green, phases in groupby(order, key=lambda phase: greens[phase])]
    lengths = [sum(seconds[phase] for phase in phases) for _, phases in runs]
    is_open = [*greens]
    for number, (green, phases) in enumerate(runs):
        before, red, after = lengths[number - 1], lengths[number], lengths[(number + 1) % len(runs)]
        whole = before + red + after
        from_half = abs(before - whole / 2) <= ROUNDED and red <= MOST_HELD * whole
        if not green and (red <= HELD_BACK or from_half):
            for phase in phases:
                is_open[phase] = True
    return tuple(is_open)


class PlansInForce:
    """The plans of nodes with lights, and what they show at the clock. Arrays by turn have one entry more, for
    NO_TURN."""

    def __init__(self, ways: Ways, lanes: Lanes) -> None:
        """None is in force yet; a node without one shows nothing."""
        self.ways, self.lanes, self.clock = ways, lanes, 0
        self.turns_at = defaultdict[int, list[int]](list)
        for turn, way in enumerate(ways.all):
            self.turns_at[way.node].append(turn)
        self.plans: dict[int, NodePlan] = {}
        self.offsets: dict[int, int] = {}
        self.plan_by_key: dict[str, NodePlan] = {}  # by node and phases
        nobody, none = frozenset[int](), np.zeros(0, bool)
        nothing_shown = ShownPhase(nobody, nobody, none, none, nobody, none)
        self.phase_of = dict.fromkeys(self.turns_at, nothing_shown)  # by node what is shown at the clock
        count = len(ways.all) + 1
        self.green = np.zeros(count, bool)  # by turn, at the clock
        # By turn whether it is green and somebody may come before whom it gives way.
        self.meets = np.zeros(count, bool)
        self.gives = np.zeros(count, bool)  # by turn whether that is so in any phase of the plan in force
        self.mode = np.zeros(count, np.int8)  # by turn
        self.node = [way.node for way in ways.all]  # by turn
        self.modes = {node: bytearray(len(turns)) for node, turns in self.turns_at.items()}  # by node, of its turns
        self.place = {turn: place for turns in self.turns_at.values() for place, turn in enumerate(turns)}
        self.changed = np.zeros(len(lanes.length), np.int32)  # by lane how many turns are not as planned
        # By lane the cell from which on one may pass the line in the next second, where some meet others.
        self.alert_cell = np.full(len(lanes.length), NO_CELL)
        # By clock node and number of the plan of those whose next phase begins then; and these clocks.
        self.due, self.due_clocks = defaultdict[int, list[tuple[int, int]]](list), list[int]()
        # By phases that some nodes show their turns, these columns, and their lanes and cells.
        self.columns_of: dict[tuple[ShownPhase, ...], tuple[Array, ...]] = {}
        # Clock, node and number of the plan of the next changes of lanes on which some meet others.
        self.changes_due: list[tuple[int, int, int]] = []
        self.number: dict[int, int] = {}

    def note(self, clock: int, command: Command) -> None:
        """Takes a command that is sent at a clock, where it sets the light of one of the nodes."""
        if command["cmd"] != "signal" or (node := command["node"]) not in self.turns_at:
            return
        key = f"{node}{json.dumps(command['phases'])}"
        if key not in self.plan_by_key:
            self.plan_by_key[key] = NodePlan(command, self.turns_at[node], self.ways, self.lanes)
        plan = self.plans[node] = self.plan_by_key[key]
        self.offsets[node] = command.get("offset", 0)
        for turn in self.turns_at[node] if any(self.modes[node]) else ():
            self.set_mode(turn, AS_PLANNED)
        self.gives[plan.turns] = plan.giving
        self.number[node] = self.number.get(node, 0) + 1
        self.add_due(clock, node)
        heapq.heappush(self.changes_due, (clock, node, self.number[node]))

    def add_due(self, clock: int, node: int) -> None:
        """Notes that the next phase of a node's plan begins at a clock."""
        if clock not in self.due:
            heapq.heappush(self.due_clocks, clock)
        self.due[clock].append((node, self.number[node]))

    def advance(self, clock: int) -> None:
        """Brings what is green to a clock."""
        self.clock, changed, due = clock, dict[int, ShownPhase](), list[tuple[int, int]]()
        while self.due_clocks and self.due_clocks[0] <= clock:
            due += self.due.pop(heapq.heappop(self.due_clocks))
        for node, number in due:
            if number == self.number[node]:
                plan = self.plans[node]
                second = (clock + self.offsets[node]) % len(plan.by_second)
                changed[node] = self.phase_of[node] = plan.by_second[second]
                if len(plan.phases) > 1:
                    self.add_due(clock + plan.seconds_left[second], node)
        if changed:
            self.show_phases(changed)

    def show_phases(self, changed: Mapping[int, ShownPhase]) -> None:
        """Takes what some nodes show now, by the phases of their plans."""
        phases = tuple(changed.values())
        if (columns := self.columns_of.get(phases)) is None:
            plans = [self.plans[node] for node in changed]
            parts = zip(*((plan.turns, one.green_row, one.meets_row) for plan, one in zip(plans, phases)))
            lanes = zip(*((plan.slots, one.alert_cells) for plan, one in zip(plans, phases)))
            if len(self.columns_of) >= MOST_SHOWN:
                self.columns_of.clear()
            columns = self.columns_of[phases] = tuple(map(np.concatenate, (*parts, *lanes)))
        turns, green, meets, slots, alert_cells = columns
        self.green[turns], self.meets[turns], self.alert_cell[slots] = green, meets, alert_cells

    def next_change(self) -> int:
        """The next clock at which the lanes change on which some meet others, as far as it is known."""
        due = self.changes_due
        while due and due[0][0] <= self.clock:
            _, node, number = heapq.heappop(due)
            if number == self.number[node]:
                later = self.plans[node].next_change(self.clock, self.offsets[node])
                if later is not None:
                    heapq.heappush(due, (later, node, number))
        return due[0][0] if due else NEVER

    def phase(self, turn: int) -> ShownPhase:
        """What the plan of a turn's node shows now."""
        return self.phase_of[self.node[turn]]

    def is_green(self, turn: int) -> bool:
        """Whether the plan has a turn green now."""
        return turn in self.phase_of[self.node[turn]].greens

    def may_come(self, turn: int) -> bool:
        """Whether somebody may come by a turn now."""
        return turn in self.phase_of[self.node[turn]].coming

    def seen_lanes(self, turn: int) -> frozenset[int]:
        """The lanes on which those are who go before a turn and may come, as far as they are seen; of one that has red,
        who may have come, too."""
        phase = self.phase(turn)
        if (lanes := phase.seen_lanes.get(turn)) is None:
            foes = self.ways.all[turn].foes.keys()
            coming = foes & phase.coming if turn in phase.greens else foes
            lanes = frozenset(slot for foe in coming for slot in self.lanes.seen_by[foe])
            phase.seen_lanes[turn] = lanes
        return lanes

    def are_shown(self, turns: Array) -> Array:
        """Whether turns are shown green now."""
        modes = self.mode[turns]
        return np.where(modes == AS_PLANNED, self.green[turns], modes == OPENED)

    def set_mode(self, turn: int, mode: int) -> None:
        """Has a turn be shown as planned, or closed or opened."""
        modes, place = self.modes[self.node[turn]], self.place[turn]
        self.changed[self.ways.all[turn].slot] += (mode != AS_PLANNED) - (modes[place] != AS_PLANNED)
        self.mode[turn] = modes[place] = mode

    def lines(self, turns: Iterable[int]) -> list[Line]:
        """The lines of the nodes of some turns, that show them by their modes."""
        nodes = sorted({self.node[turn] for turn in turns} & self.plans.keys())
        return [self.plans[node].line(self.offsets[node], bytes(self.modes[node])) for node in nodes]
