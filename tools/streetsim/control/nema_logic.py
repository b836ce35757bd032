"""A NEMA light, SUMO's dual ring without coordination: how long each of its phases lasts. It knows nothing of
streetsim: it is told which of its areas have a vehicle on them.

After SUMO 1.15's NEMAController: two rings of phases run side by side, and both cross a barrier together. A green lasts
its least time, and longer by an extension since somebody was last on an area of its phase, up to its most. Which phase
comes next is the nearest in its ring that is called, by a recall or by somebody on its areas. Who has to wait for the
other ring stays green (transfer); where nobody else is called both rest in green. A bus that calls a phase is as
somebody on its areas, and has the greens in its way end at their least.
"""
from __future__ import annotations

from collections.abc import Callable, Collection, Iterable, Iterator, Sequence
from dataclasses import dataclass, field
from math import ceil
from typing import NamedTuple

from streetsim.control.actuated_logic import BY_BUS, BY_CALL, BY_GAP, BY_MOST, BY_OTHER, EndedPhase
from streetsim.control.nema_phases import GREEN, RED, RESTING, TRANSFER, YELLOW, RingPhase, Rings, letters_together

PresentAt = Callable[[int], bool]  # whether anybody is on an area, by its position


class PhaseChange(NamedTuple):
    """A change from a phase of a ring to one of it, or to itself."""

    target: RunningPhase
    steps: int  # how many phases of the ring on, from 1; all of them: to itself


@dataclass(slots=True, eq=False)
class RunningPhase:
    """A phase of a ring, with what is known of it while a run goes; times in seconds."""

    phase: RingPhase
    ring: int
    side: int  # 0 before the barrier, 1 behind it
    at_barrier: bool  # its ring waits for the other one in it
    rests: bool  # it alone of its ring has a recall, or none of any ring has
    stage: int = RED
    since: float = 0.0  # clock from which its green is counted
    end: float = 0.0  # clock at which its green ended
    lasts: float = 0.0  # seconds of its green as far as is known
    most_seconds: float = 0.0  # greatest seconds of its green
    resting: float = 0.0  # seconds that it may rest from when another one is called
    ready: bool = False  # it may end
    called: bool = False  # it is latching, and somebody came since its last green
    changing: bool = False  # its yellow or red is under way
    chosen: RunningPhase | None = None  # the next one, as it was decided
    began: int = 0  # clock of its green's begin, as phases.csv has it
    phase_changes: list[PhaseChange] = field(default_factory=list)  # the nearest first, to itself last

    @property
    def is_green(self) -> bool:
        """Whether it shows green: GREEN, TRANSFER (waits for the other ring) or RESTING."""
        return self.stage >= GREEN

    def change_to(self, target: RunningPhase) -> PhaseChange:
        """The change from this phase to another one of its ring, or to itself."""
        return next(one for one in self.phase_changes if one.target is target)


class Nema:
    """The logic of one NEMA light. `due` is the next second at which `moves_on` must be called; nothing need be asked
    before."""

    def __init__(self, rings: Rings) -> None:
        """rings: the program; the light begins with `begin_at`."""
        self.rings, self.clock, self.due, self.changes = rings, 0, 0, 0
        self.ended_phases: list[EndedPhase] = []
        recalls = any(phase.is_recalled for phase in rings.phases)
        orders = [rings.numbers_of(ring) for ring in range(2)]
        self.by_ring = [[self.new_running(number, ring, recalls) for number in orders[ring]] for ring in range(2)]
        self.phases = [running for phases in self.by_ring for running in phases]
        for running in self.phases:
            running.phase_changes = self.changes_from(running)
        self.active = [own[0] for own in self.by_ring]
        self.present: PresentAt = lambda area: False
        self.called: Collection[int] = ()  # numbers of the phases that buses keep, or fetch, within bounds

    def new_running(self, number: int, ring: int, recalls: bool) -> RunningPhase:
        """A phase before it begins, by its number; ring: 0 or 1; recalls: whether any phase has a recall."""
        phase = self.rings.phase(number)
        others = [self.rings.phase(one) for one in self.rings.numbers_of(ring) if one != number]
        alone = phase.is_recalled and not any(one.is_recalled for one in others)
        side = self.rings.orders[ring].index(number) // 2
        running = RunningPhase(phase, ring, side, self.rings.is_at_barrier(number), alone or not recalls)
        running.most_seconds, running.lasts = phase.most_seconds, phase.least_seconds
        return running

    def changes_from(self, running: RunningPhase) -> list[PhaseChange]:
        """The changes from a phase to each of its ring, the nearest first, to itself last."""
        own = self.by_ring[running.ring]
        place = own.index(running)
        return [PhaseChange(own[(place + steps) % len(own)], steps) for steps in range(1, len(own) + 1)]

    # What is told

    def state(self) -> str:
        """The letters of the signals that both rings show together."""
        return letters_together([(one.phase, one.stage) for one in self.active])

    def index(self) -> int:
        """0 and 1 by turns as what is shown changes, as SUMO's controller tells scripts; no place of a phase."""
        return self.changes % 2

    def phase_name(self) -> str:
        """The numbers of both rings' phases, as 2+6."""
        return "+".join(str(one.phase.number) for one in self.active)

    def next_switch(self, clock: int) -> int:
        """The clock at which it may go on, as scripts ask for it: the next second, as in SUMO."""
        return clock + 1

    def green_by_ring(self) -> tuple[tuple[int, bool], ...]:
        """For each of both rings (number of the phase, whether it is green)."""
        return tuple((one.phase.number, one.is_green) for one in self.active)

    def phases_until(self, until: int) -> Iterator[tuple[EndedPhase, str]]:
        """(green, the phase's letters) of all greens that have ended, in the order of their ends, and of those under
        way that began before the clock `until`: these end there, with an empty reason."""
        under_way = [
            EndedPhase(one.phase.number, one.began, until - one.began, "")
            for one in self.active
            if one.is_green and one.began < until
        ]
        for row in (*self.ended_phases, *under_way):
            yield row, self.rings.phase(row.phase).state

    # The clock

    def begin_at(self, clock: int, _offset: int = 0) -> None:
        """Begins at `clock` with the first phase of each ring, as SUMO's without coordination; offset: no
        effect."""
        self.clock, self.due = clock, clock + 1
        for own in self.by_ring:
            self.begin_green(own[0])

    def moves_on(self, clock: int, present: PresentAt) -> bool:
        """Makes a second of both rings at `clock`; says whether what is green changed. Sets `due`, when to look
        again. present: whether anybody is on an area, by its position."""
        self.clock, self.present, earlier_greens, state = clock, present, self.green_by_ring(), self.state()
        for running in self.phases:
            if running.phase.latching and not running.called:
                running.called = any(map(self.present, running.phase.areas))
        for running in self.active:
            self.update(running)
        for running in self.active if self.called else ():
            self.serve_buses(running)
        if any(running.ready for running in self.active):
            self.go_on()
        for running in self.phases:
            running.called = running.called and running.phase.latching and not running.is_green
        self.due = clock + max(1, min(map(self.wait, self.active)))
        self.changes += self.state() != state
        return self.green_by_ring() != earlier_greens

    def wait(self, running: RunningPhase) -> int:
        """The seconds in which nothing can happen in the ring of a phase that is shown, whatever the other ring does;
        `moves_on` takes one at least."""
        phase, to_go = running.phase, running.lasts - (self.clock - running.since)
        if self.called or any(other.phase.latching for other in self.phases) or running.stage > GREEN:
            return 1
        if running.stage < GREEN:
            changed = self.clock - running.end
            return ceil((phase.yellow if changed < phase.yellow else phase.change_seconds) - changed)
        # Who is on an area before that does not make the green longer.
        if running.lasts >= running.most_seconds:
            return ceil(to_go)
        return min(ceil(to_go), int(to_go - phase.extension) + 1)

    def is_on(self, running: RunningPhase) -> bool:
        """Whether somebody is on the areas of a phase, or was since its last green where it is latching, or a bus calls
        it."""
        return running.called or running.phase.number in self.called or any(map(self.present, running.phase.areas))

    def is_called(self, running: RunningPhase) -> bool:
        """Whether a phase wants to be green: by a recall, by somebody on its areas, or by a bus."""
        return running.phase.is_recalled or self.is_on(running)

    def shown_by_other_ring(self, running: RunningPhase) -> RunningPhase:
        """The phase that the other ring shows."""
        return self.active[not running.ring]

    def update(self, running: RunningPhase) -> None:
        """Makes a second of a phase that is shown: how long it lasts by who is on its areas, and whether it may end."""
        if not running.is_green:
            running.ready = True
            return
        since, phase = self.clock - running.since, running.phase
        if running.stage != TRANSFER and running.lasts < running.most_seconds and self.extends(running, since):
            running.lasts = min(max(since + phase.extension, phase.least_seconds), running.most_seconds)
        if running.stage == RESTING:
            self.rest_in_green(running, since)
        if since >= running.lasts:
            running.ready = True

    def call(self, clock: int, phases: Collection[int]) -> None:
        """From now on buses call some phases, by their numbers: those that are shown stay green until their greatest
        length, greens in their way end at their least. Empty: no bus is seen any more. `due` comes forward to now, or
        behind a second that was looked at."""
        self.called = phases
        self.due = min(self.due, max(clock, self.clock + 1))

    def serve_buses(self, running: RunningPhase) -> None:
        """Has a green that is shown go on, or end, for the buses that call phases."""
        green = self.clock - running.began
        if running.is_green and running.phase.number in self.called:
            running.ready = running.ready and green >= running.phase.most_seconds
        elif running.is_green and green >= running.phase.least_seconds and self.is_in_the_way(running):
            running.ready = True

    def is_in_the_way(self, running: RunningPhase) -> bool:
        """Whether a green has to end before one that a bus calls: in the same ring, beyond the barrier, or where the
        other ring comes to it only by way of the other side."""
        hidden = (each for each in self.phases if self.active[each.ring] is not each)
        called = (each for each in hidden if each.phase.number in self.called)
        ring, side = running.ring, running.side
        return any(each.ring == ring or each.side != side or self.active[each.ring].at_barrier for each in called)

    def extends(self, running: RunningPhase, since: float) -> bool:
        """Whether a green is given its extension anew, by somebody on its areas or a bus: where that makes it longer,
        and always as it rests; since: seconds of green so far. Areas are not asked where it would not."""
        longer = max(since + running.phase.extension, running.phase.least_seconds) > running.lasts
        return (longer or running.stage == RESTING) and self.is_on(running)

    def rest_in_green(self, running: RunningPhase, since: float) -> None:
        """A second of resting in green. From when another phase is called it lasts its greatest time on, and then may
        end, and so may the other ring's phase if it waits or rests; since: seconds of green so far."""
        most_seconds, least_seconds = running.phase.most_seconds, running.phase.least_seconds
        other_phase = self.shown_by_other_ring(running)
        shown = running.phase.number, other_phase.phase.number
        if any(self.is_called(each) for each in self.phases if each.phase.number not in shown):
            running.resting -= 1
            if running.resting + 1 >= most_seconds:
                running.most_seconds = least_seconds + most_seconds
        else:
            running.resting = most_seconds
            if since >= least_seconds:
                running.since, running.most_seconds = self.clock - least_seconds, least_seconds + most_seconds
                running.lasts = least_seconds + max(0.0, running.lasts - since)
        if running.resting < 1:
            running.ready = True
            if other_phase.stage > GREEN:
                other_phase.ready = True

    # Changes

    def begin_green(self, running: RunningPhase) -> None:
        """Begins the green of a phase now; it becomes the one that its ring shows."""
        running.since, running.began, running.ready = self.clock, self.clock, False
        running.chosen, running.stage = None, GREEN
        if running.rests:
            running.stage, running.resting = RESTING, running.phase.most_seconds
        running.lasts = running.most_seconds if running.phase.most_recall else running.phase.least_seconds
        self.active[running.ring] = running

    def go_on(self) -> None:
        """Has the phases that may end go on towards the nearest pair that may follow; nothing happens where there is no
        pair."""
        pair = min(self.pairs_to_follow(), key=lambda pair: pair[0], default=None)
        if pair is not None:
            _, *following = pair
            for running in list(self.active):
                if running.ready:
                    self.leave(running, following)

    def leave(self, running: RunningPhase, following: Sequence[RunningPhase]) -> None:
        """Takes a phase that may end one second on towards its ring's one of `following`: yellow (its green is then in
        `ended_phases`), red, that one's green; or it stays green where that is itself."""
        if (target := following[running.ring]) is running:
            self.keep_green(running, following)
            return
        running.chosen = target
        changed = self.clock - running.end
        if running.is_green:
            seconds = self.clock - running.began
            self.ended_phases.append(EndedPhase(running.phase.number, running.began, seconds, self.why(running)))
            running.end, running.stage, running.changing = self.clock, YELLOW, True
        elif changed >= running.phase.change_seconds:
            running.ready, running.changing, running.stage = False, False, RED
            self.begin_green(target)
        elif changed >= running.phase.yellow:
            running.stage = RED

    def why(self, running: RunningPhase) -> str:
        """Why a green ends now: one of the words BY_.. of logic."""
        if running.stage != GREEN:
            return BY_OTHER if running.stage == TRANSFER else BY_CALL
        if self.called and self.clock - running.since < running.lasts:
            return BY_BUS
        return BY_MOST if running.lasts >= running.most_seconds else BY_GAP

    def keep_green(self, running: RunningPhase, following: Sequence[RunningPhase]) -> None:
        """Keeps a phase green that could end: it rests where neither ring goes on, else it waits for the other ring."""
        other_phase, phase = self.shown_by_other_ring(running), running.phase
        running.ready = False
        both = following[other_phase.ring] is other_phase and other_phase.ready
        if both or (other_phase.stage == RESTING and other_phase.resting >= other_phase.phase.most_seconds):
            running.stage, running.since, running.lasts = RESTING, self.clock - phase.least_seconds, phase.least_seconds
            running.resting = phase.most_seconds * running.rests
        else:
            running.stage = TRANSFER
            if running.at_barrier:
                running.lasts = other_phase.lasts + other_phase.since - running.since

    def pairs_to_follow(self) -> Iterator[tuple[float, RunningPhase, RunningPhase]]:
        """The pairs of phases, one of each ring and both on one side of the barrier, that may follow: (how far away,
        first, second)."""
        first_phase, second_phase = self.active
        change, beside = map(self.wished_change, self.active)
        if change.target.side == beside.target.side:
            yield self.pair(change, beside)
            return
        if first_phase.ready and (usual := self.usual_change(second_phase, change)).target.side == change.target.side:
            yield self.pair(change, usual)
        if second_phase.ready and (usual := self.usual_change(first_phase, beside)).target.side == beside.target.side:
            yield self.pair(usual, beside)

    def pair(self, change: PhaseChange, beside: PhaseChange) -> tuple[float, RunningPhase, RunningPhase]:
        """Two changes as (how far away on the mean, phase of the first ring, phase of the second)."""
        distance = (self.distance(change, beside, 0) + self.distance(beside, change, 1)) / 2
        return distance, change.target, beside.target

    def distance(self, change: PhaseChange, beside: PhaseChange, ring: int) -> int:
        """How far away a change of a ring (0 or 1) is, in phases of its order; one that waits in green is as far as the
        other ring's change `beside`."""
        own = self.active[ring]
        waits = change.target is own and own.side == beside.target.side and own.stage in (GREEN, TRANSFER)
        return beside.steps if waits else change.steps

    def usual_change(self, running: RunningPhase, beside: PhaseChange) -> PhaseChange:
        """Where a ring goes that wished for another side of the barrier than the other ring's change `beside`: nowhere,
        if it may not go or is green on that side, else to the phase in which it waits at the barrier on that side."""
        if not running.ready or (running.side == beside.target.side and running.is_green):
            return running.change_to(running)
        number = self.rings.barriers[beside.target.side][running.ring]
        return running.change_to(next(each for each in self.by_ring[running.ring] if each.phase.number == number))

    def wished_change(self, running: RunningPhase) -> PhaseChange:
        """The change that a ring wishes for from the phase that it shows: the nearest that it may make now, where a
        next phase was decided on (`chosen`) on that one's side of the barrier. Where it may make none, to the phase
        that was decided on, or to itself."""
        decided, usual = running.chosen, running.change_to(running.chosen or running)
        fitting = (each for each in running.phase_changes if decided is None or each.target.side == decided.side)
        return next((each for each in fitting if running.ready and self.may_follow(running, each.target)), usual)

    def may_follow(self, running: RunningPhase, target: RunningPhase) -> bool:
        """Whether a phase may be followed by another one of its ring, or stay itself, now."""
        if target is running:
            return running.is_green
        if not self.is_called(target):
            return False
        other = self.shown_by_other_ring(running)
        if running.side != target.side:
            return other.ready and self.change_left(other) == self.change_left(running)
        if running.at_barrier and running.is_green:
            beyond: Iterable[RunningPhase] = (each for each in self.by_ring[running.ring] if each.side != running.side)
            return not any(map(self.is_called, beyond))
        return True

    def change_left(self, running: RunningPhase) -> float:
        """The seconds of a change that are to come, as SUMO counts them: 0 while a change is under way."""
        seconds = running.phase.change_seconds
        return max(0.0, self.clock - running.end - seconds) if running.changing else seconds
