"""SUMO's actuated logic: how long each phase of one light lasts. It knows nothing of streetsim: it is told when a
detector last saw anybody.

After SUMO 1.15's MSActuatedTrafficLightLogic: a green lasts its least time, and then until no detector that may extend
it saw anybody for its gap, or until its most. When somebody was seen the light is looked at again so many seconds after
that as the way from the detector to the stop line takes, else each second.
"""
from collections.abc import Callable, Collection, Iterator, Sequence
from dataclasses import dataclass, field
from math import ceil
from typing import NamedTuple

GapOf = Callable[[int], float]  # by position, the seconds since a detector last saw anybody, 0 while it does
GREEN_LETTERS, YELLOW = "Gg", "yY"  # letters of a state
BY_GAP, BY_MOST, BY_LIST = "gap", "most", "listed"  # why a phase ended
BY_OTHER, BY_CALL = "barrier", "call"  # those of a ring: with the other one, or after resting until somebody came
BY_SCRIPT, BY_BUS = "script", "bus"


@dataclass(slots=True, frozen=True)
class ActuatedPhase:
    """A phase of an actuated light, as its program has it."""

    state: str
    seconds: int  # as listed
    least_seconds: int  # seconds
    most_seconds: int  # seconds
    detectors: tuple[int, ...] = ()  # positions of those that may extend it
    next_phase: int | None = None  # place of the next phase; none: the one that follows in the program

    @property
    def is_green(self) -> bool:
        """Whether some signal is green (G or g) in its state and none is yellow."""
        return any(one in GREEN_LETTERS for one in self.state) and not any(one in YELLOW for one in self.state)

    @property
    def is_extended(self) -> bool:
        """Whether it may last longer than its least: it is green, and its most is above that. Its detectors decide, and
        buses that call; with no detectors, and no bus, it ends at its least."""
        return self.is_green and self.least_seconds < self.most_seconds

    @property
    def usual(self) -> int:
        """The seconds that it is thought to last as long as none of it has ended: those listed, within its bounds,
        where it may be extended, else `shortest`."""
        return min(max(self.seconds, self.least_seconds), self.most_seconds) if self.is_extended else self.shortest

    @property
    def shortest(self) -> int:
        """The least seconds, one at least."""
        return max(1, self.least_seconds)


class EndedPhase(NamedTuple):
    """A phase that has ended."""

    phase: int  # its place in the program, from 0; of a NEMA light its number
    begin: int  # clock
    seconds: int
    why: str  # one of the words BY_..; empty where it is still under way


@dataclass(slots=True)
class Actuated:
    """The logic of one actuated light. `moves_on` must be called at the second `due`, and not before: what detectors
    do not extend ends whenever it is called."""

    phases: Sequence[ActuatedPhase]
    gaps: Sequence[float]  # of each detector: so long nobody, and it extends no green
    lead: float = 2.0  # seconds from the detectors to the stop line: SUMO's detector-gap
    phase_index: int = 0  # place of the phase that is shown
    since: int = 0  # its begin
    due: int = 0
    ended_phases: list[EndedPhase] = field(default_factory=list)
    last_extender: dict[int, int] = field(default_factory=dict)  # by phase: the detector that extended it last
    told_to_end: bool = False  # by a script, when it is looked at next
    called: Collection[int] = ()  # phases that buses keep, or fetch, within bounds

    def begin_at(self, clock: int, offset: int = 0) -> None:
        """Begins at `clock` with the phase in which a light with the listed seconds would be whose first phase
        began at the clock `offset`. As in SUMO this phase begins anew then, however much of it would be over."""
        self.since, (self.phase_index, _) = clock, self.listed_at(clock, offset)
        self.due = clock + self.phases[self.phase_index].shortest

    def listed_at(self, clock: int, offset: int) -> tuple[int, int]:
        """(the place of the phase that a light with the listed seconds shows at `clock` whose first phase began
        at the clock `offset`; the seconds of this phase that are over, of the last one at most its own)."""
        over = (clock - offset) % max(1, sum(phase.seconds for phase in self.phases))
        for place, phase in enumerate(self.phases):
            if over < phase.seconds:
                return place, over
            over -= phase.seconds
        return len(self.phases) - 1, over

    def moves_on(self, clock: int, gap: GapOf) -> bool:
        """Goes on to the next phase, and adds this one, of which `due` has come, to `ended_phases`, if it is over at
        `clock`; says whether. Sets `due`, when to look again. gap: seconds since a detector, by position, saw
        anybody."""
        phase = self.phases[self.phase_index]
        may_stay = phase.is_green and clock - self.since < phase.most_seconds and not self.told_to_end
        wait = self.seconds_to_end(phase, gap) if may_stay else 0
        if wait:
            self.due = min(max(clock + wait, self.since + phase.least_seconds), self.since + phase.most_seconds)
            return False
        self.ended_phases.append(EndedPhase(self.phase_index, self.since, clock - self.since, self.why(phase, clock)))
        self.told_to_end = False
        self.phase_index = (self.phase_index + 1) % len(self.phases) if phase.next_phase is None else phase.next_phase
        self.since, self.due = clock, clock + self.phases[self.phase_index].shortest
        return True

    def seconds_to_end(self, phase: ActuatedPhase, gap: GapOf) -> int:
        """The seconds, 0 for now, until the green that is shown can end. Where buses call any phase, and it may be
        extended, they decide: 1 where they call it, else 0; otherwise its detectors do."""
        return int(self.phase_index in self.called) if self.called and phase.is_extended else self.wait(phase, gap)

    def call(self, clock: int, phases: Collection[int]) -> None:
        """From now on buses call some phases, by their places: a green of these that is shown stays until its greatest
        length, any other ends at its least, for which `due` may come earlier. Empty: no bus is seen any more."""
        self.called = phases
        if phases and self.phase_index not in phases:
            self.due = min(self.due, max(clock, self.since + self.phases[self.phase_index].shortest))

    def state(self) -> str:
        """The letters of the signals that are shown."""
        return self.phases[self.phase_index].state

    def index(self) -> int:
        """The place of the phase that is shown, from 0, as scripts ask for it."""
        return self.phase_index

    def phase_name(self) -> str:
        """The name of the phase that is shown; here always empty, a NEMA light has one."""
        return ""

    def next_switch(self, _now: int) -> int:
        """The clock at which it may go on, as scripts ask for it: when it is looked at next, as in SUMO."""
        return self.due

    def go_to(self, index: int, clock: int) -> bool:
        """Goes on at `clock` with the phase at a place, from its begin, and adds the one that was shown to
        `ended_phases`; nothing where it is shown already. Says whether it does. When it is looked at next stays as it
        was, as in SUMO."""
        if index == self.phase_index:
            return False
        self.ended_phases.append(EndedPhase(self.phase_index, self.since, clock - self.since, BY_SCRIPT))
        self.phase_index, self.since = index, clock
        return True

    def end_at(self, clock: int) -> None:
        """Has the phase that is shown end at a clock, whoever the detectors see."""
        self.due, self.told_to_end = clock, True

    def phases_until(self, until: int) -> Iterator[tuple[EndedPhase, str]]:
        """(phase, its state) of all phases that have ended, in their order, and of the one under way where it began
        before the clock `until`: that ends there, with an empty reason."""
        under_way = [EndedPhase(self.phase_index, self.since, until - self.since, "")] if self.since < until else []
        for row in (*self.ended_phases, *under_way):
            yield row, self.phases[row.phase].state

    def why(self, phase: ActuatedPhase, clock: int) -> str:
        """Why the phase that is shown ends at `clock`: one of the words BY_..."""
        if self.told_to_end:
            return BY_SCRIPT
        if not phase.is_extended:
            return BY_LIST
        if self.called and self.phase_index not in self.called and clock - self.since < phase.most_seconds:
            return BY_BUS
        return BY_MOST if clock - self.since >= phase.most_seconds else BY_GAP

    def wait(self, phase: ActuatedPhase, gap: GapOf) -> int:
        """The seconds until the phase that is shown can end by its detectors, 0 if it can now, as each has seen nobody
        for its gap. One that has seen somebody within its gap wants that, or `lead` if longer, since then. The one that
        extended the phase last (`last_extender`) is asked first. Once one wants nearly its whole gap those after it may
        be left out, so that it may be too few seconds."""
        longest, enough = 0, self.lead <= min(self.gaps, default=0.0)
        for detector in sorted(phase.detectors, key=lambda one: one != self.last_extender.get(self.phase_index)):
            seen, most = gap(detector), self.gaps[detector]
            if seen < most:
                self.last_extender[self.phase_index] = detector
                longest = max(longest, ceil(max(most, self.lead) - seen))
                if enough and longest >= most - 1:
                    break
        return longest
