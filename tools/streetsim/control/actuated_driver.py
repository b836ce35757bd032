"""Lights that detectors drive, while a run goes: a light is asked at the seconds that it names itself, and each phase
that begins is sent as a plan, the last part of which stays until the next."""
from collections import deque
from collections.abc import Callable, Collection, Iterable, Iterator, Sequence
from dataclasses import dataclass, field
from itertools import product
from math import inf

from streetsim.base import limits
from streetsim.base.client import Lane
from streetsim.control.actuated_kept import Cell, DetectorArea
from streetsim.control.actuated_lights import Driven, DrivenLight, Switch
from streetsim.control.actuated_logic import Actuated
from streetsim.control.actuated_showing import NodesOfLight, lasting
from streetsim.control.nema_logic import Nema
from streetsim.control.nema_showing import ShownRings
from streetsim.model.mapping import Map, Place
from streetsim.model.runs import Command


PhaseRow = tuple[int, str, int, str, int, str]  # begin, light, phase, state, seconds, why it ended


@dataclass(slots=True, frozen=True)
class Senses:
    """What a run answers to its lights when they ask for vehicles."""

    gap: Callable[[int], float]  # seconds since a detector, by its number among those of all lights, had anybody
    lane: Callable[[Place], Lane | None]  # what stands on a lane; none where nothing does


@dataclass(slots=True)
class DrivenProgram:
    """One program of a light in a run, with its logic and what was sent for it. Methods that give commands do their
    work as these are taken."""

    light: DrivenLight
    logic: Actuated | Nema
    display: NodesOfLight | ShownRings
    meters: range  # the positions of its detectors among those of all lights, from 0
    shows: list[Command] = field(default_factory=list)  # the plans that were sent last
    wraps: float = inf  # the clock by which these would begin anew
    in_force: bool = True  # its plans are shown; else it goes on unseen, as in SUMO
    spans: list[list[float]] = field(default_factory=list)  # [begin, end]: clocks between which they were shown
    stop_clock: float = inf  # the clock from which on it is left alone, for good

    @property
    def name(self) -> str:
        """SUMO's name of the light."""
        return self.light.name

    def starts(self, clock: int) -> Iterator[Command]:
        """Begins the logic at the clock of a run's begin, and gives the commands that show the phase in which it
        begins; none where this program is not in force."""
        self.logic.begin_at(clock, self.light.offset)
        self.spans = [[clock, inf]] if self.in_force else []
        yield from self.begins(clock)

    def moves_on(self, clock: int, senses: Senses) -> bool:
        """Has the logic look at its detectors or areas, and says whether another phase begins now; of a NEMA light,
        whether what is green changes."""
        if isinstance(self.logic, Nema):
            return self.logic.moves_on(clock, present_by(clock, senses.lane, self.light.areas))
        return self.logic.moves_on(clock, lambda detector: senses.gap(self.meters.start + detector))

    def begins(self, clock: int) -> Iterator[Command]:
        """The commands that show the phase that begins at a clock; none where this program is not in force. In force or
        not they are kept, for `goes_on` and `resumes`."""
        self.shows, self.wraps = list(self.plans(clock)), clock + limits.PHASE_STEPS
        yield from self.shows if self.in_force else ()

    def plans(self, clock: int) -> Iterator[Command]:
        """The commands that show from a clock on what the logic has come to."""
        if isinstance(self.logic, Actuated) and isinstance(self.display, NodesOfLight):
            return self.display.plans(self.logic, clock)
        assert isinstance(self.logic, Nema) and isinstance(self.display, ShownRings)
        return self.display.plans(self.logic, clock)

    def goes_on(self) -> Iterator[Command]:
        """The commands that keep a phase on for more than the 600 s of its plan; none where it is not in force."""
        self.wraps = inf
        yield from map(lasting, self.shows if self.in_force else ())

    def resumes(self, clock: int) -> Iterator[Command]:
        """Puts this program, which must be out of force, in force, and gives the commands that show from now on what
        its logic has come to."""
        self.in_force = True
        self.spans.append([clock, inf])
        since = self.logic.since if isinstance(self.logic, Actuated) else clock
        yield from self.begins(since) if clock - since < limits.PHASE_STEPS else map(lasting, self.shows)

    def leaves(self, clock: int) -> None:
        """Takes this program out of force at `clock`; it goes on unseen. Nothing where it is so already."""
        if self.in_force:
            self.in_force, self.spans[-1][1] = False, clock

    def phase_rows(self, until: int) -> Iterator[PhaseRow]:
        """The rows of phases.csv of the phases, or parts of them, that were shown until a clock; one that this clock or
        another program cuts short has an empty reason."""
        for (row, state), (begin, end) in product(self.logic.phases_until(until), self.spans):
            first, last = max(row.begin, int(begin)), int(min(row.begin + row.seconds, end))
            if first < last:
                why = row.why if last == row.begin + row.seconds else ""
                yield first, self.name, row.phase, state, last - first, why

    def next_clock(self) -> int:
        """The next clock at which it has something to look at or to send; the greatest clock where it is left alone for
        good."""
        return int(min(self.logic.due, self.wraps)) if self.stop_clock == inf else limits.CLOCK


class Driver:
    """All lights of a run that detectors drive. Methods that give commands do their work as these are taken."""

    def __init__(
        self, lights: Iterable[DrivenLight], mapping: Map, idle: Iterable[DrivenLight] = (),
        switches: Iterable[Switch] = (),
    ) -> None:  # fmt: skip
        """lights: those in force from the begin on; idle: programs that are not, and may come into force by a script or
        by time of day (switches, rising). Detectors are numbered through both, in this order."""
        self.switches = deque(switches)
        self.cells: list[Cell] = []
        self.controllers: list[DrivenProgram] = []
        for light, in_force in (*((light, True) for light in lights), *((light, False) for light in idle)):
            meters = range(len(self.cells), len(self.cells) + len(light.cells))
            self.cells += light.cells
            display: NodesOfLight | ShownRings = (
                NodesOfLight(light, mapping) if isinstance(light, Driven) else ShownRings(light, mapping)
            )
            self.controllers.append(DrivenProgram(light, light.new_logic(), display, meters, in_force=in_force))
        self.lights = {program.name for program in self.controllers}

    def controller_of(self, light: str, program: str | None = None) -> DrivenProgram | None:
        """The controller of a light's program, or of the one in force where none is named; none where there is none."""
        if light not in self.lights:
            return None
        own = (one for one in self.controllers if one.name == light)
        return next((one for one in own if (one.in_force if program is None else one.light.program == program)), None)

    def stop(self, node: int, clock: int) -> None:
        """Takes what drives the light of a node out of force at a clock, as a plan of the run's own takes its place:
        for good, or until the light changes by time of day. Nothing where no driven light is there."""
        to_come = {light for _, light, _ in self.switches}
        for one in self.controllers:
            if one.stop_clock == inf and node in one.light.nodes:
                one.leaves(clock)
                one.stop_clock = inf if one.name in to_come else clock

    def switch(self, clock: int) -> Iterator[Command]:
        """Makes the changes by time of day that are due at a clock, and gives the commands that show the new programs
        that detectors drive. The run has a signal line for each change: that is sent, and `stop` called, before. With a
        light's last change those of its programs that are not in force stop for good."""
        while self.switches and self.switches[0][0] <= clock:
            _, light, program = self.switches.popleft()
            if (one := self.controller_of(light, program)) is not None:
                yield from one.resumes(clock)
            if all(light != name for _, name, _ in self.switches):
                for one in self.controllers:
                    one.stop_clock = clock if one.name == light and not one.in_force else one.stop_clock

    def release(self, light: str, clock: int) -> None:
        """Takes all programs of a light out of force at a clock, and forgets its changes by time of day."""
        self.switches = deque(one for one in self.switches if one[1] != light)
        for one in self.controllers:
            if one.name == light:
                one.leaves(clock)

    def begin_lights(self, start: int) -> Iterator[Command]:
        """Begins the logic of all programs at a run's begin, the clock `start`; gives the signal commands of those in
        force."""
        for one in self.controllers:
            yield from one.starts(start)

    def next_clock(self) -> int:
        """The next clock at which lights are to be looked at; the greatest clock where there is no light, or all are
        left alone for good."""
        return min((one.next_clock() for one in self.controllers), default=limits.CLOCK)

    def call(self, clock: int, calls: Iterable[tuple[str, Collection[int]]]) -> None:
        """From now on buses call phases of some lights, (light, its phases as phases_serving has them, none: no
        longer); lights that are not driven are passed over."""
        for light, phases in calls:
            for one in self.controllers:
                if one.name == light:
                    one.logic.call(clock, phases)

    def commands_after_look(self, clock: int, senses: Senses) -> Iterator[Command]:
        """Looks at the lights that are due at a clock, and gives the commands to send before the next step."""
        for program in self.controllers:
            if program.stop_clock < inf:
                continue
            if program.logic.due <= clock and program.moves_on(clock, senses):
                yield from program.begins(clock)
            elif program.wraps <= clock:
                yield from program.goes_on()

    def phase_rows(self, until: int) -> list[PhaseRow]:
        """The rows of phases.csv, rising. Those under way at the clock `until` end there, with an empty reason."""
        return sorted(row for one in self.controllers for row in one.phase_rows(until))


def present_by(
    clock: int, lane: Callable[[Place], Lane | None], areas: Sequence[DetectorArea]
) -> Callable[[int], bool]:
    """A function of an area's position that says whether anybody is on it, by what stands on its lane; each lane is
    asked for once. lane: as of Senses. On an area at the lane's end who is in the buffer, and may not go on yet, counts
    too."""
    lane_by_place: dict[Place, Lane | None] = {}

    def present(number: int) -> bool:
        """Whether anybody is on the area at a position."""
        area = areas[number]
        place = area.link, area.lane
        if place not in lane_by_place:
            lane_by_place[place] = lane(place)
        found = lane_by_place[place]
        if found is None:
            return False
        leaving = area.at_end and any(ready > clock for _, _, ready, *_ in found.buffer)
        return leaving or any(area.first_cell <= cell <= area.last_cell for _, cell, *_ in found.cells)

    return present
