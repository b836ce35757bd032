"""The lights of a session under a script."""
from collections import deque
from collections.abc import Mapping, Sequence
from dataclasses import dataclass, field
from math import inf

from streetsim.base.files import Fault
from streetsim.control.actuated_driver import DrivenProgram as Driven, Driver
from streetsim.control.actuated_logic import Actuated
from streetsim.kernel.loop import NEVER, Controller, Kernel
from streetsim.kernel.seconds import Block
from streetsim.simulation.client import ScriptKernel
from streetsim.simulation.deeds import Deeds, Doer, deed
from streetsim.simulation.errors import TraCIException
from streetsim.simulation.signals_in_force import CONSTANT, SignalsInForce
from streetsim.sumo.crossing import PERMISSIVE

STATES = "rRyYgGsSuUoO"

Phases = list[tuple[float, str]]
Link = tuple[str, str, str] | None  # lane, next lane, lane inside the junction


@dataclass(slots=True)
class LightShow:
    """What a light shows: phases of (seconds, state), over and over, of which the first began at the clock begin;
    since: the clock at which a script set what it shows, or the run began."""

    phases: Phases
    begin: float
    program: str
    links: list[Link] = field(default_factory=list)  # of each connection, by index
    states: int = 0  # how many letters a state has
    names: list[str] = field(default_factory=list)  # of the phases
    programs: dict[str, tuple[Phases, list[str]]] = field(default_factory=dict)  # to choose from: phases, names
    scripted: set[str] = field(default_factory=set)  # those of them that a script has set, which detectors do not drive
    since: int = 0
    summed: tuple[Phases, float] = ([], 0.0)  # phases, and the seconds that these last together

    def cycle(self) -> float:
        """Seconds that its phases last together."""
        if self.summed[0] is not self.phases:
            self.summed = self.phases, seconds_of(self.phases)
        return self.summed[1]

    def phase_at(self, clock: float) -> tuple[int, float]:
        """(index of the phase in the step that ends at a clock, or begins there if that is `since`; seconds, at a
        clock, that are left of it, 0 where the next one begins)."""
        elapsed, last_index = (clock - self.begin) % self.cycle(), len(self.phases) - 1
        if elapsed == 0 and clock != self.since:
            return last_index, 0.0
        for index, (duration, _) in enumerate(self.phases):
            if elapsed < duration or elapsed == duration and clock != self.since:
                return index, duration - elapsed
            elapsed -= duration
        return 0, self.phases[0][0]


class Control(Controller, Doer):
    """What each light shows, and when phases end that a script has given another end; clocks are in seconds.
    TraCIException for a light that is not known."""

    part = "control"

    def __init__(
        self, kernel: ScriptKernel, signals_in_force: SignalsInForce, driver: Driver, lights: dict[str, LightShow],
        offsets: Mapping[tuple[str, str], float], deeds: Deeds,
    ) -> None:  # fmt: skip
        """driver: of lights by detectors; lights: by name, as the files have them; offsets: seconds, by light and
        program; deeds: where those of a script are noted."""
        self.kernel, self.signals_in_force, self.driver = kernel, signals_in_force, driver
        self.lights, self.deeds = lights, deeds
        self.begins = dict(offsets)  # by light and program: a clock at which its cycle begins, as it goes on unseen
        self.timers: dict[str, tuple[int, int]] = {}  # by light (clock, index): the phase that begins then
        self.changes = deque(kernel.map.switches)  # by time of day, that the lights are still to be told of

    @property
    def clock(self) -> int:
        """The clock of the run."""
        return self.kernel.clock

    def begin(self, kernel: Kernel) -> None:
        """Notes the run's begin."""
        for light in self.lights.values():
            light.since = kernel.clock
        self.note_switches(kernel.clock)

    def next_clock(self) -> int:
        """That at which the next phase ends that a script has set to."""
        return min((clock for clock, _ in self.timers.values()), default=NEVER)

    def note_switches(self, clock: int) -> None:
        """Notes for the lights the programs that they have by time of day up to a clock, for which the run has lines;
        those that a script has set keep what it set."""
        while self.changes and self.changes[0][0] <= clock:
            _, name, program = self.changes.popleft()
            in_force = self.signals_in_force
            if name in self.lights and in_force.forgotten.isdisjoint(in_force.nodes(name)):
                light = self.lights[name]
                light.phases, light.names = light.programs[program]
                light.program, light.begin = program, self.begins.get((name, program), 0.0)

    def light(self, name: str) -> LightShow:
        """A light by its name, with the program that it has by time of day."""
        if self.changes:
            self.note_switches(self.kernel.clock - 1)
        if (light := self.lights.get(name)) is None:
            raise TraCIException(f"Traffic light '{name}' is not known")
        return light

    def driven(self, name: str) -> Driven | None:
        """What drives a light by detectors now; None where it has a program of seconds, or one of the script."""
        return self.driver.controller_of(name)

    @deed
    def run_program(self, name: str, program: str) -> None:
        """Runs one of a light's programs, from the second of its cycle that it has come to unseen, as a script has left
        it; one that detectors drive, from where they have brought it meanwhile. Nothing where it runs already.
        TraCIException where the light has none of this name."""
        light, driver = self.light(name), self.driver
        if program not in light.programs:
            raise TraCIException(f"Traffic light '{name}' has no program {program!r}")
        if program == light.program:
            return
        phases, names = light.programs[program]
        if program in light.scripted or (controller := driver.controller_of(name, program)) is None:
            self.show_program(name, program, phases, names, self.begins.get((name, program), 0.0))
            return
        self.leave_program(name)
        self.signals_in_force.forget(name)
        driver.release(name, self.kernel.clock)
        self.kernel.send(controller.resumes(self.kernel.clock))
        light.phases, light.program, light.names = phases, program, names

    def state(self, name: str) -> str:
        """A light's state in its present phase, SUMO's letter for each signal; g also where G is shown for it (hold,
        end_phase, go_to)."""
        if (driven := self.driven(name)) is not None:
            return driven.logic.state()
        return self.light(name).phases[self.present_phase(name)[0]][1]

    def present_phase(self, name: str) -> tuple[int, float]:
        """(index of a light's phase in the last step, or since a script has set it at this clock; seconds left of it),
        by its program and the end that a script has set; not of a light that detectors drive."""
        return self.phase_of(name, self.light(name))

    def phase_of(self, name: str, light: LightShow) -> tuple[int, float]:
        """What present_phase gives for a light of a name."""
        clock = self.kernel.clock
        if (timer := self.timers.get(name)) is not None:
            end, index = timer
            return (index - 1) % len(light.phases), end - clock
        return light.phase_at(clock)

    def act(self, clock: int, _now: Block) -> None:
        """Ends the phases that a script has set to end by this clock, and shows the next ones."""
        for name, (_, index) in [timer for timer in self.timers.items() if timer[1][0] <= clock]:
            del self.timers[name]
            self.show_phase(name, index)

    def show_phase(self, name: str, index: int) -> None:
        """Shows the phase of an index of the light's program from now on, from its begin."""
        light = self.light(name)
        begin = self.kernel.clock - seconds_of(light.phases[:index])
        self.show(name, light.phases, begin)
        light.begin = begin

    def show_program(self, name: str, program: str, phases: Phases, names: list[str], begin: float) -> None:
        """Has a light show other phases, of which the first began at the clock begin, under a program's name; detectors
        drive it no more. names: of the phases. TraCIException, after which all is as before, for wrong states, seconds
        not above 0, or a cycle that rounds to 0 s or is longer than 200,000 s."""
        light = self.light(name)
        check_phases(name, phases, light.states)
        self.show(name, phases, begin)
        self.leave_program(name)
        light.phases, light.program, light.names, light.begin = phases, program, names, begin
        light.since = self.kernel.clock

    @deed
    def set_program(self, name: str, program: str, phases: Phases, names: list[str], begin: float) -> None:
        """As show_program; the program may be chosen again by its name, also in place of one that detectors drive."""
        self.show_program(name, program, phases, names, begin)
        self.lights[name].programs[program] = phases, names
        self.lights[name].scripted.add(program)

    @deed
    def go_to(self, name: str, index: int) -> None:
        """Shows the phase of an index for its seconds from now on, whatever end was set for the present one. Where that
        is the present one it goes on, with its end set as by end_phase; but where detectors drive the light, which
        stays driven, nothing changes. TraCIException for a wrong index, and for a NEMA light that they drive."""
        phases, clock = self.light(name).phases, self.kernel.clock
        check_index(name, phases, index)
        if (driven := self.driven(name)) is not None:
            if actuated_of(name, driven).go_to(index, clock):
                self.kernel.send(driven.begins(clock))
        elif index == self.present_phase(name)[0]:
            self.end_phase(name, clock + max(1, round(phases[index][0])))
        else:
            self.show_phase(name, index)
            self.timers.pop(name, None)
            self.lights[name].since = clock

    @deed
    def name_phase(self, name: str, index: int, text: str) -> None:
        """Names a phase of the program that runs."""
        light = self.light(name)
        light.names = [*light.names[:index], text, *light.names[index + 1 :]]

    def leave_program(self, name: str) -> None:
        """Notes where the cycle of a light's program is, with the end that a script has set for a phase, so that it
        goes on unseen from there."""
        light = self.lights[name]
        end, index = self.timers.pop(name, (light.begin, 0))
        self.begins[name, light.program] = end - seconds_of(light.phases[:index])

    @deed
    def end_phase(self, name: str, clock: int) -> None:
        """Shows the present phase until a clock, with permissive greens as full greens, and then the next one; a light
        that detectors drive stays driven, its greens as they are. TraCIException for a NEMA light that they drive."""
        light = self.light(name)
        if (driven := self.driven(name)) is not None:
            actuated_of(name, driven).end_at(clock)
            return
        if (timer := self.timers.get(name)) is not None:  # it is shown so already
            self.timers[name] = clock, timer[1]
            return
        index, _ = self.phase_of(name, light)
        self.show(name, [(CONSTANT, light.phases[index][1])], 0)
        self.timers[name] = clock, (index + 1) % len(light.phases)

    @deed
    def hold(self, name: str, state: str) -> None:
        """Shows a state, each g as G, until another call sets the light, whose phases it replaces by this one, as the
        program "online"; detectors drive it no more. TraCIException for a wrong state."""
        self.show_program(name, "online", [(CONSTANT, state)], [""], self.kernel.clock)

    def show(self, name: str, phases: Phases, begin: float) -> None:
        """Sends a cycle of phases of which the first began at the clock begin. TraCIException, before anything is sent,
        where the cycle rounds to 0 s or is longer than 200,000 s."""
        sent = as_sent(phases)
        if len(sent) == 1 and sent[0][0] == CONSTANT and not set(sent[0][1]) & set(PERMISSIVE):
            self.send_constant(name, sent[0][1], begin)
            return
        try:
            self.send_program(name, sent, begin % seconds_of(sent))
        except Fault as fault:
            raise TraCIException(str(fault)) from None

    def send_program(self, light: str, phases: Sequence[tuple[float, str]], offset: float) -> list[str]:
        """Shows a cycle of (seconds, state) at a light from the next step on; lines of the file for the light are no
        longer sent, and detectors drive it no more. offset: as in a tlLogic, seconds. Gives warnings. Fault as of
        SignalsInForce.program_lines, after which all is as before."""
        lines, warnings = self.signals_in_force.program_lines(light, phases, offset, self.kernel.clock)
        self.kernel.send_soon(lines)
        self.driver.release(light, self.kernel.clock)
        return warnings

    def send_constant(self, light: str, state: str, begin: float) -> None:
        """As send_program, but a state without permissive greens, from the clock begin on until another is shown."""
        self.kernel.send_soon(self.signals_in_force.constant_lines(light, state, begin))
        self.driver.release(light, self.kernel.clock)


def seconds_of(phases: Phases) -> float:
    """Seconds that some phases last together."""
    return sum(duration for duration, _ in phases)


def as_sent(phases: Phases) -> Phases:
    """The phases as they are sent: one alone with permissive greens as full greens, so that its seconds are whole."""
    return [(phases[0][0], phases[0][1].replace("g", "G"))] if len(phases) == 1 else phases


def actuated_of(name: str, driven: Driven) -> Actuated:
    """The logic of a light whose phases a script may choose; TraCIException for a NEMA light."""
    if not isinstance(driven.logic, Actuated):
        why = "is of type NEMA, whose rings choose its phases: set another program, or a state"
        raise TraCIException(f"Traffic light '{name}' {why}")
    return driven.logic


def check_state(name: str, state: str, length: int) -> None:
    """TraCIException where a state has a wrong letter, or not one for each of the light's signals (length)."""
    if wrong := [letter for letter in state if letter not in STATES]:
        raise TraCIException(f"Traffic light '{name}': {wrong[0]!r} is no state of a signal")
    if len(state) != length:
        raise TraCIException(f"Traffic light '{name}' has {length} signals, the state {state!r} has {len(state)}")


def check_phases(name: str, phases: Phases, length: int) -> None:
    """TraCIException where a phase has a wrong state or does not last above 0 s; length: signals of the light."""
    for duration, state in phases:
        check_state(name, state, length)
        if not 0 < duration < inf:
            raise TraCIException(f"Traffic light '{name}': a phase of {duration} s")


def check_index(name: str, phases: Phases, index: int) -> None:
    """TraCIException where there is no phase of this index."""
    if not 0 <= index < len(phases):
        raise TraCIException(f"Traffic light '{name}' has no phase {index}")
