"""TraCI's traffic lights."""
from collections.abc import Sequence
from dataclasses import dataclass, field
from math import inf

from streetsim.base.files import Json
from streetsim.control.actuated_kept import phase_bounds
from streetsim.simulation.errors import NotHere, TraCIException
from streetsim.simulation.lights import LightShow, Phases, check_index, seconds_of
from streetsim.traci import constants as tc
from streetsim.traci.advice import NEMA
from streetsim.traci.domain import Domain

OFF_PROGRAM, SWITCHED = "off", "hold states by setRedYellowGreenState, or take the light out of the network"
TYPES = {"static": 0, "actuated": 3, "NEMA": 4, "delay_based": 5}  # SUMO's numbers of the kinds of programs


@dataclass
class Phase:
    """A phase, as SUMO's scripts read it: seconds, and a letter for each signal; -1: no bound is told."""

    duration: float
    state: str
    minDur: float = -1.0
    maxDur: float = -1.0
    next: tuple[int, ...] = ()
    name: str = ""


@dataclass
class Logic:
    """A program, as SUMO's scripts read it: its name, SUMO's number of its kind, and its phases."""

    programID: str
    type: int
    currentPhaseIndex: int
    phases: Sequence[Phase] = field(default_factory=list)
    subParameter: dict[str, str] = field(default_factory=dict)

    def getPhases(self) -> Sequence[Phase]:
        """The phases, in their order."""
        return self.phases


Program = Logic  # which the class below has as an attribute of its own name


class TrafficLightDomain(Domain):
    """As SUMO's traci.trafficlight: seconds; names are of lights. The present phase, and the state now, are those of
    the last step, or what a script has set since. TraCIException for an unknown light."""

    kind, name = "Traffic light", "trafficlight"
    Phase, Logic = Phase, Logic
    default_variables = (tc.TL_CURRENT_PHASE,)

    def getIDList(self) -> tuple[str, ...]:
        """The names of the lights that the import kept, sorted."""
        return tuple(sorted(self.session().control.lights))

    def present_phase(self, name: str) -> tuple[LightShow, int, float]:
        """(the light, the index of its present phase, the seconds left of it by what is known now)."""
        control = self.session().control
        light = control.light(name)
        if (driven := control.driven(name)) is not None:
            clock = control.clock
            return light, driven.logic.index(), float(driven.logic.next_switch(clock) - clock)
        return light, *control.phase_of(name, light)

    def getRedYellowGreenState(self, name: str) -> str:
        """The light's state now, SUMO's letter for each signal; g also where it is held and shown as G."""
        self.session().control.light(name)
        return self.session().control.state(name)

    def getPhase(self, name: str) -> int:
        """The index of the present phase in the program."""
        _, index, _ = self.present_phase(name)
        return index

    def getPhaseDuration(self, name: str) -> float:
        """Seconds that the present phase lasts by the program; 600 for a state that is held."""
        light, index, _ = self.present_phase(name)
        return float(light.phases[index][0])

    def getNextSwitch(self, name: str) -> float:
        """The clock at which the present phase ends, by what is known now; 600 s on at most where a state is held."""
        return float(self.session().clock + self.present_phase(name)[2])

    def getProgram(self, name: str) -> str:
        """The name of the program that runs; "online" while a state is held."""
        return self.session().control.light(name).program

    def getServedPersonCount(self, name: str, index: int) -> int:
        """0: there are no persons. index: of a phase, without effect."""
        self.session().control.light(name)
        return 0

    def getControlledLanes(self, name: str) -> tuple[str, ...]:
        """The lane of each signal, by its index; an empty text where a signal has no connection here."""
        return tuple(link[0] if link else "" for link in self.session().control.light(name).links)

    def check_key(self, name: str, key: str) -> None:
        """As of other domains; NotHere also for keys by which SUMO changes a light of type NEMA."""
        super().check_key(name, key)
        if key.startswith("NEMA."):
            raise NotHere(f"trafficlight: parameter {key!r}: {NEMA}")

    def getControlledLinks(self, name: str) -> tuple[list[tuple[str, str, str]], ...]:
        """For each signal [(lane, next lane, lane inside the junction)]; [] where it has no connection here."""
        return tuple([link] if link else [] for link in self.session().control.light(name).links)

    def getAllProgramLogics(self, name: str) -> tuple[Program, ...]:
        """The program that runs, and behind it the others of the files and the script, at their first phase."""
        light, index, _ = self.present_phase(name)
        of_file = {entry.get("program"): entry for entry in self.session().map.programs if entry["light"] == name}
        driven = {program: entry for program, entry in of_file.items() if program not in light.scripted}
        running = logic_at_phase(light.program, light.phases, light.names, index, driven.get(light.program))
        further = ((program, *parts) for program, parts in light.programs.items() if program != light.program)
        return running, *(logic_at_phase(*parts, 0, driven.get(parts[0])) for parts in further)

    getCompleteRedYellowGreenDefinition = getAllProgramLogics

    def getPhaseName(self, name: str) -> str:
        """The name of the present phase; empty where it has none."""
        light, index, _ = self.present_phase(name)
        if (driven := self.session().control.driven(name)) is not None and driven.logic.phase_name():
            return driven.logic.phase_name()
        return light.names[index]

    def setPhaseName(self, name: str, text: str) -> None:
        """Names the present phase, for getPhaseName, which tells the own names of a light of type NEMA all the same."""
        self.session().control.name_phase(name, self.present_phase(name)[1], str(text))

    def setPhase(self, name: str, index: int) -> None:
        """Shows the phase of an index for its seconds from now on; the program goes on from there. The present phase
        goes on so, with g as G until its end, but where detectors drive the light, which leave its end as it was.
        TraCIException for a wrong index, and where a program of type NEMA drives the light."""
        self.session().control.go_to(name, index)

    def setPhaseDuration(self, name: str, seconds: float) -> None:
        """Has the present phase end so many seconds from now (rounded); the next ones last as in the program. Until
        then g is shown as G, but where detectors drive the light.
        TraCIException below 0, for inf, and where a program of type NEMA drives the light."""
        control = self.session().control
        control.light(name)
        if not 0 <= seconds < inf:
            raise TraCIException(f"Traffic light '{name}': a phase of {seconds} s")
        control.end_phase(name, self.session().clock + round(seconds))

    def setRedYellowGreenState(self, name: str, state: str) -> None:
        """Shows a state, a letter for each signal and g as G, until another call sets the light; detectors drive it no
        more. TraCIException for a state of another length or with other letters."""
        self.session().control.hold(name, state)

    def setLinkState(self, name: str, index: int, state: str) -> None:
        """Holds the present state, as setRedYellowGreenState does, with another letter (state) for one signal.
        TraCIException for a wrong index or letter."""
        shown = self.getRedYellowGreenState(name)
        if not 0 <= index < len(shown):
            raise TraCIException(f"Traffic light '{name}' has no signal {index}")
        self.session().control.hold(name, shown[:index] + state + shown[index + 1 :])

    def setProgram(self, name: str, programID: str) -> None:
        """Runs a program of the files or of setProgramLogic, from where it has come to unseen, as in SUMO: by its
        seconds since the script left it, or by its detectors. Nothing where it runs already. TraCIException for an
        unknown one, NotHere for SUMO's "off"."""
        if programID == OFF_PROGRAM and programID not in self.session().control.light(name).programs:
            raise NotHere(f"trafficlight.setProgram: no light is off here; {SWITCHED}")
        self.session().control.run_program(name, programID)

    def setProgramLogic(self, name: str, logic: Program) -> None:
        """Sets a program of fixed seconds (minDur, maxDur and next have no effect; detectors drive the light no more)
        from the begin of its current phase on; setProgram can choose it again by its name, also where a program of the
        files had it. TraCIException, after which
        the light is as before, without phases, for wrong states, seconds not above 0 or a wrong current phase, and
        where the cycle rounds to 0 s or is longer than 200,000 s."""
        phases = [(float(phase.duration), phase.state) for phase in logic.phases]
        if not phases:
            raise TraCIException(f"Traffic light '{name}': a program without phases")
        check_index(name, phases, logic.currentPhaseIndex)
        begin = self.session().clock - seconds_of(phases[: logic.currentPhaseIndex])
        names = [phase.name for phase in logic.phases]
        self.session().control.set_program(name, logic.programID, phases, names, begin)

    setCompleteRedYellowGreenDefinition = setProgramLogic


def logic_at_phase(
    program: str, phases: Phases, names: Sequence[str], index: int, driven_program: Json | None = None
) -> Logic:
    """A program as scripts read it, at the phase of an index; driven_program: what the map has of one that detectors
    drive, with the bounds of its phases, else None: their bounds are their seconds."""
    fixed_bounds = [(duration, duration) for duration, _ in phases]
    bounds = list(map(phase_bounds, driven_program["phases"])) if driven_program else fixed_bounds
    parts = zip(phases, bounds, names, strict=True)
    read = tuple(Phase(*phase, *phase_bounds_s, (), name) for phase, phase_bounds_s, name in parts)
    return Logic(program, TYPES.get(driven_program["kind"], 0) if driven_program else 0, index, read)
