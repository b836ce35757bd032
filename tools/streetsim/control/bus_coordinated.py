"""A light with listed seconds that waits for buses: each phase ends when the light's plan says, as far as its bounds
allow, so that after a bus it comes back to the plan by itself."""
from dataclasses import dataclass

from streetsim.control.actuated_lights import Driven
from streetsim.control.actuated_logic import Actuated, ActuatedPhase, GapOf


@dataclass(slots=True)
class Coordinated(Actuated):
    """The logic of such a light; a green that detectors would extend elsewhere lasts as the plan says here."""

    planned: int = 0  # clock at which the plan has the phase begin that is shown

    def begin_at(self, clock: int, offset: int = 0) -> None:
        """Begins, at a clock, in the phase in which the plan is then; offset: of the plan, seconds."""
        Actuated.begin_at(self, clock, offset)
        self.planned = clock - self.listed_at(clock, offset)[1]
        self.due = max(clock + 1, self.planned + self.phases[self.phase_index].seconds)

    def moves_on(self, clock: int, gap: GapOf) -> bool:
        """Goes on to the next phase where the present one is over at a clock; gives whether it does. The plan's
        clock goes on with it, by whole cycles where it is far off."""
        seconds, self.due = self.phases[self.phase_index].seconds, clock
        if not Actuated.moves_on(self, clock, gap):
            return False
        cycle = sum(phase.seconds for phase in self.phases)
        self.planned += seconds
        self.planned += cycle * ((clock - self.planned + cycle // 2) // cycle)
        return True

    def wait(self, phase: ActuatedPhase, gap: GapOf) -> int:
        """The seconds from `due`, which moves_on sets to the present clock, until the plan ends the phase; 0 where that
        is over. gap: not asked."""
        return max(0, self.planned + phase.seconds - self.due)

    def why(self, phase: ActuatedPhase, clock: int) -> str:
        """Why a phase ends now: "listed" where the plan says so, else what Actuated says."""
        why = Actuated.why(self, phase, clock)
        return "listed" if why == "gap" else why


@dataclass(frozen=True, slots=True)
class Fixed(Driven):
    """A light of a run with listed seconds, as one that is driven."""

    def new_logic(self) -> Actuated:
        """A new logic of this light, a Coordinated, for one run."""
        return Coordinated(self.phases, self.gaps, self.lead)
