"""What the phases of a town's lights must keep: by their plans, a file of constraints, and the network's crossings."""
import sys
from collections.abc import Collection, Sequence
from typing import Protocol

from streetsim.base.files import Fault
from streetsim.base.report import first_few
from streetsim.sumo.constraints import (
    Constraint, broken_in, constraints_of, read_constraints, read_crossings, with_given, with_walks,
)
from streetsim.sumo.net import LightProgram

MEND = "search all the same, from greens that keep it: --mend"


class SearchWords(Protocol):
    """What is read of the words of a search."""

    @property
    def plans(self) -> Sequence[str]:
        """Paths of the plans, the network first."""

    @property
    def constraints(self) -> str | None:
        """The path of a file of constraints, or none."""

    @property
    def mend(self) -> bool:
        """Whether a plan that breaks its constraints is taken all the same."""

    @property
    def fixed(self) -> bool:
        """Whether plans of seconds are found for lights that detectors drive too, beside their bounds."""


class Promises:
    """Gathers what the lights of a town must keep, and what their plans break of it."""

    def __init__(self, reading: SearchWords, lights: Collection[str]) -> None:
        """Reads the file of constraints, and the crossings of the network. Fault where one cannot be read, or the file
        names no light of some lights."""
        self.reading, self.broken = reading, list[str]()
        self.given_constraints = read_constraints(reading.constraints) if reading.constraints else {}
        if unknown := sorted(self.given_constraints.keys() - {*lights}):
            raise Fault(f"{reading.constraints}: the map has no light {unknown[0]!r}")
        self.crossings = read_crossings(reading.plans[0])

    def constraints_for(self, light: str, program: LightProgram) -> Sequence[Constraint]:
        """What the phases of a light's program must keep; notes what the program breaks. Fault where constraints
        contradict each other."""
        constraints = with_given(light, program, constraints_of(light, program), self.given_constraints.get(light, {}))
        constraints = with_walks(program, constraints, self.crossings.get(light, {}))
        self.broken += broken_in(light, program, constraints)
        return constraints

    def tell_broken(self) -> None:
        """Tells on standard error what the plans given break. Fault where they break anything and no word says to
        search all the same; the listed seconds of lights that detectors drive are mended without it."""
        if self.broken and not (self.reading.mend or self.reading.fixed):
            raise Fault(f"{self.broken[0]}: no plan to search from ({MEND})")
        if self.broken:
            print(f"mended before the search: {first_few(self.broken)}", file=sys.stderr)
