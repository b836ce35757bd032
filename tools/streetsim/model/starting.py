"""Vehicles that start slowly at lights, as an import finds them: here all start alike, so they lose too little."""
from dataclasses import dataclass


@dataclass(slots=True, frozen=True)
class SlowStarts:
    """The vehicles of a demand that start slowly and pass lights."""

    junction: str  # the light where most of them pass, from edge source to target
    source: str
    target: str
    seconds: float  # that a start takes them longer than usual cars, in the mean
    vehicles: int
    of: int  # vehicles of the demand

    def in_words(self) -> str:
        """How many there are, what they lose, and where most of all."""
        return (
            f"{self.vehicles:,} of {self.of:,} vehicles start so slowly at lights that each start takes "
            f"{self.seconds:.1f} s longer in SUMO than here: most of all from {self.source} to {self.target} at "
            f"{self.junction}"
        )
