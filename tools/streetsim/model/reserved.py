"""Vehicles that drive on lanes of their own class, as an import finds them: they are faster there than in SUMO."""
from dataclasses import dataclass


@dataclass(slots=True, frozen=True)
class ReservedLanes:
    """The vehicles of a demand that drive on lanes which are closed to the first class of the import."""

    classes: str  # theirs, with commas between
    edge: str  # where most of them drive on such a lane
    vehicles: int
    of: int  # vehicles of the demand

    def in_words(self) -> str:
        """How many there are, and where most of all."""
        return (
            f"{self.vehicles:,} of {self.of:,} vehicles ({self.classes}) drive on lanes of their own, most of all on "
            f"edge {self.edge}"
        )
