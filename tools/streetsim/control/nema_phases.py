"""What a NEMA light's program has: phases with their bounds, two rings of them, and the letters that phases show
together."""
from collections.abc import Sequence
from dataclasses import dataclass

from streetsim.control.actuated_logic import GREEN_LETTERS

RED, YELLOW, GREEN, TRANSFER, RESTING = range(5)  # what a phase shows; from GREEN on it is green
LETTERS = "GgyuOs"  # of two phases that show a signal that neither controls, the first of these is shown


@dataclass(slots=True, frozen=True)
class RingPhase:
    """A phase of a ring, as its program has it; all times in seconds."""

    number: int  # 1 to 8
    state: str
    least_seconds: float
    most_seconds: float
    extension: float  # how long its green stays after somebody was last on an area
    yellow: float
    red: float  # of all its signals, after yellow
    areas: tuple[int, ...]  # positions of those that call and extend it
    least_recall: bool = True  # called always, for its least time
    most_recall: bool = False  # called always, for its greatest time
    latching: bool = False  # a call stays until the phase is green

    @property
    def change_seconds(self) -> float:
        """The seconds from the end of its green to the begin of the next: yellow and red."""
        return self.yellow + self.red

    @property
    def usual(self) -> float:
        """The seconds of green that it is thought to last as long as none of it has ended: the mean of its bounds."""
        return (self.least_seconds + self.most_seconds) / 2

    @property
    def is_recalled(self) -> bool:
        """Whether it is called always, whoever comes."""
        return self.least_recall or self.most_recall

    def letters_at(self, stage: int) -> str:
        """The letters of its signals at a stage: from GREEN on its state, at YELLOW that with y for each green (G or
        g), at RED all red."""
        if stage >= GREEN:
            return self.state
        if stage == YELLOW:
            return "".join("y" if letter in GREEN_LETTERS else letter for letter in self.state)
        return "r" * len(self.state)


@dataclass(slots=True, frozen=True)
class Rings:
    """A program of two rings: for each ring the numbers of its phases, 0 where there is none, two before the barrier
    and two behind it; and for each side of the barrier the phase in which each ring waits for the other one."""

    phases: Sequence[RingPhase]
    orders: tuple[tuple[int, ...], ...]
    barriers: tuple[tuple[int, ...], ...]  # by side: a phase of each ring

    def phase(self, number: int) -> RingPhase:
        """The phase of a number; StopIteration where there is none."""
        return next(one for one in self.phases if one.number == number)

    def numbers_of(self, ring: int) -> list[int]:
        """The numbers of the phases of a ring (0 or 1), in its order."""
        return [number for number in self.orders[ring] if number]

    def is_at_barrier(self, number: int) -> bool:
        """Whether the phase of a number is one in which its ring waits for the other."""
        return any(number in side for side in self.barriers)


def letters_together(shown: Sequence[tuple[RingPhase, int]]) -> str:
    """The letters that phases at stages show together. A signal that is G in the state of one of these phases shows
    what that phase shows (of two the last); any other the first of LETTERS that one of them shows, else red."""
    states, found = [phase.letters_at(stage) for phase, stage in shown], []
    for at, letters in enumerate(zip(*states, strict=True)):
        own = [letter for letter, (phase, _) in zip(letters, shown, strict=True) if phase.state[at] == "G"]
        found.append(own[-1] if own else next((letter for letter in LETTERS if letter in letters), "r"))
    return "".join(found)
