"""The programs of lights as they stand at the road: states over the cycle, movements, and which of these conflict."""
import re
from collections import Counter
from collections.abc import Iterable, Iterator, Sequence
from dataclasses import dataclass
from functools import lru_cache
from itertools import combinations, product

from streetsim.base.files import Json

MAIN, PERMISSIVE, YELLOW = "G", "g", "yY"
OPEN = MAIN + PERMISSIVE  # signs of green
RANK = "rsoOuyYgG"  # signs, those that let most go last


@dataclass(slots=True, frozen=True)
class SignalMovement:
    """From an edge to the next one at a light; indexes: in the light's states, of its lanes, rising."""

    edge: str
    next_edge: str
    indexes: tuple[int, ...]


@dataclass(slots=True)
class Timing:
    """A light's program: its phases, and the movements that they serve."""

    light: str
    junction: str
    offset: float  # seconds
    phases: Sequence[tuple[float, str]]  # seconds and state
    kind: str  # static, actuated, ..
    movements: list[SignalMovement]
    conflicts: set[frozenset[int]]  # pairs of indexes in the states whose ways cross or join
    # What each phase must keep: least, most and pedestrians' seconds, None: not written; empty: nothing is.
    phase_limits: Sequence[Sequence[int | None]] = ()

    def states(self) -> list[str]:
        """The state in each second of the cycle, as `states_of` gives it."""
        return states_of(self.phases)

    def signs(self, movement: SignalMovement) -> str:
        """What a movement is shown in each second of the cycle, a letter; of its lanes the one that lets most go."""
        return "".join(max((state[index] for index in movement.indexes), key=RANK.find) for state in self.states())

    def pairs(self) -> Iterator[tuple[SignalMovement, SignalMovement]]:
        """The pairs (movement, other) that come from different edges and whose ways cross or join, each once."""
        for movement, beside in combinations(self.movements, 2):
            if movement.edge != beside.edge and self.crossings(movement, beside):
                yield movement, beside

    def crossings(self, movement: SignalMovement, beside: SignalMovement) -> list[tuple[int, int]]:
        """The pairs of indexes, of one movement and another, whose ways cross or join."""
        return [pair for pair in product(movement.indexes, beside.indexes) if frozenset(pair) in self.conflicts]

    def has_gaps(self) -> bool:
        """Whether a movement has a green in which it waits for gaps in another, which may go too."""
        signs = (zip(self.signs(one), self.signs(other)) for one, other in self.pairs())
        return any(PERMISSIVE in two and {*two} <= {*OPEN} for pair in signs for two in pair)

    def clashes(self) -> Iterator[tuple[SignalMovement, SignalMovement, int]]:
        """(movement, other, seconds) for those of `pairs` that have main greens (G) on conflicting indexes together."""
        states = Counter(self.states())
        for movement, beside in self.pairs():
            both = self.crossings(movement, beside)
            clashing = (count for state, count in states.items() if any(state[a] == state[b] == MAIN for a, b in both))
            if seconds := sum(clashing):
                yield movement, beside, seconds

    def written(self) -> Json:
        """The program as a dict to be dumped as JSON, which `timing_of` reads."""
        return {
            "light": self.light, "junction": self.junction, "offset": self.offset,
            "phases": [[*phase] for phase in self.phases],
            "kind": self.kind, "movements": [[one.edge, one.next_edge, list(one.indexes)] for one in self.movements],
            "conflicts": sorted(sorted(pair) for pair in self.conflicts),
            **({"kept": [[*one] for one in self.phase_limits]} if self.phase_limits else {}),
        }


def timing_of(value: Json) -> Timing:
    """The program of the dict that `Timing.written` gave."""
    return Timing(
        value["light"], value["junction"], value["offset"], [(seconds, state) for seconds, state in value["phases"]],
        value["kind"], [SignalMovement(edge, to, tuple(indexes)) for edge, to, indexes in value["movements"]],
        {frozenset(pair) for pair in value["conflicts"]}, value.get("kept", ()),
    )


def states_of(phases: Iterable[tuple[float, str]]) -> list[str]:
    """The state in each second of a cycle of phases, (seconds, state); durations are rounded so that each phase ends at
    the second nearest to its end, the last one too."""
    states: list[str] = []
    clock = 0.0
    for duration, state in phases:
        clock += duration
        states += [state] * (round(clock) - len(states))
    return states


def spans_of(signs: str, those: str) -> list[tuple[int, int]]:
    """The (begin, seconds) of each run of letters that are in `those`; signs: a letter for each second of a cycle. A
    run may go on over the cycle's end."""
    return list(known_spans(signs, those))


@lru_cache(1 << 12)
def known_spans(signs: str, those: str) -> tuple[tuple[int, int], ...]:
    """What spans_of gives."""
    runs = [(found.start(), len(found[0])) for found in re.finditer(f"[{those}]+", signs)]
    if len(runs) > 1 and runs[0][0] == 0 and sum(runs[-1]) == len(signs):
        (_, further), *runs, (begin, seconds) = runs
        runs.append((begin, seconds + further))
    return tuple(runs)


def intergreen(ending: str, beginning: str) -> int | None:
    """The least seconds from the end of any green of one movement to the next begin of a green of another; ending,
    beginning: of these a letter for each second of the cycle. None where both have green together, or one has none."""
    count = len(ending)
    if any(one in OPEN and other in OPEN for one, other in zip(ending, beginning, strict=True)):
        return None
    ends = [(begin + seconds) % count for begin, seconds in spans_of(ending, OPEN)]
    begins = [begin for begin, _ in spans_of(beginning, OPEN)]
    gaps = [min((begin - end) % count for end in ends) for begin in begins] if ends else []
    return min(gaps, default=None)


def movements_by_edges(movements: Iterable[tuple[str, str, int]]) -> list[SignalMovement]:
    """The movements, sorted, of (edge, next edge, index in the state): one for each pair of edges."""
    indexes_by_edges: dict[tuple[str, str], list[int]] = {}
    for edge, to, index in movements:
        indexes_by_edges.setdefault((edge, to), []).append(index)
    rows = sorted(indexes_by_edges.items())
    return [SignalMovement(edge, to, tuple(sorted(set(indexes)))) for (edge, to), indexes in rows]
