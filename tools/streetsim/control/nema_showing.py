"""What the nodes of a NEMA light show: of each signal's green, second by second from its own begin, what the import's
rules show of a cycle in which each phase has the mean length that it had so far. Where one lasts longer its last second
goes on."""
from collections.abc import Iterator, Sequence

from streetsim.base import limits
from streetsim.control.actuated_showing import WEIGHT, Lengths, lit_node, plan_command
from streetsim.control.nema_lights import DrivenRings
from streetsim.control.nema_logic import Nema
from streetsim.control.nema_phases import GREEN, RED, YELLOW, RingPhase, Rings, letters_together
from streetsim.model.mapping import Map
from streetsim.model.runs import Command
from streetsim.model.timing import spans_of
from streetsim.sumo.crossing import GREEN as FIRST, OPEN, STOPS_FIRST
from streetsim.sumo.signals import Green, LitNode, green_seconds

LIT = FIRST + OPEN + STOPS_FIRST  # letters of a signal that some pass
Times = list[tuple[RingPhase, int]]  # by second: a phase, and what it shows


class ShownRings:
    """What the nodes of one NEMA light show in one run."""

    def __init__(self, light: DrivenRings, mapping: Map) -> None:
        """light: what is driven; mapping: of the run whose nodes show it."""
        self.light, phases = light, light.rings.phases
        cycle = [(phase.usual, phase.state) for phase in phases]
        self.nodes = [lit_node(light.name, node, mapping, 0, cycle) for node in light.nodes]
        self.means = {phase.number: min(phase.usual, float(limits.PHASE_STEPS)) for phase in phases}
        self.learned_count = 0  # ended phases that are in the means
        self.cycles: dict[Lengths, list[str]] = {}
        self.greens: dict[tuple[int, Lengths], list[Green]] = {}
        self.letters: list[tuple[str, int]] = []  # of each signal what it shows, and since when

    def learn(self, logic: Nema) -> Lengths:
        """Takes the greens that ended since it last did into the means, and gives these in whole seconds, 1 to 600, in
        the order of the phases."""
        for row in logic.ended_phases[self.learned_count :]:
            self.means[row.phase] += WEIGHT * (row.seconds - self.means[row.phase])
        self.learned_count = len(logic.ended_phases)
        return tuple(max(1, round(min(mean, limits.PHASE_STEPS))) for mean in self.means.values())

    def plans(self, logic: Nema, clock: int) -> Iterator[Command]:
        """The signal commands, one for each node, that show from `clock` on what the logic shows; first takes
        what ended into the means, as `learn`, and notes in `letters` what each signal shows, and since when."""
        lengths, state = self.learn(logic), logic.state()
        before = self.letters or [("", clock)] * len(state)
        pairs = zip(state, before, strict=True)
        self.letters = [(letter, since if letter == old else clock) for letter, (old, since) in pairs]
        if lengths not in self.cycles:
            self.cycles[lengths] = cycle_of(self.light.rings, dict(zip(self.means, lengths, strict=True)))
        cycle = self.cycles[lengths]
        for at, node in enumerate(self.nodes):
            if (at, lengths) not in self.greens:
                self.greens[at, lengths] = green_seconds(node, cycle, node.shown_seconds(cycle), 1, True)
            yield plan_command(node.node, self.greens_by_second(node, cycle, self.greens[at, lengths], clock), clock)

    def greens_by_second(self, node: LitNode, cycle: Sequence[str], greens: Sequence[Green], clock: int) -> list[Green]:
        """The green turns of a node in each second from `clock` on (not from a cycle's begin), the last of
        which goes on, by the `letters` that `plans` notes; turns that the light does not control are always green.
        cycle, greens: the letters, and the green turns, in each second of a cycle."""
        greens_by_turn = {}
        for link, lane, following, turn in node.turns:
            letter, since = self.letters[turn.index] if turn.light == node.light else ("", clock)
            key = link, lane, following
            if turn.light != node.light:
                greens_by_turn[key] = [True]
            elif letter in LIT and letter:
                own = "".join(state[turn.index] for state in cycle)
                is_green = [key in green for green in greens]
                greens_by_turn[key] = green_in_remaining_seconds(own, is_green, letter, clock - since)
        count = max(map(len, greens_by_turn.values()), default=1)
        return [
            frozenset(key for key, own in greens_by_turn.items() if own[min(second, len(own) - 1)])
            for second in range(count)
        ]


def green_in_remaining_seconds(letters: str, is_green: Sequence[bool], letter: str, seconds_over: int) -> list[bool]:
    """Whether a signal is shown green in each second that remains of its longest run of a letter, of which so many
    seconds are over, one at least; green for one second where no second has the letter. letters, is_green: of each
    second of a cycle."""
    runs = spans_of(letters, letter)
    if not runs:
        return [True]
    start, length = max(runs, key=lambda run: run[1])
    own = [is_green[(start + second) % len(is_green)] for second in range(length)]
    return own[min(seconds_over, len(own) - 1) :]


def cycle_of(rings: Rings, seconds: dict[int, int]) -> list[str]:
    """The letters of the signals in each second of a cycle in which each phase is green for its seconds (by number), or
    for longer where it waits at a barrier for the other ring."""
    states = []
    for side in (0, 1):
        ring_times = []
        for order in rings.orders:
            numbers = [number for number in order[2 * side : 2 * side + 2] if number]
            phase_times = (times_of(rings.phase(number), seconds[number]) for number in numbers)
            ring_times.append([second for times in phase_times for second in times])
        most = max(map(len, ring_times))
        for own in ring_times:
            if own:
                waiting = next((at for at in reversed(range(len(own))) if own[at][1] == GREEN), 0)
                own[waiting:waiting] = [own[waiting]] * (most - len(own))
        states += [letters_together(pair) for pair in zip(*(own for own in ring_times if own), strict=True)]
    return states


def times_of(phase: RingPhase, green: int) -> Times:
    """A phase second by second, (itself, its stage): `green` seconds green, then its yellow and red, rounded to
    whole seconds."""
    stages = [(GREEN, green), (YELLOW, round(phase.yellow)), (RED, round(phase.red))]
    return [(phase, stage) for stage, seconds in stages for _ in range(seconds)]
