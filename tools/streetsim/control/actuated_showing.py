"""What a light shows here of a phase whose end is not known yet: what the import's rules show of a plan in which each
phase has the mean length that it had so far, as what starts late depends on how long a green is. Where a phase lasts
longer its last second goes on; where it may end earlier, those of a surveyed share are let go in time."""
from collections.abc import Iterator, Sequence
from itertools import groupby
from typing import Any

from streetsim.base import limits
from streetsim.base.report import Report
from streetsim.control.actuated_lights import Driven
from streetsim.control.actuated_logic import Actuated, ActuatedPhase
from streetsim.model.mapping import Map
from streetsim.model.runs import Command
from streetsim.sumo.crossing import OPEN
from streetsim.sumo.net import LightProgram
from streetsim.sumo.signals import Green, LitNode, green_seconds, lit_node_of, phases_that_fit

WEIGHT = 0.2  # of the newest length in a phase's mean, chosen at eight rows of four networks
LAST = 2  # seconds, in which one vehicle passes
Lengths = tuple[int, ...]  # seconds of each phase of a cycle


class NodesOfLight:
    """What the nodes of one actuated light show in one run."""

    def __init__(self, light: Driven, mapping: Map) -> None:
        """light: what is driven; mapping: of the run whose nodes show it."""
        self.light, cycle = light, [(float(phase.seconds), phase.state) for phase in light.phases]
        self.nodes = [lit_node(light.name, node, mapping, light.offset, cycle) for node in light.nodes]
        self.means = [float(phase.usual) for phase in light.phases]
        self.learned_count = 0  # ended phases that are in the means
        self.rows: dict[tuple[int, Lengths], list[Green]] = {}  # by place of a node: green turns second by second
        # By place of a node, lengths, phase and seconds: phases of a plan, one list for all plans that show them.
        self.phases: dict[tuple[int, Lengths, int, int], list[list[Any]]] = {}

    def learn(self, logic: Actuated) -> Lengths:
        """Takes the phases that ended since it last did into the means, and gives these in whole seconds, 1 to 600. The
        first phase is left out, as it may have begun before the run."""
        for place in range(max(1, self.learned_count), len(logic.ended_phases)):
            at, _, seconds, _ = logic.ended_phases[place]
            self.means[at] += WEIGHT * (seconds - self.means[at])
        self.learned_count = len(logic.ended_phases)
        return tuple(max(1, round(min(mean, limits.PHASE_STEPS))) for mean in self.means)

    def plans(self, logic: Actuated, clock: int) -> Iterator[Command]:
        """The signal commands, one for each node, that show the phase that the logic is in, whose begin (or the run's)
        is `clock`; first takes what ended into the means, as `learn`."""
        lengths = self.learn(logic)
        end = sum(lengths[: logic.phase_index + 1])
        # At the begin of a run the end of a phase may be all that is left of it.
        length = lengths[logic.phase_index]
        remaining = length if logic.ended_phases else min(length, logic.due - clock)
        for node_index, node in enumerate(self.nodes):
            if (node_index, lengths) not in self.rows:
                self.rows[node_index, lengths] = self.greens_by_second(node, lengths)
            key = node_index, lengths, logic.phase_index, remaining
            if key not in self.phases:
                phase = self.light.phases[logic.phase_index]
                rows: Sequence[Green] = self.rows[node_index, lengths][end - remaining : end]
                if phase.detectors and remaining == length:
                    rows = let_go_in_time(rows, phase.shortest, yielding(node, phase))
                self.phases[key] = phases_of(rows)
            yield command_of(node.node, self.phases[key], clock)

    def greens_by_second(self, node: LitNode, lengths: Lengths) -> list[Green]:
        """The green turns in each second, from its begin, of a cycle whose phases have some lengths."""
        pairs = zip(self.light.phases, lengths, strict=True)
        states = [phase.state for phase, length in pairs for _ in range(length)]
        return green_seconds(node, states, node.shown_seconds(states), 1, True)


def yielding(node: LitNode, phase: ActuatedPhase) -> Green:
    """The turns of a node that are green in a phase and give way."""
    return frozenset(
        (link, lane, following)
        for link, lane, following, turn in node.turns
        if turn.light == node.light and phase.state[turn.index] in OPEN
    )


def let_go_in_time(rows: Sequence[Green], least_seconds: int, turns: Green) -> Sequence[Green]:
    """The green turns in each second of a phase that may end after `least_seconds`. Of some turns those that are green
    at its end, and not before its least end, as where the last share of a green was surveyed, have their first seconds
    (LAST; not the phase's last one) before that: whatever comes, one vehicle passes in a green, and would else hold up
    the only lane of an edge for a cycle."""
    late, moved = (rows[-1] & turns).difference(*rows[:least_seconds]), min(LAST, least_seconds)
    if not late:
        return rows
    begins = {turn: next(at for at, row in enumerate(rows) if turn in row) for turn in late}
    after = [row - {turn for turn in late if at < begins[turn] + moved} for at, row in enumerate(rows)]
    first_green = least_seconds - moved
    let_go = (row | late for row in rows[first_green:least_seconds])
    return [*rows[:first_green], *let_go, *after[least_seconds:-1], rows[-1]]


def lit_node(light: str, node: int, mapping: Map, offset: int, cycle: list[tuple[float, str]]) -> LitNode:
    """A node with a light as the import had it; offset: seconds; cycle: seconds and states of the light's phases. Fault
    where lit_node_of raises one."""
    own_turns = (turn for turn in mapping.turns if mapping.links[turn.link].end == node)
    turns = [(turn.link, turn.lane, turn.next, turn) for turn in own_turns]
    return lit_node_of(mapping, node, turns, light, LightProgram(offset, cycle, "actuated"), Report())


def plan_command(node: int, rows: Sequence[Green], clock: int) -> Command:
    """The signal command that shows some seconds (green turns of each; one second at least) from `clock` on;
    the last of the first 600 goes on for so long."""
    return command_of(node, phases_of(rows), clock)


def command_of(node: int, phases: list[list[Any]], clock: int) -> Command:
    """The signal command of a plan that begins at `clock`."""
    return {"cmd": "signal", "node": node, "offset": -clock % sum(seconds for seconds, _ in phases), "phases": phases}


def phases_of(rows: Sequence[Green]) -> list[list[Any]]:
    """The phases of a plan that shows some seconds; the last of the first 600, as long as a phase of a plan may last,
    goes on for so long. With more changes than a plan has phases the shortest are added to those before."""
    phases = phases_that_fit((len(list(run)), green) for green, run in groupby(rows[: limits.PHASE_STEPS]))
    phases[-1] = (limits.PHASE_STEPS, phases[-1][1])
    return [[seconds, sorted([*turn] for turn in green)] for seconds, green in phases]


def lasting(command: Command) -> Command:
    """The signal command that goes on showing what a given one shows at its end: one phase of 600 s, which repeats
    until another command comes."""
    return {**command, "offset": 0, "phases": [[limits.PHASE_STEPS, command["phases"][-1][1]]]}
