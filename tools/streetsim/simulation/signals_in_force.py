"""The signal plans in force at the nodes of lights: programs as one plan, and long ones phase by phase."""
from collections.abc import Callable, Collection, Iterable, Iterator, Sequence

from streetsim.base import limits
from streetsim.base.report import Report
from streetsim.kernel.loop import NEVER, Controller, Kernel, own_line
from streetsim.kernel.seconds import Block
from streetsim.model.mapping import Map, MapTurn
from streetsim.model.runs import Command, Line
from streetsim.sumo.crossing import GREEN
from streetsim.sumo.net import LightProgram
from streetsim.sumo.signals import LitNode, TooLong, cycle_told, lit_node_of, phase_lines, signal_command

NOTHING: Command = {}
Cycle = Sequence[tuple[float, str]]  # phases: seconds, state
ShownProgram = str | tuple[tuple[float, str], ...]  # a state, or phases
CONSTANT = 600  # seconds of a phase that is shown until the next is set


class LongProgram:
    """The phases of a program that does not fit in one plan; each is sent at its clock."""

    def __init__(self, lit_node: LitNode, begin: int) -> None:
        """lit_node: the program at a node; begin: the clock from which on it is told."""
        self.lines = phase_lines(lit_node, begin)
        self.clock, self.command = next(self.lines)

    def commands_due(self, clock: int) -> Iterator[Command]:
        """The commands of the phases that have begun by a clock; each is given once."""
        while self.clock <= clock:
            yield self.command
            self.clock, self.command = next(self.lines, (limits.CLOCK + 1, NOTHING))


MOST_PROGRAMS = 1 << 12  # programs whose commands are kept, and what is shown whose lines are


class SignalsInForce(Controller):
    """The signals in force at the nodes of a map's lights, and those of long programs that are still to be sent, which
    it sends."""

    def __init__(self, mapping: Map, first_commands: Iterable[Command]) -> None:
        """first_commands: the first commands of the file, of which the signals are taken."""
        self.map = mapping
        self.signals = {command["node"]: command for command in first_commands if command["cmd"] == "signal"}  # by node
        self.forgotten: set[int] = set()  # nodes for which lines of the file are no longer sent
        self.coming: dict[int, LongProgram] = {}  # by node, of the programs that are sent phase by phase
        self.nodes_of: dict[str, list[int]] = {}  # by light
        for light, node in mapping.signals:
            self.nodes_of.setdefault(light, []).append(node)
        self.turns_by_node: dict[int, list[MapTurn]] = {}  # what turns_at gave
        # By light and phases the commands that show them and warnings, where they fit in one plan; by light, what it
        # shows and offset the lines of these.
        self.known_commands: dict[tuple[str, ShownProgram], tuple[list[Command], tuple[str, ...]]] = {}
        self.lines: dict[tuple[str, ShownProgram, int], list[Line]] = {}

    def begin(self, kernel: Kernel) -> None:
        """Nothing is to be sent yet."""
        self.kernel = kernel

    def act(self, clock: int, _now: Block) -> None:
        """Sends the phases that have begun."""
        self.kernel.send(self.commands_due(clock))

    def in_force(self) -> Collection[Command]:
        """The signal commands in force."""
        sent = (sent_line.line.command for sent_line in self.kernel.sent_lines if not sent_line.for_a_gap)
        signals = {command["node"]: command for command in sent if command["cmd"] == "signal"}
        return {**self.signals, **signals}.values()

    def nodes(self, light: str) -> list[int]:
        """The nodes of a light; empty for an unknown one."""
        return self.nodes_of.get(light, [])

    def turns_at(self, node: int) -> list[MapTurn]:
        """The turns at a node: of all links that end there."""
        if node not in self.turns_by_node:
            self.turns_by_node[node] = [turn for turn in self.map.turns if self.map.links[turn.link].end == node]
        return self.turns_by_node[node]

    def program_lines(self, light: str, phases: Cycle, offset: float, clock: int) -> tuple[list[Line], list[str]]:
        """(lines that show a cycle of (seconds, state) at a light from a clock on; warnings); forgets what was still
        to be sent for the light. offset: as in a tlLogic, seconds. Fault, before anything is forgotten, where a state
        is shorter than the light's signals, the cycle rounds to 0 s or is longer than 200,000 s, or lit_node_of raises
        one."""
        cycle = tuple([(seconds, state) for seconds, state in phases])
        if (commands_known := self.known_commands.get((light, cycle))) is not None:
            self.forget(light)
            return self.lines_with_offset(light, cycle, offset), list(commands_known[1])
        report, commands, coming = Report(), [], {}
        for node in self.nodes(light):
            lit_node = self.lit_node(light, node, phases, offset, report)
            try:
                commands.append(signal_command(lit_node))
            except TooLong:
                report.warn(f"light {light!r}: {cycle_told(lit_node)}; its phases are sent one by one")
                coming[node] = LongProgram(lit_node, clock)
                commands += coming[node].commands_due(clock)
        self.forget(light)
        self.coming |= coming
        if not coming:
            if len(self.known_commands) >= MOST_PROGRAMS:
                self.known_commands.clear()
            self.known_commands[light, cycle] = commands, tuple(report.warnings)
        return list(map(own_line, commands)), report.warnings

    def lines_with_offset(self, light: str, shown: ShownProgram, offset: float) -> list[Line]:
        """The lines of a program of a light that was made before, with another offset, as in a tlLogic, seconds."""
        commands, _ = self.known_commands[light, shown]
        cycle = sum(duration for duration, _ in commands[0]["phases"]) if commands else 1
        return self.lines_known((light, shown, round(-offset) % cycle), lambda: commands)

    def lines_known(self, key: tuple[str, ShownProgram, int], make: Callable[[], list[Command]]) -> list[Line]:
        """The lines of a light, what it shows and the offset (key); make: gives the commands, whatever their offset."""
        if (lines := self.lines.get(key)) is None:
            if len(self.lines) >= MOST_PROGRAMS:
                self.lines.clear()
            lines = self.lines[key] = [own_line({**command, "offset": key[2]}) for command in make()]
        return lines

    def lit_node(self, light: str, node: int, phases: Cycle, offset: float, report: Report) -> LitNode:
        """A light's program at one of its nodes, in the form of which signal lines are made; report: gets warnings."""
        turns = [(turn.link, turn.lane, turn.next, turn) for turn in self.turns_at(node)]
        return lit_node_of(self.map, node, turns, light, LightProgram(offset, list(phases), "static"), report)

    def constant_lines(self, light: str, state: str, begin: float) -> list[Line]:
        """The lines that show a state without permissive greens from the clock begin on; forgets what was to come."""
        self.forget(light)
        offset = round(-(begin % CONSTANT)) % CONSTANT
        return self.lines_known((light, state, offset), lambda: self.constant_commands(light, state))

    def constant_commands(self, light: str, state: str) -> list[Command]:
        """The commands that show a state without permissive greens, whatever their offset."""
        commands = []
        for node in self.nodes(light):
            turns = (turn for turn in self.turns_at(node) if turn.light != light or state[turn.index] in GREEN)
            green = sorted([turn.link, turn.lane, turn.next] for turn in turns)
            commands.append({"cmd": "signal", "node": node, "offset": 0, "phases": [[CONSTANT, green]]})
        return commands

    def forget(self, light: str) -> None:
        """Has nothing more sent of what the file, or a long program, has for a light."""
        nodes = self.nodes(light)
        self.forgotten.update(nodes)
        if self.coming:
            self.coming = {node: phases for node, phases in self.coming.items() if node not in nodes}

    def commands_due(self, clock: int) -> list[Command]:
        """The commands of the phases of long programs that have begun by a clock; each is given once."""
        return [command for phases in self.coming.values() for command in phases.commands_due(clock)]

    def next_clock(self, target: int = NEVER) -> int:
        """The clock at which the next phase of a long program begins; target at most."""
        return min([target, *(phases.clock for phases in self.coming.values())])
