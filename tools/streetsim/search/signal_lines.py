"""Signal lines of a plan, as streetsim-import makes them of SUMO's programs, made anew only where greens change."""
import json
from collections import defaultdict
from collections.abc import Mapping, Sequence
from copy import copy
from typing import NamedTuple

from streetsim.base.report import Report
from streetsim.model.fullness import FullLane
from streetsim.model.mapping import Map, MapTurn
from streetsim.model.runs import Run
from streetsim.search.run_hidden import HiddenShares, with_hidden
from streetsim.search.signal_plans import PlannedLight, PlannedTiming
from streetsim.sumo.additional import read_additional
from streetsim.sumo.full import full_lanes_at_lights
from streetsim.sumo.net import LightProgram, SumoNet, read_net
from streetsim.sumo.signals import lit_node_of, signal_command
from streetsim.sumo.slowing import with_lower_limits
from streetsim.sumo.types import Types


class Flowing(NamedTuple):
    """A vehicle of a run, as the import counts flows."""

    edges: list[str]
    depart: int


def flowing(run: Run, mapping: Map) -> list[Flowing]:
    """The vehicles of a run."""
    names, enters = [link.edge for link in mapping.links], [line.command for line in run.enters]
    return [Flowing([names[link] for link in command["plan"]], command["depart"]) for command in enters]


def full_lanes_under(net: SumoNet, run: Run, mapping: Map) -> list[FullLane]:
    """The nearly full lanes at lights under the programs of a network, for the vehicles of a run."""
    return full_lanes_at_lights(net, flowing(run, mapping))


def read_plans(paths: Sequence[str], mapping: Map) -> SumoNet:
    """The network of the first file, with the signal programs of all files, of which the last of a light counts; edges
    are in parts as in the map. Fault where a file is wrong, or that network cannot have a lower limit of the map."""
    report = Report()
    net = read_net(paths[0], tuple(mapping.options["classes"]), report)
    types = Types(mapping.options.get("seed", 1), report)
    for path in paths[1:]:
        read_additional(path, net, types, report)
    return with_lower_limits(net, [], mapping.options.get("slow", ()), report)[0]


class LightLines:
    """Makes the signal lines of plans in a network; phases are kept, so that a light is made anew only where its greens
    change."""

    def __init__(self, mapping: Map) -> None:
        """mapping: of the run for which the lines are."""
        self.mapping = mapping
        self.hidden: HiddenShares = {}  # of turns that give way, where lines show how long others let them wait
        self.nodes: defaultdict[str, list[int]] = defaultdict(list)
        for light, node in mapping.signals:
            self.nodes[light].append(node)
        self.turns: defaultdict[int, list[tuple[int, int, int, MapTurn]]] = defaultdict(list)
        for turn in mapping.turns:
            self.turns[mapping.links[turn.link].end].append((turn.link, turn.lane, turn.next, turn))
        # By (light, durations): for each node the phases as bytes.
        self.node_phases: dict[tuple[str, tuple[int, ...]], list[bytes]] = {}
        self.report = Report()  # of what was made, where a light needs more phases than there may be

    def signal_lines(self, plan: Mapping[str, PlannedTiming], lights: Mapping[str, PlannedLight]) -> bytes:
        """The signal lines of a plan as bytes, one for each node of each of its lights; lights: by name. Notes in
        self.report where one needs more phases than there may be. Fault where a program does not fit its light."""
        lines = []
        for name, timing in plan.items():
            key = name, timing.durations
            if key not in self.node_phases:
                light = lights[name]
                self.node_phases[key] = [self.phases_json(name, node, timing, light) for node in self.nodes[name]]
            for node, phases in zip(self.nodes[name], self.node_phases[key], strict=True):
                values = node, -timing.offset % timing.cycle, phases
                lines.append(b'{"cmd":"signal","node":%d,"offset":%d,"phases":%s}\n' % values)
        return b"".join(lines)

    def hiding(self, shares: HiddenShares) -> "LightLines":
        """The same, with turns that give way hidden for these shares of the cycle."""
        lines = copy(self)
        lines.hidden, lines.node_phases = shares, {}
        return lines

    def phases_json(self, name: str, node: int, timing: PlannedTiming, light: PlannedLight) -> bytes:
        """The phases of a light at one of its nodes, as the JSON of a signal line's "phases"; self.report and Fault as
        of signal_lines."""
        program = LightProgram(0.0, list(zip(timing.durations, light.states, strict=True)), "static")
        command = signal_command(lit_node_of(self.mapping, node, self.turns[node], name, program, self.report))
        return json.dumps(with_hidden(command["phases"], self.hidden), separators=(",", ":")).encode()
