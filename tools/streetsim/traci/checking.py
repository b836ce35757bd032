"""streetsim-sumo --check: which of a script's calls of TraCI are here, read from its text, without running it."""
from __future__ import annotations

import ast
import os
import re
from collections import defaultdict
from collections.abc import Iterator
from typing import NamedTuple

import streetsim.traci as traci
from streetsim.base.files import Fault
from streetsim.traci import constants as tc
from streetsim.traci.advice import PLATOONS, advice_on
from streetsim.traci.table import DOMAINS, GETS

MODULES = ("traci", "libsumo", "libtraci", "streetsim.traci")
QUIET = ("gui", "poi", "polygon")
# By which a call of what may be a domain is known.
CALL = re.compile(r"(get|set|is|subscribe|unsubscribe|add|remove|change|reroute|slow|move|adapt|open|resume|highlight)")
VARIABLE_PREFIXES = ("VAR_", "LAST_STEP_", "TL_", "LANE_")  # begins of the names of variables
# Modules, and variables of the environment, by which a script runs SUMO itself, or asks for what is not here.
OWN_SUMO = "runs SUMO itself within the script: import traci in its place, which starts the program that it is given"
WARNED = {
    "libsumo": OWN_SUMO, "LIBSUMO_AS_TRACI": OWN_SUMO,
    "simpla": f"platoons are not here: {PLATOONS}",
}
# Calls that are done otherwise than in SUMO, and how.
OTHERWISE = {
    "vehicle.setRoute": "a vehicle on the road takes it from the next junction on",
    "vehicle.setRouteID": "a vehicle on the road takes it from the next junction on",
    "vehicle.changeTarget": "a vehicle on the road turns off at the next junction",
    "vehicle.rerouteTraveltime": "a vehicle on the road turns off at the next junction",
    "vehicle.setRoutingMode": "is kept; ways are by the mean speeds of now or edge.adaptTraveltime in each mode",
    "vehicle.getAccumulatedWaitingTime": "of the whole trip, in SUMO of the last 100 s",
    "vehicle.getTimeLoss": "2 to 5 s less for each stop, as vehicles brake and start at once",
    "vehicle.getSpeed": "whole cells a second: steps of some 7.5 m/s",
    "vehicle.getAcceleration": "whole cells a second squared",
    "vehicle.getPosition": "on the line of the edge, which its lanes share",
    "vehicle.getLaneID": "in a junction :JUNCTION_0",
    "vehicle.add": "departLane, departPos and departSpeed have no effect",
    "vehicle.addFull": "departLane, departPos and departSpeed have no effect",
    "vehicle.setColor": "is kept; nothing shows it",
    "vehicle.highlight": "nothing shows it",
    "trafficlight.setRedYellowGreenState": "g is shown as G",
    "trafficlight.setLinkState": "g is shown as G",
    "trafficlight.setPhaseDuration": "until the phase ends g is shown as G",
    "lane.setDisallowed": "closes the lane, where the classes are all of the run; else does nothing",
    "edge.setDisallowed": "closes all lanes, where the classes are all of the run; else does nothing",
    "simulation.saveState": "has what the script did; loadState makes the run again up to there",
    "simulation.loadState": "makes the run again up to the state",
    "simulation.getCollisions": "always empty: nobody collides",
    "simulation.getStartingTeleportNumber": "always 0: nobody teleports; --rescue SECONDS rescues",
}


class ScriptCall(NamedTuple):
    """A call in a script."""

    domain: str  # empty: of the module itself
    name: str
    line: int

    def full_name(self) -> str:
        """As it is written behind traci."""
        return f"{self.domain}.{self.name}" if self.domain else self.name


class ScriptNames(ast.NodeVisitor):
    """What the names of a script stand for: TraCI's module or a connection (an empty text), a domain, constants."""

    def __init__(self) -> None:
        """None is known."""
        self.modules: set[str] = set()
        self.domains: dict[str, str] = {}
        self.sure: set[str] = set()  # the names of domains that are such for sure
        self.constants: set[str] = set()
        self.calls: list[ScriptCall] = []
        self.variables: list[tuple[str, int]] = []
        self.warned: list[tuple[str, int]] = []  # names of WARNED, with their lines

    def visit_Import(self, node: ast.Import) -> None:
        """Notes modules by their names."""
        for alias in node.names:
            package, _, module_name = alias.name.rpartition(".")
            self.note_warned(alias.name.split(".")[0], node.lineno)
            if module_name == "constants" and package in MODULES and alias.asname:
                self.constants.add(alias.asname)
            elif alias.name in MODULES or package in MODULES:
                self.modules.add(alias.asname or alias.name.split(".")[0])

    def visit_ImportFrom(self, node: ast.ImportFrom) -> None:
        """Notes domains, constants and TraCI itself."""
        self.note_warned((node.module or "").split(".")[0], node.lineno)
        for alias in node.names:
            bound_name = alias.asname or alias.name
            if node.module == "streetsim" and alias.name == "traci":
                self.modules.add(bound_name)
            elif node.module in MODULES and alias.name == "constants":
                self.constants.add(bound_name)
            elif node.module in MODULES and alias.name in DOMAINS:
                self.domains[bound_name] = alias.name
                self.sure.add(bound_name)

    def visit_Constant(self, node: ast.Constant) -> None:
        """Notes the name of a variable of the environment."""
        self.note_warned(node.value, node.lineno)

    def note_warned(self, name: object, line: int) -> None:
        """Notes a name that is one of WARNED."""
        if isinstance(name, str) and name in WARNED:
            self.warned.append((name, line))

    def visit_Assign(self, node: ast.Assign) -> None:
        """Notes names of connections and domains."""
        for target in node.targets:
            name = dotted_name(target)
            if name and self.is_module(node.value):
                self.modules.add(name)
            elif name and (domain := self.domain_of(node.value)):
                self.domains[name] = domain
        self.generic_visit(node)

    def visit_Attribute(self, node: ast.Attribute) -> None:
        """Notes the call of a domain or of the module, and a variable."""
        domain = self.domain_of(node.value)
        if domain and (self.is_sure(node.value) or CALL.match(node.attr)):
            self.calls.append(ScriptCall(domain, node.attr, node.lineno))
        elif self.is_module(node.value) and node.attr not in DOMAINS and node.attr[:1].islower():
            self.calls.append(ScriptCall("", node.attr, node.lineno))
        of_constants = dotted_name(node.value) in self.constants or self.is_constants(node.value)
        if node.attr.startswith(VARIABLE_PREFIXES) and of_constants:
            self.variables.append((node.attr, node.lineno))
        self.generic_visit(node)

    def is_module(self, node: ast.expr) -> bool:
        """Whether an expression is TraCI's module or a connection."""
        if isinstance(node, ast.Call):
            return isinstance(node.func, ast.Attribute) and node.func.attr in ("getConnection", "connect")
        name = dotted_name(node)
        return name in self.modules or name in MODULES and name.split(".")[0] in self.modules

    def is_constants(self, node: ast.expr) -> bool:
        """Whether an expression is the module of constants."""
        return isinstance(node, ast.Attribute) and node.attr == "constants" and self.is_module(node.value)

    def domain_of(self, node: ast.expr) -> str:
        """The domain that an expression is, or may be, as that of a connection that a function is given; empty where it
        is none."""
        if isinstance(node, ast.Attribute) and node.attr in DOMAINS:
            return node.attr
        return self.domains.get(dotted_name(node), "")

    def is_sure(self, node: ast.expr) -> bool:
        """Whether an expression that may be a domain is one for sure."""
        return not isinstance(node, ast.Attribute) and dotted_name(node) in self.sure or (
            isinstance(node, ast.Attribute) and self.is_module(node.value)
        )


def dotted_name(node: ast.expr) -> str:
    """A name, or names with dots between, as it is written; empty for another expression."""
    if isinstance(node, ast.Attribute):
        owner = dotted_name(node.value)
        return f"{owner}.{node.attr}" if owner else ""
    return node.id if isinstance(node, ast.Name) else ""


def check_script(path: str) -> int:
    """Prints which calls of a script are here; gives 1 where some are not, else 0. Fault where it cannot be read."""
    try:
        with open(path, encoding="utf-8") as file:
            tree = ast.parse(file.read())
    except (SyntaxError, ValueError) as fault:
        raise Fault(f"{path}: is no script of Python: {fault}") from None
    script = ScriptNames()
    for node in ast.walk(tree):  # names first, as functions may stand before them
        if isinstance(node, (ast.Import, ast.ImportFrom)):
            script.visit(node)
    script.visit(tree)
    kinds: dict[str, dict[str, list[int]]] = {kind: defaultdict(list) for kind in ("here", "otherwise", "not here")}
    for call in script.calls:
        kind, message = classify_call(call)
        kinds[kind][message].append(call.line)
    for message, line in variables_not_here(script):
        kinds["not here"][message].append(line)
    for name, line in dict.fromkeys(script.warned):
        print(f"warning: {name} (line {line}) {WARNED[name]}")
    if "LIBSUMO_AS_TRACI" in os.environ:
        print(f"warning: LIBSUMO_AS_TRACI of the environment {OWN_SUMO}")
    for kind, calls in kinds.items():
        print(f"{len(calls)} {kind}{':' if calls else ''}")
        for message, lines in sorted(calls.items()):
            print(f"  {message} (line {', '.join(map(str, sorted(set(lines))))})")
    return int(bool(kinds["not here"]))


def classify_call(call: ScriptCall) -> tuple[str, str]:
    """(whether a call is here, otherwise or not here; the call, and how else or what to do instead)."""
    call_name = call.full_name()
    if call.domain in QUIET:
        is_quiet = call.name in getattr(traci, call.domain).calls
        return ("otherwise", f"{call_name}: shows nothing") if is_quiet else ("not here", with_advice(call_name))
    owner = type(vars(traci)[call.domain]) if call.domain in vars(traci) else None
    if hasattr(owner, call.name) if call.domain else call.name in vars(traci):
        how = OTHERWISE.get(call_name)
        return ("otherwise", f"{call_name}: {how}") if how else ("here", call_name)
    return "not here", with_advice(call_name)


def with_advice(call_name: str) -> str:
    """A call, and what to do instead."""
    return f"{call_name}: {advice_on(call_name)}"


def variables_not_here(script: ScriptNames) -> Iterator[tuple[str, int]]:
    """(name of a variable that no domain tells, line)."""
    known = {variable for table in GETS.values() for variable in table}
    for name, line in script.variables:
        if getattr(tc, name, None) not in known:
            yield f"{name}: cannot be subscribed to", line
