"""SUMO's programs of a sheet's plans: the letters of each link through phases, yellow and all red; and phases in which
two movements with green meet."""
from collections.abc import Iterator
from itertools import combinations

from streetsim.base.files import attributes_of
from streetsim.sheet.layout import Junction, SheetLayout, Movement, PlanPhase, Plan
from streetsim.sheet.network import BuiltNetwork
from streetsim.sheet.plain import PlainFiles
from streetsim.sheet.reading_plans import movements_told
from streetsim.sheet.slips import Slips

MAIN, GIVES_WAY, YELLOW, RED = "G", "g", "y", "r"
CONFLICT = "write the one that gives way below permissive, or give it a phase of its own"
State = tuple[int, str, int]  # seconds, letters, least seconds or 0


def movements_of_links(junction: Junction, files: PlainFiles, network: BuiltNetwork) -> list[Movement]:
    """The movement of each link of a junction's light, by index."""
    by_edges = {(way[-2], way[-1]): movement for (name, movement), way in files.ways.items() if name == junction.name}
    return [by_edges[link.source, link.target] for link in network.links[junction.name]]


def check_conflicts(layout: SheetLayout, files: PlainFiles, network: BuiltNetwork, slips: Slips) -> None:
    """Tells phases in which two movements with green meet, of which neither gives way."""
    for junction in layout.junctions.values():
        of_links = movements_of_links(junction, files, network) if junction.is_lit else []
        phases = ((name, number, phase) for name, plan in junction.plans.items()
                  for number, phase in enumerate(plan.phases, 1))  # fmt: skip
        for name, number, phase in phases:
            for pair in conflicts_of(phase, of_links, network.foes[junction.name]):
                both = " and ".join(movements_told(junction, [movement]) for movement in pair)
                slips.add(phase.cell, f"{both} conflict in phase {number} of plan {name}", CONFLICT)


def conflicts_of(
    phase: PlanPhase, of_links: list[Movement], foes: dict[int, set[int]]
) -> list[tuple[Movement, Movement]]:
    """The pairs of movements with green in a phase that meet. foes: by link those that it meets."""
    green = [index for index, movement in enumerate(of_links) if movement in phase.green]
    pairs = ((one, other) for one, other in combinations(green, 2) if other in foes[one])
    return list(dict.fromkeys((of_links[one], of_links[other]) for one, other in pairs))


def states_of(plan: Plan, of_links: list[Movement]) -> Iterator[State]:
    """The states of a plan through its cycle. Who has green in the next phase too keeps it through yellow and all
    red."""
    for phase, following in zip(plan.phases, [*plan.phases[1:], plan.phases[0]]):
        now, then = letters_of_phase(phase, of_links), letters_of_phase(following, of_links)
        yield phase.seconds, now, phase.minimum
        for seconds, letter in ((phase.yellow, YELLOW), (phase.all_red, RED)):
            if seconds:
                state = "".join(letter if one != RED and other == RED else one for one, other in zip(now, then))
                yield seconds, state, 0


def letters_of_phase(phase: PlanPhase, of_links: list[Movement]) -> str:
    """The letters of the links in the green of a phase."""
    kinds = {**dict.fromkeys(phase.permissive, GIVES_WAY), **dict.fromkeys(phase.green, MAIN)}
    return "".join(kinds.get(movement, RED) for movement in of_links)


def plan_text(layout: SheetLayout, name: str, files: PlainFiles, network: BuiltNetwork) -> str:
    """SUMO's additional file of a plan of all lights."""
    lines = ["<additional>"]
    for junction in layout.junctions.values():
        if plan := junction.plans.get(name):
            of_links = movements_of_links(junction, files, network)
            head = {"id": junction.name, "type": "static", "programID": name, "offset": str(plan.offset)}
            lines.append(f"    <tlLogic{attributes_of(head)}>")
            for seconds, state, least in states_of(plan, of_links):
                bounds = {"minDur": str(least)} if least else {}
                told_phase = attributes_of({"duration": str(seconds), "state": state, **bounds})
                lines.append(f"        <phase{told_phase}/>")
            lines.append("    </tlLogic>")
    return "\n".join([*lines, "</additional>", ""])
