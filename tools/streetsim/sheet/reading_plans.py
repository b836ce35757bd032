"""Reads the plans of a sheet's lights: phases with movements, seconds and greens of pedestrians."""
from collections.abc import Iterable, Iterator

from streetsim.base.helping import nearest
from streetsim.demand.grids import GridCell
from streetsim.sheet.blocks import SheetBlock, SheetRow
from streetsim.sheet.layout import Junction, SheetLayout, Movement, PlanPhase, Plan, letter_of, letters_of
from streetsim.sheet.reading_counts import cells_by_movement
from streetsim.sheet.slips import Slips

LONGEST = 300  # seconds of a cycle
YELLOWS = (2, 6)  # seconds
MOVEMENTS = "write arms with turns, as E:TR W:TR"


def read_plans(layout: SheetLayout, plans: SheetBlock | None, phases: SheetBlock | None, slips: Slips) -> None:
    """Adds plans with their phases to the junctions that have lights, and tells what does not add up."""
    for row in plans.rows if plans else ():
        if junction := lit_junction(layout, row, slips):
            read_plan(junction, row, slips)
    for row in phases.rows if phases else ():
        if junction := lit_junction(layout, row, slips):
            read_phase(junction, row, slips)
    for junction in layout.junctions.values():
        if junction.is_lit and not junction.plans:
            slips.add(junction.cell, f"{junction.name} has a light and no plan", "add PLANS and PHASES")
        for name, plan in junction.plans.items():
            check_plan(junction, name, plan, slips)
    names = layout.plan_names()
    for junction in layout.junctions.values():
        if missing := [name for name in names if junction.plans and name not in junction.plans]:
            slips.add(junction.cell, f"{junction.name} has no plan {missing[0]!r}", "all lights need each plan")


def lit_junction(layout: SheetLayout, row: SheetRow, slips: Slips) -> Junction | None:
    """The junction of a row of a plan; None, which is told, where it is none or has no light."""
    cell = row.get("junction")
    junction = layout.junctions.get(cell.text)
    if not cell.text and not layout.is_street:
        junction = next(iter(layout.junctions.values()))
    if junction is None:
        near = nearest(cell.text, layout.junctions)
        slips.add(cell, f"there is no junction {cell.text!r}{near}", f"write {', '.join(layout.junctions)}")
    elif not junction.is_lit:
        what = f"{junction.name} has no light, its control is {junction.control}"
        slips.add(row.place, what, "write signals in JUNCTIONS")
        return None
    return junction


def read_plan(junction: Junction, row: SheetRow, slips: Slips) -> None:
    """Adds a plan to its junction."""
    name, cycle = row.get("plan"), slips.whole_number(row.get("cycle"), (10, LONGEST), "s")
    if not name.text or not name.text.replace("_", "").replace("-", "").isalnum():
        slips.add(name, f"{name.text!r} is no name of a plan", "write letters and digits")
    elif name.text in junction.plans:
        slips.add(name, f"the plan {name.text!r} stands twice", "leave one row out")
    offset = slips.whole_number(row.get("offset"), (0, LONGEST), "s", 0)
    if offset >= cycle:
        slips.add(row.get("offset"), f"the offset of {offset} s is no part of the cycle", f"write 0 to {cycle - 1}")
    junction.plans.setdefault(name.text, Plan(row.get("cycle"), cycle, offset))


def read_phase(junction: Junction, row: SheetRow, slips: Slips) -> None:
    """Adds a phase to its plan."""
    name = row.get("plan")
    if (plan := junction.plans.get(name.text)) is None:
        near = nearest(name.text, junction.plans)
        slips.add(name, f"there is no plan {name.text!r}{near}", f"write {', '.join(junction.plans) or 'it in PLANS'}")
        return
    cell, permissive = row.get("green"), row.get("permissive")
    walk, least_walk = row.get("walk"), slips.whole_number(row.get("walk seconds"), (0, LONGEST), "s", 0)
    phase = PlanPhase(
        cell, movements_in(junction, cell, slips), movements_in(junction, permissive, slips),
        slips.whole_number(row.get("seconds"), (1, LONGEST), "s"),
        slips.whole_number(row.get("yellow"), (0, YELLOWS[1]), "s", 3),
        slips.whole_number(row.get("all red"), (0, 20), "s", 0),
        slips.whole_number(row.get("minimum"), (0, LONGEST), "s", 0),
        tuple(walk.text.replace(",", " ").split()), permissive,
    )  # fmt: skip
    if twice := {*phase.green} & {*phase.permissive}:
        movements = movements_told(junction, twice)
        slips.add(permissive, f"{movements} is green and permissive", "write it in one of the two")
    if phase.seconds < phase.minimum:
        slips.add(row.get("seconds"), f"the green is shorter than its minimum of {phase.minimum} s",
                   f"write {phase.minimum} or more")
    if phase.yellow and phase.yellow < YELLOWS[0]:
        slips.add(row.get("yellow"), f"{phase.yellow} s of yellow", f"write {YELLOWS[0]} to {YELLOWS[1]}, or 0")
    if phase.walking and phase.seconds < least_walk:
        slips.add(row.get("seconds"), f"pedestrians need {least_walk} s of green", f"write {least_walk} or more")
    for arm in phase.walking:
        if arm not in junction.arms:
            slips.add(walk, f"{arm!r} is no arm to cross", f"write {', '.join(junction.arms)}")
    plan.phases.append(phase)


def movements_in(junction: Junction, cell: GridCell, slips: Slips) -> list[Movement]:
    """The movements that a cell names: E:TR, E alone for all of an arm, E:>NE for one by its other end."""
    movements: list[Movement] = []
    own_movements = list(junction.movements())
    for token in cell.text.replace(",", " ").replace(";", " ").split():
        name, mark, turns = token.partition(":")
        if (arm := junction.arms.get(name)) is None:
            slips.add(cell, f"there is no arm {name!r}{nearest(name, junction.arms)}", MOVEMENTS)
            continue
        if not mark:
            movements += [movement for movement in own_movements if movement[0] == name]
            continue
        letters = letters_of(junction.arms, arm)
        for turn in [turns] if turns.startswith(">") else turns:
            movement = name, turn[1:] if turn.startswith(">") else letters.get(turn, "")
            if movement in own_movements:
                movements.append(movement)
                continue
            there = [letter for letter, target in letters.items() if (name, target) in own_movements]
            slips.add(cell, f"no lane of {name} turns {turn}", f"{name} has {' '.join(there)}")
    return movements


def check_plan(junction: Junction, name: str, plan: Plan, slips: Slips) -> None:
    """Tells a plan whose phases do not add up to its cycle, movements without green, and lanes of which some turns
    alone have green."""
    total = sum(phase.seconds + phase.yellow + phase.all_red for phase in plan.phases)
    if not plan.phases:
        slips.add(plan.cell, f"the plan {name} has no phases", "add them to PHASES")
        return
    if total != plan.cycle:
        slips.add(plan.cell, f"the phases of plan {name} add up to {total} s, not {plan.cycle} s",
                   f"write {total}, or other seconds in PHASES")
    green = {movement for phase in plan.phases for movement in (*phase.green, *phase.permissive)}
    counted = cells_by_movement(junction)
    for movement in junction.movements():
        if movement not in green:
            place = counted.get(movement, plan.cell)
            dark = movements_told(junction, [movement])
            slips.add(place, f"{dark} never has green in plan {name}", "add it to a phase")
    for phase in plan.phases:
        for arm, number in half_lit_lanes(junction, {*phase.green, *phase.permissive}):
            slips.add(phase.cell, f"lane {number} of {arm} has green for some of its turns alone",
                      "give all turns of a lane green together, or the turns lanes of their own")


def half_lit_lanes(junction: Junction, green: set[Movement]) -> Iterator[tuple[str, int]]:
    """(arm, number of the lane) of lanes of which some movements have green, and others not."""
    lanes = ((arm.name, number, lane) for arm in junction.arms.values() for number, lane in enumerate(arm.lanes, 1))
    for arm, number, lane in lanes:
        lit_count = sum((arm, target) in green for target in lane.targets)
        if 0 < lit_count < len(lane.targets):
            yield arm, number


def movements_told(junction: Junction, movements: Iterable[Movement]) -> str:
    """Movements as the sheet writes them."""
    return " ".join(f"{one[0]}:{letter_of(junction.arms, one)}" for one in sorted(movements))
