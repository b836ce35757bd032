"""Reads a sheet: its junctions, arms and lanes, then counts and plans; what is wrong is told by cell."""
from collections.abc import Mapping, Sequence
from itertools import combinations, pairwise

from streetsim.base.helping import nearest
from streetsim.demand.grids import GridCell, read_grid
from streetsim.demand.spellings import TURN_OF_WORD, folded
from streetsim.sheet.blocks import COUNTS, SheetBlock, SheetRow, blocks_of
from streetsim.sheet.layout import NODE_TYPES, RIGHT_FIRST, ROUNDABOUT, STOP, YIELD
from streetsim.sheet.layout import SheetArm, Junction, SheetLane, SheetLayout, letters_of, turn_degrees
from streetsim.sheet.reading_counts import read_counts_block
from streetsim.sheet.reading_plans import read_plans
from streetsim.sheet.slips import Slips

LEAST_APART = 10.0  # degrees between two arms
LEAST_LEFT = 20.0  # metres of an arm beyond its pockets
TURNING_BACK = 181.0  # degrees, beyond all other turns


def read_layout(path: str, counts: Sequence[str] = ()) -> tuple[SheetLayout, list[str]]:
    """(what a sheet describes, lines that say how it was read). counts: files in place of its block of counts. Fault,
    behind a line for each slip, where something is wrong or cannot be read."""
    slips = Slips(path)
    blocks = blocks_of(read_grid(path), slips)
    for name in ("JUNCTIONS", "ARMS", "LANES"):
        if name not in blocks:
            slips.add("A1", f"there is no block {name}", "streetsim-junction --template cross writes a whole sheet")
    slips.end()
    layout = SheetLayout(path, read_junctions(blocks["JUNCTIONS"], slips))
    if not layout.junctions:
        slips.add(blocks["JUNCTIONS"].cell, "no junction stands below", "write its name and control")
        slips.end()
    read_arms(layout, blocks["ARMS"], slips)
    read_lanes(layout, blocks["LANES"], slips)
    for junction in layout.junctions.values():
        check_arms(junction, slips)
        check_lanes(junction, slips)
        check_right_of_way(junction, slips)
    check_links(layout, slips)
    slips.end()
    profile, notes = blocks.get("PROFILE"), []
    if counts:
        for table in counts:
            slips.table = f"{table}: "
            notes += read_counts_block(layout, read_grid(table), profile, slips)
        slips.table = ""
    elif COUNTS in blocks:
        notes = read_counts_block(layout, blocks[COUNTS].grid, profile, slips)
    read_plans(layout, blocks.get("PLANS"), blocks.get("PHASES"), slips)
    slips.end()
    return layout, notes


def read_junctions(block: SheetBlock, slips: Slips) -> dict[str, Junction]:
    """The junctions of their block by name."""
    junctions: dict[str, Junction] = {}
    for row in block.rows:
        name, control, drive = row.get("junction"), row.get("control"), row.get("drive")
        if not name.text or not name.text.replace("_", "").isalnum():
            slips.add(name, f"{name.text!r} is no name of a junction", "write letters and digits")
        elif name.text in junctions:
            slips.add(name, f"the junction {name.text!r} stands twice", "leave one row out")
        if control.text.lower() not in NODE_TYPES:
            near = nearest(control.text.lower(), NODE_TYPES)
            slips.add(control, f"{control.text!r} is no control{near}", f"write {', '.join(NODE_TYPES)}")
        if drive.text.lower() not in ("", "right", "left"):
            slips.add(drive, f"{drive.text!r} is no side of the road", "write right or left")
        radius = slips.number(row.get("radius"), (8, 100), "m", 15)
        ring_lanes = slips.whole_number(row.get("ring lanes"), (1, 3), "", 1)
        junctions.setdefault(name.text, Junction(
            name.text, name, control.text.lower(), drive.text.lower() == "left", radius, ring_lanes))
    if len({junction.drives_left for junction in junctions.values()}) > 1:
        slips.add(block.cell, "some junctions drive on the left", "write one side for all")
    return junctions


def junction_of(layout: SheetLayout, row: SheetRow, slips: Slips) -> Junction | None:
    """The junction of a row: the sheet's only one where the row names none; None, which is told, for no junction."""
    cell = row.get("junction")
    if not cell.text and not layout.is_street:
        return next(iter(layout.junctions.values()))
    found = layout.junctions.get(cell.text)
    if found is None:
        near = nearest(cell.text, layout.junctions)
        slips.add(cell, f"there is no junction {cell.text!r}{near}", f"write {', '.join(layout.junctions)}")
    return found


def read_arms(layout: SheetLayout, block: SheetBlock, slips: Slips) -> None:
    """Adds the arms of their block to their junctions."""
    for row in block.rows:
        if (junction := junction_of(layout, row, slips)) is None:
            continue
        name, rank = row.get("arm"), row.get("rank")
        if not name.text.isalnum():
            slips.add(name, f"{name.text!r} is no name of an arm", "write letters and digits, as N or E2")
        elif name.text in junction.arms:
            slips.add(name, f"the arm {name.text!r} stands twice", "leave one row out")
        if rank.text.lower() not in ("", "major", "minor"):
            slips.add(rank, f"{rank.text!r} is no rank", "write major or minor")
        bearing = slips.number(row.get("bearing"), (0, 360), "degrees")
        length = slips.number(row.get("length"), (40, 5000), "m")
        speed = slips.number(row.get("speed"), (10, 130), "km/h", 50)
        out = slips.whole_number(row.get("out"), (0, 4), "", 1)
        junction.arms.setdefault(name.text, SheetArm(
            name.text, name, bearing % 360, length, row.get("street").text, speed, out,
            rank.text.lower() == "minor", end_of_link(layout, row.get("leads to"), slips)))


def end_of_link(layout: SheetLayout, cell: GridCell, slips: Slips) -> tuple[str, str] | None:
    """(junction, arm) that a cell names, as B:W; None for a blank one or a slip."""
    if not cell.text:
        return None
    junction, mark, arm = cell.text.partition(":")
    if not mark or junction.strip() not in layout.junctions:
        slips.add(cell, f"{cell.text!r} is no arm of another junction", "write its junction and arm, as B:W")
        return None
    return junction.strip(), arm.strip()


def read_lanes(layout: SheetLayout, block: SheetBlock, slips: Slips) -> None:
    """Adds the lanes of their block to their arms; lane 1 is at the kerb."""
    for row in block.rows:
        if (junction := junction_of(layout, row, slips)) is None:
            continue
        name, cell = row.get("arm"), row.get("lane")
        if (arm := junction.arms.get(name.text)) is None:
            near = nearest(name.text, junction.arms)
            slips.add(name, f"there is no arm {name.text!r}{near}", f"write {', '.join(junction.arms)}")
            continue
        number = slips.whole_number(cell, (1, 6), "")
        if number != len(arm.lanes) + 1:
            slips.add(cell, f"lane {cell.text} of arm {arm.name} is not the next one", f"write {len(arm.lanes) + 1}")
        pocket = slips.number(row.get("pocket"), (5, 1000), "m", 0)
        turns = row.get("turns")
        arm.lanes.append(SheetLane(turns, targets_of(junction, arm, turns, slips), pocket))


def targets_of(junction: Junction, arm: SheetArm, cell: GridCell, slips: Slips) -> list[str]:
    """The arms to which the turns of a cell lead: L T R U, or words of these, or > and an arm. A roundabout's lane
    without turns leads to all."""
    letters = letters_of(junction.arms, arm)
    if not cell.text:
        if junction.control == ROUNDABOUT:
            return [other.name for other in junction.arms.values() if other is not arm and other.lanes_out]
        slips.add(cell, "the lane has no turns", f"write {' '.join(letters)}, or > and an arm")
        return []
    targets: list[str] = []
    for token in cell.text.replace(",", " ").replace("+", " ").split():
        is_letters = token.upper() == token and {*token} <= {*"LTRU"}
        names = [*token] if is_letters else [TURN_OF_WORD.get(folded(token), token)]
        for name in names:
            target = name[1:] if name.startswith(">") else letters.get(name)
            if target in junction.arms and junction.arms[target].lanes_out:
                targets.append(target)
                continue
            there = ", ".join(f"{letter} to {end}" for letter, end in letters.items() if junction.arms[end].lanes_out)
            what = f"leads to no arm with a lane out, {name}" if name in "LTRU" or target in junction.arms else (
                f"has a turn that is none, {token!r}")
            slips.add(cell, f"the lane {what}", f"from {arm.name} there is {there}")
    return list(dict.fromkeys(targets))


def check_arms(junction: Junction, slips: Slips) -> None:
    """Tells arms that lie upon each other, have neither lanes nor a way out, or to which no lane leads."""
    for one, other in combinations(junction.arms.values(), 2):
        apart = abs((one.bearing - other.bearing + 180) % 360 - 180)
        if apart < LEAST_APART:
            slips.add(other.cell, f"arm {other.name} lies {apart:g} degrees from arm {one.name}",
                       "write bearings outwards from the junction, 90 for east")
    if len(junction.arms) < 2:
        slips.add(junction.cell, f"the junction {junction.name} has fewer than two arms", "add its arms to ARMS")
    led_to = {target for _, target in junction.movements()}
    for arm in junction.arms.values():
        if not arm.lanes and not arm.lanes_out:
            slips.add(arm.cell, f"arm {arm.name} has no lanes", "add them to LANES, or write how many lead out")
        elif arm.lanes_out and arm.name not in led_to:
            slips.add(arm.cell, f"no lane leads to arm {arm.name}", "give a lane that turn, or write 0 below out")


def check_lanes(junction: Junction, slips: Slips) -> None:
    """Tells lanes whose turns cross each other, arms without a whole lane, and pockets as long as the arm."""
    side = -1 if junction.drives_left else 1
    for arm in junction.arms.values():
        for lane, inner in pairwise(arm.lanes):
            if not lane.targets or not inner.targets:
                continue
            if least_turn(junction, arm, lane, side) < greatest_turn(junction, arm, inner, side):
                kerb = "left" if junction.drives_left else "right"
                slips.add(inner.cell, f"turns of arm {arm.name} cross those of the lane before",
                           f"lane 1 is at the kerb: write turns from the {kerb} to the other side")
        if arm.lanes and not arm.whole_lanes:
            slips.add(arm.lanes[0].cell, f"arm {arm.name} has pockets alone", "leave the pocket of one lane blank")
        for lane in arm.lanes:
            if lane.pocket > arm.length - LEAST_LEFT:
                slips.add(lane.cell, f"the pocket of {lane.pocket:g} m does not fit into arm {arm.name}",
                           f"write less than {arm.length - LEAST_LEFT:g} m, or a longer arm")


def degrees_to(junction: Junction, arm: SheetArm, target: str, side: int) -> float:
    """By how many degrees a movement turns towards the kerb; turning back is beyond all."""
    return -TURNING_BACK if target == arm.name else side * turn_degrees(arm, junction.arms[target])


def least_turn(junction: Junction, arm: SheetArm, lane: SheetLane, side: int) -> float:
    """By how many degrees the movement of a lane turns that turns least towards the kerb."""
    return min(degrees_to(junction, arm, target, side) for target in lane.targets)


def greatest_turn(junction: Junction, arm: SheetArm, lane: SheetLane, side: int) -> float:
    """By how many degrees the movement of a lane turns that turns most towards the kerb."""
    return max(degrees_to(junction, arm, target, side) for target in lane.targets)


def check_right_of_way(junction: Junction, slips: Slips) -> None:
    """Tells junctions with stop or yield signs whose arms are all of one rank."""
    ranks = {arm.is_minor for arm in junction.arms.values() if arm.lanes}
    if junction.control in (STOP, YIELD) and len(ranks) == 1:
        slips.add(junction.cell, f"all arms of {junction.name} have one rank",
                   f"write minor below rank for those with a {junction.control} sign, or {RIGHT_FIRST!r}")


def check_links(layout: SheetLayout, slips: Slips) -> None:
    """Joins arms of two junctions that lead to each other, and tells those that do not fit."""
    for junction in layout.junctions.values():
        for arm in junction.arms.values():
            if arm.leads_to:
                check_link(layout, junction, arm, slips)
    if layout.is_street:
        joined = joined_to(layout.junctions)
        for junction in layout.junctions.values():
            if junction.name not in joined:
                slips.add(junction.cell, f"no street leads from here to {junction.name}",
                           "write junction and arm below leads to of ARMS")


def check_link(layout: SheetLayout, junction: Junction, arm: SheetArm, slips: Slips) -> None:
    """Joins an arm to that to which it leads, and tells what does not fit."""
    name, end = arm.leads_to or ("", "")
    far_arm = layout.junctions[name].arms.get(end)
    if far_arm is None or name == junction.name:
        slips.add(arm.cell, f"arm {arm.name} leads to {name}:{end}, which is no arm of another junction",
                   f"{name} has {', '.join(layout.junctions[name].arms)}")
        arm.leads_to = None
        return
    far_arm.leads_to = far_arm.leads_to or (junction.name, arm.name)
    if far_arm.leads_to != (junction.name, arm.name):
        slips.add(far_arm.cell, f"{name}:{end} leads elsewhere", f"write {junction.name}:{arm.name}, or leave it blank")
    for one, far, far_name in ((arm, far_arm, f"{name}:{end}"), (far_arm, arm, f"{junction.name}:{arm.name}")):
        if one.lanes_out != far.whole_lanes:
            slips.add(one.cell, f"{one.lanes_out} lanes lead out, and {far_name} has {far.whole_lanes} whole lanes",
                       f"write {far.whole_lanes} below out: these are the same lanes")
    if far_arm.length != arm.length:
        slips.add(far_arm.cell, f"{name}:{end} is {far_arm.length:g} m long, and its other end {arm.length:g} m",
                   "write one length, from middle to middle")
    if abs((far_arm.bearing - arm.bearing) % 360 - 180) > 45:
        slips.add(far_arm.cell, f"{name}:{end} does not point back to {junction.name}",
                   f"write a bearing near {(arm.bearing + 180) % 360:g}")


def joined_to(junctions: Mapping[str, Junction]) -> set[str]:
    """The names of junctions to which streets lead from the first."""
    reached = [next(iter(junctions))]
    for name in reached:
        ends = [arm.leads_to[0] for arm in junctions[name].arms.values() if arm.leads_to]
        reached += [end for end in dict.fromkeys(ends) if end not in reached]
    return {*reached}
