"""Reads the counts of a sheet: vehicles by movement and period, totals of hours split by a profile."""
from collections import Counter
from collections.abc import Iterator, Mapping, Sequence

from streetsim.base.words import time_of_day
from streetsim.demand.grids import GridCell, GridRow
from streetsim.demand.turning_cells import HOUR, clock_meant
from streetsim.demand.turning_counts import TO_ARM, TurningCount, TurningReader, TurningTable
from streetsim.sheet.blocks import SheetBlock
from streetsim.sheet.layout import Junction, SheetLayout, MovementCount, letter_of, letters_of
from streetsim.sheet.slips import Slips

Profile = list[tuple[int, float]]  # (begin of a quarter of an hour, weight), rising
QUARTER = 900  # seconds
USUAL_MOST = 1_000.0  # vehicles an hour that a lane before a junction usually passes at most


def read_counts_block(
    layout: SheetLayout, rows: Sequence[GridRow], profile: SheetBlock | None, slips: Slips
) -> list[str]:
    """Adds the counts of a table, whose first row has its columns, to the junctions; gives lines that say how they were
    read."""
    shares = read_profile(profile, slips) if profile else []
    known = {name.lower(): name for junction in layout.junctions.values() for name in junction.arms}

    def arm_named(text: str) -> str | None:
        """The arm that a text names."""
        return known.get(text.lower())

    table = TurningReader(slips.add, arm_named).read(rows) if len(rows) > 1 else TurningTable()
    for count in table.counts:
        add_count(layout, count, shares, slips)
    for junction in layout.junctions.values():
        refuse_twice(junction, slips)
    if not table.counts:
        return []
    vehicles = sum(count.vehicles for count in table.counts)
    begin, end = min(count.begin for count in table.counts), max(count.end for count in table.counts)
    lines = [f"counts: {table.habit}, {vehicles:,.0f} vehicles from {time_of_day(begin)} to {time_of_day(end)}"]
    lines += [f"{name}: {told}" for name, told in map(busiest_told, layout.junctions.values()) if told]
    lines += [line for junction in layout.junctions.values() for line in rates_told(junction)]
    if any(count.end - count.begin >= HOUR for count in table.counts):
        how = "split by the shares of PROFILE" if shares else "even over each hour (a block PROFILE has shares)"
        lines.append(f"totals of hours: {how}")
    if not_vehicles := " and ".join(f"{number:,.0f} {name}" for name, number in table.not_vehicles.items() if number):
        lines.append(f"not modelled: {not_vehicles}; of walkers the greens alone are looked at")
    return lines


def read_profile(block: SheetBlock, slips: Slips) -> Profile:
    """The shares of quarters of an hour, of their begins."""
    shares: Profile = []
    for row in block.rows:
        begin = clock_meant(row.get("begin").text)
        if begin is None or begin % QUARTER:
            slips.add(row.get("begin"), f"{row.get('begin').text!r} begins no quarter of an hour", "write 07:15")
            continue
        shares.append((begin, slips.number(row.get("share"), (0, 100), "%")))
    return sorted(shares)


def add_count(layout: SheetLayout, count: TurningCount, shares: Profile, slips: Slips) -> None:
    """Adds a count to its junction, in quarters of an hour where it is an hour and shares are given."""
    junction = junction_counted(layout, count, slips)
    if junction is None:
        return
    arm = junction.arms.get(count.arm)
    if arm is None:
        slips.add(count.cell, f"{junction.name} has no arm {count.arm}", f"write {', '.join(junction.arms)}")
        return
    letters = letters_of(junction.arms, arm)
    target = count.turn[1:] if count.turn.startswith(TO_ARM) else letters.get(count.turn, "")
    movement = arm.name, target
    if movement not in set(junction.movements()):
        if count.vehicles:
            turns = " ".join(letter_of(junction.arms, one) for one in junction.movements() if one[0] == arm.name)
            slips.add(count.cell, f"{count.vehicles:g} vehicles turn {count.turn} from {arm.name}, and no lane does",
                       f"give a lane the turn, or write 0; lanes have {turns or 'none'}")
        return
    for begin, end, share in parts_of(count, shares, slips):
        own = MovementCount(begin, end, movement, count.vehicles * share, count.cell, count.heavy)
        junction.counts.append(own)


def junction_counted(layout: SheetLayout, count: TurningCount, slips: Slips) -> Junction | None:
    """The junction of a count, of a street by the column junction."""
    if not layout.is_street:
        return next(iter(layout.junctions.values()))
    found = layout.junctions.get(count.junction)
    if found is None:
        slips.add(count.cell, f"a count of no junction, {count.junction!r}",
                   f"give COUNTS a column junction with {', '.join(layout.junctions)}")
    return found


def parts_of(count: TurningCount, shares: Profile, slips: Slips) -> list[tuple[int, int, float]]:
    """(begin, end, share of the count) of the quarters of an hour of a count of an hour or more, by their shares, even
    where none are given; a shorter count itself."""
    begins = range(count.begin, count.end, QUARTER)
    if count.end - count.begin < HOUR or (count.end - count.begin) % QUARTER:
        return [(count.begin, count.end, 1.0)]
    weights = {begin: 1.0 for begin in begins} if not shares else dict(shares)
    total = sum(weights.get(begin, 0.0) for begin in begins)
    if not {*begins} <= weights.keys() or not total:
        slips.add(count.cell, "PROFILE has not each quarter of the hour of this count", "add the quarters to PROFILE")
        return []
    return [(begin, begin + QUARTER, weights[begin] / total) for begin in begins]


def refuse_twice(junction: Junction, slips: Slips) -> None:
    """Tells movements that are counted twice in one period, or in periods that overlap."""
    known: dict[tuple[str, str], list[MovementCount]] = {}
    for count in sorted(junction.counts, key=lambda one: one.begin):
        before = known.setdefault(count.movement, [])
        if before and count.begin < before[-1].end:
            slips.add(count.cell, f"this movement is counted twice from {time_of_day(count.begin)}",
                       f"leave this or {before[-1].cell.place} out")
        before.append(count)


def rates_told(junction: Junction) -> Iterator[str]:
    """A line on the first row of less than an hour in which more come from an arm than its lanes usually pass, as where
    a row of a quarter of an hour has vehicles an hour."""
    parts = Counter(count.cell.place for count in junction.counts)  # several of a cell that was split
    found: dict[tuple[str, int, int], list[MovementCount]] = {}
    for count in junction.counts:
        if parts[count.cell.place] == 1:
            found.setdefault((count.movement[0], count.begin, count.end), []).append(count)
    for (arm, begin, end), counts in found.items():
        lanes, hourly = len(junction.arms[arm].lanes), sum(one.vehicles for one in counts) * HOUR / (end - begin)
        if hourly > USUAL_MOST * lanes:
            those = f"{hourly:,.0f} vehicles an hour come from arm {arm} on {lanes} lane{'s' * (lanes > 1)}"
            yield (
                f"{counts[0].cell.place}: from {time_of_day(begin)} to {time_of_day(end)} {those}: where rows have "
                "vehicles an hour, give each the hour as its period"
            )
            return


def busiest_told(junction: Junction) -> tuple[str, str]:
    """(a junction's name, how many vehicles its busiest hour has, by rows that begin in it), so that who wrote rates of
    an hour into shorter rows sees it; nothing without counts."""
    hours = [
        sum(count.vehicles for count in junction.counts if begin <= count.begin < begin + HOUR)
        for begin in {count.begin for count in junction.counts}
    ]
    return junction.name, f"{max(hours):,.0f} vehicles in its busiest hour" if hours else ""


def cells_by_movement(junction: Junction) -> Mapping[tuple[str, str], GridCell]:
    """The first cell of each movement that was counted with vehicles."""
    found: dict[tuple[str, str], GridCell] = {}
    for count in junction.counts:
        if count.vehicles:
            found.setdefault(count.movement, count.cell)
    return found
