"""Signal timing sheets: a page for each light, its program over the cycle with both plans, and times between greens."""
from collections.abc import Mapping, Sequence
from html import escape

from streetsim.base.colours import GREEN
from streetsim.model.names import Names
from streetsim.model.timing import MAIN, PERMISSIVE, YELLOW, SignalMovement, Timing, intergreen, spans_of
from streetsim.report.page_drawings import anchor
from streetsim.report.page_markup import table
from streetsim.report.run_tables import Runs

OFF_LETTERS = "oO"  # the light is off, and vehicles drive by the right of way
KINDS = ("yellow", YELLOW), ("green", MAIN + PERMISSIVE), ("off", OFF_LETTERS)  # of phases, by the first that one has
COLOURS = ((MAIN, GREEN), (PERMISSIVE, "#a6dba0"), (YELLOW, "#fdd835"), ("s", "#d9f0d3"), ("uoO", "#fdae61"))
LEFT_MARGIN, WIDE, ROW = 340, 900, 16  # pixels
MOST_PAIRS = 5  # of conflicting movements on a sheet
LEGEND = (
    "Dark: green. Light: green, but gives way. Yellow: yellow. Grey: red. The seconds are those of the cycle, which "
    "begins at the offset."
)
Timings = Mapping[str, Timing]  # by light


def sheets(plans: Sequence[tuple[str, Timings]], lights: Sequence[str], names: Names) -> str:
    """The legend, and a sheet for each of some lights, as HTML; plans: (name, programs by light) of one, or of two,
    before and after."""
    key = f'<p class="small">{escape(LEGEND)}</p>'
    return key + "".join(sheet([(name, one.get(light)) for name, one in plans], light, names) for light in lights)


def sheet(plans: Sequence[tuple[str, Timing | None]], light: str, names: Names) -> str:
    """The sheet of a light, as HTML, its tables of the last program; plans: (name, its program or none). Empty where no
    plan has a program of it."""
    timings = [(name, timing) for name, timing in plans if timing]
    if not timings:
        return ""
    called = names.junction(timings[0][1].junction)
    title = f"{called} (light {light})" if called else f"Light {light}"
    html_parts = [f'<h3 id="{anchor(light).replace("junction", "light")}">{escape(title)}</h3>']
    if len(timings) == 2 and timings[0][1].phases == timings[1][1].phases:
        offsets = [f"{timing.offset:g} s" for _, timing in timings]
        other = f"Both plans have the same phases; the offset is {offsets[0]} before and {offsets[1]} after."
        html_parts.append(f"<p>{'Both plans show the same.' if offsets[0] == offsets[1] else other}</p>")
        timings = timings[1:]
    html_parts += [program(name, timing, names) for name, timing in timings]
    last = timings[-1][1]
    html_parts += [phases_table(last), greens_table(last, names, timings[0][1] if len(timings) == 2 else None)]
    html_parts.append(intergreens(last, names))
    return f'<section class="sheet">{"".join(html_parts)}</section>'


def changed(before: Timings, after: Timings) -> list[str]:
    """The lights, sorted, that both plans have and that show something else, or at other times, with the second."""
    shown = [{light: (one.offset, list(one.phases)) for light, one in plan.items()} for plan in (before, after)]
    return [light for light, own in sorted(shown[1].items()) if own != shown[0].get(light, own)]


def clashes(timings: Timings, runs: Runs) -> list[str]:
    """For each two movements of a light that conflict and have main green together, a doubt as plain text; runs: for
    names."""
    names = runs.names
    return [
        f"Fault of light {light}: {clash_told(one, other, seconds, names)} of each cycle; here both go at once."
        for light, timing in sorted(timings.items())
        for one, other, seconds in timing.clashes()
    ]


def program(name: str, timing: Timing, names: Names) -> str:
    """A light's program with one plan (its name), as HTML: what it is, bars, faults."""
    cycle = len(timing.states())
    kind = "" if timing.kind == "static" else f", {timing.kind}: listed durations"
    told = f"{name}: cycle {cycle} s, offset {timing.offset:g} s, {len(timing.phases)} phases{kind}"
    faults = [clash_told(one, other, seconds, names) for one, other, seconds in timing.clashes()]
    marks = "".join(f'<p class="doubt">Fault: {escape(fault)}.</p>' for fault in faults)
    return f'<h4>{escape(told)}</h4>{marks}<div class="wide">{bars(timing, names)}</div>'


def clash_told(movement: SignalMovement, other_movement: SignalMovement, seconds: int, names: Names) -> str:
    """That two movements conflict and have main green together for some seconds, as plain text."""
    both = f"{movement_name(movement, names)} and {movement_name(other_movement, names)}"
    return f"{both} conflict and have main green together for {seconds} s"


def movement_name(movement: SignalMovement, names: Names) -> str:
    """What a movement is called: by streets, else by directions."""
    return names.movement(movement.edge, movement.next_edge)


def bars(timing: Timing, names: Names) -> str:
    """A picture (SVG) with a bar for each movement over the cycle."""
    cycle, svg_parts = len(timing.states()), []
    scale = (WIDE - LEFT_MARGIN - 10) / cycle
    for place, one in enumerate(timing.movements):
        y, name = 2 + ROW * place, escape(movement_name(one, names)[:52])
        svg_parts.append(f'<text x="{LEFT_MARGIN - 6}" y="{y + 10}" text-anchor="end">{name}</text>')
        svg_parts.append(f'<rect x="{LEFT_MARGIN}" y="{y + 5}" width="{cycle * scale:.1f}" height="3" fill="#999"/>')
        signs = timing.signs(one)
        for letters, colour in COLOURS:
            for begin, seconds in spans_of(signs, letters):
                for start, length in unfolded(begin, seconds, cycle):
                    title = f"{begin} to {(begin + seconds) % cycle or cycle} s"
                    box = f'x="{LEFT_MARGIN + start * scale:.1f}" y="{y}" width="{length * scale:.1f}" height="12"'
                    svg_parts.append(f'<rect {box} fill="{colour}" stroke="#333"><title>{title}</title></rect>')
    low = 2 + ROW * len(timing.movements)
    for second in ticks(cycle):
        x = LEFT_MARGIN + second * scale
        svg_parts.append(f'<line x1="{x:.1f}" x2="{x:.1f}" y1="0" y2="{low}" stroke="#0003"/>')
        svg_parts.append(f'<text x="{x:.1f}" y="{low + 13}" text-anchor="middle">{second}</text>')
    shape = f'viewBox="0 0 {WIDE} {low + 18}" role="img" aria-label="Greens over the cycle"'
    return f'<svg class="bars" {shape}>{"".join(svg_parts)}</svg>'


def unfolded(begin: int, seconds: int, cycle: int) -> list[tuple[int, int]]:
    """A run of seconds that may go over the end of a cycle, as one or two (begin, seconds) within it."""
    if begin + seconds <= cycle:
        return [(begin, seconds)]
    return [(begin, cycle - begin), (0, begin + seconds - cycle)]


def ticks(cycle: int) -> range:
    """The seconds of a cycle that the axis names, 0 among them; 21 at most."""
    step = next(step for step in (5, 10, 20, 50, 100, 500, 5000, 50_000) if cycle / step <= 20)
    return range(0, cycle + 1, step)


def phases_table(timing: Timing) -> str:
    """A table of the phases, with what they show and when, and what the plan must keep of them, as HTML."""
    rows, clock = [], 0.0
    for number, (seconds, state) in enumerate(timing.phases, 1):
        letters = set(state)
        what = next((name for name, signs in KINDS if letters & {*signs}), "red")
        kept = [*map(kept_told, timing.phase_limits[number - 1])] if timing.phase_limits else []
        told = [str(number), f"{clock:g}", f"{clock + seconds:g}", f"{seconds:g}", *kept]
        rows.append([what, escape(state), *told])
        clock += seconds
    more = ["least, s", "most, s", "pedestrians, s"] if timing.phase_limits else []
    return table(["phase of", "state", "phase", "from, s", "until, s", "seconds", *more], rows, names=2)


def kept_told(seconds: int | None) -> str:
    """Seconds that a phase must keep, as text; empty where nothing is written."""
    return "" if seconds is None else str(seconds)


def greens_table(timing: Timing, names: Names, timing_before: Timing | None) -> str:
    """A table, as HTML, of when each movement has green, and of its seconds of green, of giving way in it, of yellow
    and of red, which is all else that is not off. timing_before: of the program before, whose greens
    stand beside, or None."""
    before_movements = timing_before.movements if timing_before else ()
    rows, movement_before = [], {(movement.edge, movement.next_edge): movement for movement in before_movements}
    for movement in timing.movements:
        signs = timing.signs(movement)
        cycle = len(signs)
        greens = spans_of(signs, MAIN + PERMISSIVE)
        green_cells = [greens_told(signs)]
        if timing_before:
            other = movement_before.get((movement.edge, movement.next_edge))
            green_cells.insert(0, greens_told(timing_before.signs(other)) if other else "")
        gives_way = sum(sign == PERMISSIVE for sign in signs)
        numbers = [sum(seconds for _, seconds in greens), gives_way, sum(sign in YELLOW for sign in signs)]
        red = cycle - numbers[0] - numbers[2] - sum(sign in OFF_LETTERS for sign in signs)
        ids = f'<span class="ids">{escape(f"{movement.edge} to {movement.next_edge}")}</span>'
        rows.append([escape(movement_name(movement, names)), ids, *green_cells, *map(str, (*numbers, red))])
    heads = ["before: green", "after: green"] if timing_before else ["green in the cycle"]
    heads += ["green, s", "gives way, s", "yellow, s", "red, s"]
    return table(["movement", "from and to edge", *heads], rows, names=2)


def greens_told(signs: str) -> str:
    """When a movement has green, as text in seconds of the cycle, '0 to 20, 40 to 55', or 'never', and where the light
    is off in some second 'off'; signs: its letter in each second."""
    cycle, greens = len(signs), spans_of(signs, MAIN + PERMISSIVE)
    never = "off" if {*signs} & {*OFF_LETTERS} else "never"
    return ", ".join(f"{begin} to {(begin + seconds) % cycle or cycle}" for begin, seconds in greens) or never


def intergreens(timing: Timing, names: Names) -> str:
    """The least time between conflicting greens, and a table of the pairs of movements that have it or a second more,
    five at most, as HTML; empty where there is none."""
    rows = sorted(
        (gap, movement_name(ending, names), movement_name(beginning, names))
        for pair in timing.pairs()
        for ending, beginning in (pair, pair[::-1])
        if (gap := intergreen(timing.signs(ending), timing.signs(beginning))) is not None
    )
    if not rows:
        return ""
    least_seconds = rows[0][0]
    nearest_rows = [row for row in rows if row[0] <= least_seconds + 1][:MOST_PAIRS]
    pairs_table = table(
        ["green ends", "conflicting green begins", "seconds between"],
        [[escape(ending), escape(beginning), str(gap)] for gap, ending, beginning in nearest_rows],
        names=2,
    )
    left = len(rows) - len(nearest_rows)
    more = f'<p class="small">{left} other pairs have as many seconds or more.</p>' if left else ""
    return f"<p>Least time between conflicting greens: {least_seconds} s.</p>{pairs_table}{more}"
