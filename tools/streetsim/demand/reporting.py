"""The section on counts of a page of streetsim-report, as HTML: by hour, screen lines, scatter, map of the differences,
worst fits."""
from html import escape

from streetsim.base.colours import LINE, OTHER_LINE
from streetsim.base.words import time_of_day
from streetsim.demand.judging import (
    GOOD, JudgedCounts, correlation_and_slope, differences_of, volume_at_geh_5, worst_fits,
)
from streetsim.model.mapping import Map
from streetsim.model.names import Names
from streetsim.report.page_drawings import difference_map, difference_stroke
from streetsim.report.page_map import line_key, map_figure
from streetsim.report.page_markup import table

SIDE, EDGE = 420, 45  # pixels of the scatter
POINTS = 40  # of the curves of GEH


def counts_section(name: str, fit: JudgedCounts, mapping: Map) -> str:
    """How well what passed in a plan's first seed meets the counts, as HTML; name: of the plan."""
    names = Names(mapping)
    line = correlation_and_slope(fit.compared)
    more = f"; all {len(fit.compared):,} counts: r = {line[0]:.3f}, slope {line[1]:.3f}" if line else ""
    shares = f"GEH is below 5 for {100 * fit.good_share:.1f} % of the counts by hour"
    criteria = "which passes the usual criteria" if fit.meets_criteria else "which does not pass the usual criteria"
    summary = f"{name}, its first seed: {shares}, {criteria}{more}."
    parts = [f"<p>{escape(summary)}</p>", hours_table(fit), groups_table(fit), worst_table(fit, names)]
    pictures = f'<div class="whole">{scatter(fit)}{differences_map(fit, mapping)}</div>'
    return "".join([*parts, pictures])


def hours_table(fit: JudgedCounts) -> str:
    """A table of the criteria by hour, as HTML."""
    rows = [
        [
            f"{time_of_day(sums.begin)} to {time_of_day(sums.end)}", str(sums.counts), f"{100 * sums.good_share:.1f}",
            f"{sums.vehicles_counted:,.0f}", f"{sums.vehicles_passed:,.0f}", f"{100 * sums.relative_difference:+.1f}",
            "passed" if sums.meets_criteria else "not passed",
        ]
        for sums in fit.hours
    ]
    head = ["hour", "counts", "GEH below 5, %", "counted", "passed in the run", "difference, %", "criteria"]
    return table(head, rows)


def groups_table(fit: JudgedCounts) -> str:
    """A table of the screen lines by hour, as HTML; empty where there are none."""
    rows = [
        [
            escape(sums.group), f"{time_of_day(sums.begin)} to {time_of_day(sums.end)}",
            f"{sums.vehicles_counted:,.0f}",
            f"{sums.vehicles_passed:,.0f}", f"{100 * sums.relative_difference:+.1f}",
        ]
        for sums in fit.groups
    ]
    return table(["screen line", "hour", "counted", "passed in the run", "difference, %"], rows, 2) if rows else ""


def worst_table(fit: JudgedCounts, names: Names) -> str:
    """A table of the counts that fit worst, as HTML; empty where all fit."""
    rows = []
    for count in worst_fits(fit):
        called = names.approach(count.edges[0]) if len(count.edges) == 1 else names.movement(*count.edges[:2])
        numbers = f"{count.vehicles_counted:,.0f}", f"{count.vehicles_passed:,.0f}", f"{count.geh:.1f}"
        rows.append([escape(called), escape(" to ".join(count.edges)), time_of_day(count.begin), *numbers])
    return table(["fits worst", "edges", "from", "counted", "passed in the run", "GEH"], rows, 2) if rows else ""


def scatter(fit: JudgedCounts) -> str:
    """A picture (SVG) of passed over counted, vehicles an hour, by edges and hour, with the curves on which GEH is
    5."""
    points = [(*count.volumes, count.geh < GOOD) for count in fit.hourly]
    top_volume = 1.08 * max([1.0, *(max(volumes[:2]) for volumes in points)])
    scale = (SIDE - EDGE - 10) / top_volume

    def pixel(counted: float, passed: float) -> str:
        """The pixels across and down of a point, as the text X,Y."""
        return f"{EDGE + counted * scale:.1f},{SIDE - EDGE - passed * scale:.1f}"

    parts = [f'<polyline points="{pixel(0, 0)} {pixel(top_volume, top_volume)}" stroke="#000" fill="none"/>']
    for sign in (1, -1):
        curve = (top_volume * step / POINTS for step in range(POINTS + 1))
        line_points = " ".join(pixel(volume, min(volume_at_geh_5(volume, sign), top_volume)) for volume in curve)
        parts.append(f'<polyline points="{line_points}" stroke="#777" stroke-dasharray="4 3" fill="none"/>')
    for hourly_counted, hourly_passed, good in points:
        x, y = pixel(hourly_counted, hourly_passed).split(",")
        square = f'<rect x="{float(x) - 3:.1f}" y="{float(y) - 3:.1f}" width="6" height="6" fill="{OTHER_LINE}"/>'
        parts.append(f'<circle cx="{x}" cy="{y}" r="3" fill="{LINE}"/>' if good else square)
    low = SIDE - EDGE
    parts += [
        f'<line x1="{EDGE}" x2="{SIDE - 10}" y1="{low}" y2="{low}" stroke="#666"/>',
        f'<line x1="{EDGE}" x2="{EDGE}" y1="10" y2="{low}" stroke="#666"/>',
        f'<text x="{SIDE - 10}" y="{low + 15}" text-anchor="end">counted: {top_volume:.0f} vehicles/h</text>',
        f'<text x="{EDGE + 4}" y="16">passed in the run; broken: GEH is 5; squares: above</text>',
    ]
    shape = f'viewBox="0 0 {SIDE} {SIDE}" style="max-width: 420px" role="img" aria-label="Passed over counted"'
    return f"<svg {shape}>{''.join(parts)}</svg>"


def differences_map(fit: JudgedCounts, mapping: Map) -> str:
    """A map of how many vehicles an hour more or fewer passed than were counted, of an edge, else of its turns
    together, as HTML."""
    words = (2.0, "more passed than were counted"), (-2.0, "fewer"), (0.0, "as many"), (None, "not counted")
    keys = [line_key(difference_stroke(value, 2.0, ""), text) for value, text in words]
    caption = "Vehicles an hour in the run beside those counted; wider where the difference is greater"
    return map_figure(difference_map(mapping, differences_of(fit.hourly)), caption, keys)
