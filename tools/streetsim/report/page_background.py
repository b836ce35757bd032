"""What a report rests on: what was run, what the import said, what is assumed."""
from collections.abc import Sequence
from html import escape

from streetsim.base.limits import GAP_METRES
from streetsim.base.words import time_of_day
from streetsim.model.service import STOP_LOSS
from streetsim.report.page_markup import bullets, facts
from streetsim.report.run_tables import Runs

WEIGHTS = (
    ("skipped:", "Left out: vehicles that do not drive"),
    ("warning:", "Otherwise than in SUMO"),
    ("ignored:", "Read, and without effect"),
    ("", "Notes"),
)
MOST_LINES = 8  # of each weight on the page
ASSUMPTIONS = (
    "A vehicle takes one to four cells of 7.5 m and moves in steps of a second; speeds are whole cells a second.",
    f"Control delay has {STOP_LOSS[0]} s for each vehicle that stops, {STOP_LOSS[1]} s where its edge has more lanes, "
    "as vehicles brake and start at once: measured on lone crosses against SUMO's detectors. Not for those that turn "
    "at a light, as seconds of their green are left out instead.",
    "Levels of service, A to F, are those of the Highway Capacity Manual 2010 by control delay; of a movement F too "
    "where v/c, its volume over its capacity, is above 1.",
    "Capacity is the vehicles that passed in the run, over the share of green seconds in which a vehicle that has "
    "stood is on the lane; v/c is the vehicles that wished to pass, over capacity. So capacity has the saturation "
    "flow of the run's own queues, the gaps for giving way at a light (3.5 s, and 3.0 s before a vehicle that rolls), "
    "and one vehicle after a permissive green in which it stood there. Lanes that are called nearly full by the "
    "demand, before a run has these tables, go by an estimate as of shared lanes in that manual: gaps of 4.5 s, 2.5 s "
    "for each further vehicle, one vehicle as a permissive green ends, and one in 2.0 s of green.",
    f"Queues are the backs of queues in each cycle of a signal. One that is {GAP_METRES} m shorter than its edge, the "
    "gap behind a vehicle, has filled it; it may reach on.",
    "Routes are given: nobody changes its route on the way.",
)


def what_was_run(all_runs: Sequence[Runs]) -> str:
    """A table, as HTML, of each plan's run: its files, network, demand, time, seeds, SHA-256 of the program."""
    rows: list[tuple[str, str]] = []
    for runs in all_runs:
        mapping, setting = runs.first_folder.mapping, runs.first_folder.setting
        sources = mapping.sources or {}
        files = [sources["net"], *sources.get("routes", ()), *sources.get("additional", ())] if sources else []
        size = f"{len(mapping.links_of):,} edges, {len(mapping.nodes):,} junctions"
        span = f"{time_of_day(setting.get('start', 0))} to {time_of_day(setting.get('until', 0))}"
        seeds = ", ".join(map(str, runs.folders))
        departs, dawdle = "drawn by each seed" if runs.is_drawn else "as listed", runs.first_folder.dawdle
        slow = f"dawdle {dawdle} (in each second {dawdle / 10:g} % of drivers slow down by chance)"
        rows += [
            (f"<b>{escape(runs.name)}</b>", escape(setting.get("run", ""))),
            ("files of the import", escape(", ".join(files)) or "not told by the map"),
            ("network", f"{size}, {len(mapping.signals):,} with signals"),
            ("demand", f"{runs.vehicles:,.0f} vehicles, departures {departs}"),
            ("time", f"{span}, seeds {seeds}, {slow}"),
            ("program", f"SHA-256 {escape(setting.get('program') or 'not told')}"),
        ]
    return facts(rows)


def warnings(all_runs: Sequence[Runs]) -> str:
    """What the imports of all plans had to say, as HTML: what is left out, what is otherwise than in SUMO, what has no
    effect, and notes; at most eight lines of each, equal ones once. A sentence where they said nothing."""
    lines = list(dict.fromkeys(line for runs in all_runs for line in runs.first_folder.mapping.warnings))
    marks = tuple(mark for mark, _ in WEIGHTS if mark)
    sections = []
    for mark, title in WEIGHTS:
        those = [line for line in lines if (line.startswith(mark) if mark else not line.startswith(marks))]
        if those:
            told = [line.removeprefix(mark).strip() for line in those[:MOST_LINES]]
            if left := len(those) - len(told):
                told.append(f"{left:,} more: warnings.csv")
            sections.append(f"<h3>{title}</h3>{bullets(told)}")
    return "".join(sections) or "<p>The import had nothing to warn of.</p>"
