"""What a calibration gains, how often an interval of a day holds, and what a full lane passes."""

import csv
import json
import subprocess
import sys
from statistics import fmean, stdev
from xml.etree import ElementTree

import shared
from networks.field_streets import (
    END, LAST, WARM, drawn_street, full_approach, make_field, make_net, mean_of_trips, programs, the_ten, truth_of,
    write_demand,
)
from streetsim.base.arrays import numpy as np
from streetsim.base.report import Report
from streetsim.base.seeds import mean_and_day, mean_and_half_width, seeds_of
from streetsim.control.settings import Settings
from streetsim.control.steering import Steering
from streetsim.demand.calibration_survey import discharge
from streetsim.kernel.loop import Kernel
from streetsim.kernel.program import Program
from streetsim.model.mapping import map_from
from streetsim.model.replications import drawn
from streetsim.model.runs import run_of_texts, with_load
from streetsim.model.saturation import DAWDLES
from streetsim.observe.segments import Segments
from streetsim.observe.trips import TripsTable
from streetsim.search.run_prepared import outcome, session_of
from streetsim.sumo.converting import run_and_map
from streetsim.sumo.driver_words import read_drivers
from streetsim.sumo.import_files import convert
from streetsim.sumo.network import Options

SEEDS = range(11, 15)
SHARES = (0.1, 0.2, 0.3, 0.4, 0.5, 0.6, 0.7, 0.8, 0.9, 1.0)
STAGES = ("uncalibrated", "calibrated")
KINDS = {
    "a wave": ("wave",), "a split": ("split",), "waves and splits": ("wave", "split"),
    "growth by a tenth": ("growth",), "a lane removed": ("diet",),
}


def options(drivers, shares=()):
    """The options of an import, by a file of drivers or without."""
    if drivers is None:
        return Options(shares=tuple(shares))
    known = read_drivers(drivers)
    return Options(dawdle=known.dawdle, cut=known.cut, speeds=known.speeds, shares=tuple(shares))


def ran(program, net, more, routes, own, seed, until=END):
    """(run, trips, segments) of one run."""
    report = Report()
    lines, mapping = run_and_map(convert(str(net), list(map(str, more)), [str(routes)], own, report), report)
    run = with_load(run_of_texts(str(net), lines), seed=seed)
    trips, segments, settings = TripsTable(), Segments(), Settings(until, every=0, rescue=0)
    with Program(program) as started:
        Kernel(started, run, mapping, Steering(run, mapping, settings).controllers, [trips, segments]).go(until)
    return run, mapping, trips, segments


def mean_trip(program, net, more, routes, own):
    """The mean trip over seeds of those who depart from WARM to LAST; who has not arrived counts until the end."""
    seed_means = []
    for seed in SEEDS:
        run, _, trips, _ = ran(program, net, more, routes, own, seed)
        departs = np.array([line.command["depart"] for line in run.enters])
        judged = (departs >= WARM) & (departs < LAST)
        ends = np.where(trips.arrival > 0, trips.arrival, END)
        seed_means.append(float((ends - departs)[judged].mean()))
    return fmean(seed_means)


def surveyed_share(program, street, base, folder, drivers):
    """The share of the lefts of J2J3 by which as many pass a full approach here as in SUMO."""
    flow_in_sumo, flows_here = full_approach(street, base, folder), []
    for share in SHARES:
        own = options(drivers, [("J2J3", share)])
        more = base / street.name / "diet.net.xml", [], folder / "full" / "full.rou.xml"
        _, mapping, _, segments = ran(program, *more, own, 1, LAST)
        ends, edge = segments.ends(), list(mapping.links_of).index("J2J3")
        seen = (ends.edge == edge) & (ends.clock >= 1800) & (ends.clock < LAST)
        flows_here.append(float(seen.sum()) / ((LAST - 1800) / 3600))
    rising = np.maximum.accumulate(flows_here)
    return round(float(np.interp(flow_in_sumo, rising, SHARES)), 3), flow_in_sumo, flows_here


def grown(routes, out_path):
    """The vehicles with a tenth more, drawn."""
    tree, draws, added_cars = ElementTree.parse(routes), np.random.default_rng(3), []
    root = tree.getroot()
    cars = list(root.iter("vehicle"))
    for car in cars:
        if draws.random() < 0.1:
            new = ElementTree.fromstring(ElementTree.tostring(car))
            new.set("id", f"{car.get('id')}+")
            new.set("depart", str(min(LAST - 1, max(0, float(car.get("depart")) + int(draws.integers(-200, 200))))))
            added_cars.append(new)
    for car in cars:
        root.remove(car)
    for car in sorted(cars + added_cars, key=lambda one: float(one.get("depart"))):
        root.append(car)
    tree.write(out_path)
    return out_path


def calibrate(program, net, folder):
    """Calibrates a field by the command; gives the rows of criteria.csv."""
    table_folder, drivers, day = folder / "calibrated", folder / "drivers.json", {one: folder / one for one in "AB"}
    if not (table_folder / "criteria.csv").exists():
        words = [shared.TOP / "tools/streetsim-calibrate", net, "--counts", day["A"] / "counts.csv"]
        words += ["--times", day["A"] / "times.csv", "--saturation", day["A"] / "saturation.csv"]
        words += ["--queues", day["A"] / "queues.csv", "--validate"]
        words += [day["B"] / f"{name}.csv" for name in ("counts", "times", "queues")]
        words += ["-o", drivers, "--out", table_folder, "--jobs", 1, "--program", program]
        done = subprocess.run(list(map(str, words)), capture_output=True, text=True, check=False)
        if done.returncode == 2:
            raise SystemExit(done.stderr)
        (folder / "calibrate.txt").write_text(done.stdout, encoding="utf-8")
    with open(table_folder / "criteria.csv", newline="", encoding="utf-8") as file:
        return list(csv.DictReader(file))


def judged(program, street, base):
    """What a street's calibration gains, as a dict that is kept."""
    folder = make_field(street, base)
    judged_path, day = folder / "judged.json", mean_of_trips(folder / "sumoA/trips.xml")
    if judged_path.exists():
        return {**json.loads(judged_path.read_text(encoding="utf-8")), "day": day}
    top, routes = base / street.name, folder / "calibrated" / "fitted.rou.xml"
    criteria = calibrate(program, top / "net.net.xml", folder)
    before, changes = truth_of(folder)
    gains = {"name": f"{street.name} {street.driver}", "truth": before, "true": changes, "day": day}
    gains["criteria"] = criteria
    for stage, drivers in zip(STAGES, (None, folder / "drivers.json")):
        usual = mean_trip(program, top / "net.net.xml", [], routes, options(drivers))
        gains[stage] = {"base": usual}
        for treatment in street.treatments:
            own_options, net, additional, cars = options(drivers), top / "net.net.xml", [], routes
            if treatment in ("wave", "split"):
                additional = [top / f"{treatment}.add.xml"]
            elif treatment == "growth":
                cars = grown(routes, folder / "grown.rou.xml")
            else:
                net = top / "diet.net.xml"
                if drivers is not None:
                    gains["share"] = surveyed_share(program, street, base, folder, drivers)
                    gains[stage]["diet by flows"] = mean_trip(program, net, [], routes, own_options) - usual
                    own_options = options(drivers, [("J2J3", gains["share"][0])])
            gains[stage][treatment] = mean_trip(program, net, additional, cars, own_options) - usual
    judged_path.write_text(json.dumps(gains, indent=1), encoding="utf-8")
    return gains


def line_of(gains):
    """A street in a line."""
    parts = [f"{gains['name']}: base {gains['truth']:.1f}"]
    parts += [f"{which} {gains[which]['base']:.1f}" for which in STAGES]
    for what, true in gains["true"].items():
        parts.append(f"{what} {true:+.1f}: {gains['uncalibrated'][what]:+.1f}, {gains['calibrated'][what]:+.1f}")
    parts.append(f"segments of day B {segments(gains, 'calibrated'):.0f} %")
    return "; ".join(parts)


def segments(one, which):
    """The share of segments within 15 % on the other day, in percent."""
    own, names = ("segments within 15 %", "other", which), ("criterion", "day", "drivers")
    return next(float(row["percent"]) for row in one["criteria"] if tuple(row[name] for name in names) == own)


def off_by(pairs):
    """By how much the first values are off the second ones, root of the mean square, as text."""
    return f"{fmean((here / true - 1) ** 2 for here, true in pairs) ** 0.5:.1%}"


def errors_of(streets, kinds, which):
    """(sum of the errors of some kinds of changes, sum of the true changes), seconds, over streets."""
    own = [(one[which][what], one["true"][what]) for one in streets for what in kinds if what in one["true"]]
    return sum(abs(here - true) for here, true in own), sum(abs(true) for _, true in own)


def cells_of(streets):
    """The rows of the table for some streets: (what, cells without and with calibration, their ratio)."""
    off = [off_by([(street[stage]["base"], street["truth"]) for street in streets]) for stage in STAGES]
    yield "mean trip of the base off (rms)", *off, ""
    yield "the counted day itself off (rms)", "", off_by([(street["day"], street["truth"]) for street in streets]), ""
    off = [off_by([(street[stage]["base"], street["day"]) for street in streets]) for stage in STAGES]
    yield "mean trip of the base off from the counted day (rms)", *off, ""
    held = [sum(segments(street, stage) >= 85 for street in streets) for stage in STAGES]
    yield "85 % of segments within 15 % on the other day", *(f"{count} of {len(streets)}" for count in held), ""
    for kind, kinds in KINDS.items():
        (error, true), (less, _) = (errors_of(streets, kinds, stage) for stage in STAGES)
        if true:
            shares = f"{error / true:.0%}", f"{less / true:.0%}"
            yield f"error of {kind}, in % of the changes", *shares, f"{less / error:.2f}"


def table(groups):
    """The rows of the table of CALIBRATION.md. groups: streets by what they are called."""
    yield "| | streets | uncalibrated | calibrated | ratio |"
    yield "|---|---|---|---|---|"
    found = {name: {row[0]: row[1:] for row in cells_of(streets)} for name, streets in groups.items()}
    for what in dict.fromkeys(what for rows in found.values() for what in rows):
        first = what
        for name, rows in found.items():
            if what in rows:
                yield f"| {first} | {name} | {' | '.join(rows[what])} |"
                first = ""


def street_rows(streets):
    """The rows of the table of streets: seconds of the base and of the changes, true, without and with calibration."""
    yield "| Street, drivers | base: true, here | wave | split | growth | lane removed |"
    yield "|---|---|---|---|---|---|"
    for one in streets:
        cells = [f"{one['truth']:.1f}: " + ", ".join(f"{one[which]['base']:.1f}" for which in STAGES)]
        for what in ("wave", "split", "growth", "diet"):
            here = ", ".join(f"{one[which][what]:+.1f}" for which in STAGES) if what in one["true"] else ""
            cells.append(f"{one['true'][what]:+.1f}: {here}" if here else "")
        yield f"| {one['name']} | {' | '.join(cells)} |"


def main_calibrated(argv: list[str]) -> int | None:
    """What a calibrated base gains, on streets of SUMO's drivers.

    Takes ten minutes a street; needs sumo, sumo-tools.

    Each street is calibrated on one day and validated on another by streetsim-calibrate, with one process. Forecasts
    are means of seeds 11 to 14 of the demand of the fitted day; a lane that is removed has the share of its lefts that
    a survey of that approach tells (full, in SUMO). It prints a line a street, and the tables of CALIBRATION.md. What
    was made is kept in the folder of --work. Draw the seeds when the work is done: then the table judges.
    """
    parser = shared.parser_of(main_calibrated, work=True)
    parser.add_argument("--ten", action="store_true")
    parser.add_argument("--drawn", default="")
    parser.add_argument("--only", default="")
    args = parser.parse_args(argv)
    base = args.work
    seeds, only = [*filter(None, args.drawn.split(","))], [*filter(None, args.only.split(","))]
    groups = {"the ten": list(the_ten()) if args.ten else []}
    groups["drawn"] = [drawn_street(int(seed), base / "drawn") for seed in seeds]
    gains_by_group = {}
    for name, streets in groups.items():
        for street in streets:
            if not only or f"{street.name}/{street.driver}" in only:
                gains_by_group.setdefault(name, []).append(judged(args.program, street, base))
                print(line_of(gains_by_group[name][-1]), file=sys.stderr, flush=True)
    all_ = [one for streets in gains_by_group.values() for one in streets]
    print(*table({**gains_by_group, "all": all_} if len(gains_by_group) > 1 else gains_by_group), sep="\n")
    print("", *street_rows(all_), sep="\n")


HOW = ("departures listed", "drawn, interval of the mean", "drawn, interval of a day")


def imported(net, more, routes, end):
    """(run, map) of some files."""
    report, options = Report(), Options(end=end)
    lines, mapping = run_and_map(convert(str(net), list(map(str, more)), [str(routes)], options, report), report)
    return run_of_texts(str(net), lines), mapping


def corridor(_folder):
    """(runs without and with the wave, their last second) of the example, for half an hour."""
    net, routes = shared.CORRIDOR / "corridor.net.xml.gz", shared.CORRIDOR / "corridor.rou.xml"
    return [imported(net, more, routes, 1800) for more in ([], [shared.CORRIDOR / "wave.add.xml"])], 3600


def mixed(folder):
    """The same of a street of six junctions with permissive lefts."""
    street = next(one for one in the_ten() if (one.name, one.driver) == ("mixed", "default"))
    folder.mkdir(parents=True, exist_ok=True)
    net, routes, wave = make_net(street, folder), folder / "rates.rou.xml", folder / "wave.add.xml"
    write_demand(street, routes, 0.8 * street.level, 1.0, 5)
    wave.write_text(programs(net, "wave"), encoding="utf-8")
    return [imported(net, more, routes, 2700) for more in ([], [wave])], 5400


STREETS = {"corridor": corridor, "mixed": mixed}


def pair(program, both, until, seed, is_drawn):
    """(mean trip without the wave, its change) by one seed."""
    found = []
    for run, mapping in both:
        own = drawn(with_load(run, seed=seed), mapping)[0] if is_drawn else run
        session = session_of(program, own, until)
        found.append(outcome(session, b"", seed).seconds / len(session.departs))
    return found[0], found[1] - found[0]


def coverage_of_intervals(program, sides, until, args):
    """How often each interval has the truth of (mean trip, change), and their mean half widths; and the truth."""
    true_pairs = [pair(program, sides, until, 1000 + day, True) for day in range(args.truth)]
    truth = [fmean(side) for side in zip(*true_pairs)]
    hits, widths = {how: [0, 0] for how in HOW}, {how: [0.0, 0.0] for how in HOW}
    for day in range(args.days):
        seen = [drawn(with_load(run, seed=5000 + day), mapping) for run, mapping in sides]
        listed = [pair(program, seen, until, seed, False) for seed in range(1, args.seeds + 1)]
        anew = [pair(program, seen, until, 9000 + 100 * day + seed, True) for seed in range(args.seeds)]
        intervals = mean_and_half_width, mean_and_half_width, mean_and_day
        for how, runs, interval in zip(HOW, (listed, anew, anew), intervals):
            for side, values in enumerate(zip(*runs)):
                mean, half = interval(values)
                hits[how][side] += abs(mean - truth[side]) <= half
                widths[how][side] += half / args.days
    errors = [stdev(side) / args.truth**0.5 for side in zip(*true_pairs)]
    return hits, widths, truth, errors


def main_day_intervals(argv: list[str]) -> int | None:
    """How often an interval of a day holds the truth.

    Takes minutes; needs sumo, sumo-tools.

    On each network the truth is the mean trip, and its change by a green wave, over many days that are drawn around a
    file. A planner has one such day, a list of vehicles, and runs it without and with the wave by some seeds: with
    departures as listed, and drawn around his list. Printed is how often the 95 % interval has the truth: of listed
    runs, of the mean of drawn ones, and of a day (t s sqrt(1 + 1/n)). The networks are the example's corridor and a
    street of six junctions.
    """
    parser = shared.parser_of(main_day_intervals, work=True)
    shared.add_some(parser, "--only", STREETS)
    for name, usual in (("days", 40), ("seeds", 8), ("truth", 60)):
        parser.add_argument(f"--{name}", type=int, default=usual)
    args = parser.parse_args(argv)
    shared.print_heads("network | interval | mean trip: held, half width | change by the wave: held, half width")
    for name in args.only:
        both, until = STREETS[name](args.work)
        hits, widths, truth, errors = coverage_of_intervals(args.program, both, until, args)
        for how in HOW:
            cells = [f"{hits[how][side]} of {args.days}, {widths[how][side]:.2f} s" for side in (0, 1)]
            print(f"| {name} | {how} | {cells[0]} | {cells[1]} |", flush=True)
        told = [f"{value:+.2f} ± {error:.2f} s" for value, error in zip(truth, errors)]
        print(f"| {name} | truth, standard error | {told[0]} | {told[1]} |", flush=True)


CYCLE, GREENS, CELLS, FIRST = 80, 30, 60, 3  # the first cycles fill the lane
UNTIL = (GREENS + FIRST + 1) * CYCLE


def passing_clocks(program, dawdle, limit, green, seed):
    """The clocks at which vehicles pass the stop line of a full lane."""
    links = [[0, 0, 1, 1, CELLS, limit], [1, 1, 2, 1, CELLS, limit]]
    load = {
        "cmd": "load", "nodes": [[0, 1, 4], [1, 2, 4], [2, 1, 4]], "links": links, "turns": [[0, 0, 1, 0]],
        "zone": 1000, "dawdle": round(1000 * dawdle), "change": 1000, "seed": seed,
    }
    signal = {"cmd": "signal", "node": 1, "offset": 0, "phases": [[CYCLE - green, []], [green, [[0, 0, 1]]]]}
    enters = [{"cmd": "enter", "plan": [0, 1], "lane": 0, "depart": 0} for _ in range(UNTIL // 2)]
    run = run_of_texts("lane", map(json.dumps, [load, signal, *enters]))
    nodes = [["A", 0, 0, 1], ["B", 450, 0, 2], ["C", 900, 0, 1]]
    shapes = [["a", [0], 0, 1, CELLS, limit, 450.0, [[0, 0], [450, 0]]]]
    shapes += [["b", [0], 1, 2, CELLS, limit, 450.0, [[450, 0], [900, 0]]]]
    value = {"nodes": nodes, "links": shapes, "turns": [[0, 0, 1, 0, "L", 0, False]], "signals": [["L", 1]]}
    mapping = map_from("lane", {**value, "cars": [], "options": {}, "warnings": []})
    segments = Segments()
    with Program(program) as started:
        Kernel(started, run, mapping, [], [segments]).go(UNTIL)
    ends = segments.ends()
    return ends.clock[ends.edge == 0]


def measured(program, dawdle, limit, green, seeds):
    """(headway s, vehicles a green), the mean over seeds."""
    begins = [CYCLE - green + CYCLE * cycle for cycle in range(FIRST, FIRST + GREENS)]
    return np.mean([discharge(passing_clocks(program, dawdle, limit, green, seed), begins, CYCLE) for seed in seeds], 0)


def main_saturation(argv: list[str]) -> int | None:
    """What a lane that is always full passes in a green, by dawdle and limit.

    Takes minutes.

    It prints the table of CALIBRATION.md, and with --code that of streetsim.model.saturation. A lane of 60 cells leads
    to another one through a light with a cycle of 80 s; a vehicle is told each two seconds, so that it is full.
    """
    parser = shared.parser_of(main_saturation)
    parser.add_argument("--seeds", default="1-3")
    parser.add_argument("--limits", default="1-5")
    parser.add_argument("--greens", default="36,42")
    parser.add_argument("--code", action="store_true")
    args = parser.parse_args(argv)
    seeds, limits = seeds_of(args.seeds, "--seeds"), seeds_of(args.limits, "--limits")
    if args.code:
        for limit in limits:
            rows = [measured(args.program, dawdle, limit, 36, seeds) for dawdle in DAWDLES]
            told = ", ".join(f"({head:.4f}, {count:.2f})" for head, count in rows)
            print(f"    {limit}: ({told}),", flush=True)
        return
    greens = [int(green) for green in args.greens.split(",")]
    print("| dawdle | limit | by headways | " + " | ".join(f"by {green} s of green" for green in greens) + " |")
    print("|---" * (3 + len(greens)) + "|")
    for limit in limits:
        for dawdle in DAWDLES:
            rows = [measured(args.program, dawdle, limit, green, seeds) for green in greens]
            flows = [f"{3600 * count / green:,.0f}" for (_, count), green in zip(rows, greens)]
            cells = [f"{1000 * dawdle:.0f}", str(limit), f"{3600 / rows[0][0]:,.0f}", *flows]
            print(f"| {' | '.join(cells)} |", flush=True)
