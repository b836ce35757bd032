"""Signal plans and demands that searches find, beside those of SUMO's tools."""

import csv
import os
import random
import re
import subprocess
import sys
import time
import xml.etree.ElementTree as ElementTree
from collections import defaultdict
from concurrent.futures import ThreadPoolExecutor
from dataclasses import dataclass, replace
from pathlib import Path
from statistics import fmean

import shared
from networks.unseen import make
from shared import CORRIDOR, SAMPLES, SHIPPED, SUMO_HOME, TOP
from streetsim.base.report import Report
from streetsim.base.seeds import mean_and_half_width, paired, seeds_of
from streetsim.demand.judging import judge_counts
from streetsim.demand.passing import CountsByEdges
from streetsim.demand.running import passed_by_count, run_demand
from streetsim.demand.values import Count
from streetsim.search.route_loading import read_town
from streetsim.search.route_watching import RunGround
from streetsim.search.run_prepared import program_digest
from streetsim.sumo.network import Options
from streetsim.sumo.trips import connected_trips, read_trips

NETWORKS = {"corridor": CORRIDOR / "corridor.net.xml.gz", "grid": SAMPLES / "grid.net.xml.gz"}
UNTIL = 7200
# Of searches whose plan SUMO is given too: simulations, more where runs differ so that a plan takes several
# seeds, and seeds of the report.
VERIFIED = {"rilsa1": (300, "101-105"), "rilsa2": (60, "101-105"), "rilsa4": (60, "101-105")}
ADAPT = ("-u", "-y", "3", "-g", "5")
SEARCHES = {
    "search: offsets alone": ("--change", "offsets"),
    "search: cycle 60-120, splits, offsets": ("--cycle", "60-120"),
}
PROPOSALS, TOOLS_BEST, SEARCH = (
    "best of the proposals, cycle 60-120",
    "both, cycle 60 s or more",
    "search: cycle 60-120, splits, offsets",
)


def run(command, folder, statuses=(0,)):
    """Runs a command in a folder; gives its processor seconds and those of the clock."""
    before, begin = shared.children_seconds(), time.perf_counter()
    command = [str(word) for word in command]
    done = subprocess.run(command, cwd=folder, env=shared.with_sumo(), capture_output=True, text=True, check=False)
    if done.returncode not in statuses:
        raise SystemExit(f"{' '.join(command)}\n{done.stdout}{done.stderr}")
    return shared.children_seconds() - before, time.perf_counter() - begin


@dataclass
class Case:
    """A network and its demand, in a folder of its own."""

    folder: Path
    net: Path
    routes: Path
    types: tuple = ()  # additional files with the vehicles' types
    lights: tuple = ()  # additional files with the plans given, where they are not the network's own


def case_of(name, folder):
    net = NETWORKS[name]
    demand = next(net.parent.glob(f"{name}.rou.xml*"))
    return Case(folder, net, demand)


def plain_routes(case):
    """The vehicles, one by one: SUMO's tools read no flows."""
    plain = case.folder / "plain.rou.xml"
    if not plain.exists():
        half = case.folder / "half.rou.xml"
        words = ["sumo", "-n", case.net, "-r", case.routes, *added([*case.types, *case.lights]), "--end", UNTIL]
        run(
            [*words, "--vehroute-output", half, "--vehroute-output.sorted", "--no-step-log", "--no-warnings"],
            case.folder,
        )
        os.replace(half, plain)
    return plain


def added(files):
    """SUMO's words for additional files."""
    return ["-a", ",".join(map(str, files))] if files else []


def own_tools(case):
    """The plans of SUMO's own tools: {name: additional files}."""
    folder, tools = case.folder, Path(SUMO_HOME) / "tools"
    net, plain = case.net, plain_routes(case)
    coordinated, adapted, joint = (folder / f"{name}.add.xml" for name in ("coord", "adapt", "both"))
    if not joint.exists():
        run([sys.executable, tools / "tlsCoordinator.py", "-n", net, "-r", plain, "-o", coordinated], folder)
        words = [sys.executable, tools / "tlsCycleAdaptation.py", "-n", net, "-r", plain, *ADAPT, "--min-cycle", 60]
        run([*words, "--max-cycle", 120, "-o", adapted], folder)
        run([sys.executable, tools / "tlsCoordinator.py", "-n", net, "-r", plain, "-a", adapted, "-o", joint], folder)
    return {
        "tlsCoordinator": [coordinated],
        "tlsCycleAdaptation, cycle 60 s or more": [adapted],
        TOOLS_BEST: [adapted, joint],
    }


def found_plans(case, args):
    """The plans that the searches find, and what each took: {name: [additional file]}."""
    plans = {}
    for place, (name, words) in enumerate(SEARCHES.items()):
        plans[name] = [searched(case, args, f"found{place}", words)]
    with open(case.folder / f"found{len(SEARCHES) - 1}/search.csv", encoding="utf-8") as file:
        proposed = [
            int(row["simulations"]) for row in csv.DictReader(file) if "cycle" in row["step"] or row["step"] == "given"
        ]
    plans[PROPOSALS] = [searched(case, args, "proposed", ("--budget", max(proposed)))]
    return plans


def searched(case, args, name, search_words):
    output = case.folder / f"{name}.add.xml"
    if not output.exists():
        given = ["run.jsonl", "--map", "map.json", "--plans", case.net, *case.lights, "--until", UNTIL]
        machine = ["--jobs", args.jobs, "--program", args.program]
        command = [TOP / "tools/streetsim-signals", *given, *machine, *search_words, "-o", output]
        spent, clock = run([*command, "--out", case.folder / name], case.folder, (0, 1))
        with open(case.folder / name / "search.csv", encoding="utf-8") as file:
            trials = list(csv.DictReader(file))
        seeds = f"{trials[0]['simulations']} seed{'s' * (trials[0]['simulations'] != '1')} a plan"
        took = (
            f"{trials[-1]['simulations']} simulations, {seeds}, {spent:.0f} s of processor time, "
            f"{clock:.0f} s by the clock"
        )
        (case.folder / f"{name}.took").write_text(took + "\n")
    return output


def in_sumo(case, additional, seed, name):
    """SUMO's mean trip and teleports."""
    statistic = case.folder / f"sumo-{name}-{seed}.xml"
    if not statistic.exists():
        half = statistic.with_suffix(".half")
        command = [
            "sumo", "-n", case.net, "-r", case.routes, *added([*case.types, *case.lights, *additional]), "--seed", seed,
        ]
        command += [
            "--end", UNTIL, "--duration-log.statistics", "--no-step-log", "--no-warnings", "--statistic-output", half,
        ]
        run(command, case.folder)
        os.replace(half, statistic)
    root = ElementTree.parse(statistic).getroot()
    trips = root.find("vehicleTripStatistics").attrib
    return float(trips["duration"]) + float(trips["departDelay"]), int(root.find("teleports").get("total"))


def trips_here(case, plans, args):
    """Mean trips here with seeds 101 to 110, {name: (mean, half width)}, by a study."""
    folder = case.folder
    names = dict(zip((f"plan{place}" for place in range(len(plans))), plans, strict=True))
    text = f'run = "run.jsonl"\nmap = "map.json"\nuntil = {UNTIL}\nseeds = "101-110"\n'
    for key, name in names.items():
        text += f"[variant.{key}]\nplans = {[str(path) for path in (case.net, *case.lights, *plans[name])]}\n"
    (folder / "study.toml").write_text(text, encoding="utf-8")
    run(
        [
            TOP / "tools/streetsim-study", "study.toml", "--departures", "listed", "--jobs", args.jobs,
            "--program", args.program, "--out", "study",
        ],  # fmt: skip
        folder,
    )
    means = {name: [] for name in plans}
    with open(folder / "study/runs.csv", encoding="utf-8") as file:
        for row in csv.DictReader(file):
            means[names[row["variant"]]].append(float(row["mean_trip_s"]))
    return {name: mean_and_half_width(values) for name, values in means.items()}


def rows(name, case, args):
    if not (case.folder / "map.json").exists():
        words = [TOP / "tools/streetsim-import", case.net, *case.types, *case.lights, "--routes", case.routes]
        run([*words, "-o", "run.jsonl", "--map", "map.json"], case.folder)
    plans = {"given": [], **own_tools(case), **found_plans(case, args)}
    ours, runs, theirs = trips_here(case, plans, args), sumo_runs(case, plans, args), {}
    for plan in plans:
        theirs[plan], teleports = [mean for mean, _ in runs[plan]], sum(number for _, number in runs[plan])
        mean, half = mean_and_half_width(theirs[plan])
        told = f"{mean:.1f} ± {half:.1f}" + (f", {teleports} teleports" if teleports else "")
        yield f"| {name} | {plan} | {ours[plan][0]:.1f} ± {ours[plan][1]:.1f} | {told} |"
    yield from gains(name, theirs)
    yield from (f"{name}: {path.stem}: {path.read_text().strip()}" for path in sorted(case.folder.glob("*.took")))


def sumo_runs(case, plans, args):
    """What SUMO says of the plans, seed by seed."""
    with ThreadPoolExecutor(args.jobs) as pool:
        asked = {
            plan: [pool.submit(in_sumo, case, additional, seed, place) for seed in args.sumo]
            for place, (plan, additional) in enumerate(plans.items())
        }
        return {plan: [run.result() for run in of_plan] for plan, of_plan in asked.items()}


def gains(name, theirs):
    """What SUMO's trips gain by the search, against the best of SUMO's own tools,
    the plan given and the best proposal."""
    tools = [plan for plan in theirs if plan.startswith(("tls", "both"))]
    best = min(tools, key=lambda plan: fmean(theirs[plan]), default="given")
    for other in dict.fromkeys((best, "given", PROPOSALS)):
        if other in theirs and SEARCH in theirs:
            difference, half = paired(theirs[other], theirs[SEARCH])
            yield (
                f"{name}: in SUMO {difference:+.1f} ± {half:.1f} s ({100 * difference / fmean(theirs[other]):+.1f} "
                f"%) against {other}"
            )


def verified_case(name, folder):
    """The files of a network that sumo-tools ships."""
    place = SHIPPED / f"RiLSA_example{name[-1]}"
    types, lights = place / "vtypes.add.xml", place / f"{name}_tls.add.xml"
    return Case(folder, place / f"{name}.net.xml", place / "genroutes.rou.xml", (types,), (lights,))


def verified_row(name, case, args):
    """The row of a network whose found plan SUMO was given too."""
    folder, report_path, (budget, check) = case.folder, case.folder / "told.txt", VERIFIED[name]
    if not report_path.exists():
        command = [TOP / "tools/streetsim-import", case.net, *case.types, *case.lights, "--routes", case.routes]
        run([*command, "-o", "run.jsonl", "--map", "map.json"], folder)
        given = [
            "run.jsonl", "--map", "map.json", "--plans", case.net, *case.lights, "--until", UNTIL, "--check", check,
        ]
        machine = ["--jobs", args.jobs, "--program", args.program, "--budget", budget, "--verify-sumo"]
        command = [TOP / "tools/streetsim-signals", *given, *machine, "-o", "found.add.xml", "--out", "found"]
        done = subprocess.run(list(map(str, command)), cwd=folder, capture_output=True, text=True, check=False)
        if done.returncode > 1:
            raise SystemExit(done.stderr)
        half = folder / "half.txt"
        half.write_text(f"{done.stdout}status {done.returncode}\n", encoding="utf-8")
        os.replace(half, report_path)
    lines = report_path.read_text(encoding="utf-8").splitlines()
    plans = re.search(
        r"([\d,]+) simulations(?:, where --budget ended the search after ([\d,]+) plans)?", "\n".join(lines)
    )
    with open(folder / "found/before-after.csv", encoding="utf-8") as file:
        rows = {row["figure"]: row for row in csv.DictReader(file)}
    cells = [plans[2] + ", where the budget ended it" if plans[2] else f"all, {plans[1]} simulations"]
    for figure in ("mean_trip_s", "sumo_mean_trip_s"):
        columns = ("before", "after", "difference", "half_width_95")
        before, after, difference, half = (float(rows[figure][column]) for column in columns)
        cells += [f"{before:.1f}, {after:.1f}", f"{difference:+.1f} ± {half:.1f}"]
    yield f"| {name} | {' | '.join(cells)} | {lines[-1].removeprefix('status ')} |"
    yield from (f"{name}: {line}" for line in lines[1:-1])


def folder_of(args, name):
    folder = args.work / name
    folder.mkdir(parents=True, exist_ok=True)
    return folder


def main_signals(argv: list[str]) -> int | None:
    """How good found signal plans are, beside SUMO's tools.

    Takes minutes a network, hours all; needs sumo, sumo-tools.

    --verified: the table of --verify-sumo, plans that a search of so many simulations finds, here and in SUMO over the
    same seeds.

    Seeds of SUMO and those here (101 to 110) are none that a search saw. What was found and what SUMO said is kept in
    FOLDER/NETWORK and used again. A last part prints, for each network, the gain against the best of SUMO's tools, and
    what each search took.
    """
    parser = shared.parser_of(main_signals, work=True)
    parser.add_argument("--only", help="names of networks, with commas between (default: all)")
    parser.add_argument("--verified", action="store_true", help="found plans in SUMO too, by --verify-sumo")
    parser.add_argument("--sumo", default="1-5", type=lambda text: seeds_of(text, "--sumo"), help="seeds of SUMO")
    parser.add_argument("--jobs", type=int, default=1, help="runs side by side")
    args = parser.parse_args(argv)
    known = [*(VERIFIED if args.verified else NETWORKS)]
    names = args.only.split(",") if args.only else known
    if unknown := [name for name in names if name not in known]:
        parser.error(f"--only: {unknown[0]!r} is none of {', '.join(known)}")
    if args.verified:
        shared.print_heads("Network | plans tried | here: given, found | | SUMO: given, found | | status")
        every = (verified_row(name, verified_case(name, folder_of(args, f"{name}-verified")), args) for name in names)
    else:
        shared.print_heads("Network | Plan | here, s | SUMO, s")
        every = (rows(name, case_of(name, folder_of(args, name)), args) for name in names)
    notes = []
    for line in (line for lines in every for line in lines):
        if line.startswith("|"):
            print(line, flush=True)
        else:
            notes.append(line)
    print(*notes, sep="\n")


HOUR, SHARE, ERROR = 3600, 0.4, 0.05
TRUE_SEED, JUDGE_SEED = 11, 101
HEADS = (
    "Demand | found by | vehicles | used: GEH below 5 | mean GEH | total | kept back: GEH below 5 | mean GEH | total | "
    "processor, s"
)


@dataclass(frozen=True)
class Network:
    name: str
    net: Path
    routes: list[Path]
    additional: list[Path]


class Forgotten:
    """A network with its true counts, used and kept back."""

    def __init__(self, network, program, folder, args):
        self.network, self.program, self.folder, self.args = network, program, folder, args
        folder.mkdir(parents=True, exist_ok=True)
        self.options = Options()
        self.town = self.read()

    def read(self):
        return read_town(str(self.network.net), [str(one) for one in self.network.additional], self.options, Report())

    def passed_counts(self, routes, counts, seed):
        """How many pass each count in a run of some routes, and how many vehicles there are."""
        town = self.read()
        trips = read_trips([str(one) for one in routes], town.net, town.graph, town.types, self.options, Report())
        all_ = connected_trips(trips.trips, town.net, town.graph, True, Report())
        ground = RunGround(self.program, program_digest(self.program), town.graph, 300, 2 * HOUR + 7200, 2)
        done = run_demand(ground, town.loaded(all_), seed)
        by_edges, kinds = CountsByEdges(counts, town.graph), [""] * len(all_)
        values = passed_by_count(by_edges, [trip.path for trip in all_], kinds, done.exit_clocks)
        return values, len(all_), done.rescues

    def turns(self):
        """All turns of junctions where there is a choice, by junction."""
        graph, found = self.town.graph, defaultdict(list)
        for at, (edge, following) in enumerate(graph.movements):
            if following >= 0 and not graph.turns_back[at]:
                found[self.town.net.edges[graph.edges[edge]].end].append((graph.edges[edge], graph.edges[following]))
        return {junction: some for junction, some in sorted(found.items()) if len(some) > 2}

    def drawn_counts(self):
        """Counts of the junctions that are used, with errors, and of the others without."""
        turns, draws = self.turns(), random.Random(f"counted {self.args.counted} {self.network.name}")
        used = set(draws.sample(sorted(turns), max(1, round(SHARE * len(turns)))))
        periods = [(begin, begin + self.args.period) for begin in range(0, HOUR, self.args.period)]
        counts = [
            (junction in used, Count(*period, edges, 0.0, ""))
            for junction, some in turns.items() for edges in some for period in periods
        ]  # fmt: skip
        path = self.folder / "true.csv"
        if not path.exists():
            all_counts = [count for _, count in counts]
            values, vehicles, rescues = self.passed_counts(self.network.routes, all_counts, TRUE_SEED)
            path.write_text("\n".join(map(str, (vehicles, rescues, *values))) + "\n")
        self.vehicles, self.rescues, *values = map(int, path.read_text().split())
        true = [(own, replace(count, vehicles=value)) for (own, count), value in zip(counts, values, strict=True)]
        wrong = [with_error(count, draws) for own, count in true if own]
        return wrong, [count for own, count in true if not own], len(used), len(turns)


def with_error(count, draws):
    return replace(count, vehicles=max(0, round(count.vehicles * (1 + draws.gauss(0, ERROR)))))


def write_csv(path, counts):
    rows = [f"{one.begin},{one.end},{one.edges[0]},{one.edges[1]},{one.vehicles:g}" for one in counts]
    path.write_text("\n".join(["begin,end,from,to,vehicles", *rows]) + "\n")


def write_xml(path, counts):
    """As routeSampler takes them."""
    of_period = defaultdict(list)
    for one in counts:
        of_period[one.begin, one.end].append(one)
    parts = ["<data>"]
    for (begin, end), some in sorted(of_period.items()):
        parts.append(f'<interval id="c" begin="{begin}" end="{end}">')
        parts += [f'<edgeRelation from="{one.edges[0]}" to="{one.edges[1]}" count="{one.vehicles:g}"/>' for one in some]
        parts.append("</interval>")
    path.write_text("\n".join([*parts, "</data>"]))


def kept_seconds(path, make):
    """What a file has, made first where it is not there."""
    if not path.exists():
        path.write_text(f"{make():.1f}\n")
    return float(path.read_text())


def fitted_here(case, wrong):
    write_csv(case.folder / "counts.csv", wrong)
    words = [TOP / "tools/streetsim-demand", case.network.net, *case.network.additional, "--counts", "counts.csv"]
    words += ["--ends", "all", "--most", case.args.most, "--runs", 3, "--program", case.program]
    words += ["-o", "here.rou.xml", "--out", "here"]
    return kept_seconds(case.folder / "here.seconds", lambda: run(words, case.folder, (0, 1))[0])


def fitted_there(case, wrong):
    write_xml(case.folder / "counts.xml", wrong)
    words = ["/usr/bin/python3", f"{SUMO_HOME}/tools/routeSampler.py", "-r", "here/candidates.rou.xml"]
    words += ["-t", "counts.xml", "--optimize", "full", "-s", 1, "-o", "there.rou.xml"]
    return kept_seconds(case.folder / "there.seconds", lambda: run(words, case.folder, (0, 1))[0])


def shares(counts, values):
    """GEH of hourly volumes below 5, of how many, and their mean; the total's difference."""
    hourly = judge_counts(counts, values).hourly
    good, mean = (sum(some) / len(hourly) for some in ((one.geh < 5 for one in hourly), (one.geh for one in hourly)))
    total = sum(values) / sum(one.vehicles for one in counts) - 1
    return f"{good:.0%} of {len(hourly)} | {mean:.1f} | {total:+.1%}"


SIDES = ("`streetsim-demand`", fitted_here, "here"), ("routeSampler", fitted_there, "there")


def demand_rows(case):
    wrong, counts_back, used, all_ = case.drawn_counts()
    name = f"{case.network.name}, {case.vehicles:,} vehicles, {used} of {all_} junctions counted"
    for label, find, routes in SIDES:
        if routes not in case.args.sides.split(","):
            continue
        seconds = find(case, wrong)
        path = case.folder / f"{routes}.values"
        if not path.exists():
            route_files, all_counts = [case.folder / f"{routes}.rou.xml"], [*wrong, *counts_back]
            values, vehicles, rescues = case.passed_counts(route_files, all_counts, JUDGE_SEED)
            path.write_text("\n".join(map(str, (vehicles, rescues, *values))) + "\n")
        vehicles, _, *values = map(int, path.read_text().split())
        cells = shares(wrong, values[: len(wrong)]), shares(counts_back, values[len(wrong) :])
        yield f"| {name} | {label} | {vehicles:,} | {' | '.join(cells)} | {seconds:.0f} |"


def networks(args, work):
    found = [Network("sample grid", SAMPLES / "grid.net.xml.gz", [SAMPLES / "grid.rou.xml.gz"], [])]
    for text in filter(None, args.unseen.split(",")):
        kind, _, seed = text.rpartition("-")
        made = make(kind, int(seed), work, level=args.level)
        found.append(Network(made.name, made.net, made.routes, made.additional))
    return [one for one in found if not args.only or one.name in args.only.split(",")]


def main_demand(argv: list[str]) -> int | None:
    """How well forgotten demands come back from counts, beside SUMO's routeSampler.

    Takes minutes a network; needs sumo, sumo-tools, scipy.

    The demand of a network is run in streetsim with a seed of its own, and all turns are counted by period, exactly. Of
    40 % of the junctions the counts are kept, each with an error of 5 % (normal, standard deviation); which junctions,
    and the errors, are drawn by --counted. streetsim-demand gets these counts, at most three runs and nothing of the
    demand; routeSampler (--optimize full, seed 1) gets the same counts and the candidate routes that streetsim-demand
    found. Both demands are then run in streetsim with a seed that neither saw, and GEH is of hourly volumes: of the
    counts that were used, and of all turns of the junctions that were kept back, there without an error. --unseen takes
    networks of unseen-nets, by kind and seed, beside the sample grid. What was found is kept in the folder of --work.
    Prints the table of tools/COUNTS.md.
    """
    parser = shared.parser_of(main_demand, work=True)
    parser.add_argument("--unseen", default="", metavar="KIND-SEED,..")
    parser.add_argument("--only", default="")
    parser.add_argument("--level", type=float, default=0.7)
    parser.add_argument("--period", type=int, default=3600)
    parser.add_argument("--most", type=int, default=40_000)
    parser.add_argument("--counted", type=int, default=1)
    parser.add_argument("--sides", default="here,there")
    args = parser.parse_args(argv)
    work = shared.work_of(args)
    shared.print_heads(HEADS)
    for network in networks(args, work):
        folder = work / f"case-{network.name.replace(' ', '-')}"
        for line in demand_rows(Forgotten(network, args.program, folder, args)):
            print(line, flush=True)
