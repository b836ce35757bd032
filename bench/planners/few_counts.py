"""Demands by eight counts of a town, beside those of SUMO's routeSampler and the true one."""
import csv
import re
import subprocess
import xml.etree.ElementTree as ElementTree
from collections.abc import Iterator
from pathlib import Path

import shared
from networks.counted_towns import LAST, WARM, CountedTown, departures, make_town
from shared import SUMO_HOME, TOP
from streetsim.report.beside_sumo import geh

HEADS = (
    "Town | nodes | found by | vehicles in the hour | beside the true ones | GEH below 5 in SUMO | teleports | "
    "GEH below 5 here | rescues, arrived"
)
RUN = re.compile(r"([\d,]+) vehicles, ([\d,]+) arrived, .*?([\d,]+) rescues")
UNTIL = 20_000  # seconds, in which all have arrived who can


def find_here(town: CountedTown, program: str) -> None:
    """By the tool's usual words."""
    words = ["town.net.xml", "--counts", "counts.csv", "--program", program, "-o", "here.rou.xml", "--out", "here"]
    done = subprocess.run(
        [TOP / "tools/streetsim-demand", *words], cwd=town.folder, capture_output=True, text=True, check=False
    )
    if done.returncode > 1:
        raise SystemExit(done.stderr)
    (town.folder / "here.txt").write_text(done.stderr + done.stdout, encoding="utf-8")


def find_there(town: CountedTown) -> None:
    """By routeSampler, from the tool's candidates."""
    edges = "".join(f'<edge id="{edge}" entered="{count}"/>' for edge, count in counts_of(town).items())
    text = f'<data><interval id="c" begin="{WARM}" end="{LAST}">{edges}</interval></data>'
    (town.folder / "counts.xml").write_text(text, encoding="utf-8")
    words = ["-r", "here/candidates.rou.xml", "--edgedata-files", "counts.xml", "--edgedata-attribute", "entered"]
    words += ["--optimize", "full", "-s", "1", "-o", "there.rou.xml"]
    shared.run(["/usr/bin/python3", f"{SUMO_HOME}/tools/routeSampler.py", *words], town.folder)


def counts_of(town: CountedTown) -> dict[str, int]:
    with open(town.folder / "counts.csv", encoding="utf-8") as file:
        return {row["from"]: int(row["vehicles"]) for row in csv.DictReader(file)}


def near(town: CountedTown, passed: dict[str, float]) -> str:
    """How many of the counts have a GEH below 5 beside what passed."""
    known = counts_of(town)
    good = sum(geh(passed.get(edge, 0.0), count) < 5 for edge, count in known.items())
    return f"{good} of {len(known)}"


def in_sumo(town: CountedTown, side: str) -> tuple[str, int]:
    """A demand's run in SUMO: what its counts have, and teleports."""
    text = (town.folder / "edges.add.xml").read_text(encoding="utf-8").replace("edges.xml", f"{side}.edges.xml")
    (town.folder / f"{side}.add.xml").write_text(text, encoding="utf-8")
    outputs = ["-a", f"{side}.add.xml", "--statistic-output", f"{side}.statistic.xml"]
    words = ["-n", "town.net.xml", "-r", f"{side}.rou.xml", *outputs, "--no-step-log", "--no-warnings"]
    shared.run(["sumo", *words, "--end", UNTIL], town.folder)
    edges = ElementTree.parse(town.folder / f"{side}.edges.xml").getroot().iter("edge")
    passed = {one.get("id"): float(one.get("left")) + float(one.get("arrived")) for one in edges}
    return near(town, passed), shared.teleports_of(town.folder / f"{side}.statistic.xml")


def run_here(town: CountedTown, side: str, program: str) -> tuple[str, str]:
    """A demand's run here: what its counts have, and rescues with those who arrived."""
    made = ["--routes", f"{side}.rou.xml", "-o", f"{side}.jsonl", "--map", f"{side}.map.json"]
    shared.run([TOP / "tools/streetsim-import", "town.net.xml", *made], town.folder)
    words = ["--map", f"{side}.map.json", "--until", UNTIL, "--program", program, "--out", f"{side}-run", "--force"]
    told = shared.run([TOP / "tools/streetsim-run", f"{side}.jsonl", *words], town.folder)
    wanted, arrived, rescues = RUN.search(told).groups()
    compared = [f"{side}-run", "--counts", "counts.csv", "--out", f"{side}-fit", "--force"]
    subprocess.run([TOP / "tools/streetsim-compare", *compared], cwd=town.folder, capture_output=True, check=False)
    with open(town.folder / f"{side}-fit/fit.csv", encoding="utf-8") as file:
        passed = {row["from"]: float(row["passed"]) for row in csv.DictReader(file)}
    return near(town, passed), f"{rescues}, {arrived} of {wanted}"


def rows_of(town: CountedTown, program: str) -> Iterator[str]:
    """The rows of a town: the true demand, and both that were found."""
    if not (town.folder / "there.rou.xml").exists():
        find_here(town, program)
        find_there(town)
    for called, side in (("(true)", "true"), ("`streetsim-demand`", "here"), ("routeSampler", "there")):
        vehicles = sum(WARM <= depart < LAST for depart in departures(town.folder / f"{side}.rou.xml"))
        there, teleports = in_sumo(town, side)
        here, rescues = run_here(town, side, program)
        of_true = f"{vehicles / town.vehicles - 1:+.0%}"
        cells = town.seed, town.nodes, called, f"{vehicles:,}", of_true, there, teleports, here, rescues
        yield f"| {' | '.join(map(str, cells))} |"


def main_few_counts(argv: list[str]) -> int | None:
    """How near a demand by eight counts of a town comes, beside SUMO's routeSampler.

    Takes minutes a town; needs sumo, sumo-tools, scipy.

    A town has 30 to 45 nodes, lights, one-way streets and streets of 30 km/h, as its seed draws them, and a demand of
    randomTrips. SUMO counts eight edges for an hour. streetsim-demand has its usual words, and routeSampler the same
    counts and its candidates. Each demand is run in SUMO and here. Prints the table of tools/COUNTS.md.
    """
    parser = shared.parser_of(main_few_counts, work=True)
    parser.add_argument("seeds", type=shared.numbers, metavar="FIRST-LAST")
    args = parser.parse_args(argv)
    work: Path = shared.work_of(args)
    shared.print_heads(HEADS)
    for seed in args.seeds:
        for row in rows_of(make_town(seed, work), args.program):
            print(row, flush=True)
