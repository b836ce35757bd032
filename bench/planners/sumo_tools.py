"""SUMO's own tools over sumo and over streetsim-sumo: those that start it, and those that read its files."""

import gzip
import os
import re
import subprocess
import sys
import xml.etree.ElementTree as ElementTree
from collections.abc import Callable
from dataclasses import dataclass
from pathlib import Path
from statistics import fmean

import shared
from shared import CORRIDOR, SUMO_HOME, TOP

PYTHON = "/usr/bin/python3"
OURS = str(TOP / "tools/streetsim-sumo")
OUTPUTS = ("tripinfo", "summary", "fcd", "queue", "vehroute", "statistic", "stop", "lanechange")
ADDITIONAL = """<additional><edgeData id="dump" file="edgedata.xml" period="300"/>
<inductionLoop id="loop" lane="J2J3_0" pos="-40" period="300" file="e1.xml"/>
<laneAreaDetector id="area" lane="J2J3_1" pos="100" endPos="280" period="300" file="e2.xml"/></additional>"""
Figure = Callable[[Path, str], float]  # of what a tool leaves in its folder and says


def mean_of(name: str, tag: str, attribute: str) -> Figure:
    """The mean of an attribute of a file's elements."""

    def figure(folder: Path, _: str) -> float:
        return fmean(float(one.get(attribute)) for one in ElementTree.parse(folder / name).iter(tag))

    return figure


def in_text(pattern: str) -> Figure:
    """A number that a tool says."""
    return lambda _, text: float(re.search(pattern, text)[1])


def rows(name: str, tag: str = "") -> Figure:
    """How many elements a file has, or lines."""

    def figure(folder: Path, _: str) -> float:
        text = (folder / name).read_text()
        return len(re.findall(f"<{tag} ", text)) if tag else len(text.splitlines())

    return figure


def kilobytes(name: str) -> Figure:
    """The size of a picture."""
    return lambda folder, _: (folder / name).stat().st_size / 1000


@dataclass(frozen=True)
class Tool:
    """A tool of SUMO with its words, and a figure of what it gives, by which both sides are compared; not so where that
    is a picture."""

    command: str
    unit: str
    figure: Figure
    status: int = 0  # with which it ends where all is well


PICTURE = "picture, kB"
TOOLS = (
    Tool("assign/duaIterate.py -n net.xml -t trips.xml -l 3 -e 1500", "mean trip of the third step, s",
         mean_of("002/tripinfo_002.xml", "tripinfo", "duration")),
    Tool("assign/one-shot.py -n net.xml -t trips.xml -e 1500 -f 60", "mean trip, s",
         mean_of("tripinfo_60.xml", "tripinfo", "duration")),
    Tool("runSeeds.py -k run.sumocfg -a {sumo} --seeds 1:3", "mean trip of seed 2, s",
         mean_of("2.tripinfo.xml", "tripinfo", "duration"), 1),
    Tool("averageTripStatistics.py -n 2 run.sumocfg", "mean loss, s", in_text(r"TimeLoss.* mean ([\d.]+)")),
    Tool("tlsCoordinator.py -n net.xml -r vehroute.xml -o a.xml", "offsets", rows("a.xml", "tlLogic")),
    Tool("tlsCycleAdaptation.py -n net.xml -r vehroute.xml -o a.xml", "lights", rows("a.xml", "tlLogic")),
    Tool("routeSampler.py -r vehroute.xml --edgedata-files counts.xml -o a.xml",
         "vehicles", rows("a.xml", "vehicle")),
    Tool("output/vehrouteDiff.py vehroute.xml vehroute.xml a.xml", "vehicles", rows("a.xml", "vehicle")),
    Tool("output/tripinfoDiff.py tripinfo.xml tripinfo.xml a.xml", "vehicles", rows("a.xml", "vehicle")),
    Tool("output/edgeDataDiff.py edgedata.xml edgedata.xml a.xml", "edges", rows("a.xml", "edge")),
    Tool("output/tripStatistics.py -t tripinfo.xml -o a.txt", "lines", rows("a.txt")),
    Tool("output/attributeStats.py tripinfo.xml -e tripinfo -a routeLength", "mean way, m", in_text(r"mean ([\d.]+)")),
    Tool("output/attributeStats.py tripinfo.xml -e tripinfo -a duration", "mean trip, s", in_text(r"mean ([\d.]+)")),
    Tool("output/attributeStats.py statistic.xml -e vehicleTripStatistics -a speed", "speed of trips, m/s",
         in_text(r"mean ([\d.]+)")),
    Tool("output/attributeStats.py e1.xml -e interval -a nVehContrib", "vehicles at a loop", in_text(r"mean ([\d.]+)")),
    Tool("output/attributeStats.py e2.xml -e interval -a meanVehicleNumber", "vehicles in an area",
         in_text(r"mean ([\d.]+)")),
    Tool("output/attributeStats.py edgedata.xml -e edge -a speed", "speed on edges, m/s", in_text(r"mean ([\d.]+)")),
    Tool("output/computeCoordination.py -f fcd.xml --filter-route J1J2,J2J3", "vehicles of a way",
         in_text(r"n=(\d+)")),
    Tool("xml/xml2csv.py tripinfo.xml -o a.csv", "lines", rows("a.csv")),
    Tool("xml/xml2csv.py summary.xml -o a.csv", "lines", rows("a.csv")),
    Tool("countEdgeUsage.py vehroute.xml -o a.xml", "edges", rows("a.xml", "edge")),
    Tool("traceExporter.py -i fcd.xml -n net.xml --gpx-output a.xml", "points", rows("a.xml", "trkpt")),
    Tool("visualization/plot_summary.py -i summary.xml -m running --blind -o a.png", PICTURE, kilobytes("a.png")),
    Tool("visualization/plot_tripinfo_distributions.py -i tripinfo.xml -m duration --blind -o a.png", PICTURE,
         kilobytes("a.png")),
    Tool("visualization/plot_net_dump.py -n net.xml -m speed,entered -i edgedata.xml,edgedata.xml --blind -o a%s.png",
         PICTURE, kilobytes("a300.0.png")),
    Tool("visualization/plotXMLAttributes.py -x depart -y duration -o a.png tripinfo.xml", PICTURE, kilobytes("a.png")),
    Tool("plot_trajectories.py -t td -o a.png fcd.xml", PICTURE, kilobytes("a.png")),
)  # fmt: skip


def environment(program: str, binary: str) -> dict[str, str]:
    """Where tools find SUMO's files and the simulator."""
    paths = {"SUMO_HOME": SUMO_HOME, "MPLBACKEND": "Agg", "STREETSIM_PROGRAM": program}
    return {**os.environ, **paths, **({} if binary == "sumo" else {"SUMO_BINARY": binary})}


def prepare(folder: Path, program: str, binary: str, seconds: int) -> None:
    """The corridor's files, and the output files of a run over a simulator."""
    folder.mkdir(parents=True)
    (folder / "net.xml").write_bytes(gzip.decompress((CORRIDOR / "corridor.net.xml.gz").read_bytes()))
    (folder / "routes.xml").write_text((CORRIDOR / "corridor.rou.xml").read_text())
    (folder / "outputs.add.xml").write_text(ADDITIONAL)
    trip_words = "-n net.xml -o trips.xml -e 900 -p 2 --fringe-factor 100 --seed 1 --validate"
    shared.run([PYTHON, shared.RANDOM_TRIPS, *trip_words.split()], folder)
    config = (
        '<configuration><net-file value="net.xml"/><route-files value="routes.xml"/>'
        f'<end value="{seconds}"/><tripinfo-output value="tripinfo.xml"/></configuration>'
    )
    (folder / "run.sumocfg").write_text(config)
    run_words = [binary, "-c", "run.sumocfg", "-a", "outputs.add.xml", "--vehroute-output.exit-times", "--no-step-log"]
    run_words += [word for kind in OUTPUTS for word in (f"--{kind}-output", f"{kind}.xml")]
    subprocess.run(run_words, cwd=folder, env=environment(program, binary), check=True, capture_output=True)
    dumped = (folder / "edgedata.xml").read_text()  # a count is of all who were on an edge
    counts = re.compile(r'departed="(\d+)".*?entered="(\d+)"')
    counted = counts.sub(lambda one: f'entered="{int(one[1]) + int(one[2])}"', dumped)
    (folder / "counts.xml").write_text(counted)


def run(tool: Tool, folder: Path, program: str, binary: str) -> tuple[float | None, str]:
    """(the figure of a tool over a simulator, None where it fails; the last line of what it said)."""
    script, *words = tool.command.format(sumo=binary).split()
    for path in folder.glob("a.*"):  # of the tool before
        path.unlink()
    process = subprocess.run(
        [PYTHON, f"{SUMO_HOME}/tools/{script}", *words], cwd=folder, env=environment(program, binary),
        capture_output=True, text=True, check=False, timeout=600,
    )  # fmt: skip
    lines = [line for line in (process.stdout + process.stderr).splitlines() if line.strip()] or ["says nothing"]
    try:
        if process.returncode == tool.status:
            return tool.figure(folder, process.stdout + process.stderr), ""
    except (OSError, TypeError, ValueError, ElementTree.ParseError):
        pass
    return None, lines[-1]


def verdict(tool: Tool, theirs: float | None, ours: float | None, why: str) -> str:
    """How a tool does over streetsim-sumo beside SUMO."""
    if theirs is None:
        return "fails over both" if ours is None else "works here alone"
    if ours is None:
        return f"not here: {why}"
    off = ours / theirs - 1 if theirs else 0.0
    return "works" if tool.unit == PICTURE else "as in SUMO" if abs(off) < 0.005 else f"{100 * off:+.1f} %"


def main_sumo_tools(argv: list[str]) -> int | None:
    """SUMO's own tools over sumo and over streetsim-sumo: as in SUMO, other by so much, or not.

    Takes minutes; needs sumo, sumo-tools, python3-matplotlib.

    Each tool runs unmodified with SUMO_BINARY in two folders, with the files of a run of the corridor that each
    simulator has written. A figure of what it gives is compared. The status is 1 where a tool works over SUMO alone.
    """
    parser = shared.parser_of(main_sumo_tools, work=True)
    parser.add_argument("--seconds", type=int, default=1800)
    parser.add_argument("tools", nargs="*", help="parts of names; all where there are none")
    options = parser.parse_intermixed_args(argv)
    folders = {"sumo": shared.work_of(options) / "sumo", OURS: options.work / "streetsim"}
    for binary, folder in folders.items():
        if not folder.exists():
            prepare(folder, options.program, binary, options.seconds)
    failed, tools_by_result = 0, dict[str, list[str]]()
    shared.print_heads("Tool | what is compared | over SUMO | over `streetsim-sumo` | result")
    for tool in TOOLS:
        if options.tools and not any(part in tool.command for part in options.tools):
            continue
        (there, _), (here, why) = (run(tool, folder, options.program, binary) for binary, folder in folders.items())
        numbers = " | ".join("-" if one is None else f"{one:.4g}" for one in (there, here))
        failed += there is not None and here is None
        name, result = Path(tool.command.split()[0]).stem, verdict(tool, there, here, why)
        print(f"| {name} | {tool.unit} | {numbers} | {result} |", flush=True)
        title = "other" if result.endswith("%") else result
        tools_by_result.setdefault(title, []).append(f"{name} ({tool.unit}: {result})" if title == "other" else name)
    print()
    shared.print_heads("Over `streetsim-sumo` | SUMO's tools")  # as the page has it
    for title, names in sorted(tools_by_result.items()):
        print(f"| {title} | {', '.join(dict.fromkeys(names))} |")
    if failed:
        print(f"{failed} tools work over SUMO alone", file=sys.stderr)
    return int(failed > 0)
