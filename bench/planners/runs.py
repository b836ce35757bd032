"""What whole runs take: a day, all tables beside SUMO's outputs, rounds; and the live page, with its pictures."""

import argparse
import contextlib
import gzip
import json
import os
import random
import re
import statistics
import subprocess
import tempfile
import threading
import time
from collections.abc import Iterator
from contextlib import contextmanager
from dataclasses import dataclass
from pathlib import Path
from statistics import fmean
from typing import TYPE_CHECKING

import shared
from networks.streets import generate
from program import steps
from repository.pages import add_put, keep_result
from shared import TOOLS, TOP
from streetsim.base import limits
from streetsim.cli import run as running
from streetsim.control.settings import Settings
from streetsim.live.bridge import Bridge
from streetsim.live.page import live_page
from streetsim.live.session import PageSession
from streetsim.live.world import PageRun
from streetsim.model.folder import read_folder
from streetsim.model.mapping import Map, MapLink, read_map
from streetsim.model.runs import Run, read_run

if TYPE_CHECKING:
    from selenium.webdriver import Chrome

SIDE = 30
# Vehicles of each hour, of 1,000.
HOURS = (5, 3, 3, 3, 5, 15, 45, 80, 75, 55, 45, 45, 50, 50, 50, 55, 75, 85, 75, 55, 45, 35, 28, 18)


def make_network(path, side, kind):
    generate(path, f"--grid --grid.number {side} --grid.length 200 -L 1 -j {kind} --no-turnarounds true --seed 1")


def name_of(column, row, side):
    """A junction as netgenerate names it: a letter for the column, two where there are more than 26,
    and a number for the row."""
    letters = "ABCDEFGHIJKLMNOPQRSTUVWXYZ"
    return f"{letters[column // 26] if side > 26 else ''}{letters[column % 26]}{row}"


def route(draws, side):
    """Edges from one junction to another, some along the one street and then the other, some in steps."""
    while True:
        (x, y), (to_x, to_y) = ((draws.randrange(side), draws.randrange(side)) for _ in range(2))
        if abs(x - to_x) + abs(y - to_y) >= 3:
            break
    moves = ["x"] * abs(x - to_x) + ["y"] * abs(y - to_y)
    if draws.random() < 0.5:
        draws.shuffle(moves)
    edges = []
    for move in moves:
        before = name_of(x, y, side)
        if move == "x":
            x += 1 if to_x > x else -1
        else:
            y += 1 if to_y > y else -1
        edges.append(before + name_of(x, y, side))
    return edges


def write_routes(path, departs, draws, side):
    """Vehicles on drawn ways over a grid, by when they depart."""
    lines = (
        f'<vehicle id="{number}" depart="{depart}"><route edges="{" ".join(route(draws, side))}"/></vehicle>\n'
        for number, depart in enumerate(departs)
    )
    path.write_text(f"<routes>\n{''.join(lines)}</routes>\n", encoding="utf-8")


def measured(name, command, folder):
    """Runs a command in a folder, and prints a row of what it and all that it starts took; gives seconds of processors
    and most memory, MB."""
    begin = time.monotonic()
    took, most = measured_family(command, folder)
    print(f"| {name} | {time.monotonic() - begin:.0f} | {took:.1f} | {most:.0f} |", flush=True)
    return took, most


def measured_family(command, folder, log_path=None):
    """Runs a command in a folder; gives seconds of processors and most memory, MB, of it and all that it starts.
    log_path: the file for what it says."""
    seconds_before, greatest_memory = shared.children_seconds(), 0
    environment = {**shared.with_sumo(), "PYTHONDONTWRITEBYTECODE": ""}
    with contextlib.ExitStack() as files:
        said = {"stdout": files.enter_context(open(log_path, "wb")), "stderr": subprocess.STDOUT} if log_path else {}
        process = files.enter_context(subprocess.Popen([*map(str, command)], cwd=folder, env=environment, **said))
        while process.poll() is None:
            greatest_memory = max(greatest_memory, sum(map(resident, family(process.pid))))
            time.sleep(0.1)
    return shared.children_seconds() - seconds_before, greatest_memory / 1024


def family(process):
    """The numbers of a process and of all that it has started, and these."""
    found = [process]
    for one in found:
        for told in Path(f"/proc/{one}/task").glob("*/children"):
            with contextlib.suppress(OSError):
                found += map(int, told.read_text().split())
    return found


def resident(process):
    """The memory of a process, KB; 0 where it has ended."""
    with contextlib.suppress(OSError):
        if found := re.search(r"VmRSS:\s*(\d+)", Path(f"/proc/{process}/status").read_text()):
            return int(found[1])
    return 0


def sumo_words(net, routes, until, folder):
    """The words of SUMO for a run with its outputs."""
    data = (f'<{kind}Data id="{kind}" file="{kind}.xml" freq="900"/>' for kind in ("edge", "lane"))
    (folder / "outputs.add.xml").write_text(f"<additional>{''.join(data)}</additional>", encoding="utf-8")
    words = ["sumo", "-n", net, "-r", routes, "-a", "outputs.add.xml", "--end", until, "--no-step-log", "--no-warnings"]
    words += ["--time-to-teleport", 300, "--tripinfo-output", "t.xml", "--summary-output", "s.xml"]
    return [*words, "--queue-output", "q.xml", "--statistic-output", "st.xml"]


def main_day(argv: list[str]) -> int | None:
    """What a day of 900 signals and 240,000 vehicles takes, here and in SUMO.

    Takes minutes, with --sumo half an hour; needs sumo.

    Makes the network by SUMO's netgenerate (30 by 30 junctions 200 m apart, one lane; with --side and --type others:
    priority has no lights), and vehicles between random edges along the grid with two peaks, where the folder does not
    have them yet; imports them and runs them, with --sumo in SUMO too, with its tripinfo, summary, queues, edges, lanes
    and statistics. All other words are words of streetsim-run. Prints seconds of the processor, of all processes, and
    the most memory that all of them had at once, looked at ten times a second.
    """
    parser = shared.parser_of(main_day, work=True)
    parser.add_argument("--vehicles", type=int, default=240_000)
    parser.add_argument("--side", type=int, default=SIDE, help="junctions in a row")
    parser.add_argument("--type", default="traffic_light", help="of junctions: traffic_light, priority, ..")
    parser.add_argument("--until", type=int, default=86_400)
    parser.add_argument("--sumo", action="store_true", help="run it in SUMO too")
    add_put(parser)
    args, run_words = parser.parse_known_args(argv)
    folder = shared.work_of(args)
    network, routes, run, mapped = (folder / name for name in ("net.xml", "rou.xml", "run.jsonl", "map.json"))
    if not routes.exists():
        make_network(network, args.side, args.type)
        draws = random.Random(1)
        departs = [3600 * hour + draws.randrange(3600) for hour in draws.choices(range(24), HOURS, k=args.vehicles)]
        write_routes(routes, sorted(departs), draws, args.side)
    shared.print_heads("What | s by the clock | s of processors | most memory, MB")
    if not run.exists():
        command = [TOP / "tools/streetsim-import", network, "--routes", routes, "-o", run, "--map", mapped]
        measured("import", command, folder)
    command = [TOP / "tools/streetsim-run", run, "--map", mapped, "--until", args.until, "--program", args.program]
    took, most = measured("run", [*command, "--out", folder / "out", *run_words], folder)
    if (args.type, args.until, run_words) == ("traffic_light", 86_400, ["--junctions", "900"]):
        what = f"a day of {args.side**2} signals and {args.vehicles:,} vehicles, all tables"
        told = f"tools and streetsim {took:.0f} s, {most:.0f} MB, at a load of {os.getloadavg()[0]:.0f}"
        keep_result(args, "program", what, {"Measured": told})
    if args.sumo:
        measured("SUMO", sumo_words(network, routes, args.until, folder), folder)


@dataclass
class RunFiles:
    """The files of a run, and the words by which it is made."""

    net: Path
    routes: Path
    until: int
    run_words: tuple[str, ...] = ("--junctions", "900")


def corridor(folder):
    net, routes = shared.CORRIDOR / "corridor.net.xml.gz", shared.CORRIDOR / "corridor.rou.xml"
    return RunFiles(net, routes, 4500, ("--every", "1", "--junctions", "900"))


def sample_grid(folder):
    return RunFiles(shared.SAMPLES / "grid.net.xml.gz", shared.SAMPLES / "grid.rou.xml.gz", 5400)


def big(folder):
    """A grid of SUMO's of 144 lights with vehicles between random edges, within an hour."""
    net, routes, draws = folder / "big.net.xml", folder / "big.rou.xml", random.Random(1)
    if not routes.exists():
        make_network(net, 12, "traffic_light")
        write_routes(routes, sorted(draws.randrange(3600) for _ in range(8000)), draws, 12)
    return RunFiles(net, routes, 5400)


RUNS = {"corridor": corridor, "grid": sample_grid, "big": big}


def seconds_of(command, folder, told):
    """The processor seconds of a command and all that it starts."""
    before = shared.children_seconds()
    with open(told, "w", encoding="utf-8") as file:
        command = [str(word) for word in command]
        environment = {**shared.with_sumo(), "PYTHONDONTWRITEBYTECODE": ""}  # modules are compiled once, as installed
        subprocess.run(command, cwd=folder, env=environment, stdout=file, stderr=file, check=True)
    return shared.children_seconds() - before


def main_kernel_runs(argv: list[str]) -> int | None:
    """What runs with all tables take, beside SUMO with its outputs.

    Takes minutes a run; needs sumo, sumo-tools.

    | Run | is | until, s |
    |---|---|---|
    | corridor | the corridor of the tools' walk, 2,400 vehicles, with `--every 1` | 4,500 |
    | grid | the samples' grid, 36 lights, 3,600 vehicles | 5,400 |
    | big | netgenerate's grid of 12 by 12 lights, one lane, 200 m; 8,000 vehicles in an hour | 5,400 |

    All of them with `--junctions 900`, and with `--rounds 0`, as rounds are runs of their own. Seconds are those of the
    processor, of all processes, the median of N turns in which streetsim, and SUMO with tripinfo, summary, queues,
    edges, lanes and statistics, go in turn.
    """
    parser = shared.parser_of(main_kernel_runs, work=True)
    shared.add_some(parser, "--only", RUNS)
    parser.add_argument("--times", type=int, default=3)
    args = parser.parse_args(argv)
    top = shared.work_of(args)
    shared.print_heads("Run | here, s | SUMO, s | here : SUMO")
    for name in args.only:
        folder = top / name
        folder.mkdir(exist_ok=True)
        case = RUNS[name](folder)
        if not (folder / "run.map.json").exists():
            words = [TOP / "tools/streetsim-import", case.net, "--routes", case.routes]
            shared.run([*words, "-o", "run.jsonl", "--map", "run.map.json"], folder)
        words = ["run.jsonl", "--map", "run.map.json", "--until", case.until, "--rounds", 0, *case.run_words]
        turns = {
            "here": [TOP / "tools/streetsim-run", *words, "--program", args.program, "--out", "here"],
            "sumo": sumo_words(case.net, case.routes, case.until, folder),
        }
        took = {turn: [] for turn in turns}
        for _ in range(args.times):
            for turn, command in turns.items():
                took[turn].append(seconds_of(command, folder, folder / f"{turn}.log"))
        here, sumo = (statistics.median(took[turn]) for turn in turns)
        print(f"| {name} | {here:.2f} | {sumo:.2f} | {here / sumo:.3f} |", flush=True)


ROUNDS = range(5)


def rounds_run(args, count):
    """Mean trips by seed, and processor seconds a run."""
    times_before = os.times()
    with tempfile.TemporaryDirectory() as folder:
        words = [
            args.run, "--map", args.map, "--until", str(args.until), "--every", "600", "--seeds", args.seeds,
            "--departures", "listed",
            "--jobs", "1",
        ]
        running.main([*words, "--rounds", str(count), "--out", folder, "--program", args.program])
        found = [read_folder(str(one)).trips() for one in sorted(Path(folder).glob("seed-*"))]
    spent = sum(os.times()[:4]) - sum(times_before[:4])
    return [fmean(float(trip["duration"]) for trip in trips if trip["duration"]) for trips in found], spent / len(found)


def main_rounds(argv: list[str]) -> int | None:
    """What rounds of giving way cost, and how much more of them change mean trips.

    Takes minutes.

    Times are processor seconds of the tools and of streetsim.
    """
    parser = shared.parser_of(main_rounds)
    parser.add_argument("run")
    parser.add_argument("map")
    parser.add_argument("--until", type=int, required=True)
    parser.add_argument("--seeds", default="1-3")
    args = parser.parse_args(argv)
    rows, usual = [], None
    for count in ROUNDS:
        means, spent = rounds_run(args, count)
        usual = usual or spent
        rows.append(f"| {count} | {fmean(means):.1f} | {spent:.1f} | {spent / usual:.1f} |")
    shared.print_heads("Rounds | mean trip, s | processor, s | times")
    print(*rows, sep="\n")


VEHICLES, SPACING, ROW = 10_000, 750, 32  # metres, and nodes in a row
# Pixels a metre of each view; none is the whole network.
VIEWS = {"whole": None, "0.25 pixels a metre": 0.25, "2 pixels a metre": 2.0, "most lanes": "most"}
VIEW = """
const [scale] = arguments, shown = () => scene.links.filter(link => scene.isInView(link));
const lanes = () => shown().reduce((sum, link) => sum + link.lanes, 0);
scene.moved = false; scene.fit();
const middle = session.data.nodes[Math.floor(session.data.nodes.length / 2)];
if (scale) { scene.moved = true; [scene.x, scene.y, scene.scale] = [middle.x, middle.y, scale === "most" ? 2 : scale]; }
if (scale === "most") { while (lanes() <= MOST_LANES) scene.scale *= 0.99; scene.scale /= 0.99; }
if (!playing) toggle();
return lanes();
"""
COUNT = """
const [seconds, done] = arguments, from = performance.now(), clock = session.clock;
let frames = 0;
const count = () => { frames++; \
if (performance.now() - from < 1000 * seconds) requestAnimationFrame(count); \
else done([frames, session.clock - clock, performance.now() - from]); };
requestAnimationFrame(count);
"""


def grid(folder: Path) -> tuple[Run, Map]:
    """The grid of `steps` as a run and its map."""
    lines, _ = steps.grid(VEHICLES)
    path = folder / "grid.jsonl"
    path.write_text("".join(line + "\n" for line in lines))
    load = json.loads(lines[0])
    place = [(SPACING * (at // ROW), SPACING * (at % ROW)) for at in range(ROW * ROW)]
    links = [
        MapLink(f"link{number}", (0, 1), begin, end, cells, limit, float(SPACING), (place[begin], place[end]))
        for number, begin, end, _, cells, limit in load["links"]
    ]
    nodes = [[f"node{at}", *place[at], 4] for at in range(ROW * ROW)]
    names = [f"vehicle{number}" for number in range(VEHICLES)]
    return read_run(path), Map(nodes=nodes, links=links, turns=[], signals=[], cars=names, options={}, warnings=[])


@contextmanager
def browser() -> Iterator["Chrome"]:
    from selenium import webdriver  # which the measurements above do without

    options = webdriver.ChromeOptions()
    for word in ("headless=new", "no-sandbox", "window-size=1366,768"):
        options.add_argument(f"--{word}")
    options.add_argument("--host-resolver-rules=MAP * ~NOTFOUND, EXCLUDE 127.0.0.1")
    made = webdriver.Chrome(options=options, service=webdriver.chrome.service.Service("/usr/bin/chromedriver"))
    made.set_script_timeout(600)
    try:
        yield made
    finally:
        made.quit()


@contextmanager
def served(run: Run, mapping: Map, program: str) -> Iterator[str]:
    """The address of a page that the bridge serves."""
    of = PageRun(run, mapping, Settings(limits.CLOCK, 0), program)
    with contextlib.closing(PageSession(of)) as session, Bridge(session, live_page(of)) as bridge:
        threading.Thread(target=bridge.serve_forever, daemon=True).start()
        yield bridge.address
        bridge.shutdown()


def opened(page: "Chrome", address: str, begin: int) -> None:
    """Opens a page and makes its first steps."""
    page.get(address)
    while not page.execute_script("return document.body?.dataset.ready || ''"):
        time.sleep(0.2)
    page.execute_async_script("const done = arguments[1]; guarded(() => advance(arguments[0])).then(done)", begin)


def measure(page: "Chrome", name: str, scale: float | str | None, options: argparse.Namespace) -> None:
    """Plays in a view for some seconds, and prints a row."""
    lanes = page.execute_script(VIEW, scale)
    time.sleep(2)
    frames, made, spent = page.execute_async_script(COUNT, options.seconds)
    shown = json.loads(page.execute_script("if (playing) toggle(); return document.body.dataset.shown"))
    load = os.getloadavg()[0]
    print(
        f"| {name} | {lanes:,} | {shown['driving']:,} | {1000 * frames / spent:.0f} | "
        f"{1000 * made / spent:.1f} | {load:.1f} |",
        flush=True,
    )
    told = f"{1000 * frames / spent:.0f}, beside a load of {load:.0f} on {len(os.sched_getaffinity(0))} processors"
    keep_result(options, "program", f"frames a second of the live page, {name}", {"Measured": told})


def measure_all(page: "Chrome", options: argparse.Namespace, folder: Path) -> None:
    """Prints a row for each view of the corridor and the grid."""
    corridor = read_run(options.corridor), read_map(options.map)
    for name, (run, mapping), begin, views in (
        ("corridor", corridor, 900, {"whole": None}),
        (f"grid of {VEHICLES:,}", grid(folder), 500, VIEWS),
    ):
        with served(run, mapping, options.program) as address:
            opened(page, address, begin)
            for view, scale in views.items():
                measure(page, f"{name}, {view}", scale, options)
            page.get("about:blank")


def main_live(argv: list[str]) -> int | None:
    """Frames and steps a second of the live page.

    Takes minutes; needs python3-selenium, chromium-driver.

    The corridor is a run file and a map as streetsim-import wrote them; the grid is that of `steps`, with 10,000
    vehicles, in four views: the whole, a scale at which some hundred lanes are seen, one junction, and the view with as
    many lanes as vehicles are drawn on, which costs the most. The load of the machine is printed beside.
    """
    parser = shared.parser_of(main_live)
    parser.add_argument("corridor")
    parser.add_argument("map")
    parser.add_argument("--seconds", type=int, default=6)
    add_put(parser)
    args = parser.parse_args(argv)
    shared.print_heads("Page | lanes in view | vehicles driving | frames a second | steps a second | load")
    with tempfile.TemporaryDirectory() as folder, browser() as page:
        measure_all(page, args, Path(folder))


EXAMPLES = TOOLS / "examples"
CROSS_STREETS = ("Mill Lane", "Church Street", "Station Road", "Park Road", "School Lane")
STEP = "await guarded(async () => { await advance(%d); draw(1); showTables(); });"
# The light in the middle of the corridor gets another offset, and time passes.
LIGHT = f"""
setTheme("light");
{STEP % 700}
choose({{ node: session.data.nodes.find(({{ light }}) => light?.name === "J2").number }});
await turn;
editor.bars.offset = 25; editor.show();
await guarded(() => editor.send());
{STEP % 300}
const {{ x, y }} = junctions.get(chosen.node);
scene.look({{ x, y, scale: 1 }});
draw(1); showTables();
"""
WAVE = f"""
setTheme("dark");
{STEP % 900}
setMode("path");
const named = name => session.data.links.find(link => link.name === name);
wave.pick(named("WJ1").begin);
for (const name of ["WJ1", "J1J2", "J2J3", "J3J4", "J4J5", "J5E"]) wave.pick(named(name).end);
setMode(null);
for (let step = 0; step < 160; step++) await guarded(() => advance(1));
draw(1); showTables();
"""
# The light at which the most streets meet.
TOWN = f"""
setTheme("dark");
{STEP % 600}
const lights = session.data.nodes.filter(node => session.plans.has(node.number));
const count = node => approaches(node.number).length;
const most = lights.reduce((one, other) => count(other) > count(one) ? other : one);
choose({{ node: most.number }});
await turn;
scene.look({{ x: most.x, y: most.y, scale: 1 }});
draw(1); showTables();
"""
PICTURES = {  # where each lies below the examples, of which run, how wide and high, and what is done
    "corridor/live.png": ("corridor", 1366, 768, LIGHT),
    "corridor/live-wave.png": ("corridor", 1366, 768, WAVE),
    "live-town.png": ("town", 800, 1180, TOWN),
}


def with_street_names(net: str) -> str:
    """The corridor's network with names of its streets."""
    name = {"3": lambda _: "High Street", "1": lambda edge: CROSS_STREETS[int(re.sub(r"\D", "", edge)[0]) - 1]}

    def with_name(found: re.Match) -> str:
        return f'{found[0]} name="{name[found[3]](found[1])}"'

    return re.sub(r'<edge id="([^:"]*)" from="([^"]*)" to="[^"]*" priority="([13])"', with_name, net)


def make_runs(work: Path) -> None:
    """Imports the corridor and the town into a folder."""
    for name in ("corridor", "town"):
        shared.run([TOOLS / "streetsim-example", name, "--out", work], work)
    net = gzip.decompress((work / "corridor.net.xml.gz").read_bytes()).decode()
    (work / "named.net.xml").write_text(with_street_names(net), encoding="utf-8")
    for name, words in (
        ("corridor", ["named.net.xml", "--routes", "corridor.rou.xml"]),
        ("town", ["town.net.xml.gz", "--routes", "town.rou.xml.gz"]),
    ):
        shared.run([TOOLS / "streetsim-import", *words, "-o", f"{name}.jsonl", "--map", f"{name}.map.json"], work)


@contextmanager
def served_by_tool(work: Path, name: str, program: str) -> Iterator[str]:
    """The address that streetsim-live prints for a run."""
    words = [TOOLS / "streetsim-live", f"{name}.jsonl", "--map", f"{name}.map.json", "--no-open", "--program", program]
    with subprocess.Popen(map(str, words), cwd=work, stdout=subprocess.PIPE, text=True) as process:
        try:
            yield process.stdout.readline().strip()
        finally:
            process.terminate()


def take(page: "Chrome", address: str, wide: int, high: int, script: str) -> bytes:
    """The picture of a page once a script is done in it; SystemExit with what the page tells where that fails."""
    size = {"width": wide, "height": high, "deviceScaleFactor": 1, "mobile": False}
    page.execute_cdp_cmd("Emulation.setDeviceMetricsOverride", size)
    page.get(address)
    while not page.execute_script("return document.body?.dataset.ready || ''"):
        time.sleep(0.2)
    doing = f"(async () => {{ {script} }})().then(() => arguments[0](''), fault => arguments[0](fault.message))"
    fault = page.execute_async_script(doing) or page.execute_script("return at('fault').textContent")
    if fault:
        raise SystemExit(fault)
    time.sleep(1)
    picture = page.get_screenshot_as_png()
    page.get("about:blank")
    return picture


def main_live_pictures(argv: list[str]) -> int | None:
    """The pictures of tools/LIVE.md.

    Takes a minute; needs python3-selenium, chromium-driver.

    The corridor gets names of streets first.
    """
    parser = shared.parser_of(main_live_pictures)
    parser.add_argument("--work", help="a folder for the runs (default: one that goes again)")
    parser.add_argument("--out", default=str(EXAMPLES), help="where the pictures go (default: tools/examples)")
    options = parser.parse_args(argv)
    with tempfile.TemporaryDirectory() as spare, browser() as page:
        work = Path(options.work or spare)
        work.mkdir(parents=True, exist_ok=True)
        make_runs(work)
        for path, (run, wide, high, script) in PICTURES.items():
            with served_by_tool(work, run, options.program) as address:
                picture = Path(options.out) / path
                picture.parent.mkdir(parents=True, exist_ok=True)
                picture.write_bytes(take(page, address, wide, high, script))
            print(path, flush=True)
