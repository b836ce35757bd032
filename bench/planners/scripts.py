"""Over TraCI: the environment for learning, scripts as users write them, and buses, whose priority a script gives in
SUMO."""

import argparse
import csv
import gzip
import os
import random
import re
import shutil
import statistics
import subprocess
import sys
import tempfile
import time
import xml.etree.ElementTree as ElementTree
from collections import Counter
from collections.abc import Iterator
from contextlib import contextmanager
from functools import partial
from pathlib import Path
from statistics import fmean
from types import ModuleType

import shared
from beside_sumo.rows import run_files
from networks.streets import Plain
from shared import CORRIDOR, SAMPLES, SUMO_HOME, TOP
from streetsim.control.actuated_logic import GREEN_LETTERS
from streetsim.control.bus_coordinated import Coordinated
from streetsim.control.bus_planned import SEEN_SECONDS
from streetsim.control.bus_priority import bounded
from streetsim.env import SignalEnv

EVERY, YELLOW, GREEN = 5, 3, 6  # seconds, seconds, steps
CROSS = TOP / "tools/examples/actuated"
NETS = {
    "cross, 1 light": (CROSS / "cross.net.xml.gz", CROSS / "cross.rou.xml"),
    "grid, 36 lights": (SAMPLES / "grid.net.xml.gz", SAMPLES / "grid.rou.xml.gz"),
}


class OverSumo:
    """The environment's steps over SUMO's traci."""

    def __init__(self, words: list[str], traci) -> None:
        self.traci = traci
        traci.start(["sumo", *words, "--no-step-log", "--no-warnings", "--ignore-route-errors"])
        light, lane = traci.trafficlight, traci.lane
        self.lanes = {name: list(dict.fromkeys(light.getControlledLanes(name))) for name in light.getIDList()}
        states = {name: [phase.state for phase in light.getAllProgramLogics(name)[0].phases] for name in self.lanes}
        self.greens = {
            name: [state for state in of if "y" not in state.lower() and "g" in state.lower()]
            for name, of in states.items()
        }
        self.green_indexes = dict.fromkeys(self.lanes, 0)
        for name in {name for lanes in self.lanes.values() for name in lanes}:
            lane.subscribe(
                name,
                [
                    traci.constants.LAST_STEP_VEHICLE_NUMBER,
                    traci.constants.LAST_STEP_VEHICLE_HALTING_NUMBER,
                    traci.constants.VAR_WAITING_TIME,
                ],
            )

    def step(self, actions: dict[str, int]) -> dict[str, list[float]]:
        traci = self.traci
        changed = [name for name, action in actions.items() if action != self.green_indexes[name]]
        for name in changed:
            before, after = self.greens[name][self.green_indexes[name]], self.greens[name][actions[name]]
            yellow = "".join(
                "y" if now in "Gg" and then not in "Gg" else now for now, then in zip(before, after, strict=True)
            )
            traci.trafficlight.setRedYellowGreenState(name, yellow)
            self.green_indexes[name] = actions[name]
        for second in range(EVERY):
            if second == YELLOW:
                for name in changed:
                    traci.trafficlight.setRedYellowGreenState(name, self.greens[name][self.green_indexes[name]])
            traci.simulationStep()
        found = traci.lane.getAllSubscriptionResults()
        return {name: [value for lane in lanes for value in found[lane].values()] for name, lanes in self.lanes.items()}


@contextmanager
def over_sumo(traci, words: list[str]) -> Iterator[tuple[OverSumo, dict[str, int]]]:
    made = OverSumo(words, traci)
    yield made, {name: len(greens) for name, greens in made.greens.items()}
    traci.close()


@contextmanager
def over_streetsim(words: list[str]) -> Iterator[tuple[SignalEnv, dict[str, int]]]:
    with SignalEnv([*words, "-W"], every=EVERY, yellow=YELLOW, least=EVERY) as made:
        made.reset(seed=1)
        yield made, {name: made.actions(name) for name in made.lights}


def simulators() -> tuple[ModuleType, ModuleType]:
    """SUMO's libsumo and its traci; Debian's libsumo has its program, which that of SUMO_HOME lacks."""
    os.environ.setdefault("SUMO_HOME", SUMO_HOME)
    sys.path[1:1] = ["/usr/lib/python3/dist-packages", f"{SUMO_HOME}/tools"]
    import libsumo
    import traci

    return libsumo, traci


def processor() -> float:
    """Processor seconds of this process and of those that it has waited for."""
    return sum(os.times()[:4])


def measure(opened, words: list[str], seconds: int) -> float:
    """Steps a processor second; what is spent until the first step does not count."""
    with opened(words) as (made, greens):
        spent = -processor() - processor_of_children()
        for step in range(seconds // EVERY):
            made.step({name: step // GREEN % count for name, count in greens.items()})
        spent += processor() + processor_of_children()
    return seconds / EVERY / spent


def processor_of_children() -> float:
    """Processor seconds of the processes that run below this one."""
    ticks, total = os.sysconf("SC_CLK_TCK"), 0.0
    for place in Path("/proc").iterdir():
        if place.name.isdecimal():
            try:
                fields = (place / "stat").read_text().rsplit(")", 1)[1].split()
            except OSError:
                continue
            if int(fields[1]) == os.getpid():
                total += (int(fields[11]) + int(fields[12])) / ticks
    return total


def main_environment(argv: list[str]) -> int | None:
    """Steps a second of the environment for learning, beside SUMO's libsumo and traci.

    Takes minutes; needs sumo, sumo-tools.

    An environment's step is five seconds. Greens go in turn, each for 30 s, on the cross of examples/actuated (one
    light) and on the grid of the tests (36 lights). Over SUMO vehicles, standing vehicles and waiting times of the
    lanes before each light are subscribed to, which is the least that it can cost; what a step gives is made of the
    same figures. Processor seconds of all processes count. The three ways take turns, and medians count, as other work
    on the machine changes all of them; the load is printed beside. The program is that of STREETSIM_PROGRAM.
    """
    parser = shared.parser_of(main_environment, program=False)
    parser.add_argument("--seconds", type=int, default=1800)
    parser.add_argument("--times", type=int, default=5, help="of which the median counts")
    args = parser.parse_args(argv)
    rates = "steps a processor second over libsumo | over SUMO's traci | here"
    shared.print_heads(f"Network | {rates} | here by libsumo | load")
    with tempfile.TemporaryDirectory() as folder:  # SUMO writes beside itself
        os.chdir(folder)
        ways = *(partial(over_sumo, one) for one in simulators()), over_streetsim
        for name, (net, routes) in NETS.items():
            given = ["-n", str(net), "-r", str(routes), "--seed", "1"]
            begin = time.time()
            found = [[measure(opened, given, args.seconds) for opened in ways] for _ in range(args.times)]
            told = " | ".join(f"{statistics.median(rates):.0f}" for rates in zip(*found, strict=True))
            share = statistics.median(own / theirs for theirs, _, own in found)
            print(f"| {name} | {told} | {share:.2f} | {os.getloadavg()[0]:.1f} |", flush=True)
            print(f"({time.time() - begin:.0f} s)", file=sys.stderr)


SCRIPTS = TOP / "bench/sumo_scripts"
SCRIPT_NETS = {
    "grid": (SAMPLES / "grid.net.xml.gz", SAMPLES / "grid.rou.xml.gz"),
    "corridor": (CORRIDOR / "corridor.net.xml.gz", CORRIDOR / "corridor.rou.xml"),
}
BUS = '<vType id="BUS" vClass="bus"/>'
# Runs a script and tells the processor seconds of the processes that it has waited for.
RUN = """import os, runpy, sys
sys.argv = sys.argv[1:]
runpy.run_path(sys.argv[0], run_name="__main__")
print("seconds", sum(os.times()[2:4]))"""


def text_of(path: Path) -> str:
    opened = gzip.open if path.suffix == ".gz" else open
    with opened(path, "rt", encoding="utf-8") as file:
        return file.read()


def files_of(name: str, folder: Path) -> list[str]:
    """The words of a network: its file, its demand with buses, and loops 20 m before each stop line at a light."""
    net, routes = SCRIPT_NETS[name]
    count = iter(range(10**9))
    bus = 'type="BUS" '
    demand = re.sub("<(vehicle|flow) ", lambda one: one[0] + bus * (next(count) % 20 == 7), text_of(routes))
    demand = re.sub("(<routes[^>]*>)", rf"\1{BUS}", demand, count=1)
    (folder / f"{name}.rou.xml").write_text(demand)
    network = text_of(net)
    metres = dict(re.findall(r'<lane id="([^:"]+)"[^>]* length="([\d.]+)"', network))
    lit = sorted({f"{edge}_{lane}" for edge, lane in re.findall(
        r'<connection from="([^":]+)" to="[^"]+" fromLane="(\d+)"[^>]* tl="', network)})
    loops = "".join(
        f'<inductionLoop id="{lane}" lane="{lane}" pos="{float(metres[lane]) - 20:.1f}" freq="900" file="NUL"/>'
        for lane in lit
    )
    (folder / f"{name}.add.xml").write_text(f"<additional>{loops}</additional>")
    return ["-n", str(net), "-r", str(folder / f"{name}.rou.xml"), "-a", str(folder / f"{name}.add.xml"), "--seed", "1"]


def run(script: Path, binary: str, options: argparse.Namespace, script_words: list[str]) -> tuple[int, float]:
    """(arrived vehicles, processor seconds of the simulator) of a script."""
    variables = {**os.environ, "PYTHONPATH": f"{SUMO_HOME}/tools", "SUMO_HOME": SUMO_HOME}
    variables["STREETSIM_PROGRAM"] = options.program
    variables |= {"XDG_CACHE_HOME": str(import_cache(options)), "PYTHONPYCACHEPREFIX": str(options.work / "bytecode")}
    variables.pop("PYTHONDONTWRITEBYTECODE", None)
    done = subprocess.run(
        [sys.executable, "-c", RUN, script, binary, str(options.seconds), *script_words], env=variables,
        capture_output=True, text=True, check=True,
    )  # fmt: skip
    *_, told, spent = [line for line in done.stdout.splitlines() if re.match(r"\d|seconds ", line)]
    return int(told.split()[0]), float(spent.split()[1])


def import_cache(asked: argparse.Namespace) -> Path:
    """The folder of kept imports."""
    return asked.work.resolve() / "kept"


def figures(script: Path, ours: str, options: argparse.Namespace, script_words: list[str]) -> list[tuple[int, float]]:
    """(arrived vehicles, median of processor seconds) over SUMO, at first starts and at later ones."""
    found: list[list[tuple[int, float]]] = [[], [], []]
    for _ in range(options.times):
        shutil.rmtree(import_cache(options), ignore_errors=True)
        for place, binary in zip(found, ("sumo", ours, ours)):
            place.append(run(script, binary, options, script_words))
    return [(own[0][0], statistics.median(seconds for _, seconds in own)) for own in found]


def main_sumo_scripts(argv: list[str]) -> int | None:
    """Twelve scripts for SUMO's own traci, unmodified, over sumo and over streetsim-sumo.

    Takes half an hour; needs sumo, sumo-tools.

    The scripts of bench/sumo_scripts run on the samples' grid and on the corridor, every 20th vehicle of which is a
    bus. What is told are the vehicles that arrived (of the last episode), and the processor seconds of all processes of
    the simulator, from its start to its end, without the script's own: of SUMO, of streetsim-sumo at a first start,
    which imports, and at a later one, for which the import is kept. These three take turns, three times, and the
    medians count, as other work on the machine changes all of them. Python's bytecode is there before, as an
    installation has it. The networks' files are in the folder of --work, and so are kept imports.
    """
    parser = shared.parser_of(main_sumo_scripts, work=True)
    parser.add_argument("--seconds", type=int, default=3600)
    parser.add_argument("--times", type=int, default=3)
    parser.add_argument("scripts", nargs="*")
    options = parser.parse_intermixed_args(argv)
    shared.work_of(options)
    scripts = sorted(path for path in SCRIPTS.glob("*.py") if not options.scripts or path.stem in options.scripts)
    ours = os.environ.get("STREETSIM_SUMO", str(TOP / "tools/streetsim-sumo"))
    heads = "Script | Network | arrived in SUMO | here | processor seconds of SUMO | here, first start | later starts"
    shared.print_heads(heads)
    for script in scripts:
        for name in SCRIPT_NETS:
            words = files_of(name, options.work)
            if script == scripts[0]:
                run(script, ours, options, words)  # which writes the bytecode
            (there, theirs), (here, first), (_, later) = figures(script, ours, options, words)
            seconds = f"{theirs:.2f} | {first:.2f} | {later:.2f}"
            print(f"| {script.stem} | {name} | {there:,} | {here:,} | {seconds} |", flush=True)


SPEED = 13.9  # metres a second
HEADWAY, DWELL = 180, 20  # seconds between buses of a direction, at their stop
UNTIL = 7200
BUSES = {"east": "WJ1 J1J2 J2J3 J3J4 J4J5 J5E", "west": "EJ5 J5J4 J4J3 J3J2 J2J1 J1W"}  # ways of both directions
STOPS = {"east": "J2J3_0", "west": "J4J3_0"}  # lanes
KINDS = {"zero": "fixed, all green at once", "wave": "fixed, a green wave eastward", "actuated": "actuated"}


def make_corridor(folder, kind, bus_attributes=""):
    """The network of the example with lights of a kind, and its demand with buses; bus_attributes: of
    their type."""
    words = ["netconvert", "-s", shared.CORRIDOR / "corridor.net.xml.gz", "-o", "x.net.xml"]
    if kind == "actuated":
        shared.run([*words[:-2], "--plain-output-prefix", "plain"], folder)
        words = "netconvert -n plain.nod.xml -e plain.edg.xml -x plain.con.xml -o x.net.xml --no-turnarounds".split()
        words += ["--tls.default-type", "actuated"]
    shared.run(words, folder)
    stops = "".join(
        f'<busStop id="{name}" lane="{lane}" startPos="120" endPos="150"/>' for name, lane in STOPS.items()
    )
    wave = (shared.CORRIDOR / "wave.add.xml").read_text(encoding="utf-8")
    wave = wave if kind == "wave" else "<additional></additional>"
    (folder / "x.add.xml").write_text(wave.replace("</additional>", f"{stops}</additional>"), encoding="utf-8")
    flows = "".join(
        f'<flow id="bus{name}" type="bus" begin="60" end="3600" period="{HEADWAY}"><route edges="{edges}"/>'
        f'<stop busStop="{name}" duration="{DWELL}"/></flow>'
        for name, edges in BUSES.items()
    )
    demand = (shared.CORRIDOR / "corridor.rou.xml").read_text(encoding="utf-8")
    bus = f'<vType id="bus" vClass="bus" {bus_attributes}/>{flows}</routes>'
    (folder / "x.rou.xml").write_text(demand.replace("</routes>", bus), encoding="utf-8")


class Waiting:
    """A light of SUMO under a script: its own plan's logic here, or that of SUMO's detectors."""

    def __init__(self, traci, name, offset):
        """offset: of fixed plans; none where SUMO's detectors drive it."""
        self.lights, self.name, self.is_fixed = traci.trafficlight, name, offset is not None
        program = self.lights.getAllProgramLogics(name)[-1]
        ends = [(None, None) if self.is_fixed else (one.minDur, one.maxDur) for one in program.phases]
        rows = [(one.duration, one.state, *both) for one, both in zip(program.phases, ends, strict=True)]
        self.phases = [bounded(row, SEEN_SECONDS) for row in rows]
        self.logic, self.since, self.shown_phase = Coordinated(self.phases, ()), 0, 0
        self.logic.begin_at(0, offset or 0)

    def step(self, clock, indexes):
        """Acts by the places in its state that buses call."""
        phases = enumerate(self.phases)
        called = {
            number for number, phase in phases if any(phase.state[index] in GREEN_LETTERS for index in indexes)
        }
        if self.is_fixed:
            if called != set(self.logic.called):
                self.logic.call(clock, called)
            if self.logic.due <= clock:
                self.logic.moves_on(clock, lambda _: 0.0)
                self.lights.setPhase(self.name, self.logic.phase_index)
            return
        phase_number = self.lights.getPhase(self.name)
        if phase_number != self.shown_phase:
            self.shown_phase, self.since = phase_number, clock
        phase, lasted = self.phases[phase_number], clock - self.since
        may_change = called and phase.is_extended and lasted < phase.most_seconds
        if may_change and (phase_number in called or lasted >= phase.least_seconds):
            least_seconds = max(1, phase.least_seconds - lasted) if phase_number in called else 0
            self.lights.setPhaseDuration(self.name, least_seconds)


def corridor_in_sumo(folder, seed, priority, kind):
    """Trips of a run of SUMO, from the wished departure, by name."""
    sys.path.insert(1, f"{shared.SUMO_HOME}/tools")
    import traci

    command = ["sumo", "-n", "x.net.xml", "-a", "x.add.xml", "-r", "x.rou.xml", "--seed", str(seed)]
    command += ["--end", str(UNTIL)]
    command += ["--tripinfo-output", "trips.xml", "--no-step-log", "--no-warnings", "--time-to-teleport", "300"]
    if priority:
        here = [str(folder / word) if word.endswith(".xml") else word for word in command]
        traci.start(here)
        found = ElementTree.parse(folder / "x.add.xml").getroot().iter("tlLogic")
        offsets = {one.get("id"): int(one.get("offset")) for one in found}
        lights = {
            name: Waiting(traci, name, None if kind == "actuated" else offsets.get(name, 0))
            for name in traci.trafficlight.getIDList()
        }
        clock = 0
        while clock < UNTIL and traci.simulation.getMinExpectedNumber():
            traci.simulationStep()
            clock += 1
            indexes = {name: set() for name in lights}
            for bus in (name for name in traci.vehicle.getIDList() if name.startswith("bus")):
                for light, index in seen_before(traci, bus):
                    indexes[light].add(index)
            for name, light in lights.items():
                light.step(clock, indexes[name])
        traci.close()
    else:
        shared.run(command, folder)
    return shared.trips_from_wish(folder / "trips.xml")


def seen_before(traci, bus):
    """The light, and its place in the state, before which a bus is seen: unless it stops before."""
    following = traci.vehicle.getNextTLS(bus)
    stops = traci.vehicle.getStops(bus, 1)
    edge = traci.vehicle.getRoadID(bus)
    if not following or (stops and stops[0].lane.rpartition("_")[0] == edge):
        return []
    light, index, metres, _ = following[0]
    return [(light, index)] if metres / SPEED <= SEEN_SECONDS else []


def corridor_here(program, folder, seed, priority):
    files = ["x.net.xml", "x.add.xml", "--routes", "x.rou.xml", "--seed", seed]
    run_files(folder, files, ["--until", UNTIL, "--every", 0, *(["--priority", "bus"] if priority else [])], program)
    return shared.durations_here(folder / "out")


def means_of_both(trips):
    """The mean trip of buses and of cars."""
    return [fmean(one for name, one in trips.items() if name.startswith("bus") == is_bus) for is_bus in (True, False)]


def priority_rows(args, work):
    """The table of what priority changes."""
    gains = "gain of buses: SUMO, here, s | loss of cars: SUMO, here, s"
    shared.print_heads(f"lights | buses: SUMO, here, s | cars: SUMO, here, s | {gains}")
    for kind, lights_told in KINDS.items():
        if args.lights not in (None, kind):
            continue
        folder = work / f"corridor-{kind}"
        folder.mkdir(exist_ok=True)
        make_corridor(folder, kind, args.bus)
        sides = {(side, priority): [] for side in ("sumo", "here") for priority in (False, True)}
        for seed in shared.numbers(args.seeds):
            for priority in (False, True):
                sides["sumo", priority].append(means_of_both(corridor_in_sumo(folder, seed, priority, kind)))
                sides["here", priority].append(means_of_both(corridor_here(args.program, folder, seed, priority)))
        mean = {key: [fmean(one[at] for one in rows) for at in (0, 1)] for key, rows in sides.items()}
        without = [f"{mean['sumo', False][at]:.1f}, {mean['here', False][at]:.1f}" for at in (0, 1)]
        more = [[mean[side, True][at] - mean[side, False][at] for side in ("sumo", "here")] for at in (0, 1)]
        gain, loss = f"{-more[0][0]:.1f}, {-more[0][1]:.1f}", f"{more[1][0]:.1f}, {more[1][1]:.1f}"
        print(f"| {lights_told} | {' | '.join(without)} | {gain} | {loss} |", flush=True)


# Lanes, the edge of the stop, cars an hour. Buses to the second edge enter on either lane here, and in SUMO by chance.
STREETS = (
    (1, "a", (300, 600, 1000)),
    (2, "a", (600, 1200, 1800)),
    (2, "b", (600, 1200, 1800)),
)
DWELLS = 0, 20, 40  # seconds
BUS_EACH = 120  # seconds between buses
STREET_UNTIL = 5400


def make_street(folder, lanes, edge):
    """A street's network and its stop, on one of its edges."""
    plain = Plain()
    for name, x in (("A", 0), ("M", 600), ("Z", 1200)):
        plain.node(name, x, 0, "priority" if name == "M" else "")
    for name, begin, end in (("a", "A", "M"), ("b", "M", "Z")):
        plain.named_edge(name, begin, end, numLanes=lanes, speed=SPEED)
    plain.make(folder / "street.net.xml")
    stop = f'<busStop id="stop" lane="{edge}_0" startPos="318" endPos="345"/>'
    (folder / "stops.add.xml").write_text(f"<additional>{stop}</additional>", encoding="utf-8")


def make_demand(path, edge, flow, dwell, seed):
    """Cars by chance and buses by the clock; equal seeds have equal cars, whatever the dwell."""
    draws, time, cars = random.Random(seed), 0.0, []
    while (time := time + draws.expovariate(flow / 3600)) < 3600:
        departing = 'departLane="best" departSpeed="max"'
        cars.append((round(time), f'<vehicle id="car{len(cars)}" route="r" depart="{round(time)}" {departing}/>'))
    stop = f'<stop busStop="stop" duration="{dwell}"/>' if dwell else ""
    for number, time in enumerate(range(60, 3600, BUS_EACH)):
        lane = "0" if edge == "a" else "random"
        departing = f'type="bus" route="r" depart="{time}" departLane="{lane}" departSpeed="max"'
        cars.append((time, f'<vehicle id="bus{number}" {departing}>{stop}</vehicle>'))
    cars.sort(key=lambda one: one[0])
    head = '<vType id="bus" vClass="bus"/><route id="r" edges="a b"/>'
    path.write_text(f"<routes>{head}{''.join(text for _, text in cars)}</routes>", encoding="utf-8")


def street_in_sumo(folder, routes, seed):
    """Trips of a run of SUMO, from the wished departure, by name."""
    words = ["sumo", "-n", "street.net.xml", "-a", "stops.add.xml", "-r", routes, "--seed", seed, "--end", STREET_UNTIL]
    shared.run([*words, "--tripinfo-output", "trips.xml", "--no-step-log", "--no-warnings"], folder)
    return shared.trips_from_wish(folder / "trips.xml")


def street_here(program, folder, routes, seed):
    """The same here, and how the stops were made."""
    files = ["street.net.xml", "stops.add.xml", "--routes", routes, "--seed", seed]
    run_files(folder, files, ["--until", STREET_UNTIL, "--every", 0, "--rescue", 0], program)
    states = Counter()
    if (folder / "out/stops.csv").exists():
        with open(folder / "out/stops.csv", encoding="utf-8") as file:
            states.update(row["state"] for row in csv.DictReader(file))
    return shared.durations_here(folder / "out"), states


def stop_rows(args, work):
    """The table of what stops add."""
    heads = "lanes, stop | cars an hour | dwell, s | buses: SUMO, here | cars: SUMO, here | stops on the right lane"
    shared.print_heads(heads)
    for lanes, edge, flows in STREETS:
        folder, place = work / f"street{lanes}{edge}", f"{lanes}, {'first' if edge == 'a' else 'second'} edge"
        folder.mkdir(exist_ok=True)
        make_street(folder, lanes, edge)
        for flow in flows:
            base = None
            for dwell in DWELLS:
                sides, states = [[], []], Counter()
                for seed in shared.numbers(args.seeds):
                    make_demand(folder / "demand.rou.xml", edge, flow, dwell, seed)
                    trips, found = street_here(args.program, folder, "demand.rou.xml", seed)
                    states += found
                    sides[0].append(means_of_both(street_in_sumo(folder, "demand.rou.xml", seed)))
                    sides[1].append(means_of_both(trips))
                told = [[fmean(one[kind] for one in side) for side in sides] for kind in (0, 1)]
                if base is None:
                    base = told
                    print(f"| {place} | {flow:,} | none: mean trips | {' | '.join(pair(*one) for one in told)} | |")
                    continue
                added = (pair(*(now - then for now, then in zip(*kind))) for kind in zip(told, base))
                made = f"{states['made']} of {states.total()}"
                print(f"| {place} | {flow:,} | {dwell} | {' | '.join(added)} | {made} |", flush=True)


def pair(there, own):
    return f"{there:.1f}, {own:.1f}"


def main_buses(argv: list[str]) -> int | None:
    """What stops of buses add, and what priority gains, beside SUMO.

    Takes a quarter hour; needs sumo, sumo-tools.

    Stops: a street of two edges of 600 m, of one lane or two, a bus each 120 s that stands at a stop 345 m from an
    edge's begin, and cars by chance for an hour. What stops add is the mean trip, of buses and of cars, less that of
    the same seed without stops. Priority: the corridor of five lights of tools/examples, with buses each 180 s both
    ways that make a stop of 20 s; in SUMO a TraCI script does the same, and for fixed plans by the same logic.
    """
    parser = shared.parser_of(main_buses, work=True)
    parser.add_argument("--seeds", default="1-3")
    parser.add_argument("--table", choices=["stops", "priority"], help="one of them alone")
    parser.add_argument("--lights", choices=list(KINDS), help="of priority, one row alone")
    parser.add_argument("--bus", default="", help="of priority, further attributes of the type of buses")
    args = parser.parse_args(argv)
    work = shared.work_of(args)
    if args.table != "priority":
        stop_rows(args, work)
    if args.table != "stops":
        priority_rows(args, work)
