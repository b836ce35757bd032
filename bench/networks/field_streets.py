"""Streets of SUMO with drivers that are not its usual ones, and what a planner measures there.

An arterial of two lanes with lights, one-lane streets across it, lefts that give way; departures are Poisson. Of a day
a planner has turning counts of quarter hours with errors of 5 %, seconds from stop line to stop line of a quarter of
the vehicles, queues of cycles, and a survey of a full through lane. The truth of a treatment is the mean of four days.
"""

import csv
import random
import re
import shutil
from dataclasses import dataclass
from pathlib import Path
from statistics import fmean
from xml.etree import ElementTree

from networks.streets import Plain
from shared import run
from streetsim.base.arrays import numpy as np
from streetsim.demand.calibration_survey import discharge

WARM, LAST, END = 900, 4500, 7200  # s: counted departures, and the end of a run
PROFILE = (0.85, 0.95, 1.05, 1.1, 0.95)  # of the demand, by quarter hour
ACROSS = (300, 230, 340, 260, 300, 240, 280)  # vehicles an hour straight on across the street, by junction
EAST, WEST = 620, 430  # vehicles an hour along the whole street
TRUTH = range(11, 15)  # seeds of the truth of a treatment
GREEN, CYCLE, GREENS = 36, 80, 30  # of the survey
DRIVERS = {
    "default": {"sigma": 0.5, "tau": 1.0, "accel": 2.6, "decel": 4.5, "minGap": 2.5, "factor": (1.00, 0.10, 1.5)},
    "cautious": {"sigma": 0.7, "tau": 1.5, "accel": 1.8, "decel": 3.5, "minGap": 3.0, "factor": (0.88, 0.08, 1.5)},
    "brisk": {"sigma": 0.2, "tau": 0.8, "accel": 3.2, "decel": 5.0, "minGap": 2.0, "factor": (1.10, 0.10, 1.6)},
    "slow_dense": {"sigma": 0.4, "tau": 0.9, "accel": 2.6, "decel": 4.5, "minGap": 2.0, "factor": (0.85, 0.08, 1.5)},
    "fast_loose": {"sigma": 0.5, "tau": 1.5, "accel": 2.0, "decel": 4.0, "minGap": 3.0, "factor": (1.08, 0.10, 1.6)},
}
LEVEL = {"default": 0.88, "cautious": 0.66, "brisk": 1.0, "slow_dense": 0.88, "fast_loose": 0.72}
USUAL_FLOW = 2055  # vehicles an hour of a full lane of SUMO's usual drivers at 50 km/h


@dataclass(frozen=True)
class Street:
    """A street with its drivers. junctions: their metres; speeds in metres a second; level: of the demand."""

    name: str
    junctions: tuple[int, ...]
    main: float
    across: float
    driver: str
    kind: dict
    level: float
    treatments: tuple[str, ...]

    @property
    def line(self) -> list[str]:
        """The places along the street."""
        return ["W", *(f"J{at}" for at in range(1, len(self.junctions) + 1)), "E"]


def the_ten():
    """The ten streets of the study: two networks, five kinds of drivers."""
    for driver, kind in DRIVERS.items():
        more = driver, kind, LEVEL[driver]
        yield Street("even", (300, 600, 900, 1200, 1500), 13.89, 13.89, *more, ("wave", "split", "diet"))
        yield Street("mixed", (300, 520, 900, 1180, 1660, 1930), 16.67, 11.11, *more, ("wave", "split", "growth"))


def drawn_street(seed, folder):
    """A street that a seed draws, with drivers of its own; its demand is as full as the ten are, by a survey of the
    drivers. folder: for the survey."""
    draws = random.Random(seed)
    junctions = [300]
    for _ in range(draws.randint(3, 5)):
        junctions.append(junctions[-1] + 10 * draws.randint(18, 48))
    kind = {
        "sigma": round(draws.uniform(0.2, 0.7), 2), "tau": round(draws.uniform(0.8, 1.5), 2),
        "accel": round(draws.uniform(1.8, 3.2), 2), "decel": round(draws.uniform(3.5, 5.0), 2),
        "minGap": round(draws.uniform(2.0, 3.0), 2), "factor": (round(draws.uniform(0.85, 1.10), 2), 0.09, 1.6),
    }
    main, across = draws.choice([13.89, 16.67]), draws.choice([11.11, 13.89])
    flow, _ = surveyed(kind, 13.89, folder)
    level = min(1.0, round(0.88 * flow / USUAL_FLOW, 2))
    treatments = ("wave", "split", draws.choice(["diet", "growth"]))
    return Street(f"drawn{seed}", tuple(junctions), main, across, "own", kind, level, treatments)


def type_text(kind):
    """SUMO's attributes of a kind of drivers."""
    own = " ".join(f'{name}="{value}"' for name, value in kind.items() if name != "factor")
    mean, spread, most = kind["factor"]
    return f'{own} speedFactor="normc({mean:.2f},{spread:.2f},0.5,{most})"'


def make_net(street, folder, diet=False):
    """The street's .net.xml; diet: with one lane from J2 to J3."""
    plain = Plain()
    plain.node("W", 0, 0)
    plain.node("E", street.junctions[-1] + 300, 0)
    for number, x in enumerate(street.junctions, 1):
        plain.node(f"J{number}", x, 0, "traffic_light")
    for number, x in enumerate(street.junctions, 1):
        plain.node(f"N{number}", x, 200)
        plain.node(f"S{number}", x, -200)
    for pair in zip(street.line, street.line[1:]):
        for a, b in (pair, pair[::-1]):
            lanes = 1 if diet and (a, b) == ("J2", "J3") else 2
            plain.named_edge(f"{a}{b}", a, b, numLanes=lanes, speed=street.main, priority=3)
    for number in range(1, len(street.junctions) + 1):
        for side in "NS":
            ends = (f"{side}{number}", f"J{number}")
            for a, b in (ends, ends[::-1]):
                plain.named_edge(f"{a}{b}", a, b, numLanes=1, speed=street.across, priority=1)
    path = folder / f"{'diet' if diet else 'net'}.net.xml"
    plain.make(path, "--tls.cycle.time", 80, "--no-turnarounds")
    return path


def programs(net, change):
    """All programs changed: 'wave' offsets by distance eastward, 'split' 6 s from the street's green to the other."""
    root, texts = ElementTree.parse(net).getroot(), []
    x = {node.get("id"): float(node.get("x")) for node in root.iter("junction")}
    speed = max(float(lane.get("speed")) for lane in root.iter("lane"))
    for light in root.iter("tlLogic"):
        name, phases, split_greens = light.get("id"), list(light.iter("phase")), set()
        cycle = sum(int(float(phase.get("duration"))) for phase in phases)
        offset = round((x[name] - 300) / (speed * 0.9)) % cycle if change == "wave" else 0
        own = [connection for connection in root.iter("connection") if connection.get("tl") == name]
        main = {int(connection.get("linkIndex")) for connection in own if not {*"NS"} & {*connection.get("from")}}
        body = ""
        for phase in phases:
            seconds, state = int(float(phase.get("duration"))), phase.get("state")
            is_main = any(state[at] in "Gg" for at in main)
            if change == "split" and "y" not in state and is_main not in split_greens:
                split_greens.add(is_main)
                seconds += -6 if is_main else 6
            body += f'<phase duration="{seconds}" state="{state}"/>'
        texts.append(f'<tlLogic id="{name}" type="static" programID="{change}" offset="{offset}">{body}</tlLogic>')
    return f"<additional>{''.join(texts)}</additional>"


def ways(street):
    """(edges of a way, vehicles an hour) of all pairs of ends."""
    line, count = street.line, len(street.junctions)

    def along(a, b):
        step = 1 if b > a else -1
        return [line[k] + line[k + step] for k in range(a, b, step)]

    yield along(0, count + 1), EAST
    yield along(count + 1, 0), WEST
    for number in range(1, count + 1):
        for side, other in ("NS", "SN"):
            yield [f"{side}{number}J{number}", f"J{number}{other}{number}"], ACROSS[number - 1]
            yield [f"{side}{number}J{number}", *along(number, count + 1)], 45
            yield [f"{side}{number}J{number}", *along(number, 0)], 35
            yield [*along(0, number), f"J{number}{side}{number}"], 50
            yield [*along(count + 1, number), f"J{number}{side}{number}"], 35


def write_demand(street, path, level, tide, seed):
    """Vehicles by chance within each quarter; tide: a factor of the eastward flows."""
    draws, cars = np.random.default_rng(seed), []
    for number, (edges, flow) in enumerate(ways(street)):
        eastward = edges[-1].endswith("E") or edges[0] == "WJ1"
        for quarter in range(LAST // 900):
            mean = flow / 4 * level * (tide if eastward else 1) * PROFILE[quarter % 5]
            cars += [(900 * quarter + 900 * part, edges, number) for part in draws.random(draws.poisson(mean))]
    write_cars(street, path, cars)


def write_cars(street, path, cars):
    """A file of routes of (departure, edges, number of the way)."""
    usual = 'type="car" departSpeed="max" departLane="best"'
    with open(path, "w", encoding="utf-8") as file:
        file.write(f'<routes><vType id="car" {type_text(street.kind)}/>')
        for at, (depart, edges, number) in enumerate(sorted(cars, key=lambda car: car[0])):
            begin = f'<vehicle id="{number}.{at}" {usual} depart="{int(depart)}">'
            file.write(f'{begin}<route edges="{" ".join(edges)}"/></vehicle>\n')
        file.write("</routes>")


def in_sumo(net, routes, folder, seed, more=None, detail=False):
    """Runs SUMO by steps of half a second; gives the mean trip, from the wish to depart, of those who depart from WARM
    to LAST; detail: with queues."""
    folder.mkdir(parents=True, exist_ok=True)
    adds = [more] if more else []
    if detail:
        write_areas(net, folder / "d.add.xml")
        adds.append(folder / "d.add.xml")
    words = ["sumo", "-n", net, "-r", routes, "--tripinfo-output", folder / "trips.xml", "--step-length", 0.5]
    words += ["--seed", seed, "--no-step-log", "--no-warnings", "--end", END, "--time-to-teleport", 300]
    words += ["--vehroute-output", folder / "ways.xml", "--vehroute-output.exit-times"]
    run([*words, *(["-a", ",".join(map(str, adds))] if adds else [])], folder)
    return mean_of_trips(folder / "trips.xml")


def mean_of_trips(path):
    """The mean trip of SUMO's tripinfo, from the wish to depart, of those who depart from WARM to LAST."""
    total = []
    for one in ElementTree.parse(path).getroot().iter("tripinfo"):
        delay = float(one.get("departDelay"))
        if WARM <= float(one.get("depart")) - delay < LAST:
            total.append(float(one.get("duration")) + delay)
    return fmean(total)


def write_areas(net, path):
    """Detectors of queues over all lanes that end at a light."""
    lanes = []
    for edge in ElementTree.parse(net).getroot().iter("edge"):
        if re.search(r"J\d$", edge.get("id")) and edge.get("function") != "internal":
            lanes += [(lane.get("id"), float(lane.get("length"))) for lane in edge.iter("lane")]
    made = "".join(
        f'<laneAreaDetector id="q{lane}" lane="{lane}" pos="0" endPos="{metres - 0.1:.2f}" period="80" '
        f'file="areas.xml" jamThreshold="8"/>'
        for lane, metres in lanes
    )
    path.write_text(f"<additional>{made}</additional>", encoding="utf-8")


def passages(folder):
    """Of each vehicle its edges with the clocks at which it left them."""
    for vehicle in ElementTree.parse(folder / "ways.xml").getroot().iter("vehicle"):
        route = vehicle.find("route")
        yield list(zip(route.get("edges").split(), map(float, route.get("exitTimes").split())))


def write_table(path, head, rows):
    with open(path, "w", newline="", encoding="utf-8") as file:
        writer = csv.writer(file)
        writer.writerow(head)
        writer.writerows(rows)


def measure_day(folder, out_folder, seed, share=0.25, error=0.05):
    """The planner's files of a day: counts with errors, times of a share of the vehicles, queues."""
    out_folder.mkdir(parents=True, exist_ok=True)
    draws, driven, counts, passes = np.random.default_rng(seed), list(passages(folder)), {}, {}
    for way in driven:
        for (edge, clock), (following, _) in zip(way, way[1:]):
            if WARM <= clock < LAST:
                key = int(clock // 900), edge, following
                counts[key] = counts.get(key, 0) + 1
    rows = [(900 * q, a, b, max(0, round(n * draws.normal(1, error)))) for (q, a, b), n in sorted(counts.items())]
    write_table(out_folder / "counts.csv", ["time", "from", "to", "count"], rows)
    for way in driven:
        for (edge, begin), (following, end) in zip(way, way[1:]):
            if end > begin > 0 and WARM <= end < LAST and re.search(r"J\d$", following) and draws.random() < share:
                passes.setdefault((edge, following), []).append((end, end - begin))
    rows = []
    for (edge, following), some in sorted(passes.items()):
        for quarter in range(WARM // 900, LAST // 900):
            own = [seconds for end, seconds in some if end // 900 == quarter]
            if own:
                spread = round(np.std(own, ddof=1), 1) if len(own) > 1 else ""
                rows.append((f"{edge}>{following}", 900 * quarter, round(np.mean(own), 1), spread, len(own)))
    write_table(out_folder / "times.csv", ["segment", "time", "mean", "sd", "n"], rows)
    write_table(out_folder / "queues.csv", ["edge", "mean_of_cycles", "max"], queue_rows(folder / "areas.xml"))


def queue_rows(path):
    """Of each edge the mean over cycles of the longest queue of a lane, and the longest."""
    jams = {}
    for one in ElementTree.parse(path).getroot().iter("interval"):
        if WARM <= float(one.get("begin")) < LAST:
            edge = one.get("id")[1:].rsplit("_", 1)[0]
            jams.setdefault(edge, {}).setdefault(one.get("begin"), []).append(float(one.get("maxJamLengthInMeters")))
    for edge, by in sorted(jams.items()):
        yield edge, round(np.mean([max(own) for own in by.values()]), 1), max(max(own) for own in by.values())


def surveyed(kind, speed, folder):
    """(vehicles an hour by headways from the 4th on, vehicles a green) of a full lane of SUMO's drivers, 30 greens."""
    folder.mkdir(parents=True, exist_ok=True)
    plain = Plain()
    for name, x, y in (("A", 0, 0), ("B", 450, 0), ("C", 900, 0), ("S", 450, -200), ("T", 450, 200)):
        plain.node(name, x, y, "traffic_light" if name == "B" else "")
    for a, b in ("AB", "BC", "SB", "BT"):
        plain.named_edge(f"{a}{b}", a, b, numLanes=1, speed=speed)
    plain.make(folder / "s.net.xml", "--tls.cycle.time", CYCLE)
    root = ElementTree.parse(folder / "s.net.xml").getroot()
    pair = ("AB", "BC")
    own = next(lane for lane in root.iter("connection") if (lane.get("from"), lane.get("to")) == pair)
    place, count = int(own.get("linkIndex")), len(next(root.iter("phase")).get("state"))
    metres = float(next(edge for edge in root.iter("edge") if edge.get("id") == "AB").find("lane").get("length"))
    state = {letter: "".join(letter if index == place else "r" for index in range(count)) for letter in "rGy"}
    phases = "".join(f'<phase duration="{s}" state="{state[c]}"/>' for s, c in ((40, "r"), (36, "G"), (4, "y")))
    loop = f'<instantInductionLoop id="l" lane="AB_0" pos="{metres - 0.3:.2f}" file="l.xml"/>'
    light = f'<tlLogic id="B" type="static" programID="x" offset="0">{phases}</tlLogic>'
    (folder / "s.add.xml").write_text(f"<additional>{light}{loop}</additional>", encoding="utf-8")
    until = (GREENS + 4) * CYCLE
    usual = 'type="car" departSpeed="max"><route edges="AB BC"/>'
    flow = f'<flow id="f" begin="0" end="{until}" vehsPerHour="1500" {usual}</flow>'
    (folder / "s.rou.xml").write_text(f'<routes><vType id="car" {type_text(kind)}/>{flow}</routes>', encoding="utf-8")
    words = ["sumo", "-n", "s.net.xml", "-r", "s.rou.xml", "-a", "s.add.xml", "--step-length", 0.5, "--seed", 1]
    run([*words, "--end", until, "--no-step-log", "--no-warnings"], folder)
    seen = ElementTree.parse(folder / "l.xml").getroot().iter("instantOut")
    times = [float(event.get("time")) for event in seen if event.get("state") == "enter"]
    headway, full = discharge(times, [40 + CYCLE * green for green in range(3, 3 + GREENS)], CYCLE)
    return 3600 / headway, full


def write_survey(street, folder, out_folder):
    """The survey of full through lanes of the street and of those across it."""
    rows = []
    for speed in sorted({street.main, street.across}):
        flow, full = surveyed(street.kind, speed, folder)
        rows.append((f"{3.6 * speed:.0f} km/h", round(flow), round(full, 2), GREEN, GREENS))
    write_table(out_folder / "saturation.csv", ["street", "flow", "vehicles_per_green", "green", "greens"], rows)


def make_field(street, base):
    """All files of a street, in the folder base/name/driver; those that are there are used again."""
    top, folder = base / street.name, base / street.name / street.driver
    folder.mkdir(parents=True, exist_ok=True)
    net = top / "net.net.xml"
    if not net.exists():
        make_net(street, top)
        make_net(street, top, diet=True)
    for change in ("wave", "split"):
        (top / f"{change}.add.xml").write_text(programs(net, change), encoding="utf-8")
    for day, level, tide, seed in (("A", 1.0, 1.0, 1), ("B", 0.9, 0.8, 2)):
        if not (folder / day / "queues.csv").exists():
            write_demand(street, folder / f"{day}.rou.xml", street.level * level, tide, seed)
            in_sumo(net, folder / f"{day}.rou.xml", folder / f"sumo{day}", seed, detail=True)
            measure_day(folder / f"sumo{day}", folder / day, seed)
        if not (folder / day / "saturation.csv").exists():
            write_survey(street, folder / "survey", folder / day)
    if not (folder / "truth.csv").exists():
        head = ["seed", "treatment", "base", "treated"]
        write_table(folder / "truth.csv", head, list(truths(street, top, folder)))
        shutil.rmtree(folder / "t", ignore_errors=True)
    return folder


def truths(street, top, folder):
    """Of days with other drivers and departures: seed, treatment, mean trip without and with it."""
    net, routes, grown = top / "net.net.xml", folder / "t.rou.xml", folder / "g.rou.xml"
    for seed in TRUTH:
        write_demand(street, routes, street.level, 1.0, 100 + seed)
        seconds_before = in_sumo(net, routes, folder / "t", seed)
        for treatment in street.treatments:
            files = net, routes, None
            if treatment in ("wave", "split"):
                files = net, routes, top / f"{treatment}.add.xml"
            elif treatment == "diet":
                files = top / "diet.net.xml", routes, None
            else:
                write_demand(street, grown, 1.1 * street.level, 1.0, 100 + seed)
                files = net, grown, None
            seconds_after = in_sumo(files[0], files[1], folder / "t", seed, files[2])
            yield seed, treatment, round(seconds_before, 2), round(seconds_after, 2)


def truth_of(folder):
    """(mean trip without treatment, {treatment: change of the mean trip}) of a field, over its days."""
    with open(Path(folder) / "truth.csv", newline="", encoding="utf-8") as file:
        rows = list(csv.DictReader(file))
    by = {}
    for row in rows:
        by.setdefault(row["treatment"], []).append(float(row["treated"]) - float(row["base"]))
    return fmean({row["seed"]: float(row["base"]) for row in rows}.values()), {k: fmean(v) for k, v in by.items()}


def full_approach(street, base, folder, factor=2.5):
    """Vehicles an hour of the approach J2J3 in the network with one lane there, where more come than pass: the survey
    of the approach that a lane removed makes the bottleneck. folder: of the field."""
    out = folder / "full"
    if not (out / "ways.xml").exists():
        out.mkdir(parents=True, exist_ok=True)
        write_full(street, out / "full.rou.xml", factor)
        in_sumo(base / street.name / "diet.net.xml", out / "full.rou.xml", out, 21)
    seen = [clock for way in passages(out) for edge, clock in way if edge == "J2J3" and 1800 <= clock < LAST]
    return len(seen) / ((LAST - 1800) / 3600)


def write_full(street, path, factor):
    """The demand of the survey: the vehicles over J2J3 so many times, all others as on a day."""
    usual = ways(street)
    own = [(edges, flow * (factor if "J2J3" in edges else 1.0)) for edges, flow in usual]
    draws, cars = np.random.default_rng(21), []
    for number, (edges, flow) in enumerate(own):
        count = draws.poisson(flow * street.level * LAST / 3600)
        cars += [(LAST * part, edges, number) for part in draws.random(count)]
    write_cars(street, path, cars)
