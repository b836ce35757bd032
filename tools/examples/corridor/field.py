#!/usr/bin/python3
"""What a planner measures on the corridor, were its drivers slower than SUMO's usual ones: two days of it, by SUMO.

Usage: field.py [FOLDER]   in the folder of the example (streetsim-example corridor); it needs Debian's sumo.
Writes FOLDER/A and FOLDER/B (the demand of B is 0.9 of that of A): counts.csv, times.csv of a quarter of the vehicles
and queues.csv of a day of Poisson departures, and saturation.csv of a full lane. Then it prints the mean trip of five
other days, with the lights as they are and with the green wave (wave.add.xml): what a forecast is to find.
"""
import csv
import os
import random
import subprocess
import sys
from collections import defaultdict
from pathlib import Path
from statistics import fmean, stdev
from xml.etree import ElementTree

KIND = 'sigma="0.6" tau="1.3" accel="2.0" decel="4.0" minGap="2.8" speedFactor="normc(0.88,0.08,0.5,1.5)"'
NET, WAVE = "corridor.net.xml.gz", "wave.add.xml"
WARM, LAST, QUARTER = 900, 3600, 900  # seconds
GREEN, CYCLE = 37, 80  # of each light, eastward


def flows(level):
    """(name, edges, vehicles an hour) of the example's routes."""
    for one in ElementTree.parse("corridor.rou.xml").getroot().iter("flow"):
        yield one.get("id"), one.find("route").get("edges"), level * float(one.get("vehsPerHour"))


def write_routes(path, all_, seed):
    """Poisson departures for an hour."""
    draws, cars = random.Random(seed), []
    for name, edges, hourly in all_:
        clock = 0.0
        while (clock := clock + draws.expovariate(hourly / 3600)) < LAST:
            cars.append((clock, name, edges))
    with open(path, "w", encoding="utf-8") as file:
        file.write(f'<routes><vType id="slow" {KIND}/>\n')
        for at, (clock, name, edges) in enumerate(sorted(cars)):
            begin = f'<vehicle id="{name}.{at}" type="slow" depart="{int(clock)}" departLane="best" departSpeed="max">'
            file.write(f'{begin}<route edges="{edges}"/></vehicle>\n')
        file.write("</routes>\n")


def sumo(routes, folder, seed, *additional):
    """Runs SUMO for two hours into a folder."""
    words = ["sumo", "-n", NET, "-r", routes, "--seed", seed, "--step-length", 0.5, "--end", 7200, "--no-step-log"]
    words += ["--no-warnings", "--vehroute-output", folder / "ways.xml", "--vehroute-output.exit-times"]
    words += ["--tripinfo-output", folder / "trips.xml"]
    words += ["-a", ",".join(map(str, additional))] if additional else []
    environment = {"SUMO_HOME": "/usr/share/sumo", **os.environ}
    subprocess.run(list(map(str, words)), check=True, env=environment)


def mean_trip(folder):
    """The mean trip, from the wish to depart, of those who depart in the hour behind the first quarter."""
    found = []
    for one in ElementTree.parse(folder / "trips.xml").getroot().iter("tripinfo"):
        delay = float(one.get("departDelay"))
        if float(one.get("depart")) - delay >= WARM:
            found.append(float(one.get("duration")) + delay)
    return fmean(found)


def passages(folder):
    """Of each vehicle its edges with the clocks at which it left them."""
    for vehicle in ElementTree.parse(folder / "ways.xml").getroot().iter("vehicle"):
        route = vehicle.find("route")
        yield list(zip(route.get("edges").split(), map(float, route.get("exitTimes").split())))


def write_table(path, *rows):
    with open(path, "w", newline="", encoding="utf-8") as file:
        csv.writer(file).writerows(rows)


def write_day(folder, level, seed):
    """The planner's files of a day."""
    folder.mkdir(parents=True, exist_ok=True)
    write_routes(folder / "day.rou.xml", flows(level), seed)
    areas = folder / "areas.add.xml"
    areas.write_text(f"<additional>{''.join(areas_of_lanes())}</additional>", encoding="utf-8")
    sumo(folder / "day.rou.xml", folder, seed, areas)
    draws, times = random.Random(seed), defaultdict(list)
    counts = {(at, *pair): 0 for pair in turns() for at in range(WARM // QUARTER, LAST // QUARTER)}
    for way in passages(folder):
        for (edge, begin), (following, end) in zip(way, way[1:]):
            if WARM <= begin < LAST:
                counts[int(begin // QUARTER), edge, following] += 1
            if WARM <= end < LAST and following != way[-1][0] and draws.random() < 0.25:
                times[edge, following, int(end // QUARTER)].append(end - begin)
    rows = [(QUARTER * q, a, b, max(0, round(n * draws.gauss(1, 0.05)))) for (q, a, b), n in sorted(counts.items())]
    write_table(folder / "counts.csv", ("time", "from", "to", "count"), *rows)
    rows = []
    for (edge, following, quarter), own in sorted(times.items()):
        spread = round(stdev(own), 1) if len(own) > 1 else ""
        rows.append((f"{edge}>{following}", QUARTER * quarter, round(fmean(own), 1), spread, len(own)))
    write_table(folder / "times.csv", ("segment", "time", "mean", "sd", "n"), *rows)
    write_table(folder / "queues.csv", ("edge", "mean_of_cycles", "max"), *queue_rows(folder / "areas.xml"))


def network():
    """The network's elements."""
    return ElementTree.fromstring(subprocess.run(["zcat", NET], capture_output=True, check=True).stdout)


def turns():
    """All turns, (edge, next edge), also those that nobody takes: who counts them notes a 0."""
    pairs = {(one.get("from"), one.get("to")) for one in network().iter("connection")}
    return sorted(pair for pair in pairs if not any(edge.startswith(":") for edge in pair))


def areas_of_lanes():
    """A detector of queues over each lane that ends at a light."""
    for lane in network().iter("lane"):
        edge = lane.get("id").rpartition("_")[0]
        if edge[-2:-1] == "J" and not edge.startswith(":"):
            ends = f'lane="{lane.get("id")}" pos="0" endPos="{float(lane.get("length")) - 0.1:.2f}"'
            yield f'<laneAreaDetector id="q{lane.get("id")}" {ends} period="80" file="areas.xml"/>'


def queue_rows(path):
    """Of each edge the mean over cycles of the longest queue of a lane, and the longest."""
    jams = defaultdict(lambda: defaultdict(float))
    for one in ElementTree.parse(path).getroot().iter("interval"):
        if WARM <= float(one.get("begin")) < LAST:
            own = jams[one.get("id")[1:].rpartition("_")[0]]
            own[one.get("begin")] = max(own[one.get("begin")], float(one.get("maxJamLengthInMeters")))
    for edge, own in sorted(jams.items()):
        yield edge, round(fmean(own.values()), 1), max(own.values())


def survey(folder):
    """(vehicles an hour by headways from the 4th of a green on, vehicles a green, greens) of a lane that stays full."""
    folder.mkdir(parents=True, exist_ok=True)
    write_routes(folder / "full.rou.xml", [("full", "WJ1 J1J2 J2J3 J3J4 J4J5 J5E", 3000)], 1)
    loop = folder / "loop.add.xml"
    text = '<instantInductionLoop id="l" lane="WJ1_0" pos="-0.3" file="loop.xml"/>'
    loop.write_text(f"<additional>{text}</additional>", encoding="utf-8")
    sumo(folder / "full.rou.xml", folder, 1, WAVE, loop)
    seen = ElementTree.parse(folder / "loop.xml").getroot().iter("instantOut")
    times = sorted(float(one.get("time")) for one in seen if one.get("state") == "enter")
    greens, begin = [[]], 0.0
    for clock in (one for one in times if WARM <= one < LAST):
        if clock - begin > 15:
            greens.append([])
        greens[-1].append(clock)
        begin = clock
    greens = greens[2:-1]
    headway = fmean((own[-1] - own[3]) / (len(own) - 4) for own in greens)
    return round(3600 / headway), round(fmean(map(len, greens)), 2), len(greens)


def main():
    folder = Path(sys.argv[1] if len(sys.argv) > 1 else "field").resolve()
    flow, full, greens = survey(folder / "full")
    for day, level, seed in (("A", 1.0, 1), ("B", 0.9, 2)):
        write_day(folder / day, level, seed)
        row = ("WJ1", flow, full, GREEN, greens)
        write_table(folder / day / "saturation.csv", ("street", "flow", "vehicles_per_green", "green", "greens"), row)
    trips = {"as they are": [], "green wave": []}
    for seed in range(11, 16):
        write_routes(folder / "day.rou.xml", flows(1.0), 100 + seed)
        for lights, found in trips.items():
            sumo(folder / "day.rou.xml", folder, seed, *([WAVE] if lights == "green wave" else []))
            found.append(mean_trip(folder))
    changes = [after - before for before, after in zip(*trips.values())]
    for lights, found in trips.items():
        print(f"lights {lights}: mean trip {fmean(found):.1f} s")
    print(f"change {fmean(changes):+.1f} s, from day to day ± {stdev(changes):.1f} s")


if __name__ == "__main__":
    main()
