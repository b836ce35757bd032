"""Lone lights beside SUMO: who passes them by greens in which left turns wait for gaps, and what an office's junction
loses."""

import argparse
import gzip
import json
import xml.etree.ElementTree as ElementTree
from collections import defaultdict
from collections.abc import Iterator, Sequence
from dataclasses import dataclass
from itertools import product
from pathlib import Path
from statistics import fmean, stdev

import shared
from beside_sumo.junctions import Junction, Stream, capacities, in_sumo, prepare, run_here
from networks.lit_streets import Program, programs_of, put_programs
from shared import SAMPLES, run
from streetsim.model.folder import read_folder
from streetsim.report.beside_sumo import Trip, read_tripinfo, trip_times_of

# ---- who passes

Shares = tuple[float, float, float]  # that turn left, go straight on, turn right
GREENS = ((10, 60), (22, 60), (35, 80), (50, 90), (57, 90))  # green and cycle, seconds
AGAINST = (300, 500, 700)  # vehicles an hour, where nothing else is said
TWO_LANES = (400, 700, 1000)  # on two lanes
YELLOW = 3
FULL, FULL_LEFTS = 1300, 900  # vehicles an hour that are more than can pass


@dataclass(frozen=True)
class Street:
    """A street both ways at a light: who comes from the west and fills its lane, and who comes against."""

    own_shares: Shares
    against: int
    others_shares: Shares
    green: int
    cycle: int
    turn_lane: bool = False
    lanes: int = 1  # that go through, each way

    def junction(self, number: int) -> Junction:
        full = FULL_LEFTS if self.turn_lane else FULL
        flows = streams("w", full, self.own_shares), streams("e", self.against, self.others_shares)
        lanes = {"lanes": self.lanes + self.turn_lane, "exit_lanes": self.lanes}
        return Junction(f"j{number}", "wens", "traffic_light", *flows, **lanes)

    def with_greens(self, program: Program) -> Program:
        """Its seconds of green in a program."""
        other = self.cycle - self.green - 2 * YELLOW
        return program.with_seconds({at: self.green if program.is_main(at) else other for at in program.greens})


def streams(arm: str, hourly: int, shares: Shares) -> tuple[Stream, ...]:
    ends = {"w": "nes", "e": "swn"}[arm]
    return tuple(Stream(arm + to, hourly * share) for to, share in zip(ends, shares, strict=True) if share)


def lefts(*shares: float) -> list[Shares]:
    return [(share, 1 - share, 0.0) for share in shares]


def streets(
    owns: Sequence[Shares], others: Shares = (0.0, 1.0, 0.0), against: Sequence[int] = AGAINST,
    greens: Sequence[tuple[int, int]] = GREENS, turn_lane: bool = False, lanes: int = 1,
) -> list[Street]:
    every = product(owns, against, greens)
    return [Street(own, hourly, others, *green, turn_lane, lanes) for own, hourly, green in every]


ROWS = {
    "turn lane, all turn left": streets([(1.0, 0.0, 0.0)], turn_lane=True),
    "turn lane against two lanes": streets([(1.0, 0.0, 0.0)], against=TWO_LANES, turn_lane=True, lanes=2),
    "shared lane, 10, 30 and 60 % left": streets(lefts(0.1, 0.3, 0.6)),
    "shared lane, 20 % against turn left": streets(lefts(0.12, 0.25), (0.2, 0.8, 0.0), (300, 500), GREENS[1:4]),
    "shared lane, 30 % against turn right": streets(lefts(0.25), (0.0, 0.7, 0.3), (300, 500), GREENS[1:4]),
    "shared lanes, both full, 15 and 30 % left": [
        Street(own, FULL, own, *green) for own in lefts(0.15, 0.3) for green in GREENS[1:4]
    ],
}


def main_lone_lights(argv: list[str]) -> int | None:
    """Who passes a lone light from a full lane on which some turn left against others, beside SUMO.

    Takes minutes; needs sumo.

    Greens are 10 to 57 s, 300, 500 and 700 vehicles an hour come against. It prints how far the vehicles that pass in
    an hour are off, over all cases of a row; --all: also each case. All lights stand in one network that netconvert
    makes; --part has some rows alone, of which each part wants a folder. What SUMO wrote is kept in that of --work.
    """
    parser = shared.parser_of(main_lone_lights, work=True)
    parser.add_argument("--seed", type=int, default=1, help="of departures, and of SUMO")
    parser.add_argument("--part", default="1-6", type=shared.numbers, help="FIRST-LAST of the rows, from 1 on")
    parser.add_argument("--all", action="store_true", help="also each case")
    parser.add_argument("--tools", default=shared.TOOLS, type=shared.whole_path, help="other tools than these")
    args = parser.parse_args(argv)
    rows = {name: row for number, (name, row) in enumerate(ROWS.items(), 1) if number in args.part}
    folder, every = shared.work_of(args), [street for row in rows.values() for street in row]
    junctions = [street.junction(number) for number, street in enumerate(every)]
    net, routes = prepare(junctions, folder, args.seed, "--tls.left-green.time 0 --tls.cycle.time 90")
    put_programs(net, [every[int(one.light[1:])].with_greens(one) for one in programs_of(net)])
    theirs = capacities(in_sumo(net, routes, folder, args.seed))
    ours = capacities(run_here(net, routes, folder, args.program, args.tools))
    off = {street: ours[f"j{at}"] / theirs[f"j{at}"] - 1 for at, street in enumerate(every)}
    shared.print_heads("Lane | cases | difference, mean | absolute, mean | largest")
    for name, row in rows.items():
        print(row_text(name, [off[street] for street in row]))
    for at, street in enumerate(every) if args.all else ():
        passed = f"{theirs[f'j{at}']:.0f} an hour, here {ours[f'j{at}']:.0f} ({off[street]:+.0%})"
        turning = f"{street.own_shares[0]:.0%} left against {street.against}{', turn lane' if street.turn_lane else ''}"
        print(f"    {street.green} of {street.cycle} s, {turning}: {passed}")


def row_text(name: str, off: Sequence[float]) -> str:
    most = max(off, key=abs)
    return f"| {name} | {len(off)} | {fmean(off):+.1%} | {fmean(map(abs, off)):.1%} | {most:+.1%} |"


# ---- an office's junction

PLANS = (90, 75)  # seconds of the cycles that the office compares
HOUR = range(25_200, 28_800)  # in which those depart that count
END = 36_000
THIN = 0.05  # of the vehicles drive alone, all lights green
WAYS = {  # by the names of edges
    "all": ("", ""), "from the east": ("E", ""), "from the west": ("W", ""), "from the north": ("N", ""),
    "from the south": ("S", ""), "left from the north": ("N", "E"), "left from the south": ("S", "W"),
    "left from the east": ("E", "S"), "left from the west": ("W", "N"),
}
Means = dict[str, float]  # of trips, by from and to


@dataclass(frozen=True)
class Office:
    """The junction of an office, in a folder for what is made."""

    folder: Path
    plan: int  # seconds

    @property
    def files(self) -> list[Path]:
        return [SAMPLES / "office.net.xml.gz", SAMPLES / f"office-{self.plan}.add.xml"]

    def in_sumo(self, seed: int) -> dict[str, Trip]:
        return self.trips(f"{self.plan}-{seed}", self.files[1], "--seed", seed)

    def alone(self) -> dict[str, Trip]:
        """The trips of those whom nobody hinders."""
        path, count = self.folder / "green.add.xml", 14
        phase = f'<phase duration="90" state="{"G" * count}"/>'
        text = f'<tlLogic id="C" type="static" programID="green" offset="0">{phase}</tlLogic>'
        path.write_text(f"<additional>{text}</additional>", encoding="utf-8")
        return self.trips("alone", path, "--scale", THIN)

    def trips(self, name: str, program: Path, *words: object) -> dict[str, Trip]:
        trips_file = self.folder / f"{name}.json"
        if not trips_file.exists():
            files = ["-n", self.files[0], "-r", ROUTES, "-a", program, "--end", END]
            said = ["--tripinfo-output", "trips.xml", "--no-step-log", "--no-warnings"]
            run(["sumo", *files, *words, *said], self.folder)
            trips_file.write_text(json.dumps(read_tripinfo(str(self.folder / "trips.xml"))), encoding="utf-8")
        return {car: tuple(times) for car, times in json.loads(trips_file.read_text(encoding="utf-8")).items()}

    def run_here_with(self, seeds: Sequence[int], args: argparse.Namespace) -> list[dict[str, Trip]]:
        files = [*self.files, "--routes", ROUTES, "-o", "run.jsonl", "--map", "run.map.json"]
        run([args.tools / "streetsim-import", *files], self.folder)
        words = ["run.jsonl", "--map", "run.map.json", "--until", END, "--every", 0, "--out", "out", "--jobs", 1]
        words += ["--seeds", f"{seeds[0]}-{seeds[-1]}", "--departures", "listed", "--program", args.program]
        run([args.tools / "streetsim-run", *words], self.folder)
        return [trip_times_of(read_folder(str(self.folder / f"out/seed-{seed}"))) for seed in seeds]


ROUTES = SAMPLES / "office.rou.xml.gz"


def ends_by_car() -> dict[str, tuple[str, str]]:
    """Of each vehicle the arms from and to which it drives."""
    with gzip.open(ROUTES, "rt", encoding="utf-8") as file:
        found = ElementTree.parse(file).getroot().iter("vehicle")
        edges = {one.get("id"): one.find("route").get("edges").split() for one in found}
    return {car: (way[0][0], way[-1][0]) for car, way in edges.items()}


def mean_by_way(trips: dict[str, Trip], alone: dict[tuple[str, str], float], ends: dict[str, tuple[str, str]]) -> Means:
    """What those lose who depart in the hour, beyond what one alone needs."""
    lost = defaultdict(list)
    for car, (depart, arrival) in trips.items():
        if int(depart) in HOUR:
            for name, (begin, end) in WAYS.items():
                if begin in ("", ends[car][0]) and end in ("", ends[car][1]):
                    lost[name].append(arrival - depart - alone[ends[car]])
    return {name: fmean(values) for name, values in lost.items()}


def office_lines(office: Office, seeds: Sequence[int], args: argparse.Namespace) -> Iterator[str]:
    ends, durations = ends_by_car(), defaultdict(list)
    for car, (depart, arrival) in office.alone().items():
        durations[ends[car]].append(arrival - depart)
    alone = {way: fmean(values) for way, values in durations.items()}
    theirs = [mean_by_way(office.in_sumo(seed), alone, ends) for seed in seeds]
    ours = [mean_by_way(trips, alone, ends) for trips in office.run_here_with(seeds, args)]
    for name in WAYS:
        there, here = ([run[name] for run in side] for side in (theirs, ours))
        error, apart = stdev(there) / len(there) ** 0.5, fmean(here) - fmean(there)
        near = "yes" if abs(apart) <= max(0.25 * fmean(there), 2 * error) else "no"
        cells = f"{fmean(there):.1f} ± {2 * error:.1f}", f"{fmean(here):.1f} ({apart / fmean(there):+.0%})", near
        yield f"| {office.plan} s, {name} | {' | '.join(cells)} |"


def main_office(argv: list[str]) -> int | None:
    """What vehicles lose at an office's junction with two plans, by approach and left turn, beside SUMO.

    Takes minutes; needs sumo.

    Delays are of those who depart from 7 to 8, beyond the mean trip of those whom nobody hinders in SUMO, on both
    sides; means over the seeds, and two standard errors of SUMO's mean. The last column says whether ours is within a
    quarter of SUMO's or these two errors. What SUMO wrote is kept in the folder of --work.
    """
    parser = shared.parser_of(main_office, work=True)
    parser.add_argument("--seeds", default="1-10", type=shared.numbers)
    parser.add_argument("--tools", default=shared.TOOLS, type=shared.whole_path, help="other tools than these")
    args = parser.parse_args(argv)
    folder = shared.work_of(args)
    shared.print_heads("Cycle, who | lost in SUMO, s | here, s | near")
    for plan in PLANS:
        print(*office_lines(Office(folder, plan), args.seeds, args), sep="\n", flush=True)
