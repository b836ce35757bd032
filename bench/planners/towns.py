"""What a page of a town takes, beside other tools and SUMO: import, run with junction tables, page."""

import re
from collections.abc import Callable, Mapping
from dataclasses import dataclass
from functools import partial
from itertools import islice
from pathlib import Path

import shared
from planners.runs import measured_family
from shared import TOP


@dataclass(frozen=True)
class Town:
    """A grid of lights and its demand."""

    side: int  # lights in a row
    vehicles: int  # at most
    hours: int = 1  # each with the routes of the first
    lanes: int = 2  # of a street
    way: str = ""  # words on how far vehicles go

    @property
    def net_words(self) -> list[str]:
        """The words of netgenerate."""
        size = f"--grid --grid.number {self.side} --grid.length 200 -L {self.lanes} -j traffic_light"
        return f"netgenerate {size} --no-turnarounds true --seed 1 -o town.net.xml".split()

    @property
    def trips_words(self) -> list[str]:
        """The words of randomTrips, for the first hour."""
        often = f"-b 0 -e 3600 -p {3600 * self.hours / self.vehicles:g} {self.way} --seed 1"
        return f"python3 {shared.RANDOM_TRIPS} -n town.net.xml {often} -r hour.rou.xml".split()

    def write_routes(self, folder: Path) -> None:
        """Writes the routes of all hours, of those of the first."""
        text = (folder / "hour.rou.xml").read_text(encoding="utf-8")
        found = re.findall(r'<vehicle id="(\d+)" depart="([\d.]+)">\s*<route edges="([^"]*)"/>', text)
        rows = (
            f'<vehicle id="{hour}.{name}" depart="{float(depart) + 3600 * hour:.2f}">'
            f'<route edges="{edges}"/></vehicle>\n'
            for hour in range(self.hours)
            for name, depart, edges in found
        )
        with open(folder / "town.rou.xml", "w", encoding="utf-8") as file:
            file.writelines(["<routes>\n", *islice(rows, self.vehicles), "</routes>\n"])


# Of a million the trips are short, as its town has one lane a street: 30 by 30 lights, near the limit of links.
MILLION = Town(30, 1_000_000, 24, 1, "--max-distance 2500")
TOWNS = {"20x20": Town(20, 20_000), "15x15": Town(15, 9_000), "million": MILLION}
USUAL = ("20x20", "15x15")
STEPS = {  # by what is measured: the words of the tools
    "import": ("streetsim-import", "town.net.xml", "--routes", "town.rou.xml"),
    "run": ("streetsim-run", "town.jsonl"),
    "run --junctions": ("streetsim-run", "town.jsonl", "--junctions", "900"),
    "page": ("streetsim-open", "town-run", "--no-open"),
    "open": ("streetsim-open", "town.net.xml", "town.rou.xml", "--no-open"),
}
USUAL_STEPS = ("import", "run --junctions", "open")
SUMO = "sumo -n ../town.net.xml -r ../town.rou.xml --no-step-log --no-warnings --tripinfo-output t.xml"
SUMO += " --summary-output s.xml --queue-output q.xml"


def make(town: Town, folder: Path) -> None:
    """Makes a town's files, where they are not there, and prints how."""
    for words, name in ((town.net_words, "town.net.xml"), (town.trips_words, "hour.rou.xml")):
        print(f"    {' '.join(words)}")
        if not (folder / name).exists():
            shared.run(words, folder)
    if not (folder / "town.rou.xml").exists():
        town.write_routes(folder)


def turn(tools: Path, program: str, step: str, folder: Path) -> tuple[float, float]:
    """Processor seconds and greatest memory, MB, of a step by the tools of a repository; in a folder of theirs beside
    the town's files."""
    folder.mkdir(exist_ok=True)
    command, *words = STEPS[step]
    words = [f"../{word}" if (folder.parent / word).exists() else word for word in words]
    more = [] if step == "import" else ["--program", program]
    return measured_family([tools / "tools" / command, *words, *more], folder, folder / "log")


def differing(one: Path, other: Path) -> list[str]:
    """The tables of one run that differ, byte for byte, from those of another."""
    names = sorted(path.name for path in one.glob("*.csv"))
    return [name for name in names if (one / name).read_bytes() != (other / name).read_bytes()]


def main_towns(argv: list[str]) -> int | None:
    """What a page of a town takes, and its import and run, beside other tools and SUMO.

    Takes minutes a turn; needs sumo, sumo-tools.

    Prints the words of netgenerate and randomTrips; of a million vehicles each of 24 hours has the routes of the first
    (--only million --steps import,run,page). Processor seconds are of all processes, the least of N turns in which the
    tools of this repository, those of --beside, and SUMO with tripinfo, summary and queues go in turn; memory is the
    most of them. Tables of runs that differ between the two are named.
    """
    parser = shared.parser_of(main_towns, work=True)
    shared.add_some(parser, "--only", TOWNS, USUAL)
    shared.add_some(parser, "--steps", STEPS, USUAL_STEPS)
    beside = "another repository, as a worktree of an earlier commit"
    parser.add_argument("--beside", type=shared.whole_path, help=beside)
    parser.add_argument("--times", type=int, default=2)
    parser.add_argument("--sumo", action="store_true", help="run it in SUMO too")
    args = parser.parse_args(argv)
    tools = {"here": TOP, **({"beside": args.beside} if args.beside else {})}
    for name in args.only:
        folder = shared.work_of(args) / name
        folder.mkdir(exist_ok=True)
        make(TOWNS[name], folder)
        shared.print_heads("Town | step | by | processor, s | most memory, MB")
        for step in args.steps:
            turns = {by: partial(turn, top, args.program, step, folder / by) for by, top in tools.items()}
            report(name, step, args.times, turns)
        if args.beside:
            print("tables that differ:", *differing(folder / "here/town-run", folder / "beside/town-run") or ["none"])
        if args.sumo:
            (sumo := folder / "sumo").mkdir(exist_ok=True)
            report(name, "run", 1, {"SUMO": partial(measured_family, SUMO.split(), sumo, sumo / "log")})


def report(name: str, step: str, times: int, turns: Mapping[str, Callable[[], tuple[float, float]]]) -> None:
    """Makes the turns of a step so often, and prints a row for each kind: the least seconds, the most memory."""
    found = {tools: [] for tools in turns}
    for _ in range(times):
        for tools, make_turn in turns.items():
            found[tools].append(make_turn())
    for tools, each in found.items():
        seconds, memory = zip(*each, strict=True)
        print(f"| {name} | {step} | {tools} | {min(seconds):.1f} | {max(memory):.0f} |", flush=True)
