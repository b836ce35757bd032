"""Networks that chose nothing, beside SUMO: those that seeds make, by kind, by load, by the tools of two commits, and
by the rule that a network is about; and demands that sumo-tools ships."""

import argparse
import re
import subprocess
from collections import defaultdict
from collections.abc import Iterator, Sequence
from dataclasses import dataclass, replace
from itertools import takewhile
from pathlib import Path
from random import Random
from statistics import StatisticsError, correlation, fmean

import shared
from beside_sumo import rows
from beside_sumo.rows import LEAST_VEHICLES, NEAR, Row, Side, Tally, Way, common_ways, mean_delay, side_by_side
from networks.unseen import KINDS, USUAL, MadeNetwork, make
from shared import SUMO_HOME, TOP, run
from streetsim.base.files import Fault
from streetsim.model.mapping import read_map
from streetsim.report.beside_sumo import geh
from streetsim.report.picture_files import load_pyplot, save_picture
from streetsim.sumo.configuration import files_named, read_configuration

PAGE_NAMES = {  # the kinds in the words of the page
    **{"town": "town with lights", "radial": "star-shaped town with lights", "shared-legs": "turns that share legs"},
    **{"right-on-red": "right on red", "roundabouts": "town of roundabouts with rings of one lane"},
    **{"priority": "town without lights, main streets", "equal": "town without lights, right before left"},
    **{"stops": "town with stop signs", "all-way": "town with all-way stops", "slow": "streets of 30 km/h"},
}
TEN = [*PAGE_NAMES]
LEVEL = 0.5  # the busiest lane's share of what it can pass, by plain reckoning


def minor_ways(path: Path) -> set[Way]:
    """The ways that give way where no light is."""
    mapping = read_map(str(path))
    edges = [link.edge for link in mapping.links]
    return {(edges[link], edges[following]) for one in mapping.yields for link, _, following in one.turns}


def approaches(sides: list[Side], common: set[Way]) -> dict[str, float]:
    """The mean delay of each approach with vehicles enough."""
    ways = defaultdict(set)
    for way in common:
        ways[way[0]].add(way)
    counts = {edge: sum(sides[0].delays[way][0] for way in those) for edge, those in ways.items()}
    return {edge: mean_delay(sides, those) for edge, those in ways.items() if counts[edge] >= LEAST_VEHICLES}


@dataclass(frozen=True)
class Outcome:
    """A network, and its row of the table."""

    row: Row
    text: str


def outcome(name: str, network: MadeNetwork, theirs: list[Side], ours: list[Side]) -> Outcome:
    row, common = rows.row_of(name, network, theirs, ours), common_ways([*theirs, *ours])
    minor = common & minor_ways(network.folder / "run.map.json")
    at_minor = f"{mean_delay(theirs, minor):.1f} / {mean_delay(ours, minor):.1f}" if minor else ""
    first, second = approaches(theirs, common), approaches(ours, common)
    every = [edge for edge in first if edge in second]
    try:
        r = f", r {correlation([first[edge] for edge in every], [second[edge] for edge in every]):.2f}"
    except StatisticsError:
        r = ""
    at_all = f"{fmean(first[e] for e in every):.1f} / {fmean(second[e] for e in every):.1f}{r}" if every else ""
    trip = f"{row.sumo:.1f} | {row.jams:.0f} | {row.here:.1f} ({row.excess:+.1%})"
    reason = rows.reason(row.doubt)
    return Outcome(row, f"| {name} ({network.vehicles:,}) | {trip} | {at_minor} | {at_all} | {reason} |")


def of_kind(kind: str, found: list[Outcome]) -> str:
    """What the networks of a kind have together: a row of the second table."""
    mores = [one.row.excess for one in found]
    jams = ", ".join(f"{one.row.jams:.0f}" for one in found)
    return f"| {PAGE_NAMES.get(kind, kind)} | {min(mores):+.1%} to {max(mores):+.1%} | {jams} |"


def compared(kind: str, seed: int, args: argparse.Namespace) -> Outcome:
    made = make(kind, seed, args.folder, args.level)
    return outcome(f"{kind}, {seed}", made, *rows.both_sides(made, args.runs, args.program, args.tools))


def main_unseen(argv: list[str]) -> int | None:
    """Mean trips and delays beside SUMO on networks that seeds make, by kind.

    Takes minutes a kind; needs sumo, sumo-tools.

    It prints, kind by kind, SUMO's mean trip and ours, what those lose who give way without a light, what approaches
    lose, and what the run's last line says against itself; and at the end the least and the greatest difference of each
    kind. Draw the seeds when the work is done: then the table judges. What SUMO wrote is kept in the folder of --work.
    """
    parser = rows.parser_of(main_unseen, "1", seed=rows.ints)
    shared.add_some(parser, "--kinds", KINDS, TEN)
    parser.add_argument("--level", type=float, default=LEVEL, help="the busiest lane's share of what it can pass")
    args = parser.parse_args(argv)
    args.folder, networks_by_kind = shared.work_of(args), defaultdict(list)
    ways = [(kind, seed) for kind in args.kinds for seed in args.seed]
    lost = "giving way: lost, SUMO / here | approaches: lost, r"
    shared.print_heads(f"Kind, seed (vehicles) | SUMO, s | teleports | here, s | {lost} | the last line")
    for (kind, _), network in zip(ways, side_by_side(args.jobs, lambda way: compared(*way, args), ways), strict=True):
        networks_by_kind[kind].append(network)
        print(network.text, flush=True)
    print()
    shared.print_heads("Kind of network | difference | teleports in SUMO")
    print(*(of_kind(kind, some) for kind, some in networks_by_kind.items()), sep="\n")
    every = [network.row for some in networks_by_kind.values() for network in some]
    if args.rows:
        rows.keep(args.rows, every)


LEVELS = (0.5, 0.6, 0.7, 0.8, 0.95, 1.1)
ACROSS = 4  # kinds in a row of the picture


def climbed(kind: str, args: argparse.Namespace) -> list[Row]:
    """A network's rows from the least level on, up to the first at which SUMO is locked."""
    climbed_rows: list[Row] = []
    for level in args.levels:
        network = make(kind, args.seed, args.folder, level, seconds=rows.HALF)
        sides = rows.both_sides(network, args.runs, args.program, args.tools)
        climbed_rows.append(rows.row_of(network.name, network, *sides))
        if climbed_rows[-1].is_locked:
            break
    return climbed_rows


def load_cell(row: Row | None) -> str:
    if row is None:
        return ""
    off = "SUMO locks" if row.is_locked else f"{row.excess:+.1%}"
    return f"{off}, doubted" if row.doubt else off


def believed(found: Sequence[Row]) -> str:
    """The greatest level up to which no mean trip is off, and what the movement that is off most up to there loses more
    here."""
    near = list(takewhile(lambda row: row.is_near and not row.is_locked, found))
    lost = max((row.lost_here - row.lost_in_sumo for row in near), key=abs, default=0.0)
    return f"{near[-1].level:g} | {lost:+.0f} s" if near else " | "


def kinds_by_load(kinds: Sequence[str], levels: Sequence[float], found: Sequence[Sequence[Row]]) -> list[str]:
    heads = [f"{level:g}" for level in levels]
    ends = "within 5 % up to | a movement there"
    table = [f"| Kind, by load | {' | '.join(heads)} | {ends} |", f"|{'---|' * (len(levels) + 3)}"]
    for kind, own in zip(kinds, found, strict=True):
        at = {row.level: row for row in own}
        table.append(f"| {kind} | {' | '.join(load_cell(at.get(level)) for level in levels)} | {believed(own)} |")
    return table


def rows_by_load(levels: Sequence[float], every: Sequence[Row]) -> list[str]:
    table = [f"| Load | networks | mean of the differences | {Tally.HEADS} |", f"|{'---|' * 8}"]
    for level in levels:
        own = [row for row in every if row.level == level]
        free = [abs(row.excess) for row in own if not row.is_locked]
        table.append(f"| {level:g} | {len(own)} | {f'{fmean(free):.1%}' if free else ''} | {rows.tally(own)} |")
    return table


def draw_loads(kinds: Sequence[str], found: Sequence[Sequence[Row]], path: str) -> None:
    """A small picture for each kind: how far mean trips are off, by the load; hollow where the last line says so."""
    pyplot = load_pyplot()
    high = -(-len(kinds) // ACROSS)
    figure, places = pyplot.subplots(high, ACROSS, figsize=(9, 1.9 * high), sharex=True, sharey=True, squeeze=False)
    for kind, kind_rows, axes in zip(kinds, found, places.flat):
        free = [row for row in kind_rows if not row.is_locked]
        axes.axhspan(-100 * NEAR, 100 * NEAR, color="#e8e8e8")
        axes.plot([row.level for row in free], [100 * row.excess for row in free], color="#999999")
        for row in free:
            face = "white" if row.doubt else "black"
            axes.plot(row.level, 100 * row.excess, "o", color="black", markerfacecolor=face)
        for row in kind_rows[len(free) :]:
            axes.axvline(row.level, color="#999999", linestyle=":")
        axes.set_title(kind, fontsize=8)
        axes.set_ylim(-55, 35)
    places[-1][0].set_xlabel("load of the busiest lane")
    places[high // 2][0].set_ylabel("mean trip here beside SUMO's, %")
    save_picture(figure, path)


def main_sweep(argv: list[str]) -> int | None:
    """The same at six loads: up to where a mean trip is to be believed.

    Takes a quarter hour; needs sumo, sumo-tools.

    Of each kind the seed makes one network; its busiest lane has each level's share of what it can pass, by plain
    reckoning. It prints, kind by kind and level by level, how far our mean trip is off; up to which level no mean trip
    is off by more than 5 %, and up to there the movement whose delay differs most: seconds a vehicle that it loses more
    here. Then, by level, how many networks are off, and of how many the run's last line says so. Where SUMO teleports
    more than 2 % of the vehicles it is locked, and no higher level is run. What both sides found is kept in the folder
    of --work, ours by the tools.
    """
    parser = rows.parser_of(main_sweep, "1-3")
    shared.add_some(parser, "--kinds", KINDS, USUAL)
    parser.add_argument("--levels", default=LEVELS, type=rows.floats)
    parser.add_argument("--picture", help="draw the first table too")
    args = parser.parse_args(argv)
    args.folder, kinds = shared.work_of(args), args.kinds
    rows_by_kind = list(side_by_side(args.jobs, lambda kind: climbed(kind, args), kinds))
    every = [row for own in rows_by_kind for row in own]
    print(*kinds_by_load(kinds, args.levels, rows_by_kind), "", *rows_by_load(args.levels, every), sep="\n")
    if args.rows:
        rows.keep(args.rows, every)
    if args.picture:
        draw_loads(kinds, rows_by_kind, args.picture)


EARLIER_COMMIT = "e31c1129"  # the last commit of version 1.0.0
PASSING_OVER = """#!/usr/bin/python3
import os
import sys

words = sys.argv[1:]
if "--departures" in words:
    at = words.index("--departures")
    del words[at : at + 2]
os.execv({own!r}, [{own!r}, *words])
"""
WORSE, FAR = 0.015, 0.06  # of SUMO's mean trip
PAIR_HEADS = (
    "Load | tools | mean of the differences | largest | worse by more than 1.5 points | beyond 6 % in silence | "
    "doubted within 5 %"
)


@dataclass(frozen=True)
class Pair:
    """A network's rows by the tools of before and by these."""

    earlier: Row
    present: Row

    @property
    def worse(self) -> float:
        return abs(self.present.excess) - abs(self.earlier.excess)

    def cells(self) -> list[str]:
        if self.present.is_locked:
            return ["SUMO locks", *("doubted" * bool(row.doubt) for row in (self.earlier, self.present))]
        both = (f"{row.excess:+.1%}{', doubted' * bool(row.doubt)}" for row in (self.earlier, self.present))
        return [f"{self.present.sumo:.0f}", *both]


def tools_of(commit: str, folder: Path) -> Path:
    """The tools of a commit, in a folder of their own."""
    top = folder / f"tools-{commit}"
    if not top.exists():
        top.mkdir()
        words = ["git", "archive", commit, "tools"]
        files = subprocess.run(words, cwd=shared.TOP, check=True, capture_output=True).stdout
        subprocess.run(["tar", "-x", "-C", str(top)], input=files, check=True)
        if "--departures" not in shared.run([top / "tools/streetsim-run", "--help"], folder):
            take_departures(top / "tools/streetsim-run")
    return top / "tools"


def take_departures(command: Path) -> None:
    """Has a command that knows no --departures, as its departures are always the listed ones, pass over that word."""
    own = command.rename(command.with_name("streetsim-run-without"))
    command.write_text(PASSING_OVER.format(own=str(own)), encoding="utf-8")
    command.chmod(0o755)


def pair_of(network: MadeNetwork, old: Path, args: argparse.Namespace) -> Pair:
    both = (rows.both_sides(network, args.runs, args.program, tools) for tools in (old, args.tools))
    return Pair(*(rows.row_of(network.name, network, *sides) for sides in both))


def pairs_of(kind: str, old: Path, args: argparse.Namespace) -> list[Pair]:
    """A kind's rows by level."""
    made = [make(kind, args.seed, args.folder, level, seconds=rows.HALF) for level in args.levels]
    return [pair_of(one, old, args) for one in made]


def pairs_by_kind(kinds: Sequence[str], levels: Sequence[float], found: Sequence[Sequence[Pair]]) -> Iterator[str]:
    yield f"| Kind | {' | '.join(f'{level:g}: SUMO, s | before | now' for level in levels)} |"
    yield "|" + "---|" * (1 + 3 * len(levels))
    for kind, own in zip(kinds, found, strict=True):
        yield f"| {kind} | {' | '.join(text for pair in own for text in pair.cells())} |"


def pairs_by_level(level: float, pairs: Sequence[Pair]) -> Iterator[str]:
    """What holds of the networks of a level in which SUMO is not locked."""
    free = [pair for pair in pairs if not pair.present.is_locked]
    if not free:
        return
    worse = sum(pair.worse > WORSE for pair in free)
    for name, own in (("before", [pair.earlier for pair in free]), ("now", [pair.present for pair in free])):
        off = [abs(row.excess) for row in own]
        silent = sum(abs(row.excess) > FAR and not row.doubt for row in own)
        false = sum(row.is_near and bool(row.doubt) for row in own)
        of_all = f"{fmean(off):.1%} | {max(off):.1%} | {worse if name == 'now' else ''} | {silent} of {len(own)}"
        yield f"| {level:g} | {name} | {of_all} | {false} |"


def main_versions(argv: list[str]) -> int | None:
    """The same by the tools of an earlier commit and by these.

    Takes half an hour; needs sumo, sumo-tools, git.

    Both sides run the same networks and demands, of each kind one that the seed makes. It prints how far their mean
    trips are off, kind by kind, and what holds of all. With the folder of sweep SUMO's runs there are used again.
    """
    parser = rows.parser_of(main_versions, "1-5")
    parser.add_argument("--before", default=EARLIER_COMMIT, help="a commit")
    shared.add_some(parser, "--kinds", KINDS, USUAL)
    parser.add_argument("--levels", default=[0.5, 0.8], type=rows.floats)
    args = parser.parse_args(argv)
    args.folder, kinds = shared.work_of(args), args.kinds
    old = tools_of(args.before, args.folder)
    pairs = list(side_by_side(args.jobs, lambda kind: pairs_of(kind, old, args), kinds))
    print(*pairs_by_kind(kinds, args.levels, pairs), "", sep="\n")
    shared.print_heads(PAIR_HEADS)
    for at, level in enumerate(args.levels):
        print(*pairs_by_level(level, [own[at] for own in pairs]), sep="\n")
    if args.rows:
        rows.keep(args.rows, [pair.present for own in pairs for pair in own])


ROWS_OF_A_KIND = 4  # rows of a kind
RULES = ("town", "permissive-arterial", "lane-drop", "zipper", "limit", "types")
LOADS, CLIMB = (0.5, 0.6, 0.7, 0.8, 0.9), (0.5, 0.7, 0.9, 1.1)
CLIMBING = ("grid", "turn-lanes", "one-way", "shared-legs", "left-hand")  # of which one is at all loads of CLIMB
DRAWN_HEADS = "Network | load | drawn | SUMO, s | here, s | movement off most: lost, SUMO / here | the last line"
PARTS_OF = {"bus-lane": ("car", "bus")}  # rows of one network: of those whose names begin so


@dataclass(frozen=True)
class Network:
    kind: str
    seed: int
    level: float


@dataclass(frozen=True)
class DrawnRow:
    drawn: dict[str, object]
    row: Row


def drawn(seed: int) -> list[Network]:
    draws = Random(seed)
    networks = [
        Network(kind, draws.randrange(1000, 100_000), draws.choice(LOADS))
        for kind in RULES for _ in range(ROWS_OF_A_KIND)
    ]
    for kind, parts in PARTS_OF.items():
        count = ROWS_OF_A_KIND // len(parts)
        networks += [Network(kind, draws.randrange(1000, 100_000), draws.choice(LOADS)) for _ in range(count)]
    kind, own = draws.choice(CLIMBING), draws.randrange(1000, 100_000)
    return [*networks, *(Network(kind, own, level) for level in CLIMB)]


def part_of(sides: Sequence[Side], begin: str) -> list[Side]:
    """The trips of those whose names begin so."""
    trips = ({name: times for name, times in side.trips.items() if name.startswith(begin)} for side in sides)
    return [replace(side, trips=own) for side, own in zip(sides, trips, strict=True)]


def drawn_rows_of(one: Network, args: argparse.Namespace) -> list[DrawnRow]:
    made = make(one.kind, one.seed, args.folder, one.level, seconds=rows.HALF)
    sides = rows.both_sides(made, args.runs, args.program, args.tools)
    return [DrawnRow(made.drawn, row) for row in parts_of(made, *sides)]


def parts_of(network: MadeNetwork, theirs: Sequence[Side], ours: Sequence[Side]) -> Iterator[Row]:
    for begin in PARTS_OF.get(network.kind, ("",)):
        name = f"{network.name}, {begin}" if begin else network.name
        yield rows.row_of(name, network, part_of(theirs, begin), part_of(ours, begin))


def drawn_line(one: DrawnRow) -> str:
    row = one.row
    said = ", ".join(f"{name} {value}" for name, value in one.drawn.items())
    trip = "SUMO locks" if row.is_locked else f"{row.here:.1f} ({row.excess:+.1%})"
    lost = f"{row.lost_in_sumo:.0f} / {row.lost_here:.0f}" if row.movement else ""
    cells = (row.network, f"{row.level:g}", said, f"{row.sumo:.1f}", trip, lost, rows.reason(row.doubt))
    return f"| {' | '.join(cells)} |"


def main_drawn_rows(argv: list[str]) -> int | None:
    """The same for single rules: ends of lanes, zippers, bus lanes, limits, types, towns, arterials.

    Takes minutes; needs sumo, sumo-tools.

    Of each of eight kinds four rows: lit towns, arterials with permissive left turns, ends of lanes, zippers, cars and
    buses beside bus lanes, limits, types of vehicles, and one network at four loads. Networks and loads come from SEED.
    It prints what was drawn, both mean trips, the movement whose delay differs most, and what the run's last line says
    against itself; and at the end how many rows are off, and of how many it is said. Draw the seed when the work is
    done: then the table judges. What both sides found is kept in the folder of --work, ours by the tools.
    """
    args = rows.parser_of(main_drawn_rows, "1-3").parse_args(argv)
    args.folder = shared.work_of(args)
    all_of = side_by_side(args.jobs, lambda one: drawn_rows_of(one, args), drawn(args.seed))
    found = [one for own in all_of for one in own]
    every = [one.row for one in found]
    shared.print_heads(DRAWN_HEADS)
    print(*(drawn_line(one) for one in found), "", sep="\n")
    shared.print_heads(f"Rows | {Tally.HEADS}")
    print(f"| {len(every)} | {rows.tally(every)} |")
    if args.rows:
        rows.keep(args.rows, every)


GAMES = Path(SUMO_HOME) / "tools/game"
SCENARIOS = Path(SUMO_HOME) / "tools/sumolib/scenario/scenarios"
CASES = {  # the configuration, or the network and the routes; the last second, 0 for the configuration's
    **{
        f"game/{name}": (GAMES / f"{name}.sumocfg", 0)
        for name in "A10KW DRT bs3d corridor cross grid6 highway ramp square".split()
    },
    "game/hiking": (GAMES / "hiking/hiking.sumocfg", 1800),
    "game/kuehne": (GAMES / "kuehne.sumocfg.disabled", 1800),
    "game/racing": (GAMES / "racing/racing.sumocfg", 1800),
    **{
        f"RiLSA_example{number}": (SCENARIOS / f"RealWorld/RiLSA_example{number}/run.sumo.cfg", 9000)
        for number in (1, 2, 3, 4)
    },
    **{name: (SCENARIOS / f"RealWorld/{name}/run.sumo.cfg", 9000) for name in ("acosta", "joined", "pasubio")},
    "BasicRiLSACorridor3": (SCENARIOS / "BasicRiLSACorridor3", 5400),
}
# Of a demand without a configuration, which SUMO refuses as it is shipped.
LACKING = '<vType id="passenger"/><vType id="hdv"/>'
RANDOM_WORDS = ("weights.random-factor",)  # of configurations, of how vehicles choose their ways


def output_of(words, most=0):
    """What a command prints; a Fault with the last line of what it says where it fails,
    with a status above the most."""
    words = [str(word) for word in words]
    made = subprocess.run(words, env=shared.with_sumo(), capture_output=True, text=True, check=False)
    if made.returncode > most:
        raise Fault(f"refused: {(made.stderr.strip().splitlines() or ['no word'])[-1].partition(': ')[2]}")
    return made.stdout


def inputs_of(path, end):
    """The words of the import, SUMO's files, the last second, and what else SUMO is told by a configuration."""
    if path.is_dir():
        [net], [routes] = path.glob("*.net.xml"), path.glob("*.rou.alt.xml")
        lights = path / "tls.add.xml"
        return [net, lights, "--routes", routes], (str(net), [str(lights)], [str(routes)]), end, []
    options = read_configuration(str(path))
    end = end or int(options["end"])
    more = [f"--{name}={options[name]}" for name in RANDOM_WORDS if name in options]
    return ["-c", path, "--end", end], files_named(str(path), options), end, more


def demand_row(program, folder, path, end):
    words, (net, additional, routes), end, sumo_words = inputs_of(path, end)
    outputs = ["-o", folder / "run.jsonl", "--map", folder / "map.json"]
    output_of([TOP / "tools/streetsim-import", *words, *outputs])
    period = min(900, end)
    run = [
        folder / "run.jsonl", "--map", folder / "map.json", "--until", end, "--period", period, "--out", folder / "out",
    ]
    printed = output_of([TOP / "tools/streetsim-run", *run, "--program", program])
    edges, trips, wanted = folder / "edges.xml", folder / "trips.xml", folder / "edges.add.xml"
    kind = LACKING if path.is_dir() else ""
    text = f'<additional>{kind}<edgeData id="counts" freq="{period}" file="{edges}"/></additional>'
    wanted.write_text(text, encoding="utf-8")
    additional = [path for path in additional if not path.endswith("input_additional.add.xml")]  # outputs, beside it
    files = ["-n", net, "-a", ",".join([*additional, str(wanted)]), *(["-r", ",".join(routes)] if routes else [])]
    output_of(
        [
            "sumo", *files, *sumo_words, "--end", end, "--tripinfo-output", trips, "--no-step-log", "-W",
            "--ignore-route-errors",
        ]
    )
    text = output_of([TOP / "tools/streetsim-compare", folder / "out", "--sumo", trips, edges], most=1)
    arrived = re.search(r"arrived: ([\d,]+) here, ([\d,]+) in SUMO", text)
    mean = re.search(r"mean trip of these: ([\d.]+) s here, ([\d.]+) s in SUMO", text)
    counts = re.search(r"GEH below 5 for ([\d.]+) % of ([\d,]+)", text)
    doubt = "not to be trusted" if "not to be trusted" in printed else ""
    means = [f"{float(mean[2]):,.0f}", f"{float(mean[1]):,.0f}"] if mean else ["", ""]
    geh = f"{float(counts[1]):.0f} % of {counts[2]}" if counts else ""
    return [f"{end:,}", *([f"{arrived[2]}, {arrived[1]}"] if arrived else [""]), *means, geh, doubt]


def main_shipped_demands(argv: list[str]) -> int | None:
    """Trips of each demand that sumo-tools ships, beside SUMO.

    Takes minutes; needs sumo, sumo-tools.

    Each is taken by its configuration, else by its files, and runs to the configuration's end, or to the second that is
    given here, in both: SUMO with steps of one second. GEH is of counts of each edge over quarter hours, or over the
    whole where that is shorter.
    """
    parser = shared.parser_of(main_shipped_demands, work=True)
    shared.add_some(parser, "--only", CASES)
    args = parser.parse_args(argv)
    shared.print_heads("Demand | until, s | arrived in SUMO, here | mean trip in SUMO, s | here, s | GEH below 5 |")
    for name in args.only:
        path, end = CASES[name]
        folder = args.work / name.replace("/", "-")
        folder.mkdir(parents=True, exist_ok=True)
        try:
            cells = demand_row(args.program, folder, path, end)
        except Fault as fault:
            cells = ["", "", "", "", "", str(fault).replace("/usr/share/sumo/tools/", "")]
        print(f"| `{name}` | {' | '.join(cells)} |", flush=True)
