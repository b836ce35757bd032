"""Networks without lights of many kinds beside SUMO: mean trips, what last lines doubt, and a run's processor time."""

import argparse
from collections.abc import Iterator, Sequence
from pathlib import Path
from random import Random
from statistics import fmean

import shared
from beside_sumo import rows
from beside_sumo.rows import Row
from networks.unseen import KINDS, UNLIT, MadeNetwork, make

LOWEST, HIGHEST = 0.3, 0.7
NEAR = 0.08  # of SUMO's mean trip


def drawn(seed: int, count: int, kinds: Sequence[str]) -> list[tuple[str, int, float]]:
    """So many networks of the kinds in turn: kind, seed, level."""
    draws, found = Random(f"without lights {seed}"), []
    while len(found) < count:
        turn = draws.sample(list(kinds), len(kinds))
        found += [(kind, draws.randrange(1000, 100_000), round(draws.uniform(LOWEST, HIGHEST), 2)) for kind in turn]
    return found[:count]


def row_beside(network: MadeNetwork, args: argparse.Namespace) -> Row:
    theirs, ours = rows.both_sides(network, args.runs, args.program, args.tools)
    return rows.row_of(network.name, network, theirs, ours)


def line_of(row: Row) -> str:
    trip = "SUMO locks" if row.is_locked else f"{row.here:.1f} ({row.excess:+.1%})"
    return f"| {row.network} | {row.level:g} | {row.sumo:.1f} | {trip} | {rows.reason(row.doubt)} |"


def summary(every: Sequence[Row]) -> Iterator[str]:
    free = [row for row in every if not row.is_locked]
    near = [row for row in free if abs(row.excess) <= NEAR]
    yield f"| networks that SUMO does not lock | {len(free)} of {len(every)} |"
    yield f"| within 8 % | {len(near)} |"
    yield f"| of these undoubted | {sum(not row.doubt for row in near)} |"
    yield f"| beyond 8 % in silence | {sum(abs(row.excess) > NEAR and not row.doubt for row in free)} |"
    for kind in dict.fromkeys(row.network.rpartition("-")[0] for row in free):
        off = [row.excess for row in free if row.network.rpartition("-")[0] == kind]
        yield f"| {kind}: mean of the differences, and of their sizes | {fmean(off):+.1%}, {fmean(map(abs, off)):.1%} |"


def main_unlit(argv: list[str]) -> int | None:
    """Networks without lights that chose nothing: mean trips beside SUMO, and what is doubted.

    Takes a minute a network; needs sumo, sumo-tools.

    SEED draws so many networks of the kinds, with 0.3 to 0.7 of what the busiest lane can pass. Draw the seed when the
    work is done: then the table judges. What both sides found is kept in the folder of --work, ours by the tools.
    """
    parser = rows.parser_of(main_unlit, "1-3")
    parser.add_argument("--networks", type=int, default=30)
    parser.add_argument("--part", type=shared.numbers, default=range(1, 1000), help="FIRST-LAST of these, from 1 on")
    shared.add_some(parser, "--kinds", KINDS, UNLIT)
    args = parser.parse_args(argv)
    folder = shared.work_of(args)
    shared.print_heads("Network | load | SUMO, s | here, s | the last line")
    rows_found = []
    for number, (kind, seed, level) in enumerate(drawn(args.seed, args.networks, args.kinds), 1):
        if number in args.part:
            rows_found.append(row_beside(make(kind, seed, folder, level, seconds=rows.HALF), args))
            print(line_of(rows_found[-1]), flush=True)
    print("", *summary(rows_found), sep="\n")
    if args.rows:
        rows.keep(args.rows, rows_found)


def main_unlit_cost(argv: list[str]) -> int | None:
    """Processor seconds of a run without lights, by these tools and by others, in turns.

    Takes a minute a network; needs sumo, sumo-tools.

    The networks are those that unlit draws by the same seed. --beside names the other tools.
    """
    parser = rows.parser_of(main_unlit_cost, "1")
    parser.add_argument("--networks", type=int, default=7)
    parser.add_argument("--beside", type=shared.whole_path, required=True, help="a folder of other tools")
    parser.add_argument("--times", type=int, default=2, help="turns, of which the least counts")
    shared.add_some(parser, "--kinds", KINDS, UNLIT)
    args = parser.parse_args(argv)
    folder, ratios = shared.work_of(args), []
    shared.print_heads("Network | load | others, s | these, s | ratio")
    for kind, seed, level in drawn(args.seed, args.networks, args.kinds):
        network, sides = make(kind, seed, folder, level, seconds=rows.HALF), (args.beside, args.tools)
        prepared = [prepare(network, tools, number) for number, tools in enumerate(sides)]
        spent = [[cost(own, tools, args.program) for own, tools in zip(prepared, sides)] for _ in range(args.times)]
        others, these = map(min, zip(*spent))
        ratios.append(these / others)
        print(f"| {network.name} | {level:g} | {others:.1f} | {these:.1f} | {these / others:.2f} |", flush=True)
    print(f"\nmean of the ratios: {fmean(ratios):.2f}")


def prepare(network: MadeNetwork, tools: Path, number: int) -> Path:
    """A folder with the import of a network by some tools."""
    folder = network.folder / f"cost-{number}"
    folder.mkdir(exist_ok=True)
    words = [network.net, "--routes", *network.routes, "-o", "run.jsonl", "--map", "run.map.json"]
    shared.run([tools / "streetsim-import", *words], folder)
    return folder


def cost(folder: Path, tools: Path, program: str) -> float:
    """The processor seconds of a run."""
    before = shared.children_seconds()
    words = ["run.jsonl", "--map", "run.map.json", "--until", rows.HALF + rows.EXTRA_SECONDS, "--out", "out", "--force"]
    shared.run([tools / "streetsim-run", *words, "--program", program], folder)
    return shared.children_seconds() - before
