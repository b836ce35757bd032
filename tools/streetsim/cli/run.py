"""streetsim-run: the words by which a file is run and its tables are written."""
import argparse

from streetsim.base import limits
from streetsim.base.words import (
    Parser, add_jobs, add_lights, add_lost, add_rounds, add_run, integer_within, time_within,
)
from streetsim.cli.defaults import complete_outputs, complete_run, stem_of
from streetsim.cli.given_words import given_words
from streetsim.cli.words import add_clock, add_departures, add_out, add_simulator
from streetsim.control.bus_planned import MOST_SEEN, SEEN_SECONDS
from streetsim.model.folder import POLLS
from streetsim.model.replications import DRAWN
from streetsim.model.tables import ROUTES_FILE
from streetsim.observe.sumo_kinds import KINDS, kinds_of

OF_WORKS = ("close", "joint", "lost", "works_limit")  # words that the lines that a folder keeps have in them
# Words that say where, on what and with which seeds a run is made.
ELSEWHERE = ("run", "map", "out", "force", "program", "proved", "workers", "jobs", "seeds", "keep")


def parser() -> argparse.ArgumentParser:
    """The parser of the words that streetsim-run takes."""
    tool_parser = Parser(
        prog="streetsim-run",
        examples=(
            "streetsim-run zero.jsonl --map zero.map.json --out zero",
            "streetsim-run zero.jsonl --map zero.map.json --until 4500 --seeds 1-5 --junctions 3600 --out zero-seeds",
        ),
        description="Runs a file that streetsim-import made, and writes counts, trips, queues, a summary "
        "and the vehicles on the lanes.",
    )
    add_run(tool_parser)
    add_looks(tool_parser)
    tool_parser.add_argument(
        "--seeds", metavar="SEEDS",
        help="seeds of the runs (1-5, or 1,4,7-9), which are made side by side, each into a folder of its own",
    )
    add_departures(tool_parser, "default: drawn with --seeds, else listed")
    add_jobs(tool_parser)
    add_lanes(tool_parser)
    add_outputs(tool_parser)
    add_lights(tool_parser)
    add_buses(tool_parser)
    add_simulator(tool_parser)
    return tool_parser


def add_looks(tool_parser: argparse.ArgumentParser) -> None:
    """Adds the words that say when a run ends, what is polled and counted on the way, and who is rescued."""
    add_clock(
        tool_parser, "--until",
        "end time of the run (default: that of SUMO's configuration, else when all have arrived, or no vehicle has "
        "changed its cell for longer than the longest cycle)", least=1,
    )
    add_clock(tool_parser, "--every", "seconds between polls of the lanes; 0: never (default: 10)")
    tool_parser.add_argument(
        "--period", type=time_within(1, limits.PERIOD), default=900, metavar="S",
        help="seconds of each counting period (default %(default)s)",
    )
    tool_parser.add_argument(
        "--edges", default="",
        help="edges to look at, with spaces or commas between: their lanes are polled (default: all)",
    )
    add_rescue(tool_parser)
    tool_parser.add_argument(
        "--counted", choices=["all", "busiest"], default="all",
        help="option of earlier versions that has no effect now: every lane is counted",
    )


def add_rescue(tool_parser: argparse.ArgumentParser) -> None:
    """Adds the word that says after how many seconds at a stop line vehicles are rescued."""
    add_clock(
        tool_parser, "--rescue",
        "take out a vehicle that stood this long at a stop line and enter it on the next link; 0: never "
        "(default %(default)s)",
        default=300,
    )


def add_merge(tool_parser: argparse.ArgumentParser) -> None:
    """Adds the word that says how vehicles merge before road works."""
    tool_parser.add_argument(
        "--merge", choices=["turns", "none"], default="turns",
        help="how vehicles merge where road works close one of the two lanes of a joint link: by turns, or (none) a "
        "vehicle that stands there waits for a gap (default %(default)s)",
    )


def add_lanes(tool_parser: argparse.ArgumentParser) -> None:
    """Adds the words of road works: those that close lanes or make them joint, and say how vehicles merge there, what
    those do who lose their only lane, and which limit holds along the works."""
    tool_parser.add_argument(
        "--close", action="append", default=[], metavar="LANE:METRES-METRES:S-S",
        help="road works that close a lane: edge_index between two places (metres from the begin of the lane, as in "
        "SUMO), from one time to another (S or HH:MM(:SS)); several with commas between, or by repeating the option",
    )
    add_merge(tool_parser)
    add_lost(tool_parser)
    tool_parser.add_argument(
        "--works-limit", type=integer_within(limits.KMH[0], limits.KMH[-1]), metavar="KMH",
        help="speed limit along the works of --close, for the whole run; their edges are imported anew in parts",
    )
    tool_parser.add_argument(
        "--joint", default="", metavar="NAMES",
        help="edges or lanes that become joint links of two lanes between which vehicles change, with commas between, "
        "as by road works, to compare "
        "with",
    )


def add_buses(tool_parser: argparse.ArgumentParser) -> None:
    """Adds the words that say whether buses stop, and which lights wait for them."""
    tool_parser.add_argument(
        "--stops", choices=["made", "none"], default="made",
        help="whether vehicles make the stops that SUMO's files list: made, or none: they drive by "
        "(default %(default)s)",
    )
    add_priority(tool_parser)


def add_priority(tool_parser: argparse.ArgumentParser) -> None:
    """Adds the words that say which lights wait for whom."""
    tool_parser.add_argument(
        "--priority", default="", metavar="NAMES",
        help="vehicle classes or lines with priority at lights, with commas between: lights keep or fetch greens for "
        "them within bounds",
    )
    tool_parser.add_argument(
        "--seen", type=integer_within(1, MOST_SEEN), metavar="S",
        help="seconds before the stop line at which vehicles of --priority are first seen "
        f"(default {SEEN_SECONDS})",
    )


def add_outputs(tool_parser: argparse.ArgumentParser) -> None:
    """Adds the words that say what is written and where, and how many rounds find who gives way."""
    tool_parser.add_argument(
        "--sumo-output", type=kinds_of, default=(), metavar="KINDS",
        help=f"also write output files in SUMO's formats into DIR/sumo: of {','.join(KINDS)}",
    )
    add_rounds(tool_parser)
    tool_parser.add_argument(
        "--junctions", nargs="?", type=integer_within(60, limits.CLOCK), const=0, metavar="S",
        help="also write tables of junctions: delay, level of service, queues and v/c of movements, approaches and "
        "junctions, by intervals of so many seconds (default: --period)",
    )
    tool_parser.add_argument(
        "--polls", action="store_true", help=f"also write the vehicles on the lanes at each poll, as text, {POLLS}"
    )
    tool_parser.add_argument(
        "--along", action="append", default=[], metavar="EDGES",
        help="also write travel times along a route of these edges, with spaces or commas between, from the stop line "
        f"of the first to that of the last, {ROUTES_FILE}; repeat the option for several routes",
    )
    add_out(tool_parser, "output folder (default: NAME-run of NAME.jsonl; with --seeds NAME-seeds)")
    tool_parser.add_argument(
        "--keep", metavar="FILE",
        help="keep the session in this file; after a crash the same command goes on there",
    )


def main(arguments: list[str]) -> int:
    """Runs streetsim-run, as `running.run_by` says; gives status 0."""
    tool_parser = parser()
    args = tool_parser.parse_args(arguments)
    complete_run(args)
    complete_outputs(args, out=f"{stem_of(args.run)}-{'seeds' if args.seeds else 'run'}")
    if args.seeds and args.departures is None:
        args.departures = DRAWN
    from streetsim.cli.running import run_by

    words = given_words(tool_parser, args, ELSEWHERE)
    return run_by(args, words, given_words(tool_parser, args, (*ELSEWHERE, *OF_WORKS)))
