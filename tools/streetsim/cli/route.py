"""streetsim-route: finds routes for trips, from which nobody gains much by leaving them."""
import argparse
from collections.abc import Sequence

from streetsim.base.words import (
    Parser, add_lights, add_lost, add_rounds, integer_within, names_in, share_of, time_within,
)
from streetsim.cli.defaults import args_and_options
from streetsim.cli.import_ import add_options
from streetsim.cli.run import add_priority
from streetsim.cli.words import add_check, add_clock, add_machines, add_made_run, add_network, add_out
from streetsim.search.usual import LONGEST_TRIP


def parser() -> Parser:
    """The parser of the words that streetsim-route takes."""
    tool_parser = Parser(
        prog="streetsim-route", renamed={"--check": "--check-seeds"},
        examples=(
            "streetsim-route town.net.xml --trips town.trips.xml -o town.rou.xml --out ways",
            "streetsim-route town.net.xml --trips town.rou.xml --close A_0:0-100:600-1800 -o round.rou.xml --out ways",
        ),
        description="Finds routes for trips by feedback between a router and runs, until nobody gains much by another "
        "way. Seeds that the search did not see judge how much that is.",
    )
    add_network(tool_parser)
    tool_parser.add_argument(
        "--trips", nargs="+", metavar="FILE",
        help="files of trips, and of flows with from and to, and of vehicles, whose routes are first ways (default: "
        "the routes of the configuration)",
    )
    tool_parser.add_argument(
        "-o", "--output", help="output file: the routes found (.rou.xml; default: NET.found.rou.xml, here)"
    )
    add_made_run(tool_parser, "routes")
    add_out(tool_parser, "output folder (default: NET-routes, here)")
    add_search(tool_parser)
    add_works(tool_parser)
    add_machines(tool_parser)
    add_options(tool_parser)
    return tool_parser


def add_search(tool_parser: argparse.ArgumentParser) -> None:
    """Adds the words that say how routes are searched and judged."""
    tool_parser.add_argument("--anew", action="store_true", help="forget the routes that vehicles have")
    until = f"end time of the run (default: {LONGEST_TRIP:,} s after the last departure)"
    add_clock(tool_parser, "--until", until, least=1)
    tool_parser.add_argument(
        "--slice", type=time_within(60, 86_400), default=300, metavar="S",
        help="seconds over which costs are averaged (default %(default)s)",
    )
    tool_parser.add_argument(
        "--iterations", type=integer_within(0, 1000), default=15, metavar="N",
        help="maximum iterations of the search (default %(default)s)",
    )
    tool_parser.add_argument(
        "--gap", type=share_of, default=0.02,
        help="relative gap that the search is to reach: what all could gain by other ways, of the seconds of the "
        "shortest ways (default %(default)s)",
    )
    tool_parser.add_argument(
        "--share", type=share_of, default=0.2,
        help="share of the trips that change their way in the first iteration (default %(default)s)",
    )
    tool_parser.add_argument(
        "--tried", type=integer_within(1, 8), default=1, metavar="N",
        help="number of values of --share that an iteration tries side by side: the share, half of it, "
        "a quarter, .. "
        "(default %(default)s)",
    )
    add_rounds(tool_parser)
    add_lights(tool_parser)
    add_priority(tool_parser)
    tool_parser.add_argument(
        "--seeds", default="1", metavar="SEEDS", help="seeds of the runs (1,4,7-9) of the search (default %(default)s)"
    )
    add_check(tool_parser, "101-103", "those of the routes")


def add_works(tool_parser: argparse.ArgumentParser) -> None:
    """Adds the words that say what is closed, and who knows of it."""
    tool_parser.add_argument(
        "--close", action="extend", nargs="+", default=[], metavar="LANE:METRES-METRES:S-S",
        help="road works that close a lane, as in streetsim-run; if all lanes of an edge are closed, drivers who know "
        "take another way from their begin on, and the others turn off before the edge",
    )
    tool_parser.add_argument(
        "--knowing", type=shares_of, metavar="SHARES",
        help="shares of drivers who know of the works, with commas between: each is tried (default 1)",
    )
    tool_parser.add_argument(
        "--sign", nargs="+", default=[], metavar="EDGE",
        help="edges with a sign about the works, for drivers who did not know of them (default: the last before "
        "the works)",
    )
    add_lost(tool_parser)
    tool_parser.add_argument(
        "--before", metavar="FILE",
        help="routes without the road works (.rou.xml; default: those of --trips, or else they are searched first)",
    )


def shares_of(text: str) -> list[float]:
    """The shares, 0 to 1, of a list with commas, in its order, each once; ArgumentTypeError where one is no share."""
    return list(dict.fromkeys(map(share_of, names_in(text))))


def main(arguments: Sequence[str]) -> int:
    """Runs streetsim-route, as search_by says."""
    args, _ = args_and_options(parser(), arguments, "trips")
    from streetsim.cli.routing import search_by  # which loads what searches

    return search_by(args)
