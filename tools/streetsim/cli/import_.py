"""streetsim-import: SUMO networks and routes to streetsim's commands."""
import argparse

from streetsim.base.words import Parser, add_names, integer_within
from streetsim.cli.defaults import args_and_options
from streetsim.cli.words import add_clock, add_files, add_part
from streetsim.sumo.import_options import NUMBERS, Options


def parser() -> Parser:
    """The parser of the words that streetsim-import takes."""
    tool_parser = Parser(
        prog="streetsim-import",
        examples=(
            "streetsim-import corridor.net.xml.gz --routes corridor.rou.xml -o zero.jsonl --map zero.map.json",
            "streetsim-import -c town.sumocfg -o town.jsonl --map town.map.json",
        ),
        description="Makes load, signal and enter lines, and a map of the names, of a SUMO network and its routes.",
    )
    tool_parser.add_argument(
        "net", nargs="?", metavar="NET", help="SUMO network (.net.xml) or configuration (.sumocfg)"
    )
    tool_parser.add_argument(
        "-c", "--configuration", metavar="FILE",
        help="SUMO's configuration in place of NET: its network, files, begin, end and seed, unless other "
        "options set them",
    )
    tool_parser.add_argument(
        "additional", nargs="*",
        help="SUMO's additional files: signal programs (of which the last of a light counts), vehicle types, detectors "
        "and demand",
    )
    add_files(tool_parser, "--routes", "route files: vehicles, flows and routes (.rou.xml)")
    add_files(
        tool_parser, "--trips",
        "files of trips, and of flows with from and to: each gets the way that is shortest with the waits at "
        "signals and the volumes so far (better ways: streetsim-route)",
    )
    help_text = "output file: the run, as lines of JSON (.jsonl, .jsonl.gz; default: of NET's name, here)"
    tool_parser.add_argument("-o", "--output", help=help_text)
    tool_parser.add_argument(
        "--map", help="map file with the names in a run, to write (default: NAME.map.json beside NAME.jsonl)"
    )
    add_names(tool_parser)
    tool_parser.add_argument("--warnings", metavar="FILE", help="table of warnings and notes, with all names (.csv)")
    tool_parser.add_argument("--strict", action="store_true", help="end with status 1 where vehicles were skipped")
    tool_parser.add_argument(
        "--slow", default="", metavar="EDGE:METRES-METRES:KMH",
        help="lower speed limit on a stretch of an edge; the edge becomes up to three that follow each other; "
        "several with commas between",
    )
    add_part(tool_parser)
    add_options(tool_parser)
    return tool_parser


def add_options(tool_parser: argparse.ArgumentParser) -> None:
    """Adds the words that say how a network and its vehicles become commands; `options_of` reads them."""
    add_lanes(tool_parser)
    add_vehicles(tool_parser)
    add_numbers(tool_parser)
    tool_parser.add_argument(
        "--permissive", metavar="EDGE=SHARE",
        help="share of each permissive green in which vehicles may go: its last part, of surveyed approaches, with "
        "commas between; at others vehicles take the gaps that there are",
    )
    add_drivers(tool_parser)


def add_drivers(tool_parser: argparse.ArgumentParser) -> None:
    """Adds the words of drivers that were measured."""
    tool_parser.add_argument(
        "--speed-factor", metavar="FACTOR|KMH=FACTOR",
        help="factor of free speeds, of all streets or of those with a limit in km/h, with commas between (default 1)",
    )
    tool_parser.add_argument(
        "--cut", metavar="S",
        help="seconds cut from the begin of each green; below 0: yellow that is driven at (default 0)",
    )
    tool_parser.add_argument(
        "--drivers", metavar="FILE",
        help="drivers that streetsim-calibrate fitted (drivers.json): dawdle, speed factors, cut and shares, "
        "unless other options set them",
    )


def add_lanes(tool_parser: argparse.ArgumentParser) -> None:
    """Adds the words that say which lanes there are, how vehicles go from one to the next, and their sizes."""
    tool_parser.add_argument(
        "--classes", default="passenger", help="keep lanes that allow one of these vehicle classes, with commas between"
    )
    tool_parser.add_argument(
        "--turns", choices=["both", "strict"], default="both",
        help="which turns lead from each lane of a two-lane link: to each next link (both), or SUMO's connections "
        "alone (strict)",
    )
    tool_parser.add_argument(
        "--sizes", choices=["on", "off"], default="on",
        help="how many cells a vehicle takes: 1 to 4, as its type is long with its gap (on), or one (off)",
    )
    tool_parser.add_argument(
        "--joint", default="", metavar="NAMES",
        help="edges or lanes that become joint links of two lanes between which vehicles change, with commas between, "
        "also where these lead to "
        "different edges, so that vehicles change between them; for lanes that a program closes later",
    )


def add_vehicles(tool_parser: argparse.ArgumentParser) -> None:
    """Adds the words that say which vehicles there are."""
    add_clock(tool_parser, "--begin", "start time of the run; vehicles before it are skipped", default=0)
    add_clock(tool_parser, "--end", "leave out vehicles that depart at this time or later")
    tool_parser.add_argument(
        "--ignore-route-errors", action="store_true",
        help="leave out vehicles whose route has edges without a connection, and count them",
    )


def add_numbers(tool_parser: argparse.ArgumentParser) -> None:
    """Adds the words that set numbers of the model, each within what the program takes."""
    for name, (least, most, help_text) in NUMBERS.items():
        usual = getattr(Options(), name)
        default = "as SUMO's vehicles need" if usual is None else str(usual)
        tool_parser.add_argument(
            f"--{name}", type=integer_within(least, most), default=None if name == "dawdle" else usual,
            help=f"{help_text} (default {default})",
        )


def main(arguments: list[str], keeps: bool = True) -> int:
    """Runs streetsim-import, as import_by says."""
    args, configured = args_and_options(parser(), arguments, "routes")
    from streetsim.cli.importing import import_by  # which loads what imports

    return import_by(args, configured, keeps)
