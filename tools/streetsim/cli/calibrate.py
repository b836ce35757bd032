"""streetsim-calibrate: fits the drivers of a street to counts, travel times and a survey; validates on another day."""
import argparse

from streetsim.base.words import Parser, add_jobs, add_rounds, integer_within
from streetsim.cli.defaults import args_and_options
from streetsim.cli.import_ import add_options
from streetsim.cli.words import FREE_VALUES, add_check, add_files, add_network, add_out, add_program


def parser() -> Parser:
    """The parser of the words that streetsim-calibrate takes."""
    tool_parser = Parser(
        prog="streetsim-calibrate", renamed={"--check": "--check-seeds"},
        examples=(
            "streetsim-calibrate net.net.xml --counts day1.csv --times times1.csv -o drivers.json --out fit",
            "streetsim-calibrate net.net.xml --counts day1.csv --times times1.csv --saturation survey.csv "
            "--validate day2.csv times2.csv -o drivers.json --out fit",
        ),
        description="Fits the drivers of a street (chance of slowing down, free speeds, seconds cut from greens) to "
        "travel times from stop line to stop line and a survey of saturation, and validates on another day. Status 1 "
        "where a criterion does not hold there.",
    )
    add_network(tool_parser)
    add_days(tool_parser)
    add_fit(tool_parser)
    tool_parser.add_argument(
        "-o", "--output", required=True, help="output file: the drivers, as --drivers takes them"
    )
    add_out(tool_parser, "output folder (default: NET-drivers, here)")
    add_rounds(tool_parser)
    add_jobs(tool_parser)
    add_program(tool_parser)
    add_options(tool_parser)
    return tool_parser


def add_days(tool_parser: argparse.ArgumentParser) -> None:
    """Adds the words of files with what was measured, on the fitted day and on the other one."""
    counts = "counts of edges and turns, of which the demand is made (CSV, or SUMO's edgeData)"
    add_files(tool_parser, "--counts", counts)
    add_files(
        tool_parser, "--times",
        "travel times of segments and routes: CSV with segment (EDGE>EDGE) or from,to, time, mean, sd, n; SUMO's "
        "tripinfo or vehroute output",
    )
    tool_parser.add_argument(
        "--saturation", metavar="FILE",
        help="survey of saturation flows of through lanes: CSV with street,flow,vehicles_per_green,green,greens",
    )
    tool_parser.add_argument(
        "--queues", metavar="FILE", help="measured queues, which are judged: CSV with edge,mean_of_cycles,max"
    )
    routes = "route files: vehicles, flows and routes of the fitted day, in place of a demand made of its counts"
    add_files(tool_parser, "--routes", routes)
    tool_parser.add_argument(
        "--validate", nargs="+", default=[], metavar="FILE",
        help="files of a validation day: counts, times, maybe queues",
    )


def add_fit(tool_parser: argparse.ArgumentParser) -> None:
    """Adds the words that say what is fitted, by how many runs and by which seeds."""
    free = "driver values to fit (default %(default)s)"
    tool_parser.add_argument("--free", default=",".join(FREE_VALUES), help=free)
    tool_parser.add_argument(
        "--runs", type=integer_within(2, 10_000), default=60, metavar="N",
        help="maximum runs of the fit (default %(default)s)",
    )
    tool_parser.add_argument(
        "--seeds", default="1-2", metavar="SEEDS", help="seeds of the runs (1,4,7-9) of the fit (default %(default)s)"
    )
    add_check(tool_parser, "101-105", "those of the other day")


def main(arguments: list[str]) -> int:
    """Runs streetsim-calibrate, as calibrate_by says."""
    tool_parser = parser()
    args, _ = args_and_options(tool_parser, arguments, "", ("end",))
    from streetsim.cli.calibrating import calibrate_by  # which loads what reckons

    return calibrate_by(args, tool_parser)
