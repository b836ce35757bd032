"""streetsim-demand: from counts, matrices or turn ratios to a demand that fits them, on paper and in the simulation."""
import argparse
from collections.abc import Sequence

from streetsim.base.words import Parser, add_lost, add_rounds, integer_within, share_of
from streetsim.cli.defaults import args_and_options
from streetsim.cli.import_ import add_options
from streetsim.cli.words import add_attribute, add_files, add_made_run, add_network, add_out, add_program
from streetsim.demand.fitting import ERROR


def parser() -> Parser:
    """The parser of the words that streetsim-demand takes."""
    tool_parser = Parser(
        prog="streetsim-demand",
        examples=(
            "streetsim-demand corridor.net.xml.gz --counts counts.csv -o fitted.rou.xml --out fit",
            "streetsim-demand town.net.xml --zones zones.csv --matrix matrix.csv -o town.rou.xml --out fit",
        ),
        description="Makes vehicles with routes of counts of edges and turns, of matrices between zones, or of flows "
        "and turn ratios, and says how well they fit.",
    )
    add_network(tool_parser)
    add_inputs(tool_parser)
    add_fit(tool_parser)
    tool_parser.add_argument(
        "-o", "--output", help="output file: the vehicles (.rou.xml; default: NET.fitted.rou.xml, here)"
    )
    add_out(tool_parser, "output folder (default: NET-fitted, here)")
    add_made_run(tool_parser, "vehicles")
    add_program(tool_parser)
    add_options(tool_parser)
    return tool_parser


def add_inputs(tool_parser: argparse.ArgumentParser) -> None:
    """Adds the words that name what a demand is made of: files, and where trips may begin and end."""
    for name, help_text in (
        ("counts", "counts of edges and turns: CSV (begin,end,from,to,vehicles; an edge has no to), or SUMO's"),
        ("zones", "zones and their edges: CSV (zone,edges), or SUMO's TAZ"),
        ("matrix", "O-D matrices of zones: CSV (from,to,vehicles; begin,end), SUMO's O or V format, or tazRelations"),
        ("flows", "flows that have a first edge and no last edge, which go on by --ratios"),
        ("ratios", "turn ratios, as SUMO's jtrrouter takes them"),
        ("candidates", "files of routes that vehicles may take"),
    ):
        add_files(tool_parser, f"--{name}", help_text)
    add_attribute(tool_parser)
    tool_parser.add_argument(
        "--ends", choices=["fringe", "all"],
        help="where trips without zones begin and end: where the network does, if it does (fringe), or on any edge, by "
        "the class of its street (all; default: all where less than a fifth of the edges are counted, else fringe)",
    )


def add_fit(tool_parser: argparse.ArgumentParser) -> None:
    """Adds the words that say how the fit is done: ways, error, runs, rounds."""
    tool_parser.add_argument(
        "--ways", type=integer_within(0, 20), metavar="N", help="maximum ways per O-D pair (default 3; --candidates: 0)"
    )
    tool_parser.add_argument(
        "--most", type=integer_within(1, 1_000_000), default=60_000, metavar="N",
        help="maximum number of ways of all O-D pairs together, about; of more pairs some are drawn (default "
        "%(default)s)",
    )
    tool_parser.add_argument(
        "--error", type=share_of, default=ERROR, metavar="SHARE",
        help="share by which counts may be wrong (default %(default)s)",
    )
    tool_parser.add_argument(
        "--smallest", action="store_true",
        help="as few vehicles as meet the counts (without it: where a run of a larger demand locks)",
    )
    tool_parser.add_argument(
        "--runs", type=integer_within(0, 100), metavar="N",
        help="maximum runs of the fit, after each of which it is corrected by what passed (default: 3 where less than "
        "a fifth of the edges are counted, else 0)",
    )
    add_rounds(tool_parser)
    tool_parser.add_argument(
        "--close", action="extend", nargs="+", default=[], metavar="LANE:METRES-METRES:S-S",
        help="road works that close a lane, as in streetsim-run, in the runs and in --run; nobody goes round them",
    )
    add_lost(tool_parser)


def main(arguments: Sequence[str]) -> int:
    """Runs streetsim-demand, as fit_by says."""
    args, _ = args_and_options(parser(), arguments, "", ("end",))
    from streetsim.cli.fitting import fit_by  # which loads what reckons

    return fit_by(args)
