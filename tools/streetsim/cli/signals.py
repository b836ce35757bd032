"""streetsim-signals: finds signal plans by simulation."""
import argparse

from streetsim.base import limits
from streetsim.base.words import Parser, add_rounds, add_run, integer_within
from streetsim.cli.words import add_check, add_clock, add_machines, add_out
from streetsim.search.usual import CHANGES, CYCLES, DRAWN, LEAST_GREEN

RESERVE = 80  # a chance of slowing down, of 1,000, by which a tenth fewer pass in a green


def parser() -> Parser:
    """The parser of the words that streetsim-signals takes."""
    tool_parser = Parser(
        prog="streetsim-signals", renamed={"--change": "--vary", "--keep": "--fixed", "--check": "--check-seeds"},
        examples=(
            "streetsim-signals zero.jsonl --plans corridor.net.xml.gz --until 4500",
            "streetsim-signals zero.jsonl --plans corridor.net.xml.gz --until 4500 --vary splits,cycle --budget 200",
        ),
        description="Finds signal plans by simulation: cycles, splits and offsets under which trips are shorter. "
        "The order of phases, yellow and all-red stay. A found plan is a proposal to be checked. A terminal shows how "
        "far the search is; elsewhere each stage ends with a line on standard error.",
    )
    add_run(tool_parser)
    tool_parser.add_argument(
        "--plans", required=True, nargs="+", metavar="FILE",
        help="files with the signal plans: the network (.net.xml), or SUMO's configuration, and additional files, of "
        "which the last program of a light counts",
    )
    add_clock(
        tool_parser, "--until", "end time of the run (default: that of SUMO's configuration, else two hours after "
        "the last departure)", least=1,
    )  # fmt: skip
    add_search(tool_parser)
    add_rounds(tool_parser)
    add_machines(tool_parser)
    tool_parser.add_argument(
        "--verify-sumo", action="store_true",
        help="also run SUMO with the plan given and the one found, by the seeds of --check-seeds; both must say better",
    )
    tool_parser.add_argument(
        "--edges", default="", help="edges to look at, with spaces or commas between: the ways along them are drawn"
    )
    add_clock(tool_parser, "--first", "the first second that is shown (default: a third of the run)")
    add_clock(tool_parser, "--last", f"the last second that is shown (default: {DRAWN} s later)")
    tool_parser.add_argument(
        "-o", "--output", help="output file: the plan found (default: RUN.found.add.xml, here)"
    )
    add_out(tool_parser, "output folder (default: RUN-signals, here)")
    return tool_parser


def add_search(tool_parser: argparse.ArgumentParser) -> None:
    """Adds the words that say what is searched, how long and with which seeds."""
    tool_parser.add_argument(
        "--vary", default=",".join(CHANGES),
        help="parts of the plan that may be changed, with commas between (default %(default)s)",
    )
    tool_parser.add_argument(
        "--bounds", action="store_true",
        help="find bounds of the greens of actuated and NEMA lights in place of fixed plans: least, most and max-gap "
        "(vehext), "
        "within which detectors drive them; the best fixed plan is found too, by the other options, and "
        "printed beside it",
    )
    tool_parser.add_argument("--cycle", metavar="S-S", help=f"cycle lengths to try (default {CYCLES})")
    tool_parser.add_argument(
        "--least", type=integer_within(1, limits.PHASE_STEPS), metavar="S",
        help=f"minimum green in seconds (default {LEAST_GREEN}); minDur and maxDur of a phase bound it too. With "
        "--bounds minDur is lowered to it, and without this option never below the given minDur",
    )
    tool_parser.add_argument(
        "--constraints", metavar="FILE",
        help="table of limits that phases must keep, beside their minDur and maxDur: "
        "light,phase,least,most,pedestrians (.csv)",
    )
    tool_parser.add_argument(
        "--mend", action="store_true",
        help="mend the greens of a given plan that breaks limits of its phases, and search from it",
    )
    tool_parser.add_argument(
        "--fixed", default="", metavar='"LIGHT .."', help="lights that stay as they are, with spaces or commas between"
    )
    tool_parser.add_argument(
        "--seeds", metavar="SEEDS",
        help="seeds of the runs (1-5, or 1,4,7-9) of the search (default: one, or more where runs of the given plan "
        "differ much)",
    )
    add_check(tool_parser, "101-110", "those of the report")
    tool_parser.add_argument(
        "--reserve", type=integer_within(0, 1000), default=RESERVE, metavar="N",
        help="added chance to slow down in the runs of the search, of 1,000, so that a found plan has room "
        "(default %(default)s: a green lets some 10 %% fewer pass; 0: as many); a search of offsets alone has none",
    )
    tool_parser.add_argument(
        "--budget", type=integer_within(0, limits.VEHICLES), default=1000, metavar="N",
        help="maximum simulations of the search (default %(default)s)",
    )


def main(arguments: list[str]) -> int:
    """Runs streetsim-signals, as search_by says."""
    args = parser().parse_args(arguments)
    from streetsim.cli.signalling import search_by  # which loads what searches

    return search_by(args)
