"""streetsim-study: seeds times variants, each run once, and how sure their differences are."""
import argparse

from streetsim.base.words import ROUNDS, Parser, add_rounds
from streetsim.cli.words import add_departures, add_machines, add_out
from streetsim.model.replications import DRAWN


def parser() -> Parser:
    """The parser of the words that streetsim-study takes."""
    tool_parser = Parser(
        prog="streetsim-study",
        examples=(
            "streetsim-study study.toml --out answer",
            "streetsim-study study.toml --precision 0.5 --jobs 8 --out answer",
        ),
        description="Runs each variant of a study with each seed, and writes the differences of their mean trips with "
        "95 % intervals, and how many runs a precision needs.",
    )
    tool_parser.add_argument("study", help="file of the study (.toml)")
    add_machines(tool_parser)
    add_rounds(tool_parser, None, f"default: rounds of the study, else {ROUNDS}")
    add_departures(tool_parser, f"default: departures of the study, else {DRAWN}")
    tool_parser.add_argument(
        "--precision", type=percent, default=1.0, metavar="PERCENT",
        help="half the width that confidence intervals are to have, in percent of the base's mean trip "
        "(default %(default)s)",
    )
    tool_parser.add_argument(
        "--close-at", default="", metavar="TIMES",
        help="times at which works begin, with commas between (S or HH:MM(:SS)): each variant that closes lanes is run "
        "at each of them, and the costs of each are reported (default: close_at of the variant, else as its works say)",
    )
    add_out(tool_parser, "output folder (default: NAME-answer of NAME.toml, here)")
    return tool_parser


def percent(text: str) -> float:
    """A percentage above 0 and at most 100, of a text; ArgumentTypeError otherwise."""
    try:
        value = float(text)
    except ValueError:
        value = 0.0
    if not 0 < value <= 100:
        raise argparse.ArgumentTypeError(f"{text!r} is not above 0 and at most 100")
    return value


def main(arguments: list[str]) -> int:
    """Runs streetsim-study, as study_by says."""
    tool_parser = parser()
    args = tool_parser.parse_args(arguments)
    from streetsim.cli.studying import study_by  # which loads what runs

    return study_by(args, tool_parser)
