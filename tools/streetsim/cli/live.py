"""streetsim-live: a page that runs a simulation."""
from streetsim.base.words import Parser, add_lights, add_rounds, add_run, integer_within
from streetsim.cli.run import add_buses, add_merge, add_rescue
from streetsim.cli.words import add_departures, add_simulator
from streetsim.model.replications import LISTED


def parser() -> Parser:
    """The parser of the words that streetsim-live takes."""
    tool_parser = Parser(
        prog="streetsim-live",
        examples=(
            "streetsim-live zero.jsonl --map zero.map.json",
            "streetsim-live zero.jsonl --map zero.map.json --keep day --no-open",
        ),
        description="A page that runs a simulation: watch it, change signal plans, close lanes, take vehicles out, "
        "read detectors; actions are saved as lines. The page is served on this machine alone until Ctrl-C.",
    )
    add_run(tool_parser)
    tool_parser.add_argument(
        "--joint", default="", metavar="NAMES",
        help="edges or lanes that become joint links of two lanes between which vehicles change, with commas between, "
        "so that they can be closed",
    )
    tool_parser.add_argument(
        "--port", type=integer_within(0, 65_535), default=0, help="port of the address (default: one that is free)"
    )
    tool_parser.add_argument("--no-open", action="store_true", help="start no browser; the address is printed")
    tool_parser.add_argument(
        "--keep", metavar="FILE",
        help="keep the session in this file, and the data of the page in FILE.page; after a crash the same command "
        "goes on there",
    )
    add_departures(tool_parser, f"default: {LISTED}")
    add_rescue(tool_parser)
    add_merge(tool_parser)
    add_lights(tool_parser)
    add_buses(tool_parser)
    add_rounds(tool_parser)
    add_simulator(tool_parser)
    return tool_parser


def main(arguments: list[str]) -> int:
    """Runs streetsim-live, as serve_by says."""
    args = parser().parse_args(arguments)
    from streetsim.cli.serving import serve_by  # which loads what runs

    return serve_by(args)
