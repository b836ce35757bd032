"""streetsim-plot: pictures of a run, as PNG, SVG or PDF."""
import argparse

from streetsim.base import limits, program
from streetsim.base.files import Fault, checked_output_path
from streetsim.base.words import Parser, integer_within, names_in
from streetsim.cli.defaults import complete_outputs, stem_of
from streetsim.cli.words import add_clock, add_program
from streetsim.model.folder import read_folder
from streetsim.report import picture_maps
from streetsim.report.picture_files import Figure, Pyplot, load_pyplot, picture_format, save_picture
from streetsim.report.picture_greens import draw_greens
from streetsim.report.picture_plots import (
    MARKERS, Corridor, draw_arrivals, draw_corridor, draw_fundamental, draw_queues, draw_ring,
)
from streetsim.report.picture_works import draw_works
from streetsim.report.run_tables import read_folders

OLD_WORDS = {  # words of earlier versions by kind, and what they are now
    "map": {"--begin": "--interval"}, "greens": {"--lights": "--shown"}, "fundamental": {"--counts": "--stop-lines"},
}


def parser() -> Parser:
    """The parser of the words that streetsim-plot takes: the kind of picture first, and those of the kind."""
    tool_parser = Parser(
        prog="streetsim-plot",
        description="Draws pictures of what streetsim-run wrote.",
        examples=(
            "streetsim-plot map zero --what delay -o delay.png",
            'streetsim-plot corridor zero --edges "WJ1 J1J2 J2J3" --first 1800 --last 2400 -o zero.png',
        ),
    )
    kinds = tool_parser.add_subparsers(dest="kind", required=True)
    for kind, kind_help in (
        ("corridor", "ways of the vehicles along a path over time, with red signals; run with --every 1"),
        ("fundamental", "flow over density, at mid-link, at stop lines (--stop-lines) or of a ring (--ring)"),
        ("map", "the streets by density, delay, level of service, v/c, flow or queue"),
        ("queues", "queues at the stop lines over time"),
        ("works", "queues before road works over time and place"),
        ("greens", "how long the greens of lights that detectors drive lasted, over time"),
        ("arrivals", "departures and arrivals over time"),
    ):
        kind_parser = kinds.add_parser(kind, help=kind_help, description=kind_help)
        kind_parser.renamed = OLD_WORDS.get(kind, {})
        often = "?" if kind == "fundamental" else None
        # argparse takes None too, which is its default.
        wrote = "folder that streetsim-run wrote"
        kind_parser.add_argument("folder", nargs=often, metavar="FOLDER", help=wrote)  # type: ignore[arg-type]
        kind_parser.add_argument(
            "-o", "--output", help="output file: the picture (.png, .svg, .pdf; default: FOLDER.KIND.png, here)"
        )
        add_words_of_kind(kind_parser, kind)
    return tool_parser


def add_words_of_kind(kind_parser: argparse.ArgumentParser, kind: str) -> None:
    """Adds the words that one kind of picture alone takes."""
    if kind in ("corridor", "fundamental"):
        kind_parser.add_argument(
            "--edges", required=kind == "corridor", default="", help="edges to look at, with spaces or commas between"
        )
    if kind == "corridor":
        kind_parser.add_argument("--both", action="store_true", help="draw the other direction too, below")
        add_clock(kind_parser, "--first", "the first second that is shown", default=0)
        add_clock(kind_parser, "--last", "the last second that is shown", default=600)
    if kind == "fundamental":
        add_diagram(kind_parser)
    if kind == "map":
        kind_parser.add_argument(
            "--what", choices=picture_maps.MEASURE_NAMES, default="density",
            help="what the map shows (default: %(default)s)",
        )
        interval = "begin of the interval that is shown (default: the busiest; of density all)"
        add_clock(kind_parser, "--interval", interval)
    if kind == "greens":
        kind_parser.add_argument(
            "--shown", default="", help="lights in the picture, with spaces or commas between (default: the first six)"
        )
    if kind == "arrivals":
        sumo = "SUMO's output of the same demand: its trips, drawn beside"
        kind_parser.add_argument("--sumo", metavar="TRIPINFO", help=sumo)


def add_diagram(tool_parser: argparse.ArgumentParser) -> None:
    """Adds the words that say of what flow is drawn over density."""
    stop_lines = "draw flow and density at the stop lines, by counts.csv"
    tool_parser.add_argument("--stop-lines", action="store_true", help=stop_lines)
    tool_parser.add_argument(
        "--ring", type=dawdles, metavar="DAWDLES",
        help="measure traffic on a circular street of one lane at these chances to slow down, of 1,000, with commas "
        "between",
    )
    tool_parser.add_argument(
        "--limit", type=integer_within(1, limits.LIMIT), default=limits.LIMIT,
        help="speed limit on the circular street of --ring, cells a step (default %(default)s)",
    )
    add_program(tool_parser, ", for the ring")


def dawdles(text: str) -> list[int]:
    """One to six chances of dawdling, 0 to 1,000 of 1,000, with commas between; ArgumentTypeError otherwise."""
    values = [integer_within(0, 1000)(part) for part in text.split(",")]
    if len(values) > len(MARKERS):
        raise argparse.ArgumentTypeError(f"at most {len(MARKERS)} of them")
    return values


def main(arguments: list[str]) -> int:
    """Runs streetsim-plot: draws and writes the picture; gives status 0."""
    args = parser().parse_args(arguments)
    if args.folder is None and not args.ring:
        raise Fault("fundamental needs a folder or --ring")
    if args.kind == "fundamental" and args.ring and (args.stop_lines or args.edges or args.folder):
        raise Fault("--ring goes without a folder, --edges and --counts")
    if args.kind == "map" and args.what == "density" and args.interval is not None:
        raise Fault("--interval: the map of density is of all polls; it goes with --what delay, los, vc, flow, queue")
    kind = args.what if args.kind == "map" else args.kind
    complete_outputs(args, output=f"{stem_of(args.folder or 'ring')}.{kind}.png")
    picture_format(args.output)
    checked_output_path(args.output)
    figure = picture_of(load_pyplot(), args)
    if args.folder and (notes := read_folders(args.folder).first_folder.notes):
        figure.text(1, 0, "\n".join(notes), ha="right", va="top", color="#a00")
    save_picture(figure, args.output)
    return 0


def picture_of(pyplot: Pyplot, args: argparse.Namespace) -> Figure:
    """The picture that the words ask for, drawn but not saved. Fault where that cannot be read or drawn."""
    if args.kind == "map" and args.what != "density":
        return picture_maps.draw_measure(pyplot, args.folder, args.what, args.interval)
    if args.kind == "fundamental" and args.ring:
        return draw_ring(pyplot, args.program, args.ring, args.limit)
    folder = read_folder(args.folder)
    if args.kind == "map":
        return picture_maps.draw_density(pyplot, folder)
    if args.kind == "corridor":
        return draw_corridor(pyplot, folder, Corridor(names_in(args.edges), args.first, args.last, args.both))
    if args.kind == "fundamental":
        return draw_fundamental(pyplot, folder, names_in(args.edges), args.stop_lines)
    if args.kind == "greens":
        return draw_greens(pyplot, folder, names_in(args.shown))
    if args.kind == "works":
        return draw_works(pyplot, folder)
    return draw_queues(pyplot, folder) if args.kind == "queues" else draw_arrivals(pyplot, folder, args.sumo)
