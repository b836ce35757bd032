"""streetsim-compare: how close a run is to SUMO's own outputs of the same demand, or to counts."""
import argparse

from streetsim.base.files import Fault, refuse_foreign
from streetsim.base.words import Parser, paths_in
from streetsim.cli.words import add_attribute, add_files, add_out


def parser() -> argparse.ArgumentParser:
    """The parser of the words that streetsim-compare takes."""
    tool_parser = Parser(
        prog="streetsim-compare",
        examples=(
            "streetsim-compare zero --sumo trips.xml edges.xml",
            "streetsim-compare zero --counts counts.csv --out fit",
        ),
        description="Compares a run with SUMO's tripinfo and, if given, edgeData of the same periods; or with counts.",
    )
    tool_parser.add_argument("folder", metavar="FOLDER", help="folder that streetsim-run wrote")
    files = "tripinfo.xml, and edgedata.xml made with freq=900 (or the run's period)"
    add_files(tool_parser, "--sumo", f"SUMO's output of the same demand: {files}")
    counts = "counts of edges and turns, as in streetsim-demand; a column group names screen lines"
    add_files(tool_parser, "--counts", counts)
    times = "travel times of segments and routes, as in streetsim-calibrate; SUMO's tripinfo or edgeData"
    add_files(tool_parser, "--times", times)
    add_attribute(tool_parser)
    add_out(tool_parser, "output folder, of tables and pictures of --counts", is_required=False)
    return tool_parser


def main(arguments: list[str]) -> int:
    """Runs streetsim-compare: prints the comparison, and writes the folder of --out where it is given; gives its
    status, as `with_sumo`, `with_counts` or `with_times` says."""
    args = parser().parse_args(arguments)
    sumo, counts, times = (paths_in(files) for files in (args.sumo, args.counts, args.times))
    if not (sumo or counts or times):
        missing = "what to compare with: --sumo tripinfo.xml .., --counts FILE .., or --times FILE .."
        raise Fault(f"{missing} (what may be given: streetsim-compare --help)")
    if sum(map(bool, (sumo, counts, times))) > 1:
        raise Fault("--sumo, --counts and --times are comparisons of their own: one at a time")
    if (args.out or args.attribute) and not counts:
        raise Fault(f"--{'out' if args.out else 'attribute'} is of --counts: give it too")
    if args.out:
        refuse_foreign(args.out, args.force)
    from streetsim.cli import comparing  # which loads what reads and draws

    if times:
        return comparing.with_times(args.folder, times)
    if counts:
        return comparing.with_counts(args.folder, counts, args.attribute, args.out)
    return comparing.with_sumo(args.folder, sumo)
