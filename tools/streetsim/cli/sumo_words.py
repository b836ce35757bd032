"""The words of streetsim-sumo, as --help, the manual page and the completion tell them, without what runs them."""
import argparse
from collections.abc import Sequence

from streetsim.base.words import Parser

IMPORTED = {  # words of streetsim-import
    "seed", "begin", "classes", "joint", "turns", "sizes", "dawdle", "change", "zone", "residence", "buffer",
    "permissive", "speed-factor", "cut", "drivers", "part",
}
RUN_OPTIONS = ("departures", "lights", "merge", "close", "stops", "priority", "seen")
HELP = ("-h", "--help", "-?")
# SUMO's words and those of the tools that are done.
OPTION_HELP = (
    ("-c, --configuration-file FILE", "a configuration, whose options count behind those of the command line"),
    ("-n, --net-file FILE", "the network"),
    ("-r, --route-files FILES", "vehicles, flows and trips, with commas between"),
    ("-a, --additional-files FILES", "additional files, with commas between"),
    ("-b, --begin TIME", "the time at which the run begins"),
    ("-e, --end TIME", "the time at which it ends; without effect under a client, as in SUMO"),
    ("--seed NUMBER", "seed of all random draws; equal seeds give equal runs"),
    ("--random", "draws the seed, and prints it"),
    ("--remote-port PORT", "serves TraCI's protocol at a port of the loopback address"),
    ("--num-clients NUMBER", "waits for so many clients, which tell their places by setOrder (1)"),
    ("--writes FOLDER", "files that clients name are written in this folder alone"),
    ("--tripinfo-output FILE", "a row for each vehicle that arrived"),
    ("--summary-output FILE", "a row for each second"),
    ("--queue-output FILE", "the queues of each second"),
    ("--fcd-output FILE", "each vehicle in each second"),
    ("--vehroute-output FILE", "the way of each vehicle; with --vehroute-output.exit-times when it left edges"),
    ("--statistic-output FILE", "the counts and means of the whole run"),
    ("--edgedata-output FILE", "the sums of each edge over the whole run"),
    ("--stop-output FILE", "a row for each stop that a vehicle has left"),
    ("--lanechange-output FILE", "each change of lanes"),
    ("--output-prefix TEXT", "stands before the name of each file that is written"),
    ("-t, --duration-log.statistics", "prints the means of all trips at the end"),
    ("-v, --verbose", "prints begin and end"),
    ("-W, --no-warnings", "prints no warnings"),
    ("-l, --log FILE", "the file for warnings"),
    ("--ignore-route-errors", "leaves vehicles out whose route cannot be driven"),
    ("--rescue SECONDS", "takes out a vehicle that stood this long, in place of --time-to-teleport"),
    ("--rounds NUMBER", "runs made before the final run, by which vehicles give way right before left (2)"),
    *((f"--{name} ..", "as in streetsim-import") for name in sorted(IMPORTED - {"seed", "begin"})),
    *((f"--{name} ..", "as in streetsim-run") for name in RUN_OPTIONS),
    ("-C, --save-configuration FILE", "writes the options as a configuration, and makes no run"),
    ("--check SCRIPT.py", "reads a script for TraCI, and says which of its calls are here"),
)


def parser() -> argparse.ArgumentParser:
    """The parser that tells the words; they are read by read_options, as SUMO reads them."""
    tool_parser = Parser(
        prog="streetsim-sumo",
        formatter_class=argparse.RawDescriptionHelpFormatter,
        examples=(
            "streetsim-sumo -c day.sumocfg --tripinfo-output trips.xml",
            "streetsim-sumo -n town.net.xml -r town.rou.xml --end 3600 --remote-port 8813",
        ),
        description="Takes SUMO's command line: runs to the end, or serves TraCI's protocol to scripts in any language",
        epilog="SUMO's other options have no effect, as a line says, or are refused by name (tools/PYTHON.md).\n"
        "SUMO_BINARY=streetsim-sumo has scripts that ask sumolib.checkBinary('sumo') start it.",
    )
    for names, help_text in OPTION_HELP:
        flags = [word for word in names.replace(",", "").split() if word.startswith("-")]
        value = names.split()[-1]
        if value in flags:
            tool_parser.add_argument(*flags, help=help_text, action="store_true")
        else:
            tool_parser.add_argument(*flags, help=help_text, metavar=value)
    return tool_parser


def is_help(arguments: Sequence[str]) -> bool:
    """Whether the words ask what may be given."""
    return not arguments or not {*HELP}.isdisjoint(arguments)


def main(_arguments: list[str]) -> int:
    """Prints what may be given."""
    parser().print_help()
    return 0
