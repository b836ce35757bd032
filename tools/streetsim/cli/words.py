"""Words that several commands take: functions that add one or a few to a command's parser, and that read the seeds and
other values that these words give."""
import argparse
import os
from collections.abc import Sequence

from streetsim.base import limits, program
from streetsim.base.files import Fault
from streetsim.base.seeds import seeds_of
from streetsim.base.words import add_jobs, integer_within, time_within
from streetsim.model.replications import DRAWN, LISTED

FREE_VALUES = ("dawdle", "speed", "lost")  # of drivers, which streetsim-calibrate fits


def add_out(parser: argparse.ArgumentParser, help_text: str, is_required: bool = False) -> None:
    """Adds --out, the folder that a command writes, with its help (told), and --force."""
    help_text += ": a new one, or one that the tools wrote"
    parser.add_argument("--out", required=is_required, metavar="DIR", help=help_text)
    parser.add_argument(
        "--force", action="store_true",
        help="write to the folder of --out even where it has other files; only files with names of the tools' own "
        "files are "
        "replaced or removed",
    )


def add_files(parser: argparse.ArgumentParser, name: str, help_text: str) -> None:
    """Adds a word that names files, one or several, none where it is not given; help_text: its help."""
    parser.add_argument(name, nargs="+", default=[], metavar="FILE", help=help_text)


def add_clock(
    parser: argparse.ArgumentParser, name: str, help_text: str, least: int = 0, default: int | None = None
) -> None:
    """Adds a word that takes a clock, or seconds, of a run, from a least one on; help_text: its help."""
    parser.add_argument(name, type=time_within(least, limits.CLOCK), default=default, metavar="S", help=help_text)


def add_part(parser: argparse.ArgumentParser) -> None:
    """Adds --part, the part of a network that is imported; empty where it is not given: all of it."""
    parser.add_argument(
        "--part", default="", metavar="EDGES|X,Y,X,Y",
        help="part of the network: edges with commas between, or a box by two corners in metres of the network, with "
        "the streets that begin or end in it; vehicles drive there for their part of the way, and come in as without "
        "traffic before",
    )


def add_network(parser: argparse.ArgumentParser) -> None:
    """Adds the words without a name that are files of SUMO: a network (net) and additional ones."""
    parser.add_argument("net", metavar="NET", help="SUMO network (.net.xml) or configuration (.sumocfg)")
    parser.add_argument(
        "additional", metavar="ADDITIONAL", nargs="*", default=[],
        help="SUMO's additional files: signal programs and vehicle types"
    )


def add_made_run(parser: argparse.ArgumentParser, of: str) -> None:
    """Adds --run and --map, files that are written; of: what runs in them."""
    run = f"run file to write, of these {of}, as in streetsim-import (.jsonl); with --map"
    parser.add_argument("--run", help=run)
    parser.add_argument("--map", help="map file with the names in a run, to write (.json)")


def refuse_half_run(args: argparse.Namespace) -> None:
    """Fault where one of --run and --map is given, as add_made_run adds them, and not the other."""
    if (args.run is None) != (args.map is None):
        raise Fault("--run and --map are given together or not at all")


def add_attribute(parser: argparse.ArgumentParser) -> None:
    """Adds --attribute, the name of what is the count in SUMO's files; None where it is not given."""
    parser.add_argument(
        "--attribute", metavar="NAME",
        help="attribute that is the count in SUMO's files (default: left, entered or count)",
    )


def add_departures(parser: argparse.ArgumentParser, usual: str) -> None:
    """Adds --departures, drawn or listed; None where it is not given; usual: what stands for it then."""
    parser.add_argument(
        "--departures", choices=[DRAWN, LISTED],
        help="whether departures are drawn by the seed or listed in the file: drawn, each way has a Poisson number a "
        f"quarter hour around the file's, at any second of it ({usual})",
    )


class NamedRecord(argparse.Action):
    """Puts a record of what was proved elsewhere into the environment, where this process and its children find it."""

    def __call__(self, parser: object, namespace: argparse.Namespace, values: object, option: object = None) -> None:
        setattr(namespace, self.dest, values)
        os.environ[program.ELSEWHERE] = str(values)


def add_program(parser: argparse.ArgumentParser, for_what: str = "") -> None:
    """Adds --program, the path of the program, and --proved, a record that names it; for_what: behind the help."""
    parser.add_argument("--program", help=f"{program.HELP}{for_what}")
    parser.add_argument("--proved", metavar="FILE", action=NamedRecord, help=program.RECORD_HELP)


def add_simulator(parser: argparse.ArgumentParser) -> None:
    """Adds the words of the program that runs: as add_program, and how many workers it has."""
    add_program(parser)
    parser.add_argument(
        "--workers", type=integer_within(1, 64), default=1, help="threads of the simulator (default %(default)s)"
    )


def add_machines(parser: argparse.ArgumentParser) -> None:
    """Adds the words that say where runs are made: --jobs, --cluster, and those of add_program."""
    add_jobs(parser)
    parser.add_argument(
        "--cluster", metavar="HOST:PORT", help="make the runs on the workers of this dask.distributed scheduler"
    )
    add_program(parser)


def add_check(parser: argparse.ArgumentParser, default: str, help_text: str) -> None:
    """Adds --check-seeds, the seeds by which what a search found is judged; help_text: which they are."""
    judged = f"seeds of the runs that judge the result, which the search does not see: {help_text}"
    parser.add_argument("--check-seeds", default=default, metavar="SEEDS", help=f"{judged} (default %(default)s)")


def seeds_to_check(args: argparse.Namespace) -> Sequence[int]:
    """The seeds of --check-seeds; Fault where they are none, or --seeds, where it is given, names one of them too."""
    check = seeds_of(args.check_seeds, "--check-seeds")
    if args.seeds and set(seeds_of(args.seeds, "--seeds")) & set(check):
        reason = "nothing is judged by the seeds that it was found by"
        raise Fault(f"--seeds {args.seeds} and --check-seeds {args.check_seeds} overlap: {reason}")
    return check
