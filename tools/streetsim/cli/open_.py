"""streetsim-open: from a network, a configuration, a run or a folder to one page, by the commands that it prints."""
import argparse
import gc
import os
import shlex
import sys
import webbrowser
import xml.etree.ElementTree as ElementTree
from collections.abc import Sequence
from importlib import import_module
from pathlib import Path

from streetsim.base.files import Fault, checked_output_path, note_kept, open_bytes, reading
from streetsim.base.progress import Slow
from streetsim.base.report import Report
from streetsim.base.words import Parser, integer_within
from streetsim.cli.defaults import COMPLETED, is_configuration, map_beside, plan_files, stem_of
from streetsim.cli.words import add_clock, add_part, add_program
from streetsim.model.folder import NAME, seeds_in
from streetsim.model.mapping import read_map
from streetsim.sumo.netconvert import network_of_map

MOST_INVENTED = 100_000  # invented vehicles an hour
RUNS, NETWORKS = (".jsonl", ".jsonl.gz"), (".net.xml", ".net.xml.gz")
MAPS = (".osm", ".osm.xml", ".osm.gz", ".osm.xml.gz")  # of OpenStreetMap
ROOTS = ("net", "configuration", "sumoConfiguration")  # of a network, and of a configuration
WITHOUT = "{}: a network without routes: name them behind it, or give --vehicles N: so many an hour, invented"
CLASSES = ("passenger",)  # whose lanes invented trips take, as the import does


def parser() -> Parser:
    """The parser of the words that streetsim-open takes."""
    tool_parser = Parser(
        prog="streetsim-open",
        description="Makes one page of a network and its routes, of a run or of what a run left: imports, runs and "
        "reports, and prints the commands that do the same. The page has the map, the junctions by level of service, "
        "queues over time, the vehicles as they drive, what is doubted and what to do next.",
        examples=(
            "streetsim-open corridor.net.xml.gz corridor.rou.xml",
            "streetsim-open town.sumocfg --until 09:30",
            "streetsim-open town.net.xml --vehicles 3000",
            "streetsim-open town.osm --vehicles 3000",
        ),
    )
    tool_parser.add_argument(
        "target", metavar="NET|CFG|RUN|FOLDER",
        help="what to open: a SUMO network (.net.xml) or configuration (.sumocfg), a map of OpenStreetMap (.osm), a "
        "run (.jsonl), a folder that streetsim-run wrote, or one with a configuration or a network",
    )
    tool_parser.add_argument(
        "routes", metavar="ROUTES", nargs="*",
        help="route files of a network: vehicles, flows or trips, and additional files",
    )
    tool_parser.add_argument(
        "--vehicles", type=integer_within(1, MOST_INVENTED), metavar="N",
        help="number of invented vehicles per hour that drive from border to border, for a network without routes",
    )
    add_part(tool_parser)
    add_clock(tool_parser, "--begin", "start time of the run", default=None)
    add_clock(tool_parser, "--until", "end time of the run", least=1)
    tool_parser.add_argument(
        "-o", "--output", metavar="PAGE", help="output file: the page (default: NAME.html, here)"
    )
    tool_parser.add_argument(
        "--live", action="store_true",
        help="write no page but serve one that runs the simulation, until Ctrl-C",
    )
    tool_parser.add_argument("--no-open", action="store_true", help="start no browser")
    add_program(tool_parser)
    return tool_parser


def main(arguments: list[str]) -> int:
    """Runs streetsim-open: imports, runs and makes the page, where each is needed, and prints the commands that do the
    same and where the page is; gives status 0. Fault where one of them raises one."""
    args = parser().parse_args(arguments)
    refuse_clashing_words(args)
    program_words = ["--program", args.program] if args.program else []
    kind, path = kind_of(args.target)
    if kind == "osm":
        path = converted(path)
    if kind in ("net", "osm"):
        path = imported(args, path)
    if args.live:
        return run_tool("live", [path, *(["--no-open"] if args.no_open else []), *program_words])
    folder = path if kind == "folder" else made_run(args, path, program_words)
    page = args.output or f"{stem_of(args.target)}.html"
    from streetsim.cli.open_page import write_page  # which loads what draws

    with Slow(f"writing {page}"):
        write_page(page, folder, path if kind != "folder" else "")
    print("its parts alone:", *(f"$ {shlex.join(part)}" for part in parts_of(folder)), sep="\n")
    print(f"{page}: {Path(page).stat().st_size:,} bytes")
    if not args.no_open and sys.stdout.isatty():
        webbrowser.open(Path(page).resolve().as_uri())
    return 0


def refuse_clashing_words(args: argparse.Namespace) -> None:
    """Fault for words that do not fit to each other or to what is opened, or a page that cannot be written."""
    kind, _ = kind_of(args.target)
    if args.vehicles and args.routes:
        raise Fault("--vehicles is for a network without routes: leave it out, or ROUTES")
    if kind not in ("net", "osm"):
        for name in ("routes", "vehicles", "begin", "part"):
            if getattr(args, name):
                raise Fault(f"{args.target}: {'ROUTES are' if name == 'routes' else f'--{name} is'} of a network")
    if kind == "folder":
        for name in ("until", "live"):
            if getattr(args, name):
                raise Fault(f"{args.target}: --{name} is of a run that is still to be made")
    if args.output and args.live:
        raise Fault("--live serves its page: leave -o out")
    if args.output:
        checked_output_path(args.output)


def kind_of(target: str) -> tuple[str, str]:
    """What is opened, by its name: ("folder", its path) of what a run left, ("run", the run file), ("net", the
    network or configuration), or ("osm", the map). Fault where it is none of them, or is not there."""
    if not os.path.exists(target):
        raise Fault(f"{target}: No such file or directory")
    if os.path.isdir(target):
        if os.path.exists(f"{target}/{NAME}") or seeds_in(target):
            return "folder", target
        return "net", network_in(target)
    if target.endswith(RUNS):
        return "run", target
    if target.endswith(MAPS):
        return "osm", target
    if target.endswith(NETWORKS) or is_configuration(target) or root_of(target) in ROOTS:
        return "net", target
    raise Fault(f"{target}: no network (.net.xml), map (.osm), configuration (.sumocfg), run (.jsonl) or folder of one")


def converted(path: str) -> str:
    """Makes the network of a map of OpenStreetMap, of its name, here; prints the command and what was guessed. Gives
    its path."""
    net = f"{stem_of(path)}.net.xml"
    arguments, guessed = network_of_map(path, net)
    print(f"$ SUMO_HOME=/usr/share/sumo netconvert {shlex.join(arguments)}")
    print(*(f"  {line}" for line in guessed), sep="\n", flush=True)
    note_kept(net)
    return net


def root_of(path: str) -> str:
    """The name of the root of an XML file. Fault where it is no XML."""
    with reading(path), open_bytes(path) as file:
        for _, element in ElementTree.iterparse(file, ("start",)):
            return element.tag
    return ""


def network_in(folder: str) -> str:
    """The one configuration in a folder, else its one network; Fault where there is none, or more than one."""
    for endings, what in (((".sumocfg",), "configurations"), (NETWORKS, "networks")):
        found = sorted(name for name in os.listdir(folder) if name.endswith(endings))
        if len(found) == 1:
            return os.path.join(folder, found[0])
        if found:
            raise Fault(f"{folder}: {len(found)} {what}: name one of {', '.join(found)}")
    raise Fault(f"{folder}: nothing that streetsim-run wrote is in it, and no configuration or network of SUMO's")


def imported(args: argparse.Namespace, path: str) -> str:
    """Imports a network or configuration; gives the path of the run file, of its name, here. Fault where it has no
    vehicles and none are to be invented."""
    from streetsim.sumo.demand import Unrouted  # which loads the import

    run = f"{stem_of(path)}.jsonl"
    begin = [] if args.begin is None else ["--begin", str(args.begin)]
    part = [f"--part={args.part}"] if args.part else []
    files = [path, *(name for name in args.routes if is_additional(name))]
    routes = [name for name in args.routes if not is_additional(name)]
    if args.vehicles:
        from streetsim.demand.invented import write_invented
        from streetsim.sumo.net import read_net

        trips = f"{stem_of(path)}.invented.trips.xml"
        write_invented(trips, read_net(plan_files(path)[0], CLASSES, Report()), args.vehicles, args.begin or 0)
        print(f"{trips}: {args.vehicles:,} vehicles in an hour from border to border: invented")
        tries = [["--trips", trips]]
    elif routes:
        tries = [["--routes", *routes], ["--trips", *routes]]
    elif is_configuration(path) or root_of(path) != "net":
        tries = [[]]
    else:
        raise Fault(WITHOUT.format(path))
    for last, how in enumerate(tries, 1):
        try:
            run_tool("import_", [*files, *how, *begin, *part])
            break
        except Unrouted:
            if last == len(tries):
                raise
            print("  (status 2: these trips have no routes; the next command finds them)")
    if not read_map(map_beside(run)).cars:
        raise Fault(WITHOUT.format(path))
    return run


def is_additional(path: str) -> bool:
    """Whether a file is an additional one of SUMO's, by its name."""
    return path.endswith((".add.xml", ".add.xml.gz"))


def made_run(args: argparse.Namespace, run: str, program_words: Sequence[str]) -> str:
    """Makes the run of a run file, with junction tables; gives its folder, of its name, here."""
    until = [] if args.until is None else ["--until", str(args.until)]
    run_tool("run", [run, "--junctions", "900", *until, *program_words])
    folder = f"{stem_of(run)}-run"
    note_kept(folder)
    return folder


def parts_of(folder: str) -> list[list[str]]:
    """The commands that make parts of the page alone, of a folder that streetsim-run wrote."""
    return [["streetsim-report", folder], ["streetsim-plot", "queues", folder], ["streetsim-play", folder]]


def run_tool(module: str, arguments: Sequence[str]) -> int:
    """Prints a command and runs it, by its module below cli; gives its status."""
    print(f"$ streetsim-{module.rstrip('_')} {shlex.join(arguments)}", flush=True)
    status: int = import_module(f"streetsim.cli.{module}").main(list(arguments))
    COMPLETED.clear()
    gc.collect()  # what it leaves, which the next one would need beside its own
    return status
