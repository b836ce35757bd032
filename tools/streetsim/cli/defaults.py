"""What stands for words that are not given: files named after those that are given, and what SUMO's configuration
names."""
import argparse
import os
import re
import sys
from collections.abc import Sequence
from typing import Any

from streetsim.base.files import Fault, seconds
from streetsim.base.words import FALSE, Parser
from streetsim.sumo.configuration import DEFAULTS, files_named, read_configuration

COMPLETED: list[str] = []  # words that were not given, with the paths that they got, of this process
FILE_ENDINGS = re.compile(r"\.(jsonl|net\.xml|osm\.xml|osm|sumocfg|sumo\.cfg|rou\.xml|toml|xml)(\.gz)?$|/+$")
CONFIGURATION = re.compile(r"\.(sumocfg|sumo\.cfg)(\.gz)?$")


def is_configuration(path: str | None) -> bool:
    """Whether a path is of a configuration of SUMO's, by its name."""
    return bool(path and CONFIGURATION.search(path))


def stem_of(path: str) -> str:
    """The name of a file, without its folder and what ends it as its kind's do: zero of day/zero.jsonl.gz."""
    return os.path.basename(FILE_ENDINGS.sub("", path)) or path


def map_beside(run: str) -> str:
    """The path of the map of a run file: NAME.map.json beside NAME.jsonl."""
    return os.path.join(os.path.dirname(run), f"{stem_of(run)}.map.json")


def complete_run(args: argparse.Namespace) -> None:
    """Gives --map, where it is missing, its place beside the run. Fault where no file is there."""
    if args.map is None:
        args.map = map_beside(args.run)
        if not os.path.exists(args.map):
            raise Fault(f"{args.run}: there is no map {args.map} beside it: give --map")


def complete_outputs(args: argparse.Namespace, **usual: str) -> None:
    """Gives words of outputs that are missing the paths that are usual for them; `tell_completed` tells which."""
    for word, path in usual.items():
        if getattr(args, word) is None:
            setattr(args, word, path)
            COMPLETED.append(f"--{word} {path}")


def tell_completed() -> None:
    """Says on standard error where was written what no word named, if that was so."""
    if COMPLETED:
        print(f"written: {', '.join(COMPLETED)}", file=sys.stderr)


def args_and_options(
    tool_parser: Parser, arguments: Sequence[str], routes: str, drops: tuple[str, ...] = ()
) -> tuple[argparse.Namespace, dict[str, str]]:
    """The words of a command with a network (net) and additional files, where no word is given completed by the
    configuration that stands for the network, or that -c names; and the options of that configuration, empty where
    there is none; `configuration` is then its path. routes: the attribute that gets the files of routes, where it has
    none and no trips are given, empty for none; drops: options of the configuration that are no defaults here."""
    args = tool_parser.parse_args(arguments)
    path = getattr(args, "configuration", None) or (args.net if is_configuration(args.net) else None)
    if path is None:
        return args, {}
    options = read_configuration(path)
    known: dict[str, Any] = {name.replace("-", "_"): options[name] for name in DEFAULTS if options.get(name)}
    defaults = {name: value for name, value in known.items() if name not in drops}
    if defaults.get("end", "").startswith("-"):
        del defaults["end"]  # SUMO's -1: none
    if "ignore_route_errors" in defaults:
        defaults["ignore_route_errors"] = defaults["ignore_route_errors"].lower() not in FALSE
    tool_parser.set_defaults(**defaults)
    args = tool_parser.parse_args(arguments)
    net, additional, files = files_named(path, options)
    args.configuration, args.net = path, net if is_configuration(args.net) else args.net or net
    args.additional = args.additional or additional
    if routes and not args.trips:
        setattr(args, routes, getattr(args, routes) or files)
    return args, options


def plan_files(path: str) -> list[str]:
    """The files with programs of lights that a path names: itself, or of a configuration the network and the additional
    files. Fault where it cannot be read."""
    if not is_configuration(path):
        return [path]
    net, additional, _ = files_named(path, read_configuration(path))
    return [net, *additional]


def name_of_network(args: argparse.Namespace) -> str:
    """The name of the network of a command, or of the configuration that stands for it, as outputs are called."""
    return stem_of(getattr(args, "configuration", None) or args.net)


def end_of(options: dict[str, str]) -> int:
    """The clock at which a configuration ends a run, whole seconds, 0 where its options give none."""
    text = options.get("end", "")
    try:
        return max(0, int(seconds(text))) if text else 0
    except ValueError:
        return 0
