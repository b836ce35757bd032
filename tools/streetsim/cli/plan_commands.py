"""The commands that show a plan which streetsim-signals found: beside the one given, by a report."""
import argparse
import os
import shlex
from collections.abc import Iterator
from dataclasses import fields

from streetsim.base.files import Fault, Json
from streetsim.cli.defaults import map_beside, stem_of
from streetsim.model.mapping import Map
from streetsim.model.sources import sources_of
from streetsim.sumo.driver_words import Pairs
from streetsim.sumo.network import Options

DAYS = ("--seeds", "1-5", "--junctions", "900")
BY_NAME = ("dawdle", "change", "zone", "seed", "residence", "buffer", "begin", "end", "cut")  # a word of the same name
LISTS = ("classes", "joint", "slow")  # a word with commas between
ENDING = ".add.xml"  # of the file that a search writes


def plan_commands(args: argparse.Namespace, mapping: Map) -> list[str]:
    """The lines of the shell that import what was found, run it and the plan given by five days, and make a report of
    both; none where the files of the import are not known or have changed. args: of streetsim-signals, complete."""
    try:
        sources = sources_of(mapping.sources, args.map, args.run)
    except Fault:
        return []
    known = {os.path.realpath(path) for path in sources.additional}
    more_files = [path for path in args.plans[1:] if os.path.realpath(path) not in known]
    files = [path_from_here(path) for path in (sources.net, *sources.additional)]
    named = {"--routes": sources.routes, "--trips": sources.trips}
    demand = [word for name, paths in named.items() if paths for word in (name, *map(path_from_here, paths))]
    tail = [*demand, *import_words(mapping.options), "-o"]
    given_run, until = f"{stem_of(args.run)}.given.jsonl" if more_files else args.run, ["--until", str(args.until)]
    run = found_run(args.output, given_run)
    lines = [["streetsim-import", *files, *more_files, *tail, given_run]] if more_files else []
    lines.append(["streetsim-import", *files, *more_files, args.output, *tail, run])
    own = ["--map", args.map] if not more_files and args.map != map_beside(given_run) else []
    lines += [["streetsim-run", given_run, *own, *until, *DAYS], ["streetsim-run", run, *until, *DAYS]]
    lines.append(["streetsim-report", f"{stem_of(given_run)}-seeds", f"{stem_of(run)}-seeds"])
    return [shlex.join(line) for line in lines]


def found_run(output: str, given_run: str) -> str:
    """The run file of what was found, beside its file of programs, with another name than the run of what was given."""
    stem = output.removesuffix(ENDING).removesuffix(".xml")
    return f"{stem}.found.jsonl" if stem_of(stem) == stem_of(given_run) else f"{stem}.jsonl"


def path_from_here(path: str) -> str:
    """A path as seen from here, where that is shorter."""
    return min(os.path.relpath(path), path, key=len)


def import_words(options: Json) -> Iterator[str]:
    """The words of streetsim-import by which it gets the options that a map keeps; of the usual ones none."""
    usual = {one.name: one.default for one in fields(Options)}
    kept_options = {name: tuple(setting) if isinstance(setting, list) else setting for name, setting in options.items()}
    changed = {name: setting for name, setting in kept_options.items() if setting != usual.get(name, setting)}
    for name, setting in changed.items():
        if name in BY_NAME:
            yield f"--{name}={setting}"
        elif name in LISTS:
            yield f"--{name}={','.join(setting)}"
    yield from ("--turns=strict",) * ("strict_turns" in changed) + ("--sizes=off",) * ("sizes" in changed)
    yield from ("--ignore-route-errors",) * ("ignore_route_errors" in changed)
    shares, speeds = (pairs_told(kept_options.get(name, ())) for name in ("shares", "speeds"))
    for word, texts in (("permissive", shares), ("speed-factor", speeds)):
        if texts:
            yield f"--{word}={','.join(texts)}"


def pairs_told(values: Pairs) -> list[str]:
    """Pairs of a name and a number as words have them, NAME=NUMBER; of an empty name the number alone."""
    return [f"{name}={value}" if name else str(value) for name, value in values]
