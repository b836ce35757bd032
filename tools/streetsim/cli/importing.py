"""Imports SUMO's networks and routes, by the parsed arguments of streetsim-import; and the options of an import, by
those of any command."""
import argparse
import json
import sys
from dataclasses import replace

from streetsim.base.files import Fault, Json, refuse_unwritable, whole_file
from streetsim.base.progress import Slow
from streetsim.base.report import COLUMNS, Report
from streetsim.base.words import names_in, paths_in
from streetsim.cli.defaults import complete_outputs, end_of, map_beside, name_of_network
from streetsim.model.kept_imports import keep_files, key_of, read_kept
from streetsim.model.mapping import INVENTED, TOLD_INVENTED
from streetsim.model.sources import Sources
from streetsim.model.tables import write_table
from streetsim.sumo.driver_words import CUTS, DriverValues, number_within, read_drivers, shares_read, speeds_read
from streetsim.sumo.import_files import read_and_converted, write_run
from streetsim.sumo.import_options import NUMBERS, Options
from streetsim.sumo.types import CLASSES

BY_GAPS = "vehicles give way at lights by the gaps that there are; EDGE=SHARE keeps a survey's share"


def options_of(args: argparse.Namespace) -> Options:
    """The options that the words of `add_options` name; Fault where they do not fit to each other, or SUMO has no class
    of --classes."""
    if args.end is not None and args.end <= args.begin:
        raise Fault(f"the end, {args.end} s, is not after the begin, {args.begin} s: nobody would depart")
    classes = tuple(names_in(args.classes))
    if unknown := [name for name in classes if name not in CLASSES]:
        raise Fault(f"--classes: SUMO has no vehicle class {unknown[0]!r}; it has {', '.join(CLASSES)}")
    values = {name: getattr(args, name) for name in (*NUMBERS, "begin", "end", "ignore_route_errors")}
    values.update(drivers_of(args))
    values.update(strict_turns=args.turns == "strict", sizes=args.sizes == "on", joint=tuple(names_in(args.joint)))
    return Options(classes=classes, **values)


def drivers_of(args: argparse.Namespace) -> Json:
    """The options of drivers: of the words, else of the file of --drivers, else the usual ones. Fault where one of them
    is wrong."""
    file_drivers = read_drivers(args.drivers) if args.drivers else DriverValues()
    dawdle = next((share for share in (args.dawdle, file_drivers.dawdle) if share is not None), Options().dawdle)
    every, shares = shares_read(args.permissive or "", "--permissive")
    if every is not None:
        print(f"--permissive {every:g} has no effect any more: {BY_GAPS}", file=sys.stderr)
    cut = file_drivers.cut or 0.0
    if args.cut is not None:
        cut = number_within(args.cut, CUTS, "--cut")
    speeds = speeds_read(args.speed_factor or "", "--speed-factor")
    both = {**dict(file_drivers.shares), **dict(shares)}
    return {
        "dawdle": dawdle, "cut": cut, "speeds": speeds or file_drivers.speeds, "shares": tuple(both.items()),
    }  # fmt: skip


def import_by(args: argparse.Namespace, configured: dict[str, str], keeps: bool = True) -> int:
    """Makes the import of streetsim-import: writes the run, its map and the table of --warnings, and tells on standard
    error what is other than in SUMO; gives 1 where --strict is given and vehicles were skipped, else 0. configured: the
    options of SUMO's configuration, empty where there is none; keeps: whether an import of equal words and files that
    is kept is taken, and this one kept."""
    if not args.net:
        raise Fault("no network: give NET.net.xml, or -c FILE.sumocfg (what may be given: streetsim-import --help)")
    output = args.output or f"{name_of_network(args)}.jsonl"
    complete_outputs(args, output=output, map=map_beside(output))
    args.additional, args.routes, args.trips = map(paths_in, (args.additional, args.routes, args.trips))
    sources = Sources(args.net, args.additional, args.routes, args.trips)
    outputs = {"-o": args.output, "--map": args.map, "--warnings": args.warnings}
    read = [*sources.paths(), *filter(None, [args.names])]
    refuse_unwritable(".", outputs, read)
    options = replace(options_of(args), slow=tuple(names_in(args.slow)), part=tuple(names_in(args.part)))
    arguments = [json.dumps([vars(args), configured], sort_keys=True, default=str)]
    files = [*read, *filter(None, [args.drivers])]
    key = key_of(arguments, files) if keeps and not args.warnings and not args.strict else None
    if key is not None and (kept := read_kept(key)) is not None:
        with whole_file(args.output) as run, whole_file(args.map) as mapped:
            run.write(kept.run)
            mapped.write(kept.map)
        print(kept.messages, end="", file=sys.stderr)
        return 0
    report = Report()
    messages = import_anew(args, sources, options, report, configured)
    if key is not None and key == key_of(arguments, files):  # no file has changed meanwhile
        keep_files(key, args.output, args.map, messages)
    return 1 if args.strict and report.skipped else 0


def import_anew(
    args: argparse.Namespace, sources: Sources, options: Options, report: Report, configured: dict[str, str]
) -> str:
    """Makes an import and writes its files; gives what is told on standard error."""
    with Slow(f"importing {args.net}"):
        converted = read_and_converted(sources, options, report, configured)
        if any(name.startswith(INVENTED) for name in converted[3]):
            report.warn(TOLD_INVENTED, advice="counts and matrices: streetsim-demand")
    mapping = write_run(args.output, args.map, converted, report, sources, args.names, end_of(configured))
    if args.warnings:
        write_table(args.warnings, COLUMNS, report.rows())
    summary = (
        f"{len(mapping.nodes):,} nodes, {len(mapping.links):,} links, {len(mapping.turns):,} turns, "
        f"{len(mapping.signals):,} signals, {len(mapping.cars):,} vehicles"
    )
    messages = "".join(f"{line}\n" for line in [*report.lines(), summary])
    print(messages, end="", file=sys.stderr)
    return messages
