"""Searches the routes of streetsim-route, by its parsed arguments, and tells what was found."""
import argparse
import sys

from streetsim.base import limits, program
from streetsim.base.files import Fault, refuse_foreign, refuse_unwritable
from streetsim.base.program import program_digest
from streetsim.base.progress import Slow, Stopping
from streetsim.base.report import Report
from streetsim.base.seeds import seeds_of
from streetsim.base.words import names_in, paths_in
from streetsim.cli.defaults import complete_outputs, name_of_network
from streetsim.cli.importing import options_of
from streetsim.cli.words import refuse_half_run, seeds_to_check
from streetsim.model import trust
from streetsim.search.route_diverting import check_works, give_ways_of_file
from streetsim.search.route_job import (
    Job, RouteFiles, RouteWorks, search_routes, tell_found, tell_stops, write_found,
)
from streetsim.search.route_loading import read_town
from streetsim.search.route_search import RouteSettings
from streetsim.search.route_team import team
from streetsim.search.route_watching import RunGround
from streetsim.search.usual import LONGEST_TRIP
from streetsim.sumo.trips import connected_trips, read_trips

# Words that the setting keeps.
SETTING_WORDS = (
    "net", "additional", "trips", "anew", "slice", "iterations", "gap", "share", "tried", "rounds", "seeds",
    "check_seeds", "priority", "seen",
)


def search_by(args: argparse.Namespace) -> int:
    """Searches, writes the routes and tables, and prints what was found; gives the greatest status that `tell_found`
    gives for one of the shares of drivers who know."""
    if not args.trips:
        raise Fault("no trips: give --trips FILE (what may be given: streetsim-route --help)")
    complete_outputs(args, output=f"{name_of_network(args)}.found.rou.xml", out=f"{name_of_network(args)}-routes")
    check_words(args)
    with Slow(f"reading {args.net}"):
        job = job_of(args)
    with team(job.ground, args.jobs, args.cluster) as workers, Stopping() as stopping:
        results = search_routes(job, workers, stopping)
    write_found(job, results)
    for result in results[len(results) > 1 :]:
        tell_stops(job, result)
    status = max([tell_found(job, result, results[0]) for result in results[len(results) > 1 :]])
    if named := list(dict.fromkeys(text for result in results for text in result.named_doubts())):
        print(trust.verdict(named))
    return status


def check_words(args: argparse.Namespace) -> None:
    """Fault for words that do not fit to each other, or outputs that cannot be written, before anything is read."""
    refuse_half_run(args)
    seeds_to_check(args)
    outputs = {"-o": args.output, "--run": args.run, "--map": args.map}
    read = [args.net, *paths_in([*args.additional, *args.trips]), *filter(None, [args.before])]
    refuse_unwritable(args.out, outputs, read)
    refuse_foreign(args.out, args.force, outputs.values())
    if args.seen is not None and not args.priority:
        raise Fault("--seen is of vehicles with --priority")
    for name in ("knowing", "sign", "before", "lost"):
        if getattr(args, name) and not args.close:
            raise Fault(f"--{name} is of road works: give --close too")


def job_of(args: argparse.Namespace) -> Job:
    """The search that the words ask for, with its files read and checked; prints what is left out or changed in them.
    Fault where something in them cannot be used."""
    report, simulator = Report(), program.find_program(args.program)
    files = {"additional": paths_in(args.additional), "trips": paths_in(args.trips)}
    town = read_town(args.net, files["additional"], options_of(args), report)
    trips = read_trips(files["trips"], town.net, town.graph, town.types, town.options, report)
    if back := sum(not trip.changes for trip in trips.trips):
        report.warn(f"{back:,} vehicles have a route back to the edge where it begins, which they keep")
    if args.anew:
        for trip in (trip for trip in trips.trips if trip.changes):
            trip.path = ()
    trips.trips = connected_trips(trips.trips, town.net, town.graph, town.options.ignore_route_errors, report)
    if args.before:
        before = read_trips([args.before], town.net, town.graph, town.types, town.options, Report())
        give_ways_of_file(trips.trips, before, town.graph, args.before)
    print(*report.lines(), sep="\n", end="\n" if any(report.lines()) else "", file=sys.stderr)
    last = int(trips.trips[-1].depart)
    until = min(limits.CLOCK, last + LONGEST_TRIP) if args.until is None else args.until
    if until <= last:
        raise Fault(f"--until {until}: the last trip departs at {last:,} s")
    closed = [works for text in args.close for works in names_in(text)]
    town.joint = check_works(closed, args.sign, trips.trips, town, until)
    return Job(
        town,
        trips,
        ground=RunGround(
            simulator, program_digest(simulator), town.graph, args.slice, until, args.rounds,
            args.lights == "actuated", tuple(names_in(args.priority)), args.seen,
        ),
        settings=RouteSettings(args.iterations, args.gap, args.share, seeds_of(args.seeds, "--seeds"), args.tried),
        check=seeds_to_check(args),
        works=RouteWorks(closed, args.sign, args.lost or "lead", args.knowing or [1.0], args.before),
        target=RouteFiles(args.output, args.run, args.map, args.out),
        setting_words={**{name: getattr(args, name) for name in SETTING_WORDS}, **files},
    )
