"""Makes the run of streetsim-run, or its runs with several seeds, by its parsed arguments."""
import argparse
import os
import sys
from collections.abc import Callable, Mapping, Sequence
from dataclasses import replace

from streetsim.base import limits, program
from streetsim.base.client import Census
from streetsim.base.files import Fault, note_kept, refuse_equal, refuse_foreign, whole_folder
from streetsim.base.jobs import side_by_side
from streetsim.base.progress import RunProgress
from streetsim.base.seeds import mean_and_day, mean_and_half_width, seeds_of
from streetsim.base.words import names_in
from streetsim.control.actuated_lights import driven_lights
from streetsim.control.bus_planned import planned
from streetsim.control.bus_priority import prioritised
from streetsim.control.ending import after_departures
from streetsim.control.settings import Settings
from streetsim.control.works_asked import all_works
from streetsim.control.works_closures import closures_of
from streetsim.model.doubts import Doubt, doubts_by_seed
from streetsim.model.folder import LIGHTS, NAME, POLLS
from streetsim.model.mapping import Map
from streetsim.model.replications import DRAWN, drawn, listed_in_map
from streetsim.model.rows import NAME as ROWS
from streetsim.model.runs import Run, read_with_map, with_load
from streetsim.model.trust import last_line_of_seeds
from streetsim.model.tables import PHASES_FILE, ROUTES_FILE, SEEDS, STOPS_FILE, WORKS_FILE, write_table
from streetsim.observe.kept_lines import remake_setting, write_kept, write_lights
from streetsim.observe.run_making import Figures, RunOptions, first_poll, make_run
from streetsim.observe.sumo_kinds import KINDS

DETECTORS = {"e1": "inductionLoop", "e2": "laneAreaDetector"}  # SUMO's names, by the kind of output

def run_by(args: argparse.Namespace, number_words: Sequence[str], again_words: Sequence[str]) -> int:
    """Makes the run, or the runs of --seeds, that the words ask for, writes the folder of --out, prints what it gave,
    and gives status 0. number_words: the words that change its numbers, for the setting; again_words: those by which it
    is made again of the lines that its folder keeps."""
    goes_on = bool(args.keep) and os.path.exists(args.keep)  # in the folder that it had begun
    refuse_foreign(args.out, args.force or goes_on)
    run, mapping = read_with_map(args.run, args.map)
    settings = settings_of(args, run, mapping)
    refuse_unknown(args, settings, mapping)
    refuse_unused(args, run, mapping)
    if args.close or args.joint:
        run, mapping = with_works_of(args, run, mapping)
    if settings.until <= run.start():
        raise Fault(f"--until {settings.until}: the run starts at {run.start()}")
    if not settings.open_end:
        refuse_no_poll(settings, run.start())
    simulator = program.find_program(args.program)
    more = args.rounds, args.workers, args.sumo_output, args.junctions
    along, again_setting = along_of(args, mapping), remake_setting(run, number_words, again_words)
    listed = listed_in_map(mapping) if args.departures == DRAWN else {}
    run_options = RunOptions(
        simulator, *more, polls=args.polls, along=along, again=again_setting, keep=args.keep, listed=listed
    )
    if args.keep:
        note_kept(f"{args.keep}, the session: the same command goes on there")
    if args.counted != "all":
        print("--counted has no effect any more: every lane is counted, in one run", file=sys.stderr)
    if args.seeds:
        return run_seeds(args, run_options, run, mapping, settings)
    with whole_folder(args.out, NAME) as folder, under_way(args, run, mapping, settings) as shown:
        write_inputs(args, folder, run, mapping)
        figures = make_run(run_options, *prepared_run(args, run, mapping, settings), folder, shown.show)
    print_figures(figures, "")
    return 0


def under_way(args: argparse.Namespace, run: Run, mapping: Map, settings: Settings, runs: int = 1) -> RunProgress:
    """The line on the terminal that says how far a run is, or several of it."""
    departing = int((run.departs() < settings.until).sum())
    passes = 1 + args.rounds if mapping.yields else 1
    return RunProgress(run.start(), settings.until, departing, runs, passes)

def prepared_run(args: argparse.Namespace, run: Run, mapping: Map, settings: Settings) -> tuple[Run, Map, Settings]:
    """The run with its departures as the words ask for, its map, and the settings with its lights and buses; Fault as
    of drawn and with_lights_and_buses."""
    if args.departures == DRAWN:
        run, mapping = drawn(run, mapping)
    return run, mapping, with_lights_and_buses(args, run, mapping, settings)


def with_works_of(args: argparse.Namespace, run: Run, mapping: Map) -> tuple[Run, Map]:
    """The run with the works of --close and the joint lanes of --joint, and its map; prints what there is to tell.
    Fault as of with_works."""
    from streetsim.control.works_sites import WorksOptions, with_works  # which loads the import

    works = all_works(args.close, mapping, run.start(), args.until)
    options = WorksOptions(tuple(names_in(args.joint)), args.lost or "lead", args.works_limit)
    end = mapping.end
    run, mapping, messages = with_works(run, mapping, args.map, works, options)
    mapping.end = end
    print(*messages, sep="\n", end="\n" if messages else "", file=sys.stderr)
    return run, mapping


def refuse_unused(args: argparse.Namespace, run: Run, mapping: Map) -> None:
    """Fault for --lost and --works-limit without --close, for --merge none in a run that has neither works nor stops,
    and for --keep with --seeds, or of another file of the run."""
    for name in ("lost", "works_limit"):
        if getattr(args, name) and not args.close:
            raise Fault(f"--{name.replace('_', '-')} is of road works: give --close too")
    if args.keep and args.seeds:
        raise Fault("--keep is of one run: leave --seeds out")
    if args.keep:
        refuse_equal({"--keep": args.keep, "--out": args.out}, (args.run, args.map))
    if args.merge == "none" and not (args.close or mapping.visits or closures_of(run, limits.CLOCK)):
        raise Fault("--merge is of road works and of stops, and the run has neither: give --close too")


def write_inputs(args: argparse.Namespace, folder: str, run: Run, mapping: Map) -> None:
    """Writes into a run's folder what it is made again by, and with junction tables what its lights show."""
    write_kept(folder, run)
    if args.junctions is not None:
        write_lights(folder, mapping, args.map)


def with_lights_and_buses(args: argparse.Namespace, run: Run, mapping: Map, settings: Settings) -> Settings:
    """The settings with the lights that detectors drive, the stops that are made and the vehicles with priority, as the
    words ask for; Fault as of with_priority."""
    if args.stops == "made":
        settings = replace(settings, buses=planned(run, mapping))
    if args.lights == "actuated" and mapping.actuated:
        settings = replace(settings, lights=driven_lights(run, mapping))
    return with_priority(args, run, mapping, settings)


def with_priority(args: argparse.Namespace, run: Run, mapping: Map, settings: Settings) -> Settings:
    """The settings with lights that wait for the vehicles of --priority, unchanged where it is not given; Fault where a
    name has no vehicle, for --seen without it, and for --lights listed beside it in a map with lights that detectors
    drive."""
    names = names_in(args.priority)
    if not names:
        if args.seen is not None:
            raise Fault("--seen is of vehicles with --priority")
        return settings
    if args.lights == "listed" and mapping.actuated:
        raise Fault("--priority and --lights listed: lights that wait for buses do not show their listed seconds")
    lights, buses = prioritised(run, mapping, names, args.seen, settings.lights, settings.buses)
    return replace(settings, buses=buses, lights=lights)


def settings_of(args: argparse.Namespace, run: Run, mapping: Map) -> Settings:
    """What the words ask of a run; without --until, and where its configuration had none, its end is a first guess,
    which the run moves."""
    until = args.until or mapping.end
    return Settings(
        until=until or after_departures(run),
        every=args.every,
        period=args.period,
        rescue=args.rescue,
        edges=tuple(names_in(args.edges)),
        open_end=not until,
        merging=args.merge == "turns",
    )


def refuse_unknown(args: argparse.Namespace, settings: Settings, mapping: Map) -> None:
    """Fault for edges of --edges and detectors of --sumo-output that the map does not have, and for --edges where
    nothing is polled."""
    if unknown := [edge for edge in settings.edges if edge not in mapping.links_of]:
        raise Fault(f"--edges: the map has no edge {unknown[0]!r}")
    if settings.edges and settings.every == 0:
        raise Fault("--edges are those whose lanes are polled, and --every 0 polls none")
    for kind in args.sumo_output:
        if kind in DETECTORS and not any(detector.kind == kind for detector in mapping.detectors):
            missing = f"the map has no {DETECTORS[kind]}: import an additional file that has one"
            raise Fault(f"--sumo-output {kind}: {missing}")


def along_of(args: argparse.Namespace, mapping: Map) -> list[list[str]]:
    """The routes of --along, each by its edges; Fault where one has an edge that the map does not have, or has fewer
    than two."""
    routes = [names_in(text) for text in args.along]
    for route in routes:
        if unknown := [edge for edge in route if edge not in mapping.links_of]:
            raise Fault(f"--along: the map has no edge {unknown[0]!r}")
        if len(route) < 2:
            raise Fault(f"--along {' '.join(route)!r}: a route has two edges or more")
    return routes


def refuse_no_poll(settings: Settings, start: int) -> None:
    """Fault where the run ends before its first poll; start: the clock at its begin."""
    if (first := first_poll(settings.every, start)) > settings.until:
        raise Fault(
            f"--every {settings.every}: the first poll of the lanes is at {first} s, and the run ends at "
            f"{settings.until} s: take --every {settings.until - start} or less, or --every 0, which polls none"
        )


def print_figures(figures: Figures, name: str) -> None:
    """Prints what a run gave, its notes on standard error; name: what each line begins with."""
    for note in figures.notes:
        print(f"{name}{note}", file=sys.stderr)
    print(f"{name}{figures.summary}")
    if figures.by_class:
        print(f"{name}{figures.by_class}")
    if figures.last_line:
        print(f"{name}{figures.last_line}")


def run_seeds(args: argparse.Namespace, run_options: RunOptions, run: Run, mapping: Map, settings: Settings) -> int:
    """Makes a run for each seed of --seeds, side by side, each into a folder of its own below --out; prints and writes
    (seeds.csv) what each gave, prints their mean trip with its 95 % interval, seeds in which nobody arrived left out,
    and which seeds are not to be trusted; gives status 0."""
    seeds = seeds_of(args.seeds, "--seeds")
    progress_lines = under_way(args, run, mapping, settings, len(seeds))
    with whole_folder(args.out, NAME) as folder, progress_lines:
        write_inputs(args, folder, run, mapping)

        def run_seed(seed: int, send_progress: Callable[[tuple[int, Census | None] | None], object]) -> Figures:
            """Makes the run of a seed, in a process of its own, and gives its figures; send_progress: gets (clock,
            census) while it goes, and None at its end."""
            seed_folder = f"{folder}/seed-{seed}"
            os.mkdir(seed_folder)
            seeded = with_load(run, seed=seed)
            inputs = prepared_run(args, seeded, mapping, settings)
            figures = make_run(run_options, *inputs, seed_folder, lambda clock, census: send_progress((clock, census)))
            send_progress(None)
            return figures

        def show(index: int, progress: tuple[int, Census | None] | None) -> None:
            """Shows what the run of a seed, by its index among them, told."""
            progress_lines.show(*progress, index) if progress else progress_lines.note_end()

        figures = side_by_side(run_seed, seeds, args.jobs, show)
        values = ([getattr(seed_figures, name) for name in SEEDS[1:]] for seed_figures in figures)
        rows = [(seed, *columns) for seed, columns in zip(seeds, values, strict=True)]
        write_table(f"{folder}/seeds.csv", SEEDS, rows)
    for seed, seed_figures in zip(seeds, figures, strict=True):
        print_figures(seed_figures, f"seed {seed}: ")
    if means := [seed_figures.mean_trip_s for seed_figures in figures if seed_figures.mean_trip_s is not None]:
        print(mean_trip_line(means, args.departures == DRAWN))
    by_seed = dict(zip(seeds, figures, strict=True))
    if line := last_line_of_seeds({seed: one.doubts for seed, one in by_seed.items()}, places_of(by_seed), mapping):
        print(line)
    return 0


def places_of(by_seed: Mapping[int, Figures]) -> list[Doubt]:
    """The doubts with places of runs with several seeds."""
    return doubts_by_seed({seed: one.places for seed, one in by_seed.items()})


def mean_trip_line(means: Sequence[float], is_drawn: bool) -> str:
    """The line on the mean trips (s) of runs with several seeds, one at least: with the 95 % intervals of their mean
    and of one day where departures were drawn, and else with that of dawdling, of which it says so."""
    mean, half = mean_and_half_width(means)
    if half is None:
        return f"mean trip {mean:.1f} s"
    if not is_drawn:
        ends = f"{mean - half:.1f} to {mean + half:.1f} s"
        return f"mean trip {mean:.1f} s, {ends} by dawdling alone: of another day nothing is sure (--departures listed)"
    day = mean_and_day(means)[1] or 0.0
    spans = [f"{mean - width:.1f} to {mean + width:.1f} s" for width in (half, day)]
    return f"mean trip {mean:.1f} s, 95 % interval of the mean {spans[0]}, of one day {spans[1]}"
