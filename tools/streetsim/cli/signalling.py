"""Searches the plan, or the bounds, of streetsim-signals, by its parsed arguments, and tells what was found."""
import argparse
import sys
from collections.abc import Iterator, Sequence
from contextlib import contextmanager
from statistics import fmean, stdev
from time import monotonic

from streetsim.base import limits, program
from streetsim.base.files import Fault, refuse_foreign, refuse_unwritable
from streetsim.base.progress import Slow, WorkProgress
from streetsim.base.seeds import seeds_for, seeds_of
from streetsim.base.words import names_in, paths_in
from streetsim.cli.defaults import complete_outputs, complete_run, plan_files, stem_of
from streetsim.cli.plan_commands import plan_commands
from streetsim.cli.words import seeds_to_check
from streetsim.control.ending import after_departures
from streetsim.model.folder import Folder
from streetsim.model.runs import read_with_map
from streetsim.observe.run_making import RunOptions
from streetsim.report.picture_files import load_pyplot
from streetsim.report.picture_plots import Corridor, refuse_broken
from streetsim.search.run_machines import machines
from streetsim.search.signal_bounded import (
    BoundsSettings, FoundBounds, bounded_outcomes, ground_of, searched_bounds, write_found_bounds,
)
from streetsim.search.signal_bounds import bounds_text
from streetsim.search.signal_formulas import streets_of
from streetsim.search.signal_found import PlanFiles, before_after_rows, doubts_of, tell_found, write_found
from streetsim.search.signal_in_sumo import PROGRAM_ID, sumo_for, verified
from streetsim.search.signal_planning import (
    TRIED, ended_search, proposed_cycles, refuse_budget, tried_seeds,
)
from streetsim.search.signal_plans import plan_text
from streetsim.search.signal_search import PlanSearch, search_plan
from streetsim.search.usual import CHANGES, CYCLES, DRAWN, LEAST_GREEN
from streetsim.search.signal_town import Reading, Runner, SignalTown, read_town, sessions_of

FINALISTS = 20  # plans that are judged by runs in which turns give way by who comes


def search_by(args: argparse.Namespace) -> int:
    """Searches, writes the plan (or the bounds) and tables, and prints what was found; gives the status, as
    `tell_found` says, or with --bounds `write_found_bounds`."""
    complete_words(args)
    refuse_unused(args)
    check = check_seeds(args)
    reading = reading_of(args)
    with Slow(f"reading {args.run}"):
        town = read_town(reading)
    check_cycles(args, town)
    if args.bounds:
        return find_bounds(args, reading, town, check)
    making = RunOptions(reading.program, args.rounds)
    target = PlanFiles(args.output, args.out, corridor_of(args, town), making, args.until)
    in_sumo = sumo_for(reading, town.mapping, town.run) if args.verify_sumo else None
    with runner_of(args, town, check) as runner:
        search, why_stopped = search_for_plan(args, runner, check)
        given_outcomes, best_outcomes = runner.outcomes([town.plan, search.best[1]], check, args.jobs)
    texts = [plan_text(town.lights, plan, PROGRAM_ID) for plan in (town.plan, search.best[1])]
    sumo = verified(in_sumo, town, texts, check, args.jobs) if in_sumo else None
    rows = before_after_rows(town, given_outcomes, best_outcomes, sumo)
    doubts = list(doubts_of(town, given_outcomes, best_outcomes))
    write_found(target, town, search, rows, doubts)
    status = tell_found(town, search, rows, why_stopped, doubts, sumo)
    tell_next(args, town)
    return status


def tell_next(args: argparse.Namespace, town: SignalTown) -> None:
    """Prints, on standard error, the commands that show what was found beside what was given."""
    if lines := plan_commands(args, town.mapping):
        what = "bounds" if args.bounds else "plan"
        told = f"the {what} found beside the {what} given, by five days each:"
        print(told, *(f"$ {line}" for line in lines), sep="\n", file=sys.stderr)


def complete_words(args: argparse.Namespace) -> None:
    """Gives what is missing of the words what is usual: the map beside the run, its end, and outputs of its name; and
    the files of a configuration in its place. Fault where a file cannot be read."""
    complete_run(args)
    args.plans = [path for named in paths_in(args.plans) for path in plan_files(named)]
    if args.until is None:
        run, mapping = read_with_map(args.run, args.map)
        args.until = mapping.end or after_departures(run)
    name = stem_of(args.run)
    complete_outputs(args, output=f"{name}.found.add.xml", out=f"{name}-signals")


def find_bounds(args: argparse.Namespace, reading: Reading, town: SignalTown, check: Sequence[int]) -> int:
    """Finds bounds of actuated and NEMA lights, and the best plan of seconds to compare them with; writes and prints
    both, and gives the exit status of write_found_bounds. check: seeds by which both are judged."""
    ground = ground_of(reading, town)
    in_sumo = sumo_for(reading, town.mapping, town.run) if args.verify_sumo else None
    with machines(args.jobs, args.cluster, ground.sessions) as workers:
        asked = BoundsSettings(args.budget, given_seeds(args), args.least)
        search, why_stopped = searched_bounds(asked, workers, ground, tried_seeds(check))
        pair = ground.given_bounds, search.best[1]
        given_outcomes, best_outcomes = ([*bounded_outcomes(workers, [bounds], check)] for bounds in pair)
    with runner_of(args, town, check) as runner:
        fixed, _ = search_for_plan(args, runner, check)
        [beside] = runner.outcomes([fixed.best[1]], check, args.jobs)
    texts = [bounds_text(town.mapping, bounds, PROGRAM_ID) for bounds in pair]
    sumo = verified(in_sumo, town, texts, check, args.jobs) if in_sumo else None
    found = FoundBounds(search, why_stopped, given_outcomes, best_outcomes, beside, sumo)
    status = write_found_bounds(args.output, args.out, ground, found)
    tell_next(args, town)
    return status


def refuse_unused(args: argparse.Namespace) -> None:
    """Fault for --first and --last without --edges, and for --edges, --constraints and --mend with --bounds."""
    if given := [name for name in ("first", "last") if getattr(args, name) is not None and not args.edges]:
        raise Fault(f"--{given[0]} is of the pictures: give --edges too")
    if args.bounds and args.edges:
        raise Fault("--edges draws plans of seconds, and --bounds finds none")
    if args.bounds and (args.constraints or args.mend):
        word = "constraints" if args.constraints else "mend"
        raise Fault(f"--{word} is of plans of seconds, and --bounds finds none")


def changes_and_cycles(args: argparse.Namespace) -> tuple[list[str], range]:
    """(what may be changed, of CHANGES; cycles to try, in seconds), an empty range where cycles stay; Fault where the
    words name others, and for --cycle where cycles stay or that is no S-S."""
    changed = names_in(args.vary)
    if unknown := [name for name in changed if name not in CHANGES]:
        raise Fault(f"--vary: {unknown[0]!r} is none of {', '.join(CHANGES)}")
    if args.cycle and "cycle" not in changed:
        raise Fault(f"--cycle {args.cycle}: --vary {args.vary} leaves the cycles as they are")
    first, _, last = (args.cycle or CYCLES).partition("-")
    most = limits.PHASES * limits.PHASE_STEPS
    if not (first.isdecimal() and last.isdecimal() and 1 <= int(first) <= int(last) <= most):
        raise Fault(f"--cycle {args.cycle!r}: expected S-S, rising")
    return changed, range(int(first), int(last) + 1) if "cycle" in changed else range(0)


def given_seeds(args: argparse.Namespace) -> Sequence[int]:
    """The seeds of --seeds, empty where it is not given; Fault where they are none."""
    return seeds_of(args.seeds, "--seeds") if args.seeds else ()


def check_seeds(args: argparse.Namespace) -> Sequence[int]:
    """The seeds of --check, by which the plan that is found is judged. Fault for fewer than two of them, one that
    --seeds names too, and a --budget below the simulations of one plan: one for each seed of --seeds."""
    check = seeds_to_check(args)
    if len(check) < 2:
        raise Fault(f"--check-seeds {args.check_seeds}: an interval needs two seeds at least")
    refuse_budget(args.budget, given_seeds(args) or range(1))
    return check


def reading_of(args: argparse.Namespace) -> Reading:
    """What is to be read of a town; Fault where an output cannot be written or is an input, where there is no program,
    and as of changes_and_cycles. The reserve is 0 where offsets alone are changed and no bounds are to be found."""
    plans, (changed, _) = paths_in(args.plans), changes_and_cycles(args)
    refuse_unwritable(args.out, {"-o": args.output}, [args.run, args.map, *plans, *given_paths(args)])
    refuse_foreign(args.out, args.force, [args.output])
    return Reading(
        run=args.run,
        map=args.map,
        plans=plans,
        until=args.until,
        program=program.find_program(args.program),
        least_green=args.least or LEAST_GREEN,
        keep=names_in(args.fixed),
        rounds=args.rounds,
        reserve=args.reserve if {"splits", "cycle"} & {*changed} or args.bounds else 0,
        fixed=args.bounds,
        constraints=args.constraints,
        mend=args.mend,
    )


def given_paths(args: argparse.Namespace) -> list[str]:
    """The files that are read where a word names them."""
    return [args.constraints] if args.constraints else []


def check_cycles(args: argparse.Namespace, town: SignalTown) -> None:
    """Fault where there are cycles to try and no light can keep any of them, or with --cycle where the least seconds of
    a light's phases are above all of them."""
    _, cycles = changes_and_cycles(args)
    able = (town.lights[name].scaled(timing, cycle) for name, timing in town.base.items() for cycle in cycles)
    if cycles and not any(able):
        text = f"no light can keep such a cycle (--least {args.least or LEAST_GREEN}, and the bounds of its phases)"
        raise Fault(f"--cycle {args.cycle or CYCLES}: {text}")
    for name, light in town.lights.items():
        needed = sum(least for least, _ in light.bounds)
        if args.cycle and needed > cycles[-1] and any(one.low for one in light.constraints):
            text = f"light {name!r}: its phases must last {needed} s together"
            raise Fault(f"--cycle {args.cycle}: {text} (leave it as it is: --fixed {name})")


def corridor_of(args: argparse.Namespace, town: SignalTown) -> Corridor | None:
    """What is drawn in the end of ways along --edges, none where it is not given; Fault for what could not be drawn."""
    if not args.edges:
        return None
    edges = names_in(args.edges)
    refuse_broken(Folder("--edges", town.mapping, [], 0, 1, 0), edges)
    load_pyplot()
    first = args.until // 3 if args.first is None else args.first
    last = min(args.until, first + DRAWN) if args.last is None else args.last
    if not first < last <= args.until:
        raise Fault(f"--first {first}, --last {last}: must rise, and end with the run at {args.until} s")
    return Corridor(edges, first, last)


@contextmanager
def runner_of(args: argparse.Namespace, town: SignalTown, check: Sequence[int]) -> Iterator[Runner]:
    """What runs plans of a town, as long as the block lasts; for the seeds of the search it finds first, by runs, the
    gaps by which vehicles give way without a light. check: seeds that it does not see. Fault where a run fails."""
    with machines(args.jobs, args.cluster, [town.session]) as workers:
        known = sorted({*tried_seeds(check), *given_seeds(args)})
        sessions, places = sessions_of(town, known, Runner(workers, town))
    with machines(args.jobs, args.cluster, sessions) as workers:
        runner = Runner(workers, town, places)
        if town.estimates:
            runner.hide_as(town.base, (given_seeds(args) or known)[0])
        yield runner


def search_seeds(args: argparse.Namespace, runner: Runner, check: Sequence[int]) -> Sequence[int]:
    """The seeds of the search: those of --seeds, else of tried_seeds as many as the spread of runs of the given plan
    asks for. Makes these runs in both cases; prints how many seeds, and why. Fault where --budget is below them."""
    tried = tried_seeds(check)
    means, shown = [], WorkProgress("runs of the given plan", len(tried), abreast=args.jobs)
    for mean in runner.mean_trips([runner.town.plan], tried):
        means.append(mean)
        shown.show(len(means))
    shown.end()
    needed = seeds_for(means)
    seeds = given_seeds(args) or tried[:needed]
    differ = f"trips of the given plan differ by {100 * stdev(means) / fmean(means):.1f} % from seed to seed"
    advice = f", {needed} are advised" if len(seeds) < needed else ""
    print(f"{differ}: the search uses {len(seeds)} seed{'s' if len(seeds) > 1 else ''}{advice}", file=sys.stderr)
    refuse_budget(args.budget, seeds)
    return seeds


def judge_finalists(search: PlanSearch, runner: Runner, seeds: Sequence[int], most: int) -> None:
    """Runs the given plan and the best that were found by estimates, so many at most, with turns that give way at
    lights by who comes; the best of these is then the best of the search."""
    given = "given", runner.town.base
    plans = [given, *(one for one in search.finalists(most) if search.key_of(one[1]) != search.key_of(given[1]))]
    search.judge(zip(plans, runner.live_means([plan for _, plan in plans], seeds), strict=True))


def search_for_plan(args: argparse.Namespace, runner: Runner, check: Sequence[int]) -> tuple[PlanSearch, bool]:
    """Searches for a plan, and says what that came to; gives (search when it has ended, whether the user ended it by
    Ctrl-C)."""
    begin = monotonic()
    town, seeds, (changed, cycles) = runner.town, search_seeds(args, runner, check), changes_and_cycles(args)
    judging = (monotonic() - begin) * 2 * len(check) / TRIED  # seconds: runs side by side too, by two plans
    streets = streets_of(town.run, town.mapping, town.lights)

    def search_from_given(search: PlanSearch) -> None:
        """Searches from the given plan."""
        search_plan(search, town.base, town.lights, streets, changed, proposed_cycles(cycles, town, streets))

    judged_plans = min(FINALISTS + 1, args.budget // len(seeds) // 2) if town.estimates else 0
    search, is_stopped = ended_search(
        lambda plans: runner.mean_trips(plans, seeds), args.budget - judged_plans * len(seeds), len(seeds),
        search_from_given, seconds_after=judging, estimates=town.estimates,
    )
    if judged_plans:
        judge_finalists(search, runner, seeds, judged_plans - 1)
    told = f"the search has ended after {search.simulations} simulations"
    print(f"{told}: plans are now run by {len(check)} other seeds", file=sys.stderr)
    return search, is_stopped
