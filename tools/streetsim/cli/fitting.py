"""Makes the demand of streetsim-demand, by its parsed arguments."""
import argparse
from collections.abc import Sequence
from contextlib import suppress
from dataclasses import replace
from itertools import chain

from streetsim.base import program
from streetsim.base.files import Fault, refuse_foreign, refuse_unwritable
from streetsim.base.progress import Slow, Stopping
from streetsim.base.report import Report
from streetsim.base.words import names_in, paths_in
from streetsim.cli.defaults import complete_outputs, name_of_network
from streetsim.cli.importing import options_of
from streetsim.cli.words import refuse_half_run
from streetsim.demand import demanding, making
from streetsim.demand.demanding import DemandInputs
from streetsim.demand.making import FEW_RUNS, DemandOutputs, DemandRuns
from streetsim.search.route_loading import read_town


def fit_by(args: argparse.Namespace) -> int:
    """Makes the demand, writes its files and prints how well it fits; gives its status, as `making.print_result` says.
    Without --begin, or with 0, the demand begins with the first slice, which may lead in to counts."""
    complete_outputs(args, output=f"{name_of_network(args)}.fitted.rou.xml", out=f"{name_of_network(args)}-fitted")
    inputs, outputs = inputs_of(args), DemandOutputs(args.output, args.out, args.run, args.map)
    additional = paths_in(args.additional)
    files = (inputs.counts, inputs.zones, inputs.matrices, inputs.flows, inputs.ratios, inputs.candidates)
    check_words(args, [args.net, *additional, *chain(*files)])
    running = DemandRuns(program.find_program(args.program), args.runs, args.rounds) if args.runs else None
    with Slow(f"reading {args.net}") as shown:

        def show_step(text: str) -> None:
            """Shows on the terminal what is done just now."""
            shown.text = text

        town = read_town(args.net, additional, options_of(args), Report())
        basis = demanding.basis_of(town, inputs, show_step)
        if not args.begin:
            town.options = replace(town.options, begin=basis.slices.bounds[0])
        town.works, town.lost = tuple(chain(*map(names_in, args.close))), args.lost or town.lost
        show_step("fitting")
        fitted = demanding.fit_to_counts(basis, inputs, basis.free_costs())
        making.print_input_notes(basis, fitted)
        if basis.has_few and args.runs is None:
            running = usual_runs(args)
            making.print_few(bool(args.ends), bool(running))
        with Stopping() as stopping:
            tried = []
            if running:
                tried = making.run_attempts(basis, inputs, running, fitted, lambda: stopping.end_asked, show_step)
        demand = making.best_demand(basis, inputs, fitted, tried)
        show_step("writing")
        note = program.proof_note(running.program) if running else {}
        making.write_result(outputs, demand, making.setting_of(inputs, demand, running.runs if running else 0) | note)
    return making.print_result(demand)


def usual_runs(args: argparse.Namespace) -> DemandRuns | None:
    """How a demand of few counts is run where no word says so, as a larger one than drives may lock; None where no
    program is found. Fault for one that is given and is none."""
    with suppress(*([] if args.program else [Fault])):
        return DemandRuns(program.find_program(args.program), FEW_RUNS, args.rounds)
    return None


def inputs_of(args: argparse.Namespace) -> DemandInputs:
    """What the words ask for."""
    names = ("counts", "zones", "flows", "ratios", "candidates")
    files = {name: tuple(paths_in(getattr(args, name))) for name in names}
    return DemandInputs(
        matrices=tuple(paths_in(args.matrix)), attribute=args.attribute, ways=args.ways, most=args.most,
        ends=args.ends, error=args.error, seed=args.seed, smallness=float(args.smallest), **files,
    )  # fmt: skip


def check_words(args: argparse.Namespace, inputs: Sequence[str]) -> None:
    """Fault for words that do not fit to each other, or outputs that cannot be written, before anything is read;
    inputs: the files that will be."""
    refuse_half_run(args)
    if args.lost and not args.close:
        raise Fault("--lost is of road works: give --close too")
    if args.runs and not args.counts:
        raise Fault("--runs compares with counts: give --counts")
    if args.smallest and (args.matrix or args.flows or not args.counts):
        raise Fault("--smallest is of counts alone: give --counts, and no --matrix or --flows")
    if args.end is not None:
        raise Fault("--end is of files of vehicles: a demand ends with the last period of its counts, matrix or flows")
    if args.ends and (args.zones or args.matrix or args.flows):
        raise Fault("--ends says where trips begin without zones: give no --zones, --matrix or --flows beside")
    outputs = {"-o": args.output, "--run": args.run, "--map": args.map}
    refuse_unwritable(args.out, outputs, inputs)
    refuse_foreign(args.out, args.force, outputs.values())
