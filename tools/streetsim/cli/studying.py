"""Makes the runs of streetsim-study, by its parsed arguments, and tells their differences."""
import argparse
import json
import os
from dataclasses import astuple
from itertools import accumulate, cycle

from streetsim.base import program
from streetsim.base.files import refuse_foreign, refuse_unwritable, whole_file, whole_folder
from streetsim.base.progress import Slow, WorkProgress
from streetsim.base.words import Parser, names_in
from streetsim.cli.defaults import complete_outputs, stem_of
from streetsim.cli.given_words import given_words
from streetsim.model import trust
from streetsim.model.doubts import places_told
from streetsim.model.sources import sum_of
from streetsim.model.tables import write_table
from streetsim.search.run_giving_way import outcome_giving_way
from streetsim.search.run_machines import machines
from streetsim.search.run_prepared import Outcome
from streetsim.search.study_differences import (
    DIFFERENCES, RUNS, WINDOWS, WINDOWS_FILE, cell_values, differences, run_rows, window_rows,
)
from streetsim.search.study_telling import (
    doubts, draw_differences, places_lines, tell_how_sure, tell_differences, tell_ends, tell_giving_way,
    windows_told,
)
from streetsim.search.study_variants import Study, read_study
from streetsim.search.study_windows import clocks_of

LAST_FILE = "differences.csv"
ORIGIN_FILE = "made.json"  # by what a study is made again
# Words that say where and on what a study is made, and change no number of it.
ELSEWHERE = ("study", "out", "force", "program", "proved", "jobs", "cluster")


def study_by(args: argparse.Namespace, tool_parser: Parser) -> int:
    """Makes the runs of a study, writes the folder of --out, and prints the differences; gives status 0. tool_parser:
    of the words."""
    complete_outputs(args, out=f"{stem_of(args.study)}-answer")
    refuse_unwritable(args.out, {}, ())
    refuse_foreign(args.out, args.force)
    args.program = program.find_program(args.program)
    with Slow(f"reading {args.study}"):
        hours = clocks_given(args.close_at)
        study = read_study(args.study, args.program, args.rounds, args.departures, hours)
    outcomes = run_all(args, study)
    rows, windows = differences(study, outcomes, args.precision), list(window_rows(study, outcomes))
    doubts_by_variant = {name: list(doubts(study, name, outcomes[name])) for name in study.variants}
    named_doubts = [f"{name}: {text}" for name, texts in doubts_by_variant.items() for text in texts]
    with whole_folder(args.out, LAST_FILE) as folder:
        write_table(f"{folder}/runs.csv", RUNS, run_rows(study, outcomes))
        cells = (
            cell_values((*astuple(row), "; ".join(doubts_by_variant[row.variant]), places_of(study, row.variant)))
            for row in rows
        )
        if windows:
            write_table(f"{folder}/{WINDOWS_FILE}", WINDOWS, windows)
        write_table(f"{folder}/{LAST_FILE}", DIFFERENCES, cells)
        trust.write_doubts(folder, named_doubts, args.program)
        write_made(args, given_words(tool_parser, args, ELSEWHERE), folder)
        draw_differences(study, rows, f"{folder}/differences.png")
    tell_differences(rows, [name for name, texts in doubts_by_variant.items() if texts])
    print(*windows_told(windows), sep="\n", end="\n" if windows else "")
    tell_ends(study, outcomes)
    tell_giving_way(outcomes)
    tell_how_sure(study)
    if last_lines := [*places_lines(study), *([trust.verdict(named_doubts)] if named_doubts else [])]:
        print(*last_lines, sep="\n")
    return 0


def places_of(study: Study, name: str) -> str:
    """The worst doubted places of a variant, by its name, in words."""
    return places_told(study.variants[name].places, study.variants[name].mapping)


def clocks_given(text: str) -> list[int]:
    """The clocks of --close-at; Fault for others."""
    return clocks_of(names_in(text)) if text else []


def write_made(args: argparse.Namespace, kept_words: list[str], folder: str) -> None:
    """Writes by what the study is made again: its file, as a path from the folder of --out, its SHA-256, and the words
    that change numbers (given). folder: where the file is written until it is whole."""
    path = os.path.relpath(os.path.realpath(args.study), os.path.realpath(args.out))
    with whole_file(f"{folder}/{ORIGIN_FILE}") as file:
        content = {"study": path, "sum": sum_of(args.study), "words": kept_words}
        json.dump(content | program.proof_note(args.program), file)


def run_all(args: argparse.Namespace, study: Study) -> dict[str, list[Outcome]]:
    """Runs each variant with each seed; gives {variant: outcomes in the order of the seeds}. Fault where one fails."""
    sessions = [session for variant in study.variants.values() for session in variant.sessions]
    counts = (len(variant.sessions) for variant in study.variants.values())
    first_sessions = dict(zip(study.variants, accumulate(counts, initial=0)))
    total = len(study.variants) * len(study.seeds)
    meanwhile = WorkProgress("runs", total)
    outcomes: dict[str, list[Outcome]] = {}
    with machines(args.jobs, args.cluster, sessions) as workers:
        tasks = [
            (f"variant {name!r}, seed {seed}", outcome_giving_way, first_sessions[name] + index, variant.signals, seed)
            for name, variant in study.variants.items()
            for seed, index in zip(study.seeds, cycle(range(len(variant.sessions))))
        ]
        outcome_stream = workers.ordered(tasks)
        for name in study.variants:
            outcomes[name] = []
            for _ in study.seeds:
                outcomes[name].append(next(outcome_stream))
                meanwhile.show(sum(map(len, outcomes.values())))
    meanwhile.end()
    return outcomes
