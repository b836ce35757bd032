"""Makes again, for streetsim-check, what a page or a folder of a run or of a study keeps. No word that is kept there
names a host, a program or a path outside of what is made for the check."""
import argparse
import json
import os
import tempfile
from collections.abc import Iterable, Sequence
from pathlib import Path

from streetsim.base.files import Fault, Json, read_json
from streetsim.base.seeds import seeds_text
from streetsim.cli import run as run_words, study as study_words
from streetsim.cli.given_words import given_words, refuse_other_words
from streetsim.cli.run import main as run
from streetsim.cli.study import main as study
from streetsim.cli.studying import ELSEWHERE, ORIGIN_FILE
from streetsim.model.folder import NAME
from streetsim.model.sources import sum_of
from streetsim.report.page_sealing import sealed_plan
from streetsim.report.run_tables import read_folders


def seeds_words(seeds: Sequence[int]) -> list[str]:
    """The words of streetsim-run that name seeds, one at least."""
    return [f"--seeds={seeds_text(sorted(seeds))}"]


def machine_words(args: argparse.Namespace) -> list[str]:
    """The words that tell the tools that make a page or folder again which program they run, and how many runs go side
    by side."""
    return ["--program", args.program, "--jobs", str(args.jobs)]


def write_files(top: str, files: Iterable[tuple[str, bytes]]) -> None:
    """Writes files, (path below the folder `top`, content), with the folders that they need."""
    for name, content in files:
        path = Path(top) / name
        path.parent.mkdir(parents=True, exist_ok=True)
        path.write_bytes(content)


def remake_run(args: argparse.Namespace, plan: Json, top: str, out_folder: str) -> None:
    """Makes the runs of a plan again, as sealed_plan tells it, of its files below the folder `top`, into out_folder.
    The files of the import, which its map names, are not looked for. Fault where its words are not those that a run
    keeps or do not fit to each other, its seeds do not follow each other, or a run fails. Prints what streetsim-run
    does."""
    refuse_run_words(plan, args.target)
    mapped = f"{top}/{plan['map']}"
    map_content = read_json(mapped, ("sources",))
    write_files(top, [(plan["map"], json.dumps({**map_content, "sources": {}}).encode())])
    arguments = [f"{top}/{plan['run']}", "--map", mapped, *plan["again"]]
    seeds = seeds_words(plan["seeds"]) if plan["several"] else []
    run([*arguments, *seeds, *machine_words(args), "--workers", str(args.workers), "--out", out_folder])
    for path in Path(out_folder).rglob(NAME):
        setting = read_json(path, ("map",))
        setting["map"]["sources"] = map_content["sources"]
        path.write_text(json.dumps(setting), encoding="utf-8")


def refuse_run_words(plan: Json, target: str) -> None:
    """Fault where the words of a run, or those by which it is made again, are not those that a run keeps, or the second
    are not those of the first that are needed beside its lines. target: for the Fault."""
    needed, works = ["x", "--map", "x", "--out", "x"], (*run_words.ELSEWHERE, *run_words.OF_WORKS)
    for name, without in (("words", run_words.ELSEWHERE), ("again", works)):
        refuse_other_words(run_words.parser(), plan[name], needed, without, target)
    parsed = run_words.parser().parse_args([*needed, *plan["words"]])
    if given_words(run_words.parser(), parsed, works) != plan["again"]:
        raise Fault(f"{target}: the options of a run and those by which it is made again differ: it was changed")


def remake_folder(args: argparse.Namespace, out_folder: str) -> str:
    """Makes the runs of the folder `args.target` again, and writes them into out_folder; gives the folder that stands
    for the target: out_folder, or below it that of the seed where the target is of one seed of several. Fault where the
    target does not keep what made it, and as of remake_run. Prints what streetsim-run does."""
    plan, files = sealed_plan(read_folders(args.target), 1)
    with tempfile.TemporaryDirectory() as top:
        write_files(top, files.items())
        remake_run(args, plan, top, out_folder)
    is_seed = plan["several"] and os.path.exists(f"{args.target}/{NAME}")
    return f"{out_folder}/seed-{plan['seeds'][0]}" if is_seed else out_folder


def remake_study(args: argparse.Namespace, out_folder: str) -> str:
    """Makes the study of the folder `args.target` again, into out_folder, which it gives; Fault where --study does not
    name its file, as a check takes no path from a folder, or that has changed since, and where a run fails. Prints what
    streetsim-study does."""
    origin = read_json(f"{args.target}/{ORIGIN_FILE}", ("study", "sum", "words"))
    if not args.study:
        hint = f"name the study that it was made of by --study FILE; the folder says {origin['study']}"
        raise Fault(f"{args.target}: {hint}")
    if sum_of(args.study) != origin["sum"]:
        raise Fault(f"{args.study}: has changed since the study was made, or is another one")
    refuse_other_words(study_words.parser(), origin["words"], ["x", "--out", "x"], ELSEWHERE, args.target)
    study([args.study, *origin["words"], *machine_words(args), "--out", out_folder])
    return out_folder
