"""Makes the seal of a page: gathers the run files, maps, words and sums of its runs."""
import hashlib
import os
from collections.abc import Mapping, Sequence
from dataclasses import replace
from pathlib import Path

from streetsim.base.files import Fault, Json, open_bytes, read_json, reading
from streetsim.base.seeds import seeds_text
from streetsim.model.folder import RUN_LINES, LIGHTS, NAME
from streetsim.model.tables import SEEDS, read_table
from streetsim.report.light_timings import lights_path
from streetsim.report.page_seal import Seal, canonical, sealed, sum_of
from streetsim.report.run_tables import Runs

SETTING_KEYS = ("run", "words", "again", "lines", "program")  # of a setting, equal for the seeds of one run
PACKAGE = Path(__file__).parents[1]


def seal_for(
    plans: Sequence[Runs], page_words: Sequence[str], page: str, other_paths: Mapping[str, str]
) -> tuple[Seal, dict[str, bytes]]:
    """(the seal of a page of some plans, the files that go to the one beside it: content by name). page_words: as given
    to streetsim-report; page: its path; other_paths: further files, {name: path}. Fault as of refuse_unsealable,
    sealed_plan and reading."""
    files: dict[str, bytes] = {}
    plan_contents = []
    for place, runs in enumerate(plans, 1):
        refuse_unsealable(runs)
        plan, own = sealed_plan(runs, place)
        plan_contents.append(plan)
        files.update(own)
    for name, path in other_paths.items():
        with reading(path):
            files[name] = Path(path).read_bytes()
    return sealed({"words": list(page_words), "plans": plan_contents, "tools": tools_sum()}, files, page)


def sealed_again(plans: Sequence[Runs], stated_seal: Seal, page: str, other_paths: Mapping[str, str]) -> Seal:
    """The seal of a page's plans that were run again, as of seal_for, for a page that has stated_seal, whose files have
    their sums. Of that are taken: the sums of programs and of the tools; the words of runs and of the page; and how
    files are packed that are those found anew, as another library may pack the same bytes otherwise."""
    for runs, plan in zip(plans, stated_seal.content["plans"], strict=True):
        for folder in runs.folders.values():
            folder.setting |= {"program": plan["program"] or None, "words": plan["words"]}
            folder.setting["unproved"] = ""  # no page has more to say of it: it was sealed
    new_seal, _ = seal_for(plans, stated_seal.content["words"], page, other_paths)
    known = stated_seal.content["files"]
    equal = {name for name, sum_ in new_seal.content["files"].items() if known.get(name) == sum_}
    beside = sorted(equal.intersection(stated_seal.content["beside"]))
    texts = new_seal.texts | {name: text for name, text in stated_seal.texts.items() if name in equal}
    kept = {name: text for name, text in texts.items() if name not in beside}
    content = {**new_seal.content, "tools": stated_seal.content["tools"], "beside": beside}
    return replace(new_seal, content=content, texts=kept, beside_name=stated_seal.beside_name)


def refuse_unsealable(runs: Runs) -> None:
    """Fault for runs of a program that is not known here to be proved, and where runs of seeds that were made are
    gone."""
    for folder in runs.folders.values():
        if folder.unproved:
            raise Fault(f"{folder.path}: {folder.unproved}: a page of it is not sealed; ./build makes a proved one")
    table = os.path.join(os.path.dirname(os.path.normpath(runs.first_folder.path)), "seeds.csv")
    if len(runs.folders) > 1 and os.path.exists(table):
        gone = sorted({int(row["seed"]) for row in read_table(table, SEEDS)} - {*runs.folders})
        if gone:
            raise Fault(f"{table}: the runs of seeds {seeds_text(gone)} were taken away: what is left is not sealed")


def sealed_plan(runs: Runs, plan_number: int) -> tuple[Json, dict[str, bytes]]:
    """(what the seal says of a plan: name, run, map, words, again, seeds, several, program; its files, content by
    name). plan_number: from 1. Fault where its folder does not keep what made it, or its seeds are of several runs."""
    folder, run_setting = runs.first_folder, runs.first_folder.setting
    lines = kept_lines(runs)
    if len({canonical({name: one.setting.get(name) for name in SETTING_KEYS}) for one in runs.folders.values()}) > 1:
        raise Fault(f"{folder.path}: seeds of several runs: they cannot be sealed as one")
    run, mapped = f"plan-{plan_number}/{run_setting['run']}", f"plan-{plan_number}/map.json"
    several = os.path.basename(os.path.normpath(folder.path)).startswith("seed-")
    plan = {
        "name": runs.name, "run": run, "map": mapped, "words": run_setting["words"], "again": run_setting["again"],
        "seeds": list(runs.folders), "several": several, "program": run_setting.get("program") or "",
    }
    # As the setting has it, without names that were given to it later.
    setting = read_json(f"{folder.path}/{NAME}", ("map",))
    kept = {**setting["map"], **setting.get("listed", {})}  # of drawn departures the vehicles of the file
    files = {run: lines, mapped: canonical(kept).encode()}
    if lights := lights_path(runs):
        with reading(lights):
            files[f"plan-{plan_number}/{LIGHTS}"] = Path(lights).read_bytes()
    return plan, files


def kept_lines(runs: Runs) -> bytes:
    """The lines of a plan's run as bytes, unpacked, of its folder or the one above; Fault where neither keeps them,
    they cannot be read, or are others than its setting says."""
    folder = runs.first_folder
    places = [f"{folder.path}/{RUN_LINES}", f"{os.path.dirname(os.path.normpath(folder.path))}/{RUN_LINES}"]
    path = next(filter(os.path.exists, places), None)
    if path is None or "words" not in folder.setting:
        why = "as another tool or an older one made it: streetsim-run makes it anew"
        raise Fault(f"{folder.path}: keeps no {RUN_LINES}, {why}")
    with reading(path), open_bytes(path) as file:
        content = file.read()
    if sum_of(content) != folder.setting["lines"]:
        raise Fault(f"{path}: was changed since the run was made")
    return content


def tools_sum() -> str:
    """The SHA-256, in hex, of all files of the package streetsim with their paths: Python, HTML and JavaScript."""
    found = hashlib.sha256()
    for path in sorted(PACKAGE.rglob("*")):
        if path.suffix in (".py", ".html", ".js"):
            found.update(f"{path.relative_to(PACKAGE)}\n".encode() + path.read_bytes())
    return found.hexdigest()
