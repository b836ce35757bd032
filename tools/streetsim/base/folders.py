"""Folders of results: which files the tools write there, so that what is somebody else's is neither replaced nor
removed."""
import os
import re
from collections.abc import Collection, Iterator

from streetsim.base.halves import is_half

FilePath = str | os.PathLike[str]
SETTING = "setting.json"  # each folder of results has one, or the folders of its seeds have
CRITERIA = "criteria.csv"  # which stands for it in those of calibrations
# All files that commands write into folders of results: of runs, studies, searches of signals, routes and demands, and
# comparisons with counts.
NAMES = frozenset(
    f"{SETTING} run.jsonl.gz lights.json rows.bin lanes.jsonl.gz counts.csv trips.csv edges.csv detectors.csv "
    "areas.csv queues.csv summary.csv segments.csv routes.csv warnings.csv phases.csv stops.csv works.csv seeds.csv "
    "movements.csv approaches.csv junctions.csv runs.csv differences.csv windows.csv differences.png made.json "
    "lights.csv before-after.csv search.csv before.png after.png iterations.csv check.csv gap.png flows.png "
    "before.rou.xml knowing.csv flows.csv fit.csv hours.csv groups.csv fit.png pairs.csv candidates.rou.xml "
    f"contradictions.csv {CRITERIA} junction.nod.xml junction.edg.xml junction.con.xml junction.net.xml "
    "junction.rou.xml junction.svg junction.jsonl junction.map.json".split()
)
PLAN_FILE = re.compile(r"plan-[\w-]+\.(add\.xml|jsonl|map\.json)")  # of a plan of a sheet
INSIDE = re.compile(r"seed-\d+|knowing-[\d.-]+")  # folders of results in them, which have such files too
SUMO = "sumo"  # a folder of SUMO's outputs in them
OUTPUT = re.compile(r"[a-z0-9-]+\.xml")  # in that
COMPARED = {"fit.csv", "hours.csv", "groups.csv", "fit.png", "differences.png"}  # of a comparison with counts


def own_paths(folder: FilePath, also: Collection[str] = ()) -> Iterator[tuple[str, bool]]:
    """(path from the folder, whether it is a file that the tools write) of all that is below a folder, but for what is
    half-written. A link is none of theirs. also: more names that a tool writes."""
    for where, folders, files in os.walk(folder):
        inside = os.path.relpath(where, folder)
        parts = [] if inside == "." else inside.split(os.sep)
        for name in [*folders, *files]:
            path = os.path.join(where, name)
            if is_half(name):
                folders[:] = [folder_name for folder_name in folders if not is_half(folder_name)]
            elif os.path.islink(path):
                yield os.path.relpath(path, folder), False
            elif name in files:
                known = OUTPUT.fullmatch(name) if parts[-1:] == [SUMO] else is_named(name) or name in also
                yield os.path.relpath(path, folder), bool(known) and all(map(is_inside, parts))
            elif not os.listdir(path):
                yield os.path.relpath(path, folder), False


def is_named(name: str) -> bool:
    """Whether a file that commands write into folders of results is called so."""
    return name in NAMES or PLAN_FILE.fullmatch(name) is not None


def is_inside(name: str) -> bool:
    """Whether a folder of this name may be in a folder of results."""
    return name == SUMO or INSIDE.fullmatch(name) is not None


def foreign_path(folder: FilePath, also: Collection[str] = ()) -> str | None:
    """What is in a folder that no command wrote, the first by name as seen from it; empty where all is of a command, or
    nothing is there, None where all is called so, and no setting is there. also: more names that a tool writes."""
    is_own_of = dict(own_paths(folder, also))
    if foreign := sorted(path for path, is_own in is_own_of.items() if not is_own):
        return foreign[0]
    whole = {*is_own_of} <= COMPARED or any(os.path.basename(path) in (SETTING, CRITERIA) for path in is_own_of)
    return "" if whole or not is_own_of else None


def remove_own(folder: FilePath, first_file: str, names: Collection[str] = NAMES) -> None:
    """Removes from a folder the files of some names that the tools write there, and of SUMO's outputs, those of the
    name `first_file` before others, and folders inside that are empty then."""
    tool_paths = [path for path, is_own in own_paths(folder, names) if is_own]
    removed = [path for path in tool_paths if path in names or names is NAMES and (os.sep in path or is_named(path))]
    for path in sorted(removed, key=lambda path: os.path.basename(path) != first_file):
        os.remove(os.path.join(folder, path))
    for directory, _, _ in os.walk(folder, topdown=False):
        if directory != os.fspath(folder) and is_inside(os.path.basename(directory)) and not os.listdir(directory):
            os.rmdir(directory)
