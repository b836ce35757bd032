"""Writes into a run's folder the lines of its run, by which streetsim-check and reports make it again, and the programs
of its lights."""
import json
import os
from collections.abc import Sequence

from streetsim.base.files import Fault, FilePath, Json, whole_file
from streetsim.model.folder import RUN_LINES, LIGHTS
from streetsim.model.mapping import Map
from streetsim.model.runs import Run, texts_of
from streetsim.model.sources import sum_of, sum_of_lines


def write_kept(folder: str, run: Run) -> None:
    """Writes run.jsonl.gz, the lines of a run with those of its works, to a folder; Fault where that fails."""
    with whole_file(f"{folder}/{RUN_LINES}") as file:
        file.writelines(line + "\n" for line in texts_of(run))


def remake_setting(run: Run, number_words: Sequence[str], again_words: Sequence[str]) -> Json:
    """What a run's setting says of how it is made again: `words`, the options that were given and change its numbers;
    `again`, those of them that are needed beside the kept lines; and `lines`, the SHA-256 of these lines."""
    return {"words": list(number_words), "again": list(again_words), "lines": sum_of_lines(texts_of(run))}


def write_lights(folder: str, mapping: Map, map_path: FilePath) -> None:
    """Writes lights.json, the programs of the lights, to a folder: those that the map has, or, where an import that did
    not keep them made it, those that `read_timings` finds; map_path: of the map. Writes nothing where there is none."""
    timings, lit = mapping.timings or read_timings(mapping, map_path), {light for light, _ in mapping.signals}
    if timings and lit:
        with whole_file(f"{folder}/{LIGHTS}") as file:
            file.write(json.dumps([timing for timing in timings if timing["light"] in lit], separators=(",", ":")))


def read_timings(mapping: Map, map_path: FilePath) -> list[Json]:
    """The programs of the lights by the files that were imported, which are found from the map's path; none, and
    nothing is said, where these are gone, changed or cannot be read, or there is no light."""
    if not mapping.sources or not mapping.signals:
        return []
    from streetsim.sumo.timings import timings_of_files

    beside = os.path.dirname(os.path.realpath(map_path))
    paths = [os.path.join(beside, path) for path in (mapping.sources["net"], *mapping.sources.get("additional", ()))]
    try:
        if not all(map(os.path.isfile, paths)) or [*map(sum_of, paths)] != mapping.sources["sums"][: len(paths)]:
            return []
        timings = timings_of_files(paths[0], paths[1:], mapping.options.get("classes", ["passenger"]))
    except (Fault, OSError):
        return []
    return [timing.written() for timing in timings]
