"""Two folders of one run compared, number by number."""
import csv
import json
import os
from collections.abc import Iterator
from dataclasses import dataclass
from itertools import zip_longest
from pathlib import Path
from typing import Any

from streetsim.base.files import Fault, Json, is_gzip, open_bytes, open_text, read_json, reading
from streetsim.base.unpacking import lines_of
from streetsim.model.folder import LIGHTS, NAME

PATHS = ("made.json", LIGHTS)  # what is of the files of a study or an import, which are not made again
# What a setting says of how the run was made, which is not a number of it: another program, words of works that the
# kept lines have.
UNTOLD = ("program", "unproved", "words")
Difference = tuple[str, str, str]  # the file and the place in it, what is said there, and what was found


@dataclass(slots=True)
class ComparedNumbers:
    """How many numbers and files were compared so far."""

    numbers: int = 0
    files: int = 0


def files_in(folder: str) -> list[str]:
    """The paths, sorted, of all files below a folder, as seen from it."""
    return sorted(
        os.path.relpath(os.path.join(where, name), folder) for where, _, names in os.walk(folder) for name in names
    )


def folder_differences(stated_folder: str, remade_folder: str, counts: ComparedNumbers) -> Iterator[Difference]:
    """Where the files of stated_folder differ from those of remade_folder: (file and place in it, said, found). Files
    that stated_folder alone has, and made.json and lights.json right in the folder (not below), are passed over. Adds
    to `counts`. Fault where a file cannot be read."""
    for name in (one for one in files_in(remade_folder) if one not in PATHS):
        counts.files += 1
        if not os.path.exists(f"{stated_folder}/{name}"):
            yield name, "no file", "a file"
        elif os.path.basename(name) == NAME:
            stated, remade = settings(f"{stated_folder}/{name}"), settings(f"{remade_folder}/{name}")
            yield from value_differences(name, stated, remade, counts)
        elif name.endswith(".csv"):
            yield from table_differences(name, f"{stated_folder}/{name}", f"{remade_folder}/{name}", counts)
        else:
            first, second = (file_lines(f"{folder}/{name}") for folder in (stated_folder, remade_folder))
            yield from line_differences(name, first, second, counts)


def settings(path: str) -> Json:
    """A file's setting of a run, without what may differ when that is made again (UNTOLD); Fault where it has none."""
    value = read_json(path, ())
    if not isinstance(made := value.get("made", {}), dict):
        raise Fault(f"{path}: no setting of a run")
    return value | {"made": {name: one for name, one in made.items() if name not in UNTOLD}}


def file_lines(path: str) -> list[bytes]:
    """The lines of a file, as bytes, unpacked where its name ends in .gz; Fault where it cannot be read."""
    with reading(path), open_bytes(path) as file:
        if path.endswith(".gz") != is_gzip(path):
            raise ValueError("gzip by its name or by its content alone")
        return file.read().split(b"\n")


def line_differences(
    name: str, stated_lines: list[bytes], remade_lines: list[bytes], counts: ComparedNumbers
) -> Iterator[Difference]:
    """The lines of two files that differ, absent ones as empty, with bytes that are no UTF-8 as \\x and two digits;
    name: the file. Adds to `counts` the numbers of remade_lines, of digits alone between commas or brackets."""
    for number, sides in enumerate(zip_longest(stated_lines, remade_lines, fillvalue=b""), 1):
        said, found = (side.decode(errors="backslashreplace") for side in sides)
        counts.numbers += sum(part.isdecimal() for part in found.replace("]", ",").replace("[", ",").split(","))
        if sides[0] != sides[1]:
            yield f"{name}, line {number}", said, found


def table_differences(name: str, stated_path: str, remade_path: str, counts: ComparedNumbers) -> Iterator[Difference]:
    """The cells of two CSV files that differ, absent ones as empty; name: the file. Of equal cells in other bytes one
    difference says so. Adds to `counts`."""
    rows = csv_rows(stated_path), csv_rows(remade_path)
    head = rows[1][0] if rows[1] else []
    no_cells: list[str] = []
    for number, sides in enumerate(zip_longest(*rows, fillvalue=no_cells), 1):
        counts.numbers += sum(cell[:1].isdecimal() or cell[:1] == "-" for cell in sides[1])
        for place, (said, found) in enumerate(zip_longest(*sides, fillvalue="")):
            if said != found:
                column = head[place] if place < len(head) else f"column {place + 1}"
                yield f"{name}, line {number}, {column}", said, found
    if rows[0] == rows[1] and Path(stated_path).read_bytes() != Path(remade_path).read_bytes():
        yield name, "other signs between the cells", "none"


def csv_rows(path: str) -> list[list[str]]:
    """The rows of a CSV file, with the head; Fault where it is none."""
    with reading(path), open_text(path) as file:
        return list(csv.reader(lines_of(file)))


def value_differences(name: str, stated_value: Any, remade_value: Any, counts: ComparedNumbers) -> Iterator[Difference]:
    """The values of two settings that differ, JSON of 80 letters at most; name: the file and the keys so far. A key
    that is absent counts as null. Adds to `counts`."""
    if isinstance(stated_value, dict) and isinstance(remade_value, dict):
        for key in {**stated_value, **remade_value}:
            yield from value_differences(f"{name}, {key}", stated_value.get(key), remade_value.get(key), counts)
    elif isinstance(stated_value, list) and isinstance(remade_value, list) and len(stated_value) == len(remade_value):
        for place, (one, other) in enumerate(zip(stated_value, remade_value, strict=True)):
            yield from value_differences(f"{name}[{place}]" if place else name, one, other, counts)
    else:
        counts.numbers += isinstance(remade_value, (int, float))
        if stated_value != remade_value:
            yield name, json.dumps(stated_value)[:80], json.dumps(remade_value)[:80]
