"""The record of what was proved: what the gate's run itself said, with the sums of the sources and of the files that it
made. By it alone the tools know a proved program, and ./package packs.

./test writes it once the whole gate has passed, and ./build once the program is proved, without the gate's summary:
that is not enough to pack.
"""
from __future__ import annotations

import contextlib
import fcntl
import json
import os
import subprocess
from collections.abc import Iterable, Sequence
from pathlib import Path
from typing import Any

import built
import gate

Record = dict[str, Any]
HEAD = "What was proved of streetsim {version}, as the gate's own run left it."
FILES = "SHA-256 of the files, below /usr (Debian's package) or the environment (the wheel):"


INSTALLED = "share/streetsim/proved.json"  # the record in a package, as streetsim.base.places has it


def record_of(top: Path) -> Path:
    return top / "out/proved.json"


def forget(top: Path) -> None:
    """Leaves of the record which programs were proved earlier."""
    if record_of(top).exists():
        write(top, {"files": {}})


def files_of(top: Path) -> dict[str, Path]:
    """The files that were proved by their paths from the prefix under which they are installed: the program, and the
    engine's library where it is made."""
    library = {name: path for name, path in built.library(top).items() if path.is_file()}
    return {"libexec/streetsim/streetsim": built.program(top), **library}


def read(top: Path) -> Record:
    """The record; empty where there is none."""
    with contextlib.suppress(OSError, ValueError):
        found = json.loads(record_of(top).read_text())
        if isinstance(found, dict):
            return found
    return {}


def note(top: Path, said: Sequence[str]) -> None:
    """Writes the record of a run of the whole gate that passed, by what it said; the program is there."""
    write(top, made_record(top, said, keep_functions(top, said)))


def note_build(top: Path, said: Sequence[str] = ()) -> None:
    """As `note`, of the program alone: no edits were refused, so nothing can be packed of it."""
    record = made_record(top, said, keep_functions(top, said))
    files = {name: total for name, total in record["files"].items() if name not in built.library(top)}
    write(top, record | {"summary": "", "files": files})


def knows(top: Path) -> bool:
    """Whether the record names the program that is there."""
    return built.sum_of_file(built.program(top)) in sums_in(read(top))


def sums_in(record: Record) -> list[str]:
    """The sums of the programs that a record names, the last one first."""
    return list(dict.fromkeys([*record.get("files", {}).values(), *record.get("earlier", [])]))


def write(top: Path, record: Record) -> None:
    """Writes a record, which names beside its own files the programs that were proved earlier."""
    earlier = [total for total in sums_in(read(top)) if total not in record["files"].values()]
    record = record | {"earlier": earlier}
    record_of(top).parent.mkdir(exist_ok=True)
    beside = record_of(top).with_suffix(f".{os.getpid()}")
    beside.write_text(json.dumps(record, indent=1) + "\n")
    beside.replace(record_of(top))


def made_record(top: Path, gate_lines: Sequence[str], function_counts: dict[str, int]) -> Record:
    """What there is to note; function_counts: how many functions of each crate were proved."""
    kit = subprocess.run(["rt", "version"], capture_output=True, text=True, check=False).stdout.strip()
    crates = all_crates(top)
    return {
        "kit": kit,
        "gate": gate_lines[-1] if gate_lines else "",
        "summary": gate.summary_in(gate_lines),
        "functions": sum(function_counts.get(crate, 0) for crate in crates),
        "crates": len(crates),
        "uncounted": [crate for crate in crates if crate not in function_counts],
        "sources": built.sum_of_sources(top),
        "library": sum_of_crate(top, built.LIBRARY),
        "files": {name: built.sum_of_file(path) for name, path in files_of(top).items()},
    }


def all_crates(top: Path) -> list[str]:
    """The crates of crates.txt, all of which the whole gate proves."""
    lines = (line.partition("#")[0].partition(":") for line in (top / "crates.txt").read_text().splitlines())
    return [head.split()[0] for head, colon, _ in lines if colon]


def keep_functions(top: Path, gate_lines: Iterable[str]) -> dict[str, int]:
    """How many functions of each crate were proved: as this run says, or as the one said that proved the same files on
    this machine, since the gate does not say it again of what it keeps."""
    own_counts, kept_counts = gate.functions_in(gate_lines), {}
    with contextlib.suppress(OSError):
        folder = built.cache()
        folder.mkdir(parents=True, exist_ok=True)
        with (folder / "functions.json").open("a+") as file:
            fcntl.flock(file, fcntl.LOCK_EX)
            file.seek(0)
            with contextlib.suppress(ValueError):
                kept_counts = json.load(file)
            kept_counts |= {f"{crate} {sum_of_crate(top, crate)}": count for crate, count in own_counts.items()}
            file.truncate(0)
            json.dump(kept_counts, file)
    sums = {crate: f"{crate} {sum_of_crate(top, crate)}" for crate in all_crates(top)}
    return {crate: kept_counts[name] for crate, name in sums.items() if name in kept_counts} | own_counts


def sum_of_crate(top: Path, crate: str) -> str:
    """The sum of a crate's own sources."""
    folders = [top / "crates" / crate / part for part in built.READ]
    paths = sorted(path for folder in folders for path in folder.rglob("*") if path.is_file())
    return built.sum_of_files(top, paths)


def why_not(top: Path) -> str | None:
    """Why nothing can be packed, or none."""
    record = read(top)
    if not record.get("summary"):
        return "nothing here was proved by the whole gate: ./test proves it, edits included, and leaves the record"
    if record["sources"] != built.sum_of_sources(top):
        return f"the sources of {built.CRATE} are not those that were proved: ./test proves them"
    if record.get("library") != sum_of_crate(top, built.LIBRARY):
        return f"the sources of {built.LIBRARY} are not those that were proved: ./test proves them"
    for name, path in files_of(top).items():
        if not path.is_file() or built.sum_of_file(path) != record["files"].get(name):
            return f"{path.relative_to(top)} is not the file that was proved: ./test makes it"
    return None


def installed_text(record: Record) -> str:
    """The record as a package has it: of the programs in it alone."""
    return json.dumps({name: record[name] for name in ("kit", "sources", "files")}, indent=1) + "\n"


def page(record: Record, version: str, commit: str) -> str:
    """The text of PROVED, of a record. Its sums are lines as sha256sum reads them."""
    edits = gate.REFUSED.search(record["summary"])
    lacking = len(record["uncounted"])
    uncounted = f"; of {lacking} others, proved by earlier runs, it is not known here how many" if lacking else ""
    lines = [
        *(HEAD.format(version=version), "", f"Version: {version}", f"Commit: {commit}"),
        *(f"Kit: {record['kit']}", f"Gate: {record['gate']}"),
        *([f"Gate's summary: {record['summary']}"] if record["summary"] else []),
        f"Functions proved: {record['functions']:,}, in {record['crates'] - lacking} crates{uncounted}",
        *([f"Edits (wrong bodies) refused: {edits[1]}"] if edits else []),
        "",
        f"SHA-256 of the program's sources, as dev/built.py sums them up: {record['sources']}",
        *("", FILES),
        *(f"{total}  {name}" for name, total in record["files"].items()),
    ]
    return "\n".join([*lines, ""])
