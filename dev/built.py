"""Which proved program is built: the sums of its sources and of its file, and the mark that holds both.

./build and ./test write the mark once all is proved; ./streetsim reads it.
"""
from __future__ import annotations

import hashlib
import os
from collections.abc import Iterable
from pathlib import Path

TOP = Path(__file__).resolve().parents[1]
CRATE = "street_sim"
LIBRARY = "street_c"  # the crate of the engine in process
LIBRARY_FILES = ("libstreetsim.a", "libstreetsim.so")
# What a check of a crate reads.
READ = ("src", "specs", "proofs")


def program(top: Path = TOP) -> Path:
    """The program's file, built or not."""
    return top / "crates" / CRATE / "out" / CRATE


def library(top: Path = TOP) -> dict[str, Path]:
    """The files of the engine's library, made or not, by their installed paths from the prefix; none in a repository
    without its crate."""
    there = (top / "crates" / LIBRARY).is_dir()
    return {f"lib/streetsim/{name}": top / "library/out" / name for name in LIBRARY_FILES if there}


def crates(top: Path = TOP, crate: str = CRATE) -> dict[str, list[str]]:
    """The crates of the repository that the program stands on, each with what its line of crates.txt names;
    lowest first, the program's last."""
    lines = (line.partition("#")[0].partition(":") for line in (top / "crates.txt").read_text().splitlines())
    uses = {head.split()[0]: tail.split() for head, colon, tail in lines if colon}
    ordered, pending = {}, [crate]
    while pending:
        name = pending[-1]
        lacking = [below for below in uses[name] if below in uses and below not in ordered]
        if not lacking:
            ordered[pending.pop()] = uses[name]
        pending += lacking
    return ordered


def sources(top: Path = TOP) -> list[Path]:
    """The files that the program's check reads, in order."""
    folders = [top / "crates" / name / part for name in crates(top) for part in READ]
    return sorted(path for folder in folders for path in folder.rglob("*") if path.is_file())


def sum_of_sources(top: Path = TOP) -> str:
    """The sum of the sources of the program, with the crates' lines."""
    return sum_of_files(top, sources(top), repr(crates(top)))


def sum_of_files(top: Path, paths: Iterable[Path], begin: str = "") -> str:
    """The sum of a text and of files with their paths."""
    whole = hashlib.sha256(begin.encode())
    for path in paths:
        data = path.read_bytes()
        whole.update(f"{path.relative_to(top)} {len(data)}\n".encode() + data)
    return whole.hexdigest()


def sum_of_file(path: Path) -> str:
    return hashlib.sha256(path.read_bytes()).hexdigest()


def sums(top: Path = TOP) -> tuple[str, str]:
    """The sum of the sources, and that of the program's file."""
    return sum_of_sources(top), sum_of_file(program(top))


def cache() -> Path:
    """The project's folder in the user's cache."""
    return Path(os.environ.get("XDG_CACHE_HOME") or Path.home() / ".cache") / "streetsim"


def mark_of(top: Path = TOP) -> Path:
    return top / "out/streetsim.sums"


def unmark(top: Path = TOP) -> None:
    mark_of(top).unlink(missing_ok=True)


def mark(top: Path = TOP) -> None:
    """Notes that the program's file was proved and built from the present sources."""
    mark_of(top).parent.mkdir(exist_ok=True)
    made = mark_of(top).with_suffix(f".{os.getpid()}")
    made.write_text("\n".join(sums(top)) + "\n")
    made.replace(mark_of(top))


def why_not(top: Path = TOP) -> str | None:
    """Why the proved program cannot be run, or none."""
    if not mark_of(top).is_file() or not os.access(program(top), os.X_OK):
        return "the proved program is not built"
    if mark_of(top).read_text().split() != list(sums(top)):
        return "the program that is built is not that of the present sources"
    return None
