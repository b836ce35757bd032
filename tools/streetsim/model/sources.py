"""The files of an import, which its map names, so that a run can be imported anew with other options; SHA-256 sums."""
import hashlib
import os
from collections.abc import Iterable
from dataclasses import dataclass, field
from functools import partial

from streetsim.base.files import Fault, FilePath, open_text, reading


@dataclass(slots=True)
class Sources:
    """The paths of the files of an import."""

    net: str
    additional: list = field(default_factory=list)
    routes: list = field(default_factory=list)
    trips: list = field(default_factory=list)

    def paths(self) -> list[str]:
        """All paths, in the order in which a map keeps their sums."""
        return [self.net, *self.additional, *self.routes, *self.trips]

    def written(self, map_path: str, lines: Iterable[str]) -> dict:
        """What a map keeps of them: net, additional, routes, trips: the paths as seen from the map's folder; sums: the
        SHA-256 of each file, as `paths` has them; run: that of its lines. Fault where a file cannot be read."""
        beside = partial(os.path.relpath, start=os.path.dirname(os.path.realpath(map_path)))
        return {
            "net": beside(self.net),
            "additional": list(map(beside, self.additional)),
            "routes": list(map(beside, self.routes)),
            "trips": list(map(beside, self.trips)),
            "sums": list(map(sum_of, self.paths())),
            "run": sum_of_lines(lines),
        }


def sources_of(entry: dict, map_path: FilePath, run_path: FilePath) -> Sources:
    """The sources that a map keeps (`entry`, of `Sources.written`). Fault where it keeps none, or one of the files, or
    the run, is gone or has changed since the import."""
    if not entry:
        raise Fault(f"{map_path}: does not name the files that it was imported from")
    beside = partial(os.path.join, os.path.dirname(os.path.realpath(map_path)))
    lists = (list(map(beside, entry.get(name, ()))) for name in ("additional", "routes", "trips"))
    sources = Sources(beside(entry["net"]), *lists)
    for path, known in zip(sources.paths(), entry["sums"], strict=True):
        if not os.path.isfile(path) or sum_of(path) != known:
            raise Fault(f"{path}: has changed since it was imported")
    with reading(run_path), open_text(run_path) as file:
        if sum_of_lines(line.rstrip("\n") for line in file) != entry["run"]:
            raise Fault(f"{run_path}: has changed since it was imported")
    return sources


def sum_of(path: str) -> str:
    """The SHA-256, in hex, of a file's bytes; Fault where it cannot be read."""
    with reading(path), open(path, "rb") as file:
        return hashlib.file_digest(file, "sha256").hexdigest()


def sum_of_lines(lines: Iterable[str]) -> str:
    """The SHA-256, in hex, of lines, to each of which its line end is added."""
    digest = hashlib.sha256()
    for line in lines:
        digest.update(line.encode() + b"\n")
    return digest.hexdigest()
