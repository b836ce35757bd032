"""The library of the engine, made of what the gate proved.

`rt ci` proves the crate and leaves no code of it, and `rt lib` takes nothing of what `rt ci` proved: from nothing it
proves each crate below anew. So the kit's compiler is called here as `rt ci` calls it, over the libraries that the gate
leaves in the crates' folders: it proves the crate once more, in minutes, and compiles it.
"""
from __future__ import annotations

import os
import shutil
import signal
import subprocess
from collections.abc import Sequence
from pathlib import Path

import built

JOBS = 2  # of one check, which take up to 4 GB together
LONGEST = 360  # seconds that it may take


def make(top: Path) -> str | None:
    """Makes the library's files anew, by library/make, of the crates that stand proved. Why it could not, or none; none
    too in a repository without the crate."""
    crate, files = top / "crates" / built.LIBRARY, built.library(top)
    if not files:
        return None
    archive = crate / f"out/lib{built.LIBRARY}.a"
    for path in (archive, *files.values()):
        path.unlink(missing_ok=True)
    archive.parent.mkdir(exist_ok=True)
    kit = Path(shutil.which("rt") or "rt").resolve().parents[1]
    return run(compiling(top, kit, archive), crate) or run([top / "library/make", archive], top)


def run(command: Sequence[str | Path], folder: Path) -> str | None:
    """Runs a command. The end of what it said where it failed or took too long, or none."""
    process = subprocess.Popen(
        command, cwd=folder, stdin=subprocess.DEVNULL, stdout=subprocess.PIPE, stderr=subprocess.STDOUT, text=True,
        errors="replace", start_new_session=True,
    )  # fmt: skip
    try:
        said, _ = process.communicate(timeout=LONGEST)
    except subprocess.TimeoutExpired:
        os.killpg(process.pid, signal.SIGKILL)
        process.communicate()
        return f"{command[0]} took more than {LONGEST} seconds"
    return f"{command[0]}: status {process.returncode}: {said.strip()[-900:]}" if process.returncode else None


def compiling(top: Path, kit: Path, archive: Path) -> list[str | Path]:
    """The command that proves the crate over the libraries that are there, and compiles it."""
    crates = built.crates(top, built.LIBRARY)
    folders = {name: top / "crates" / name / "out/rlib" for name in crates}
    used = [(name, folders.get(name, kit / "rlibs")) for name in ("std", *crates.pop(built.LIBRARY))]
    return [
        *(kit / "bin/rattle", "build", "--crate-name", built.LIBRARY, "src/lib.rt", "--crate-type", "staticlib"),
        *(word for name, folder in used for word in ("--extern", f"{name}={folder}/{name}.rlib")),
        *(word for folder in (kit / "rlibs", *map(folders.get, crates)) for word in ("-L", f"dependency={folder}")),
        *("--antt-project", kit / "rattle/logic/antt-project.json", "--logic-built", kit / "logic_built"),
        *("--links", f"{built.LIBRARY}=", "--jobs", str(JOBS)),
        *("--toolchain", kit / "toolchain", "--backend", "llvm", "-o", archive),
    ]
