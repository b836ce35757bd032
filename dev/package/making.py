"""./package: checks that all was proved, takes the commit's own files, and packs them."""
from __future__ import annotations

import hashlib
import os
import shutil
import subprocess
import sys
import tarfile
import tempfile
from collections.abc import Iterable
from importlib.util import find_spec
from io import BytesIO
from pathlib import Path

import built
import packing
import proved
from package import debian


def git(top: Path, *words: str) -> bytes:
    """What git says of the repository."""
    done = subprocess.run(["git", "-c", "safe.directory=*", *words], cwd=top, capture_output=True, check=False)
    if done.returncode:
        raise SystemExit(f"package: git {words[0]}: {done.stderr.decode(errors='replace').strip()}")
    return done.stdout


def fault(top: Path) -> str | None:
    """Why nothing can be packed, in one line, or none."""
    lacking = debian.lacking() or (None if find_spec("markdown_it") else "python3-markdown-it")
    return proved.why_not(top) or (lacking and f"Debian's {lacking} is not installed")


def copy_commit(top: Path, tree: Path) -> None:
    """The files of the commit, and beside them what was proved with its record."""
    with tarfile.open(fileobj=BytesIO(git(top, "archive", "HEAD"))) as archive:
        archive.extractall(tree)
    for path in (*proved.files_of(top).values(), proved.record_of(top)):
        to = tree / path.relative_to(top)
        to.parent.mkdir(parents=True, exist_ok=True)
        shutil.copy(path, to)


def pack(top: Path, out_folder: Path) -> int:
    """Packs the commit of a clone: in a tree of its own, by that tree's own ./package. Gives the status."""
    why = fault(top)
    if why:
        print(f"package: {why}", file=sys.stderr)
        return 1
    changed = git(top, "status", "--porcelain").decode(errors="replace").splitlines()
    if changed:
        print(f"package: {len(changed)} changes are not committed, and left out, as {changed[0][3:]}", file=sys.stderr)
    commit, epoch = git(top, "log", "-1", "--format=%H %ct").decode().split()
    with tempfile.TemporaryDirectory(prefix="streetsim-package-") as place:
        tree = Path(place) / "streetsim"
        copy_commit(top, tree)
        alike = {"SOURCE_DATE_EPOCH": epoch, "TZ": "UTC", "LC_ALL": "C.UTF-8", "PYTHONDONTWRITEBYTECODE": "1"}
        words: list[str | Path] = [sys.executable, tree / "package", "--commit", commit, "--out", out_folder.resolve()]
        return subprocess.run(words, cwd=place, env={**os.environ, **alike}, check=False).returncode


def version_of(tree: Path) -> str:
    """The version, which the tools, the list of changes and the program say alike."""
    version = str(packing.read_project()["version"])
    changes = debian.versions((tree / "CHANGELOG.md").read_text(encoding="utf-8"))
    told = subprocess.run([built.program(tree), "--version"], capture_output=True, text=True, check=False).stdout
    if [changes[0][0] if changes else "", told.strip()] != [version, f"streetsim {version}"]:
        raise SystemExit(f"package: pyproject.toml has version {version}, and CHANGELOG.md or the program another one")
    return version


def make(tree: Path, commit: str, out_folder: Path) -> int:
    """Packs a tree that has the commit's files and what was proved. Gives the status."""
    from package import staging, wheel

    why = proved.why_not(tree)
    if why:
        raise SystemExit(f"package: the commit is not what was proved: {why}")
    os.umask(0o022)
    version = version_of(tree)
    prefix = tree / debian.STAGED
    staging.stage(tree, prefix, version, commit)
    with tempfile.TemporaryDirectory() as place:
        files = [wheel.write(prefix, Path(place)), debian.build(tree, Path(place) / "log")]
        out_folder.mkdir(parents=True, exist_ok=True)
        deliver(files, out_folder)
    if not built.library(tree).keys() <= proved.files_of(tree).keys():
        print("package: without the engine's library, which ./test could not make", file=sys.stderr)
    return 0


def deliver(files: Iterable[Path], out_folder: Path) -> None:
    """Puts the packages into the folder, with their sums."""
    lines = []
    for path in sorted(files, key=lambda path: path.name):
        shutil.copyfile(path, out_folder / path.name)
        lines.append(f"{hashlib.sha256(path.read_bytes()).hexdigest()}  {path.name}\n")
        print(f"{out_folder / path.name}: {path.stat().st_size:,} bytes")
    (out_folder / "SHA256SUMS").write_text("".join(lines))
