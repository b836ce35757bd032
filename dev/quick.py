"""The fast checks (./test --quick): what a contributor runs before a commit, in minutes and without the gate.

Hints of the tools, the tests of tools/ that start no simulator (with them the layers of the packages, and links and
names in the docs), and of each crate that the change touches the layout of its files and its proof. The change is what
differs from the commit that this branch and the one it follows have in common, and files that git does not know yet.
It does not take the gate's place: tests of crates, edits that must be refused and whole sessions are left out.
"""
from __future__ import annotations

import argparse
import os
import shutil
import subprocess
import sys
import tempfile
import time
from collections.abc import Callable, Iterator, Sequence
from concurrent.futures import ThreadPoolExecutor
from dataclasses import dataclass
from functools import partial
from pathlib import Path

import built

# Files of a crate that its layout and its proof are made of.
SOURCES = (".rt", ".antt")
# What the other parts test: the hints, once more and from nothing.
ELSEWHERE = ("test_types",)


@dataclass(frozen=True)
class Part:
    """A check with its name, and what is wrong: no text where all is well."""

    name: str
    fault: Callable[[], str]


def git(top: Path, *words: str) -> str | None:
    """What git answers, or none where it refuses."""
    done = subprocess.run(["git", *words], cwd=top, capture_output=True, text=True, check=False)
    return None if done.returncode else done.stdout


def begin(top: Path, since: str | None) -> str:
    """The commit that the change begins at: the one given, else that which is shared with the branch followed."""
    if since:
        if git(top, "rev-parse", "--verify", "--quiet", f"{since}^{{commit}}") is None:
            raise SystemExit(f"test: git knows no commit {since}")
        return since
    return (git(top, "merge-base", "HEAD", "@{upstream}") or "HEAD").strip()


def changed(top: Path, since: str | None) -> list[str]:
    """The files that differ from the begin of the change, by their paths from the top."""
    changed_names = git(top, "diff", "--name-only", "--no-renames", begin(top, since))
    new = git(top, "ls-files", "--others", "--exclude-standard")
    if changed_names is None or new is None:
        raise SystemExit("test: --quick goes by git, and this is no clone")
    return [*changed_names.splitlines(), *new.splitlines()]


def touched(top: Path, files: list[str]) -> list[str]:
    """The crates whose sources changed, those that others stand on first."""
    sources = [Path(file) for file in files if file.startswith("crates/") and Path(file).suffix in SOURCES]
    names = {file.parts[1] for file in sources if (top / "crates" / file.parts[1]).is_dir()}
    order: dict[str, None] = {}
    for name in sorted(names):
        order.update(dict.fromkeys(built.crates(top, name)))
    return [name for name in order if name in names]


def output_of(words: Sequence[str | Path], folder: Path, **variables: str) -> str:
    """All that a command printed where it failed, else nothing."""
    process = subprocess.run(
        words,
        cwd=folder,
        env={**os.environ, **variables},
        stdin=subprocess.DEVNULL,
        stdout=subprocess.PIPE,
        stderr=subprocess.STDOUT,
        text=True,
        errors="replace",
        check=False,
    )
    return (process.stdout or f"status {process.returncode}\n") if process.returncode else ""


def hints(top: Path) -> str:
    return output_of(["mypy", "--config-file", "pyproject.toml"], top / "tools")


def tested(top: Path, file: Path) -> str:
    """The tests of one file that start no simulator. None that runs is well too."""
    words = [sys.executable, "-m", "unittest", file.stem]
    return output_of(words, file.parent, STREETSIM_QUICK="1", PYTHONDONTWRITEBYTECODE="1")


def laid_out(top: Path, crates: list[str]) -> str:
    """Which files are not as rt fmt lays them out; it works on a copy."""
    with tempfile.TemporaryDirectory() as folder:
        copy = Path(folder)
        shutil.copy(top / "crates.txt", copy)
        complaints = ""
        for name in crates:
            shutil.copytree(top / "crates" / name, copy / "crates" / name, ignore=shutil.ignore_patterns("out"))
            process = subprocess.run(
                ["rt", "fmt"], cwd=copy / "crates" / name, capture_output=True, text=True, check=False
            )
            complaints += "".join(f"{name}: {line}\n" for line in (process.stdout + process.stderr).splitlines())
        return complaints


def proved(top: Path, crates: list[str]) -> str:
    """What is open in the crates, lowest first: it ends with the first that is not proved."""
    for name in crates:
        fault = output_of(["rt", "check"], top / "crates" / name)
        if fault:
            return f"{name}:\n{fault}"
    return ""


def parts(top: Path, files: list[str]) -> Iterator[Part]:
    """The checks, those that take longest first."""
    crates = touched(top, files)
    if crates:
        yield Part(f"proofs of {' '.join(crates)}", partial(proved, top, crates))
        yield Part(f"layout of {' '.join(crates)}", partial(laid_out, top, crates))
    if shutil.which("mypy"):
        yield Part("hints", partial(hints, top))
    else:
        print("hints: left out, as Debian's mypy is not installed")
    for folder in ("tools/tests", "check/tests"):
        for file in sorted((top / folder).glob("test_*.py"), key=lambda path: -path.stat().st_size):
            if file.stem not in ELSEWHERE:
                yield Part(file.stem, partial(tested, top, file))


def passes(part: Part) -> bool:
    """Does a check and tells how it went, with what is wrong. Whether all was well."""
    start = time.monotonic()
    fault = part.fault()
    seconds = time.monotonic() - start
    # One write, so that no other check's line comes between the text and its line's end.
    print(f"{fault}{part.name}: {'FAILED' if fault else 'passed'} in {seconds:.0f} s\n", end="", flush=True)
    return not fault


def main(top: Path, words: list[str]) -> int:
    """Does all checks side by side, one for each processor. The last line is 'N passed, M failed'."""
    parser = argparse.ArgumentParser(prog="test", description="The fast checks; ./test alone is the whole gate.")
    parser.add_argument("--quick", action="store_true", required=True, help="the fast checks")
    parser.add_argument("--since", metavar="COMMIT", help="where the change begins (default: by the branch followed)")
    asked = parser.parse_args(words)
    files = changed(top, asked.since)
    with ThreadPoolExecutor(len(os.sched_getaffinity(0))) as pool:
        results = list(pool.map(passes, parts(top, files)))
    print(f"{sum(results)} passed, {len(results) - sum(results)} failed")
    return 0 if all(results) else 1
