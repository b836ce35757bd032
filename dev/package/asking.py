"""What the commands say of themselves by --help, of which manual pages and completion are made."""
from __future__ import annotations

import os
import re
import subprocess
import tempfile
from collections.abc import Iterable
from concurrent.futures import ThreadPoolExecutor
from dataclasses import dataclass
from functools import partial
from pathlib import Path

WIDE = "10000"  # columns, so that no line of a help is broken
OPTION = re.compile(r"^ {2,}(?:-\w\b[^-\n]*, )?(--[\w.-]+)", re.MULTILINE)
COMMANDS = re.compile(r"^ {2}\{([\w,-]+)\}$", re.MULTILINE)


@dataclass(frozen=True)
class CommandHelp:
    """The help of a command, and those of the commands that are its first word."""

    name: str
    text: str
    inner: dict[str, str]


def tools(top: Path) -> list[Path]:
    """The tools of the repository, whichever they are."""
    return sorted(path for path in (top / "tools").glob("streetsim-*") if path.is_file())


def help_of(cache: str, path: Path, *words: str) -> str:
    """What a command prints by --help. Python's cache is a folder elsewhere: none is left beside the sources."""
    surroundings = {**os.environ, "COLUMNS": WIDE, "PYTHONPYCACHEPREFIX": cache}
    surroundings.pop("PYTHONDONTWRITEBYTECODE", None)
    done = subprocess.run([path, *words, "--help"], env=surroundings, capture_output=True, text=True, check=False)
    if done.returncode:
        raise SystemExit(f"package: {path.name} --help: {done.stderr.strip()}")
    return done.stdout


def ask(cache: str, path: Path) -> CommandHelp:
    """All that a command says of itself."""
    text = help_of(cache, path)
    found = COMMANDS.search(text)
    words = found[1].split(",") if found else ()
    return CommandHelp(path.name, text, {word: help_of(cache, path, word) for word in words})


def ask_all(paths: Iterable[Path]) -> list[CommandHelp]:
    """What some commands say, in the order of their paths."""
    with tempfile.TemporaryDirectory() as cache, ThreadPoolExecutor() as pool:
        return list(pool.map(partial(ask, cache), paths))


def options(text: str) -> list[str]:
    """The long options of a help."""
    return list(dict.fromkeys(OPTION.findall(text)))
