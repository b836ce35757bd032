"""The package of Debian's, by Debian's own tools."""
from __future__ import annotations

import os
import re
import shutil
import subprocess
import textwrap
from datetime import datetime, timezone
from email.utils import format_datetime
from pathlib import Path

STAGED = "debian/made"  # where debian/streetsim.install takes what is staged from
VERSION = re.compile(r"^## (\d[\w.]*) \((\d{4}-\d\d-\d\d)\)$", re.MULTILINE)
LIST_ITEM = re.compile(r"^- (.+(?:\n  .+)*)", re.MULTILINE)
MARKS = re.compile(r"\[([^]]*)\]\([^)]*\)|[`*]")  # of links, code and emphasis


def versions(changes: str) -> list[tuple[str, str, list[str]]]:
    """The versions of CHANGELOG.md, newest first: number, day, and what a user notices."""
    _, *parts = VERSION.split(changes)
    triples = zip(parts[::3], parts[1::3], parts[2::3])
    return [(number, day, [plain(item) for item in LIST_ITEM.findall(text)]) for number, day, text in triples]


def plain(text: str) -> str:
    return " ".join(MARKS.sub(r"\1", text).split())


def changelog(changes: str, maintainer: str) -> str:
    """CHANGELOG.md as Debian's changelog."""
    entries = []
    for number, day, items in versions(changes):
        date = format_datetime(datetime.fromisoformat(day).replace(tzinfo=timezone.utc))
        lines = [textwrap.fill(item, 78, initial_indent="  * ", subsequent_indent="    ") for item in items]
        head, tail = f"streetsim ({number}) unstable; urgency=medium", f" -- {maintainer}  {date}"
        entries.append("\n".join([head, "", *lines, "", tail, ""]))
    return "\n".join(entries)


def maintainer_of(tree: Path) -> str:
    found = re.search(r"^Maintainer: (.+)$", (tree / "debian/control").read_text(), re.MULTILINE)
    return found[1] if found else ""


def build(tree: Path, log: Path) -> Path:
    """Builds the package in a tree with all that is staged, and gives its file beside the tree."""
    changes = (tree / "CHANGELOG.md").read_text(encoding="utf-8")
    (tree / "debian/changelog").write_text(changelog(changes, maintainer_of(tree)), encoding="utf-8")
    surroundings = {**os.environ, "DEB_BUILD_OPTIONS": "nocheck terse"}
    with log.open("w") as said:
        words = ["dpkg-buildpackage", "--build=binary", "--no-sign"]
        done = subprocess.run(words, cwd=tree, env=surroundings, stdout=said, stderr=said, check=False)
    found = list(tree.parent.glob("streetsim_*_amd64.deb"))
    if done.returncode or len(found) != 1:
        raise SystemExit(f"package: dpkg-buildpackage failed:\n{log.read_text(errors='replace')[-2000:]}")
    return found[0]


def lacking() -> str | None:
    """The first of Debian's packages that is needed and not installed."""
    needed = {"dpkg-dev": "dpkg-buildpackage", "debhelper": "dh", "dh-python": "dh_python3", "help2man": "help2man"}
    return next((name for name, command in needed.items() if not shutil.which(command)), None)
