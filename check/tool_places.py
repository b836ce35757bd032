#!/usr/bin/env python3
"""The places of what the tools have many of: each column, table, controller, option, input and doubt stands in each.

    check/tool_places.py   how many of a kind each place has, and which ones it lacks

ARCHITECTURE ('In the tools') lists the same files for readers who add one. The status is 1 where something is lacking.
"""
from __future__ import annotations

import sys
from dataclasses import dataclass

from places import Place, Reader, read_text

TOOLS = "tools/streetsim"


@dataclass(frozen=True)
class Kind:
    """Where its members are made, and by a name each place where all of them stand, but for some with reason."""

    made: Place
    places: dict[str, Place]
    but: frozenset[str] = frozenset()

    def lacking(self, read: Reader) -> list[str]:
        """A line for each place that lacks members."""
        members = self.made.members(read) - self.but
        lost = {name: sorted(members - place.members(read)) for name, place in self.places.items()}
        return [
            f"{name}, in {' or '.join(self.places[name].files)}: no {', no '.join(names)}"
            for name, names in lost.items() if names
        ]


KINDS = {
    "column": Kind(  # of the tables of junctions, which the page lists one by one
        Place((f"{TOOLS}/model/tables.py",), r'"([a-z_0-9]+)"', "\nLOST = (", "\n\n\n"),
        {"columns in OUTPUTS": Place(
            ("tools/OUTPUTS.md",), r"`([a-z_0-9]+)`", "\n### Tables of junctions\n", "\n## ",
        )},
        frozenset({"begin", "end", "junction"}),
    ),
    "table": Kind(
        Place((f"{TOOLS}/model/tables.py", f"{TOOLS}/observe/run_making.py"), r'(\w+)\.csv"'),
        {
            "files of a folder": Place((f"{TOOLS}/base/folders.py",), r"(\w+)\.csv"),
            "worksheets": Place((f"{TOOLS}/report/workbook.py",), r'"(\w+)"', "TABLE_NAMES = (", ")"),
            "tables in OUTPUTS": Place(("tools/OUTPUTS.md",), r"`(\w+)\.csv`"),
        },
    ),
    "controller": Kind(
        Place((f"{TOOLS}/control/*.py",), r"^class (\w+)\(Controller\)"),
        {"controllers of a run": Place((f"{TOOLS}/control/steering.py",), r"\b(\w+)\(", "def __init__", "def stops")},
    ),
    "option": Kind(
        Place((f"{TOOLS}/cli/*.py", f"{TOOLS}/base/words.py"), r'add_\w+\(\s*(?:\w+,\s*)?"--([\w.-]+)"'),
        {
            "groups of --help": Place((f"{TOOLS}/base/helping.py",), r"[a-z][\w.-]+", "GROUPS = {", "\n}"),
            "the list of options": Place(("docs/options.txt",), r"--([\w.-]+)"),
        },
        frozenset({"counted", "version"}),
    ),
    "input": Kind(  # what the import keeps of it: a field of the map
        Place((f"{TOOLS}/model/mapping.py",), r"^    (\w+): ", "class Map:", "def __post_init__"),
        {"fields that are read": Place((f"{TOOLS}/model/mapping.py",), r"\w+", "def map_from(")},
        frozenset({"links_of"}),
    ),
    "doubt": Kind(
        Place((f"{TOOLS}/model/trust.py",), r"^def (\w+_doubts)\("),
        {"callers": Place((
            f"{TOOLS}/model/trust.py", f"{TOOLS}/observe/run_making.py", f"{TOOLS}/simulation/statistics.py",
            f"{TOOLS}/search/*.py",
        ), r"(?<!def )\b(\w+_doubts)\(")},
    ),
}  # fmt: skip


def lacking(read: Reader) -> list[str]:
    """A line for each place that lacks members of its kind."""
    return [line for kind in KINDS.values() for line in kind.lacking(read)]


def main() -> int:
    for name, kind in KINDS.items():
        print(f"{name:11} {len(kind.made.members(read_text)):3}  {', '.join(kind.places)}")
    found = lacking(read_text)
    print("\n".join(found) or "nothing is lacking")
    return 1 if found else 0


if __name__ == "__main__":
    sys.exit(main())
