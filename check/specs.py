#!/usr/bin/env python3
"""Which files of definitions are evaluated: by worked rows, stored sessions, their records, tapes and kept sessions.

    check/specs.py           prints the page SPECS.md as it must be
    check/specs.py --write   writes it
"""
from __future__ import annotations

import argparse
import re
import sys
import textwrap
from pathlib import Path

from definitions import TOP, Definitions, deep_calls
from spoilt import faults

PAGE = Path(__file__).with_name("SPECS.md")
# The name that a line defines. Fields of a record stand further in, with `pub` alone.
DEFINED = re.compile(
    r"^(?: *(?:abbrev|unfoldable) pub| *pub record|pub data|pub) (?!use\b|mod\b|record\b|data\b)(\w+)", re.MULTILINE
)
HEAD = """# Which definitions are evaluated

The files of definitions of all crates, as `check/specs.py --write` lists them; `test_spoilt.py` compares.

A file is evaluated where a worked row, a stored session, its tape or a kept session asks for one of its words. In each
of these files one definition is changed (`spoilt.py`), and a row, a session or a tape tells the difference. Files that
only pass on the words of others are not listed.
"""
FUNCTIONS = """
## Functions that no row and no session asks for

Most of them say what a value in memory stands for: a wrong one there makes a proof fail, or says nothing. Those of a
run of the program (lines, tapes, words) must be believed, as [PROOFS](../docs/PROOFS.md) says, and are
not evaluated here.
"""
RELATIONS = """
## Relations alone

They say what holds of values that are given, and give none.
"""
WIDTH = 118


def spec_files(top: Path = TOP) -> list[str]:
    """All files of definitions, from crates/ on."""
    return sorted(str(file.relative_to(top / "crates")) for file in top.glob("crates/*/specs/**/*.antt"))


def evaluated(definitions: Definitions) -> list[str]:
    """The files of whose words rows, sessions, records, tapes or kept sessions ask for some."""
    if (fault := next(faults(definitions), None)) is not None:
        raise ValueError(fault)
    definitions.lines(b"a line\n")
    paths = {path for path, _ in definitions.program.functions if ".specs." in path}
    return [f"{path.replace('.', '/')}.antt" for path in sorted(paths)]


def defined(top: Path, file: str) -> list[str]:
    """The names that a file defines: functions begin with a small letter, relations and records with a great one."""
    return DEFINED.findall((top / "crates" / file).read_text())


def kinds(definitions: Definitions) -> tuple[list[str], list[str], list[str]]:
    """The files that are evaluated, those that have functions but are not, and those that have relations alone."""
    asked, top = evaluated(definitions), definitions.program.top
    others = {file: defined(top, file) for file in spec_files(top) if file not in asked}
    functions = [file for file, names in others.items() if any(name[0].islower() for name in names)]
    return asked, functions, [file for file, names in others.items() if names and file not in functions]


def listed(files: list[str]) -> str:
    """Files by their crates, a line for each crate."""
    lines: dict[str, list[str]] = {}
    for file in files:
        crate, _, name = file.removesuffix(".antt").partition("/specs/")
        lines.setdefault(crate, []).append(name)
    told = (f"- `{crate}`: {', '.join(names)}" for crate, names in lines.items())
    return "".join(f"{textwrap.fill(line, WIDTH, subsequent_indent='  ')}\n" for line in told)


def page(asked: list[str], functions: list[str], relations: list[str]) -> str:
    """The page of these files."""
    return f"{HEAD}\n{listed(asked)}{FUNCTIONS}\n{listed(functions)}{RELATIONS}\n{listed(relations)}"


def main() -> int:
    parser = argparse.ArgumentParser(description=__doc__, formatter_class=argparse.RawDescriptionHelpFormatter)
    parser.add_argument("--write", action="store_true")
    words = parser.parse_args()
    with deep_calls():
        text = page(*kinds(Definitions()))
    if words.write:
        PAGE.write_text(text)
    else:
        print(text, end="")
    return 0


if __name__ == "__main__":
    sys.exit(main())
