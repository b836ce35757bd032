#!/usr/bin/env python3
"""The places of a command: each command of the program stands in each of them, as the sources are.

    check/commands.py   how many commands each place has, and which one it lacks

ARCHITECTURE ('Where to add') lists the same places for who adds a command. Begin with its name and word in WORDS: the
page that this prints then says what is left to do. The status is 1 where something is lacking.
"""
from __future__ import annotations

import re
import sys
from collections.abc import Iterable
from dataclasses import dataclass

import places
from places import TOP, Reader, read_text

# The word of each command in a line, by its name in the code.
WORDS = {
    "Load": "load", "Enter": "enter", "Signal": "signal", "Advance": "advance", "CloseLane": "close",
    "ReopenLane": "reopen", "TakeOut": "takeout", "PlaceMeter": "meter", "ReadMeter": "read", "Vehicle": "vehicle",
    "Lane": "lane", "Count": "count",
}
# Names under which the definitions import a command, since others have its own.
ALIASES = {"AskVehicle": "Vehicle", "AskLane": "Lane"}


@dataclass(frozen=True)
class Place(places.Place):
    """Where commands stand, by their names or words; in a cell several may."""

    # The commands that stand there, where it is not all: those that say something else than the others.
    some: tuple[str, ...] = ()

    def commands(self, read: Reader) -> set[str]:
        """The names of the commands that stand there."""
        by_word = {word: name for name, word in WORDS.items()}
        found = {name for cell in self.members(read) for name in cell.split(", ")}
        return {by_word.get(name.strip("`"), ALIASES.get(name, name)) for name in found}

    def lacks(self, read: Reader, commands: Iterable[str]) -> list[str]:
        """Those of these commands that should stand there and do not."""
        there = self.commands(read)
        return [name for name in commands if name not in there and (not self.some or name in self.some)]


ARM = r"\bCommand::(\w+)"
PLACES = {
    "the command itself": Place(("crates/street_base/src/command.rt",), r"^    ([A-Z]\w+)[ (,]", "pub enum Command"),
    "when it is refused": Place(("crates/street_base/specs/Machine.antt",), r"^refusal m \(?(\w+)"),
    "what it does": Place(
        ("crates/street_base/specs/Machine.antt",), r"^done (?:None|\(Some m\)) \(?(\w+)",
        some=("Load", "Enter", "Advance", "Signal", "CloseLane", "ReopenLane", "TakeOut", "PlaceMeter"),
    ),
    "what it answers": Place(("crates/street_base/specs/Machine.antt",), r"^answered (?:m|\(Some m\)) \(?(\w+)"),
    "its words in MACHINE": Place(("docs/MACHINE.md",), r"^\| ([a-z, ]+) \|", "\n## 8. Commands\n", "\n## "),
    "who serves it": Place(("crates/street_engine/src/commands.rt",), ARM),
    "how its line is read": Place(
        ("crates/street_text/src/number_commands.rt", "crates/street_text/src/line_commands.rt"), r'^ +"(\w+)" =>'
    ),
    "what its line says": Place(("crates/street_text/specs/LineCommands.antt",), r'codes "(\w+)", (?:\w+_in|λ d\.)'),
    "its text": Place(("crates/street_text/src/commands.rt",), ARM),
    "what its text is": Place(("crates/street_text/specs/CommandTexts.antt",), r"^command_data \(?(\w+)"),
    "which of its numbers fit a text": Place(("crates/street_text/specs/Fits.antt",), r"^Fits \(?(\w+)"),
    "that they do on a tape": Place(("crates/street_tape/src/fits.rt",), ARM),
    "its line in LINES": Place(("docs/LINES.md",), r"^\| `(\w+)` \|", "\n## 4. All commands\n", "\n## "),
    "its refusals in LINES": Place(("docs/LINES.md",), r"^\| ([`a-z, ]+) \|", "\nThe order of tests.", "\n## "),
    "a worked row": Place(("crates/street_base/proofs/rows/*.antt",), r"\b([A-Z]\w+)\b"),
    "random sessions": Place(("check/making.py",), r'"(\w+)"'),
    "the tools' client": Place(("tools/streetsim/base/client.py",), r'(?:self\.ask\(|"cmd":)"(\w+)"'),
}


def lacking(read: Reader, commands: Iterable[str] = tuple(WORDS)) -> list[str]:
    """A line for each place that lacks one of these commands."""
    return [
        f"{place}, in {' or '.join(at.files)}: no {', no '.join(names)}"
        for place, at in PLACES.items() if (names := at.lacks(read, commands))
    ]


def replies_of_changes(read: Reader) -> tuple[set[str], set[str], set[str]]:
    """The replies that tell of a change: by LINES of the commands that do something, and where a kept session asks."""
    rows = re.findall(r"^\| `(\w+)` \|.*\| (\w+) \| [\d.]+ \|$", read(TOP / "docs/LINES.md"), re.MULTILINE)
    does = {WORDS[name] for name in PLACES["what it does"].some}
    code = read(TOP / "crates/street_line/src/kept.rt").partition("fn is_change")[2].partition("true")[0]
    kept = read(TOP / "crates/street_line/specs/Kept.antt")
    defined = re.findall(r"^is_change \((\w+).* = true$", kept, re.MULTILINE)
    return {reply for word, reply in rows if word in does}, set(re.findall(r"Reply::(\w+)", code)), set(defined)


def without_memory(read: Reader) -> tuple[set[str], set[str]]:
    """The commands of which may be starved is said apart: by the definitions, and by the program of the gate."""
    outcomes = read(TOP / "crates/street_base/specs/Outcomes.antt")
    defined = re.findall(r"^MayStarve m \(?([A-Z]\w+)", outcomes, re.MULTILINE)
    code = read(TOP / "crates/street_memory/src/calls.rt").partition("fn may_starve")[2].partition("\n}\n")[0]
    return {ALIASES.get(name, name) for name in defined}, set(re.findall(ARM, code))


def main() -> int:
    for place, at in PLACES.items():
        there = at.commands(read_text) & set(WORDS)
        print(f"{place:32} {len(there):2} commands  {', '.join(at.files)}")
    told = lacking(read_text)
    print("\n".join(told) or "nothing is lacking")
    return 1 if told else 0


if __name__ == "__main__":
    sys.exit(main())
