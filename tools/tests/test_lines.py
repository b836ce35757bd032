"""docs/LINES.md and examples/ stand where a reader looks; the gate serves the copies below crates/street_examples/data.

The gate's LINES.md has the sessions alone: the titles of chapters, the blocks `session`, and the rows of a line and its
reply. `python3 tools/tests/test_lines.py --copy` makes the copies anew.
"""
import filecmp
import re
import shutil
import sys
import unittest
from pathlib import Path

TOP = Path(__file__).resolve().parents[2]
DATA = TOP / "crates/street_examples/data"
# A row of two objects, as the gate's program reads it.
ROW = re.compile(r"\| `\{.*` \| `.*` \|")


def sessions_of(text):
    """The parts of a document that the gate serves."""
    kept, is_in_block = ["The sessions of docs/LINES.md.", ""], False
    for line in text.splitlines():
        begins, ends = line == "```session", is_in_block and line == "```"
        is_in_block = begins or is_in_block
        if is_in_block or line.startswith("## ") or ROW.fullmatch(line):
            kept.append(line)
        if ends or line.startswith("## "):
            kept.append("")
        is_in_block = is_in_block and not ends
    return "\n".join(kept).rstrip("\n") + "\n"


def copies():
    """Each example, and its copy for the gate."""
    return {path: DATA / "examples" / path.name for path in sorted((TOP / "examples").glob("*.*"))}


class Copies(unittest.TestCase):
    def test_the_gate_serves_the_sessions_of_lines(self):
        wanted = sessions_of((TOP / "docs/LINES.md").read_text())
        self.assertGreater(wanted.count("\n> "), 60)
        self.assertEqual((DATA / "LINES.md").read_text(), wanted)

    def test_the_gate_serves_the_examples(self):
        self.assertEqual({path.name for path in copies()}, {path.name for path in (DATA / "examples").iterdir()})
        for path, copy in copies().items():
            self.assertTrue(filecmp.cmp(path, copy, shallow=False), path.name)


def main():
    if sys.argv[1:] != ["--copy"]:
        return unittest.main()
    (DATA / "LINES.md").write_text(sessions_of((TOP / "docs/LINES.md").read_text()))
    for path, copy in copies().items():
        shutil.copyfile(path, copy)


if __name__ == "__main__":
    main()
